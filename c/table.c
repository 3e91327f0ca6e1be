/* Prints a table of calls; c/run compares it with c/expected. */
#include "bulliongnat.h"

#include <inttypes.h>
#include <stdio.h>
#include <string.h>

static const char MONTH[] =
    "month=24277\nrule=posted\ndivision=336,60,250,41,243,70\nmanagement=400,100,400,100\n"
    "split=600,987\ncost=100000,0,0,0,0,0\ncontrol=100000\nusers=1\n"
    "user=501,300,100,0,0,0,0,0,0,30,0,4\n";

static void rate(int64_t estimate, int64_t paid, int64_t recovered, uint64_t volume) {
    bulliongnat_rate r = bulliongnat_ferc_rate(estimate, paid, recovered, volume);
    printf("rate %" PRId64 " %" PRId64 " %" PRId64 " %" PRIu64 ": %" PRId64 ", refusal %" PRIu32 "\n",
           estimate, paid, recovered, volume, r.rate, r.number);
}

static void text(const char *name, const char *bytes, size_t length) {
    bulliongnat_text r = bulliongnat_test_month((const uint8_t *)bytes, length);
    printf("text %s: refusal %" PRIu32 ", line %" PRIu32 "\n", name, r.number, r.line);
}

static void changed(const char *name, const char *from, const char *to) {
    char copy[512];
    const char *at = strstr(MONTH, from);
    size_t front = (size_t)(at - MONTH);
    int n = snprintf(copy, sizeof copy, "%.*s%s%s", (int)front, MONTH, to, at + strlen(from));
    text(name, copy, (size_t)n);
}

int main(void) {
    static char longest[16385];
    rate(9000000, 8800000, 8900000, 1000000);
    rate(-9000000, 0, 0, 1000000);
    rate(0, 0, 0, 0);
    rate(1, 1, 1, UINT64_C(20000000001));
    rate(INT64_MIN, 0, 0, 1);
    rate(INT64_C(40000000001), 0, 0, 1);
    rate(10000, 0, 0, 1);
    rate(10001, 0, 0, 1);
    rate(-10001, 0, 0, 1);
    text("month", MONTH, sizeof MONTH - 1);
    text("without its last byte", MONTH, sizeof MONTH - 2);
    text("empty", MONTH, 0);
    memset(longest, 'x', sizeof longest);
    text("too long", longest, sizeof longest);
    changed("of another rule", "rule=posted", "rule=other");
    changed("of the month before", "month=24277", "month=24276");
    changed("with weights of 1001", "division=336", "division=337");
    changed("with -0", "cost=100000", "cost=-0");
    changed("with 33 members", "users=1", "users=33");
    changed("with wheel-through above transmission", "501,300,100", "501,300,301");
    return 0;
}
