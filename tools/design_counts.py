#!/usr/bin/env python3
"""Places where the code may read like an older Rattle, by point; run at the top of the repository.

    python3 tools/design_counts.py [POINT..]

Each place is printed as file:line and what stands there, then a count. docs/DESIGN-PASS.md says what
was made of each. It goes by text: some places that it finds are as they should be."""
import collections
import difflib
import glob
import re
import sys

FILES = sorted(glob.glob('crates/*/src/**/*.rt', recursive=True))


def code(path):
    """The file's lines without comments."""
    return [re.sub(r'//.*', '', line.rstrip('\n')) for line in open(path)]


def functions():
    """(file, line, name, header, clauses, body) of each function that has a body or a contract."""
    for path in FILES:
        lines = code(path)
        at = 0
        while at < len(lines):
            found = re.match(r'\s*(pub(\(crate\))? )?(extern "C" )?fn (\w+)', lines[at])
            if not found:
                at += 1
                continue
            start = at
            indent = re.match(r'\s*', lines[at]).group()
            text = []
            while at < len(lines):
                text.append(lines[at])
                line = lines[at]
                at += 1
                if line == indent + '}' or re.match(r'.*[};]\s*$', line) and len(text) == 1:
                    break
                if line.endswith(';') and not any(t.rstrip().endswith('{') for t in text):
                    break
            clauses = [t.strip() for t in text if re.match(r'\s*(requires|ensures)\b', t)]
            rest = [t for t in text if not re.match(r'\s*(requires|ensures)\b', t)]
            split = next((i for i, t in enumerate(rest) if t.rstrip() == indent + '{' or t.rstrip().endswith(' {')), len(rest))
            header = ' '.join(t.strip() for t in rest[:split + 1])
            yield path, start + 1, found.group(4), header, clauses, rest[split + 1:]


def point1():
    for path in FILES:
        for number, line in enumerate(code(path), 1):
            if re.match(r'\s*(pub(\(crate\))? )?enum ', line):
                yield path, number, line.strip()
            if re.match(r'\s*(pub(\(crate\))? )?\w+: bool,', line):
                yield path, number, 'a flag: ' + line.strip()
    for path in FILES:
        for found in re.finditer(r'struct (\w+)[^{;]*\{([^}]*)\}', '\n'.join(code(path))):
            for field in re.findall(r'(?:kind|component|number|layer): (?:u\d+|usize)', found.group(2)):
                yield path, '\n'.join(code(path))[:found.start()].count('\n') + 1, f'{found.group(1)}: a number: {field}'
    for path, number, name, header, _, _ in functions():
        for field in re.findall(r'(?:kind|component|number|layer): (?:u\d+|usize)', header):
            yield path, number, f'{name}: a number: {field}'
        if '&mut self' in header and '-> bool' in header:
            yield path, number, f'{name} answers by a flag'


def point2():
    shapes = []
    for path, number, name, header, _, body in functions():
        words = re.findall(r'\w+|[^\w\s]', ' '.join(body))
        shape = [w if re.match(r'\W|for|if|let|match|return|Some|None|Ok|Err|self', w) else '_' for w in words]
        if len(shape) > 24:
            shapes.append((path, number, name, shape))
    seen = set()
    for i, one in enumerate(shapes):
        for other in shapes[i + 1:]:
            if min(len(one[3]), len(other[3])) < 0.7 * max(len(one[3]), len(other[3])):
                continue
            ratio = difflib.SequenceMatcher(None, one[3], other[3], autojunk=False).ratio()
            if ratio > 0.9 and (one[:3], other[:3]) not in seen:
                seen.add((one[:3], other[:3]))
                yield one[0], one[1], f'{one[2]} ~ {other[0]}:{other[1]} {other[2]}'


def point3():
    for path in FILES:
        lines = code(path)
        for number, line in enumerate(lines, 1):
            found = re.match(r'\s*for (\w+) in .*\.\.', line)
            if found and found.group(1) != '_':
                yield path, number, line.strip()
            if re.match(r'\s*(while|loop)\b', line) or re.search(r'\b\w+ \+= 1;', line):
                yield path, number, line.strip()


def point4():
    for path, number, name, header, _, body in functions():
        text = ' '.join(body)
        arms = len(re.findall(r'=> -?[\d_]+,', text))
        if arms > 2:
            yield path, number, f'{name}: {arms} arms to numbers'
        if re.match(r'(same_|is_for|eq$|cmp$|of$|from_|to_|clone$)', name):
            yield path, number, f'{name}: equality or conversion by hand'
        if '-> Result<String' in header and 'format!' in text:
            yield path, number, f'{name}: printing by hand'
        if re.search(r'(\w+)\.(\w+) == (\w+)\.\2', text):
            yield path, number, f'{name}: fields compared one by one'


def point5():
    facts = collections.defaultdict(list)
    groups = collections.defaultdict(set)
    for path, number, name, header, clauses, _ in functions():
        for clause in clauses:
            fact = re.sub(r'^(requires|ensures)( \w+)? ', '', clause)
            if clause.startswith('requires'):
                facts[fact].append((path, number, name))
        names = [n for n, t in re.findall(r'(\w+): ([^,()]+)', header) if n not in ('rt', 'heap')]
        for i in range(len(names) - 2):
            groups[tuple(names[i:i + 3])].add((path, number, name))
    for fact, where in sorted(facts.items()):
        if len(where) > 2:
            yield where[0][0], where[0][1], f'{fact} in {len(where)} functions: ' + ', '.join(w[2] for w in where)
    for names, where in sorted(groups.items()):
        if len(where) > 2:
            first = sorted(where)[0]
            yield first[0], first[1], f'({", ".join(names)}) in {len(where)} functions: ' + ', '.join(sorted(w[2] for w in where))


def point6():
    for path in FILES:
        lines = code(path)
        for number, line in enumerate(lines, 1):
            if re.match(r'\s*(pub(\(crate\))? )?(used|len|count): (u\d+|usize),', line):
                yield path, number, 'a length: ' + line.strip()
            if re.match(r'\s*let mut \w+ = \[.*; .*\];', line):
                yield path, number, line.strip()
        for found in re.finditer(r'struct \w+[^{;]*\{([^}]*)\}', '\n'.join(lines)):
            if len(re.findall(r': Vec<', found.group(1))) > 1:
                yield path, '\n'.join(lines)[:found.start()].count('\n') + 1, 'vectors side by side'


def point7():
    for path in FILES:
        for number, line in enumerate(code(path), 1):
            if re.search(r'\bfn\(|\bdyn\b', line) or re.search(r'match .*(step|rule|mode|action)\b.*\{', line):
                yield path, number, line.strip()


def point8():
    for path in sorted(glob.glob('crates/*/proofs/**/Answers.antt', recursive=True)):
        for number, line in enumerate(open(path), 1):
            if re.match(r'pub \S+ : goal\.', line):
                yield path, number, line.strip()


POINTS = {'1': point1, '2': point2, '3': point3, '4': point4, '5': point5, '6': point6, '7': point7, '8': point8}

for point in sys.argv[1:] or sorted(POINTS):
    places = list(POINTS[point]())
    for path, number, what in places:
        if point != '8':
            print(f'{point}: {path}:{number}: {what}')
    print(f'{point}: {len(places)} places')
