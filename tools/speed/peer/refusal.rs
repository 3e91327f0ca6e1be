//! Which refusal, which layer's check failed, and where.

#[derive(Clone, Copy, PartialEq, Eq, Debug)]
pub enum Refusal {
    Layout = 1,
    Range = 2,
    Weights = 3,
    Count = 4,
    Month = 5,
    Kind = 6,
    Member = 7,
    Total = 8,
    Pool = 9,
    Resettled = 10,
    Length = 11,
    Head = 12,
    Control = 13,
    Booked = 14,
    Rate = 17,
    Year = 18,
}

#[derive(Clone, Copy, PartialEq, Eq, Debug)]
pub enum Layer {
    Text,
    Sheet,
    Voucher,
    Book,
    Ledger,
    Ferc,
}

#[derive(Clone, Copy, PartialEq, Eq, Debug)]
pub struct Fault {
    pub refusal: Refusal,
    pub layer: Layer,
    pub place: u32,
}

impl Layer {
    pub fn refuses(self, refusal: Refusal) -> Fault {
        self.refuses_at(refusal, 0)
    }

    pub fn refuses_at(self, refusal: Refusal, place: u32) -> Fault {
        Fault {
            refusal,
            layer: self,
            place,
        }
    }
}
