//! A member's facts of a month, and the seven kinds of units that they make.

const MOST: u32 = 100_000_000;

#[derive(Clone, Copy, Default)]
pub struct Facts {
    pub transmission: u32,
    pub wheel_through: u32,
    pub generation: u32,
    pub virtual_mwh: u32,
    pub ftr: u32,
    pub obligation_bids: u32,
    pub option_bids: u32,
    pub segments: u32,
    pub capacity_obligation: u32,
    pub capacity_resource: u32,
    pub invoices: u32,
}

impl Facts {
    pub fn lawful(&self) -> bool {
        self.transmission <= MOST
            && self.wheel_through <= self.transmission
            && self.generation <= MOST
            && self.virtual_mwh <= MOST
            && self.ftr <= MOST
            && self.obligation_bids <= MOST
            && self.option_bids <= MOST
            && self.segments <= MOST
            && self.capacity_obligation <= MOST
            && self.capacity_resource <= MOST
            && self.invoices <= MOST
    }

    pub fn units(&self) -> Option<[u32; 7]> {
        self.lawful().then(|| {
            [
                self.transmission,
                self.ftr,
                self.obligation_bids + 5 * self.option_bids,
                self.transmission - self.wheel_through + self.generation + self.virtual_mwh,
                self.segments,
                self.capacity_obligation + self.capacity_resource,
                self.invoices,
            ]
        })
    }
}
