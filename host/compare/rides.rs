//! The customer's sum, kept beside a ledger from what it answers: the rides of all accepted sales equal accepted boardings plus rides left.

use crate::tables::*;
use std::collections::BTreeMap;

/// The rides of accepted sales and the accepted boardings, by pass.
pub struct Rides {
    pub sold: BTreeMap<u32, u64>,
    pub boarded: BTreeMap<u32, u64>,
}

impl Rides {
    /// What a ledger has left at the beginning counts as sold.
    pub fn left_in(table: &LedgerTable) -> Self {
        let left = table.in_use().into_iter().map(|pass| (pass.number, pass.rides_left as u64));
        Rides { sold: left.collect(), boarded: BTreeMap::new() }
    }

    pub fn enter(&mut self, value: &[u8], answer: u32) {
        let (rides, counted) = match answer {
            SOLD => (value[1] as u64, &mut self.sold),
            BOARDED => (1, &mut self.boarded),
            _ => return,
        };
        let pass = u32::from_be_bytes([value[2], value[3], value[4], value[5]]);
        *counted.entry(pass).or_insert(0) += rides;
    }

    /// Whether the sum is right for each pass, and so for all together: a ride taken from another pupil's pass would keep the latter alone.
    pub fn add_up(&self, table: &LedgerTable) -> bool {
        let mut boarded_or_left = self.boarded.clone();
        for pass in table.in_use() {
            *boarded_or_left.entry(pass.number).or_insert(0) += pass.rides_left as u64;
        }
        self.sold == boarded_or_left
    }
}
