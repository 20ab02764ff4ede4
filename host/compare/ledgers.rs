//! A ledger beside each learner of a run, fed only by the learner's delivered list: of two, one is the other's beginning.

use crate::calls;
use crate::random::Random;
use crate::rides::Rides;
use crate::tables::*;

/// Values to be asked for in the order of a day, so that lists have boardings behind their sales. Two sales differ in the high half alone, and two boardings in
/// the low half alone.
const DAY: [u128; 8] = [
    0x0101_0000_0007_012c_0000_0000_0000_0000,
    0x0102_0000_0007_012c_0000_0000_0000_0000,
    0x0200_0000_0007_012c_0000_0001_0000_0000,
    0x0200_0000_0007_012c_0000_0002_0000_0000,
    0x0200_0000_0007_012d_0000_0002_0000_0000,
    0x0128_0000_0008_0000_0000_0000_0000_0000,
    0x0200_0000_0008_0000_0000_0001_0000_0000,
    0x0200_0000_0008_0000_ffff_ffff_0000_0000,
];

/// One of four that follow an hour of the day, which is at most 4; seldom the other value.
pub fn any_entry(random: &mut Random, hour: usize, other: u128) -> u128 {
    match random.below(9) {
        8 => other,
        chosen => DAY[hour + chosen / 2],
    }
}

/// What entries of a run may get: its lists are too short to fill a ledger, and from the fresh one none is unsound.
pub const ANSWERS: [(u32, &str); 9] = [
    (SOLD, "sold"),
    (BOARDED, "boarded"),
    (SKIPPED, "skipped"),
    (31, "refused by 31"),
    (32, "refused by 32"),
    (34, "refused by 34"),
    (35, "refused by 35"),
    (36, "refused by 36"),
    (37, "refused by 37"),
];

pub struct Ledger {
    table: LedgerTable,
    /// What the columns held at the beginning.
    filling: u8,
    rides: Rides,
    pub answers: Vec<u32>,
    /// The passes in use after each entry.
    moments: Vec<Vec<Pass>>,
}

impl Ledger {
    pub fn fresh(filling: u8) -> Self {
        let table = LedgerTable::fresh(filling);
        Ledger { rides: Rides::left_in(&table), table, filling, answers: Vec::new(), moments: Vec::new() }
    }

    /// Enters what the list has beyond the entries that were read.
    pub fn read_on(&mut self, list: &[u128]) -> Result<(), String> {
        let read = self.answers.len();
        let more = list.get(read..).ok_or_else(|| format!("{} entries were read, and the list is {:x?}", read, list))?;
        more.iter().try_for_each(|value| self.enter(&mut value.to_be_bytes()))
    }

    fn enter(&mut self, value: &mut [u8]) -> Result<(), String> {
        let answer = calls::ledger_enter(value, &mut self.table);
        self.rides.enter(value, answer);
        let known = ANSWERS.iter().any(|(number, _)| *number == answer);
        if !known || !self.rides.add_up(&self.table) || !self.untouched_past_count() {
            return Err(format!("entry {:02x?} got {}, and the ledger is {:x?}", value, answer, self.table));
        }
        self.answers.push(answer);
        self.moments.push(self.table.in_use());
        Ok(())
    }

    fn untouched_past_count(&self) -> bool {
        let before = LedgerTable::fresh(self.filling);
        let past = self.table.count as usize..;
        self.table.passes[past.clone()] == before.passes[past.clone()]
            && self.table.rides_left[past.clone()] == before.rides_left[past.clone()]
            && self.table.last_days[past.clone()] == before.last_days[past.clone()]
            && self.table.last_scans[past.clone()] == before.last_scans[past]
    }

    /// After as many entries both had the same answers and the same passes; and what one has sold and spent is spent in whichever has read as far.
    pub fn check_beside(&self, other: &Ledger) -> Result<(), String> {
        let (shorter, longer) = if self.answers.len() <= other.answers.len() { (self, other) } else { (other, self) };
        let read = shorter.answers.len();
        let spent = |ledger: &Ledger| ledger.table.in_use().into_iter().filter(|pass| pass.rides_left == 0).collect::<Vec<Pass>>();
        let known_spent = spent(longer);
        let stays_spent = spent(shorter).iter().all(|pass| known_spent.iter().any(|other| other.number == pass.number));
        if shorter.answers == longer.answers[..read] && shorter.moments == longer.moments[..read] && stays_spent {
            Ok(())
        } else {
            Err(format!("ledgers part: {:?} {:x?} and {:?} {:x?}", self.answers, self.moments, other.answers, other.moments))
        }
    }
}
