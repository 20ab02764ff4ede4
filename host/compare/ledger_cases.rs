//! The list of the ledger's issue, entry after entry from the fresh table: what the model is held to before the library is held to it.

use crate::frame_cases::bytes;
use crate::ledger::ledger_enter;
use crate::model::Answer;
use crate::rides::Rides;
use crate::tables::*;

#[rustfmt::skip]
const LIST: [(&str, Answer); 22] = [
    ("0101000003e9012c0000000000000000", Ok(SOLD)),
    ("0200000003e9012c0000000100000000", Ok(BOARDED)),
    ("0200000003e9012c0000000100000000", Err(36)),
    ("0200000003e9012c0000000200000000", Err(37)),
    ("0200000003e9012d0000000100000000", Err(35)),
    ("00000000000000000000000000000000", Ok(SKIPPED)),
    ("0128000003e901900000000000000000", Err(32)),
    ("0200000003ea00010000000100000000", Err(34)),
    ("0129000003ea012c0000000000000000", Err(31)),
    ("0100000003ea012c0000000000000000", Err(31)),
    ("0128000003ea012c0000000100000000", Err(31)),
    ("0128000003ea012c0000000000000000", Ok(SOLD)),
    ("0200000003ea00000000000000000000", Err(36)),
    ("0201000003ea00000000000100000000", Err(31)),
    ("0200000003ea00000000000100000001", Err(31)),
    ("0300000003ea00000000000500000000", Err(31)),
    ("00000000000000000000000000000001", Err(31)),
    ("0200000003ea0000ffffffff00000000", Ok(BOARDED)),
    ("0200000003ea0000ffffffff00000000", Err(36)),
    ("0102ffffffffffff0000000000000000", Ok(SOLD)),
    ("0200ffffffffffff0000000700000000", Ok(BOARDED)),
    ("01030000000000000000000000000000", Ok(SOLD)),
];

#[rustfmt::skip]
const PASSES_AT_THE_END: [Pass; 4] = [
    Pass { number: 1001, rides_left: 0, last_day: 300, last_scan: 1 },
    Pass { number: 1002, rides_left: 39, last_day: 300, last_scan: 4_294_967_295 },
    Pass { number: 4_294_967_295, rides_left: 1, last_day: 65_535, last_scan: 7 },
    Pass { number: 0, rides_left: 3, last_day: 0, last_scan: 0 },
];

pub fn values() -> impl Iterator<Item = Vec<u8>> {
    LIST.iter().map(|(digits, _)| bytes(&[digits]))
}

/// Each case, and whether the model gives it.
pub fn of_the_model() -> Vec<(&'static str, bool)> {
    let mut table = LedgerTable::fresh(0xff);
    let mut rides = Rides::left_in(&table);
    let mut cases = Vec::new();
    for (value, (digits, expected)) in values().zip(LIST) {
        let answer = ledger_enter(&value, &mut table);
        rides.enter(&value, answer.unwrap_or_else(|refusal| refusal));
        cases.push((digits, answer == expected));
    }
    cases.push(("the passes at the end", table.in_use() == PASSES_AT_THE_END));
    let (sold, boarded): (u64, u64) = (rides.sold.values().sum(), rides.boarded.values().sum());
    cases.push(("46 rides sold, 3 boarded and 43 left", (sold, boarded) == (46, 3) && rides.add_up(&table)));
    cases
}
