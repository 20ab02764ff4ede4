//! The ledger's inputs in rows, so that each comes up whatever chance does.

use crate::ledger::*;
use crate::tables::*;
use crate::{both, ledger_cases, Comparison};

const DAY: u16 = 300;
const SCAN: u32 = 5;

fn sale(pass: u32) -> Vec<u8> {
    value_with(&Entry { kind: SALE, rides: 2, pass, day: DAY, scan: 0, rest: 0 })
}

fn boarding(pass: u32, day: u16, scan: u32) -> Vec<u8> {
    value_with(&Entry { kind: BOARDING, rides: 0, pass, day, scan, rest: 0 })
}

/// So many passes in use, numbered from 0 by their place, and columns of which no other place would be taken.
fn ledger(count: u32) -> LedgerTable {
    let mut table = LedgerTable::fresh(0xff);
    for place in 0..count as usize {
        table.passes[place] = place as u32;
        table.rides_left[place] = 2;
        table.last_days[place] = DAY;
        table.last_scans[place] = SCAN;
    }
    table.count = count;
    table
}

pub fn ledger_enter(comparison: &mut Comparison) {
    lists(comparison);
    entries(comparison);
    boardings(comparison);
    sizes(comparison);
    places(comparison);
}

/// The list, and a ledger that is filled up, with a known pass and one that there is no room for at the end.
fn lists(comparison: &mut Comparison) {
    let mut table = LedgerTable::fresh(0xff);
    for value in ledger_cases::values() {
        table = both::ledger_enter(comparison, (value, table)).1;
    }
    table = LedgerTable::fresh(0);
    for pass in (0..=256).rev().chain([1, 0]) {
        table = both::ledger_enter(comparison, (sale(pass), table)).1;
    }
}

/// Null, a sale and a boarding that would be taken, of every length and with each bit flipped, and then with every kind and every number of rides.
fn entries(comparison: &mut Comparison) {
    let mut values = Vec::new();
    for good in [vec![0; 16], sale(7), boarding(0, DAY, SCAN + 1)] {
        values.extend((0..=32).map(|length| [&good[..], &[0; 16]].concat()[..length].to_vec()));
        for bit in 0..128 {
            let mut value = good.clone();
            value[bit / 8] ^= 1 << (bit % 8);
            values.push(value);
        }
        for at in [0, 1] {
            for byte in 0..=255 {
                let mut value = good.clone();
                value[at] = byte;
                values.push(value);
            }
        }
    }
    for value in values {
        both::ledger_enter(comparison, (value, ledger(1)));
    }
}

/// Days and scans around the last, with and without a ride left, and at the ends of their ranges.
fn boardings(comparison: &mut Comparison) {
    for (last_day, last_scan) in [(DAY, SCAN), (0, 0), (u16::MAX, NONE - 1), (u16::MAX, NONE)] {
        for day in [0, 1, DAY - 1, DAY, DAY + 1, u16::MAX - 1, u16::MAX] {
            for scan in [0, 1, SCAN - 1, SCAN, SCAN + 1, SCAN << 8, NONE - 1, NONE] {
                for rides_left in [0, 1] {
                    let mut table = ledger(3);
                    (table.rides_left[1], table.last_days[1], table.last_scans[1]) = (rides_left, last_day, last_scan);
                    both::ledger_enter(comparison, (boarding(1, day, scan), table));
                }
            }
        }
    }
}

/// Each entry of the four sorts, so that one judged before the table would be seen.
fn on_each_sort(comparison: &mut Comparison, table: &LedgerTable) {
    for value in [vec![0; 16], vec![0xff; 16], sale(NONE), boarding(0, DAY, SCAN + 1)] {
        both::ledger_enter(comparison, (value, table.clone()));
    }
}

/// Columns too short or too long, one by itself and all four, and counts that are too high.
fn sizes(comparison: &mut Comparison) {
    for length in [0, 1, PASSES - 1, PASSES, PASSES + 1, 2 * PASSES] {
        for columns in 1..16 {
            let mut table = ledger(1);
            let length_of = |column: usize| if columns >> column & 1 == 1 { length } else { PASSES };
            table.passes.resize(length_of(0), NONE);
            table.rides_left.resize(length_of(1), 0);
            table.last_days.resize(length_of(2), 0);
            table.last_scans.resize(length_of(3), 0);
            on_each_sort(comparison, &table);
        }
    }
    for count in [255, 256, 257, 258, 512, 65_536, 65_537, 1 << 31, NONE] {
        on_each_sort(comparison, &LedgerTable { count, ..ledger(256) });
    }
}

/// Every number of rides left; then each place of a full ledger with too many, and each as either of two that have the same pass. What is refused at the last
/// place in use is not looked at where the count ends before it.
fn places(comparison: &mut Comparison) {
    for rides_left in 0..=255 {
        let mut table = ledger(1);
        table.rides_left[0] = rides_left;
        both::ledger_enter(comparison, (boarding(0, DAY, SCAN + 1), table));
    }
    for place in 0..PASSES {
        let mut table = ledger(256);
        table.rides_left[place] = MOST_RIDES + 1;
        refused_up_to(comparison, table, place, &[(both::TOO_MANY_LEFT, place)]);
    }
    let pairs = (1..PASSES).flat_map(|place| [(0, place), (place - 1, place), (place - 1, PASSES - 1)]);
    for (first, second) in pairs {
        let mut table = ledger(256);
        table.passes[second] = table.passes[first];
        refused_up_to(comparison, table, second, &[(both::TWICE, first), (both::TWICE, second)]);
    }
}

fn refused_up_to(comparison: &mut Comparison, mut table: LedgerTable, place: usize, kinds: &[(&'static str, usize)]) {
    for count in [place, place + 1, PASSES] {
        table.count = count as u32;
        if both::ledger_enter(comparison, (sale(NONE), table.clone())).0 == 30 {
            kinds.iter().for_each(|(kind, number)| comparison.saw(kind, *number as u32));
        }
    }
}
