//! The ride ledger in plain Rust. Written from the words of its change request and from the layout of the lent table, not from the proved code.

use crate::model::{number, Answer};
use crate::tables::*;

pub const SALE: u8 = 1;
pub const BOARDING: u8 = 2;
pub const MOST_RIDES: u8 = 40;

/// What a value of 16 bytes says.
pub struct Entry {
    pub kind: u8,
    pub rides: u8,
    pub pass: u32,
    pub day: u16,
    pub scan: u32,
    pub rest: u32,
}

/// The value has 16 bytes.
pub fn entry_in(value: &[u8]) -> Entry {
    Entry {
        kind: value[0],
        rides: value[1],
        pass: number(&value[2..6]) as u32,
        day: number(&value[6..8]) as u16,
        scan: number(&value[8..12]) as u32,
        rest: number(&value[12..16]) as u32,
    }
}

pub fn value_with(entry: &Entry) -> Vec<u8> {
    let Entry { kind, rides, pass, day, scan, rest } = *entry;
    [&[kind, rides][..], &pass.to_be_bytes(), &day.to_be_bytes(), &scan.to_be_bytes(), &rest.to_be_bytes()].concat()
}

/// The reasons of refusal 31 but the length.
#[rustfmt::skip]
pub fn entry_faults(entry: &Entry) -> [bool; 5] {
    let (sale, boarding) = (entry.kind == SALE, entry.kind == BOARDING);
    [
        !sale && !boarding,
        sale && (entry.rides < 1 || entry.rides > MOST_RIDES),
        sale && entry.scan != 0,
        boarding && entry.rides != 0,
        entry.rest != 0,
    ]
}

/// The reasons of refusal 30: each column not of its size, too many in use, and of those in use a pass twice or rides left above 40.
#[rustfmt::skip]
pub fn table_faults(table: &LedgerTable) -> [bool; 7] {
    let count = table.count as usize;
    let in_use: Vec<u32> = table.passes.iter().take(count).copied().collect();
    let mut different = in_use.clone();
    different.sort();
    different.dedup();
    [
        table.passes.len() != PASSES,
        table.rides_left.len() != PASSES,
        table.last_days.len() != PASSES,
        table.last_scans.len() != PASSES,
        count > PASSES,
        different.len() < in_use.len(),
        table.rides_left.iter().take(count).any(|rides| *rides > MOST_RIDES),
    ]
}

fn write(passes: &[Pass], table: &mut LedgerTable) {
    for (place, pass) in passes.iter().enumerate() {
        table.passes[place] = pass.number;
        table.rides_left[place] = pass.rides_left;
        table.last_days[place] = pass.last_day;
        table.last_scans[place] = pass.last_scan;
    }
    table.count = passes.len() as u32;
}

fn sell(entry: &Entry, passes: &mut Vec<Pass>) -> Answer {
    if passes.iter().any(|pass| pass.number == entry.pass) {
        return Err(32);
    }
    if passes.len() == PASSES {
        return Err(33);
    }
    passes.push(Pass { number: entry.pass, rides_left: entry.rides, last_day: entry.day, last_scan: 0 });
    Ok(SOLD)
}

fn board(entry: &Entry, passes: &mut [Pass]) -> Answer {
    let pass = passes.iter_mut().find(|pass| pass.number == entry.pass).ok_or(34u32)?;
    if entry.day > pass.last_day {
        return Err(35);
    }
    if entry.scan <= pass.last_scan {
        return Err(36);
    }
    if pass.rides_left == 0 {
        return Err(37);
    }
    pass.rides_left -= 1;
    pass.last_scan = entry.scan;
    Ok(BOARDED)
}

pub fn ledger_enter(value: &[u8], table: &mut LedgerTable) -> Answer {
    if table_faults(table) != [false; 7] {
        return Err(30);
    }
    if value == [0; 16] {
        return Ok(SKIPPED);
    }
    if value.len() != 16 || entry_faults(&entry_in(value)) != [false; 5] {
        return Err(31);
    }
    let entry = entry_in(value);
    let mut passes = table.in_use();
    let answer = if entry.kind == SALE { sell(&entry, &mut passes)? } else { board(&entry, &mut passes)? };
    write(&passes, table);
    Ok(answer)
}
