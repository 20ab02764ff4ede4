//! Entries and ledgers by chance, chosen so that every answer comes up: those of a scene share a few passes, and their days and scans lie near each other.

use crate::inputs::Inputs;
use crate::ledger::*;
use crate::tables::*;

/// What the entries and the ledger of a scene share.
pub struct Riders {
    passes: [u32; 6],
    day: u16,
    scan: u32,
}

impl Inputs {
    /// The passes differ in one bit, or have the same bytes in another order.
    pub fn riders(&mut self) -> Riders {
        let pass = self.random.number() as u32;
        let passes = [0, NONE, pass, pass ^ 1 << self.random.below(32), pass.swap_bytes(), pass.rotate_left(16)];
        let (any_day, any_scan) = (self.random.number() as u16, self.random.number() as u32);
        let day = self.random.pick(&[1, 255, 300, 65_534, any_day]);
        let scan = self.random.pick(&[1, 255, 65_535, NONE - 1, any_scan]);
        Riders { passes, day, scan }
    }

    fn near_day(&mut self, day: u16) -> u16 {
        let near = day.saturating_add(self.random.below(4) as u16).saturating_sub(2);
        self.random.pick(&[day, near, near, near, day.swap_bytes()])
    }

    /// Mostly above, as a reader counts on.
    fn near_scan(&mut self, scan: u32) -> u32 {
        let above = scan.saturating_add(1 + self.random.below(3) as u32);
        self.random.pick(&[scan, scan.saturating_sub(1), above, above, above, above, scan.swap_bytes()])
    }

    // Entries

    fn rides(&mut self) -> u8 {
        let any = 1 + self.random.below(MOST_RIDES as usize) as u8;
        self.random.pick(&[1, 1, 1, 2, 2, MOST_RIDES, any])
    }

    fn sale(&mut self, riders: &Riders) -> Entry {
        let pass = if self.random.chance(75) { self.random.pick(&riders.passes) } else { self.random.number() as u32 };
        Entry { kind: SALE, rides: self.rides(), pass, day: self.near_day(riders.day), scan: 0, rest: 0 }
    }

    /// Mostly of a pass that is in use.
    fn boarding(&mut self, riders: &Riders, table: &LedgerTable) -> Entry {
        let (pass, day, scan) = if table.count > 0 && self.random.chance(80) {
            let place = self.random.below(table.count as usize);
            (table.passes[place], table.last_days[place], table.last_scans[place])
        } else {
            (self.random.pick(&riders.passes), riders.day, riders.scan)
        };
        Entry { kind: BOARDING, rides: 0, pass, day: self.near_day(day), scan: self.near_scan(scan), rest: 0 }
    }

    /// A value for a sound ledger: a sale, a boarding or null, now and then damaged.
    pub fn entry(&mut self, riders: &Riders, table: &LedgerTable) -> Vec<u8> {
        let mut value = match self.random.below(20) {
            0 => vec![0; 16],
            1..=6 => value_with(&self.sale(riders)),
            _ => value_with(&self.boarding(riders, table)),
        };
        if self.random.chance(15) {
            self.damage_entry(&mut value);
        }
        value
    }

    /// What most of these change would pass if only a part of it were judged.
    fn damage_entry(&mut self, value: &mut Vec<u8>) {
        match self.random.below(8) {
            0 => value.resize(self.wrong_length(16), 0),
            1 => value[0] = self.random.pick(&[0, 3, 4, 17, 18, 65, 66, 129, 130, 255]),
            2 | 3 => value[1] = self.random.pick(&[0, 1, 40, 41, 42, 65, 104, 129, 168, 255]),
            4 => value[8 + self.random.below(4)] = self.random.pick(&[0, 1, 128, 255]),
            5 => value[12 + self.random.below(4)] = self.random.pick(&[1, 128, 255]),
            6 => self.flip_bit(value),
            _ => *value = self.random.bytes(16),
        }
    }

    // Ledgers

    fn places_in_use(&mut self) -> usize {
        match self.random.below(20) {
            0..=11 => 0,
            12..=15 => 1 + self.random.below(6),
            16 | 17 => PASSES - self.random.below(4),
            _ => self.random.below(PASSES + 1),
        }
    }

    /// A pass that is not in use, one of the scene's where the first that comes up is not.
    fn another_pass(&mut self, riders: &Riders, in_use: &[u32]) -> u32 {
        let mut pass = self.random.pick(&riders.passes);
        while in_use.contains(&pass) {
            pass = self.random.number() as u32;
        }
        pass
    }

    /// A sound ledger, mostly fresh. Past the count anything stands, passes that are in use and too many rides left among it.
    pub fn ledger(&mut self, riders: &Riders) -> LedgerTable {
        let mut table = LedgerTable::fresh(0);
        let count = self.places_in_use();
        for place in 0..PASSES {
            let in_use = place < count;
            table.passes[place] = if in_use { self.another_pass(riders, &table.passes[..place]) } else { self.random.pick(&riders.passes) };
            table.rides_left[place] = if in_use { self.random.pick(&[0, 1, 2, MOST_RIDES]) } else { self.random.number() as u8 };
            table.last_days[place] = self.near_day(riders.day);
            table.last_scans[place] = if self.random.chance(50) { 0 } else { self.near_scan(riders.scan) };
        }
        table.count = count as u32;
        table
    }

    /// One of the reasons that refusal 30 is for. Those in use have to be two for a pass to stand there twice.
    pub fn spoil_ledger(&mut self, table: &mut LedgerTable) {
        let count = table.count as usize;
        match self.random.below(4) {
            0 => self.spoil_column(table),
            1 if count > 0 => table.rides_left[self.random.below(count)] = self.random.pick(&[41, 42, 64, 65, 128, 129, 168, 255]),
            2 if count > 1 => {
                let first = self.random.below(count - 1);
                let second = first + 1 + self.random.below(count - 1 - first);
                table.passes[second] = table.passes[first];
            }
            _ => table.count = self.random.pick(&[257, 258, 512, 65_536, 65_536 + table.count, 1 << 31, 1 << 31 | table.count, NONE]),
        }
    }

    fn spoil_column(&mut self, table: &mut LedgerTable) {
        let length = self.wrong_length(PASSES);
        match self.random.below(4) {
            0 => table.passes.resize(length, NONE),
            1 => table.rides_left.resize(length, 0),
            2 => table.last_days.resize(length, 0),
            _ => table.last_scans.resize(length, 0),
        }
    }
}
