//! Inputs by chance, chosen so that every verdict and every refusal comes up: packets and tables of a scene share a few rounds and values.

use crate::model::*;
use crate::random::Random;
use crate::tables::*;

pub struct Inputs {
    pub random: Random,
    rounds: [u32; 4],
    values: [u128; 5],
}

/// The value whose top bit alone is set: null for whoever looks at the other bits.
pub const TOP_BIT: u128 = 1 << 127;

/// The round and the value of the cell that an input is for.
pub type Cell = (u32, u128);

/// How the cells of a scene's tables are made.
#[derive(Clone, Copy)]
enum Filling {
    Fresh,
    Possible,
    OneSpoiled(usize),
    ManySpoiled,
}

impl Inputs {
    pub fn new(seed: u64) -> Self {
        Inputs { random: Random::new(seed), rounds: [0; 4], values: [0; 5] }
    }

    /// Other rounds and values for the scene that begins.
    pub fn begin_scene(&mut self) -> Settings {
        for index in 0..4 {
            // the mark is not lawful, so each is drawn anew
            self.rounds[index] = NONE;
            while !owned_or_0(self.rounds[index]) {
                self.rounds[index] = self.any_round();
            }
        }
        let high = if self.random.chance(50) { 0 } else { self.random.number() };
        let value = (high as u128) << 64 | self.random.number() as u128;
        // values that differ in one half only, by one bit
        self.values = [0, TOP_BIT, value, value ^ 1 << 64, value ^ 1 << self.random.below(64)];
        let instances = match self.random.below(40) {
            0 => self.random.pick(&[1023, 1024]),
            1 => 1 + self.random.below(1024),
            2..=9 => 1,
            _ => 1 + self.random.below(8),
        };
        Settings { acceptors: self.random.pick(&[3, 5, 7]), instances: instances as u32 }
    }

    // Numbers

    fn any_round(&mut self) -> u32 {
        match self.random.below(10) {
            0 | 1 => 0,
            2..=5 => self.random.below(16) as u32,
            6 | 7 => NONE - self.random.below(16) as u32,
            8 => NONE,
            _ => self.random.number() as u32,
        }
    }

    /// Owned or 0, mostly one of the scene's.
    fn lawful_round(&mut self) -> u32 {
        loop {
            let round = if self.random.chance(75) { self.random.pick(&self.rounds) } else { self.any_round() };
            if owned_or_0(round) {
                return round;
            }
        }
    }

    fn owned_round(&mut self) -> u32 {
        loop {
            let round = if self.random.chance(50) { self.random.pick(&self.rounds) } else { self.any_round() };
            if owned(round) {
                return round;
            }
        }
    }

    fn value(&mut self) -> u128 {
        if self.random.chance(95) {
            self.random.pick(&self.values)
        } else {
            (self.random.number() as u128) << 64 | self.random.number() as u128
        }
    }

    /// A vote as possible_vote has it.
    fn vote(&mut self, round: u32) -> (u32, u128) {
        if self.random.chance(40) {
            return (NONE, 0);
        }
        let vote_round = self.lawful_round();
        (if vote_round <= round { vote_round } else { self.random.pick(&[0, round]) }, self.value())
    }

    /// A primary's next instance: fresh, near N, well within N or far beyond.
    pub fn next(&mut self, settings: Settings) -> u32 {
        let instances = settings.instances;
        match self.random.below(10) {
            0..=3 => 0,
            4 => instances - 1,
            5 => instances,
            6 => instances + 1,
            7 => self.random.pick(&[65_535, 65_536, 65_536 + instances - 1, 65_536 + instances, 1 << 31, NONE]),
            8 => self.random.number() as u32,
            _ => self.random.below(instances as usize) as u32,
        }
    }

    pub fn instance(&mut self, settings: Settings) -> u32 {
        let instances = settings.instances;
        match self.random.below(16) {
            0 => self.random.pick(&[instances, instances + 1, 1024, NONE, 1 << 31, 1 << 16, instances << 16, 1 << 8]),
            1 => self.random.number() as u32,
            2 | 3 => 0,
            4 | 5 => instances - 1,
            6 => instances / 2,
            _ => self.random.below(instances as usize) as u32,
        }
    }

    pub fn wrong_length(&mut self, right: usize) -> usize {
        loop {
            let length = match self.random.below(8) {
                0 => 0,
                1 => right.saturating_sub(1),
                2 => right + 1,
                3 => 2 * right,
                4 => right / 2,
                _ => self.random.below(81),
            };
            if length != right {
                return length;
            }
        }
    }

    /// Random bytes, rarely of a wrong length.
    pub fn buffer(&mut self, right: usize) -> Vec<u8> {
        let length = if self.random.chance(10) { self.wrong_length(right) } else { right };
        self.random.bytes(length)
    }

    // Settings that are not allowed

    pub fn wrong_acceptors(&mut self) -> u32 {
        self.random.pick(&[0, 1, 2, 4, 6, 8, 9, 11, 13, 15, 131, 133, 135, 259, 261, 263, 65_539, 0x8000_0003, NONE])
    }

    /// Most of them would pass if only a part of the number, or a small multiple that wraps, were compared.
    pub fn wrong_instances(&mut self, right: u32) -> u32 {
        self.random.pick(&[0, 1025, right + 1, right + 65_536, right + 256, right | 1 << 31, right | 1 << 28, NONE])
    }

    pub fn wrong_acceptor(&mut self, settings: Settings) -> u32 {
        let acceptors = settings.acceptors;
        self.random.pick(&[acceptors, acceptors + 1, 7, 8, 256, 65_536, 0x8000_0000, NONE])
    }

    /// The wrong ones have a remainder that a backup's number has, or lie beside the right ones.
    pub fn other_backup(&mut self) -> u32 {
        self.random.pick(&[0, 1, 2, 3, 4, 5, 6, 7, 257, 65_537, 0x8000_0001, NONE])
    }

    pub fn start(&mut self, instance: u32, cell: Option<Cell>) -> Start {
        let near = cell.map_or(0, |(round, _)| round).saturating_add(self.random.below(9) as u32).saturating_sub(4);
        let floor = if self.random.chance(40) { near } else { self.any_round() };
        Start { instance, floor, value: self.value() }
    }

    // Packets

    /// A message that keeps the packet's table, mostly with round and value of the cell that it is for.
    fn message(&mut self, kind: u8, settings: Settings, instance: u32, cell: Option<Cell>) -> Message {
        let (near, near_value) = match cell {
            Some((round, value)) if owned_or_0(round) && self.random.chance(70) => (round, value),
            _ => (self.lawful_round(), self.value()),
        };
        let round = match kind {
            REQUEST => 0,
            PREPARE | PROMISE if near == 0 => self.owned_round(),
            _ => near,
        };
        let sender = if self.random.chance(92) { self.random.below(settings.acceptors as usize) } else { self.random.below(7) };
        let switch = match kind {
            REQUEST => self.random.number() as u16,
            PREPARE | PROPOSE => owner(round) as u16,
            _ => sender as u16,
        };
        let (vote_round, value) = match kind {
            REQUEST => (NONE, self.value().max(1)),
            PREPARE => (NONE, 0),
            PROMISE => self.vote(round),
            PROPOSE => (NONE, self.value()),
            _ => (round, if self.random.chance(80) { near_value } else { self.value() }),
        };
        Message { kind, switch, instance: if kind == REQUEST { 0 } else { instance }, round, vote_round, value }
    }

    /// A packet mostly of the kinds given, for an instance and its cell if it has one, now and then damaged.
    pub fn packet(&mut self, kinds: &[u8], settings: Settings, instance: u32, cell: Option<Cell>) -> Vec<u8> {
        let kind = if self.random.chance(90) { self.random.pick(kinds) } else { self.random.below(5) as u8 };
        let mut packet = vec![0; 36];
        write(&self.message(kind, settings, instance, cell), &mut packet);
        if self.random.chance(25) {
            self.damage(&mut packet);
        }
        packet
    }

    /// The fields of a message that keeps the packet's table, half of the time with one or two of them changed.
    pub fn fields(&mut self, settings: Settings) -> Fields {
        let kind = self.random.below(5) as u8;
        let instance = self.instance(settings);
        let Message { kind, switch, instance, round, vote_round, value } = self.message(kind, settings, instance, None);
        let mut fields = Fields { kind: kind as u32, switch: switch as u32, instance, round, vote_round, value };
        for _ in 0..self.random.pick(&[0, 0, 1, 2]) {
            self.change_one_of(&mut fields);
        }
        fields
    }

    /// Kinds and switch numbers that would pass if only their last byte or two were looked at come up as well.
    fn change_one_of(&mut self, fields: &mut Fields) {
        let beyond = self.random.pick(&[1 << 8, 1 << 16, 1 << 31, NONE]);
        match self.random.below(8) {
            0 => fields.kind = self.random.below(256) as u32,
            1 => fields.kind |= beyond,
            2 => fields.switch = self.random.pick(&[0, 1, 2, 3, 4, 6, 7, 8, 256, 257, 65_535]),
            3 => fields.switch |= beyond,
            4 => fields.instance = self.any_round(),
            5 => fields.round = self.any_round(),
            6 => fields.vote_round = self.any_round(),
            _ => fields.value = self.value(),
        }
    }

    fn damage(&mut self, packet: &mut Vec<u8>) {
        match self.random.below(8) {
            0 => {
                let length = self.random.below(81);
                let rest = self.random.bytes(80);
                packet.extend(rest);
                packet.truncate(length);
            }
            1 | 2 => self.flip_bit(packet),
            3 => (0..2 + self.random.below(5)).for_each(|_| self.flip_bit(packet)),
            4 | 5 => self.change_field(packet),
            6 => (0..2).for_each(|_| self.change_field(packet)),
            _ => {
                let kept = self.random.pick(&[0, 3, 6, 8, 12, 16, 20]);
                packet.truncate(kept);
                packet.extend(self.random.bytes(36 - kept));
            }
        }
    }

    pub fn flip_bit(&mut self, bytes: &mut [u8]) {
        let bit = self.random.below(8 * bytes.len());
        bytes[bit / 8] ^= 1 << (bit % 8);
    }

    fn change_field(&mut self, packet: &mut [u8]) {
        match self.random.below(9) {
            0 => packet[self.random.below(3)] = self.random.pick(b"RDETrde\0"),
            1 => packet[3] = self.random.pick(&[0, 1, 2, 3, 4, 5, 6, 7, 8, 128, 255]),
            2 => packet[4..6].copy_from_slice(&self.random.pick(&[[0, 0], [0, 2], [1, 0], [1, 1], [255, 255]])),
            3 => packet[6..8].copy_from_slice(&self.random.pick(&[0, 1, 2, 3, 4, 6, 7, 8, 256, 257, 65_535u16]).to_be_bytes()),
            4 => packet[8..12].copy_from_slice(&self.any_round().to_be_bytes()),
            5 => packet[12..16].copy_from_slice(&self.any_round().to_be_bytes()),
            6 => packet[16..20].copy_from_slice(&self.any_round().to_be_bytes()),
            7 => {
                // so that it is the round alone that breaks the table
                let round = self.any_round();
                packet[6..8].copy_from_slice(&(round as u16 % 4).to_be_bytes());
                packet[12..16].copy_from_slice(&round.to_be_bytes());
            }
            _ => packet[20..36].copy_from_slice(&self.value().to_be_bytes()),
        }
    }

    // Tables

    fn filling(&mut self, settings: Settings) -> Filling {
        let last = settings.instances as usize - 1;
        match self.random.below(10) {
            0..=2 => Filling::Fresh,
            3..=5 => Filling::Possible,
            6..=8 => Filling::OneSpoiled(self.random.pick(&[0, last / 2, last])),
            _ => Filling::ManySpoiled,
        }
    }

    /// Whether a field of the cell is to be changed, which mostly makes it impossible.
    fn spoils(&mut self, filling: Filling, cell: usize) -> bool {
        match filling {
            Filling::Fresh | Filling::Possible => false,
            Filling::OneSpoiled(spoiled) => cell == spoiled,
            Filling::ManySpoiled => self.random.chance(50),
        }
    }

    pub fn acceptor_tables(&mut self, settings: Settings) -> AcceptorTables {
        let mut tables = AcceptorTables::fresh(settings.instances as usize);
        let filling = self.filling(settings);
        if let Filling::Fresh = filling {
            return tables;
        }
        for cell in 0..settings.instances as usize {
            if self.random.chance(80) {
                let round = self.lawful_round();
                let (vote_round, value) = self.vote(round);
                tables.rounds[cell] = round;
                tables.vote_rounds[cell] = vote_round;
                set_value(&mut tables.values, cell, value);
            }
            if self.spoils(filling, cell) {
                match self.random.below(3) {
                    0 => tables.rounds[cell] = self.any_round(),
                    1 => tables.vote_rounds[cell] = self.any_round(),
                    _ => set_value(&mut tables.values, cell, self.value()),
                }
            }
        }
        tables
    }

    /// Some of the acceptors, as many as asked for.
    fn set(&mut self, settings: Settings, size: u32) -> u8 {
        let mut set = 0u8;
        while set.count_ones() < size {
            set |= 1 << self.random.below(settings.acceptors as usize);
        }
        set
    }

    /// Near the sizes that matter, within M or not.
    fn any_set(&mut self, settings: Settings) -> u8 {
        let size = self.random.pick(&[0, 1, settings.acceptors / 2, settings.acceptors / 2 + 1, settings.acceptors / 2 + 2]);
        match self.random.below(4) {
            0 => self.random.number() as u8,
            1 => self.set(settings, size.saturating_sub(1)) | 1 << self.random.pick(&[settings.acceptors, 7]),
            _ => self.set(settings, size),
        }
    }

    pub fn backup_tables(&mut self, settings: Settings, own: u32) -> BackupTables {
        let mut tables = BackupTables::fresh(settings.instances as usize);
        let filling = self.filling(settings);
        if let Filling::Fresh = filling {
            return tables;
        }
        for cell in 0..settings.instances as usize {
            if self.random.chance(70) {
                self.fill_backup_cell(settings, own, &mut tables, cell);
            }
            if self.spoils(filling, cell) {
                self.spoil_backup_cell(settings, &mut tables, cell);
            }
        }
        tables
    }

    fn fill_backup_cell(&mut self, settings: Settings, own: u32, tables: &mut BackupTables, cell: usize) {
        let round = self.lawful_round() / 4 * 4 + own;
        let round = if round == NONE { own } else { round };
        let phase = self.random.pick(&[1, 1, 2]);
        let majority = settings.acceptors / 2 + 1;
        let size = if phase == 2 { majority } else { self.random.below(majority as usize) as u32 };
        let (best, best_value) = if size == 0 { (NONE, 0) } else { self.vote(round) };
        tables.rounds[cell] = round;
        tables.phases[cell] = phase;
        tables.sets[cell] = self.set(settings, size);
        tables.best_vote_rounds[cell] = best;
        set_value(&mut tables.best_values, cell, best_value);
        set_value(&mut tables.own_values, cell, self.value());
    }

    fn spoil_backup_cell(&mut self, settings: Settings, tables: &mut BackupTables, cell: usize) {
        match self.random.below(9) {
            0 => tables.rounds[cell] = self.any_round(),
            1 => tables.phases[cell] = self.random.number() as u8,
            8 => tables.phases[cell] = self.random.pick(&[0, 1, 2, 3, 4, 128, 255]),
            2 | 7 => tables.sets[cell] = self.any_set(settings),
            3 => tables.best_vote_rounds[cell] = self.any_round(),
            4 => set_value(&mut tables.best_values, cell, self.value()),
            5 => set_value(&mut tables.own_values, cell, self.value()),
            _ => {
                // a vote while nobody has promised
                tables.sets[cell] = 0;
                tables.best_vote_rounds[cell] = self.lawful_round();
            }
        }
    }

    pub fn learner_tables(&mut self, settings: Settings) -> LearnerTables {
        let mut tables = LearnerTables::fresh(settings.instances as usize);
        let filling = self.filling(settings);
        if let Filling::Fresh = filling {
            return tables;
        }
        let fresh = self.random.pick(&[0, 0, 20, 60]);
        let decided = self.random.pick(&[0, 40, 90, 100]);
        for cell in 0..settings.instances as usize {
            if !self.random.chance(fresh) {
                let majority = settings.acceptors / 2 + 1;
                let size = if self.random.chance(decided) { majority } else { 1 + self.random.below(majority as usize) as u32 };
                tables.rounds[cell] = self.lawful_round();
                tables.sets[cell] = self.set(settings, size);
                set_value(&mut tables.values, cell, self.value());
            }
            if self.spoils(filling, cell) {
                match self.random.below(3) {
                    0 => tables.rounds[cell] = self.any_round(),
                    1 => tables.sets[cell] = self.any_set(settings),
                    _ => set_value(&mut tables.values, cell, self.value()),
                }
            }
        }
        tables
    }

    // Saved tables

    /// The saved form of other tables, possible or not, now and then from a run with other settings, or damaged.
    pub fn saved(&mut self, mut settings: Settings) -> Vec<u8> {
        match self.random.below(20) {
            0 => settings.acceptors = self.random.pick(&[3, 5, 7]),
            1 => settings.instances = 1 + self.random.below(8) as u32,
            _ => {}
        }
        let tables = self.learner_tables(settings);
        let mut saved = vec![0; 8 + 21 * settings.instances as usize];
        write_saved(settings, &tables, &mut saved);
        if self.random.chance(50) {
            self.damage_saved(&mut saved);
        }
        if self.random.chance(10) {
            self.damage_saved(&mut saved);
        }
        saved
    }

    fn damage_saved(&mut self, saved: &mut Vec<u8>) {
        let header = saved.len().min(8);
        match self.random.below(6) {
            0 => saved.truncate(self.random.below(saved.len() + 1)),
            1 => saved.truncate(self.random.below(header + 1)),
            2 => {
                let longer = self.random.pick(&[1, 7, 20, 21, 22, 42]);
                saved.extend(self.random.bytes(longer));
            }
            3 if header > 0 => self.flip_bit(&mut saved[..header]),
            4 if header > 0 => saved[self.random.below(header)] = self.random.number() as u8,
            _ if !saved.is_empty() => self.flip_bit(saved),
            _ => {}
        }
    }
}
