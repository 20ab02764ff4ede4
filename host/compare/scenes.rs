//! Scenes by chance, a kind for each call: a player in use. Its tables are moved by the call at hand, and by the model alone where another call moves them.

use crate::inputs::{Cell, Inputs};
use crate::model::{self, PREPARE, PROMISE, PROPOSE, REQUEST, VOTE};
use crate::rides::Rides;
use crate::tables::*;
use crate::{both, frames, Comparison};

/// Each table of a player by its number, so that one alone can be given a wrong length.
pub trait Tables: Clone {
    const COUNT: usize;
    fn fresh(instances: usize) -> Self;
    fn used(instances: usize) -> Self;
    fn resize(&mut self, table: usize, length: impl FnOnce(usize) -> usize);
}

fn resize<T: Copy + Default>(table: &mut Vec<T>, length: impl FnOnce(usize) -> usize) {
    let length = length(table.len());
    table.resize(length, T::default());
}

impl Tables for Vec<u32> {
    const COUNT: usize = 1;
    fn fresh(_: usize) -> Self {
        vec![0]
    }
    fn used(_: usize) -> Self {
        vec![1]
    }
    fn resize(&mut self, _: usize, length: impl FnOnce(usize) -> usize) {
        resize(self, length);
    }
}

impl Tables for AcceptorTables {
    const COUNT: usize = 3;
    fn fresh(instances: usize) -> Self {
        AcceptorTables::fresh(instances)
    }
    fn used(instances: usize) -> Self {
        AcceptorTables::used(instances)
    }
    fn resize(&mut self, table: usize, length: impl FnOnce(usize) -> usize) {
        match table {
            0 => resize(&mut self.rounds, length),
            1 => resize(&mut self.vote_rounds, length),
            _ => resize(&mut self.values, length),
        }
    }
}

impl Tables for BackupTables {
    const COUNT: usize = 6;
    fn fresh(instances: usize) -> Self {
        BackupTables::fresh(instances)
    }
    fn used(instances: usize) -> Self {
        BackupTables::used(instances)
    }
    fn resize(&mut self, table: usize, length: impl FnOnce(usize) -> usize) {
        match table {
            0 => resize(&mut self.rounds, length),
            1 => resize(&mut self.phases, length),
            2 => resize(&mut self.sets, length),
            3 => resize(&mut self.best_vote_rounds, length),
            4 => resize(&mut self.best_values, length),
            _ => resize(&mut self.own_values, length),
        }
    }
}

impl Tables for LearnerTables {
    const COUNT: usize = 3;
    fn fresh(instances: usize) -> Self {
        LearnerTables::fresh(instances)
    }
    fn used(instances: usize) -> Self {
        LearnerTables::used(instances)
    }
    fn resize(&mut self, table: usize, length: impl FnOnce(usize) -> usize) {
        match table {
            0 => resize(&mut self.rounds, length),
            1 => resize(&mut self.sets, length),
            _ => resize(&mut self.values, length),
        }
    }
}

/// Settings that refusal 7 is for.
fn spoil_settings(inputs: &mut Inputs, settings: &mut Settings) {
    if inputs.random.chance(50) {
        settings.acceptors = inputs.wrong_acceptors();
    } else {
        settings.instances = inputs.wrong_instances(settings.instances);
    }
}

/// Settings or sizes that refusal 7 is for. Which of them is wrong is left to chance.
fn spoil<T: Tables>(inputs: &mut Inputs, settings: &mut Settings, tables: &mut T) {
    match inputs.random.below(4) {
        0 | 1 => spoil_settings(inputs, settings),
        2 => {
            settings.instances = inputs.random.pick(&[0, 1025, 1026, 2048]);
            *tables = T::fresh(settings.instances as usize);
        }
        _ => tables.resize(inputs.random.below(T::COUNT), |right| inputs.wrong_length(right)),
    }
}

/// The cell of an instance, unless it is beyond the tables.
fn cell(rounds: &[u32], values: &[u64], instance: u32) -> Option<Cell> {
    let instance = instance as usize;
    (instance < rounds.len() && instance < values.len() / 2).then(|| (rounds[instance], value_of(values, instance)))
}

// Packets and frames

const ALL_KINDS: [u8; 5] = [REQUEST, PREPARE, PROMISE, PROPOSE, VOTE];

/// A frame around the packet, with the port that it is judged by.
fn framed(comparison: &mut Comparison, packet: &[u8]) -> (u16, Vec<u8>) {
    let port = comparison.inputs.port();
    (port, comparison.inputs.frame(port, packet))
}

pub fn packet_write(comparison: &mut Comparison, settings: Settings) {
    for _ in 0..16 {
        let fields = comparison.inputs.fields(settings);
        let buffer = comparison.inputs.buffer(36);
        both::packet_write(comparison, (fields, buffer));
    }
}

pub fn packet_read(comparison: &mut Comparison, settings: Settings) {
    for _ in 0..16 {
        let lent = comparison.inputs.fields(settings);
        let instance = comparison.inputs.instance(settings);
        let packet = comparison.inputs.packet(&ALL_KINDS, settings, instance, None);
        both::packet_read(comparison, (packet, lent));
    }
}

pub fn frame_prepare(comparison: &mut Comparison, settings: Settings) {
    for _ in 0..16 {
        let instance = comparison.inputs.instance(settings);
        let packet = comparison.inputs.packet(&[PREPARE], settings, instance, None);
        let addresses = comparison.inputs.addresses();
        let buffer = comparison.inputs.buffer(frames::LENGTH);
        both::frame_prepare(comparison, (packet, addresses, buffer));
    }
}

/// A frame around a packet of any kind, or bytes that are no frame at all.
fn any_frame(comparison: &mut Comparison, settings: Settings) -> (u16, Vec<u8>) {
    if comparison.inputs.random.chance(5) {
        return (comparison.inputs.port(), comparison.inputs.buffer(frames::LENGTH));
    }
    let instance = comparison.inputs.instance(settings);
    let packet = comparison.inputs.packet(&ALL_KINDS, settings, instance, None);
    framed(comparison, &packet)
}

pub fn frame_check(comparison: &mut Comparison, settings: Settings) {
    for _ in 0..16 {
        let input = any_frame(comparison, settings);
        both::frame_check(comparison, input);
    }
}

pub fn frame_seal(comparison: &mut Comparison, settings: Settings) {
    for _ in 0..16 {
        let (_, frame) = any_frame(comparison, settings);
        both::frame_seal(comparison, frame);
    }
}

// Fresh tables

/// Tables in use, mostly filled, now and then refused.
fn fresh<T: Tables>(comparison: &mut Comparison, settings: Settings, tables: T, call: fn(&mut Comparison, (Settings, T))) {
    for _ in 0..4 {
        let mut input = (settings, tables.clone());
        if comparison.inputs.random.chance(50) {
            spoil(&mut comparison.inputs, &mut input.0, &mut input.1);
        }
        call(comparison, input);
    }
}

pub fn primary_fresh(comparison: &mut Comparison, settings: Settings) {
    let next = vec![comparison.inputs.next(settings)];
    fresh(comparison, settings, next, both::primary_fresh);
}

pub fn acceptor_fresh(comparison: &mut Comparison, settings: Settings) {
    let tables = comparison.inputs.acceptor_tables(settings);
    fresh(comparison, settings, tables, both::acceptor_fresh);
}

pub fn backup_fresh(comparison: &mut Comparison, settings: Settings) {
    let tables = comparison.inputs.backup_tables(settings, 1);
    fresh(comparison, settings, tables, both::backup_fresh);
}

pub fn learner_fresh(comparison: &mut Comparison, settings: Settings) {
    let tables = comparison.inputs.learner_tables(settings);
    fresh(comparison, settings, tables, both::learner_fresh);
}

// Primary

/// A primary has no tables sized for N, so every N costs the same.
fn any_instances(inputs: &mut Inputs, settings: Settings) -> Settings {
    let instances = if inputs.random.chance(50) { settings.instances } else { 1 + inputs.random.below(1024) as u32 };
    Settings { instances, ..settings }
}

fn primary(comparison: &mut Comparison, settings: Settings, call: fn(&mut Comparison, both::PrimaryStep) -> Vec<u32>) {
    let settings = any_instances(&mut comparison.inputs, settings);
    let mut next = vec![comparison.inputs.next(settings)];
    for _ in 0..12 {
        let inputs = &mut comparison.inputs;
        let mut input = (settings, inputs.packet(&[REQUEST], settings, 0, None), next.clone());
        let spoiled = inputs.random.chance(8);
        if spoiled {
            spoil(inputs, &mut input.0, &mut input.2);
        }
        let after = call(comparison, input);
        if !spoiled {
            next = after;
        }
    }
}

pub fn primary_step(comparison: &mut Comparison, settings: Settings) {
    primary(comparison, settings, |comparison, input| both::primary_step(comparison, input).2);
}

pub fn primary_frame(comparison: &mut Comparison, settings: Settings) {
    primary(comparison, settings, |comparison, (settings, packet, next)| {
        let (port, frame) = framed(comparison, &packet);
        both::primary_frame(comparison, (settings, port, frame, next)).3
    });
}

pub fn primary_request(comparison: &mut Comparison, settings: Settings) {
    let settings = any_instances(&mut comparison.inputs, settings);
    let mut next = comparison.inputs.next(settings);
    for _ in 0..12 {
        let inputs = &mut comparison.inputs;
        let mut input = (settings, inputs.packet(&[REQUEST], settings, 0, None), next);
        if inputs.random.chance(8) {
            spoil_settings(inputs, &mut input.0);
        }
        next = both::primary_request(comparison, input).2;
    }
}

// Acceptor

fn acceptor(comparison: &mut Comparison, settings: Settings, call: fn(&mut Comparison, both::AcceptorStep) -> AcceptorTables) {
    let own = comparison.inputs.random.below(settings.acceptors as usize) as u32;
    let mut tables = comparison.inputs.acceptor_tables(settings);
    for _ in 0..24 {
        let inputs = &mut comparison.inputs;
        let instance = inputs.instance(settings);
        let cell = cell(&tables.rounds, &tables.values, instance);
        let mut input = (settings, own, inputs.packet(&[PREPARE, PROPOSE], settings, instance, cell), tables.clone());
        let spoiled = inputs.random.chance(8);
        if spoiled && inputs.random.chance(25) {
            input.1 = inputs.wrong_acceptor(settings);
        } else if spoiled {
            spoil(inputs, &mut input.0, &mut input.3);
        }
        let after = call(comparison, input);
        if !spoiled {
            tables = after;
        }
    }
}

pub fn acceptor_step(comparison: &mut Comparison, settings: Settings) {
    acceptor(comparison, settings, |comparison, input| both::acceptor_step(comparison, input).3);
}

pub fn acceptor_frame(comparison: &mut Comparison, settings: Settings) {
    acceptor(comparison, settings, |comparison, (settings, own, packet, tables)| {
        let (port, frame) = framed(comparison, &packet);
        both::acceptor_frame(comparison, (settings, own, port, frame, tables)).4
    });
}

// Backup

fn promise(inputs: &mut Inputs, settings: Settings, tables: &BackupTables) -> Vec<u8> {
    let instance = inputs.instance(settings);
    inputs.packet(&[PROMISE], settings, instance, cell(&tables.rounds, &tables.own_values, instance))
}

fn start(inputs: &mut Inputs, settings: Settings, tables: &BackupTables) -> Start {
    let instance = inputs.instance(settings);
    inputs.start(instance, cell(&tables.rounds, &tables.own_values, instance))
}

fn spoil_backup(inputs: &mut Inputs, settings: &mut Settings, own: &mut u32, tables: &mut BackupTables) {
    if inputs.random.chance(40) {
        *own = inputs.other_backup();
    } else {
        spoil(inputs, settings, tables);
    }
}

pub fn backup_start(comparison: &mut Comparison, settings: Settings) {
    let own = 1 + comparison.inputs.random.below(3) as u32;
    let mut tables = comparison.inputs.backup_tables(settings, own);
    for _ in 0..16 {
        let inputs = &mut comparison.inputs;
        for _ in 0..inputs.random.below(3) {
            let _ = model::backup_step(settings, own, &mut promise(inputs, settings, &tables), &mut tables);
        }
        let start = start(inputs, settings, &tables);
        let mut input = (settings, own, start, inputs.buffer(36), tables.clone());
        let spoiled = inputs.random.chance(8);
        if spoiled {
            spoil_backup(inputs, &mut input.0, &mut input.1, &mut input.4);
        }
        let after = both::backup_start(comparison, input);
        if !spoiled {
            tables = after.4;
        }
    }
}

fn backup(comparison: &mut Comparison, settings: Settings, call: fn(&mut Comparison, both::BackupStep) -> BackupTables) {
    let own = 1 + comparison.inputs.random.below(3) as u32;
    let mut tables = comparison.inputs.backup_tables(settings, own);
    for _ in 0..32 {
        let inputs = &mut comparison.inputs;
        if inputs.random.chance(25) {
            let start = start(inputs, settings, &tables);
            let _ = model::backup_start(settings, own, start, &mut [0; 36], &mut tables);
        }
        let mut input = (settings, own, promise(inputs, settings, &tables), tables.clone());
        let spoiled = inputs.random.chance(8);
        if spoiled {
            spoil_backup(inputs, &mut input.0, &mut input.1, &mut input.3);
        }
        let after = call(comparison, input);
        if !spoiled {
            tables = after;
        }
    }
}

pub fn backup_step(comparison: &mut Comparison, settings: Settings) {
    backup(comparison, settings, |comparison, input| both::backup_step(comparison, input).3);
}

pub fn backup_frame(comparison: &mut Comparison, settings: Settings) {
    backup(comparison, settings, |comparison, (settings, own, packet, tables)| {
        let (port, frame) = framed(comparison, &packet);
        both::backup_frame(comparison, (settings, own, port, frame, tables)).4
    });
}

// Learner

fn vote(inputs: &mut Inputs, settings: Settings, tables: &LearnerTables) -> Vec<u8> {
    let instance = inputs.instance(settings);
    inputs.packet(&[VOTE], settings, instance, cell(&tables.rounds, &tables.values, instance))
}

fn learner(comparison: &mut Comparison, settings: Settings, call: fn(&mut Comparison, both::LearnerStep) -> LearnerTables) {
    let mut tables = comparison.inputs.learner_tables(settings);
    for _ in 0..32 {
        let inputs = &mut comparison.inputs;
        let mut input = (settings, vote(inputs, settings, &tables), tables.clone());
        let spoiled = inputs.random.chance(8);
        if spoiled {
            spoil(inputs, &mut input.0, &mut input.2);
        }
        let after = call(comparison, input);
        if !spoiled {
            tables = after;
        }
    }
}

pub fn learner_step(comparison: &mut Comparison, settings: Settings) {
    learner(comparison, settings, |comparison, input| both::learner_step(comparison, input).2);
}

pub fn learner_frame(comparison: &mut Comparison, settings: Settings) {
    learner(comparison, settings, |comparison, (settings, packet, tables)| {
        let (port, frame) = framed(comparison, &packet);
        both::learner_frame(comparison, (settings, port, frame, tables)).3
    });
}

/// A call that leaves a learner's tables, between votes that move them. It gets settings as they are, and settings and tables that are spoiled now and then.
fn between_votes(comparison: &mut Comparison, settings: Settings, call: fn(&mut Comparison, Settings, Settings, LearnerTables)) {
    let mut tables = comparison.inputs.learner_tables(settings);
    for _ in 0..8 {
        let inputs = &mut comparison.inputs;
        for _ in 0..inputs.random.below(6) {
            let _ = model::learner_step(settings, &vote(inputs, settings, &tables), &mut tables);
        }
        let mut lent = (settings, tables.clone());
        if inputs.random.chance(8) {
            spoil(inputs, &mut lent.0, &mut lent.1);
        }
        call(comparison, settings, lent.0, lent.1);
    }
}

pub fn learner_answer(comparison: &mut Comparison, settings: Settings) {
    between_votes(comparison, settings, |comparison, right, settings, tables| {
        let instance = comparison.inputs.instance(right);
        let value = comparison.inputs.random.number() as u128 * 0x1_0000_0001_0000_0001;
        both::learner_answer(comparison, (settings, instance, tables, value));
    });
}

pub fn learner_deliver(comparison: &mut Comparison, settings: Settings) {
    between_votes(comparison, settings, |comparison, right, settings, tables| {
        let buffer = comparison.inputs.buffer(16 * right.instances as usize);
        let count = comparison.inputs.random.number() as u32;
        both::learner_deliver(comparison, (settings, tables, buffer, count));
    });
}

pub fn learner_first_hole(comparison: &mut Comparison, settings: Settings) {
    between_votes(comparison, settings, |comparison, _, settings, tables| {
        let instance = comparison.inputs.random.number() as u32;
        both::learner_first_hole(comparison, (settings, tables, instance));
    });
}

pub fn learner_save(comparison: &mut Comparison, settings: Settings) {
    between_votes(comparison, settings, |comparison, right, settings, tables| {
        let buffer = comparison.inputs.buffer(8 + 21 * right.instances as usize);
        both::learner_save(comparison, (settings, tables, buffer));
    });
}

pub fn learner_read_saved(comparison: &mut Comparison, settings: Settings) {
    between_votes(comparison, settings, |comparison, right, settings, tables| {
        let saved = comparison.inputs.saved(right);
        both::learner_read_saved(comparison, (settings, saved, tables));
    });
}

// Ledger

/// A list of entries, mostly from the fresh ledger. After each of them the customer's sum is held.
pub fn ledger_enter(comparison: &mut Comparison, _: Settings) {
    let riders = comparison.inputs.riders();
    let mut table = comparison.inputs.ledger(&riders);
    let mut rides = Rides::left_in(&table);
    for _ in 0..32 {
        let inputs = &mut comparison.inputs;
        let value = inputs.entry(&riders, &table);
        if inputs.random.chance(8) {
            let mut spoiled = table.clone();
            inputs.spoil_ledger(&mut spoiled);
            both::ledger_enter(comparison, (value, spoiled));
            continue;
        }
        let (answer, after) = both::ledger_enter(comparison, (value.clone(), table));
        rides.enter(&value, answer);
        comparison.hold(both::SUM, rides.add_up(&after));
        table = after;
    }
}
