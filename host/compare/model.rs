//! The build paper in plain Rust, in its order, with the holes of its change request. Written from the papers, not from the proved code, so that a slip of one
//! is not a slip of both.

use crate::tables::*;

/// A verdict, or a refusal's number.
pub type Answer = Result<u32, u32>;

pub fn set_value(values: &mut [u64], instance: usize, value: u128) {
    values[2 * instance] = (value >> 64) as u64;
    values[2 * instance + 1] = value as u64;
}

// Numbers

pub fn allowed(settings: Settings) -> bool {
    matches!(settings.acceptors, 3 | 5 | 7) && (1..=1024).contains(&settings.instances)
}

fn majority(settings: Settings) -> u32 {
    settings.acceptors / 2 + 1
}

/// Owned by a backup; the mark "none" has remainder 3 and is no round.
pub fn owned(round: u32) -> bool {
    round != NONE && matches!(round % 4, 1..=3)
}

pub fn owned_or_0(round: u32) -> bool {
    round == 0 || owned(round)
}

/// Of a round that is owned or 0.
pub fn owner(round: u32) -> u32 {
    round % 4
}

/// Any round is above none, which is not above anything.
fn above(left: u32, right: u32) -> bool {
    left != NONE && (right == NONE || left > right)
}

/// A vote as a promise tells it and as cells keep it: none with the null value, or one that is not above the round.
fn possible_vote(vote_round: u32, value: u128, round: u32) -> bool {
    if vote_round == NONE {
        value == 0
    } else {
        owned_or_0(vote_round) && vote_round <= round
    }
}

// The packet

pub const REQUEST: u8 = 0;
pub const PREPARE: u8 = 1;
pub const PROMISE: u8 = 2;
pub const PROPOSE: u8 = 3;
pub const VOTE: u8 = 4;

#[derive(Clone, Copy, PartialEq, Debug)]
pub struct Message {
    pub kind: u8,
    pub switch: u16,
    pub instance: u32,
    pub round: u32,
    pub vote_round: u32,
    pub value: u128,
}

/// The number in big-endian bytes.
pub fn number(bytes: &[u8]) -> u128 {
    bytes.iter().fold(0, |sum, byte| sum << 8 | *byte as u128)
}

fn keeps_table(message: &Message) -> bool {
    let Message { kind, switch, instance, round, vote_round, value } = *message;
    match kind {
        REQUEST => instance == 0 && round == 0 && vote_round == NONE && value != 0,
        PREPARE => owned(round) && switch as u32 == owner(round) && vote_round == NONE && value == 0,
        PROMISE => switch <= 6 && owned(round) && possible_vote(vote_round, value, round),
        PROPOSE => owned_or_0(round) && switch as u32 == owner(round) && vote_round == NONE,
        VOTE => switch <= 6 && owned_or_0(round) && vote_round == round,
        _ => false,
    }
}

pub fn read(packet: &[u8]) -> Result<Message, u32> {
    if packet.len() != 36 {
        return Err(1);
    }
    if packet[0..3] != *b"RDE" {
        return Err(2);
    }
    if number(&packet[4..6]) != 1 {
        return Err(3);
    }
    if packet[3] > 4 {
        return Err(4);
    }
    let message = Message {
        kind: packet[3],
        switch: number(&packet[6..8]) as u16,
        instance: number(&packet[8..12]) as u32,
        round: number(&packet[12..16]) as u32,
        vote_round: number(&packet[16..20]) as u32,
        value: number(&packet[20..36]),
    };
    if keeps_table(&message) {
        Ok(message)
    } else {
        Err(5)
    }
}

/// The packet has 36 bytes.
pub fn write(message: &Message, packet: &mut [u8]) {
    packet[0..3].copy_from_slice(b"RDE");
    packet[3] = message.kind;
    packet[4..6].copy_from_slice(&[0, 1]);
    packet[6..8].copy_from_slice(&message.switch.to_be_bytes());
    packet[8..12].copy_from_slice(&message.instance.to_be_bytes());
    packet[12..16].copy_from_slice(&message.round.to_be_bytes());
    packet[16..20].copy_from_slice(&message.vote_round.to_be_bytes());
    packet[20..36].copy_from_slice(&message.value.to_be_bytes());
}

/// Every field is judged as it is given: what its row fixes is not mended, and a switch number that two bytes can't hold is none.
pub fn packet_write(fields: Fields, packet: &mut [u8]) -> Answer {
    if packet.len() != 36 {
        return Err(1);
    }
    if fields.kind > 4 {
        return Err(4);
    }
    if fields.switch > 65_535 {
        return Err(5);
    }
    let Fields { kind, switch, instance, round, vote_round, value } = fields;
    let message = Message { kind: kind as u8, switch: switch as u16, instance, round, vote_round, value };
    if !keeps_table(&message) {
        return Err(5);
    }
    write(&message, packet);
    Ok(DONE)
}

pub fn packet_read(packet: &[u8], fields: &mut Fields) -> Answer {
    let Message { kind, switch, instance, round, vote_round, value } = read(packet)?;
    *fields = Fields { kind: kind as u32, switch: switch as u32, instance, round, vote_round, value };
    Ok(DONE)
}

// Primary

pub fn primary_fresh(settings: Settings, next: &mut Vec<u32>) -> Answer {
    if !allowed(settings) || next.len() != 1 {
        return Err(7);
    }
    next[0] = 0;
    Ok(DONE)
}

/// The record lent by reference.
pub fn primary_request(settings: Settings, packet: &mut [u8], next: &mut u32) -> Answer {
    if !allowed(settings) {
        return Err(7);
    }
    let request = read(packet)?;
    if request.kind != REQUEST {
        return Err(6);
    }
    if *next > settings.instances {
        return Err(17);
    }
    if *next == settings.instances {
        return Err(12);
    }
    write(&Message { kind: PROPOSE, switch: 0, instance: *next, round: 0, vote_round: NONE, value: request.value }, packet);
    *next += 1;
    Ok(TO_ACCEPTORS)
}

/// The record lent as a slice, which is to have one number.
pub fn primary_step(settings: Settings, packet: &mut [u8], next: &mut [u32]) -> Answer {
    if next.len() != 1 {
        return Err(7);
    }
    primary_request(settings, packet, &mut next[0])
}

// Acceptor

impl AcceptorTables {
    pub fn fresh(instances: usize) -> Self {
        AcceptorTables { rounds: vec![0; instances], vote_rounds: vec![NONE; instances], values: vec![0; 2 * instances] }
    }
}

pub fn acceptor_allowed(settings: Settings, tables: &AcceptorTables) -> bool {
    let instances = settings.instances as usize;
    allowed(settings) && tables.rounds.len() == instances && tables.vote_rounds.len() == instances && tables.values.len() == 2 * instances
}

pub fn acceptor_fresh(settings: Settings, tables: &mut AcceptorTables) -> Answer {
    if !acceptor_allowed(settings, tables) {
        return Err(7);
    }
    *tables = AcceptorTables::fresh(settings.instances as usize);
    Ok(DONE)
}

pub fn acceptor_step(settings: Settings, own: u32, packet: &mut [u8], tables: &mut AcceptorTables) -> Answer {
    if !acceptor_allowed(settings, tables) || own >= settings.acceptors {
        return Err(7);
    }
    let message = read(packet)?;
    if message.kind != PREPARE && message.kind != PROPOSE {
        return Err(6);
    }
    if message.instance >= settings.instances {
        return Err(8);
    }
    let cell = message.instance as usize;
    let round = tables.rounds[cell];
    let vote_round = tables.vote_rounds[cell];
    let value = value_of(&tables.values, cell);
    if !owned_or_0(round) || !possible_vote(vote_round, value, round) {
        return Err(17);
    }
    if message.round < round {
        return Err(10);
    }
    tables.rounds[cell] = message.round;
    if message.kind == PREPARE {
        write(&Message { kind: PROMISE, switch: own as u16, vote_round, value, ..message }, packet);
        return Ok(TO_LEADER);
    }
    tables.vote_rounds[cell] = message.round;
    set_value(&mut tables.values, cell, message.value);
    write(&Message { kind: VOTE, switch: own as u16, vote_round: message.round, ..message }, packet);
    Ok(TO_LEARNERS)
}

// Backup

const IDLE: u8 = 0;
const ASKING: u8 = 1;
const PROPOSED: u8 = 2;

impl BackupTables {
    pub fn fresh(instances: usize) -> Self {
        BackupTables {
            rounds: vec![0; instances],
            phases: vec![IDLE; instances],
            sets: vec![0; instances],
            best_vote_rounds: vec![NONE; instances],
            best_values: vec![0; 2 * instances],
            own_values: vec![0; 2 * instances],
        }
    }
}

pub fn backup_allowed(settings: Settings, tables: &BackupTables) -> bool {
    let instances = settings.instances as usize;
    allowed(settings)
        && tables.rounds.len() == instances
        && tables.phases.len() == instances
        && tables.sets.len() == instances
        && tables.best_vote_rounds.len() == instances
        && tables.best_values.len() == 2 * instances
        && tables.own_values.len() == 2 * instances
}

pub fn backup_number(own: u32) -> bool {
    (1..=3).contains(&own)
}

pub fn backup_fresh(settings: Settings, tables: &mut BackupTables) -> Answer {
    if !backup_allowed(settings, tables) {
        return Err(7);
    }
    *tables = BackupTables::fresh(settings.instances as usize);
    Ok(DONE)
}

fn within(set: u8, settings: Settings) -> bool {
    (set as u32) < 1 << settings.acceptors
}

fn possible_backup_cell(settings: Settings, own: u32, tables: &BackupTables, cell: usize) -> bool {
    let round = tables.rounds[cell];
    let set = tables.sets[cell];
    let best = tables.best_vote_rounds[cell];
    let best_value = value_of(&tables.best_values, cell);
    let own_value = value_of(&tables.own_values, cell);
    let size_fits_phase = match tables.phases[cell] {
        IDLE => return round == 0 && set == 0 && best == NONE && best_value == 0 && own_value == 0,
        ASKING => set.count_ones() < majority(settings),
        PROPOSED => set.count_ones() == majority(settings),
        _ => false,
    };
    size_fits_phase
        && owned(round)
        && owner(round) == own
        && within(set, settings)
        && possible_vote(best, best_value, round)
        && (set != 0 || best == NONE)
}

pub fn backup_start(settings: Settings, own: u32, start: Start, buffer: &mut [u8], tables: &mut BackupTables) -> Answer {
    if !backup_allowed(settings, tables) || !backup_number(own) {
        return Err(7);
    }
    if buffer.len() != 36 {
        return Err(1);
    }
    if start.instance >= settings.instances {
        return Err(8);
    }
    let cell = start.instance as usize;
    if !possible_backup_cell(settings, own, tables, cell) {
        return Err(17);
    }
    // wider numbers, since the four that follow may pass the last round
    let past = tables.rounds[cell].max(start.floor) as u64;
    let round = (past + 1..=past + 4).find(|round| round % 4 == own as u64).unwrap_or(u64::MAX);
    if round >= NONE as u64 {
        return Err(16);
    }
    let round = round as u32;
    tables.rounds[cell] = round;
    tables.phases[cell] = ASKING;
    tables.sets[cell] = 0;
    tables.best_vote_rounds[cell] = NONE;
    set_value(&mut tables.best_values, cell, 0);
    set_value(&mut tables.own_values, cell, start.value);
    write(&Message { kind: PREPARE, switch: own as u16, instance: start.instance, round, vote_round: NONE, value: 0 }, buffer);
    Ok(TO_ACCEPTORS)
}

pub fn backup_step(settings: Settings, own: u32, packet: &mut [u8], tables: &mut BackupTables) -> Answer {
    if !backup_allowed(settings, tables) || !backup_number(own) {
        return Err(7);
    }
    let promise = read(packet)?;
    if promise.kind != PROMISE {
        return Err(6);
    }
    if promise.instance >= settings.instances {
        return Err(8);
    }
    if promise.switch as u32 >= settings.acceptors {
        return Err(9);
    }
    let cell = promise.instance as usize;
    if !possible_backup_cell(settings, own, tables, cell) {
        return Err(17);
    }
    if tables.phases[cell] != ASKING || promise.round != tables.rounds[cell] {
        return Err(11);
    }
    let sender = 1 << promise.switch;
    if tables.sets[cell] & sender != 0 {
        return Err(15);
    }
    tables.sets[cell] |= sender;
    if above(promise.vote_round, tables.best_vote_rounds[cell]) {
        tables.best_vote_rounds[cell] = promise.vote_round;
        set_value(&mut tables.best_values, cell, promise.value);
    }
    if tables.sets[cell].count_ones() < majority(settings) {
        return Ok(HOLD);
    }
    tables.phases[cell] = PROPOSED;
    // a best vote for null is a vote: only none leaves the choice to the backup
    let chosen = if tables.best_vote_rounds[cell] == NONE { &tables.own_values } else { &tables.best_values };
    let value = value_of(chosen, cell);
    write(&Message { kind: PROPOSE, switch: own as u16, vote_round: NONE, value, ..promise }, packet);
    Ok(TO_ACCEPTORS)
}

// Learner

impl LearnerTables {
    pub fn fresh(instances: usize) -> Self {
        LearnerTables { rounds: vec![NONE; instances], sets: vec![0; instances], values: vec![0; 2 * instances] }
    }
}

pub fn learner_allowed(settings: Settings, tables: &LearnerTables) -> bool {
    let instances = settings.instances as usize;
    allowed(settings) && tables.rounds.len() == instances && tables.sets.len() == instances && tables.values.len() == 2 * instances
}

pub fn learner_fresh(settings: Settings, tables: &mut LearnerTables) -> Answer {
    if !learner_allowed(settings, tables) {
        return Err(7);
    }
    *tables = LearnerTables::fresh(settings.instances as usize);
    Ok(DONE)
}

fn possible_learner_cell(settings: Settings, tables: &LearnerTables, cell: usize) -> bool {
    let round = tables.rounds[cell];
    let set = tables.sets[cell];
    if round == NONE {
        return set == 0 && value_of(&tables.values, cell) == 0;
    }
    owned_or_0(round) && within(set, settings) && set != 0 && set.count_ones() <= majority(settings)
}

fn decided(settings: Settings, tables: &LearnerTables, cell: usize) -> bool {
    tables.sets[cell].count_ones() >= majority(settings)
}

pub fn learner_step(settings: Settings, packet: &[u8], tables: &mut LearnerTables) -> Answer {
    if !learner_allowed(settings, tables) {
        return Err(7);
    }
    let vote = read(packet)?;
    if vote.kind != VOTE {
        return Err(6);
    }
    if vote.instance >= settings.instances {
        return Err(8);
    }
    if vote.switch as u32 >= settings.acceptors {
        return Err(9);
    }
    let cell = vote.instance as usize;
    if !possible_learner_cell(settings, tables, cell) {
        return Err(17);
    }
    if decided(settings, tables, cell) {
        return Err(14);
    }
    if above(tables.rounds[cell], vote.round) {
        return Err(10);
    }
    let voter = 1 << vote.switch;
    if above(vote.round, tables.rounds[cell]) {
        tables.rounds[cell] = vote.round;
        tables.sets[cell] = voter;
        set_value(&mut tables.values, cell, vote.value);
    } else {
        if vote.value != value_of(&tables.values, cell) {
            return Err(13);
        }
        if tables.sets[cell] & voter != 0 {
            return Err(15);
        }
        tables.sets[cell] |= voter;
    }
    Ok(if decided(settings, tables, cell) { DECIDED } else { HOLD })
}

// Delivery

pub fn learner_answer(settings: Settings, instance: u32, tables: &LearnerTables, value: &mut u128) -> Answer {
    if !learner_allowed(settings, tables) {
        return Err(7);
    }
    if instance >= settings.instances {
        return Err(8);
    }
    let cell = instance as usize;
    if !possible_learner_cell(settings, tables, cell) {
        return Err(17);
    }
    if !decided(settings, tables, cell) {
        return Ok(NOT_YET);
    }
    *value = value_of(&tables.values, cell);
    Ok(DONE)
}

fn all_possible(settings: Settings, tables: &LearnerTables) -> bool {
    (0..settings.instances as usize).all(|cell| possible_learner_cell(settings, tables, cell))
}

pub fn learner_deliver(settings: Settings, tables: &LearnerTables, buffer: &mut [u8], count: &mut u32) -> Answer {
    if !learner_allowed(settings, tables) {
        return Err(7);
    }
    let instances = settings.instances as usize;
    if buffer.len() != 16 * instances {
        return Err(1);
    }
    if !all_possible(settings, tables) {
        return Err(17);
    }
    let delivered = (0..instances).take_while(|cell| decided(settings, tables, *cell)).count();
    for cell in 0..delivered {
        buffer[16 * cell..16 * cell + 16].copy_from_slice(&value_of(&tables.values, cell).to_be_bytes());
    }
    *count = delivered as u32;
    Ok(DONE)
}

/// A hole is "an undecided instance below the highest decided one or with a vote in its set"; the first of either kind is answered.
pub fn learner_first_hole(settings: Settings, tables: &LearnerTables, instance: &mut u32) -> Answer {
    if !learner_allowed(settings, tables) {
        return Err(7);
    }
    if !all_possible(settings, tables) {
        return Err(17);
    }
    let (decided, undecided): (Vec<u32>, Vec<u32>) = (0..settings.instances).partition(|cell| decided(settings, tables, *cell as usize));
    let below_highest = undecided.iter().filter(|cell| decided.last().map_or(false, |highest| *cell < highest));
    let with_a_vote = undecided.iter().filter(|cell| tables.sets[**cell as usize] != 0);
    match below_highest.chain(with_a_vote).min() {
        Some(hole) => {
            *instance = *hole;
            Ok(DONE)
        }
        None => Ok(NO_HOLE),
    }
}

// The saved learner table

/// The cells are not judged here, and the buffer has the right length.
pub fn write_saved(settings: Settings, tables: &LearnerTables, buffer: &mut [u8]) {
    buffer[0..5].copy_from_slice(b"RDT\x00\x01");
    buffer[5] = settings.acceptors as u8;
    buffer[6..8].copy_from_slice(&(settings.instances as u16).to_be_bytes());
    for (cell, bytes) in buffer[8..].chunks_mut(21).enumerate() {
        bytes[0..4].copy_from_slice(&tables.rounds[cell].to_be_bytes());
        bytes[4] = tables.sets[cell];
        bytes[5..21].copy_from_slice(&value_of(&tables.values, cell).to_be_bytes());
    }
}

pub fn learner_save(settings: Settings, tables: &LearnerTables, buffer: &mut [u8]) -> Answer {
    if !learner_allowed(settings, tables) {
        return Err(7);
    }
    if buffer.len() != 8 + 21 * settings.instances as usize {
        return Err(1);
    }
    if !all_possible(settings, tables) {
        return Err(17);
    }
    write_saved(settings, tables, buffer);
    Ok(DONE)
}

pub fn learner_read_saved(settings: Settings, saved: &[u8], tables: &mut LearnerTables) -> Answer {
    if !learner_allowed(settings, tables) {
        return Err(7);
    }
    if saved.len() < 8 {
        return Err(1);
    }
    if saved[0..3] != *b"RDT" {
        return Err(2);
    }
    if number(&saved[3..5]) != 1 {
        return Err(3);
    }
    if saved[5] as u32 != settings.acceptors || number(&saved[6..8]) as u32 != settings.instances {
        return Err(7);
    }
    let instances = settings.instances as usize;
    if saved.len() != 8 + 21 * instances {
        return Err(1);
    }
    let mut read = LearnerTables::fresh(instances);
    for (cell, bytes) in saved[8..].chunks(21).enumerate() {
        read.rounds[cell] = number(&bytes[0..4]) as u32;
        read.sets[cell] = bytes[4];
        set_value(&mut read.values, cell, number(&bytes[5..21]));
    }
    if !all_possible(settings, &read) {
        return Err(17);
    }
    *tables = read;
    Ok(DONE)
}
