//! Each call on both sides, and which kinds of input it met: a kind counts only where the call looks at it, which its answer tells.

use crate::digest::Content;
use crate::frames::{self, word, IPV4_CHECKSUM, LENGTH, PACKET, UDP_CHECKSUM};
use crate::inputs::TOP_BIT;
use crate::ledger::{self, Entry};
use crate::tables::*;
use crate::{calls, model, Comparison};
use std::fmt::Debug;

pub const M: &str = "each M below 256";
pub const NEXT_WITHIN: &str = "next from 12 to N - 2";
pub const NEXT_FAR: &str = "next above 65,535";
pub const PHASE: &str = "each phase";
pub const SET: &str = "each set";
pub const PACKET_TOP_BIT: &str = "top bit alone in the packet";
pub const CELL_TOP_BIT: &str = "top bit alone in the cell";
pub const KIND_TAKEN: &str = "each kind taken";
pub const KIND_BROKEN: &str = "each kind refused by 5";
pub const SWITCH_FAR: &str = "each kind with its switch number and 65,536";
pub const KIND_FAR: &str = "each kind and 256";
pub const GAP: &str = "a hole below a decided one";
pub const LAST_HOLE: &str = "a hole with a vote and none decided above";
pub const UNTOUCHED: &str = "no hole where decided ones are followed by untouched ones";
pub const FRAME_LENGTH: &str = "each length up to 100";
pub const FLIPPED_BIT: &str = "each bit from byte 12 on flipped";
pub const HEADER_FAULT: &str = "each reason of 22 alone, sums right";
pub const UDP_FAULT: &str = "each reason of 24 alone, sums right";
pub const IPV4_ZERO: &str = "IPv4 checksum 0000 taken";
pub const IPV4_ONES: &str = "ffff for it refused";
pub const UDP_ONES: &str = "UDP checksum ffff taken";
pub const UDP_ZERO: &str = "0000 for it refused";
pub const SECOND_CARRY: &str = "either checksum fffe, by a second carry, taken";
pub const TABLE_FAULT: &str = "each reason of 30 alone";
pub const TWICE: &str = "each place as one of two with a pass";
pub const TOO_MANY_LEFT: &str = "each place with rides left above 40";
pub const PAST_COUNT: &str = "either of these past the count, taken";
pub const IN_USE: &str = "each count of passes in use";
pub const ENTRY_LENGTH: &str = "each length up to 32";
pub const ENTRY_FAULT: &str = "each reason of 31 alone";
pub const LATER_REASON: &str = "32 before 33, 35 before 36 and 37, 36 before 37";
pub const BOARDING_BOUND: &str = "boarded on the last day, with the next scan, on the last ride";
pub const SUM: &str = "rides sold equal to those boarded and left";

pub type PacketWrite = (Fields, Vec<u8>);
pub type PacketRead = (Vec<u8>, Fields);
pub type PrimaryStep = (Settings, Vec<u8>, Vec<u32>);
pub type PrimaryRequest = (Settings, Vec<u8>, u32);
pub type AcceptorStep = (Settings, u32, Vec<u8>, AcceptorTables);
pub type BackupStart = (Settings, u32, Start, Vec<u8>, BackupTables);
pub type BackupStep = (Settings, u32, Vec<u8>, BackupTables);
pub type LearnerStep = (Settings, Vec<u8>, LearnerTables);
pub type LearnerAnswer = (Settings, u32, LearnerTables, u128);
pub type LearnerDeliver = (Settings, LearnerTables, Vec<u8>, u32);
pub type LearnerFirstHole = (Settings, LearnerTables, u32);
pub type LearnerSave = (Settings, LearnerTables, Vec<u8>);
pub type LearnerReadSaved = (Settings, Vec<u8>, LearnerTables);
pub type PrimaryFrame = (Settings, u16, Vec<u8>, Vec<u32>);
pub type AcceptorFrame = (Settings, u32, u16, Vec<u8>, AcceptorTables);
pub type BackupFrame = (Settings, u32, u16, Vec<u8>, BackupTables);
pub type LearnerFrame = (Settings, u16, Vec<u8>, LearnerTables);
pub type FramePrepare = (Vec<u8>, Addresses, Vec<u8>);
pub type FrameCheck = (u16, Vec<u8>);
pub type LedgerEnter = (Vec<u8>, LedgerTable);

/// All but 7 and the refusals of a frame come after these, or where there is no frame.
fn passed_frame(answer: u32) -> bool {
    answer != 7 && !(21..=25).contains(&answer)
}

/// 10 to 17 and the verdicts come after the look at the cell, all others before.
fn looked_at_cell(answer: u32) -> bool {
    answer >= 10 && passed_frame(answer)
}

/// The fields of the packet were judged.
fn looked_at_fields(answer: u32) -> bool {
    answer >= 5 && passed_frame(answer)
}

fn instance_of(packet: &[u8]) -> usize {
    packet[8..12].iter().fold(0, |sum, byte| sum << 8 | *byte as usize)
}

fn saw_packet(comparison: &mut Comparison, answer: u32, packet: &[u8]) {
    if looked_at_fields(answer) && packet[20..36] == TOP_BIT.to_be_bytes() {
        comparison.saw(PACKET_TOP_BIT, 0);
    }
}

fn saw_value(comparison: &mut Comparison, values: &[u64], cell: usize) {
    if value_of(values, cell) == TOP_BIT {
        comparison.saw(CELL_TOP_BIT, 0);
    }
}

fn saw_next(comparison: &mut Comparison, answer: u32, settings: Settings, next: u32) {
    if looked_at_cell(answer) && (12..settings.instances.saturating_sub(1)).contains(&next) {
        comparison.saw(NEXT_WITHIN, 0);
    }
    if looked_at_cell(answer) && next > 65_535 {
        comparison.saw(NEXT_FAR, 0);
    }
}

fn saw_backup_cell(comparison: &mut Comparison, answer: u32, tables: &BackupTables, cell: usize) {
    if looked_at_cell(answer) {
        comparison.saw(PHASE, tables.phases[cell] as u32);
        comparison.saw(SET, tables.sets[cell] as u32);
        saw_value(comparison, &tables.best_values, cell);
        saw_value(comparison, &tables.own_values, cell);
    }
}

fn saw_learner_cell(comparison: &mut Comparison, answer: u32, tables: &LearnerTables, cell: usize) {
    if looked_at_cell(answer) {
        comparison.saw(SET, tables.sets[cell] as u32);
        saw_value(comparison, &tables.values, cell);
    }
}

pub fn packet_write(comparison: &mut Comparison, input: PacketWrite) -> PacketWrite {
    let archive = |lent: &mut PacketWrite| calls::packet_write(lent.0, &mut lent.1);
    let (answer, after) = comparison.compare(&input, archive, |lent| model::packet_write(lent.0, &mut lent.1));
    let fields = input.0;
    match answer {
        DONE => comparison.saw(KIND_TAKEN, fields.kind),
        5 => comparison.saw(KIND_BROKEN, fields.kind),
        _ => {}
    }
    // good if the number were a smaller one
    let good = |fields: Fields| model::packet_write(fields, &mut [0; 36]).is_ok();
    if answer == 5 && fields.switch >> 16 == 1 && good(Fields { switch: fields.switch - 65_536, ..fields }) {
        comparison.saw(SWITCH_FAR, fields.kind);
    }
    if answer == 4 && fields.kind >> 8 == 1 && good(Fields { kind: fields.kind - 256, ..fields }) {
        comparison.saw(KIND_FAR, fields.kind - 256);
    }
    after
}

pub fn packet_read(comparison: &mut Comparison, input: PacketRead) -> PacketRead {
    let archive = |lent: &mut PacketRead| calls::packet_read(&mut lent.0, &mut lent.1);
    let (answer, after) = comparison.compare(&input, archive, |lent| model::packet_read(&lent.0, &mut lent.1));
    match answer {
        DONE => comparison.saw(KIND_TAKEN, input.0[3] as u32),
        5 => comparison.saw(KIND_BROKEN, input.0[3] as u32),
        _ => {}
    }
    saw_packet(comparison, answer, &input.0);
    after
}

// Fresh tables

fn fresh<T>(comparison: &mut Comparison, input: (Settings, T), archive: fn(Settings, &mut T) -> u32, model: fn(Settings, &mut T) -> model::Answer)
where
    T: Content + Clone + PartialEq + Debug,
{
    comparison.compare(&input, |lent| archive(lent.0, &mut lent.1), |lent| model(lent.0, &mut lent.1));
    comparison.saw(M, input.0.acceptors);
}

pub fn primary_fresh(comparison: &mut Comparison, input: (Settings, Vec<u32>)) {
    fresh(comparison, input, calls::primary_fresh, model::primary_fresh);
}

pub fn acceptor_fresh(comparison: &mut Comparison, input: (Settings, AcceptorTables)) {
    fresh(comparison, input, calls::acceptor_fresh, model::acceptor_fresh);
}

pub fn backup_fresh(comparison: &mut Comparison, input: (Settings, BackupTables)) {
    fresh(comparison, input, calls::backup_fresh, model::backup_fresh);
}

pub fn learner_fresh(comparison: &mut Comparison, input: (Settings, LearnerTables)) {
    fresh(comparison, input, calls::learner_fresh, model::learner_fresh);
}

// Players

pub fn primary_step(comparison: &mut Comparison, input: PrimaryStep) -> PrimaryStep {
    let archive = |lent: &mut PrimaryStep| calls::primary_step(lent.0, &mut lent.1, &mut lent.2);
    let (answer, after) = comparison.compare(&input, archive, |lent| model::primary_step(lent.0, &mut lent.1, &mut lent.2));
    comparison.saw(M, input.0.acceptors);
    saw_packet(comparison, answer, &input.1);
    input.2.iter().for_each(|next| saw_next(comparison, answer, input.0, *next));
    after
}

pub fn primary_request(comparison: &mut Comparison, input: PrimaryRequest) -> PrimaryRequest {
    let archive = |lent: &mut PrimaryRequest| calls::primary_request(lent.0, &mut lent.1, &mut lent.2);
    let (answer, after) = comparison.compare(&input, archive, |lent| model::primary_request(lent.0, &mut lent.1, &mut lent.2));
    comparison.saw(M, input.0.acceptors);
    saw_packet(comparison, answer, &input.1);
    saw_next(comparison, answer, input.0, input.2);
    after
}

pub fn acceptor_step(comparison: &mut Comparison, input: AcceptorStep) -> AcceptorStep {
    let archive = |lent: &mut AcceptorStep| calls::acceptor_step(lent.0, lent.1, &mut lent.2, &mut lent.3);
    let (answer, after) = comparison.compare(&input, archive, |lent| model::acceptor_step(lent.0, lent.1, &mut lent.2, &mut lent.3));
    comparison.saw(M, input.0.acceptors);
    saw_packet(comparison, answer, &input.2);
    if looked_at_cell(answer) {
        saw_value(comparison, &input.3.values, instance_of(&input.2));
    }
    after
}

pub fn backup_start(comparison: &mut Comparison, input: BackupStart) -> BackupStart {
    let archive = |lent: &mut BackupStart| calls::backup_start(lent.0, lent.1, lent.2, &mut lent.3, &mut lent.4);
    let (answer, after) = comparison.compare(&input, archive, |lent| model::backup_start(lent.0, lent.1, lent.2, &mut lent.3, &mut lent.4));
    comparison.saw(M, input.0.acceptors);
    saw_backup_cell(comparison, answer, &input.4, input.2.instance as usize);
    after
}

pub fn backup_step(comparison: &mut Comparison, input: BackupStep) -> BackupStep {
    let archive = |lent: &mut BackupStep| calls::backup_step(lent.0, lent.1, &mut lent.2, &mut lent.3);
    let (answer, after) = comparison.compare(&input, archive, |lent| model::backup_step(lent.0, lent.1, &mut lent.2, &mut lent.3));
    comparison.saw(M, input.0.acceptors);
    saw_packet(comparison, answer, &input.2);
    if looked_at_cell(answer) {
        saw_backup_cell(comparison, answer, &input.3, instance_of(&input.2));
    }
    after
}

pub fn learner_step(comparison: &mut Comparison, input: LearnerStep) -> LearnerStep {
    let archive = |lent: &mut LearnerStep| calls::learner_step(lent.0, &mut lent.1, &mut lent.2);
    let (answer, after) = comparison.compare(&input, archive, |lent| model::learner_step(lent.0, &lent.1, &mut lent.2));
    comparison.saw(M, input.0.acceptors);
    saw_packet(comparison, answer, &input.1);
    if looked_at_cell(answer) {
        saw_learner_cell(comparison, answer, &input.2, instance_of(&input.1));
    }
    after
}

pub fn learner_answer(comparison: &mut Comparison, input: LearnerAnswer) -> LearnerAnswer {
    let archive = |lent: &mut LearnerAnswer| calls::learner_answer(lent.0, lent.1, &mut lent.2, &mut lent.3);
    let (answer, after) = comparison.compare(&input, archive, |lent| model::learner_answer(lent.0, lent.1, &lent.2, &mut lent.3));
    comparison.saw(M, input.0.acceptors);
    saw_learner_cell(comparison, answer, &input.2, input.1 as usize);
    after
}

// The walks look at every cell, at the first in any case.

pub fn learner_deliver(comparison: &mut Comparison, input: LearnerDeliver) -> LearnerDeliver {
    let archive = |lent: &mut LearnerDeliver| calls::learner_deliver(lent.0, &mut lent.1, &mut lent.2, &mut lent.3);
    let (answer, after) = comparison.compare(&input, archive, |lent| model::learner_deliver(lent.0, &lent.1, &mut lent.2, &mut lent.3));
    comparison.saw(M, input.0.acceptors);
    saw_learner_cell(comparison, answer, &input.1, 0);
    after
}

fn saw_hole(comparison: &mut Comparison, answer: u32, settings: Settings, sets: &[u8], hole: usize) {
    let decided = |set: &u8| 2 * set.count_ones() > settings.acceptors;
    match answer {
        DONE if sets[hole + 1..].iter().any(decided) => comparison.saw(GAP, 0),
        DONE => comparison.saw(LAST_HOLE, 0),
        NO_HOLE if decided(&sets[0]) && sets.ends_with(&[0]) => comparison.saw(UNTOUCHED, 0),
        _ => {}
    }
}

pub fn learner_first_hole(comparison: &mut Comparison, input: LearnerFirstHole) -> LearnerFirstHole {
    let archive = |lent: &mut LearnerFirstHole| calls::learner_first_hole(lent.0, &mut lent.1, &mut lent.2);
    let (answer, after) = comparison.compare(&input, archive, |lent| model::learner_first_hole(lent.0, &lent.1, &mut lent.2));
    comparison.saw(M, input.0.acceptors);
    saw_learner_cell(comparison, answer, &input.1, 0);
    saw_hole(comparison, answer, input.0, &input.1.sets, after.2 as usize);
    after
}

pub fn learner_save(comparison: &mut Comparison, input: LearnerSave) -> LearnerSave {
    let archive = |lent: &mut LearnerSave| calls::learner_save(lent.0, &mut lent.1, &mut lent.2);
    let (answer, after) = comparison.compare(&input, archive, |lent| model::learner_save(lent.0, &lent.1, &mut lent.2));
    comparison.saw(M, input.0.acceptors);
    saw_learner_cell(comparison, answer, &input.1, 0);
    after
}

pub fn learner_read_saved(comparison: &mut Comparison, input: LearnerReadSaved) -> LearnerReadSaved {
    let archive = |lent: &mut LearnerReadSaved| calls::learner_read_saved(lent.0, &mut lent.1, &mut lent.2);
    let (answer, after) = comparison.compare(&input, archive, |lent| model::learner_read_saved(lent.0, &lent.1, &mut lent.2));
    comparison.saw(M, input.0.acceptors);
    if looked_at_cell(answer) {
        // the first saved cell: its set, and its value
        comparison.saw(SET, input.1[12] as u32);
        if input.1[13..29] == TOP_BIT.to_be_bytes() {
            comparison.saw(CELL_TOP_BIT, 0);
        }
    }
    after
}

// Frames

/// The number of the reason, where it is one alone.
fn lone_fault(faults: &[bool]) -> Option<u32> {
    let mut numbers = (0..).zip(faults).filter_map(|(number, fault)| fault.then_some(number));
    numbers.next().filter(|_| numbers.next().is_none())
}

fn saw_frame(comparison: &mut Comparison, answer: u32, port: u16, frame: &[u8]) {
    if answer == 7 {
        return;
    }
    comparison.saw(FRAME_LENGTH, frame.len() as u32);
    if frame.len() != LENGTH {
        return;
    }
    let found = (word(frame, IPV4_CHECKSUM), word(frame, UDP_CHECKSUM));
    let right = (frames::ipv4_checksum(frame), frames::udp_checksum(frame));
    let (header, udp) = (frames::header_faults(frame), frames::udp_faults(port, frame));
    match answer {
        22 if found == right && udp == [false; 2] => lone_fault(&header).into_iter().for_each(|number| comparison.saw(HEADER_FAULT, number)),
        24 if found == right => lone_fault(&udp).into_iter().for_each(|number| comparison.saw(UDP_FAULT, number)),
        23 if right.0 == 0 && found.0 == 0xffff => comparison.saw(IPV4_ONES, 0),
        25 if right.1 == 0xffff && found.1 == 0 => comparison.saw(UDP_ZERO, 0),
        _ if passed_frame(answer) => saw_sums(comparison, found.0, found.1),
        _ => {}
    }
}

fn saw_sums(comparison: &mut Comparison, ipv4: u16, udp: u16) {
    match ipv4 {
        0 => comparison.saw(IPV4_ZERO, 0),
        0xfffe => comparison.saw(SECOND_CARRY, 0),
        _ => {}
    }
    match udp {
        0xffff => comparison.saw(UDP_ONES, 0),
        0xfffe => comparison.saw(SECOND_CARRY, 1),
        _ => {}
    }
}

pub fn primary_frame(comparison: &mut Comparison, input: PrimaryFrame) -> PrimaryFrame {
    let archive = |lent: &mut PrimaryFrame| calls::primary_frame(lent.0, lent.1, &mut lent.2, &mut lent.3);
    let (answer, after) = comparison.compare(&input, archive, |lent| frames::primary_frame(lent.0, lent.1, &mut lent.2, &mut lent.3));
    comparison.saw(M, input.0.acceptors);
    saw_frame(comparison, answer, input.1, &input.2);
    if passed_frame(answer) {
        saw_packet(comparison, answer, &input.2[PACKET..]);
        saw_next(comparison, answer, input.0, input.3[0]);
    }
    after
}

pub fn acceptor_frame(comparison: &mut Comparison, input: AcceptorFrame) -> AcceptorFrame {
    let archive = |lent: &mut AcceptorFrame| calls::acceptor_frame(lent.0, lent.1, lent.2, &mut lent.3, &mut lent.4);
    let (answer, after) = comparison.compare(&input, archive, |lent| frames::acceptor_frame(lent.0, lent.1, lent.2, &mut lent.3, &mut lent.4));
    comparison.saw(M, input.0.acceptors);
    saw_frame(comparison, answer, input.2, &input.3);
    if passed_frame(answer) {
        saw_packet(comparison, answer, &input.3[PACKET..]);
    }
    if looked_at_cell(answer) {
        saw_value(comparison, &input.4.values, instance_of(&input.3[PACKET..]));
    }
    after
}

pub fn backup_frame(comparison: &mut Comparison, input: BackupFrame) -> BackupFrame {
    let archive = |lent: &mut BackupFrame| calls::backup_frame(lent.0, lent.1, lent.2, &mut lent.3, &mut lent.4);
    let (answer, after) = comparison.compare(&input, archive, |lent| frames::backup_frame(lent.0, lent.1, lent.2, &mut lent.3, &mut lent.4));
    comparison.saw(M, input.0.acceptors);
    saw_frame(comparison, answer, input.2, &input.3);
    if looked_at_cell(answer) {
        saw_backup_cell(comparison, answer, &input.4, instance_of(&input.3[PACKET..]));
    }
    after
}

pub fn learner_frame(comparison: &mut Comparison, input: LearnerFrame) -> LearnerFrame {
    let archive = |lent: &mut LearnerFrame| calls::learner_frame(lent.0, lent.1, &mut lent.2, &mut lent.3);
    let (answer, after) = comparison.compare(&input, archive, |lent| frames::learner_frame(lent.0, lent.1, &lent.2, &mut lent.3));
    comparison.saw(M, input.0.acceptors);
    saw_frame(comparison, answer, input.1, &input.2);
    if looked_at_cell(answer) {
        saw_learner_cell(comparison, answer, &input.3, instance_of(&input.2[PACKET..]));
    }
    after
}

/// What it framed has a checksum of either form now and then.
pub fn frame_prepare(comparison: &mut Comparison, input: FramePrepare) {
    let archive = |lent: &mut FramePrepare| calls::frame_prepare(&mut lent.0, &mut lent.1, &mut lent.2);
    let (answer, after) = comparison.compare(&input, archive, |lent| frames::frame_prepare(&lent.0, &lent.1, &mut lent.2));
    if answer == 21 || answer == DONE {
        saw_frame(comparison, answer, input.1.port_to, &after.2);
    }
}

pub fn frame_check(comparison: &mut Comparison, input: FrameCheck) {
    let archive = |lent: &mut FrameCheck| calls::frame_check(lent.0, &mut lent.1);
    let (answer, _) = comparison.compare(&input, archive, |lent| frames::frame_check(lent.0, &lent.1));
    saw_frame(comparison, answer, input.0, &input.1);
}

/// It has no port: the frame's own is taken for it, so that of 24 one reason is left.
pub fn frame_seal(comparison: &mut Comparison, input: Vec<u8>) {
    let (answer, after) = comparison.compare(&input, |lent| calls::frame_seal(lent), |lent| frames::frame_seal(lent));
    let port = if after.len() == LENGTH { word(&after, frames::PORT_TO) } else { 0 };
    saw_frame(comparison, answer, port, &after);
}

// Ledger

fn saw_each(comparison: &mut Comparison, kind: &'static str, had: &[bool]) {
    (0..).zip(had).filter(|(_, had)| **had).for_each(|(number, _)| comparison.saw(kind, number));
}

/// What would be refused by 30 if it stood before the count.
fn saw_past_count(comparison: &mut Comparison, table: &LedgerTable) {
    let count = table.count as usize;
    let (in_use, past) = table.passes.split_at(count);
    let twice = past.iter().any(|pass| in_use.contains(pass));
    let too_many_left = table.rides_left[count..].iter().any(|rides| *rides > ledger::MOST_RIDES);
    saw_each(comparison, PAST_COUNT, &[twice, too_many_left]);
}

fn saw_known_pass(comparison: &mut Comparison, answer: u32, entry: &Entry, pass: &Pass, full: bool) {
    let (scan_not_newer, no_ride) = (entry.scan <= pass.last_scan, pass.rides_left == 0);
    let later_reasons = [answer == 32 && full, answer == 35 && scan_not_newer, answer == 35 && no_ride, answer == 36 && no_ride];
    saw_each(comparison, LATER_REASON, &later_reasons);
    if answer == BOARDED {
        let bounds = [entry.day == pass.last_day, entry.scan - 1 == pass.last_scan, pass.rides_left == 1];
        saw_each(comparison, BOARDING_BOUND, &bounds);
    }
}

fn saw_entry(comparison: &mut Comparison, answer: u32, value: &[u8], table: &LedgerTable) {
    comparison.saw(ENTRY_LENGTH, value.len() as u32);
    if value.len() != 16 {
        return;
    }
    let entry = ledger::entry_in(value);
    if answer == 31 {
        lone_fault(&ledger::entry_faults(&entry)).into_iter().for_each(|number| comparison.saw(ENTRY_FAULT, number));
    }
    let passes = table.in_use();
    if let Some(pass) = passes.iter().find(|pass| pass.number == entry.pass) {
        saw_known_pass(comparison, answer, &entry, pass, passes.len() == PASSES);
    }
}

pub fn ledger_enter(comparison: &mut Comparison, input: LedgerEnter) -> (u32, LedgerTable) {
    let archive = |lent: &mut LedgerEnter| calls::ledger_enter(&mut lent.0, &mut lent.1);
    let (answer, after) = comparison.compare(&input, archive, |lent| ledger::ledger_enter(&lent.0, &mut lent.1));
    let (value, table) = input;
    if answer == 30 {
        lone_fault(&ledger::table_faults(&table)).into_iter().for_each(|number| comparison.saw(TABLE_FAULT, number));
    } else {
        comparison.saw(IN_USE, table.count);
        saw_past_count(comparison, &table);
        saw_entry(comparison, answer, &value, &table);
    }
    (answer, after.1)
}
