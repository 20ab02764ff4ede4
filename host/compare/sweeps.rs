//! Inputs in rows: a good input of a call with one or two of its numbers gone through, so that each comes up whatever chance does.

use crate::frames::*;
use crate::inputs::TOP_BIT;
use crate::model::{self, Message, PREPARE, PROMISE, PROPOSE, REQUEST, VOTE};
use crate::scenes::Tables;
use crate::tables::*;
use crate::{both, Comparison};

const VALUES: [u128; 5] = [0, TOP_BIT, 1 << 64, 1 << 63, 1];
const ACCEPTORS: [u32; 3] = [3, 5, 7];
const DEPOT: Settings = Settings { acceptors: 3, instances: 1 };

fn packet(kind: u8, switch: u32, instance: u32, round: u32, vote_round: u32, value: u128) -> Vec<u8> {
    let mut packet = vec![0; 36];
    model::write(&Message { kind, switch: switch as u16, instance, round, vote_round, value }, &mut packet);
    packet
}

/// Every M up to 255 and some beyond, then N at its ends and beyond, each with tables of that size: the settings alone are wrong.
fn settings(comparison: &mut Comparison, call: impl Fn(&mut Comparison, Settings)) {
    for acceptors in (0..=255).chain([259, 261, 263, 65_539, 0x8000_0003, NONE]) {
        call(comparison, Settings { acceptors, instances: 2 });
    }
    for instances in [0, 1, 255, 256, 257, 1023, 1024, 1025, 1026, 2048, 65_537] {
        call(comparison, Settings { acceptors: 3, instances });
    }
}

// Packets

/// Every kind with fields of all sorts, those that its row allows and those that it does not.
fn all_fields() -> Vec<Fields> {
    let mut all = Vec::new();
    for kind in 0..=5 {
        for switch in [0, 1, 2, 3, 6, 7, 65_535, 65_536, 65_537, 65_539] {
            for round in [0, 1, 2, 3, 4, 5, NONE] {
                for vote_round in [NONE, 0, 1, 4, 5] {
                    all.extend([0, 1, NONE].map(|instance| Fields { kind, switch, instance, round, vote_round, value: 0 }));
                    all.extend([TOP_BIT, 1].map(|value| Fields { kind, switch, instance: 0, round, vote_round, value }));
                }
            }
        }
    }
    all
}

pub fn packet_write(comparison: &mut Comparison) {
    for fields in all_fields() {
        both::packet_write(comparison, (fields, vec![0xee; 36]));
        both::packet_write(comparison, (Fields { kind: fields.kind + 256, ..fields }, vec![0xee; 36]));
    }
    for length in 0..=80 {
        both::packet_write(comparison, (Fields { kind: 3, switch: 0, instance: 0, round: 0, vote_round: NONE, value: 1 }, vec![0xee; length]));
    }
}

pub fn packet_read(comparison: &mut Comparison) {
    let lent = Fields { kind: 11, switch: 12, instance: 13, round: 14, vote_round: 15, value: 16 << 64 | 17 };
    for Fields { kind, switch, instance, round, vote_round, value } in all_fields() {
        both::packet_read(comparison, (packet(kind as u8, switch, instance, round, vote_round, value), lent));
    }
    for kind in 0..=255 {
        both::packet_read(comparison, (packet(kind, 0, 0, 0, NONE, 1), lent));
    }
    for length in 0..=80 {
        let mut bytes = packet(PROPOSE, 0, 0, 0, NONE, 1);
        bytes.resize(length, 0);
        both::packet_read(comparison, (bytes, lent));
    }
}

// Fresh tables

/// Tables in use, with all settings, and each of them too short or too long by itself.
fn fresh<T: Tables>(comparison: &mut Comparison, call: fn(&mut Comparison, (Settings, T))) {
    settings(comparison, |comparison, settings| call(comparison, (settings, T::used(settings.instances as usize))));
    for table in 0..T::COUNT {
        for change in [|_| 0, |right| right - 1, |right| right + 1, |right| right / 2, |right| 2 * right] {
            let mut tables = T::used(8);
            tables.resize(table, change);
            call(comparison, (Settings { acceptors: 5, instances: 8 }, tables));
        }
    }
}

pub fn primary_fresh(comparison: &mut Comparison) {
    fresh(comparison, both::primary_fresh);
}

pub fn acceptor_fresh(comparison: &mut Comparison) {
    fresh(comparison, both::acceptor_fresh);
}

pub fn backup_fresh(comparison: &mut Comparison) {
    fresh(comparison, both::backup_fresh);
}

pub fn learner_fresh(comparison: &mut Comparison) {
    fresh(comparison, both::learner_fresh);
}

// Frames

const PORT: u16 = 47_036;

/// A frame to the port, whose free fields hold something: don't-fragment is set, and both sums are right.
fn frame(packet: &[u8]) -> Vec<u8> {
    let mut frame = vec![0x5a; LENGTH];
    set_word(&mut frame, ETHER_TYPE, 0x0800);
    frame[FIRST_BYTE] = 0x45;
    set_word(&mut frame, TOTAL_LENGTH, 64);
    set_word(&mut frame, FRAGMENT, 0x4000);
    frame[PROTOCOL] = 17;
    set_word(&mut frame, PORT_TO, PORT);
    set_word(&mut frame, UDP_LENGTH, 44);
    frame[PACKET..].copy_from_slice(packet);
    set_checksums(&mut frame);
    frame
}

/// The frame with one of its words changed, and the sums that are right then.
fn changed(frame: &[u8], at: usize, to: u16) -> Vec<u8> {
    let mut frame = frame.to_vec();
    set_word(&mut frame, at, to);
    set_checksums(&mut frame);
    frame
}

/// The frame with a sum of ffff, by a free word that is given what the others lack; then with the other form of zero in the checksum; then with a sum of 1.
fn forced_sums(frame: &[u8], free: usize, at: usize, checksum: fn(&[u8]) -> u16) -> [Vec<u8>; 3] {
    let lacking = checksum(&changed(frame, free, 0));
    let zero = changed(frame, free, lacking);
    let mut other_zero = zero.clone();
    set_word(&mut other_zero, at, !word(&zero, at));
    [zero, other_zero, changed(frame, free, lacking.wrapping_add(1))]
}

/// Around a packet that is taken: every length, every word of the header changed in many ways with right sums, and sums that are forced. Each bit from byte 12
/// on is flipped and then counted.
fn frames(comparison: &mut Comparison, packet: &[u8], call: impl Fn(&mut Comparison, Vec<u8>)) {
    let good = frame(packet);
    for length in 0..=100 {
        let mut frame = good.clone();
        frame.resize(length, 0);
        call(comparison, frame);
    }
    for at in (ETHER_TYPE..PACKET).step_by(2) {
        let right = word(&good, at);
        let near = (0..16).map(|bit| right ^ 1 << bit).chain([0, 1, 0xff, 0xff00, 0xffff, right.wrapping_add(1), right.swap_bytes()]);
        near.for_each(|to| call(comparison, changed(&good, at, to)));
    }
    forced_sums(&good, IDENTIFICATION, IPV4_CHECKSUM, ipv4_checksum).into_iter().for_each(|frame| call(comparison, frame));
    forced_sums(&good, PORT_FROM, UDP_CHECKSUM, udp_checksum).into_iter().for_each(|frame| call(comparison, frame));
    for bit in 0..8 * (LENGTH - ETHER_TYPE) {
        let mut frame = good.clone();
        frame[ETHER_TYPE + bit / 8] ^= 1 << (bit % 8);
        call(comparison, frame);
        comparison.saw(both::FLIPPED_BIT, bit as u32);
    }
}

pub fn frame_prepare(comparison: &mut Comparison) {
    let addresses = |ip_from, port_from| Addresses {
        ethernet_to: vec![1, 2, 3, 4, 5, 6],
        ethernet_from: vec![7, 8, 9, 10, 11, 12],
        ip_from,
        ip_to: 0x0d0e_0f10,
        port_from,
        port_to: 0x1112,
    };
    for Fields { kind, switch, instance, round, vote_round, value } in all_fields() {
        let packet = packet(kind as u8, switch, instance, round, vote_round, value);
        both::frame_prepare(comparison, (packet, addresses(NONE, 0xffff), vec![0xee; LENGTH]));
    }
    let prepare = packet(PREPARE, 1, 0, 1, NONE, 0);
    for length in 0..=100 {
        both::frame_prepare(comparison, (prepare.clone(), addresses(0, 0), vec![0xee; length]));
    }
    // the half of an address and the port that are free are given what the sums lack, and one more
    let mut framed = vec![0; LENGTH];
    let _ = crate::frames::frame_prepare(&prepare, &addresses(0, 0), &mut framed);
    for more in 0..2 {
        both::frame_prepare(comparison, (prepare.clone(), addresses(ipv4_checksum(&framed) as u32 + more, 0), vec![0xee; LENGTH]));
        both::frame_prepare(comparison, (prepare.clone(), addresses(0, udp_checksum(&framed) + more as u16), vec![0xee; LENGTH]));
    }
}

pub fn frame_check(comparison: &mut Comparison) {
    frames(comparison, &request(), |comparison, frame| both::frame_check(comparison, (PORT, frame)));
}

pub fn frame_seal(comparison: &mut Comparison) {
    frames(comparison, &request(), both::frame_seal);
}

// Primary

fn request() -> Vec<u8> {
    packet(REQUEST, 9, 0, 0, NONE, TOP_BIT)
}

/// Every next instance up to N and a little over, and some far beyond.
fn nexts() -> impl Iterator<Item = u32> {
    (0..=1026).chain([65_535, 65_536, 65_537, 65_536 + 1023, 65_536 + 1024, 1 << 31, NONE - 1, NONE])
}

fn primary(comparison: &mut Comparison, call: fn(&mut Comparison, both::PrimaryStep)) {
    settings(comparison, |comparison, settings| call(comparison, (settings, request(), vec![0])));
    for next in nexts() {
        call(comparison, (Settings { acceptors: 3, instances: 1024 }, request(), vec![next]));
    }
}

pub fn primary_step(comparison: &mut Comparison) {
    primary(comparison, |comparison, input| drop(both::primary_step(comparison, input)));
}

pub fn primary_frame(comparison: &mut Comparison) {
    primary(comparison, |comparison, (settings, packet, next)| drop(both::primary_frame(comparison, (settings, PORT, frame(&packet), next))));
    frames(comparison, &request(), |comparison, frame| drop(both::primary_frame(comparison, (DEPOT, PORT, frame, vec![0]))));
}

pub fn primary_request(comparison: &mut Comparison) {
    settings(comparison, |comparison, settings| {
        both::primary_request(comparison, (settings, request(), 0));
    });
    for next in nexts() {
        both::primary_request(comparison, (Settings { acceptors: 3, instances: 1024 }, request(), next));
    }
}

// Acceptor

fn acceptor(comparison: &mut Comparison, call: fn(&mut Comparison, both::AcceptorStep)) {
    settings(comparison, |comparison, settings| {
        let propose = packet(PROPOSE, 0, 0, 0, NONE, TOP_BIT);
        call(comparison, (settings, 0, propose, AcceptorTables::fresh(settings.instances as usize)));
    });
    for round in [0, 1, 4, 5, NONE] {
        for vote_round in [NONE, 0, 1, 4, 5] {
            for value in VALUES {
                let tables = AcceptorTables { rounds: vec![round], vote_rounds: vec![vote_round], values: vec![(value >> 64) as u64, value as u64] };
                orders().into_iter().for_each(|packet| call(comparison, (DEPOT, 2, packet, tables.clone())));
            }
        }
    }
}

/// Prepares and proposes for the one cell.
fn orders() -> Vec<Vec<u8>> {
    let prepares = [1, 5].map(|round| packet(PREPARE, 1, 0, round, NONE, 0));
    let proposes = [(0, TOP_BIT), (1, 0), (5, TOP_BIT)].map(|(round, value)| packet(PROPOSE, round % 4, 0, round, NONE, value));
    prepares.into_iter().chain(proposes).collect()
}

pub fn acceptor_step(comparison: &mut Comparison) {
    acceptor(comparison, |comparison, input| drop(both::acceptor_step(comparison, input)));
}

pub fn acceptor_frame(comparison: &mut Comparison) {
    acceptor(comparison, |comparison, (settings, own, packet, tables)| {
        both::acceptor_frame(comparison, (settings, own, PORT, frame(&packet), tables));
    });
    for order in orders() {
        frames(comparison, &order, |comparison, frame| drop(both::acceptor_frame(comparison, (DEPOT, 2, PORT, frame, AcceptorTables::fresh(1)))));
    }
}

// Backup 1, with one cell in round 5

fn backup_cell(phase: u8, set: u8, best_vote_round: u32, best_value: u128) -> BackupTables {
    let mut tables = BackupTables::fresh(1);
    tables.rounds[0] = 5;
    tables.phases[0] = phase;
    tables.sets[0] = set;
    tables.best_vote_rounds[0] = best_vote_round;
    model::set_value(&mut tables.best_values, 0, best_value);
    model::set_value(&mut tables.own_values, 0, TOP_BIT);
    tables
}

/// Cells of every phase, that are fresh, asking or proposed but for the phase; cells of every set; and best votes of all sorts.
fn backup_cells(acceptors: u32) -> Vec<BackupTables> {
    let majority = acceptors / 2 + 1;
    let (asking, proposed) = ((1 << (majority - 1)) - 1, (1 << majority) - 1);
    let mut cells = Vec::new();
    for number in 0..=255 {
        let mut fresh = BackupTables::fresh(1);
        fresh.phases[0] = number;
        cells.push(fresh);
        cells.push(backup_cell(number, asking, NONE, 0));
        cells.push(backup_cell(number, proposed, 1, TOP_BIT));
        for phase in 0..3 {
            cells.push(backup_cell(phase, number, NONE, 0));
        }
    }
    for value in VALUES {
        for best_vote_round in [NONE, 0, 1, 4, 5, 6] {
            cells.push(backup_cell(1, asking, best_vote_round, value));
        }
    }
    cells
}

pub fn backup_start(comparison: &mut Comparison) {
    let start = |floor| Start { instance: 0, floor, value: TOP_BIT };
    settings(comparison, |comparison, settings| {
        let start = Start { instance: 0, floor: 0, value: TOP_BIT };
        both::backup_start(comparison, (settings, 1, start, vec![0; 36], BackupTables::fresh(settings.instances as usize)));
    });
    for acceptors in ACCEPTORS {
        for cell in backup_cells(acceptors) {
            both::backup_start(comparison, (Settings { acceptors, instances: 1 }, 1, start(0), vec![0; 36], cell));
        }
    }
    for own in 1..=3 {
        for floor in (0..12).chain(NONE - 12..=NONE) {
            both::backup_start(comparison, (Settings { acceptors: 3, instances: 1 }, own, start(floor), vec![0; 36], BackupTables::fresh(1)));
        }
    }
}

fn backup(comparison: &mut Comparison, call: fn(&mut Comparison, both::BackupStep)) {
    settings(comparison, |comparison, settings| {
        let mut tables = BackupTables::fresh(settings.instances as usize);
        let start = Start { instance: 0, floor: 0, value: 0 };
        let _ = model::backup_start(settings, 1, start, &mut [0; 36], &mut tables);
        call(comparison, (settings, 1, packet(PROMISE, 0, 0, 1, NONE, 0), tables));
    });
    for acceptors in ACCEPTORS {
        for cell in backup_cells(acceptors) {
            let promise = packet(PROMISE, acceptors - 1, 0, 5, 0, TOP_BIT);
            call(comparison, (Settings { acceptors, instances: 1 }, 1, promise, cell));
        }
    }
}

pub fn backup_step(comparison: &mut Comparison) {
    backup(comparison, |comparison, input| drop(both::backup_step(comparison, input)));
}

/// A promise that is held, and one that makes a majority.
pub fn backup_frame(comparison: &mut Comparison) {
    backup(comparison, |comparison, (settings, own, packet, tables)| {
        both::backup_frame(comparison, (settings, own, PORT, frame(&packet), tables));
    });
    for set in [0, 1] {
        let promise = packet(PROMISE, 2, 0, 5, 0, TOP_BIT);
        frames(comparison, &promise, |comparison, frame| drop(both::backup_frame(comparison, (DEPOT, 1, PORT, frame, backup_cell(1, set, NONE, 0)))));
    }
}

// Learner

/// One cell of every set, unheard, in round 0 and in round 5, of each value.
fn learner_cells(comparison: &mut Comparison, call: fn(&mut Comparison, Settings, LearnerTables)) {
    for acceptors in ACCEPTORS {
        for set in 0..=255 {
            for (round, value) in [(NONE, 0), (NONE, TOP_BIT), (0, 1), (5, TOP_BIT)] {
                let tables = LearnerTables { rounds: vec![round], sets: vec![set], values: vec![(value >> 64) as u64, value as u64] };
                call(comparison, Settings { acceptors, instances: 1 }, tables);
            }
        }
    }
}

/// The call with all settings on fresh tables, then on every cell.
fn learner(comparison: &mut Comparison, call: fn(&mut Comparison, Settings, LearnerTables)) {
    settings(comparison, |comparison, settings| call(comparison, settings, LearnerTables::fresh(settings.instances as usize)));
    learner_cells(comparison, call);
}

fn vote() -> Vec<u8> {
    packet(VOTE, 2, 0, 5, 5, TOP_BIT)
}

pub fn learner_step(comparison: &mut Comparison) {
    learner(comparison, |comparison, settings, tables| {
        both::learner_step(comparison, (settings, vote(), tables));
    });
}

/// A vote that is held.
pub fn learner_frame(comparison: &mut Comparison) {
    learner(comparison, |comparison, settings, tables| {
        both::learner_frame(comparison, (settings, PORT, frame(&vote()), tables));
    });
    frames(comparison, &vote(), |comparison, frame| drop(both::learner_frame(comparison, (DEPOT, PORT, frame, LearnerTables::fresh(1)))));
}

pub fn learner_answer(comparison: &mut Comparison) {
    learner(comparison, |comparison, settings, tables| {
        both::learner_answer(comparison, (settings, 0, tables, 7));
    });
}

pub fn learner_deliver(comparison: &mut Comparison) {
    learner(comparison, |comparison, settings, tables| {
        let buffer = vec![0xee; 16 * settings.instances as usize];
        both::learner_deliver(comparison, (settings, tables, buffer, 7));
    });
}

pub fn learner_first_hole(comparison: &mut Comparison) {
    learner(comparison, |comparison, settings, tables| {
        both::learner_first_hole(comparison, (settings, tables, 7));
    });
}

pub fn learner_save(comparison: &mut Comparison) {
    learner(comparison, |comparison, settings, tables| {
        let buffer = vec![0xee; 8 + 21 * settings.instances as usize];
        both::learner_save(comparison, (settings, tables, buffer));
    });
}

/// The cells stand in the saved bytes, and those lent are fresh.
pub fn learner_read_saved(comparison: &mut Comparison) {
    learner(comparison, |comparison, settings, tables| {
        let mut saved = vec![0; 8 + 21 * settings.instances as usize];
        model::write_saved(settings, &tables, &mut saved);
        both::learner_read_saved(comparison, (settings, saved, LearnerTables::fresh(settings.instances as usize)));
    });
}
