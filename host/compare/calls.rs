//! The archives' calls, declared after the header, over the same tables as the model. What the header lends as const is lent here from something that
//! may change, so that a write to it would be seen.

use crate::tables::*;

#[repr(C)]
struct Primary {
    next: u32,
}

#[rustfmt::skip]
extern "C" {
    fn myrthakel_packet_write(
        kind: u32, switch_number: u32, instance: u32, round: u32, vote_round: u32, value_high: u64, value_low: u64,
        packet: *mut u8, packet_length: usize,
    ) -> u32;

    fn myrthakel_packet_read(
        packet: *const u8, packet_length: usize,
        kind: *mut u32, switch_number: *mut u32, instance: *mut u32, round: *mut u32, vote_round: *mut u32, value_high: *mut u64, value_low: *mut u64,
    ) -> u32;

    fn myrthakel_primary_fresh(acceptors: u32, instances: u32, next: *mut u32, next_length: usize) -> u32;

    fn myrthakel_acceptor_fresh(
        acceptors: u32, instances: u32,
        rounds: *mut u32, rounds_length: usize,
        vote_rounds: *mut u32, vote_rounds_length: usize,
        values: *mut u64, values_length: usize,
    ) -> u32;

    fn myrthakel_backup_fresh(
        acceptors: u32, instances: u32,
        rounds: *mut u32, rounds_length: usize,
        phases: *mut u8, phases_length: usize,
        sets: *mut u8, sets_length: usize,
        best_vote_rounds: *mut u32, best_vote_rounds_length: usize,
        best_values: *mut u64, best_values_length: usize,
        own_values: *mut u64, own_values_length: usize,
    ) -> u32;

    fn myrthakel_learner_fresh(
        acceptors: u32, instances: u32,
        rounds: *mut u32, rounds_length: usize,
        sets: *mut u8, sets_length: usize,
        values: *mut u64, values_length: usize,
    ) -> u32;

    fn myrthakel_primary_step(acceptors: u32, instances: u32, packet: *mut u8, packet_length: usize, next: *mut u32, next_length: usize) -> u32;

    fn myrthakel_primary_request(acceptors: u32, instances: u32, packet: *mut u8, packet_length: usize, primary: *mut Primary) -> u32;

    fn myrthakel_acceptor_step(
        acceptors: u32, instances: u32, own: u32,
        packet: *mut u8, packet_length: usize,
        rounds: *mut u32, rounds_length: usize,
        vote_rounds: *mut u32, vote_rounds_length: usize,
        values: *mut u64, values_length: usize,
    ) -> u32;

    fn myrthakel_backup_start(
        acceptors: u32, instances: u32, own: u32,
        instance: u32, floor: u32, value_high: u64, value_low: u64,
        buffer: *mut u8, buffer_length: usize,
        rounds: *mut u32, rounds_length: usize,
        phases: *mut u8, phases_length: usize,
        sets: *mut u8, sets_length: usize,
        best_vote_rounds: *mut u32, best_vote_rounds_length: usize,
        best_values: *mut u64, best_values_length: usize,
        own_values: *mut u64, own_values_length: usize,
    ) -> u32;

    fn myrthakel_backup_step(
        acceptors: u32, instances: u32, own: u32,
        packet: *mut u8, packet_length: usize,
        rounds: *mut u32, rounds_length: usize,
        phases: *mut u8, phases_length: usize,
        sets: *mut u8, sets_length: usize,
        best_vote_rounds: *mut u32, best_vote_rounds_length: usize,
        best_values: *mut u64, best_values_length: usize,
        own_values: *mut u64, own_values_length: usize,
    ) -> u32;

    fn myrthakel_learner_step(
        acceptors: u32, instances: u32,
        packet: *const u8, packet_length: usize,
        rounds: *mut u32, rounds_length: usize,
        sets: *mut u8, sets_length: usize,
        values: *mut u64, values_length: usize,
    ) -> u32;

    fn myrthakel_learner_answer(
        acceptors: u32, instances: u32, instance: u32,
        rounds: *const u32, rounds_length: usize,
        sets: *const u8, sets_length: usize,
        values: *const u64, values_length: usize,
        value_high: *mut u64, value_low: *mut u64,
    ) -> u32;

    fn myrthakel_learner_deliver(
        acceptors: u32, instances: u32,
        rounds: *const u32, rounds_length: usize,
        sets: *const u8, sets_length: usize,
        values: *const u64, values_length: usize,
        buffer: *mut u8, buffer_length: usize,
        count: *mut u32,
    ) -> u32;

    fn myrthakel_learner_first_hole(
        acceptors: u32, instances: u32,
        rounds: *const u32, rounds_length: usize,
        sets: *const u8, sets_length: usize,
        values: *const u64, values_length: usize,
        instance: *mut u32,
    ) -> u32;

    fn myrthakel_learner_save(
        acceptors: u32, instances: u32,
        rounds: *const u32, rounds_length: usize,
        sets: *const u8, sets_length: usize,
        values: *const u64, values_length: usize,
        buffer: *mut u8, buffer_length: usize,
    ) -> u32;

    fn myrthakel_learner_read_saved(
        acceptors: u32, instances: u32,
        saved: *const u8, saved_length: usize,
        rounds: *mut u32, rounds_length: usize,
        sets: *mut u8, sets_length: usize,
        values: *mut u64, values_length: usize,
    ) -> u32;

    fn myrthakel_primary_frame(
        acceptors: u32, instances: u32, port: u16,
        frame: *mut u8, frame_length: usize,
        next: *mut u32, next_length: usize,
    ) -> u32;

    fn myrthakel_acceptor_frame(
        acceptors: u32, instances: u32, own: u32, port: u16,
        frame: *mut u8, frame_length: usize,
        rounds: *mut u32, rounds_length: usize,
        vote_rounds: *mut u32, vote_rounds_length: usize,
        values: *mut u64, values_length: usize,
    ) -> u32;

    fn myrthakel_backup_frame(
        acceptors: u32, instances: u32, own: u32, port: u16,
        frame: *mut u8, frame_length: usize,
        rounds: *mut u32, rounds_length: usize,
        phases: *mut u8, phases_length: usize,
        sets: *mut u8, sets_length: usize,
        best_vote_rounds: *mut u32, best_vote_rounds_length: usize,
        best_values: *mut u64, best_values_length: usize,
        own_values: *mut u64, own_values_length: usize,
    ) -> u32;

    fn myrthakel_learner_frame(
        acceptors: u32, instances: u32, port: u16,
        frame: *const u8, frame_length: usize,
        rounds: *mut u32, rounds_length: usize,
        sets: *mut u8, sets_length: usize,
        values: *mut u64, values_length: usize,
    ) -> u32;

    fn myrthakel_frame_prepare(
        packet: *const u8, packet_length: usize,
        ethernet_to: *const u8, ethernet_from: *const u8,
        ip_from: u32, ip_to: u32, port_from: u16, port_to: u16,
        frame: *mut u8, frame_length: usize,
    ) -> u32;

    fn myrthakel_frame_check(port: u16, frame: *const u8, frame_length: usize) -> u32;

    fn myrthakel_frame_seal(frame: *mut u8, frame_length: usize) -> u32;

    fn myrthakel_ledger_enter(
        value: *const u8, value_length: usize,
        passes: *mut u32, passes_length: usize,
        rides_left: *mut u8, rides_left_length: usize,
        last_days: *mut u16, last_days_length: usize,
        last_scans: *mut u32, last_scans_length: usize,
        count: *mut u32,
    ) -> u32;
}

#[rustfmt::skip]
pub fn packet_write(fields: Fields, packet: &mut [u8]) -> u32 {
    unsafe {
        myrthakel_packet_write(
            fields.kind, fields.switch, fields.instance, fields.round, fields.vote_round, (fields.value >> 64) as u64, fields.value as u64,
            packet.as_mut_ptr(), packet.len(),
        )
    }
}

#[rustfmt::skip]
pub fn packet_read(packet: &mut [u8], fields: &mut Fields) -> u32 {
    let mut high = (fields.value >> 64) as u64;
    let mut low = fields.value as u64;
    let answer = unsafe {
        myrthakel_packet_read(
            packet.as_mut_ptr(), packet.len(),
            &mut fields.kind, &mut fields.switch, &mut fields.instance, &mut fields.round, &mut fields.vote_round, &mut high, &mut low,
        )
    };
    fields.value = (high as u128) << 64 | low as u128;
    answer
}

pub fn primary_fresh(settings: Settings, next: &mut Vec<u32>) -> u32 {
    unsafe { myrthakel_primary_fresh(settings.acceptors, settings.instances, next.as_mut_ptr(), next.len()) }
}

#[rustfmt::skip]
pub fn acceptor_fresh(settings: Settings, tables: &mut AcceptorTables) -> u32 {
    let Settings { acceptors, instances } = settings;
    unsafe {
        myrthakel_acceptor_fresh(
            acceptors, instances,
            tables.rounds.as_mut_ptr(), tables.rounds.len(),
            tables.vote_rounds.as_mut_ptr(), tables.vote_rounds.len(),
            tables.values.as_mut_ptr(), tables.values.len(),
        )
    }
}

#[rustfmt::skip]
pub fn backup_fresh(settings: Settings, tables: &mut BackupTables) -> u32 {
    let Settings { acceptors, instances } = settings;
    unsafe {
        myrthakel_backup_fresh(
            acceptors, instances,
            tables.rounds.as_mut_ptr(), tables.rounds.len(),
            tables.phases.as_mut_ptr(), tables.phases.len(),
            tables.sets.as_mut_ptr(), tables.sets.len(),
            tables.best_vote_rounds.as_mut_ptr(), tables.best_vote_rounds.len(),
            tables.best_values.as_mut_ptr(), tables.best_values.len(),
            tables.own_values.as_mut_ptr(), tables.own_values.len(),
        )
    }
}

#[rustfmt::skip]
pub fn learner_fresh(settings: Settings, tables: &mut LearnerTables) -> u32 {
    let Settings { acceptors, instances } = settings;
    unsafe {
        myrthakel_learner_fresh(
            acceptors, instances,
            tables.rounds.as_mut_ptr(), tables.rounds.len(),
            tables.sets.as_mut_ptr(), tables.sets.len(),
            tables.values.as_mut_ptr(), tables.values.len(),
        )
    }
}

pub fn primary_step(settings: Settings, packet: &mut [u8], next: &mut [u32]) -> u32 {
    let Settings { acceptors, instances } = settings;
    unsafe { myrthakel_primary_step(acceptors, instances, packet.as_mut_ptr(), packet.len(), next.as_mut_ptr(), next.len()) }
}

pub fn primary_request(settings: Settings, packet: &mut [u8], next: &mut u32) -> u32 {
    let Settings { acceptors, instances } = settings;
    // a record of its own in memory with borders
    let mut primary = Box::new(Primary { next: *next });
    let answer = unsafe { myrthakel_primary_request(acceptors, instances, packet.as_mut_ptr(), packet.len(), &mut *primary) };
    *next = primary.next;
    answer
}

#[rustfmt::skip]
pub fn acceptor_step(settings: Settings, own: u32, packet: &mut [u8], tables: &mut AcceptorTables) -> u32 {
    let Settings { acceptors, instances } = settings;
    unsafe {
        myrthakel_acceptor_step(
            acceptors, instances, own,
            packet.as_mut_ptr(), packet.len(),
            tables.rounds.as_mut_ptr(), tables.rounds.len(),
            tables.vote_rounds.as_mut_ptr(), tables.vote_rounds.len(),
            tables.values.as_mut_ptr(), tables.values.len(),
        )
    }
}

#[rustfmt::skip]
pub fn backup_start(settings: Settings, own: u32, start: Start, buffer: &mut [u8], tables: &mut BackupTables) -> u32 {
    let Settings { acceptors, instances } = settings;
    unsafe {
        myrthakel_backup_start(
            acceptors, instances, own,
            start.instance, start.floor, (start.value >> 64) as u64, start.value as u64,
            buffer.as_mut_ptr(), buffer.len(),
            tables.rounds.as_mut_ptr(), tables.rounds.len(),
            tables.phases.as_mut_ptr(), tables.phases.len(),
            tables.sets.as_mut_ptr(), tables.sets.len(),
            tables.best_vote_rounds.as_mut_ptr(), tables.best_vote_rounds.len(),
            tables.best_values.as_mut_ptr(), tables.best_values.len(),
            tables.own_values.as_mut_ptr(), tables.own_values.len(),
        )
    }
}

#[rustfmt::skip]
pub fn backup_step(settings: Settings, own: u32, packet: &mut [u8], tables: &mut BackupTables) -> u32 {
    let Settings { acceptors, instances } = settings;
    unsafe {
        myrthakel_backup_step(
            acceptors, instances, own,
            packet.as_mut_ptr(), packet.len(),
            tables.rounds.as_mut_ptr(), tables.rounds.len(),
            tables.phases.as_mut_ptr(), tables.phases.len(),
            tables.sets.as_mut_ptr(), tables.sets.len(),
            tables.best_vote_rounds.as_mut_ptr(), tables.best_vote_rounds.len(),
            tables.best_values.as_mut_ptr(), tables.best_values.len(),
            tables.own_values.as_mut_ptr(), tables.own_values.len(),
        )
    }
}

#[rustfmt::skip]
pub fn learner_step(settings: Settings, packet: &mut [u8], tables: &mut LearnerTables) -> u32 {
    let Settings { acceptors, instances } = settings;
    unsafe {
        myrthakel_learner_step(
            acceptors, instances,
            packet.as_mut_ptr(), packet.len(),
            tables.rounds.as_mut_ptr(), tables.rounds.len(),
            tables.sets.as_mut_ptr(), tables.sets.len(),
            tables.values.as_mut_ptr(), tables.values.len(),
        )
    }
}

#[rustfmt::skip]
pub fn learner_answer(settings: Settings, instance: u32, tables: &mut LearnerTables, value: &mut u128) -> u32 {
    let Settings { acceptors, instances } = settings;
    let mut high = (*value >> 64) as u64;
    let mut low = *value as u64;
    let answer = unsafe {
        myrthakel_learner_answer(
            acceptors, instances, instance,
            tables.rounds.as_mut_ptr(), tables.rounds.len(),
            tables.sets.as_mut_ptr(), tables.sets.len(),
            tables.values.as_mut_ptr(), tables.values.len(),
            &mut high, &mut low,
        )
    };
    *value = (high as u128) << 64 | low as u128;
    answer
}

#[rustfmt::skip]
pub fn learner_deliver(settings: Settings, tables: &mut LearnerTables, buffer: &mut [u8], count: &mut u32) -> u32 {
    let Settings { acceptors, instances } = settings;
    unsafe {
        myrthakel_learner_deliver(
            acceptors, instances,
            tables.rounds.as_mut_ptr(), tables.rounds.len(),
            tables.sets.as_mut_ptr(), tables.sets.len(),
            tables.values.as_mut_ptr(), tables.values.len(),
            buffer.as_mut_ptr(), buffer.len(),
            count,
        )
    }
}

#[rustfmt::skip]
pub fn learner_first_hole(settings: Settings, tables: &mut LearnerTables, instance: &mut u32) -> u32 {
    let Settings { acceptors, instances } = settings;
    unsafe {
        myrthakel_learner_first_hole(
            acceptors, instances,
            tables.rounds.as_mut_ptr(), tables.rounds.len(),
            tables.sets.as_mut_ptr(), tables.sets.len(),
            tables.values.as_mut_ptr(), tables.values.len(),
            instance,
        )
    }
}

#[rustfmt::skip]
pub fn learner_save(settings: Settings, tables: &mut LearnerTables, buffer: &mut [u8]) -> u32 {
    let Settings { acceptors, instances } = settings;
    unsafe {
        myrthakel_learner_save(
            acceptors, instances,
            tables.rounds.as_mut_ptr(), tables.rounds.len(),
            tables.sets.as_mut_ptr(), tables.sets.len(),
            tables.values.as_mut_ptr(), tables.values.len(),
            buffer.as_mut_ptr(), buffer.len(),
        )
    }
}

#[rustfmt::skip]
pub fn learner_read_saved(settings: Settings, saved: &mut [u8], tables: &mut LearnerTables) -> u32 {
    let Settings { acceptors, instances } = settings;
    unsafe {
        myrthakel_learner_read_saved(
            acceptors, instances,
            saved.as_mut_ptr(), saved.len(),
            tables.rounds.as_mut_ptr(), tables.rounds.len(),
            tables.sets.as_mut_ptr(), tables.sets.len(),
            tables.values.as_mut_ptr(), tables.values.len(),
        )
    }
}

pub fn primary_frame(settings: Settings, port: u16, frame: &mut [u8], next: &mut [u32]) -> u32 {
    let Settings { acceptors, instances } = settings;
    unsafe { myrthakel_primary_frame(acceptors, instances, port, frame.as_mut_ptr(), frame.len(), next.as_mut_ptr(), next.len()) }
}

#[rustfmt::skip]
pub fn acceptor_frame(settings: Settings, own: u32, port: u16, frame: &mut [u8], tables: &mut AcceptorTables) -> u32 {
    let Settings { acceptors, instances } = settings;
    unsafe {
        myrthakel_acceptor_frame(
            acceptors, instances, own, port,
            frame.as_mut_ptr(), frame.len(),
            tables.rounds.as_mut_ptr(), tables.rounds.len(),
            tables.vote_rounds.as_mut_ptr(), tables.vote_rounds.len(),
            tables.values.as_mut_ptr(), tables.values.len(),
        )
    }
}

#[rustfmt::skip]
pub fn backup_frame(settings: Settings, own: u32, port: u16, frame: &mut [u8], tables: &mut BackupTables) -> u32 {
    let Settings { acceptors, instances } = settings;
    unsafe {
        myrthakel_backup_frame(
            acceptors, instances, own, port,
            frame.as_mut_ptr(), frame.len(),
            tables.rounds.as_mut_ptr(), tables.rounds.len(),
            tables.phases.as_mut_ptr(), tables.phases.len(),
            tables.sets.as_mut_ptr(), tables.sets.len(),
            tables.best_vote_rounds.as_mut_ptr(), tables.best_vote_rounds.len(),
            tables.best_values.as_mut_ptr(), tables.best_values.len(),
            tables.own_values.as_mut_ptr(), tables.own_values.len(),
        )
    }
}

#[rustfmt::skip]
pub fn learner_frame(settings: Settings, port: u16, frame: &mut [u8], tables: &mut LearnerTables) -> u32 {
    let Settings { acceptors, instances } = settings;
    unsafe {
        myrthakel_learner_frame(
            acceptors, instances, port,
            frame.as_mut_ptr(), frame.len(),
            tables.rounds.as_mut_ptr(), tables.rounds.len(),
            tables.sets.as_mut_ptr(), tables.sets.len(),
            tables.values.as_mut_ptr(), tables.values.len(),
        )
    }
}

#[rustfmt::skip]
pub fn frame_prepare(packet: &mut [u8], addresses: &mut Addresses, frame: &mut [u8]) -> u32 {
    unsafe {
        myrthakel_frame_prepare(
            packet.as_mut_ptr(), packet.len(),
            addresses.ethernet_to.as_mut_ptr(), addresses.ethernet_from.as_mut_ptr(),
            addresses.ip_from, addresses.ip_to, addresses.port_from, addresses.port_to,
            frame.as_mut_ptr(), frame.len(),
        )
    }
}

pub fn frame_check(port: u16, frame: &mut [u8]) -> u32 {
    unsafe { myrthakel_frame_check(port, frame.as_mut_ptr(), frame.len()) }
}

pub fn frame_seal(frame: &mut [u8]) -> u32 {
    unsafe { myrthakel_frame_seal(frame.as_mut_ptr(), frame.len()) }
}

#[rustfmt::skip]
pub fn ledger_enter(value: &mut [u8], table: &mut LedgerTable) -> u32 {
    unsafe {
        myrthakel_ledger_enter(
            value.as_mut_ptr(), value.len(),
            table.passes.as_mut_ptr(), table.passes.len(),
            table.rides_left.as_mut_ptr(), table.rides_left.len(),
            table.last_days.as_mut_ptr(), table.last_days.len(),
            table.last_scans.as_mut_ptr(), table.last_scans.len(),
            &mut table.count,
        )
    }
}
