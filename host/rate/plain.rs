//! The baseline: the four players, an acceptor on frames and the ledger, with every check of the paper and its requests, in their order, as one writes them in
//! Rust for speed. No proof, no contract.

pub mod acceptor;
pub mod backup;
pub mod frames;
pub mod learner;
pub mod ledger;
pub mod primary;

const NONE: u32 = u32::MAX;

pub struct Fields {
    kind: u8,
    switch: u16,
    instance: u32,
    round: u32,
    vote_round: u32,
    high: u64,
    low: u64,
}

#[inline(always)]
fn settings_allowed(acceptors: u32, instances: u32) -> bool {
    matches!(acceptors, 3 | 5 | 7) && (1..=1024).contains(&instances)
}

#[inline(always)]
fn owned_or_0(round: u32) -> bool {
    round == 0 || (round != NONE && round % 4 != 0)
}

/// 0 the primary, 1 to 3 that backup, 4 nobody
#[inline(always)]
fn owner(round: u32) -> u16 {
    if round == 0 {
        0
    } else if round == NONE || round % 4 == 0 {
        4
    } else {
        (round % 4) as u16
    }
}

/// None with null, or an owned round or 0 that is not above this one.
#[inline(always)]
fn vote_up_to(round: u32, vote_round: u32, high: u64, low: u64) -> bool {
    if vote_round == NONE {
        high == 0 && low == 0
    } else {
        owned_or_0(vote_round) && vote_round <= round
    }
}

#[inline(always)]
fn keeps_table(f: &Fields) -> bool {
    let none = f.vote_round == NONE;
    let null = f.high == 0 && f.low == 0;
    match f.kind {
        0 => f.instance == 0 && f.round == 0 && none && !null,
        1 => f.round != 0 && owned_or_0(f.round) && f.switch == owner(f.round) && none && null,
        2 => f.switch <= 6 && f.round != 0 && owned_or_0(f.round) && vote_up_to(f.round, f.vote_round, f.high, f.low),
        3 => owned_or_0(f.round) && f.switch == owner(f.round) && none,
        _ => f.switch <= 6 && owned_or_0(f.round) && f.vote_round == f.round,
    }
}

/// Refusals 1 to 5, in that order.
#[inline(always)]
fn read(packet: &[u8]) -> Result<Fields, u32> {
    let packet: &[u8; 36] = packet.try_into().map_err(|_| 1u32)?;
    if packet[0..3] != *b"RDE" {
        return Err(2);
    }
    if u16::from_be_bytes([packet[4], packet[5]]) != 1 {
        return Err(3);
    }
    if packet[3] > 4 {
        return Err(4);
    }
    let u32_at = |at: usize| u32::from_be_bytes(packet[at..at + 4].try_into().unwrap());
    let u64_at = |at: usize| u64::from_be_bytes(packet[at..at + 8].try_into().unwrap());
    let fields = Fields {
        kind: packet[3],
        switch: u16::from_be_bytes([packet[6], packet[7]]),
        instance: u32_at(8),
        round: u32_at(12),
        vote_round: u32_at(16),
        high: u64_at(20),
        low: u64_at(28),
    };
    if keeps_table(&fields) {
        Ok(fields)
    } else {
        Err(5)
    }
}
