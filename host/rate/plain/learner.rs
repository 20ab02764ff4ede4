use super::{owned_or_0, read, settings_allowed, NONE};

#[inline(never)]
pub fn step(
    acceptors: u32,
    instances: u32,
    packet: &[u8],
    rounds: &mut [u32],
    sets: &mut [u8],
    values: &mut [u64],
) -> u32 {
    let count = instances as usize;
    if !settings_allowed(acceptors, instances) || rounds.len() != count || sets.len() != count || values.len() != 2 * count {
        return 7;
    }
    let f = match read(packet) {
        Ok(fields) => fields,
        Err(number) => return number,
    };
    if f.kind != 4 {
        return 6;
    }
    if f.instance >= instances {
        return 8;
    }
    if f.switch as u32 >= acceptors {
        return 9;
    }
    let at = f.instance as usize;
    let (held, set) = (rounds[at], sets[at]);
    let (high, low) = (values[2 * at], values[2 * at + 1]);
    let majority = acceptors / 2 + 1;
    let voters = set.count_ones();
    let possible = if held == NONE {
        set == 0 && high == 0 && low == 0
    } else {
        owned_or_0(held) && set >> acceptors == 0 && set != 0 && voters <= majority
    };
    if !possible {
        return 17;
    }
    if voters == majority {
        return 14;
    }
    let voter = 1u8 << f.switch;
    if held == NONE || held < f.round {
        rounds[at] = f.round;
        sets[at] = voter;
        values[2 * at] = f.high;
        values[2 * at + 1] = f.low;
        return 104; // one voter is no majority
    }
    if f.round < held {
        return 10;
    }
    if f.high != high || f.low != low {
        return 13;
    }
    if set & voter != 0 {
        return 15;
    }
    sets[at] = set | voter;
    if voters + 1 == majority {
        105
    } else {
        104
    }
}
