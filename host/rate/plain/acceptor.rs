use super::{frames, owned_or_0, read, settings_allowed, vote_up_to};

#[inline(always)]
fn allowed(acceptors: u32, instances: u32, own: u32, rounds: &[u32], vote_rounds: &[u32], values: &[u64]) -> bool {
    let count = instances as usize;
    settings_allowed(acceptors, instances)
        && own < acceptors
        && rounds.len() == count
        && vote_rounds.len() == count
        && values.len() == 2 * count
}

#[inline(never)]
pub fn step(
    acceptors: u32,
    instances: u32,
    own: u32,
    packet: &mut [u8],
    rounds: &mut [u32],
    vote_rounds: &mut [u32],
    values: &mut [u64],
) -> u32 {
    if !allowed(acceptors, instances, own, rounds, vote_rounds, values) {
        return 7;
    }
    obey(instances, own, packet, rounds, vote_rounds, values)
}

/// The step on the packet of a frame. Only where it was rewritten does its checksum move, and that of the header never does.
#[inline(never)]
pub fn frame(
    acceptors: u32,
    instances: u32,
    own: u32,
    port: u16,
    frame: &mut [u8],
    rounds: &mut [u32],
    vote_rounds: &mut [u32],
    values: &mut [u64],
) -> u32 {
    if !allowed(acceptors, instances, own, rounds, vote_rounds, values) {
        return 7;
    }
    let frame = match frames::check(port, frame) {
        Ok(frame) => frame,
        Err(number) => return number,
    };
    let answer = obey(instances, own, &mut frame[frames::PACKET..], rounds, vote_rounds, values);
    if answer > 100 {
        frames::seal(frame);
    }
    answer
}

#[inline(always)]
fn obey(instances: u32, own: u32, packet: &mut [u8], rounds: &mut [u32], vote_rounds: &mut [u32], values: &mut [u64]) -> u32 {
    let f = match read(packet) {
        Ok(fields) => fields,
        Err(number) => return number,
    };
    if f.kind != 1 && f.kind != 3 {
        return 6;
    }
    if f.instance >= instances {
        return 8;
    }
    let at = f.instance as usize;
    let (held, vote) = (rounds[at], vote_rounds[at]);
    let (held_high, held_low) = (values[2 * at], values[2 * at + 1]);
    if !(owned_or_0(held) && vote_up_to(held, vote, held_high, held_low)) {
        return 17;
    }
    if f.round < held {
        return 10;
    }
    // what stays as it was read is not written
    rounds[at] = f.round;
    packet[6..8].copy_from_slice(&(own as u16).to_be_bytes());
    if f.kind == 1 {
        packet[3] = 2;
        packet[16..20].copy_from_slice(&vote.to_be_bytes());
        packet[20..28].copy_from_slice(&held_high.to_be_bytes());
        packet[28..36].copy_from_slice(&held_low.to_be_bytes());
        102
    } else {
        vote_rounds[at] = f.round;
        values[2 * at] = f.high;
        values[2 * at + 1] = f.low;
        packet[3] = 4;
        packet[16..20].copy_from_slice(&f.round.to_be_bytes());
        103
    }
}
