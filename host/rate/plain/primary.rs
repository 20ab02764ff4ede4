use super::{read, settings_allowed};

#[inline(never)]
pub fn step(acceptors: u32, instances: u32, packet: &mut [u8], next: &mut [u32]) -> u32 {
    if !settings_allowed(acceptors, instances) || next.len() != 1 {
        return 7;
    }
    let f = match read(packet) {
        Ok(fields) => fields,
        Err(number) => return number,
    };
    if f.kind != 0 {
        return 6;
    }
    let instance = next[0];
    if instance > instances {
        return 17;
    }
    if instance == instances {
        return 12;
    }
    // round, vote round and value of a request are a propose's
    next[0] = instance + 1;
    packet[3] = 3;
    packet[6..8].copy_from_slice(&[0, 0]);
    packet[8..12].copy_from_slice(&instance.to_be_bytes());
    101
}
