//! Refusals 21 to 25 of a frame, and the one checksum that a rewritten packet moves. Sums are taken of eight bytes at a time, in the machine's own order, and
//! are folded and swapped at the end: RFC 1071 shows that this is the same.

pub const LENGTH: usize = 78;
pub const PACKET: usize = 42;

#[inline(always)]
fn word(frame: &[u8; LENGTH], at: usize) -> u16 {
    u16::from_be_bytes([frame[at], frame[at + 1]])
}

#[inline(always)]
fn eight(frame: &[u8; LENGTH], at: usize) -> u128 {
    u64::from_ne_bytes(frame[at..at + 8].try_into().unwrap()) as u128
}

#[inline(always)]
fn four(frame: &[u8; LENGTH], at: usize) -> u128 {
    u32::from_ne_bytes(frame[at..at + 4].try_into().unwrap()) as u128
}

#[inline(always)]
fn two(word: u16) -> u128 {
    word.to_be() as u128
}

/// A carry out of the top counts as 1, whatever the width.
#[inline(always)]
fn complement(sum: u128) -> u16 {
    let (sum, carry) = (sum as u64).overflowing_add((sum >> 64) as u64);
    let (sum, more) = ((sum >> 32) as u32).overflowing_add(sum as u32);
    let sum = (sum & 0xffff) + (sum >> 16) + carry as u32 + more as u32;
    let sum = (sum & 0xffff) + (sum >> 16);
    !(sum + (sum >> 16)) as u16
}

/// The header but for the field itself.
#[inline(always)]
fn ipv4_checksum(frame: &[u8; LENGTH]) -> u16 {
    u16::from_be(complement(eight(frame, 14) + two(word(frame, 22)) + eight(frame, 26)))
}

/// Addresses, ports and the packet, then protocol 17, and length 44 in the pseudo header and in the header.
#[inline(always)]
fn udp_checksum(frame: &[u8; LENGTH]) -> u16 {
    let header = eight(frame, 26) + four(frame, 34) + two(17 + 44 + 44);
    let packet = eight(frame, 42) + eight(frame, 50) + eight(frame, 58) + eight(frame, 66) + four(frame, 74);
    match u16::from_be(complement(header + packet)) {
        0 => 0xffff,
        checksum => checksum,
    }
}

#[inline(always)]
pub fn check(port: u16, frame: &mut [u8]) -> Result<&mut [u8; LENGTH], u32> {
    let frame: &mut [u8; LENGTH] = frame.try_into().map_err(|_| 21u32)?;
    if word(frame, 12) != 0x0800 || frame[14] != 0x45 || word(frame, 16) != 64 || word(frame, 20) & 0x3fff != 0 || frame[23] != 17 {
        return Err(22);
    }
    if word(frame, 24) != ipv4_checksum(frame) {
        return Err(23);
    }
    if word(frame, 38) != 44 || word(frame, 36) != port {
        return Err(24);
    }
    if word(frame, 40) != udp_checksum(frame) {
        return Err(25);
    }
    Ok(frame)
}

#[inline(always)]
pub fn seal(frame: &mut [u8; LENGTH]) {
    let checksum = udp_checksum(frame);
    frame[40..42].copy_from_slice(&checksum.to_be_bytes());
}
