//! Frames in plain Rust: Ethernet II, IPv4 and UDP around the packet. Written from the change request and RFC 791, 768 and 1071, not from the proved code, so
//! that a slip of one is not a slip of both.

use crate::model::*;
use crate::tables::*;

pub const LENGTH: usize = 78;

// Where the fields stand; those of two bytes are words.

pub const ETHERNET_TO: usize = 0;
pub const ETHERNET_FROM: usize = 6;
pub const ETHER_TYPE: usize = 12;
pub const FIRST_BYTE: usize = 14;
pub const TOTAL_LENGTH: usize = 16;
pub const IDENTIFICATION: usize = 18;
pub const FRAGMENT: usize = 20;
pub const TIME_TO_LIVE: usize = 22;
pub const PROTOCOL: usize = 23;
pub const IPV4_CHECKSUM: usize = 24;
pub const IP_FROM: usize = 26;
pub const IP_TO: usize = 30;
pub const PORT_FROM: usize = 34;
pub const PORT_TO: usize = 36;
pub const UDP_LENGTH: usize = 38;
pub const UDP_CHECKSUM: usize = 40;
pub const PACKET: usize = 42;

pub fn word(bytes: &[u8], at: usize) -> u16 {
    u16::from_be_bytes([bytes[at], bytes[at + 1]])
}

pub fn set_word(bytes: &mut [u8], at: usize, word: u16) {
    bytes[at..at + 2].copy_from_slice(&word.to_be_bytes());
}

// Checksums

/// RFC 1071: bytes are paired to 16-bit integers, and a carry out of the top is added at the bottom. All that is summed here has an even length.
pub fn ones_complement_sum(bytes: &[u8]) -> u16 {
    bytes.chunks(2).fold(0, |sum: u16, pair| {
        let (sum, carry) = sum.overflowing_add(word(pair, 0));
        sum + carry as u16
    })
}

/// RFC 791: the complement of the header's sum, in which the field itself is zero.
pub fn ipv4_checksum(frame: &[u8]) -> u16 {
    let mut header = frame[FIRST_BYTE..PORT_FROM].to_vec();
    set_word(&mut header, IPV4_CHECKSUM - FIRST_BYTE, 0);
    !ones_complement_sum(&header)
}

/// RFC 768: the complement of the sum over a pseudo header of both addresses, zero, protocol and UDP length, then the UDP header, in which the field itself is
/// zero, and the data. A zero would say that there is no checksum, so all ones are sent for it.
pub fn udp_checksum(frame: &[u8]) -> u16 {
    let pseudo_header = [&frame[IP_FROM..PORT_FROM], &[0, frame[PROTOCOL]], &frame[UDP_LENGTH..UDP_CHECKSUM]].concat();
    let mut datagram = frame[PORT_FROM..].to_vec();
    set_word(&mut datagram, UDP_CHECKSUM - PORT_FROM, 0);
    match !ones_complement_sum(&[pseudo_header, datagram].concat()) {
        0 => 0xffff,
        sum => sum,
    }
}

/// Both fields anew, whatever else the 78 bytes hold.
pub fn set_checksums(frame: &mut [u8]) {
    set_word(frame, IPV4_CHECKSUM, ipv4_checksum(frame));
    set_word(frame, UDP_CHECKSUM, udp_checksum(frame));
}

// Refusals

/// The five reasons of refusal 22. A fragment is one that more follow, or that does not begin at 0; the two flags above are none.
pub fn header_faults(frame: &[u8]) -> [bool; 5] {
    let more_fragments = word(frame, FRAGMENT) & 0x2000 != 0;
    let offset = word(frame, FRAGMENT) & 0x1fff;
    [
        word(frame, ETHER_TYPE) != 0x0800,
        frame[FIRST_BYTE] != 0x45,
        word(frame, TOTAL_LENGTH) != 64,
        more_fragments || offset != 0,
        frame[PROTOCOL] != 17,
    ]
}

/// The two reasons of refusal 24.
pub fn udp_faults(port: u16, frame: &[u8]) -> [bool; 2] {
    [word(frame, UDP_LENGTH) != 44, word(frame, PORT_TO) != port]
}

pub fn frame_check(port: u16, frame: &[u8]) -> Answer {
    if frame.len() != LENGTH {
        return Err(21);
    }
    if header_faults(frame) != [false; 5] {
        return Err(22);
    }
    if word(frame, IPV4_CHECKSUM) != ipv4_checksum(frame) {
        return Err(23);
    }
    if udp_faults(port, frame) != [false; 2] {
        return Err(24);
    }
    if word(frame, UDP_CHECKSUM) != udp_checksum(frame) {
        return Err(25);
    }
    Ok(DONE)
}

pub fn frame_seal(frame: &mut [u8]) -> Answer {
    if frame.len() != LENGTH {
        return Err(21);
    }
    if header_faults(frame) != [false; 5] {
        return Err(22);
    }
    if word(frame, UDP_LENGTH) != 44 {
        return Err(24);
    }
    set_checksums(frame);
    Ok(DONE)
}

pub fn frame_prepare(packet: &[u8], addresses: &Addresses, frame: &mut [u8]) -> Answer {
    if read(packet)?.kind != PREPARE {
        return Err(6);
    }
    if frame.len() != LENGTH {
        return Err(21);
    }
    frame.fill(0);
    frame[ETHERNET_TO..ETHERNET_FROM].copy_from_slice(&addresses.ethernet_to);
    frame[ETHERNET_FROM..ETHER_TYPE].copy_from_slice(&addresses.ethernet_from);
    set_word(frame, ETHER_TYPE, 0x0800);
    frame[FIRST_BYTE] = 0x45;
    set_word(frame, TOTAL_LENGTH, 64);
    frame[TIME_TO_LIVE] = 64;
    frame[PROTOCOL] = 17;
    frame[IP_FROM..IP_TO].copy_from_slice(&addresses.ip_from.to_be_bytes());
    frame[IP_TO..PORT_FROM].copy_from_slice(&addresses.ip_to.to_be_bytes());
    set_word(frame, PORT_FROM, addresses.port_from);
    set_word(frame, PORT_TO, addresses.port_to);
    set_word(frame, UDP_LENGTH, 44);
    frame[PACKET..].copy_from_slice(packet);
    set_checksums(frame);
    Ok(DONE)
}

// Players

/// A player's step on the packet of a frame that passes, and both checksums anew.
fn framed(port: u16, frame: &mut [u8], step: impl FnOnce(&mut [u8]) -> Answer) -> Answer {
    frame_check(port, frame)?;
    let answer = step(&mut frame[PACKET..])?;
    set_checksums(frame);
    Ok(answer)
}

pub fn primary_frame(settings: Settings, port: u16, frame: &mut [u8], next: &mut [u32]) -> Answer {
    if !allowed(settings) || next.len() != 1 {
        return Err(7);
    }
    framed(port, frame, |packet| primary_step(settings, packet, next))
}

pub fn acceptor_frame(settings: Settings, own: u32, port: u16, frame: &mut [u8], tables: &mut AcceptorTables) -> Answer {
    if !acceptor_allowed(settings, tables) || own >= settings.acceptors {
        return Err(7);
    }
    framed(port, frame, |packet| acceptor_step(settings, own, packet, tables))
}

pub fn backup_frame(settings: Settings, own: u32, port: u16, frame: &mut [u8], tables: &mut BackupTables) -> Answer {
    if !backup_allowed(settings, tables) || !backup_number(own) {
        return Err(7);
    }
    framed(port, frame, |packet| backup_step(settings, own, packet, tables))
}

/// The frame is read alone.
pub fn learner_frame(settings: Settings, port: u16, frame: &[u8], tables: &mut LearnerTables) -> Answer {
    if !learner_allowed(settings, tables) {
        return Err(7);
    }
    frame_check(port, frame)?;
    learner_step(settings, &frame[PACKET..], tables)
}
