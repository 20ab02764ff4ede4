//! The frames of the change request, and the sums of RFC 1071 and of a header in it, byte for byte: what the model is held to before the library is held to it.

use crate::frames::*;
use crate::model::Answer;
use crate::tables::*;

const ETHERNET: &str = "02000000000a0200000000010800";
const IPV4_OF_A: &str = "45000040000000004011f6a1c0000201c000020a";
const PREPARE: &str = "52444501000100010000000000000001ffffffff00000000000000000000000000000000";
const IPV4_OF_B: &str = "45b800401c4640003f119aa3c0000201c000020a";
const PROPOSE_OF_B: &str = "52444503000100000000000000000000ffffffff0000000000000000000000000000002a";
const VOTE_OF_B: &str = "52444504000100000000000000000000000000000000000000000000000000000000002a";
const PROPOSE_OF_C: &str = "52444503000100000000000300000000ffffffff00000000000000000000000000009040";
const VOTE_OF_C: &str = "524445040001000000000003000000000000000000000000000000000000000000009040";
const IPV4_OF_D: &str = "45b80040b6e940003f110000c0000201c000020a";
const IPV4_NOT_OF_D: &str = "45b80040b6e940003f11ffffc0000201c000020a";
const PORTS: &str = "9c41b7bc002c";
const PORT: u16 = 47_036;

pub fn bytes(parts: &[&str]) -> Vec<u8> {
    let digits: Vec<u8> = parts.concat().bytes().map(|digit| (digit as char).to_digit(16).unwrap_or(0) as u8).collect();
    digits.chunks(2).map(|pair| pair[0] << 4 | pair[1]).collect()
}

fn framed() -> (Answer, Vec<u8>) {
    let addresses = Addresses {
        ethernet_to: bytes(&["02000000000a"]),
        ethernet_from: bytes(&["020000000001"]),
        ip_from: 0xc000_0201,
        ip_to: 0xc000_020a,
        port_from: 40_001,
        port_to: PORT,
    };
    let mut frame = vec![0xee; LENGTH];
    (frame_prepare(&bytes(&[PREPARE]), &addresses, &mut frame), frame)
}

/// Acceptor 0 of 3, fresh, with 8 instances.
fn voted(parts: &[&str]) -> (Answer, Vec<u8>) {
    let mut frame = bytes(parts);
    let settings = Settings { acceptors: 3, instances: 8 };
    (acceptor_frame(settings, 0, PORT, &mut frame, &mut AcceptorTables::fresh(8)), frame)
}

/// Each case, and whether the model gives it.
#[rustfmt::skip]
pub fn of_the_model() -> [(&'static str, bool); 7] {
    let header = bytes(&[ETHERNET, "45000073000040004011b861c0a80001c0a800c7"]);
    [
        ("the words of RFC 1071", ones_complement_sum(&bytes(&["0001f203f4f5f6f7"])) == 0xddf2),
        ("a header with checksum b861", ipv4_checksum(&header) == 0xb861),
        ("A", framed() == (Ok(DONE), bytes(&[ETHERNET, IPV4_OF_A, PORTS, "9043", PREPARE]))),
        ("B", voted(&[ETHERNET, IPV4_OF_B, PORTS, "9019", PROPOSE_OF_B]) == (Ok(TO_LEARNERS), bytes(&[ETHERNET, IPV4_OF_B, PORTS, "9018", VOTE_OF_B]))),
        ("C", voted(&[ETHERNET, IPV4_OF_A, PORTS, "ffff", PROPOSE_OF_C]) == (Ok(TO_LEARNERS), bytes(&[ETHERNET, IPV4_OF_A, PORTS, "fffe", VOTE_OF_C]))),
        ("D", frame_check(PORT, &bytes(&[ETHERNET, IPV4_OF_D, PORTS, "9019", PROPOSE_OF_B])) == Ok(DONE)),
        ("D with ffff", frame_check(PORT, &bytes(&[ETHERNET, IPV4_NOT_OF_D, PORTS, "9019", PROPOSE_OF_B])) == Err(23)),
    ]
}
