//! Frames by chance around the packets of a scene, so that every refusal of a frame comes up, by each of its reasons alone and with right sums.

use crate::frames::*;
use crate::inputs::Inputs;
use crate::tables::*;

impl Inputs {
    pub fn port(&mut self) -> u16 {
        let any = self.random.number() as u16;
        self.random.pick(&[47_036, 47_036, 0, 0xffff, any])
    }

    pub fn addresses(&mut self) -> Addresses {
        Addresses {
            ethernet_to: self.random.bytes(6),
            ethernet_from: self.random.bytes(6),
            ip_from: self.random.number() as u32,
            ip_to: self.random.number() as u32,
            port_from: self.port(),
            port_to: self.port(),
        }
    }

    /// A frame around the packet, mostly one that passes with the port. Around a packet of a wrong length it has one as well, and no sums.
    pub fn frame(&mut self, port: u16, packet: &[u8]) -> Vec<u8> {
        let mut frame = self.header(port);
        frame.extend(packet);
        if frame.len() != LENGTH {
            return frame;
        }
        self.force_sums(&mut frame);
        set_checksums(&mut frame);
        match self.random.below(20) {
            0..=13 => {}
            14 | 15 => {
                (0..self.random.pick(&[1, 1, 1, 2])).for_each(|_| self.change_field_of(&mut frame));
                set_checksums(&mut frame);
            }
            16 => {
                self.change_field_of(&mut frame);
                self.change_sum(&mut frame);
            }
            17 => self.change_sum(&mut frame),
            18 => (0..self.random.pick(&[1, 1, 2, 5])).for_each(|_| self.flip_bit(&mut frame)),
            _ => frame.resize(self.random.below(101), 0),
        }
        frame
    }

    /// All that no call judges is left to chance.
    fn header(&mut self, port: u16) -> Vec<u8> {
        let mut header = self.random.bytes(PACKET);
        set_word(&mut header, ETHER_TYPE, 0x0800);
        header[FIRST_BYTE] = 0x45;
        set_word(&mut header, TOTAL_LENGTH, 64);
        // don't-fragment and the reserved bit are free
        set_word(&mut header, FRAGMENT, self.random.pick(&[0, 0x4000, 0x8000, 0xc000]));
        header[PROTOCOL] = 17;
        set_word(&mut header, PORT_TO, port);
        set_word(&mut header, UDP_LENGTH, 44);
        header
    }

    /// Now and then a sum is made ffff, of which the complement is 0, by a field that is free: it is given what the others lack. With one more the sum is 1,
    /// of which the carry has to be brought round twice.
    fn force_sums(&mut self, frame: &mut [u8]) {
        let more = self.random.below(2) as u16;
        let mut force = |at: usize, checksum: fn(&[u8]) -> u16| {
            set_word(frame, at, 0);
            set_word(frame, at, checksum(frame).wrapping_add(more));
        };
        match self.random.below(8) {
            0 => force(IDENTIFICATION, ipv4_checksum),
            1 => force(PORT_FROM, udp_checksum),
            _ => {}
        }
    }

    /// One of the fields that are judged. Most would pass if only a part of them were.
    fn change_field_of(&mut self, frame: &mut [u8]) {
        let port = word(frame, PORT_TO) ^ 1 << self.random.below(16);
        let crossed = word(frame, PORT_FROM);
        match self.random.below(7) {
            0 => set_word(frame, ETHER_TYPE, self.random.pick(&[0x0008, 0x0801, 0x0806, 0x0900, 0x8100, 0x86dd])),
            1 => frame[FIRST_BYTE] = self.random.pick(&[0x05, 0x40, 0x44, 0x46, 0x4f, 0x55, 0x65, 0xc5]),
            2 => set_word(frame, TOTAL_LENGTH, self.random.pick(&[0, 20, 44, 63, 65, 78, 0x0140, 0x4000, 0x8040])),
            3 => set_word(frame, FRAGMENT, self.random.pick(&[1, 0x1000, 0x1fff, 0x2000, 0x2001, 0x4001, 0x6000, 0xe000])),
            4 => frame[PROTOCOL] = self.random.pick(&[0, 1, 6, 16, 18, 81, 145]),
            5 => set_word(frame, UDP_LENGTH, self.random.pick(&[0, 8, 36, 43, 45, 0x012c, 0x2c00, 0x802c])),
            _ => set_word(frame, PORT_TO, self.random.pick(&[port, crossed])),
        }
    }

    /// A checksum that is near the right one: the other zero among them.
    fn change_sum(&mut self, frame: &mut [u8]) {
        let at = self.random.pick(&[IPV4_CHECKSUM, UDP_CHECKSUM]);
        let right = word(frame, at);
        let near = self.random.pick(&[right.wrapping_add(1), right.wrapping_sub(1), right.swap_bytes(), !right]);
        set_word(frame, at, self.random.pick(&[near, 0, 0xffff]));
    }
}
