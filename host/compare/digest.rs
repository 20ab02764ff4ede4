//! A fixed hash (FNV-1a of 64 bits) of what calls answer and leave. It is the same on every machine: a number is taken as its big-endian bytes, a list as its
//! length and its numbers.

use crate::tables::*;

#[derive(Clone, Copy)]
pub struct Digest(u64);

impl Digest {
    pub fn new() -> Self {
        Digest(0xcbf2_9ce4_8422_2325)
    }

    pub fn bytes(&mut self, bytes: &[u8]) {
        for byte in bytes {
            self.0 = (self.0 ^ *byte as u64).wrapping_mul(0x0100_0000_01b3);
        }
    }

    pub fn number(&self) -> u64 {
        self.0
    }
}

/// What is given to a call or lent to it.
pub trait Content {
    fn add_to(&self, digest: &mut Digest);
}

macro_rules! numbers {
    ($($number:ty),*) => {
        $(impl Content for $number {
            fn add_to(&self, digest: &mut Digest) {
                digest.bytes(&self.to_be_bytes());
            }
        })*
    };
}

numbers!(u8, u16, u32, u64, u128);

impl<T: Content> Content for Vec<T> {
    fn add_to(&self, digest: &mut Digest) {
        (self.len() as u64).add_to(digest);
        self.iter().for_each(|element| element.add_to(digest));
    }
}

macro_rules! parts {
    ($($whole:ty: $($part:ident)*;)*) => {
        $(impl Content for $whole {
            fn add_to(&self, digest: &mut Digest) {
                $(self.$part.add_to(digest);)*
            }
        })*
    };
}

parts! {
    Settings: acceptors instances;
    Start: instance floor value;
    Fields: kind switch instance round vote_round value;
    Addresses: ethernet_to ethernet_from ip_from ip_to port_from port_to;
    AcceptorTables: rounds vote_rounds values;
    BackupTables: rounds phases sets best_vote_rounds best_values own_values;
    LearnerTables: rounds sets values;
    LedgerTable: passes rides_left last_days last_scans count;
}

macro_rules! tuples {
    ($($name:ident $place:tt),*) => {
        impl<$($name: Content),*> Content for ($($name,)*) {
            fn add_to(&self, digest: &mut Digest) {
                $(self.$place.add_to(digest);)*
            }
        }
    };
}

tuples!(A 0, B 1);
tuples!(A 0, B 1, C 2);
tuples!(A 0, B 1, C 2, D 3);
tuples!(A 0, B 1, C 2, D 3, E 4);
