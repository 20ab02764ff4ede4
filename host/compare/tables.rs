//! The numbers and tables of the header, as the model and the archives both take them.

/// The mark "none" among rounds.
pub const NONE: u32 = u32::MAX;

pub const TO_ACCEPTORS: u32 = 101;
pub const TO_LEADER: u32 = 102;
pub const TO_LEARNERS: u32 = 103;
pub const HOLD: u32 = 104;
pub const DECIDED: u32 = 105;
pub const DONE: u32 = 106;
pub const NOT_YET: u32 = 107;
pub const NO_HOLE: u32 = 108;
pub const SOLD: u32 = 109;
pub const BOARDED: u32 = 110;
pub const SKIPPED: u32 = 111;

/// How many passes a ledger has room for.
pub const PASSES: usize = 256;

#[derive(Clone, Copy, PartialEq, Debug)]
pub struct Settings {
    pub acceptors: u32,
    pub instances: u32,
}

/// What a start names.
#[derive(Clone, Copy, PartialEq, Debug)]
pub struct Start {
    pub instance: u32,
    pub floor: u32,
    pub value: u128,
}

/// What a packet says, as wide as the calls for packets take it.
#[derive(Clone, Copy, PartialEq, Debug)]
pub struct Fields {
    pub kind: u32,
    pub switch: u32,
    pub instance: u32,
    pub round: u32,
    pub vote_round: u32,
    pub value: u128,
}

/// Between whom a framed prepare goes. An Ethernet address is a list of six bytes, so that it stands in memory with borders when it is lent.
#[derive(Clone, PartialEq, Debug)]
pub struct Addresses {
    pub ethernet_to: Vec<u8>,
    pub ethernet_from: Vec<u8>,
    pub ip_from: u32,
    pub ip_to: u32,
    pub port_from: u16,
    pub port_to: u16,
}

#[derive(Clone, PartialEq, Debug)]
pub struct AcceptorTables {
    pub rounds: Vec<u32>,
    pub vote_rounds: Vec<u32>,
    pub values: Vec<u64>,
}

#[derive(Clone, PartialEq, Debug)]
pub struct BackupTables {
    pub rounds: Vec<u32>,
    pub phases: Vec<u8>,
    pub sets: Vec<u8>,
    pub best_vote_rounds: Vec<u32>,
    pub best_values: Vec<u64>,
    pub own_values: Vec<u64>,
}

#[derive(Clone, PartialEq, Debug)]
pub struct LearnerTables {
    pub rounds: Vec<u32>,
    pub sets: Vec<u8>,
    pub values: Vec<u64>,
}

/// A ledger as it is lent: the first so many places of its columns are passes in order of sale.
#[derive(Clone, PartialEq, Debug)]
pub struct LedgerTable {
    pub passes: Vec<u32>,
    pub rides_left: Vec<u8>,
    pub last_days: Vec<u16>,
    pub last_scans: Vec<u32>,
    pub count: u32,
}

/// A pass that is in use.
#[derive(Clone, PartialEq, Debug)]
pub struct Pass {
    pub number: u32,
    pub rides_left: u8,
    pub last_day: u16,
    pub last_scan: u32,
}

// Tables of N cells that hold ones: whoever wants them fresh has them filled.

impl AcceptorTables {
    pub fn used(instances: usize) -> Self {
        AcceptorTables { rounds: vec![1; instances], vote_rounds: vec![1; instances], values: vec![1; 2 * instances] }
    }
}

impl BackupTables {
    pub fn used(instances: usize) -> Self {
        BackupTables {
            rounds: vec![1; instances],
            phases: vec![1; instances],
            sets: vec![1; instances],
            best_vote_rounds: vec![1; instances],
            best_values: vec![1; 2 * instances],
            own_values: vec![1; 2 * instances],
        }
    }
}

impl LearnerTables {
    pub fn used(instances: usize) -> Self {
        LearnerTables { rounds: vec![1; instances], sets: vec![1; instances], values: vec![1; 2 * instances] }
    }
}

impl LedgerTable {
    /// A ledger without a pass, in columns that hold this number.
    pub fn fresh(filling: u8) -> Self {
        LedgerTable {
            passes: vec![filling as u32; PASSES],
            rides_left: vec![filling; PASSES],
            last_days: vec![filling as u16; PASSES],
            last_scans: vec![filling as u32; PASSES],
            count: 0,
        }
    }

    /// The columns reach as far as the count.
    pub fn in_use(&self) -> Vec<Pass> {
        let pass = |place: usize| Pass {
            number: self.passes[place],
            rides_left: self.rides_left[place],
            last_day: self.last_days[place],
            last_scan: self.last_scans[place],
        };
        (0..self.count as usize).map(pass).collect()
    }
}

/// A value is two numbers in a table, the high half first, and one number here.
pub fn value_of(values: &[u64], instance: usize) -> u128 {
    (values[2 * instance] as u128) << 64 | values[2 * instance + 1] as u128
}
