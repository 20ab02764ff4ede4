use super::{owner, read, settings_allowed, vote_up_to, NONE};

const IDLE: u8 = 0;
const ASKING: u8 = 1;
const PROPOSED: u8 = 2;

pub struct Columns<'a> {
    pub rounds: &'a mut [u32],
    pub phases: &'a mut [u8],
    pub sets: &'a mut [u8],
    pub best_vote_rounds: &'a mut [u32],
    pub best_values: &'a mut [u64],
    pub own_values: &'a mut [u64],
}

impl Columns<'_> {
    #[inline(always)]
    fn sized(&self, count: usize) -> bool {
        self.rounds.len() == count
            && self.phases.len() == count
            && self.sets.len() == count
            && self.best_vote_rounds.len() == count
            && self.best_values.len() == 2 * count
            && self.own_values.len() == 2 * count
    }

    #[inline(always)]
    fn possible(&self, acceptors: u32, own: u32, at: usize) -> bool {
        let (round, set, best) = (self.rounds[at], self.sets[at], self.best_vote_rounds[at]);
        let (high, low) = (self.best_values[2 * at], self.best_values[2 * at + 1]);
        let (members, majority) = (set.count_ones(), acceptors / 2 + 1);
        let fits = match self.phases[at] {
            IDLE => {
                let own_null = self.own_values[2 * at] == 0 && self.own_values[2 * at + 1] == 0;
                return round == 0 && set == 0 && best == NONE && high == 0 && low == 0 && own_null;
            }
            ASKING => members < majority,
            PROPOSED => members == majority,
            _ => return false,
        };
        fits && owner(round) as u32 == own && set >> acceptors == 0 && vote_up_to(round, best, high, low) && (set != 0 || best == NONE)
    }
}

#[inline(never)]
pub fn start(
    acceptors: u32,
    instances: u32,
    own: u32,
    instance: u32,
    floor: u32,
    high: u64,
    low: u64,
    buffer: &mut [u8],
    t: Columns,
) -> u32 {
    if !settings_allowed(acceptors, instances) || !(1..=3).contains(&own) || !t.sized(instances as usize) {
        return 7;
    }
    let buffer: &mut [u8; 36] = match buffer.try_into() {
        Ok(buffer) => buffer,
        Err(_) => return 1,
    };
    if instance >= instances {
        return 8;
    }
    let at = instance as usize;
    if !t.possible(acceptors, own, at) {
        return 17;
    }
    let first = t.rounds[at].max(floor) as u64 + 1;
    let round = first + (own as u64 + 4 - first % 4) % 4;
    if round >= NONE as u64 {
        return 16;
    }
    let round = round as u32;
    t.rounds[at] = round;
    t.phases[at] = ASKING;
    t.sets[at] = 0;
    t.best_vote_rounds[at] = NONE;
    t.best_values[2 * at] = 0;
    t.best_values[2 * at + 1] = 0;
    t.own_values[2 * at] = high;
    t.own_values[2 * at + 1] = low;
    buffer[0..6].copy_from_slice(b"RDE\x01\x00\x01");
    buffer[6..8].copy_from_slice(&(own as u16).to_be_bytes());
    buffer[8..12].copy_from_slice(&instance.to_be_bytes());
    buffer[12..16].copy_from_slice(&round.to_be_bytes());
    buffer[16..20].copy_from_slice(&NONE.to_be_bytes());
    buffer[20..36].copy_from_slice(&[0; 16]);
    101
}

#[inline(never)]
pub fn step(acceptors: u32, instances: u32, own: u32, packet: &mut [u8], t: Columns) -> u32 {
    if !settings_allowed(acceptors, instances) || !(1..=3).contains(&own) || !t.sized(instances as usize) {
        return 7;
    }
    let f = match read(packet) {
        Ok(fields) => fields,
        Err(number) => return number,
    };
    if f.kind != 2 {
        return 6;
    }
    if f.instance >= instances {
        return 8;
    }
    if f.switch as u32 >= acceptors {
        return 9;
    }
    let at = f.instance as usize;
    if !t.possible(acceptors, own, at) {
        return 17;
    }
    if t.phases[at] != ASKING || t.rounds[at] != f.round {
        return 11;
    }
    let sender = 1u8 << f.switch;
    if t.sets[at] & sender != 0 {
        return 15;
    }
    t.sets[at] |= sender;
    let best = t.best_vote_rounds[at];
    if f.vote_round != NONE && (best == NONE || best < f.vote_round) {
        t.best_vote_rounds[at] = f.vote_round;
        t.best_values[2 * at] = f.high;
        t.best_values[2 * at + 1] = f.low;
    }
    if t.sets[at].count_ones() <= acceptors / 2 {
        return 104;
    }
    t.phases[at] = PROPOSED;
    let chosen = if t.best_vote_rounds[at] == NONE { &t.own_values } else { &t.best_values };
    let (high, low) = (chosen[2 * at], chosen[2 * at + 1]);
    packet[3] = 3;
    packet[6..8].copy_from_slice(&(own as u16).to_be_bytes());
    packet[16..20].copy_from_slice(&NONE.to_be_bytes());
    packet[20..28].copy_from_slice(&high.to_be_bytes());
    packet[28..36].copy_from_slice(&low.to_be_bytes());
    101
}
