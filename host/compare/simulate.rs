//! Runs of all players of one depot over the archives' calls, on a network that loses, doubles, delays and reorders; after every step, demand 3, and a ledger
//! beside each learner. At the end every hole is repaired, and what a learner heard of is then delivered.
//! Usage: simulate RUNS SEED. So many runs hand over packets, and as many hand over each packet in a frame with a header by chance, on a network that damages
//! frames as well. The last line is 'N passed, M failed', in runs.

mod borders;
mod calls;
mod ledgers;
mod random;
mod rides;
mod tables;

use ledgers::Ledger;
use random::Random;
use std::collections::BTreeMap;
use std::time::{Duration, Instant};
use tables::*;

#[global_allocator]
static MEMORY: borders::Bordered = borders::Bordered;

type Packet = Vec<u8>;

#[derive(Clone, Copy)]
enum Player {
    Primary,
    Acceptor(usize),
    Backup(usize),
    Learner(usize),
}

const BACKUPS: usize = 3;
const LEARNERS: usize = 2;

/// What a run had in it, so that runs in which nothing happens don't pass for a test.
#[derive(Clone, Copy, Default)]
struct Seen {
    decision: bool,
    takeover: bool,
    null_repair: bool,
    kept: bool,
    repaired: bool,
    last_hole: bool,
    ledger_ahead: bool,
    damage: bool,
}

struct Run {
    random: Random,
    settings: Settings,
    /// Whether packets are handed over in frames. What was sent is packets all the same: a copy is one of the 36 bytes, in whatever frame.
    framed: bool,
    next: Vec<u32>,
    acceptors: Vec<AcceptorTables>,
    backups: Vec<BackupTables>,
    learners: Vec<LearnerTables>,
    /// One beside each learner. What their columns hold at the beginning differs.
    ledgers: [Ledger; LEARNERS],
    sent: Vec<Packet>,
    travelling: Vec<(Player, Packet)>,
    /// The acceptors that have sent a vote, by instance, round and value.
    votes: BTreeMap<(usize, u32, u128), u8>,
    decided: Vec<Option<u128>>,
    told: Vec<Vec<Option<u128>>>,
    /// Instances that a learner took a vote for.
    heard: Vec<Vec<bool>>,
    /// The first hole that each learner answered last.
    holes: Vec<Option<usize>>,
    /// Instances on which a backup was started with null when they were the first hole of learner 0.
    filling: Vec<bool>,
    /// Rounds in which a backup proposed another value than its own.
    gave_way: Vec<(usize, u32)>,
    seen: Seen,
}

/// Tables set fresh by their player's call.
fn fresh<T>(settings: Settings, call: fn(Settings, &mut T) -> u32, mut tables: T) -> T {
    assert_eq!(call(settings, &mut tables), DONE, "fresh tables with {:?}", settings);
    tables
}

/// What a packet says that a player sent.
fn fields(packet: &mut [u8]) -> Result<Fields, String> {
    let mut fields = Fields { kind: 0, switch: 0, instance: 0, round: 0, vote_round: 0, value: 0 };
    match calls::packet_read(packet, &mut fields) {
        DONE => Ok(fields),
        refusal => Err(format!("{:02x?} was sent, and reading refuses it by {}", packet, refusal)),
    }
}

impl Run {
    fn new(seed: u64, framed: bool) -> Self {
        let mut random = Random::new(seed);
        let settings = Settings { acceptors: random.pick(&[3, 3, 5, 7]), instances: 1 + random.below(4) as u32 };
        let instances = settings.instances as usize;
        let acceptor = fresh(settings, calls::acceptor_fresh, AcceptorTables::used(instances));
        let backup = fresh(settings, calls::backup_fresh, BackupTables::used(instances));
        let learner = fresh(settings, calls::learner_fresh, LearnerTables::used(instances));
        Run {
            random,
            settings,
            framed,
            next: fresh(settings, calls::primary_fresh, vec![1]),
            acceptors: vec![acceptor; settings.acceptors as usize],
            backups: vec![backup; BACKUPS],
            learners: vec![learner; LEARNERS],
            ledgers: [0x07, 0xff].map(Ledger::fresh),
            sent: Vec::new(),
            travelling: Vec::new(),
            votes: BTreeMap::new(),
            decided: vec![None; instances],
            told: vec![vec![None; instances]; LEARNERS],
            heard: vec![vec![false; instances]; LEARNERS],
            holes: vec![None; LEARNERS],
            filling: vec![false; instances],
            gave_way: Vec::new(),
            seen: Seen::default(),
        }
    }

    /// A whole run, with its own share of losses, doubles and takeovers.
    fn go(&mut self) -> Result<(), String> {
        let (loss, doubling) = (self.random.pick(&[0, 5, 20, 50]), self.random.pick(&[0, 10, 40]));
        let (takeovers, requests) = (self.random.pick(&[1, 3, 10]), self.random.pick(&[3, 10]));
        for _ in 0..40 + self.random.below(200) {
            let chance = self.random.below(100);
            if chance < takeovers {
                self.take_over()?;
            } else if chance < takeovers + requests {
                self.request()?;
            } else if chance < takeovers + requests + 3 && !self.sent.is_empty() {
                if self.framed && self.random.chance(50) {
                    self.damaged()?;
                } else {
                    self.malformed()?;
                }
            } else if chance < takeovers + requests + 6 && !self.sent.is_empty() {
                let packet = self.sent[self.random.below(self.sent.len())].clone();
                let player = self.any_player();
                self.hand_over(player, packet)?;
            } else if !self.travelling.is_empty() {
                self.arrive(loss, doubling)?;
            }
            self.check()?;
        }
        self.repair_all()?;
        self.check_saved()
    }

    /// Any of the packets that travel arrives, stays to arrive once more, or is lost.
    fn arrive(&mut self, loss: usize, doubling: usize) -> Result<(), String> {
        let index = self.random.below(self.travelling.len());
        let doubled = self.random.chance(doubling);
        let (player, packet) = if doubled { self.travelling[index].clone() } else { self.travelling.swap_remove(index) };
        if doubled || !self.random.chance(loss) {
            self.hand_over(player, packet)?;
        }
        Ok(())
    }

    fn any_player(&mut self) -> Player {
        match self.random.below(4) {
            0 => Player::Primary,
            1 => Player::Acceptor(self.random.below(self.acceptors.len())),
            2 => Player::Backup(self.random.below(BACKUPS)),
            _ => Player::Learner(self.random.below(LEARNERS)),
        }
    }

    /// An entry that suits how many the primary has numbered, or now and then a malformed one.
    fn not_null(&mut self) -> u128 {
        let malformed = 1 + self.random.number() as u128;
        ledgers::any_entry(&mut self.random, self.next[0] as usize, malformed)
    }

    /// Mostly for the primary; another player refuses it.
    fn request(&mut self) -> Result<u32, String> {
        let mut packet = vec![0; 36];
        let request = Fields { kind: 0, switch: 9, instance: 0, round: 0, vote_round: NONE, value: self.not_null() };
        let answer = calls::packet_write(request, &mut packet);
        if answer != DONE {
            return Err(format!("writing {:x?} answered {}", request, answer));
        }
        let player = if self.random.chance(95) { Player::Primary } else { self.any_player() };
        self.hand_over(player, packet)
    }

    /// Any backup on any instance, or with null on the first hole of learner 0; now and then one beyond N, a floor near the last round or a buffer of a wrong
    /// length.
    fn take_over(&mut self) -> Result<(), String> {
        let backup = self.random.below(BACKUPS);
        let beyond = self.random.chance(3) as usize;
        let any = self.random.below(self.settings.instances as usize + beyond);
        let floor = if self.random.chance(3) { NONE - self.random.below(20) as u32 } else { self.random.below(12) as u32 };
        let any_value = if self.random.chance(20) { 0 } else { self.not_null() };
        let (instance, value) = match self.holes[0] {
            Some(hole) if self.random.chance(50) => (hole, 0),
            _ => (any, any_value),
        };
        let length = if self.random.chance(3) { 35 } else { 36 };
        let answer = self.start(backup, Start { instance: instance as u32, floor, value }, length)?;
        if answer == TO_ACCEPTORS && value == 0 && self.holes[0] == Some(instance) {
            self.filling[instance] = true;
        }
        Ok(())
    }

    /// What a started backup writes to a buffer of this length travels to the acceptors.
    fn start(&mut self, backup: usize, start: Start, length: usize) -> Result<u32, String> {
        let mut buffer = self.random.bytes(length);
        let answer = calls::backup_start(self.settings, backup as u32 + 1, start, &mut buffer, &mut self.backups[backup]);
        if !matches!(answer, TO_ACCEPTORS | 1 | 8 | 16) {
            return Err(format!("start of backup {} {:x?} answered {}", backup + 1, start, answer));
        }
        self.send(answer, &buffer);
        Ok(answer)
    }

    /// What operators do in the evening: the first hole of each learner is repaired, again and again, until it answers "none" or no round is left. What is
    /// decided by that is not counted with what came about on the network.
    fn repair_all(&mut self) -> Result<(), String> {
        let before = self.seen;
        let mut repairs = 0;
        for learner in 0..LEARNERS {
            repairs += self.repair_holes(learner)?;
        }
        let repaired = repairs > 0 && self.holes == [None; LEARNERS];
        self.seen = Seen { repaired, last_hole: self.seen.last_hole, ..before };
        Ok(())
    }

    /// Answers how many of a learner's holes were repaired. Each repair decides one, so that there are not more than instances.
    fn repair_holes(&mut self, learner: usize) -> Result<usize, String> {
        let mut repairs = 0;
        while let Some(hole) = self.holes[learner] {
            let none_decided_above = self.told[learner][hole + 1..].iter().all(|answer| answer.is_none());
            if !self.repair(hole)? {
                break;
            }
            self.seen.last_hole |= repairs == 0 && none_decided_above;
            repairs += 1;
            if repairs > self.told[learner].len() {
                return Err(format!("learner {} has had more repairs than instances", learner));
            }
        }
        Ok(repairs)
    }

    /// All that a backup started on the hole sends for it arrives; what travelled before goes on to travel. Answers whether there was a round for it.
    fn repair(&mut self, hole: usize) -> Result<bool, String> {
        let older = std::mem::take(&mut self.travelling);
        let started = self.start_above(hole)?;
        while !self.travelling.is_empty() {
            self.arrive(0, 0)?;
            self.check()?;
        }
        self.travelling = older;
        Ok(started)
    }

    /// Starts any backup with null above every round that a player holds for the instance, so that no acceptor refuses; answers whether one has such a round.
    fn start_above(&mut self, instance: usize) -> Result<bool, String> {
        let acceptors = self.acceptors.iter().map(|tables| &tables.rounds);
        let backups = self.backups.iter().map(|tables| &tables.rounds);
        let learners = self.learners.iter().map(|tables| &tables.rounds);
        let held = acceptors.chain(backups).chain(learners).map(|rounds| rounds[instance]);
        let floor = held.filter(|round| *round != NONE).max().unwrap_or(0);
        let first = self.random.below(BACKUPS);
        for turn in 0..BACKUPS {
            match self.start((first + turn) % BACKUPS, Start { instance: instance as u32, floor, value: 0 }, 36)? {
                TO_ACCEPTORS => return Ok(true),
                16 => {}
                refusal => return Err(format!("start on hole {} refused by {}", instance, refusal)),
            }
        }
        Ok(false)
    }

    /// Breaks a packet sent earlier in a way that no kind sent by a player allows, and hands it to anyone.
    fn malformed(&mut self) -> Result<(), String> {
        let mut packet = self.sent[self.random.below(self.sent.len())].clone();
        let nobodys_round = (4 + 4 * self.random.below((1 << 30) - 1) as u32).to_be_bytes();
        match self.random.below(8) {
            0 => packet.truncate(self.random.below(36)),
            1 => packet.push(0),
            2 => packet[self.random.below(3)] ^= 1 << self.random.below(8),
            3 => packet[3] = 5 + self.random.below(251) as u8,
            4 => packet[4 + self.random.below(2)] ^= 1 << self.random.below(8),
            5 => packet[6] = 1 + self.random.below(255) as u8,
            6 => packet[12..16].copy_from_slice(&nobodys_round),
            _ => packet[16..20].copy_from_slice(&nobodys_round),
        }
        let player = self.any_player();
        let answer = self.hand_over(player, packet.clone())?;
        let length_refusal = if self.framed { 21 } else { 1 };
        if (2..=5).contains(&answer) && packet.len() == 36 || answer == length_refusal && packet.len() != 36 {
            Ok(())
        } else {
            Err(format!("malformed packet {:02x?} got {}", packet, answer))
        }
    }

    /// A packet sent earlier, in a frame of which one bit from the EtherType on is flipped on its way to anyone. The length is right, so 21 is not the number.
    fn damaged(&mut self) -> Result<(), String> {
        let mut packet = self.sent[self.random.below(self.sent.len())].clone();
        let port = self.random.number() as u16;
        let mut frame = self.frame(port, &mut packet)?;
        let bit = 8 * 12 + self.random.below(8 * (78 - 12));
        frame[bit / 8] ^= 1 << (bit % 8);
        let before = frame.clone();
        let player = self.any_player();
        let answer = self.frame_step(player, port, &mut frame);
        self.seen.damage = true;
        if (22..=25).contains(&answer) && frame == before {
            Ok(())
        } else {
            Err(format!("damaged frame {:02x?} to port {} got {} and is {:02x?}", before, port, answer, frame))
        }
    }

    /// One packet to one player; what goes out travels on.
    fn hand_over(&mut self, player: Player, mut packet: Packet) -> Result<u32, String> {
        let answer = if self.framed { self.step_in_frame(player, &mut packet)? } else { self.step(player, &mut packet) };
        let known = matches!(answer, 1..=6 | 8..=16 | 21 | TO_ACCEPTORS | TO_LEADER | TO_LEARNERS | HOLD | DECIDED);
        if !known {
            return Err(format!("{:02x?} got {}", packet, answer));
        }
        self.send(answer, &packet);
        match (player, answer) {
            (Player::Acceptor(own), TO_LEARNERS) => self.record_vote(own, fields(&mut packet)?)?,
            (Player::Learner(index), HOLD | DECIDED) => self.heard[index][fields(&mut packet)?.instance as usize] = true,
            (Player::Backup(index), TO_ACCEPTORS) => {
                let Fields { instance, round, value, .. } = fields(&mut packet)?;
                if value != value_of(&self.backups[index].own_values, instance as usize) {
                    self.gave_way.push((instance as usize, round));
                }
            }
            _ => {}
        }
        Ok(answer)
    }

    fn step(&mut self, player: Player, packet: &mut [u8]) -> u32 {
        let settings = self.settings;
        match player {
            // the two forms of its call are one player
            Player::Primary if self.random.chance(50) => calls::primary_request(settings, packet, &mut self.next[0]),
            Player::Primary => calls::primary_step(settings, packet, &mut self.next),
            Player::Acceptor(own) => calls::acceptor_step(settings, own as u32, packet, &mut self.acceptors[own]),
            Player::Backup(index) => calls::backup_step(settings, index as u32 + 1, packet, &mut self.backups[index]),
            Player::Learner(index) => calls::learner_step(settings, packet, &mut self.learners[index]),
        }
    }

    fn frame_step(&mut self, player: Player, port: u16, frame: &mut [u8]) -> u32 {
        let settings = self.settings;
        match player {
            Player::Primary => calls::primary_frame(settings, port, frame, &mut self.next),
            Player::Acceptor(own) => calls::acceptor_frame(settings, own as u32, port, frame, &mut self.acceptors[own]),
            Player::Backup(index) => calls::backup_frame(settings, index as u32 + 1, port, frame, &mut self.backups[index]),
            Player::Learner(index) => calls::learner_frame(settings, port, frame, &mut self.learners[index]),
        }
    }

    /// The packet's step in a frame of its own. What is sent passes with the same port, under the header that came; otherwise the frame stays byte for byte.
    fn step_in_frame(&mut self, player: Player, packet: &mut Packet) -> Result<u32, String> {
        let port = self.random.number() as u16;
        let before = self.frame(port, packet)?;
        let mut frame = before.clone();
        let answer = self.frame_step(player, port, &mut frame);
        let sent = matches!(answer, TO_ACCEPTORS | TO_LEADER | TO_LEARNERS);
        let header_stays = frame[..24] == before[..24] && frame[26..40] == before[26..40];
        if answer == 1 || sent && !(header_stays && calls::frame_check(port, &mut frame) == DONE) || !sent && frame != before {
            return Err(format!("frame {:02x?} to port {} got {} and is {:02x?}", before, port, answer, frame));
        }
        packet.copy_from_slice(&frame[42..]);
        Ok(answer)
    }

    /// A frame to the port around the packet, with all that no call judges by chance; a prepare's is mostly made by its own call. Around a packet of a wrong
    /// length it has that fault alone, and is not sealed.
    fn frame(&mut self, port: u16, packet: &mut [u8]) -> Result<Vec<u8>, String> {
        let (ethernet_to, ethernet_from) = (self.random.bytes(6), self.random.bytes(6));
        let (ip_from, ip_to) = (self.random.number() as u32, self.random.number() as u32);
        let mut addresses = Addresses { ethernet_to, ethernet_from, ip_from, ip_to, port_from: self.random.number() as u16, port_to: port };
        let mut frame = self.random.bytes(78);
        if self.random.chance(70) && calls::frame_prepare(packet, &mut addresses, &mut frame) == DONE {
            return Ok(frame);
        }
        frame[12..15].copy_from_slice(&[0x08, 0x00, 0x45]);
        frame[16..18].copy_from_slice(&[0, 64]);
        frame[20..22].copy_from_slice(&[self.random.pick(&[0x00, 0x40, 0x80, 0xc0]), 0]);
        frame[23] = 17;
        frame[36..38].copy_from_slice(&port.to_be_bytes());
        frame[38..40].copy_from_slice(&[0, 44]);
        frame.truncate(42);
        frame.extend_from_slice(packet);
        match (calls::frame_seal(&mut frame), packet.len()) {
            (DONE, 36) => Ok(frame),
            (21, length) if length != 36 => Ok(frame),
            (answer, _) => Err(format!("sealing {:02x?} answered {}", frame, answer)),
        }
    }

    fn send(&mut self, answer: u32, packet: &[u8]) {
        let players: Vec<Player> = match answer {
            TO_ACCEPTORS => (0..self.acceptors.len()).map(Player::Acceptor).collect(),
            TO_LEADER => (0..BACKUPS).map(Player::Backup).collect(),
            TO_LEARNERS => (0..LEARNERS).map(Player::Learner).collect(),
            _ => return,
        };
        self.sent.push(packet.to_vec());
        self.travelling.extend(players.into_iter().map(|player| (player, packet.to_vec())));
    }

    /// Counted for the acceptor whose call sent it, whatever the packet says of its sender.
    fn record_vote(&mut self, own: usize, vote: Fields) -> Result<(), String> {
        let Fields { round, value, .. } = vote;
        let instance = vote.instance as usize;
        let voters = self.votes.entry((instance, round, value)).or_insert(0);
        *voters |= 1 << own;
        if 2 * voters.count_ones() <= self.settings.acceptors {
            return Ok(());
        }
        match self.decided[instance] {
            Some(other) if other != value => return Err(format!("instance {} decided {:x} and {:x}", instance, other, value)),
            Some(_) => self.seen.kept |= self.gave_way.contains(&(instance, round)),
            None => self.decided[instance] = Some(value),
        }
        self.seen.decision = true;
        self.seen.takeover |= round > 0;
        Ok(())
    }

    /// Demand 3, and what delivery and holes say, after each step.
    fn check(&mut self) -> Result<(), String> {
        let mut lists = Vec::new();
        for learner in 0..LEARNERS {
            let answers = self.answers(learner)?;
            lists.push(self.delivered(learner, &answers)?);
            self.check_hole(learner, &answers)?;
            self.check_none(learner, lists[learner].len())?;
        }
        let shorter = lists[0].len().min(lists[1].len());
        if lists[0][..shorter] != lists[1][..shorter] {
            return Err(format!("delivered lists part: {:x?}", lists));
        }
        self.check_ledgers(&lists)
    }

    fn check_ledgers(&mut self, lists: &[Vec<u128>]) -> Result<(), String> {
        self.ledgers.iter_mut().zip(lists).try_for_each(|(ledger, list)| ledger.read_on(list))?;
        let read = [0, 1].map(|learner| lists[learner].len());
        self.seen.ledger_ahead |= read[0] != read[1] && !read.contains(&0);
        self.ledgers[0].check_beside(&self.ledgers[1])
    }

    fn answers(&mut self, learner: usize) -> Result<Vec<Option<u128>>, String> {
        let mut answers = Vec::new();
        for instance in 0..self.settings.instances as usize {
            let mut value = u128::MAX;
            let answer = match calls::learner_answer(self.settings, instance as u32, &mut self.learners[learner], &mut value) {
                DONE => Some(value),
                NOT_YET => None,
                refusal => return Err(format!("answer for instance {} refused by {}", instance, refusal)),
            };
            if answer.is_some() && answer != self.decided[instance] {
                return Err(format!("learner {} told {:x?} for instance {}, decided is {:x?}", learner, answer, instance, self.decided[instance]));
            }
            let before = self.told[learner][instance];
            if before.is_some() && before != answer {
                return Err(format!("learner {} told {:x?} for instance {}, then {:x?}", learner, before, instance, answer));
            }
            self.told[learner][instance] = answer;
            self.seen.null_repair |= answer == Some(0) && self.filling[instance];
            answers.push(answer);
        }
        Ok(answers)
    }

    /// The delivered list, which is the answers before the first "not yet"; the rest of the buffer stays.
    fn delivered(&mut self, learner: usize, answers: &[Option<u128>]) -> Result<Vec<u128>, String> {
        let expected: Vec<u128> = answers.iter().map_while(|answer| *answer).collect();
        let mut bytes: Vec<u8> = expected.iter().flat_map(|value| value.to_be_bytes()).collect();
        bytes.resize(16 * answers.len(), 0x5a);
        let mut buffer = vec![0x5a; 16 * answers.len()];
        let mut count = NONE;
        let answer = calls::learner_deliver(self.settings, &mut self.learners[learner], &mut buffer, &mut count);
        if answer != DONE || count as usize != expected.len() || buffer != bytes {
            return Err(format!("delivery answered {}, {} of {:x?}: {:02x?}", answer, count, answers, buffer));
        }
        Ok(expected)
    }

    /// Holes by what the learner answers and by the votes that it took, whatever its tables hold: an undecided instance below the highest decided one or with a
    /// vote in its set.
    fn check_hole(&mut self, learner: usize, answers: &[Option<u128>]) -> Result<(), String> {
        let heard = &self.heard[learner];
        let below_decided = |instance: usize| answers[instance..].iter().any(|answer| answer.is_some());
        let expected = (0..answers.len()).find(|instance| answers[*instance].is_none() && (below_decided(*instance) || heard[*instance]));
        let mut hole = NONE;
        let found = match calls::learner_first_hole(self.settings, &mut self.learners[learner], &mut hole) {
            DONE => Some(hole as usize),
            NO_HOLE => None,
            refusal => return Err(format!("holes refused by {}", refusal)),
        };
        if found != expected || found.is_none() && hole != NONE {
            return Err(format!("first hole {:?} of {:x?}, heard of {:?}", found, answers, heard));
        }
        self.holes[learner] = found;
        Ok(())
    }

    /// Where a learner answers "none", every instance that it heard a vote for is delivered.
    fn check_none(&self, learner: usize, delivered: usize) -> Result<(), String> {
        match self.heard[learner].iter().rposition(|heard| *heard) {
            Some(last) if self.holes[learner].is_none() && delivered <= last => {
                Err(format!("learner {} has no hole and heard of instance {}, but delivers {}", learner, last, delivered))
            }
            _ => Ok(()),
        }
    }

    /// A saved table read into another learner's gives the same table, and saving changes none.
    fn check_saved(&mut self) -> Result<(), String> {
        let instances = self.settings.instances as usize;
        for learner in &mut self.learners {
            let before = learner.clone();
            let mut other = LearnerTables::used(instances);
            let mut saved = vec![0; 8 + 21 * instances];
            let answers = (calls::learner_save(self.settings, learner, &mut saved), calls::learner_read_saved(self.settings, &mut saved, &mut other));
            if answers != (DONE, DONE) || *learner != before || other != before {
                return Err(format!("{:x?} saved as {:02x?} and read as {:x?}, answers {:?}", before, saved, other, answers));
            }
        }
        Ok(())
    }
}

fn main() {
    let (runs, seed) = random::count_and_seed();
    let (over_packets, over_frames) = (simulate(runs, seed, false), simulate(runs, seed, true));
    let (passed, failed) = (over_packets.0 + over_frames.0, over_packets.1 + over_frames.1);
    println!("{} passed, {} failed", passed, failed);
    std::process::exit((failed > 0) as i32);
}

/// So many runs over packets or over frames: how many passed and failed, where what no run had counts as a failure.
fn simulate(runs: u64, seed: u64, framed: bool) -> (u64, u64) {
    let over = if framed { "frames" } else { "packets" };
    let mut seeds = Random::new(seed);
    let (mut passed, mut failed) = (0, 0);
    let mut seen = vec![("a decision", 0), ("a takeover that decided", 0), ("a hole repaired by null", 0), ("a decided value kept by a takeover", 0)];
    seen.extend([("all holes repaired at the end", 0), ("a hole with none decided above as the first to be repaired", 0)]);
    seen.push(("a ledger ahead of another that has read some entry", 0));
    if framed {
        seen.push(("a damaged frame", 0));
    }
    let mut answers = BTreeMap::new();
    let mut told = Instant::now();
    for _ in 0..runs {
        let seed = seeds.number();
        let mut run = Run::new(seed, framed);
        match run.go() {
            Ok(()) => passed += 1,
            Err(reason) => {
                failed += 1;
                if failed <= 10 {
                    println!("FAILED: run {:x} over {} with {:?}: {}", seed, over, run.settings, reason);
                }
            }
        }
        let Seen { decision, takeover, null_repair, kept, repaired, last_hole, ledger_ahead, damage } = run.seen;
        let had = [decision, takeover, null_repair, kept, repaired, last_hole, ledger_ahead, damage];
        seen.iter_mut().zip(had).for_each(|((_, count), had)| *count += had as u64);
        run.ledgers.iter().flat_map(|ledger| &ledger.answers).for_each(|answer| *answers.entry(*answer).or_insert(0) += 1);
        if told.elapsed() >= Duration::from_secs(5) {
            eprintln!("simulate: {} of {} runs over {}", passed + failed, runs, over);
            told = Instant::now();
        }
    }
    failed += seen.iter().map(|(what, count)| tell(&format!("runs over {} with {}", over, what), *count)).sum::<u64>();
    for (answer, what) in ledgers::ANSWERS {
        failed += tell(&format!("entries over {} {}", over, what), *answers.get(&answer).unwrap_or(&0));
    }
    (passed, failed)
}

/// Prints how often something came up; that it never did is a failure.
fn tell(what: &str, count: u64) -> u64 {
    println!("{}: {}", what, count);
    if count == 0 {
        println!("FAILED: no {}", what);
    }
    (count == 0) as u64
}
