//! Times each proved player against a plain one on the same packets, and holds every answer, packet and table of the one to the other's.
//! With the words `PLAYER proved|plain COUNT` it only makes so many packets and takes those steps, for a counter of instructions, and with the word `without`
//! behind them it leaves out the steps. `acceptor-frames` is the acceptor on frames, around the same packets. `ledger-0`, `ledger-128` and `ledger-256` are the
//! ledger with so many passes in use, and their packets are entries.
mod plain;

#[allow(dead_code)]
#[path = "../compare/calls.rs"]
mod calls;
#[allow(dead_code)]
#[path = "../compare/random.rs"]
mod random;
#[allow(dead_code)]
#[path = "../compare/tables.rs"]
mod tables;

use random::Random;
use std::collections::BTreeMap;
use std::time::{Duration, Instant};
use tables::*;

const SETTINGS: Settings = Settings { acceptors: 3, instances: 1024 };
const ACCEPTORS: u32 = SETTINGS.acceptors;
const INSTANCES: u32 = SETTINGS.instances;
const CELLS: usize = INSTANCES as usize;
const ACCEPTOR: u32 = 2;
const BACKUP: u32 = 1;
const STEPS: usize = 1_000_000;
/// For the ledger, which looks at every pair of its passes in each step.
const ENTRIES: usize = 20_000;
const TURNS: usize = 15;
const PACKET: usize = 36;
const FRAME: usize = 78;
const ENTRY: usize = 16;
const PORT: u16 = 47_036;

/// One of the two that are timed: what its tables are at the start of a batch, and its step.
struct Side<T> {
    ready: fn() -> T,
    step: fn(&mut [u8], &mut T) -> u32,
}

/// A player, proved and plain, on packets or frames of one length. They come in batches, each to tables of its own, since tables fill up.
struct Player<T, const LENGTH: usize> {
    name: &'static str,
    steps: usize,
    batch: usize,
    packets: fn(usize, &mut Random) -> [u8; LENGTH],
    proved: Side<T>,
    plain: Side<T>,
}

// ---- packets. What is drawn follows from a fixed seed

fn packet(kind: u32, switch: u32, instance: u32, round: u32, vote_round: u32, value: u128) -> [u8; PACKET] {
    let mut packet = [0; PACKET];
    let written = calls::packet_write(Fields { kind, switch, instance, round, vote_round, value }, &mut packet);
    assert_eq!(written, DONE);
    packet
}

fn any_value(random: &mut Random) -> u128 {
    (random.number() as u128) << 64 | random.number() as u128
}

/// A request of any switch.
fn request(_: usize, random: &mut Random) -> [u8; PACKET] {
    packet(0, random.below(65536) as u32, 0, 0, NONE, any_value(random) | 1)
}

/// A prepare or a propose. Rounds rise by 4 for each packet that a cell gets and jump about by 8, so that some packets of each kind are too old.
fn order(index: usize, random: &mut Random) -> [u8; PACKET] {
    let propose = random.chance(50);
    let instance = random.below(CELLS) as u32;
    let mut round = index as u32 / INSTANCES * 4 + random.below(8) as u32;
    if round % 4 == 0 && (round != 0 || !propose) {
        round += 1;
    }
    if propose {
        packet(3, round % 4, instance, round, NONE, any_value(random))
    } else {
        packet(1, round % 4, instance, round, NONE, 0)
    }
}

/// The same in a frame, from any box and port.
fn framed_order(index: usize, random: &mut Random) -> [u8; FRAME] {
    let order = order(index, random);
    let mut frame = [0; FRAME];
    frame[12..16].copy_from_slice(&[0x08, 0x00, 0x45, 0x00]);
    frame[16..24].copy_from_slice(&[0, 64, 0, 0, 0x40, 0, 64, 17]);
    frame[26..34].copy_from_slice(&random.bytes(8));
    frame[34..36].copy_from_slice(&random.bytes(2));
    frame[36..38].copy_from_slice(&PORT.to_be_bytes());
    frame[38..40].copy_from_slice(&[0, 44]);
    frame[FRAME - PACKET..].copy_from_slice(&order);
    assert_eq!(calls::frame_seal(&mut frame), DONE);
    frame
}

/// A promise in the round of the start or, seldom, in the one before, with a vote or without.
fn promise(_: usize, random: &mut Random) -> [u8; PACKET] {
    let sender = random.below(ACCEPTORS as usize) as u32;
    let instance = random.below(CELLS) as u32;
    let round = if random.chance(90) { STARTED } else { STARTED - 4 };
    if random.chance(50) {
        packet(2, sender, instance, round, NONE, 0)
    } else {
        packet(2, sender, instance, round, random.pick(&[0, 1]), any_value(random))
    }
}

/// A vote, most in round 1. Votes of a round for an instance are for one value but for a few.
fn vote(_: usize, random: &mut Random) -> [u8; PACKET] {
    let sender = random.below(ACCEPTORS as usize) as u32;
    let instance = random.below(CELLS) as u32;
    let round = random.pick(&[0, 1, 1, 1, 1, 1, 1, 2]);
    let other = random.chance(3) as u128;
    packet(4, sender, instance, round, round, (instance as u128) << 64 | other)
}

/// A sale or a boarding.
fn entry(kind: u8, rides: u8, pass: usize, scan: usize) -> [u8; ENTRY] {
    let [pass, scan] = [pass, scan].map(|number| number as u128);
    (((kind as u128) << 8 | rides as u128) << 112 | pass << 80 | scan << 32).to_be_bytes()
}

/// A boarding of any pass in use, with a scan above all before it; where none is in use, of one that was not sold.
fn boarding<const IN_USE: usize>(index: usize, random: &mut Random) -> [u8; ENTRY] {
    entry(2, 0, random.below(IN_USE.max(1)), index + 1)
}

// ---- players

fn fresh<T>(mut tables: T, fill: fn(Settings, &mut T) -> u32) -> T {
    assert_eq!(fill(SETTINGS, &mut tables), DONE);
    tables
}

fn primary() -> Player<Vec<u32>, PACKET> {
    let ready = || fresh(vec![1], calls::primary_fresh);
    Player {
        name: "primary",
        steps: STEPS,
        batch: 1100,
        packets: request,
        proved: Side { ready, step: |packet, next| calls::primary_step(SETTINGS, packet, next) },
        plain: Side { ready, step: |packet, next| plain::primary::step(ACCEPTORS, INSTANCES, packet, next) },
    }
}

fn acceptor() -> Player<AcceptorTables, PACKET> {
    let ready = || fresh(AcceptorTables::used(CELLS), calls::acceptor_fresh);
    Player {
        name: "acceptor",
        steps: STEPS,
        batch: 8192,
        packets: order,
        proved: Side { ready, step: |packet, t| calls::acceptor_step(SETTINGS, ACCEPTOR, packet, t) },
        plain: Side {
            ready,
            step: |packet, t| {
                plain::acceptor::step(ACCEPTORS, INSTANCES, ACCEPTOR, packet, &mut t.rounds, &mut t.vote_rounds, &mut t.values)
            },
        },
    }
}

fn acceptor_frames() -> Player<AcceptorTables, FRAME> {
    let ready = || fresh(AcceptorTables::used(CELLS), calls::acceptor_fresh);
    Player {
        name: "acceptor-frames",
        steps: STEPS,
        batch: 8192,
        packets: framed_order,
        proved: Side { ready, step: |frame, t| calls::acceptor_frame(SETTINGS, ACCEPTOR, PORT, frame, t) },
        plain: Side {
            ready,
            step: |frame, t| {
                plain::acceptor::frame(ACCEPTORS, INSTANCES, ACCEPTOR, PORT, frame, &mut t.rounds, &mut t.vote_rounds, &mut t.values)
            },
        },
    }
}

/// A backup is started on each instance before its promises come, and what it wrote is kept beside its tables, to be compared as well.
#[derive(PartialEq)]
struct Started {
    tables: BackupTables,
    prepares: Vec<u8>,
}

const STARTED: u32 = 5;

fn started(start: fn(Start, &mut [u8], &mut BackupTables) -> u32) -> Started {
    let mut tables = fresh(BackupTables::used(CELLS), calls::backup_fresh);
    let mut prepares = vec![0; PACKET * CELLS];
    for (instance, buffer) in prepares.chunks_exact_mut(PACKET).enumerate() {
        let named = Start { instance: instance as u32, floor: STARTED - 1, value: instance as u128 };
        assert_eq!(start(named, buffer, &mut tables), TO_ACCEPTORS);
    }
    Started { tables, prepares }
}

fn columns(t: &mut BackupTables) -> plain::backup::Columns<'_> {
    plain::backup::Columns {
        rounds: &mut t.rounds,
        phases: &mut t.phases,
        sets: &mut t.sets,
        best_vote_rounds: &mut t.best_vote_rounds,
        best_values: &mut t.best_values,
        own_values: &mut t.own_values,
    }
}

fn plain_start(named: Start, buffer: &mut [u8], t: &mut BackupTables) -> u32 {
    let (high, low) = ((named.value >> 64) as u64, named.value as u64);
    plain::backup::start(ACCEPTORS, INSTANCES, BACKUP, named.instance, named.floor, high, low, buffer, columns(t))
}

fn backup() -> Player<Started, PACKET> {
    Player {
        name: "backup",
        steps: STEPS,
        batch: 2048,
        packets: promise,
        proved: Side {
            ready: || started(|named, buffer, t| calls::backup_start(SETTINGS, BACKUP, named, buffer, t)),
            step: |packet, s| calls::backup_step(SETTINGS, BACKUP, packet, &mut s.tables),
        },
        plain: Side {
            ready: || started(plain_start),
            step: |packet, s| plain::backup::step(ACCEPTORS, INSTANCES, BACKUP, packet, columns(&mut s.tables)),
        },
    }
}

fn learner() -> Player<LearnerTables, PACKET> {
    let ready = || fresh(LearnerTables::used(CELLS), calls::learner_fresh);
    Player {
        name: "learner",
        steps: STEPS,
        batch: 2048,
        packets: vote,
        proved: Side { ready, step: |packet, t| calls::learner_step(SETTINGS, packet, t) },
        plain: Side {
            ready,
            step: |packet, t| plain::learner::step(ACCEPTORS, INSTANCES, packet, &mut t.rounds, &mut t.sets, &mut t.values),
        },
    }
}

fn sold<const IN_USE: usize>() -> LedgerTable {
    let mut table = LedgerTable::fresh(0);
    for pass in 0..IN_USE {
        assert_eq!(calls::ledger_enter(&mut entry(1, 40, pass, 0), &mut table), SOLD);
    }
    table
}

/// A batch has so few entries that no pass is used up.
fn ledger<const IN_USE: usize>(name: &'static str) -> Player<LedgerTable, ENTRY> {
    Player {
        name,
        steps: ENTRIES,
        batch: 2000,
        packets: boarding::<IN_USE>,
        proved: Side { ready: sold::<IN_USE>, step: |value, t| calls::ledger_enter(value, t) },
        plain: Side {
            ready: sold::<IN_USE>,
            step: |value, t| plain::ledger::enter(value, &mut t.passes, &mut t.rides_left, &mut t.last_days, &mut t.last_scans, &mut t.count),
        },
    }
}

// ---- turns

/// What a side left of a batch.
#[derive(PartialEq)]
struct Left<T> {
    packets: Vec<u8>,
    tables: T,
    answers: Vec<u32>,
}

/// One batch on tables made ready. Only the steps are timed.
fn run<T, const LENGTH: usize>(side: &Side<T>, batch: &[u8]) -> (Duration, Left<T>) {
    let mut left = Left { packets: batch.to_vec(), tables: (side.ready)(), answers: vec![0; batch.len() / LENGTH] };
    let began = Instant::now();
    for (packet, answer) in left.packets.chunks_exact_mut(LENGTH).zip(&mut left.answers) {
        *answer = (side.step)(packet, &mut left.tables);
    }
    (began.elapsed(), left)
}

/// Steps a second in millions, where each batch takes the median of its times: what else the machine did meanwhile is left out.
fn rate(steps: usize, times: Vec<Vec<Duration>>) -> f64 {
    let median = |mut times: Vec<Duration>| {
        times.sort();
        times[times.len() / 2]
    };
    let whole: Duration = times.into_iter().map(median).sum();
    steps as f64 / whole.as_secs_f64() / 1e6
}

/// With as many digits as a small one needs.
fn shown(rate: f64) -> String {
    if rate < 1.0 { format!("{rate:.3}") } else { format!("{rate:.1}") }
}

impl<T: PartialEq, const LENGTH: usize> Player<T, LENGTH> {
    fn make(&self, count: usize) -> Vec<u8> {
        let mut random = Random::new(1);
        (0..count).flat_map(|index| (self.packets)(index % self.batch, &mut random)).collect()
    }

    /// In each turn the two take every batch one after the other, and take turns at being the first.
    fn time(&self) {
        let all = self.make(self.steps);
        let batches: Vec<&[u8]> = all.chunks(LENGTH * self.batch).collect();
        let mut proved_times = vec![vec![]; batches.len()];
        let mut plain_times = proved_times.clone();
        let mut counts = BTreeMap::new();
        for turn in 0..TURNS {
            for (index, batch) in batches.iter().enumerate() {
                let sides = if turn % 2 == 0 { [&self.proved, &self.plain] } else { [&self.plain, &self.proved] };
                let [first, second] = sides.map(|side| run::<T, LENGTH>(side, batch));
                assert!(first.1 == second.1, "the proved {} and the plain one differ in batch {index}", self.name);
                let (proved, plain) = if turn % 2 == 0 { (first.0, second.0) } else { (second.0, first.0) };
                proved_times[index].push(proved);
                plain_times[index].push(plain);
                if turn == 0 {
                    first.1.answers.iter().for_each(|answer| *counts.entry(*answer).or_insert(0) += 1);
                }
            }
        }
        let (proved, plain) = (rate(self.steps, proved_times), rate(self.steps, plain_times));
        let shares: Vec<String> = counts.iter().map(|(answer, count)| format!("{answer}: {} %", (100 * count + self.steps / 2) / self.steps)).collect();
        println!("{:<15} {:>7} {:>7} {:>7.2}    {}", self.name, shown(proved), shown(plain), proved / plain, shares.join(", "));
    }

    fn count(&self, side: &Side<T>, count: &str, rest: &[&str]) {
        let step = match rest {
            [] => side.step,
            ["without"] => |_: &mut [u8], _: &mut T| 0,
            _ => usage(),
        };
        let counted = Side { ready: side.ready, step };
        let packets = self.make(count.parse().unwrap_or_else(|_| usage()));
        packets.chunks(LENGTH * self.batch).for_each(|batch| drop(run::<T, LENGTH>(&counted, batch)));
    }

    fn obey(&self, words: &[&str]) {
        match words {
            [] => self.time(),
            ["proved", count, rest @ ..] => self.count(&self.proved, count, rest),
            ["plain", count, rest @ ..] => self.count(&self.plain, count, rest),
            _ => usage(),
        }
    }
}

fn usage() -> ! {
    eprintln!("wanted: [primary|acceptor|acceptor-frames|backup|learner|ledger-0|ledger-128|ledger-256 [proved|plain COUNT [without]]]");
    std::process::exit(2)
}

fn main() {
    let words: Vec<String> = std::env::args().skip(1).collect();
    let words: Vec<&str> = words.iter().map(String::as_str).collect();
    if words.len() < 2 {
        println!("million steps a second, by the medians of {TURNS} turns of {STEPS} packets, for the ledger of {ENTRIES} entries");
        println!("player           proved   plain   ratio    answers");
    }
    match &words[..] {
        [] => {
            primary().time();
            acceptor().time();
            acceptor_frames().time();
            backup().time();
            learner().time();
            ledger::<0>("ledger-0").time();
            ledger::<128>("ledger-128").time();
            ledger::<256>("ledger-256").time();
        }
        ["primary", rest @ ..] => primary().obey(rest),
        ["acceptor", rest @ ..] => acceptor().obey(rest),
        ["acceptor-frames", rest @ ..] => acceptor_frames().obey(rest),
        ["backup", rest @ ..] => backup().obey(rest),
        ["learner", rest @ ..] => learner().obey(rest),
        ["ledger-0", rest @ ..] => ledger::<0>("ledger-0").obey(rest),
        ["ledger-128", rest @ ..] => ledger::<128>("ledger-128").obey(rest),
        ["ledger-256", rest @ ..] => ledger::<256>("ledger-256").obey(rest),
        _ => usage(),
    }
    if words.len() < 2 {
        println!("Every answer, packet and table of the proved players was the plain ones'.");
    }
}
