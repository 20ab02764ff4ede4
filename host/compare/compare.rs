//! Calls the archives and the model on the same inputs and compares the answer and everything lent, byte for byte.
//! Usage: compare COUNT SEED. The model is held to the change requests' frames and entries. Then each call is compared on its sweeps and COUNT times its share
//! in scenes by chance, on inputs of its own stream. Then come the digests, of each call and of all, and the last line is 'N passed, M failed', where N counts
//! the frames and entries of the requests and the calls that agreed.

mod borders;
mod both;
mod calls;
mod digest;
mod frame_cases;
mod frame_inputs;
mod frames;
mod inputs;
mod ledger;
mod ledger_cases;
mod ledger_inputs;
mod ledger_sweeps;
mod model;
mod random;
mod rides;
mod scenes;
mod sweeps;
mod tables;

use digest::{Content, Digest};
use inputs::Inputs;
use std::collections::BTreeMap;
use std::fmt::Debug;
use std::time::{Duration, Instant};
use tables::*;

#[global_allocator]
static MEMORY: borders::Bordered = borders::Bordered;

/// Kinds of input that are to come up, each with how many numbers of it from 0.
type Kinds = &'static [(&'static str, u32)];

/// An exported call: how often it is compared beside others, what the paper lets it answer (its refusals, then its verdicts), its kinds of input, and where the
/// inputs come from.
struct Call {
    name: &'static str,
    share: u64,
    answers: &'static [u32],
    kinds: &'static [Kinds],
    sweep: fn(&mut Comparison),
    scene: fn(&mut Comparison, Settings),
}

const PRIMARY_ANSWERS: &[u32] = &[7, 1, 2, 3, 4, 5, 6, 17, 12, TO_ACCEPTORS];
const PRIMARY_KINDS: Kinds = &[(both::M, 256), (both::NEXT_WITHIN, 1), (both::NEXT_FAR, 1), (both::PACKET_TOP_BIT, 1)];
const SETTINGS_KINDS: Kinds = &[(both::M, 256)];
const ACCEPTOR_KINDS: Kinds = &[(both::M, 256), (both::PACKET_TOP_BIT, 1), (both::CELL_TOP_BIT, 1)];
const BACKUP_KINDS: Kinds = &[(both::M, 256), (both::PHASE, 256), (both::SET, 256), (both::CELL_TOP_BIT, 1)];
const LEARNER_KINDS: Kinds = &[(both::M, 256), (both::SET, 256), (both::CELL_TOP_BIT, 1)];
const HOLE_KINDS: Kinds = &[(both::GAP, 1), (both::LAST_HOLE, 1), (both::UNTOUCHED, 1)];
const SUM_KINDS: Kinds = &[(both::FRAME_LENGTH, 101), (both::IPV4_ZERO, 1), (both::UDP_ONES, 1), (both::SECOND_CARRY, 2)];
const FRAME_KINDS: Kinds = &[(both::FLIPPED_BIT, 528), (both::HEADER_FAULT, 5), (both::UDP_FAULT, 2), (both::IPV4_ONES, 1), (both::UDP_ZERO, 1)];
const LEDGER_KINDS: Kinds = &[(both::TABLE_FAULT, 7), (both::TWICE, 256), (both::TOO_MANY_LEFT, 256), (both::PAST_COUNT, 2), (both::IN_USE, 257)];
const ENTRY_KINDS: Kinds = &[(both::ENTRY_LENGTH, 33), (both::ENTRY_FAULT, 5), (both::LATER_REASON, 4), (both::BOARDING_BOUND, 3), (both::SUM, 1)];

#[rustfmt::skip]
const CALLS: &[Call] = &[
    Call {
        name: "packet_write", share: 1, answers: &[1, 4, 5, DONE],
        kinds: &[&[(both::KIND_TAKEN, 5), (both::KIND_BROKEN, 5), (both::SWITCH_FAR, 5), (both::KIND_FAR, 5)]],
        sweep: sweeps::packet_write, scene: scenes::packet_write,
    },
    Call {
        name: "packet_read", share: 1, answers: &[1, 2, 3, 4, 5, DONE],
        kinds: &[&[(both::KIND_TAKEN, 5), (both::KIND_BROKEN, 5), (both::PACKET_TOP_BIT, 1)]],
        sweep: sweeps::packet_read, scene: scenes::packet_read,
    },
    Call {
        name: "primary_fresh", share: 1, answers: &[7, DONE], kinds: &[SETTINGS_KINDS],
        sweep: sweeps::primary_fresh, scene: scenes::primary_fresh,
    },
    Call {
        name: "acceptor_fresh", share: 1, answers: &[7, DONE], kinds: &[SETTINGS_KINDS],
        sweep: sweeps::acceptor_fresh, scene: scenes::acceptor_fresh,
    },
    Call {
        name: "backup_fresh", share: 1, answers: &[7, DONE], kinds: &[SETTINGS_KINDS],
        sweep: sweeps::backup_fresh, scene: scenes::backup_fresh,
    },
    Call {
        name: "learner_fresh", share: 1, answers: &[7, DONE], kinds: &[SETTINGS_KINDS],
        sweep: sweeps::learner_fresh, scene: scenes::learner_fresh,
    },
    Call {
        name: "primary_step", share: 1, answers: PRIMARY_ANSWERS, kinds: &[PRIMARY_KINDS],
        sweep: sweeps::primary_step, scene: scenes::primary_step,
    },
    Call {
        name: "primary_request", share: 1, answers: PRIMARY_ANSWERS, kinds: &[PRIMARY_KINDS],
        sweep: sweeps::primary_request, scene: scenes::primary_request,
    },
    Call {
        name: "acceptor_step", share: 3, answers: &[7, 1, 2, 3, 4, 5, 6, 8, 17, 10, TO_LEADER, TO_LEARNERS],
        kinds: &[ACCEPTOR_KINDS],
        sweep: sweeps::acceptor_step, scene: scenes::acceptor_step,
    },
    Call {
        name: "backup_start", share: 1, answers: &[7, 1, 8, 17, 16, TO_ACCEPTORS], kinds: &[BACKUP_KINDS],
        sweep: sweeps::backup_start, scene: scenes::backup_start,
    },
    Call {
        name: "backup_step", share: 3, answers: &[7, 1, 2, 3, 4, 5, 6, 8, 9, 17, 11, 15, HOLD, TO_ACCEPTORS], kinds: &[BACKUP_KINDS],
        sweep: sweeps::backup_step, scene: scenes::backup_step,
    },
    Call {
        name: "learner_step", share: 4, answers: &[7, 1, 2, 3, 4, 5, 6, 8, 9, 17, 14, 10, 13, 15, HOLD, DECIDED], kinds: &[LEARNER_KINDS],
        sweep: sweeps::learner_step, scene: scenes::learner_step,
    },
    Call {
        name: "learner_answer", share: 1, answers: &[7, 8, 17, NOT_YET, DONE], kinds: &[LEARNER_KINDS],
        sweep: sweeps::learner_answer, scene: scenes::learner_answer,
    },
    Call {
        name: "learner_deliver", share: 1, answers: &[7, 1, 17, DONE], kinds: &[LEARNER_KINDS],
        sweep: sweeps::learner_deliver, scene: scenes::learner_deliver,
    },
    Call {
        name: "learner_first_hole", share: 1, answers: &[7, 17, NO_HOLE, DONE], kinds: &[LEARNER_KINDS, HOLE_KINDS],
        sweep: sweeps::learner_first_hole, scene: scenes::learner_first_hole,
    },
    Call {
        name: "learner_save", share: 1, answers: &[7, 1, 17, DONE], kinds: &[LEARNER_KINDS],
        sweep: sweeps::learner_save, scene: scenes::learner_save,
    },
    Call {
        name: "learner_read_saved", share: 1, answers: &[7, 1, 2, 3, 17, DONE], kinds: &[LEARNER_KINDS],
        sweep: sweeps::learner_read_saved, scene: scenes::learner_read_saved,
    },
    Call {
        name: "primary_frame", share: 1, answers: &[7, 21, 22, 23, 24, 25, 2, 3, 4, 5, 6, 17, 12, TO_ACCEPTORS],
        kinds: &[PRIMARY_KINDS, SUM_KINDS, FRAME_KINDS],
        sweep: sweeps::primary_frame, scene: scenes::primary_frame,
    },
    Call {
        name: "acceptor_frame", share: 3, answers: &[7, 21, 22, 23, 24, 25, 2, 3, 4, 5, 6, 8, 17, 10, TO_LEADER, TO_LEARNERS],
        kinds: &[ACCEPTOR_KINDS, SUM_KINDS, FRAME_KINDS],
        sweep: sweeps::acceptor_frame, scene: scenes::acceptor_frame,
    },
    Call {
        name: "backup_frame", share: 3, answers: &[7, 21, 22, 23, 24, 25, 2, 3, 4, 5, 6, 8, 9, 17, 11, 15, HOLD, TO_ACCEPTORS],
        kinds: &[BACKUP_KINDS, SUM_KINDS, FRAME_KINDS],
        sweep: sweeps::backup_frame, scene: scenes::backup_frame,
    },
    Call {
        name: "learner_frame", share: 3, answers: &[7, 21, 22, 23, 24, 25, 2, 3, 4, 5, 6, 8, 9, 17, 14, 10, 13, 15, HOLD, DECIDED],
        kinds: &[LEARNER_KINDS, SUM_KINDS, FRAME_KINDS],
        sweep: sweeps::learner_frame, scene: scenes::learner_frame,
    },
    Call {
        name: "frame_prepare", share: 1, answers: &[1, 2, 3, 4, 5, 6, 21, DONE], kinds: &[SUM_KINDS],
        sweep: sweeps::frame_prepare, scene: scenes::frame_prepare,
    },
    Call {
        name: "frame_check", share: 2, answers: &[21, 22, 23, 24, 25, DONE], kinds: &[SUM_KINDS, FRAME_KINDS],
        sweep: sweeps::frame_check, scene: scenes::frame_check,
    },
    Call {
        name: "frame_seal", share: 1, answers: &[21, 22, 24, DONE], kinds: &[SUM_KINDS, &[(both::HEADER_FAULT, 5), (both::UDP_FAULT, 1)]],
        sweep: sweeps::frame_seal, scene: scenes::frame_seal,
    },
    Call {
        name: "ledger_enter", share: 1, answers: &[30, 31, 32, 33, 34, 35, 36, 37, SOLD, BOARDED, SKIPPED], kinds: &[LEDGER_KINDS, ENTRY_KINDS],
        sweep: ledger_sweeps::ledger_enter, scene: scenes::ledger_enter,
    },
];

/// One call in comparison. Its inputs are a stream of its own, so that its digest stays when other calls come.
pub struct Comparison {
    call: &'static str,
    pub inputs: Inputs,
    compared: u64,
    answers: BTreeMap<u32, u64>,
    kinds: BTreeMap<(&'static str, u32), u64>,
    digest: Digest,
}

impl Comparison {
    fn new(call: &'static str, seed: u64) -> Self {
        let mut name = Digest::new();
        name.bytes(call.as_bytes());
        let inputs = Inputs::new(seed ^ name.number());
        Comparison { call, inputs, compared: 0, answers: BTreeMap::new(), kinds: BTreeMap::new(), digest: Digest::new() }
    }

    /// One call on both sides; gives the answer and what it left.
    pub fn compare<T: Content + Clone + PartialEq + Debug>(
        &mut self,
        input: &T,
        archive: impl FnOnce(&mut T) -> u32,
        model: impl FnOnce(&mut T) -> model::Answer,
    ) -> (u32, T) {
        let mut by_archive = input.clone();
        let mut by_model = input.clone();
        let answer = archive(&mut by_archive);
        let result = model(&mut by_model);
        let expected = result.unwrap_or_else(|refusal| refusal);
        let unchanged = result.is_ok() || by_model == *input;
        if answer != expected || by_archive != by_model || !unchanged {
            println!("FAILED: {} after {} calls that agreed", self.call, self.compared);
            println!("input   {:x?}", input);
            println!("archive {} {:x?}", answer, by_archive);
            println!("model   {} {:x?}", expected, by_model);
            self.end();
        }
        self.compared += 1;
        *self.answers.entry(answer).or_insert(0) += 1;
        answer.add_to(&mut self.digest);
        by_archive.add_to(&mut self.digest);
        (answer, by_archive)
    }

    fn end(&self) -> ! {
        println!("{} passed, 1 failed", self.compared);
        std::process::exit(1);
    }

    /// What has to be so of what the calls left, counted as a kind of its own.
    pub fn hold(&mut self, kind: &'static str, holds: bool) {
        if !holds {
            println!("FAILED: {} after {} calls does not have {}", self.call, self.compared, kind);
            self.end();
        }
        self.saw(kind, 0);
    }

    /// Counts an input of a kind, by its number where the kind has several.
    pub fn saw(&mut self, kind: &'static str, number: u32) {
        *self.kinds.entry((kind, number)).or_insert(0) += 1;
    }

    /// Prints how often the call gave each answer and had each kind of input (the rarest of its numbers), and counts what ought to have come up and did not, or
    /// the other way round.
    fn report(&self, call: &Call) -> usize {
        let seen = |answer: &u32| *self.answers.get(answer).unwrap_or(&0);
        let had = |kind: &str, numbers: u32| (0..numbers).map(|number| *self.kinds.get(&(kind, number)).unwrap_or(&0)).min().unwrap_or(0);
        let call_kinds = call.kinds.concat();
        let answers: Vec<String> = call.answers.iter().map(|answer| format!("{}: {}", answer, seen(answer))).collect();
        let kinds: Vec<String> = call_kinds.iter().map(|(kind, numbers)| format!("{}: {}", kind, had(kind, *numbers))).collect();
        println!("{} {}; {}", self.call, answers.join(", "), kinds.join(", "));
        let mut faults = Vec::new();
        let missing = call.answers.iter().filter(|answer| seen(answer) == 0);
        faults.extend(missing.map(|answer| format!("never answered {}", answer)));
        let beyond = self.answers.keys().filter(|answer| !call.answers.contains(answer));
        faults.extend(beyond.map(|answer| format!("answered {}, which the paper does not let it", answer)));
        for (kind, numbers) in call_kinds {
            let missing = (0..numbers).filter(|number| !self.kinds.contains_key(&(kind, *number)));
            faults.extend(missing.map(|number| format!("never had {}: {}", kind, number)));
        }
        faults.iter().for_each(|fault| println!("FAILED: {} {}", self.call, fault));
        faults.len()
    }
}

fn main() {
    let (count, seed) = random::count_and_seed();
    let (mut passed, mut failed) = (0, 0);
    for (case, holds) in frame_cases::of_the_model().into_iter().chain(ledger_cases::of_the_model()) {
        passed += holds as u64;
        failed += !holds as usize;
        if !holds {
            println!("FAILED: the model on {}", case);
        }
    }
    let mut digests = Vec::new();
    let mut told = Instant::now();
    for call in CALLS {
        let mut comparison = Comparison::new(call.name, seed);
        (call.sweep)(&mut comparison);
        let end = comparison.compared + count * call.share;
        while comparison.compared < end {
            let settings = comparison.inputs.begin_scene();
            (call.scene)(&mut comparison, settings);
            if told.elapsed() >= Duration::from_secs(5) {
                eprintln!("compare: {} calls agreed", passed + comparison.compared);
                told = Instant::now();
            }
        }
        passed += comparison.compared;
        failed += comparison.report(call);
        digests.push((call.name, comparison.digest.number()));
    }
    let mut total = Digest::new();
    for (name, digest) in digests {
        println!("digest {} {:016x}", name, digest);
        digest.add_to(&mut total);
    }
    println!("digest {:016x}", total.number());
    println!("{} passed, {} failed", passed, failed);
    std::process::exit((failed > 0) as i32);
}
