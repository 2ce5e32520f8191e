//! Records histories of threads on real queues and decides each. `histories COUNT SEED [first]`: so many of each capacity, or with `first` until one is illegal.
//! Its status is 1 where one is illegal. `QUEUE_CHECK` may be the path of the proved program: then one of so many is decided by it too, as are the first that are
//! illegal, and the program stops where the two differ.
mod checker;
mod history;
mod proved;
mod record;
mod users;

use checker::{Verdict, decide};
use record::{BATCH, Random, record};
use std::collections::BTreeMap;
use std::process::ExitCode;

/// Of so many histories the proved program decides one too, and so many that are illegal.
const ASKED_OF: usize = 16;
const ASKED_ILLEGAL: usize = 50;

const CAPACITIES: [Option<usize>; 6] = [Some(1), Some(2), Some(3), Some(4), Some(64), None];

/// What was found of the histories of a capacity.
#[derive(Default)]
struct Found {
    histories: usize,
    with_overlap: usize,
    displacements: usize,
    asked: usize,
    verdicts: BTreeMap<Verdict, usize>,
}

impl Found {
    fn of(&self, verdict: Verdict) -> usize {
        self.verdicts.get(&verdict).copied().unwrap_or(0)
    }

    fn illegal(&self) -> usize {
        self.verdicts.iter().filter(|(verdict, _)| !verdict.is_legal()).map(|(_, count)| count).sum()
    }
}

fn try_capacity(capacity: Option<usize>, count: usize, seed: u64, only_first: bool, shown: &mut bool) -> Found {
    let mut random = Random::new(seed);
    let mut found = Found::default();
    let queue_check = std::env::var("QUEUE_CHECK").ok();
    while found.histories < count && !(only_first && found.illegal() > 0) {
        for history in record(&mut random, capacity) {
            let verdict = decide(&history, capacity);
            found.histories += 1;
            found.with_overlap += usize::from(history.has_overlap());
            found.displacements += history.events().filter(|event| event.displaces()).count();
            *found.verdicts.entry(verdict).or_default() += 1;
            let is_asked = if verdict.is_legal() { found.histories % ASKED_OF == 0 } else { found.illegal() <= ASKED_ILLEGAL };
            if let Some(program) = queue_check.as_deref().filter(|_| is_asked) {
                found.asked += 1;
                if !proved::agrees(program, &history, capacity, verdict) {
                    history.print();
                    panic!("queue_check does not find it {verdict:?}");
                }
            }
            if !verdict.is_legal() && !*shown {
                *shown = true;
                println!("an illegal history, {verdict:?}, capacity {}:", capacity.unwrap_or(0));
                history.print();
            }
        }
    }
    found
}

fn main() -> ExitCode {
    let arguments: Vec<String> = std::env::args().skip(1).collect();
    let number = |at: usize, default: u64| arguments.get(at).map_or(default, |word| word.parse().expect("a number"));
    let (count, seed) = (number(0, BATCH as u64) as usize, number(1, 1));
    let only_first = arguments.get(2).is_some_and(|word| word == "first");
    let (mut histories, mut illegal, mut shown) = (0, 0, false);
    for (at, capacity) in CAPACITIES.into_iter().enumerate() {
        let found = try_capacity(capacity, count, seed + 1000 * at as u64, only_first, &mut shown);
        println!(
            "{}, capacity {}: {} histories, {} with calls at one time, {} displacements; legal only with a displacement in two steps {}; illegal {} (a close is lost {}, Full while the item is taken {}, other {}); queue_check found {} the same",
            users::NAME,
            capacity.map_or("none".to_string(), |cap| cap.to_string()),
            found.histories,
            found.with_overlap,
            found.displacements,
            found.of(Verdict::LegalBetween),
            found.illegal(),
            found.of(Verdict::CloseLost),
            found.of(Verdict::FullWhileHeld),
            found.of(Verdict::Illegal),
            found.asked,
        );
        histories += found.histories;
        illegal += found.illegal();
    }
    println!("{}: {histories} histories, {illegal} illegal", users::NAME);
    if illegal > 0 { ExitCode::FAILURE } else { ExitCode::SUCCESS }
}
