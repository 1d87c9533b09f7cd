//! The stored set: all directed cases, and few random ones, chosen so that
//! every kind of coverage is reached and every planted mistake is told apart
//! several times.

use crate::case::encode::encode;
use crate::case::Case;
use crate::coverage::Coverage;
use crate::directed::all;
use crate::expect::{lines, play, Played};
use crate::mistake::Mistake;
use crate::random::scene::{case, Purpose};

/// Where the random cases are looked for.
const SEED: u64 = 9;
const TRIED: u64 = 2500;
/// A random case's bytes and output may not be longer than this together.
const LONGEST: usize = 3500;
/// How many cases shall tell each mistake apart, if so many are found.
const TELLING: u32 = 3;

/// What the cases chosen so far show.
struct Chosen {
    cases: Vec<Case>,
    coverage: Coverage,
    told: Vec<u32>,
}

impl Chosen {
    /// Adds a case and counts what it shows.
    fn add(&mut self, case: Case, played: &Played) {
        let wanting = self.told.iter_mut().zip(Mistake::ALL).filter(|(count, _)| **count < TELLING);
        for (count, mistake) in wanting {
            *count += u32::from(play(&case, Some(*mistake)).shown != played.shown);
        }
        self.coverage.add(&played.coverage);
        self.cases.push(case);
    }

    /// Whether the case reaches something new or tells a mistake apart that
    /// too few have told.
    fn wants(&mut self, case: &Case, played: &Played) -> bool {
        let before = self.coverage.missing_count();
        let mut with = self.coverage.clone();
        with.add(&played.coverage);
        with.missing_count() < before
            || self.told.iter().zip(Mistake::ALL).any(|(count, mistake)| {
                *count < TELLING && play(case, Some(*mistake)).shown != played.shown
            })
    }
}

/// The names and cases of the stored set, in their order.
pub fn stored_set() -> Vec<Case> {
    let told = vec![0; Mistake::ALL.len()];
    let mut chosen = Chosen { cases: Vec::new(), coverage: Coverage::default(), told };
    for (_, case) in all() {
        let played = play(&case, None);
        chosen.add(case, &played);
    }
    for number in 0..TRIED {
        let candidate = case(SEED, number, Purpose::Any);
        let played = play(&candidate, None);
        let lines = lines(chosen.cases.len(), &candidate, &played);
        let output: usize = lines.iter().map(|line| line.len() + 1).sum();
        let short = encode(&candidate).len() + output <= LONGEST;
        if short && chosen.wants(&candidate, &played) {
            chosen.add(candidate, &played);
        }
    }
    chosen.cases
}
