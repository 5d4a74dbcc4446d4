//! The cases of a comparison: how many of each kind, and the input of each.

use crate::generate::{self, Maker};
use crate::random::Random;
use crate::recording::MOST_RECORDS;
use crate::report::{report, Output};
use crate::script::answers;
use crate::scripts;
use crate::worked;

#[derive(Clone, Copy, Debug, PartialEq, Eq)]
pub enum Program {
    Report,
    Calls,
}

impl Program {
    pub fn name(self) -> &'static str {
        match self {
            Program::Report => "report",
            Program::Calls => "calls",
        }
    }

    /// What the program has to print, as the examiner has it.
    pub fn expected(self, input: &[u8]) -> Output {
        match self {
            Program::Report => report(input),
            Program::Calls => answers(input),
        }
    }
}

pub struct Case {
    pub kind: &'static str,
    pub name: String,
    pub program: Program,
    pub input: Vec<u8>,
}

/// Makes the input of the n-th case of a kind.
type Make = fn(&mut Random, usize) -> Vec<u8>;

struct Kind {
    name: &'static str,
    program: Program,
    count: usize,
    make: Make,
}

const fn kind(name: &'static str, program: Program, count: usize, make: Make) -> Kind {
    Kind { name, program, count, make }
}

const KINDS: &[Kind] = &[
    kind("long recording", Program::Report, 40, |random, _| generate::accepted(random, MOST_RECORDS)),
    kind("full script", Program::Calls, 30, |random, _| scripts::full(random)),
    kind("recording of many threads", Program::Report, 60, many_threads),
    kind("recording of middle length", Program::Report, 300, |random, _| {
        let length = random.between(60, 250);
        generate::accepted(random, length)
    }),
    kind("short recording", Program::Report, 3000, |random, _| {
        let length = random.between(1, 60);
        generate::accepted(random, length)
    }),
    kind("recording of chains of posts", Program::Report, 1000, |random, _| {
        let length = random.between(20, 90);
        let mut maker = Maker::of_chains(random);
        maker.grow(random, length);
        maker.file()
    }),
    kind("recording with a fault of state", Program::Report, 600, |random, n| {
        generate::with_fault(random, 12 + (n % 6) as u8)
    }),
    kind("recording with a fault of a record", Program::Report, 400, |random, n| {
        generate::with_fault(random, 1 + (n % 4) as u8)
    }),
    kind("recording with damaged bytes", Program::Report, 400, |random, _| generate::damaged(random)),
    kind("recording with a damaged header", Program::Report, 400, |random, _| {
        generate::damaged_header(random)
    }),
    kind("recording of another length", Program::Report, 200, |random, _| {
        generate::other_length(random)
    }),
    kind("recording as a script", Program::Calls, 2000, |random, _| {
        let length = if random.chance(90) { random.between(5, 70) } else { random.between(70, 200) };
        scripts::recorded(random, length)
    }),
    kind("long script", Program::Calls, 100, |random, _| {
        let calls = random.between(100, 400);
        scripts::good(random, calls)
    }),
    kind("short script", Program::Calls, 3000, |random, _| {
        let calls = random.between(1, 80);
        scripts::good(random, calls)
    }),
    kind("script with a bad line", Program::Calls, 4 * (scripts::BAD_KINDS - 1), |random, n| {
        scripts::bad(random, n % (scripts::BAD_KINDS - 1))
    }),
    kind("script that lends too much", Program::Calls, 2, |random, _| {
        scripts::bad(random, scripts::BAD_KINDS - 1)
    }),
];

fn many_threads(random: &mut Random, _: usize) -> Vec<u8> {
    let threads = random.between(16, 64);
    let length = random.between(100, 300);
    let mut maker = Maker::with_threads(random, threads);
    maker.grow(random, length);
    maker.file()
}

/// The cases that are the same whatever the seed.
fn fixed() -> Vec<Case> {
    let recording = |kind, name: &str, input| Case {
        kind,
        name: name.into(),
        program: Program::Report,
        input,
    };
    let script = |kind, name: &str, input| Case {
        kind,
        name: name.into(),
        program: Program::Calls,
        input,
    };
    let mut cases = vec![script("worked case", "two panels as a script", worked::script().0.into())];
    for worked in worked::recordings() {
        cases.push(recording("worked case", worked.name, worked.file));
    }
    for (name, file) in generate::fixed_files() {
        cases.push(recording("file at a limit", name, file));
    }
    for (name, text) in scripts::fixed_scripts() {
        cases.push(script("script at a limit", name, text));
    }
    cases
}

/// All cases by number, from one seed.
pub struct Cases {
    seed: u64,
    fixed: usize,
}

impl Cases {
    pub fn new(seed: u64) -> Cases {
        Cases { seed, fixed: fixed().len() }
    }

    pub fn count(&self) -> usize {
        self.fixed + KINDS.iter().map(|kind| kind.count).sum::<usize>()
    }

    /// The case, with the stream from which to draw what else it needs.
    pub fn get(&self, number: usize) -> Option<(Case, Random)> {
        let mut random = Random::of_case(self.seed, number);
        let Some(mut n) = number.checked_sub(self.fixed) else {
            let case = fixed().into_iter().nth(number)?;
            return Some((case, random));
        };
        for kind in KINDS {
            if n < kind.count {
                let input = (kind.make)(&mut random, n);
                let name = format!("seed {} case {number}", self.seed);
                return Some((Case { kind: kind.name, name, program: kind.program, input }, random));
            }
            n -= kind.count;
        }
        None
    }
}
