//! What a comparison has seen, and what it must have seen to be worth anything.

use std::collections::BTreeMap;

use crate::cases::Program;
use crate::races::Class;
use crate::report::Output;

#[derive(Default)]
pub struct Tally {
    pub kinds: BTreeMap<&'static str, usize>,
    seen: BTreeMap<(&'static str, String), usize>,
}

impl Tally {
    pub fn count(&mut self, kind: &'static str, program: Program, output: &Output) {
        *self.kinds.entry(kind).or_default() += 1;
        for line in String::from_utf8_lossy(&output.text).lines() {
            if let Some(what) = essence(program, line) {
                *self.seen.entry((program.name(), what)).or_default() += 1;
            }
        }
    }

    pub fn print(&self) {
        for (kind, count) in &self.kinds {
            println!("{count:>8} {kind}");
        }
        for program in [Program::Report, Program::Calls] {
            println!("answers of {}:", program.name());
            let of_program = self.seen.iter().filter(|((name, _), _)| *name == program.name());
            for ((_, what), count) in of_program {
                println!("{count:>8} {what}");
            }
        }
    }

    /// What has to be represented and was not seen.
    pub fn missing(&self, program: Program) -> Vec<String> {
        let seen = |what: &String| self.seen.contains_key(&(program.name(), what.clone()));
        required(program).into_iter().filter(|what| !seen(what)).collect()
    }
}

/// What of a line is counted: faults by number, classes by name, the other answers by word.
fn essence(program: Program, line: &str) -> Option<String> {
    let words: Vec<&str> = line.split(' ').collect();
    match (program, words.as_slice()) {
        (_, ["7", "7", "7"]) => None,
        (_, [layer @ ("file" | "state"), number, "at", _]) => Some(format!("{layer} {number}")),
        (Program::Report, ["record", number, "at", _]) => Some(format!("record {number}")),
        (Program::Report, ["ops", ..]) => Some("ops".into()),
        (Program::Report, [_, _, class]) => Some(class.to_string()),
        (Program::Calls, ["record", ..] | ["refused", _] | ["class", _]) => Some(line.into()),
        (Program::Calls, ["line", _, ..]) => Some(words[2..].join(" ")),
        (Program::Calls, [_, _, number]) if words[0] != "added" => Some(format!("race of class {number}")),
        _ => Some(words[0].into()),
    }
}

fn required(program: Program) -> Vec<String> {
    let numbers = |name: &str, numbers: std::ops::RangeInclusive<usize>| {
        numbers.map(|number| format!("{name} {number}")).collect::<Vec<_>>()
    };
    let words = |words: &[&str]| words.iter().map(|word| word.to_string()).collect::<Vec<_>>();
    match program {
        Program::Report => [
            words(&["ops"]),
            words(&Class::ALL.map(Class::name)),
            numbers("file", 5..=8),
            numbers("record", 1..=4),
            numbers("state", 12..=17),
        ]
        .concat(),
        Program::Calls => [
            words(&["opened", "added", "cut", "same", "before", "after", "unordered"]),
            words(&["listed", "needs", "file 7"]),
            words(&["record 1 at 0", "record 2 at 1", "record 2 at 4", "record 3 at 2"]),
            words(&["record 4 at 2", "record 4 at 4", "record 4 at 5", "record 4 at 6", "record 4 at 8"]),
            words(&["this is no opening", "this is no call", "a second opening", "too many places lent"]),
            numbers("refused", 11..=18),
            numbers("class", 0..=5),
            numbers("race of class", 1..=5),
        ]
        .concat(),
    }
}
