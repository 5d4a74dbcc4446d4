//! Compares the proved programs `report` and `calls` with an examiner that was written from docs/
//! alone, on many recordings and scripts, each also with all its numbers renamed.
//!
//!     rustc -O --edition 2021 -o target/compare tests/compare/main.rs
//!     target/compare crates/report/out/report crates/calls/out/calls [SECONDS] [SEED]
//!     target/compare --store DIRECTORY
//!     target/compare --expect report|calls < INPUT

mod acceptance;
mod cases;
mod examiner;
mod generate;
mod ordering;
mod races;
mod random;
mod recording;
mod rename;
mod report;
mod run;
mod script;
mod scripts;
mod store;
mod tally;
mod worked;

use std::io::{Read, Write};
use std::path::Path;
use std::process::ExitCode;
use std::sync::atomic::{AtomicUsize, Ordering};
use std::sync::{mpsc, Mutex};
use std::time::{Duration, Instant};

use cases::{Case, Cases, Program};
use random::Random;
use rename::Renaming;
use report::Output;
use run::{end_child, run, Slot};
use tally::Tally;

const WORKERS: usize = 2;
const SECONDS: u64 = 600;
/// How many differences end the comparison before its last case.
const ENOUGH: usize = 20;
const SEED: u64 = 20_240_611;
const USAGE: &str = "usage: compare REPORT CALLS [SECONDS] [SEED], a program may be '-' to leave it out
       compare --store DIRECTORY
       compare --expect report|calls < INPUT";

fn main() -> ExitCode {
    let arguments: Vec<String> = std::env::args().skip(1).collect();
    let arguments: Vec<&str> = arguments.iter().map(String::as_str).collect();
    let number = |text: &str| text.parse::<u64>().ok();
    let outcome = match arguments.as_slice() {
        ["--store", directory] => store(directory).map(|()| 0),
        ["--expect", "report"] => expect(Program::Report),
        ["--expect", "calls"] => expect(Program::Calls),
        [report, calls, options @ ..] if options.len() <= 2 && !report.starts_with("--") => {
            let seconds = options.first().map_or(Some(SECONDS), |text| number(text));
            let seed = options.get(1).map_or(Some(SEED), |text| number(text));
            match (seconds, seed) {
                (Some(seconds), Some(seed)) => {
                    Comparison::new(report, calls, seed).run(seconds).map(|()| 0)
                }
                _ => Err(USAGE.into()),
            }
        }
        _ => Err(USAGE.into()),
    };
    match outcome {
        Ok(status) => ExitCode::from(status),
        Err(why) => {
            println!("{why}");
            ExitCode::FAILURE
        }
    }
}

fn store(directory: &str) -> Result<(), String> {
    let text = store::store(Path::new(directory), SEED).map_err(|error| error.to_string())?;
    std::io::stdout().write_all(&text).map_err(|error| error.to_string())
}

/// Prints what the examiner expects of one input, and gives the status that it expects.
fn expect(program: Program) -> Result<u8, String> {
    let mut input = Vec::new();
    std::io::stdin().read_to_end(&mut input).map_err(|error| error.to_string())?;
    let output = program.expected(&input);
    std::io::stdout().write_all(&output.text).map_err(|error| error.to_string())?;
    Ok(output.status as u8)
}

struct Comparison {
    report: String,
    calls: String,
    cases: Cases,
    next: AtomicUsize,
    slots: [Slot; WORKERS],
}

/// What a worker says of a case that it did.
struct Done {
    case: Case,
    expected: Output,
    compared: Compared,
}

struct Compared {
    renamed: bool,
    differences: Vec<String>,
}

impl Comparison {
    fn new(report: &str, calls: &str, seed: u64) -> Comparison {
        Comparison {
            report: report.into(),
            calls: calls.into(),
            cases: Cases::new(seed),
            next: AtomicUsize::new(0),
            slots: [const { Mutex::new(None) }; WORKERS],
        }
    }

    fn run(&self, seconds: u64) -> Result<(), String> {
        check_worked_cases()?;
        let start = Instant::now();
        let limit = Duration::from_secs(seconds);
        let mut tally = Tally::default();
        let (mut cases, mut renamed, mut differences) = (0, 0, 0);
        std::thread::scope(|scope| {
            let (send, receive) = mpsc::channel::<Done>();
            for slot in &self.slots {
                let send = send.clone();
                scope.spawn(move || self.work(slot, &send));
            }
            drop(send);
            loop {
                match receive.recv_timeout(limit.saturating_sub(start.elapsed())) {
                    Ok(done) => {
                        cases += 1;
                        renamed += usize::from(done.compared.renamed);
                        differences += done.compared.differences.len();
                        tally.count(done.case.kind, done.case.program, &done.expected);
                        done.compared.differences.iter().for_each(|text| println!("{text}"));
                        if differences >= ENOUGH {
                            self.next.store(self.cases.count(), Ordering::Relaxed);
                        }
                    }
                    Err(mpsc::RecvTimeoutError::Disconnected) => break,
                    Err(mpsc::RecvTimeoutError::Timeout) => self.give_up(seconds, cases),
                }
            }
        });
        tally.print();
        let asked = [Program::Report, Program::Calls].into_iter().filter(|p| self.path(*p).is_some());
        let missing: Vec<String> = asked.flat_map(|program| tally.missing(program)).collect();
        let took = start.elapsed().as_secs();
        println!("{cases} cases, {renamed} of them also renamed, {differences} differences, {took} seconds");
        if differences > 0 {
            return Err("FAILED: the programs and the examiner differ".into());
        }
        if !missing.is_empty() {
            return Err(format!("FAILED: not seen: {}", missing.join(", ")));
        }
        Ok(())
    }

    /// Ends everything at once: fewer cases than planned must not look like success.
    fn give_up(&self, seconds: u64, done: usize) -> ! {
        self.slots.iter().for_each(end_child);
        println!("FAILED: {seconds} seconds are over after {done} of {} cases", self.cases.count());
        std::process::exit(1)
    }

    fn path(&self, program: Program) -> Option<&str> {
        let path = match program {
            Program::Report => &self.report,
            Program::Calls => &self.calls,
        };
        (path != "-").then_some(path)
    }

    fn work(&self, slot: &Slot, send: &mpsc::Sender<Done>) {
        loop {
            let number = self.next.fetch_add(1, Ordering::Relaxed);
            let Some((case, random)) = self.cases.get(number) else {
                return;
            };
            let Some(path) = self.path(case.program) else {
                continue;
            };
            let expected = case.program.expected(&case.input);
            let compared = compare(path, number, &case, &expected, random, slot);
            if send.send(Done { case, expected, compared }).is_err() {
                return;
            }
        }
    }
}

/// Runs the program on a case: its output has to be that of the examiner, and the same again for
/// the renamed input.
fn compare(
    path: &str,
    number: usize,
    case: &Case,
    expected: &Output,
    mut random: Random,
    slot: &Slot,
) -> Compared {
    let renaming = Renaming::random(&mut random);
    let renamed = match case.program {
        Program::Report => renaming.file(&case.input),
        Program::Calls => Some(renaming.script(&case.input)),
    };
    let inputs = [("given", Some(&case.input)), ("renamed", renamed.as_ref())];
    let mut differences = Vec::new();
    for (form, input) in inputs {
        let Some(input) = input else { continue };
        let difference = match run(path, input, slot) {
            Ok(output) if output == *expected => continue,
            Ok(output) => first_difference(expected, &output),
            Err(why) => why,
        };
        let kept = keep(number, form, input);
        differences.push(format!(
            "DIFFERENCE in {}, {}, {} ({form}): {difference}; input in {kept}",
            case.program.name(),
            case.kind,
            case.name
        ));
    }
    Compared { renamed: renamed.is_some(), differences }
}

fn first_difference(expected: &Output, output: &Output) -> String {
    if expected.text == output.text {
        return format!("status {} for {}", output.status, expected.status);
    }
    let lines = |output: &Output| -> Vec<String> {
        output.text.split(|byte| *byte == b'\n').map(|line| String::from_utf8_lossy(line).into()).collect()
    };
    let (wanted, got) = (lines(expected), lines(output));
    let at = wanted.iter().zip(&got).take_while(|(a, b)| a == b).count();
    let show = |lines: &[String]| lines.get(at).cloned().unwrap_or("nothing".into());
    format!("line {}: {:?} for {:?}", at + 1, show(&got), show(&wanted))
}

/// Writes the input to a file of its own and gives its path.
fn keep(number: usize, form: &str, input: &[u8]) -> String {
    let name = format!("compare-{}-{number}-{form}", std::process::id());
    let path = std::env::temp_dir().join(name);
    match std::fs::write(&path, input) {
        Ok(()) => path.display().to_string(),
        Err(error) => format!("no file ({error})"),
    }
}

/// The examiner has to give the answers that the docs give, before it is compared with anything.
fn check_worked_cases() -> Result<(), String> {
    for worked in worked::recordings() {
        let text = report::report(&worked.file).text;
        if text != worked.report.as_bytes() {
            let text = String::from_utf8_lossy(&text).into_owned();
            return Err(format!("FAILED: the examiner has {text:?} for the worked case {}", worked.name));
        }
    }
    let (script, answers) = worked::script();
    if script::answers(script.as_bytes()).text != answers.as_bytes() {
        return Err("FAILED: the examiner answers the worked script otherwise".into());
    }
    Ok(())
}
