//! A few dozen recordings for a stored test of the report: each class, fault, refusal and
//! discipline, and long ones.

use std::path::Path;

use crate::generate::{self, Maker};
use crate::races::Class;
use crate::random::Random;
use crate::recording::{Discipline, MOST_RECORDS};
use crate::report::{report, Output};
use crate::worked;

/// Writes the files and gives, for each in order of name, a line with its name and its report.
pub fn store(directory: &Path, seed: u64) -> std::io::Result<Vec<u8>> {
    std::fs::create_dir_all(directory)?;
    let mut text = Vec::new();
    for (at, (kind, file)) in chosen(&mut Random::new(seed)).into_iter().enumerate() {
        let name = format!("{at:02}-{kind}.tlr");
        std::fs::write(directory.join(&name), &file)?;
        text.extend((name + "\n").bytes());
        text.extend(report(&file).text);
    }
    Ok(text)
}

fn chosen(random: &mut Random) -> Vec<(String, Vec<u8>)> {
    let mut files: Vec<(String, Vec<u8>)> =
        worked::recordings().into_iter().map(|worked| (worked.name.into(), worked.file)).collect();
    let limits = ["no bytes", "15 bytes", "16 bytes", "17 bytes", "513 records"];
    for (name, file) in generate::fixed_files() {
        if limits.contains(&name) {
            files.push((name.replace(' ', "-"), file));
        }
    }
    for discipline in Discipline::ALL {
        let make = |random: &mut Random| accepted_under(random, discipline, 40);
        files.push((format!("discipline-{}", discipline.number()), search(random, make, few_races)));
    }
    for class in Class::ALL {
        let wanted = |output: &Output| few_races(output) && has(output, class.name());
        let make = |random: &mut Random| generate::accepted(random, 50);
        files.push((class.name().into(), search(random, make, wanted)));
    }
    for fault in [5, 6, 7, 8] {
        let wanted = |output: &Output| has(output, &format!("file {fault} at"));
        files.push((format!("file-{fault}"), search(random, generate::damaged_header, wanted)));
    }
    for fault in [1, 2, 3, 4, 12, 13, 14, 15, 16, 17] {
        let layer = if fault < 5 { "record" } else { "state" };
        files.push((format!("{layer}-{fault}"), generate::with_fault(random, fault)));
    }
    let many = |random: &mut Random| {
        let mut maker = Maker::with_threads(random, 64);
        maker.grow(random, 250);
        maker.file()
    };
    files.push(("many-threads".into(), search(random, many, |output| has(output, "ops 250"))));
    for discipline in Discipline::ALL {
        let make = |random: &mut Random| accepted_under(random, discipline, MOST_RECORDS);
        let wanted = |output: &Output| has(output, "ops 512") && output.text.len() < 20_000;
        files.push((format!("long-{}", discipline.number()), search(random, make, wanted)));
    }
    files
}

fn accepted_under(random: &mut Random, discipline: Discipline, length: usize) -> Vec<u8> {
    let mut maker = Maker::random(random, length);
    maker.setting.discipline = discipline;
    maker.grow(random, length);
    maker.file()
}

/// Makes files until the report of one is as wanted.
fn search(
    random: &mut Random,
    make: impl Fn(&mut Random) -> Vec<u8>,
    wanted: impl Fn(&Output) -> bool,
) -> Vec<u8> {
    loop {
        let file = make(random);
        if wanted(&report(&file)) {
            return file;
        }
    }
}

fn few_races(output: &Output) -> bool {
    (4..60).contains(&output.text.iter().filter(|byte| **byte == b'\n').count())
}

fn has(output: &Output, part: &str) -> bool {
    String::from_utf8_lossy(&output.text).contains(part)
}
