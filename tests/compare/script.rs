//! Scripts of calls and what the program `calls` has to print of them: docs/EXAMINATION.md,
//! section The program `calls`.

use crate::examiner::{Examination, Order};
use crate::recording::{Discipline, Row, Setting};
use crate::report::Output;

pub const MOST_PLACES: u64 = 262_144;
pub const MOST_PLACES_IN_ALL: u64 = 1_048_576;

#[derive(Clone, Copy, Debug, PartialEq, Eq)]
pub enum Line {
    Open(u8, u64),
    Add(Row),
    Cut(u64),
    Order(u64, u64),
    Class(u64, u64),
    List(u64),
}

impl Line {
    pub fn text(&self) -> String {
        match self {
            Line::Open(discipline, mask) => format!("open {discipline} {mask}"),
            Line::Add(r) => format!(
                "add {} {} {} {} {} {} {}",
                r.code, r.thread, r.item, r.target, r.marks, r.reserved, r.delay
            ),
            Line::Cut(length) => format!("cut {length}"),
            Line::Order(i, j) => format!("order {i} {j}"),
            Line::Class(i, j) => format!("class {i} {j}"),
            Line::List(places) => format!("list {places}"),
        }
    }

    /// The line that has this text, if one has.
    pub fn read(text: &[u8]) -> Option<Line> {
        let mut words = text.split(|byte| *byte == b' ');
        let name = words.next()?;
        let numbers: Vec<u64> = words.map(number).collect::<Option<_>>()?;
        match (name, numbers.as_slice()) {
            (b"open", &[d, mask]) => Some(Line::Open(d.try_into().ok()?, mask)),
            (b"add", &[code, thread, item, target, marks, reserved, delay]) => {
                Some(Line::Add(Row {
                    code: code.try_into().ok()?,
                    thread: thread.try_into().ok()?,
                    item: item.try_into().ok()?,
                    target: target.try_into().ok()?,
                    marks: marks.try_into().ok()?,
                    reserved: reserved.try_into().ok()?,
                    delay: delay.try_into().ok()?,
                }))
            }
            (b"cut", &[length]) => Some(Line::Cut(length)),
            (b"order", &[i, j]) => Some(Line::Order(i, j)),
            (b"class", &[i, j]) => Some(Line::Class(i, j)),
            (b"list", &[places]) if places <= MOST_PLACES => Some(Line::List(places)),
            _ => None,
        }
    }
}

/// The number of at most 64 bits that a word writes in decimal, without sign or leading zeros.
fn number(word: &[u8]) -> Option<u64> {
    let digits_only = !word.is_empty() && word.iter().all(u8::is_ascii_digit);
    let leading_zero = word.len() > 1 && word[0] == b'0';
    if !digits_only || leading_zero {
        return None;
    }
    std::str::from_utf8(word).ok()?.parse().ok()
}

/// The lines of a script. Byte 10 may be missing after the last.
pub fn lines(script: &[u8]) -> Vec<&[u8]> {
    let mut lines: Vec<_> = script.split(|byte| *byte == b'\n').collect();
    if lines.last().is_some_and(|last| last.is_empty()) {
        lines.pop();
    }
    lines
}

pub fn answers(script: &[u8]) -> Output {
    let mut text = String::new();
    let status = match answer_lines(script, &mut text) {
        Ok(()) => 0,
        Err(stop) => {
            text += &stop;
            text += "\n";
            1
        }
    };
    Output { text: text.into_bytes(), status }
}

/// Writes the answers, or writes those before the line at which the script stops and hands back
/// the last line to print.
fn answer_lines(script: &[u8], text: &mut String) -> Result<(), String> {
    let lines = lines(script);
    let first = lines.first().and_then(|line| Line::read(line));
    let Some(Line::Open(number, mask)) = first else {
        return Err("line 1: this is no opening".into());
    };
    let discipline = Discipline::from_number(number).ok_or("file 7 at 3")?;
    let mut examination = Examination::open(Setting { discipline, mask });
    text.push_str("opened\n");
    let mut lent = 0;
    for (at, line) in lines.iter().enumerate().skip(1) {
        let line = Line::read(line).ok_or(format!("line {}: this is no call", at + 1))?;
        if let Line::Open(..) = line {
            return Err(format!("line {}: a second opening", at + 1));
        }
        if let Line::List(places) = line {
            lent += places;
        }
        if lent > MOST_PLACES_IN_ALL {
            return Err(format!("line {}: too many places lent", at + 1));
        }
        *text += &answer(&mut examination, line);
    }
    Ok(())
}

fn answer(examination: &mut Examination, line: Line) -> String {
    let answered = match line {
        Line::Open(..) => Ok(String::new()),
        Line::Add(row) => match row.operation() {
            Err(fault) => Ok(format!("record {} at {}\n", fault.number, fault.byte)),
            Ok(operation) => {
                examination.add(operation).map(|(at, before)| format!("added {at} {before}\n"))
            }
        },
        Line::Cut(length) => examination.cut(length).map(|()| format!("cut {length}\n")),
        Line::Order(i, j) => examination.order(i, j).map(|order| match order {
            Order::Same => "same\n".into(),
            Order::Before => "before\n".into(),
            Order::After => "after\n".into(),
            Order::Unordered => "unordered\n".into(),
        }),
        Line::Class(i, j) => examination
            .class(i, j)
            .map(|class| format!("class {}\n", class.map_or(0, |class| class.number()))),
        Line::List(places) => Ok(list(examination, places as usize)),
    };
    answered.unwrap_or_else(|refusal| format!("refused {refusal}\n"))
}

fn list(examination: &Examination, places: usize) -> String {
    let races = examination.races();
    let fits = races.len() <= places;
    let mut text = format!("{} {}\n", if fits { "listed" } else { "needs" }, races.len());
    let written = if fits { races.as_slice() } else { &[] };
    for race in written {
        text += &format!("{} {} {}\n", race.earlier, race.later, race.class.number());
    }
    text + &"7 7 7\n".repeat(places - written.len())
}
