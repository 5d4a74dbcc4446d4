//! What the program `report` has to print of a file.

use crate::examiner::Examination;
use crate::recording::{read_header, rows};

/// Standard output and status of a program.
#[derive(Clone, Debug, PartialEq, Eq)]
pub struct Output {
    pub text: Vec<u8>,
    pub status: i32,
}

impl Output {
    fn fault(layer: &str, number: u8, place: usize) -> Output {
        Output { text: format!("{layer} {number} at {place}\n").into_bytes(), status: 1 }
    }
}

pub fn report(file: &[u8]) -> Output {
    let setting = match read_header(file) {
        Ok(setting) => setting,
        Err(fault) => return Output::fault("file", fault.number, usize::from(fault.byte)),
    };
    let mut examination = Examination::open(setting);
    for (number, row) in rows(file).enumerate() {
        match row.operation().map(|operation| examination.add(operation)) {
            Ok(Ok(_)) => {}
            Ok(Err(refusal)) => return Output::fault("state", refusal, number),
            Err(fault) => return Output::fault("record", fault.number, number),
        }
    }
    let races = examination.races();
    let mut text = format!("ops {} races {}\n", examination.held(), races.len());
    for race in &races {
        text += &format!("{} {} {}\n", race.earlier, race.later, race.class.name());
    }
    Output { text: text.into_bytes(), status: 0 }
}
