//! Writes one of the three recordings that bench/run measures, each of 512 operations, to standard
//! output: `generate many-races`, `generate many-tasks` or `generate many-locks`.

use std::io::Write;
use std::process::ExitCode;

const ANY_ORDER: u8 = 1;
const TIMED: u8 = 2;

#[derive(Clone, Copy)]
enum Action {
    ThreadInit,
    AttachQ,
    LoopOnQ,
    Post { task: u16, target: u8, environment: bool, delay: Option<u32> },
    Begin(u16),
    End(u16),
    Acquire(u16),
    Release(u16),
    Read(u16),
    Write(u16),
}

type Operation = (u8, Action);

struct Recording {
    discipline: u8,
    mask: u64,
    operations: Vec<Operation>,
}

fn main() -> ExitCode {
    let name = std::env::args().nth(1).unwrap_or_default();
    let recording = match name.as_str() {
        "many-races" => many_races(),
        "many-tasks" => many_tasks(),
        "many-locks" => many_locks(),
        _ => {
            eprintln!("usage: generate many-races|many-tasks|many-locks");
            return ExitCode::FAILURE;
        }
    };
    match std::io::stdout().write_all(&recording.to_bytes()) {
        Ok(()) => ExitCode::SUCCESS,
        Err(_) => ExitCode::FAILURE,
    }
}

/// Eight threads write one location in turn: of the 504 writes each two of different threads race.
fn many_races() -> Recording {
    let mut operations: Vec<Operation> = (0..8).map(|thread| (thread, Action::ThreadInit)).collect();
    operations.extend((0..504).map(|n| (n as u8 % 8, Action::Write(9))));
    Recording { discipline: ANY_ORDER, mask: 255, operations }
}

/// Two threads post 84 tasks in turn to a third, with all kinds of marks. Undelayed ones run
/// first, as they were posted, then the delayed by rising delay, so that none is overtaken.
fn many_tasks() -> Recording {
    let mut operations: Vec<Operation> = (0..3).map(|thread| (thread, Action::ThreadInit)).collect();
    operations.push((0, Action::AttachQ));
    operations.push((0, Action::LoopOnQ));
    let delay = |task: u16| (task % 4 >= 2).then_some(u32::from(task * 37 % 11) * 100);
    for task in 0..84 {
        let post = Action::Post { task, target: 0, environment: task % 2 == 1, delay: delay(task) };
        operations.push((1 + (task / 4 % 2) as u8, post));
    }
    let mut turns: Vec<u16> = (0..84).collect();
    // A stable sort, and None comes before every delay.
    turns.sort_by_key(|task| delay(*task));
    for task in turns {
        operations.push((0, Action::Begin(task)));
        operations.push((0, Action::Write(task % 5)));
        operations.push((0, Action::Read(task % 3)));
        operations.push((0, Action::Read(5 + task % 7)));
        operations.push((0, Action::End(task)));
    }
    operations.push((1, Action::Write(0)));
    operations.push((2, Action::Write(5)));
    operations.push((1, Action::Read(1)));
    Recording { discipline: TIMED, mask: 7, operations }
}

/// 64 threads take eight locks in turn and write twice under each: once a location that goes with
/// the lock, once one that all share.
fn many_locks() -> Recording {
    let mut operations: Vec<Operation> = (0..64).map(|thread| (thread, Action::ThreadInit)).collect();
    for group in 0..112u16 {
        let (thread, lock) = ((group % 64) as u8, group % 8);
        operations.push((thread, Action::Acquire(lock)));
        operations.push((thread, Action::Write(lock)));
        operations.push((thread, Action::Write(8)));
        operations.push((thread, Action::Release(lock)));
    }
    Recording { discipline: ANY_ORDER, mask: u64::MAX, operations }
}

impl Recording {
    fn to_bytes(&self) -> Vec<u8> {
        let mut bytes = b"TLR".to_vec();
        bytes.push(self.discipline);
        bytes.extend(1u16.to_le_bytes());
        bytes.extend((self.operations.len() as u16).to_le_bytes());
        bytes.extend(self.mask.to_le_bytes());
        for operation in &self.operations {
            bytes.extend(record(operation));
        }
        bytes
    }
}

fn record((thread, action): &Operation) -> [u8; 12] {
    let (code, item) = match *action {
        Action::ThreadInit => (1, 0),
        Action::AttachQ => (5, 0),
        Action::LoopOnQ => (6, 0),
        Action::Post { task, .. } => (7, task),
        Action::Begin(task) => (8, task),
        Action::End(task) => (9, task),
        Action::Acquire(lock) => (10, lock),
        Action::Release(lock) => (11, lock),
        Action::Read(location) => (13, location),
        Action::Write(location) => (14, location),
    };
    let mut bytes = [0; 12];
    bytes[0] = code;
    bytes[1] = *thread;
    bytes[2..4].copy_from_slice(&item.to_le_bytes());
    if let Action::Post { target, environment, delay, .. } = *action {
        bytes[4] = target;
        bytes[5] = u8::from(environment) + 2 * u8::from(delay.is_some());
        bytes[8..12].copy_from_slice(&delay.unwrap_or(0).to_le_bytes());
    }
    bytes
}
