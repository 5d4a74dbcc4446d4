//! Renamings: one-to-one maps of the threads, tasks, locks and locations onto themselves. They
//! change no answer (docs/EXAMINATION.md, section Renamed runs).

use crate::random::Random;
use crate::recording::{read_header, rows, write_file, Action, Operation, Row, Setting};
use crate::script::{lines, Line};

pub struct Renaming {
    threads: Vec<usize>,
    tasks: Vec<usize>,
    locks: Vec<usize>,
    locations: Vec<usize>,
}

impl Renaming {
    pub fn random(random: &mut Random) -> Renaming {
        Renaming {
            threads: random.permutation(64),
            tasks: random.permutation(512),
            locks: random.permutation(64),
            locations: random.permutation(65_536),
        }
    }

    /// The renamed file, or none where its header is at fault.
    pub fn file(&self, file: &[u8]) -> Option<Vec<u8>> {
        let setting = read_header(file).ok()?;
        let renamed: Vec<Row> = rows(file).map(|row| self.row(row)).collect();
        let mask = self.mask(setting.mask);
        Some(write_file(&Setting { mask, ..setting }, &renamed))
    }

    pub fn script(&self, script: &[u8]) -> Vec<u8> {
        let mut renamed = Vec::new();
        for (at, line) in lines(script).iter().enumerate() {
            match Line::read(line) {
                Some(Line::Open(discipline, mask)) if at == 0 => {
                    renamed.extend(Line::Open(discipline, self.mask(mask)).text().bytes());
                }
                Some(Line::Add(row)) => renamed.extend(Line::Add(self.row(row)).text().bytes()),
                _ => renamed.extend(*line),
            }
            renamed.push(b'\n');
        }
        if script.last() != Some(&b'\n') {
            renamed.pop();
        }
        renamed
    }

    fn mask(&self, mask: u64) -> u64 {
        let initial = (0..64).filter(|n| mask >> n & 1 == 1);
        initial.fold(0, |renamed, n| renamed | 1 << self.threads[n])
    }

    /// An unlawful row stays as it is: its fault hangs on the very numbers.
    fn row(&self, row: Row) -> Row {
        row.operation().map_or(row, |operation| self.operation(operation).row())
    }

    fn operation(&self, operation: Operation) -> Operation {
        let thread = |number: u8| self.threads[usize::from(number)] as u8;
        let task = |number: u16| self.tasks[usize::from(number)] as u16;
        let lock = |number: u16| self.locks[usize::from(number)] as u16;
        let location = |number: u16| self.locations[usize::from(number)] as u16;
        let action = match operation.action {
            Action::Fork(target) => Action::Fork(thread(target)),
            Action::Join(target) => Action::Join(thread(target)),
            Action::Post(p, target, marks) => Action::Post(task(p), thread(target), marks),
            Action::Begin(p) => Action::Begin(task(p)),
            Action::End(p) => Action::End(task(p)),
            Action::Enable(p) => Action::Enable(task(p)),
            Action::Acquire(k) => Action::Acquire(lock(k)),
            Action::Release(k) => Action::Release(lock(k)),
            Action::Read(x) => Action::Read(location(x)),
            Action::Write(x) => Action::Write(location(x)),
            plain @ (Action::ThreadInit
            | Action::ThreadExit
            | Action::AttachQ
            | Action::LoopOnQ) => plain,
        };
        Operation { thread: thread(operation.thread), action }
    }
}
