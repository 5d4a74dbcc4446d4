//! Rows, operations and files, as docs/RECORDINGS.md has them.

pub const MOST_RECORDS: usize = 512;
const HEADER: usize = 16;
const RECORD: usize = 12;

pub type Thread = u8;
pub type Task = u16;
pub type Lock = u16;
pub type Location = u16;

#[derive(Clone, Copy, Debug, PartialEq, Eq)]
pub struct Marks {
    pub environment: bool,
    pub delay: Option<u32>,
}

#[derive(Clone, Copy, Debug, PartialEq, Eq)]
pub enum Action {
    ThreadInit,
    ThreadExit,
    Fork(Thread),
    Join(Thread),
    AttachQ,
    LoopOnQ,
    Post(Task, Thread, Marks),
    Begin(Task),
    End(Task),
    Acquire(Lock),
    Release(Lock),
    Enable(Task),
    Read(Location),
    Write(Location),
}

#[derive(Clone, Copy, Debug, PartialEq, Eq)]
pub struct Operation {
    pub thread: Thread,
    pub action: Action,
}

/// The seven numbers of a record, lawful or not.
#[derive(Clone, Copy, Debug, Default, PartialEq, Eq)]
pub struct Row {
    pub code: u8,
    pub thread: u8,
    pub item: u16,
    pub target: u8,
    pub marks: u8,
    pub reserved: u16,
    pub delay: u32,
}

/// A fault's number and its byte, in the record or in the header.
#[derive(Clone, Copy, Debug, PartialEq, Eq)]
pub struct Fault {
    pub number: u8,
    pub byte: u8,
}

fn first_fault(tests: &[(u8, u8, bool)]) -> Option<Fault> {
    let (number, byte, _) = tests.iter().find(|(_, _, applies)| *applies)?;
    Some(Fault { number: *number, byte: *byte })
}

impl Row {
    pub fn from_bytes(bytes: &[u8]) -> Row {
        Row {
            code: bytes[0],
            thread: bytes[1],
            item: u16::from_le_bytes([bytes[2], bytes[3]]),
            target: bytes[4],
            marks: bytes[5],
            reserved: u16::from_le_bytes([bytes[6], bytes[7]]),
            delay: u32::from_le_bytes([bytes[8], bytes[9], bytes[10], bytes[11]]),
        }
    }

    pub fn to_bytes(self) -> [u8; RECORD] {
        let mut bytes = [0; RECORD];
        bytes[0] = self.code;
        bytes[1] = self.thread;
        bytes[2..4].copy_from_slice(&self.item.to_le_bytes());
        bytes[4] = self.target;
        bytes[5] = self.marks;
        bytes[6..8].copy_from_slice(&self.reserved.to_le_bytes());
        bytes[8..12].copy_from_slice(&self.delay.to_le_bytes());
        bytes
    }

    pub fn fault(&self) -> Option<Fault> {
        let post = self.code == 7;
        let has_target = matches!(self.code, 3 | 4 | 7);
        let largest_item = match self.code {
            7 | 8 | 9 | 12 => Some(511),
            10 | 11 => Some(63),
            13 | 14 => Some(u16::MAX),
            _ => None,
        };
        let largest_marks = if post { 3 } else { 0 };
        let may_delay = post && self.marks >= 2;
        first_fault(&[
            (1, 0, self.code == 0 || self.code > 14),
            (2, 1, self.thread > 63),
            (2, 4, has_target && self.target > 63),
            (3, 2, largest_item.is_some_and(|largest| self.item > largest)),
            (4, 2, largest_item.is_none() && self.item != 0),
            (4, 4, !has_target && self.target != 0),
            (4, 5, self.marks > largest_marks),
            (4, 6, self.reserved != 0),
            (4, 8, self.delay != 0 && !may_delay),
        ])
    }

    pub fn operation(&self) -> Result<Operation, Fault> {
        if let Some(fault) = self.fault() {
            return Err(fault);
        }
        let action = match self.code {
            1 => Action::ThreadInit,
            2 => Action::ThreadExit,
            3 => Action::Fork(self.target),
            4 => Action::Join(self.target),
            5 => Action::AttachQ,
            6 => Action::LoopOnQ,
            7 => Action::Post(self.item, self.target, self.post_marks()),
            8 => Action::Begin(self.item),
            9 => Action::End(self.item),
            10 => Action::Acquire(self.item),
            11 => Action::Release(self.item),
            12 => Action::Enable(self.item),
            13 => Action::Read(self.item),
            _ => Action::Write(self.item),
        };
        Ok(Operation { thread: self.thread, action })
    }

    fn post_marks(&self) -> Marks {
        Marks {
            environment: self.marks & 1 != 0,
            delay: (self.marks & 2 != 0).then_some(self.delay),
        }
    }
}

impl Operation {
    pub fn row(&self) -> Row {
        let row = |code| Row { code, thread: self.thread, ..Row::default() };
        match self.action {
            Action::ThreadInit => row(1),
            Action::ThreadExit => row(2),
            Action::Fork(target) => Row { target, ..row(3) },
            Action::Join(target) => Row { target, ..row(4) },
            Action::AttachQ => row(5),
            Action::LoopOnQ => row(6),
            Action::Post(item, target, marks) => Row {
                item,
                target,
                marks: u8::from(marks.environment) + 2 * u8::from(marks.delay.is_some()),
                delay: marks.delay.unwrap_or(0),
                ..row(7)
            },
            Action::Begin(item) => Row { item, ..row(8) },
            Action::End(item) => Row { item, ..row(9) },
            Action::Acquire(item) => Row { item, ..row(10) },
            Action::Release(item) => Row { item, ..row(11) },
            Action::Enable(item) => Row { item, ..row(12) },
            Action::Read(item) => Row { item, ..row(13) },
            Action::Write(item) => Row { item, ..row(14) },
        }
    }
}

#[derive(Clone, Copy, Debug, PartialEq, Eq)]
pub enum Discipline {
    FirstInFirstOut,
    AnyOrder,
    Timed,
}

impl Discipline {
    pub const ALL: [Discipline; 3] =
        [Discipline::FirstInFirstOut, Discipline::AnyOrder, Discipline::Timed];

    pub fn from_number(number: u8) -> Option<Discipline> {
        Discipline::ALL.get(usize::from(number)).copied()
    }

    pub fn number(self) -> u8 {
        self as u8
    }

    pub fn admits(self, post: Marks) -> bool {
        match self {
            Discipline::FirstInFirstOut => post.delay.is_none(),
            Discipline::AnyOrder | Discipline::Timed => true,
        }
    }

    /// Whether the task of the earlier of two posts to one thread must run before that of the later.
    pub fn precedes(self, earlier: Marks, later: Marks) -> bool {
        match self {
            Discipline::FirstInFirstOut => true,
            Discipline::AnyOrder => false,
            Discipline::Timed => match (earlier.delay, later.delay) {
                (None, _) => true,
                (Some(_), None) => false,
                (Some(first), Some(second)) => first <= second,
            },
        }
    }
}

/// What an examination is opened with.
#[derive(Clone, Copy, Debug)]
pub struct Setting {
    pub discipline: Discipline,
    pub mask: u64,
}

impl Setting {
    pub fn is_initial(&self, thread: Thread) -> bool {
        self.mask >> thread & 1 == 1
    }
}

/// What the header says, if the header and the length of the file are lawful.
pub fn read_header(file: &[u8]) -> Result<Setting, Fault> {
    let short = Fault { number: 5, byte: 0 };
    let header = file.get(..HEADER).ok_or(short)?;
    let two = |at: usize| u16::from_le_bytes([header[at], header[at + 1]]);
    let count = usize::from(two(6));
    let fault = first_fault(&[
        (5, 0, header[..3] != *b"TLR"),
        (6, 4, two(4) != 1),
        (7, 3, header[3] > 2),
        (8, 6, count > MOST_RECORDS || file.len() != HEADER + RECORD * count),
    ]);
    match (fault, Discipline::from_number(header[3])) {
        (None, Some(discipline)) => Ok(Setting { discipline, mask: read_mask(header) }),
        (fault, _) => Err(fault.unwrap_or(short)),
    }
}

fn read_mask(header: &[u8]) -> u64 {
    let is_set = |n: usize| header[8 + n / 8] >> (n % 8) & 1 == 1;
    (0..64).filter(|n| is_set(*n)).fold(0, |mask, n| mask | 1 << n)
}

/// The records of a file with a lawful header.
pub fn rows(file: &[u8]) -> impl Iterator<Item = Row> + '_ {
    file[HEADER..].chunks_exact(RECORD).map(Row::from_bytes)
}

pub fn write_file(setting: &Setting, rows: &[Row]) -> Vec<u8> {
    let mut file = b"TLR".to_vec();
    file.push(setting.discipline.number());
    file.extend(1u16.to_le_bytes());
    file.extend((rows.len() as u16).to_le_bytes());
    file.extend(setting.mask.to_le_bytes());
    for row in rows {
        file.extend(row.to_bytes());
    }
    file
}
