//! Random recordings: accepted whole, with one fault, or with damaged bytes.

use crate::acceptance::Held;
use crate::random::Random;
use crate::recording::{write_file, Action, Discipline, Location, Lock, Marks, Operation, Row};
use crate::recording::{Setting, Task, Thread, MOST_RECORDS};

#[derive(Clone, Copy)]
enum Kind {
    Access,
    Post,
    Lock,
    Turn,
    Enable,
    Queue,
    Start,
    Fork,
    Exit,
    Join,
}

/// Makes a list of operations that are accepted one after the other. What it keeps beside the
/// list only helps to guess well: the rules of acceptance decide.
pub struct Maker {
    pub setting: Setting,
    pub operations: Vec<Operation>,
    threads: Vec<Thread>,
    locks: Vec<Lock>,
    locations: Vec<Location>,
    tasks: Vec<Task>,
    /// How many of a hundred posts are marked so, and how many come from a task where one can.
    environment: usize,
    delayed: usize,
    chained: usize,
    /// From how many tasks under way or waiting on no more are posted for a time.
    most_turns: usize,
    /// How often each kind of operation is tried, in parts of their sum.
    weights: Vec<(Kind, usize)>,
}

impl Maker {
    /// A maker for recordings of about `length` operations.
    pub fn random(random: &mut Random, length: usize) -> Maker {
        let most = if length < 40 { 6 } else { 64 };
        let threads = random.pick(&[1, 2, 2, 3, 3, 3, 4, 5, 6, 8, 20, 64]).min(most);
        Maker::with_threads(random, threads)
    }

    pub fn with_threads(random: &mut Random, count: usize) -> Maker {
        let threads = some_of(random, 64, count);
        let lock_count = random.pick(&[1, 1, 2, 3, 8, 64]);
        let location_count = random.pick(&[1, 2, 2, 3, 5, 12]);
        let initial = threads.iter().enumerate().filter(|(at, _)| *at == 0 || random.chance(70));
        let mut mask = initial.fold(0, |mask, (_, thread)| mask | 1 << thread);
        if random.chance(10) {
            mask |= random.next();
        }
        Maker {
            setting: Setting { discipline: random.pick(&Discipline::ALL), mask },
            operations: Vec::new(),
            threads: threads.iter().map(|n| *n as Thread).collect(),
            locks: some_of(random, 64, lock_count).iter().map(|n| *n as Lock).collect(),
            locations: some_of(random, 65_536, location_count).iter().map(|n| *n as Location).collect(),
            tasks: random.permutation(512).iter().map(|n| *n as Task).collect(),
            environment: random.pick(&[0, 30, 60]),
            delayed: random.pick(&[0, 20, 50]),
            chained: random.pick(&[0, 40, 80]),
            most_turns: random.pick(&[3, 8, 8, 20, 200]),
            weights: vec![
                (Kind::Access, random.pick(&[10, 30, 60])),
                (Kind::Post, random.pick(&[5, 10, 20, 30])),
                (Kind::Lock, random.pick(&[0, 0, 8, 20, 40])),
                (Kind::Turn, random.pick(&[20, 40, 60])),
                (Kind::Enable, random.pick(&[0, 1, 6])),
                (Kind::Queue, 3),
                (Kind::Start, 4),
                (Kind::Fork, 3),
                (Kind::Exit, random.pick(&[0, 0, 1, 3])),
                (Kind::Join, 1),
            ],
        }
    }

    /// A maker for recordings of tasks that post tasks, most of them to one thread.
    pub fn of_chains(random: &mut Random) -> Maker {
        let threads = random.between(1, 3);
        let mut maker = Maker::with_threads(random, threads);
        maker.locations.truncate(2);
        maker.environment = random.pick(&[20, 50]);
        maker.delayed = random.pick(&[0, 10, 40]);
        maker.chained = random.pick(&[50, 90]);
        maker.weights = vec![(Kind::Access, 25), (Kind::Post, 20), (Kind::Turn, 50), (Kind::Start, 3)];
        maker
    }

    /// Threads that start, and some that attach a queue and mostly loop: without these, most
    /// recordings would have no task for long.
    pub fn opening_moves(&self, random: &mut Random) -> Vec<Operation> {
        let mut moves = Vec::new();
        let initial = self.threads.iter().filter(|thread| self.setting.is_initial(**thread));
        for (at, thread) in initial.enumerate() {
            moves.push(by(*thread, Action::ThreadInit));
            if at == 0 || random.chance(20) {
                moves.push(by(*thread, Action::AttachQ));
                if random.chance(85) {
                    moves.push(by(*thread, Action::LoopOnQ));
                }
            }
        }
        moves
    }

    /// Grows by accepted operations up to `length` of them, or fewer where nothing fits any more.
    pub fn grow(&mut self, random: &mut Random, length: usize) {
        if self.operations.is_empty() && random.chance(85) {
            let mut moves = self.opening_moves(random);
            moves.truncate(length);
            self.operations = moves;
        }
        while self.operations.len() < length {
            match self.acceptable(random) {
                Some(operation) => self.operations.push(operation),
                None => return,
            }
        }
    }

    /// Some operation that would be accepted next. It sticks to a kind for some guesses, so that
    /// kinds that are hard to guess do not become rare.
    pub fn acceptable(&self, random: &mut Random) -> Option<Operation> {
        for _ in 0..50 {
            let kind = self.some_kind(random);
            for _ in 0..10 {
                let guess = self.guess(random, kind);
                if self.refusal(&guess).is_none() {
                    return Some(guess);
                }
            }
        }
        None
    }

    /// Some operation that would be refused next with this number.
    pub fn refused_with(&self, random: &mut Random, refusal: u8) -> Option<Operation> {
        (0..600).find_map(|_| {
            let guess = self.wild(random);
            (self.refusal(&guess) == Some(refusal)).then_some(guess)
        })
    }

    pub fn refusal(&self, operation: &Operation) -> Option<u8> {
        Held { setting: &self.setting, operations: &self.operations }.refusal(operation)
    }

    pub fn file(&self) -> Vec<u8> {
        write_file(&self.setting, &self.rows())
    }

    pub fn rows(&self) -> Vec<Row> {
        self.operations.iter().map(Operation::row).collect()
    }

    fn some_kind(&self, random: &mut Random) -> Kind {
        let total = self.weights.iter().map(|(_, weight)| weight).sum();
        let mut left = random.below(total);
        for (kind, weight) in &self.weights {
            match left.checked_sub(*weight) {
                Some(rest) => left = rest,
                None => return *kind,
            }
        }
        Kind::Access
    }

    /// An operation of this kind that is likely to be accepted.
    fn guess(&self, random: &mut Random, kind: Kind) -> Operation {
        let thread = self.some_thread(random);
        let action = match kind {
            Kind::Access if self.idles(thread) && random.chance(70) => return self.some_turn(random),
            Kind::Access if random.chance(50) => Action::Read(random.pick(&self.locations)),
            Kind::Access => Action::Write(random.pick(&self.locations)),
            Kind::Post if self.turns().len() > self.most_turns => return self.some_turn(random),
            Kind::Post => return self.some_post(random, thread),
            Kind::Lock if random.chance(50) => Action::Acquire(random.pick(&self.locks)),
            Kind::Lock => return self.some_release(random),
            Kind::Turn => return self.some_turn(random),
            Kind::Enable => Action::Enable(self.fresh_task(random)),
            Kind::Queue if random.chance(50) => Action::AttachQ,
            Kind::Queue => Action::LoopOnQ,
            Kind::Start => return self.start(random),
            Kind::Fork => Action::Fork(random.pick(&self.threads)),
            Kind::Exit if self.running() < 2 => return self.some_turn(random),
            Kind::Exit => Action::ThreadExit,
            Kind::Join => Action::Join(random.pick(&self.threads)),
        };
        by(thread, action)
    }

    /// How many threads run: the last one had better go on, as nothing fits after its exit.
    fn running(&self) -> usize {
        let count = |action| self.operations.iter().filter(|o| o.action == action).count();
        count(Action::ThreadInit) - count(Action::ThreadExit)
    }

    fn start(&self, random: &mut Random) -> Operation {
        by(random.pick(&self.threads), Action::ThreadInit)
    }

    /// A post by this thread, or one from a task to its own thread, which makes chains.
    fn some_post(&self, random: &mut Random, thread: Thread) -> Operation {
        let busy = self.busy_threads();
        let (from, to) = if !busy.is_empty() && random.chance(self.chained) {
            let own = random.pick(&busy);
            (own, own)
        } else {
            (thread, self.some_queue(random))
        };
        by(from, Action::Post(self.fresh_task(random), to, self.marks(random)))
    }

    fn busy_threads(&self) -> Vec<Thread> {
        let ends = self.turns().into_iter().filter(|o| matches!(o.action, Action::End(_)));
        ends.map(|o| o.thread).collect()
    }

    /// The thread that acted last, one that is in a task, or any.
    fn some_thread(&self, random: &mut Random) -> Thread {
        let last = self.operations.last().map(|operation| operation.thread);
        let busy = self.busy_threads();
        match (random.below(10), last) {
            (0..=3, Some(last)) => last,
            (4..=6, _) if !busy.is_empty() => random.pick(&busy),
            _ => random.pick(&self.threads),
        }
    }

    /// Whether the thread loops and is in no task. What it does then is ordered by few rules, so
    /// that recordings with much of it have little else than races of class 5.
    fn idles(&self, thread: Thread) -> bool {
        self.operations.contains(&by(thread, Action::LoopOnQ)) && !self.busy_threads().contains(&thread)
    }

    /// A thread that has attached a queue, if there is one.
    fn some_queue(&self, random: &mut Random) -> Thread {
        let attached = self.operations.iter().filter(|o| o.action == Action::AttachQ);
        let queues: Vec<_> = attached.map(|o| o.thread).collect();
        random.pick(if queues.is_empty() { &self.threads } else { &queues })
    }

    /// A task that is not posted; one of few, so that enabled ones are often posted later.
    fn fresh_task(&self, random: &mut Random) -> Task {
        let posted = self.operations.iter().filter(|o| matches!(o.action, Action::Post(..))).count();
        self.tasks[(posted + random.below(3)).min(self.tasks.len() - 1)]
    }

    fn marks(&self, random: &mut Random) -> Marks {
        let delay = random.pick(&[0, 1, 5, 5, 100, 101, u32::MAX]);
        let may_delay = self.setting.discipline != Discipline::FirstInFirstOut;
        Marks {
            environment: random.chance(self.environment),
            delay: (may_delay && random.chance(self.delayed)).then_some(delay),
        }
    }

    fn some_release(&self, random: &mut Random) -> Operation {
        let acquired: Vec<_> = self
            .operations
            .iter()
            .filter_map(|o| match o.action {
                Action::Acquire(lock) => Some(by(o.thread, Action::Release(lock))),
                _ => None,
            })
            .collect();
        // The latest acquires are the likeliest to be held still.
        let recent = &acquired[acquired.len().saturating_sub(4)..];
        if recent.is_empty() { self.start(random) } else { random.pick(recent) }
    }

    /// The oldest turn or any: of many that wait, only the oldest may be free to begin.
    fn some_turn(&self, random: &mut Random) -> Operation {
        match self.turns().as_slice() {
            [] => self.start(random),
            [oldest, ..] if random.chance(30) => *oldest,
            turns => random.pick(turns),
        }
    }

    /// The begin of each posted task that has not begun, the end of each begun one that goes on.
    fn turns(&self) -> Vec<Operation> {
        let mut turns = Vec::new();
        for operation in &self.operations {
            match operation.action {
                Action::Post(task, target, _) => turns.push(by(target, Action::Begin(task))),
                Action::Begin(task) => {
                    turns.retain(|turn| turn.action != Action::Begin(task));
                    turns.push(by(operation.thread, Action::End(task)));
                }
                Action::End(task) => turns.retain(|turn| turn.action != Action::End(task)),
                _ => {}
            }
        }
        turns
    }

    /// Any operation. Half of them are good guesses, so that many of those that are refused lack
    /// but little.
    pub fn wild(&self, random: &mut Random) -> Operation {
        if random.chance(50) {
            let kind = self.some_kind(random);
            return self.guess(random, kind);
        }
        let thread = self.wild_thread(random);
        let target = self.wild_thread(random);
        let task_bound = if random.chance(80) { 8 } else { 512 };
        let task = self.tasks[random.below(task_bound)];
        let lock = if random.chance(80) { random.pick(&self.locks) } else { random.below(64) as Lock };
        let location = random.pick(&self.locations);
        let marks = Marks {
            environment: random.chance(50),
            delay: random.chance(50).then_some(random.next() as u32),
        };
        let action = random.pick(&[
            Action::ThreadInit,
            Action::ThreadExit,
            Action::Fork(target),
            Action::Join(target),
            Action::AttachQ,
            Action::LoopOnQ,
            Action::Post(task, target, marks),
            Action::Begin(task),
            Action::End(task),
            Action::Acquire(lock),
            Action::Release(lock),
            Action::Enable(task),
            Action::Read(location),
            Action::Write(location),
        ]);
        by(thread, action)
    }

    fn wild_thread(&self, random: &mut Random) -> Thread {
        if random.chance(85) { random.pick(&self.threads) } else { random.below(64) as Thread }
    }

    /// A row that is no lawful record, broken in one of the ways that there are, or in two.
    pub fn unlawful(&self, random: &mut Random) -> Row {
        loop {
            let mut row = self.wild(random).row();
            for _ in 0..random.between(1, 2) {
                match random.below(9) {
                    0 => row.code = random.pick(&[0, 15, 16, 128, 255]),
                    1 => row.thread = random.between(64, 255) as u8,
                    2 => row.target = random.pick(&[1, 63, 64, 255]),
                    3 => row.item = random.pick(&[1, 64, 512, 513, 65_535]),
                    4 => row.marks = random.pick(&[1, 2, 3, 4, 8, 255]),
                    5 => row.reserved = random.pick(&[1, 256, 65_535]),
                    6 => row.delay = random.pick(&[1, 256, u32::MAX]),
                    7 => row.code = random.between(0, 14) as u8,
                    _ => row.marks = 0,
                }
            }
            if row.fault().is_some() {
                return row;
            }
        }
    }
}

fn by(thread: Thread, action: Action) -> Operation {
    Operation { thread, action }
}

/// `count` different numbers below `bound`.
fn some_of(random: &mut Random, bound: usize, count: usize) -> Vec<usize> {
    let mut chosen = Vec::new();
    while chosen.len() < count {
        let number = random.below(bound);
        if !chosen.contains(&number) {
            chosen.push(number);
        }
    }
    chosen
}

pub fn accepted(random: &mut Random, length: usize) -> Vec<u8> {
    let mut maker = Maker::random(random, length);
    maker.grow(random, length);
    maker.file()
}

/// A recording of which some record is refused, or unlawful where `refusal` is below 5. Records of
/// all kinds may follow, since nothing after the first fault counts.
pub fn with_fault(random: &mut Random, refusal: u8) -> Vec<u8> {
    let length = random.between(3, 60);
    loop {
        let mut maker = Maker::random(random, length);
        if refusal == 17 {
            maker.setting.discipline = Discipline::FirstInFirstOut;
        }
        maker.grow(random, length);
        let bad = if refusal < 5 {
            let row = maker.unlawful(random);
            (row.fault().map(|fault| fault.number) == Some(refusal)).then_some(row)
        } else {
            maker.refused_with(random, refusal).map(|operation| operation.row())
        };
        let Some(bad) = bad else { continue };
        let mut rows = maker.rows();
        rows.push(bad);
        for _ in 0..random.below(4) {
            let next = if random.chance(50) { maker.unlawful(random) } else { maker.wild(random).row() };
            rows.push(next);
        }
        return write_file(&maker.setting, &rows);
    }
}

/// A recording with bytes changed anywhere.
pub fn damaged(random: &mut Random) -> Vec<u8> {
    let length = random.between(0, 40);
    let mut file = accepted(random, length);
    for _ in 0..random.between(1, 4) {
        let at = random.below(file.len());
        let any = random.next() as u8;
        file[at] = random.pick(&[0, 1, 2, 3, 63, 64, 255, any]);
    }
    file
}

/// A recording with one or two fields of its header changed.
pub fn damaged_header(random: &mut Random) -> Vec<u8> {
    let length = random.between(0, 20);
    let mut file = accepted(random, length);
    for _ in 0..random.between(1, 2) {
        match random.below(6) {
            0 => file[random.below(3)] = random.next() as u8,
            1 => file[4 + random.below(2)] = random.pick(&[0, 1, 2, 255]),
            2 => file[3] = random.pick(&[3, 4, 255]),
            3 => file[6] = file[6].wrapping_add(random.pick(&[1, 255])),
            4 => file[7] = random.pick(&[1, 2, 3, 255]),
            _ => file[8 + random.below(8)] = random.next() as u8,
        }
    }
    file
}

/// A recording that is too short or too long for its count.
pub fn other_length(random: &mut Random) -> Vec<u8> {
    let length = random.between(0, 20);
    let mut file = accepted(random, length);
    match random.below(5) {
        0 => file.truncate(random.below(file.len())),
        1 => file.truncate(file.len() - random.between(1, 12)),
        2 => file.resize(file.len() + random.between(1, 24), 0),
        3 => file.resize(random.between(6_150, 6_190), 1),
        _ => file.resize(random.pick(&[6_161, 6_172, 70_000, 300_000]), 14),
    }
    if random.chance(20) && !file.is_empty() {
        file[0] = 0;
    }
    file
}

/// Files at the limits of the format, each with its name.
pub fn fixed_files() -> Vec<(&'static str, Vec<u8>)> {
    let setting = Setting { discipline: Discipline::AnyOrder, mask: 1 };
    let empty = write_file(&setting, &[]);
    let start = by(0, Action::ThreadInit).row();
    let write = by(0, Action::Write(9)).row();
    let mut longest = vec![start];
    longest.resize(MOST_RECORDS, write);
    let mut too_long = longest.clone();
    too_long.push(write);
    vec![
        ("no bytes", Vec::new()),
        ("15 bytes", empty[..15].to_vec()),
        ("16 bytes", empty.clone()),
        ("17 bytes", [empty.clone(), vec![0]].concat()),
        ("512 records", write_file(&setting, &longest)),
        ("513 records", write_file(&setting, &too_long)),
        ("512 records and a byte", [write_file(&setting, &longest), vec![0]].concat()),
        ("513 records, the first unlawful", {
            let mut file = write_file(&setting, &too_long);
            file[16] = 0;
            file
        }),
        ("a million bytes", vec![b'T'; 1_000_000]),
        ("a million bytes behind a header", {
            let mut file = write_file(&setting, &longest);
            file.resize(1_000_000, 0);
            file
        }),
    ]
}
