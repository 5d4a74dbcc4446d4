//! Random scripts of calls: good ones, ones that go to the limit, and ones with a bad line.

use crate::generate::Maker;
use crate::ordering::Ordering;
use crate::races::race_list;
use crate::random::Random;
use crate::recording::{Action, Operation, MOST_RECORDS};
use crate::script::{Line, MOST_PLACES, MOST_PLACES_IN_ALL};

fn text_of(lines: &[Line]) -> Vec<u8> {
    lines.iter().flat_map(|line| (line.text() + "\n").into_bytes()).collect()
}

struct Writer {
    maker: Maker,
    lines: Vec<Line>,
}

impl Writer {
    fn new(maker: Maker) -> Writer {
        let open = Line::Open(maker.setting.discipline.number(), maker.setting.mask);
        Writer { maker, lines: vec![open] }
    }

    fn add(&mut self, operation: Operation) {
        self.lines.push(Line::Add(operation.row()));
        if self.maker.refusal(&operation).is_none() {
            self.maker.operations.push(operation);
        }
    }

    fn add_accepted(&mut self, random: &mut Random) {
        if let Some(operation) = self.maker.acceptable(random) {
            self.add(operation);
        }
    }

    fn cut(&mut self, length: u64) {
        self.lines.push(Line::Cut(length));
        if length <= self.maker.operations.len() as u64 {
            self.maker.operations.truncate(length as usize);
        }
    }

    /// Some call: adds that are accepted make up `percent` of a hundred.
    fn some_call(&mut self, random: &mut Random, percent: usize) {
        if random.chance(percent) {
            return self.add_accepted(random);
        }
        match random.below(12) {
            0 | 1 => self.add(self.maker.wild(random)),
            2 => {
                let wanted = random.between(12, 17) as u8;
                if let Some(operation) = self.maker.refused_with(random, wanted) {
                    self.add(operation);
                }
            }
            3 => self.lines.push(Line::Add(self.maker.unlawful(random))),
            4 => self.cut(self.length(random)),
            5..=7 => self.lines.push(Line::Order(self.position(random), self.position(random))),
            8..=10 => self.lines.push(Line::Class(self.access(random), self.access(random))),
            _ => self.lines.push(Line::List(self.places(random))),
        }
    }

    /// A position: mostly held, sometimes the first not held, sometimes far beyond.
    fn position(&self, random: &mut Random) -> u64 {
        let held = self.maker.operations.len();
        if held > 0 && random.chance(90) {
            return random.below(held) as u64;
        }
        let far = [held as u64, 511, 512, 513, 1 << 32, u64::MAX - 1, u64::MAX];
        random.pick(&far)
    }

    /// The position of an access, or any.
    fn access(&self, random: &mut Random) -> u64 {
        let is_access = |o: &Operation| matches!(o.action, Action::Read(_) | Action::Write(_));
        let held = self.maker.operations.iter().enumerate();
        let accesses: Vec<usize> = held.filter(|(_, o)| is_access(o)).map(|(at, _)| at).collect();
        if accesses.is_empty() || random.chance(20) {
            return self.position(random);
        }
        random.pick(&accesses) as u64
    }

    fn length(&self, random: &mut Random) -> u64 {
        let held = self.maker.operations.len();
        match random.below(8) {
            0 => random.pick(&[held as u64 + 1, 512, 513, u64::MAX]),
            1 => 0,
            2 => held as u64,
            3 => random.between(0, held) as u64,
            _ => held.saturating_sub(random.between(1, 5)) as u64,
        }
    }

    fn races(&self) -> usize {
        let held = &self.maker.operations;
        race_list(&Ordering::of(self.maker.setting.discipline, held)).len()
    }

    /// Places for a list: none, one too few, just enough, or some more.
    fn places(&self, random: &mut Random) -> u64 {
        let races = self.races();
        let places = match random.below(5) {
            0 => 0,
            1 => races.saturating_sub(1),
            2 => races,
            3 => races + random.between(1, 4),
            _ => random.below(races + 10),
        };
        (places as u64).min(MOST_PLACES / 8)
    }
}

pub fn good(random: &mut Random, calls: usize) -> Vec<u8> {
    text_of(&good_lines(random, calls))
}

fn good_lines(random: &mut Random, calls: usize) -> Vec<Line> {
    let mut writer = Writer::new(Maker::random(random, calls));
    let percent = random.pick(&[30, 60, 80]);
    if random.chance(85) {
        for operation in writer.maker.opening_moves(random) {
            writer.add(operation);
        }
    }
    while writer.lines.len() < calls {
        writer.some_call(random, percent);
    }
    writer.lines
}

/// A recording as a script: its adds, then the whole list, then the class and order of pairs.
pub fn recorded(random: &mut Random, length: usize) -> Vec<u8> {
    let mut maker = Maker::random(random, length);
    maker.grow(random, length);
    let held = std::mem::take(&mut maker.operations);
    let mut writer = Writer::new(maker);
    for operation in held {
        writer.add(operation);
    }
    writer.lines.push(Line::List((writer.races() as u64 + 2).min(MOST_PLACES)));
    for _ in 0..40 {
        writer.lines.push(Line::Class(writer.access(random), writer.access(random)));
        writer.lines.push(Line::Order(writer.position(random), writer.position(random)));
    }
    text_of(&writer.lines)
}

/// A script that fills an examination, goes on past that, cuts, and fills it again.
pub fn full(random: &mut Random) -> Vec<u8> {
    let mut writer = Writer::new(Maker::random(random, MOST_RECORDS));
    // A maker can run dry, as when its only thread has exited.
    for _ in 0..2 * MOST_RECORDS {
        if writer.maker.operations.len() < MOST_RECORDS {
            writer.add_accepted(random);
        }
    }
    for _ in 0..random.between(2, 6) {
        writer.add(writer.maker.wild(random));
        writer.lines.push(Line::Add(writer.maker.unlawful(random)));
        let held = writer.maker.operations.len();
        writer.cut(held.saturating_sub(random.between(1, 3)) as u64);
        for _ in 0..4 {
            writer.add_accepted(random);
            writer.lines.push(Line::Order(writer.position(random), writer.position(random)));
            writer.lines.push(Line::Class(writer.access(random), writer.access(random)));
        }
    }
    writer.lines.push(Line::List(writer.places(random)));
    text_of(&writer.lines)
}

/// Lines that are no call, one of each kind that there is.
const BAD_LINES: &[&[u8]] = &[
    b"",
    b" ",
    b"call",
    b"adds 1 0 0 0 0 0 0",
    b"add",
    b"add ",
    b"add 1 0 0 0 0 0",
    b"add 1 0 0 0 0 0 0 0",
    b"add 1 0 0 0 0 0 ",
    b"add 256 0 0 0 0 0 0",
    b"add 1 256 0 0 0 0 0",
    b"add 1 0 65536 0 0 0 0",
    b"add 1 0 0 256 0 0 0",
    b"add 7 0 0 0 256 0 0",
    b"add 1 0 0 0 0 65536 0",
    b"add 1 0 0 0 0 0 4294967296",
    b"add 1 0 0 0 0 0 18446744073709551616",
    b"add -1 0 0 0 0 0 0",
    b"add +1 0 0 0 0 0 0",
    b"add 01 0 0 0 0 0 0",
    b"add 1 00 0 0 0 0 0",
    b"add 0x1 0 0 0 0 0 0",
    b"add 1.0 0 0 0 0 0 0",
    b"add 1  0 0 0 0 0 0",
    b"add 1\t0 0 0 0 0 0",
    b" add 1 0 0 0 0 0 0",
    b"add 1 0 0 0 0 0 0 ",
    b"add 1 0 0 0 0 0 0\r",
    b"Add 1 0 0 0 0 0 0",
    b"ADD 1 0 0 0 0 0 0",
    b"add 1 0 0 0 0 0 x",
    b"add 1 0 0 0 0 0 \xff",
    b"add 1 0 0 0 0 0 0\0",
    b"add 1 0 0 0 0 0 \xc2\xb2",
    b"cut",
    b"cut ",
    b"cut 0 0",
    b"cut 18446744073709551616",
    b"cut 28446744073709551615",
    b"cut 99999999999999999999999999999999999999999999999999",
    b"cut 00",
    b"cut -0",
    b"order",
    b"order 0",
    b"order 0 0 0",
    b"order 0 18446744073709551616",
    b"order 18446744073709551616 0",
    b"order 0,0",
    b"class 0",
    b"class 0 1 2",
    b"class 18446744073709551616 0",
    b"class 0 18446744073709551616",
    b"list",
    b"list 262145",
    b"list 4294967296",
    b"list 18446744073709551615",
    b"list 18446744073709551616",
    b"list 1 1",
    b"list 0 ",
    b"open 0 1",
    b"open 2 18446744073709551615",
    b"open 3 0",
    b"open 256 0",
    b"open 0 18446744073709551616",
    b"open",
    b"open 0",
    b"open 0 0 0",
    b"open 00 0",
    b"\x00",
    b"\xff\xfe",
];

/// How many kinds of bad lines there are: those above, and one that lends too many places.
pub const BAD_KINDS: usize = BAD_LINES.len() + 1;

/// A script with a bad line of this kind, and further calls behind it.
pub fn bad(random: &mut Random, kind: usize) -> Vec<u8> {
    let calls = random.between(0, 12);
    let before = good_lines(random, calls);
    let after = good_lines(random, 3);
    let mut text = text_of(if random.chance(15) { &[] } else { &before });
    match BAD_LINES.get(kind) {
        Some(line) => text.extend(*line),
        None => {
            let lists = (MOST_PLACES_IN_ALL / MOST_PLACES) as usize;
            text.extend(text_of(&vec![Line::List(MOST_PLACES); lists]));
            text.extend(b"list 1");
        }
    }
    text.push(b'\n');
    text.extend(text_of(&after[1..]));
    if random.chance(30) {
        text.pop();
    }
    text
}

/// Scripts at the limits, each with its name.
pub fn fixed_scripts() -> Vec<(&'static str, Vec<u8>)> {
    let start = "add 1 0 0 0 0 0 0\n";
    let write = "add 14 0 9 0 0 0 0\n";
    let nothing = "order 0 0\norder 0 1\nclass 0 0\nclass 1 0\ncut 0\ncut 1\nlist 0\nlist 2\n";
    let most = "18446744073709551615";
    let filled = format!("open 1 1\n{start}{}", write.repeat(MOST_RECORDS - 1));
    vec![
        ("empty script", Vec::new()),
        ("one empty line", b"\n".to_vec()),
        ("only an opening", b"open 2 0".to_vec()),
        ("no such discipline", b"open 3 0\n".to_vec()),
        ("no such discipline, then a bad line", b"open 255 0\nlist\n".to_vec()),
        ("a call first", format!("{start}open 0 1\n").into_bytes()),
        ("a second opening", format!("open 0 1\n{start}open 0 1\n{start}").into_bytes()),
        ("a second opening of no discipline", b"open 0 1\nopen 3 0\n".to_vec()),
        ("nothing held", format!("open 0 1\n{nothing}").into_bytes()),
        ("nothing held after a cut", format!("open 0 1\n{start}cut 0\n{nothing}").into_bytes()),
        (
            "the largest positions",
            format!(
                "open 0 {most}\n{start}order {most} 0\norder 0 {most}\nclass {most} {most}\ncut {most}\n"
            )
            .into_bytes(),
        ),
        (
            "the 513th is refused, and one fits after a cut to 511",
            format!(
                "{filled}{write}add 15 0 0 0 0 0 0\n{start}cut 511\n{write}{write}\
                 order 0 511\norder 511 512\nclass 510 511\n"
            )
            .into_bytes(),
        ),
        (
            "a full one cut to nothing",
            format!("{filled}cut 512\ncut 513\n{write}cut 0\n{write}{start}{write}list 3\n").into_bytes(),
        ),
        (
            "all places lent, then one more",
            format!("open 0 1\n{}list 0\nlist 1\ncut 0\n", format!("list {MOST_PLACES}\n").repeat(4))
                .into_bytes(),
        ),
    ]
}
