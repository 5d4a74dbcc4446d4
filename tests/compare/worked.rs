//! The worked cases of docs/EXAMINATION.md, with the answers that it gives. The examiner has to
//! agree with them before it is worth comparing anything with it.

use crate::recording::{write_file, Action, Discipline, Marks, Operation, Setting};

pub struct Worked {
    pub name: &'static str,
    pub file: Vec<u8>,
    pub report: &'static str,
}

const FIFO: Discipline = Discipline::FirstInFirstOut;
const ANY: Discipline = Discipline::AnyOrder;
const TIMED: Discipline = Discipline::Timed;

const TWO: &str = "threadinit(0) threadinit(1) attachQ(0) loopOnQ(0)";
const THREE: &str = "threadinit(0) threadinit(1) threadinit(2) attachQ(0) loopOnQ(0)";
const ONE_LOOP: &str = "threadinit(0) attachQ(0) loopOnQ(0)";

pub fn recordings() -> Vec<Worked> {
    let twice = "post(1,5,0) post(1,6,0) begin(0,5) write(0,9) end(0,5) begin(0,6) write(0,9) end(0,6)";
    let sixth_first = "post(1,5,0) post(1,6,0) begin(0,6)";
    let by_locks = "post(1,5,0) post(2,6,0) begin(0,5) write(0,9) acquire(0,3) release(0,3) end(0,5) \
        acquire(1,3) release(1,3) begin(0,6) acquire(0,3) write(0,9)";
    let tie = "post(1,5,0) post(2,6,0) begin(0,5) write(0,9) end(0,5) begin(0,6) write(0,9) end(0,6)";
    let exchanged = "post(2,5,0) post(1,6,0) begin(0,5) write(0,9) end(0,5) begin(0,6) write(0,9) end(0,6)";
    vec![
        worked("two-panels", FIFO, 3, TWO,
            "post(1,5,0) write(1,9) begin(0,5) read(0,9) end(0,5)",
            "ops 9 races 1\n5 7 multi-threaded\n"),
        worked("posts-twice-fifo", FIFO, 3, TWO, twice, "ops 12 races 0\n"),
        worked("posts-twice-any-order", ANY, 3, TWO, twice, "ops 12 races 1\n7 10 cross-posted\n"),
        worked("overtaking-fifo", FIFO, 3, TWO, sixth_first, "state 16 at 6\n"),
        worked("overtaking-any-order", ANY, 3, TWO, sixth_first, "ops 7 races 0\n"),
        worked("run-to-completion", ANY, 3, TWO,
            "post(1,5,0) begin(0,5) post(0,6,0) write(0,9) end(0,5) begin(0,6) write(0,9)",
            "ops 11 races 0\n"),
        worked("posts-unordered", FIFO, 7, THREE, tie, "ops 13 races 1\n8 11 cross-posted\n"),
        worked("posts-exchanged", FIFO, 7, THREE, exchanged, "ops 13 races 1\n8 11 cross-posted\n"),
        worked("plain-transitivity", FIFO, 7, THREE, by_locks, "ops 17 races 1\n8 16 cross-posted\n"),
        worked("after-the-loop", ANY, 1, ONE_LOOP, "write(0,9) write(0,9)",
            "ops 5 races 1\n3 4 unknown\n"),
        worked("delay-equal", TIMED, 3, TWO,
            "post(1,5,0,delay=100) post(1,6,0,delay=100) begin(0,6)", "state 16 at 6\n"),
        worked("delay-falling", TIMED, 3, TWO,
            "post(1,5,0,delay=101) post(1,6,0,delay=100) begin(0,6)", "ops 7 races 0\n"),
        worked("delay-0-then-none", TIMED, 3, TWO,
            "post(1,5,0,delay=0) post(1,6,0) begin(0,6)", "ops 7 races 0\n"),
        worked("none-then-delay-0", TIMED, 3, TWO,
            "post(1,5,0) post(1,6,0,delay=0) begin(0,6)", "state 16 at 6\n"),
        worked("co-enabled", TIMED, 3, TWO,
            "post(1,1,0,env) post(1,2,0,env) begin(0,1) post(0,3,0,delay=5) end(0,1) \
             begin(0,2) write(0,9) end(0,2) begin(0,3) write(0,9) end(0,3)",
            "ops 15 races 1\n10 13 co-enabled\n"),
        worked("lock-depth", FIFO, 2, "threadinit(1)",
            "acquire(1,3) acquire(1,3) release(1,3) release(1,3)", "state 15 at 4\n"),
    ]
}

/// A script and its answers.
pub fn script() -> (&'static str, &'static str) {
    (
        "open 0 3\nadd 1 0 0 0 0 0 0\nadd 1 1 0 0 0 0 0\nadd 5 0 0 0 0 0 0\nadd 6 0 0 0 0 0 0\n\
         add 7 1 5 0 0 0 0\nadd 14 1 9 0 0 0 0\nadd 8 0 5 0 0 0 0\nadd 13 0 9 0 0 0 0\n\
         add 15 0 0 0 0 0 0\nadd 1 0 0 0 0 0 0\norder 5 7\nclass 7 5\norder 7 8\nlist 2\n\
         cut 7\nlist 0\n",
        "opened\nadded 0 0\nadded 1 0\nadded 2 1\nadded 3 2\nadded 4 3\nadded 5 4\nadded 6 5\n\
         added 7 6\nrecord 1 at 0\nrefused 12\nunordered\nclass 1\nrefused 18\nlisted 1\n5 7 1\n\
         7 7 7\ncut 7\nlisted 0\n",
    )
}

fn worked(
    name: &'static str,
    discipline: Discipline,
    mask: u64,
    first: &str,
    then: &str,
    report: &'static str,
) -> Worked {
    let words = first.split_whitespace().chain(then.split_whitespace());
    let rows: Vec<_> = words.map(|word| operation(word).row()).collect();
    Worked { name, file: write_file(&Setting { discipline, mask }, &rows), report }
}

/// The operation that a word such as `post(1,5,0,env,delay=250)` writes. Words stand only in this
/// file, so a wrong one is a mistake here and ends the program.
fn operation(word: &str) -> Operation {
    let (name, rest) = word.split_once('(').expect("an operation has a parenthesis");
    let fields: Vec<&str> = rest.trim_end_matches(')').split(',').collect();
    let number = |at: usize| fields[at].parse::<u16>().expect("a field is a number");
    let action = match name {
        "threadinit" => Action::ThreadInit,
        "attachQ" => Action::AttachQ,
        "loopOnQ" => Action::LoopOnQ,
        "post" => Action::Post(number(1), number(2) as u8, marks(&fields[3..])),
        "begin" => Action::Begin(number(1)),
        "end" => Action::End(number(1)),
        "acquire" => Action::Acquire(number(1)),
        "release" => Action::Release(number(1)),
        "read" => Action::Read(number(1)),
        "write" => Action::Write(number(1)),
        _ => panic!("no worked case has {name}"),
    };
    Operation { thread: number(0) as u8, action }
}

fn marks(fields: &[&str]) -> Marks {
    let delay = fields.iter().find_map(|field| field.strip_prefix("delay="));
    Marks {
        environment: fields.contains(&"env"),
        delay: delay.map(|number| number.parse().expect("a delay is a number")),
    }
}
