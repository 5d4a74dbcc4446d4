//! Races and their classes: the section Races of docs/EXAMINATION.md.

use crate::ordering::Ordering;
use crate::recording::{Action, Marks, Operation};

#[derive(Clone, Copy, Debug, PartialEq, Eq)]
pub enum Class {
    MultiThreaded = 1,
    CoEnabled,
    Delayed,
    CrossPosted,
    Unknown,
}

impl Class {
    pub const ALL: [Class; 5] =
        [Class::MultiThreaded, Class::CoEnabled, Class::Delayed, Class::CrossPosted, Class::Unknown];

    pub fn number(self) -> usize {
        self as usize
    }

    pub fn name(self) -> &'static str {
        match self {
            Class::MultiThreaded => "multi-threaded",
            Class::CoEnabled => "co-enabled",
            Class::Delayed => "delayed",
            Class::CrossPosted => "cross-posted",
            Class::Unknown => "unknown",
        }
    }
}

#[derive(Clone, Copy, Debug)]
pub struct Race {
    pub earlier: usize,
    pub later: usize,
    pub class: Class,
}

/// All races, by rising later position, then by rising earlier position.
pub fn race_list(ordering: &Ordering) -> Vec<Race> {
    let held = ordering.operations().len();
    let chains: Vec<_> = (0..held).map(|at| chain(ordering, at)).collect();
    let mut races = Vec::new();
    for later in 0..held {
        for earlier in 0..later {
            if is_race(ordering, earlier, later) {
                let class = class_of(ordering, earlier, later, &chains[earlier], &chains[later]);
                races.push(Race { earlier, later, class });
            }
        }
    }
    races
}

/// The class of two positions in either order, if they race.
pub fn class_of_pair(ordering: &Ordering, i: usize, j: usize) -> Option<Class> {
    let (earlier, later) = (i.min(j), i.max(j));
    if !is_race(ordering, earlier, later) {
        return None;
    }
    let (first, second) = (chain(ordering, earlier), chain(ordering, later));
    Some(class_of(ordering, earlier, later, &first, &second))
}

fn is_race(ordering: &Ordering, i: usize, j: usize) -> bool {
    let held = ordering.operations();
    i < j && conflict(&held[i], &held[j]) && !ordering.is_before(i, j)
}

fn conflict(first: &Operation, second: &Operation) -> bool {
    match (first.action, second.action) {
        (Action::Write(x), Action::Write(y) | Action::Read(y)) => x == y,
        (Action::Read(x), Action::Write(y)) => x == y,
        _ => false,
    }
}

/// The post of the operation's task, then the post of that post's task, and so on.
fn chain(ordering: &Ordering, at: usize) -> Vec<usize> {
    std::iter::successors(ordering.task_post(at), |post| ordering.task_post(*post)).collect()
}

fn class_of(ordering: &Ordering, i: usize, j: usize, first: &[usize], second: &[usize]) -> Class {
    let held = ordering.operations();
    let thread = held[i].thread;
    let is_environment = |post: usize| marks(&held[post]).environment;
    let is_delayed = |post: usize| marks(&held[post]).delay.is_some();
    let is_foreign = |post: usize| held[post].thread != thread;
    let co_enabled = match (nearest(first, is_environment), nearest(second, is_environment)) {
        (Some(a), Some(b)) => a != b && !ordering.is_before(a, b),
        _ => false,
    };
    if thread != held[j].thread {
        Class::MultiThreaded
    } else if co_enabled {
        Class::CoEnabled
    } else if nearest(first, is_delayed) != nearest(second, is_delayed) {
        Class::Delayed
    } else if nearest(first, is_foreign) != nearest(second, is_foreign) {
        Class::CrossPosted
    } else {
        Class::Unknown
    }
}

fn nearest(chain: &[usize], fits: impl Fn(usize) -> bool) -> Option<usize> {
    chain.iter().copied().find(|post| fits(*post))
}

fn marks(post: &Operation) -> Marks {
    match post.action {
        Action::Post(_, _, marks) => marks,
        _ => Marks { environment: false, delay: None },
    }
}
