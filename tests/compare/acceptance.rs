//! Which operation is accepted on those held: the section Acceptance of docs/EXAMINATION.md,
//! read off the list of held operations at every question.

use crate::recording::{Action, Lock, Marks, Operation, Setting, Task, Thread, MOST_RECORDS};

pub struct Held<'a> {
    pub setting: &'a Setting,
    pub operations: &'a [Operation],
}

impl Held<'_> {
    /// The number of the refusal of `new`, if it is refused: the smallest that applies.
    pub fn refusal(&self, new: &Operation) -> Option<u8> {
        let tests = [
            (11, self.operations.len() >= MOST_RECORDS),
            (12, !self.thread_is_ready(new)),
            (13, self.wrong_target(new)),
            (14, self.wrong_queue(new)),
            (15, self.wrong_lock(new)),
            (16, self.out_of_turn(new)),
            (17, self.not_admitted(new)),
        ];
        tests.iter().find(|(_, applies)| *applies).map(|(number, _)| *number)
    }

    fn thread_is_ready(&self, new: &Operation) -> bool {
        match new.action {
            Action::ThreadInit => self.created(new.thread),
            _ => self.running(new.thread),
        }
    }

    fn wrong_target(&self, new: &Operation) -> bool {
        match new.action {
            Action::Fork(target) => !self.unknown(target),
            Action::Join(target) => !self.finished(target),
            Action::Post(_, target, _) => !(self.running(target) && self.has_queue(target)),
            _ => false,
        }
    }

    fn wrong_queue(&self, new: &Operation) -> bool {
        let thread = new.thread;
        match new.action {
            Action::AttachQ => self.has_queue(thread),
            Action::LoopOnQ => !self.has_queue(thread) || self.loops(thread),
            Action::Begin(_) => !self.loops(thread),
            _ => false,
        }
    }

    fn wrong_lock(&self, new: &Operation) -> bool {
        match new.action {
            Action::Acquire(lock) => {
                (0..64).any(|other| other != new.thread && self.holds(other, lock))
            }
            Action::Release(lock) => !self.holds(new.thread, lock),
            _ => false,
        }
    }

    fn out_of_turn(&self, new: &Operation) -> bool {
        let thread = new.thread;
        match new.action {
            Action::Post(task, _, _) => self.post_of(task).is_some(),
            Action::Begin(task) => {
                self.busy(thread) || !self.waits(thread, task) || self.overtaken(thread, task)
            }
            Action::End(task) => !self.current(thread, task),
            _ => false,
        }
    }

    fn not_admitted(&self, new: &Operation) -> bool {
        match new.action {
            Action::Post(_, _, marks) => !self.setting.discipline.admits(marks),
            _ => false,
        }
    }

    fn some(&self, is: impl Fn(&Operation) -> bool) -> bool {
        self.operations.iter().any(is)
    }

    /// Some operation starts it, and none after that stops it.
    fn lasting(
        &self,
        starts: impl Fn(&Operation) -> bool,
        stops: impl Fn(&Operation) -> bool,
    ) -> bool {
        match self.operations.iter().rposition(starts) {
            Some(start) => !self.operations[start + 1..].iter().any(stops),
            None => false,
        }
    }

    fn has_done(&self, thread: Thread, action: Action) -> bool {
        self.some(|o| *o == Operation { thread, action })
    }

    fn started(&self, thread: Thread) -> bool {
        self.has_done(thread, Action::ThreadInit)
    }

    fn finished(&self, thread: Thread) -> bool {
        self.has_done(thread, Action::ThreadExit)
    }

    fn running(&self, thread: Thread) -> bool {
        self.started(thread) && !self.finished(thread)
    }

    fn known(&self, thread: Thread) -> bool {
        self.setting.is_initial(thread) || self.some(|o| o.action == Action::Fork(thread))
    }

    fn created(&self, thread: Thread) -> bool {
        self.known(thread) && !self.started(thread) && !self.finished(thread)
    }

    fn unknown(&self, thread: Thread) -> bool {
        !self.known(thread) && !self.started(thread) && !self.finished(thread)
    }

    fn has_queue(&self, thread: Thread) -> bool {
        self.has_done(thread, Action::AttachQ)
    }

    fn loops(&self, thread: Thread) -> bool {
        self.has_done(thread, Action::LoopOnQ)
    }

    fn current(&self, thread: Thread, task: Task) -> bool {
        self.lasting(
            |o| *o == Operation { thread, action: Action::Begin(task) },
            |o| *o == Operation { thread, action: Action::End(task) },
        )
    }

    fn busy(&self, thread: Thread) -> bool {
        self.some(|o| match o.action {
            Action::Begin(task) => o.thread == thread && self.current(thread, task),
            _ => false,
        })
    }

    fn begun(&self, task: Task) -> bool {
        self.some(|o| o.action == Action::Begin(task))
    }

    /// Position, target and marks of the post of a task.
    fn post_of(&self, task: Task) -> Option<(usize, Thread, Marks)> {
        self.operations.iter().enumerate().find_map(|(at, o)| match o.action {
            Action::Post(posted, target, marks) if posted == task => Some((at, target, marks)),
            _ => None,
        })
    }

    fn waits(&self, thread: Thread, task: Task) -> bool {
        let posted_here = self.post_of(task).is_some_and(|(_, target, _)| target == thread);
        posted_here && !self.begun(task)
    }

    /// A task that waits at the thread, posted before this one was, precedes it.
    fn overtaken(&self, thread: Thread, task: Task) -> bool {
        let Some((at, _, marks)) = self.post_of(task) else {
            return false;
        };
        self.operations[..at].iter().any(|o| match o.action {
            Action::Post(other, _, earlier) => {
                self.waits(thread, other) && self.setting.discipline.precedes(earlier, marks)
            }
            _ => false,
        })
    }

    fn holds(&self, thread: Thread, lock: Lock) -> bool {
        self.lasting(
            |o| *o == Operation { thread, action: Action::Acquire(lock) },
            |o| {
                o.thread == thread && matches!(o.action, Action::ThreadExit)
                    || *o == Operation { thread, action: Action::Release(lock) }
            },
        )
    }
}
