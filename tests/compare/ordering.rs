//! What is before what: the twelve rules of docs/EXAMINATION.md, section Order, applied to a set
//! of pairs until they give nothing new. That set is the least closed ordering.

use crate::recording::{Action, Discipline, Marks, Operation, Task, MOST_RECORDS};

pub struct Ordering {
    discipline: Discipline,
    operations: Vec<Operation>,
    /// The task that each position belongs to.
    tasks: Vec<Option<Task>>,
    pairs: Vec<bool>,
}

impl Ordering {
    pub fn new(discipline: Discipline) -> Ordering {
        Ordering {
            discipline,
            operations: Vec::new(),
            tasks: Vec::new(),
            pairs: vec![false; MOST_RECORDS * MOST_RECORDS],
        }
    }

    pub fn of(discipline: Discipline, operations: &[Operation]) -> Ordering {
        let mut ordering = Ordering::new(discipline);
        for operation in operations {
            ordering.push(*operation);
        }
        ordering
    }

    pub fn operations(&self) -> &[Operation] {
        &self.operations
    }

    pub fn is_before(&self, i: usize, j: usize) -> bool {
        self.pairs[i * MOST_RECORDS + j]
    }

    /// The post of the task that position `i` belongs to.
    pub fn task_post(&self, i: usize) -> Option<usize> {
        let task = self.tasks[i]?;
        let is_post = |o: &Operation| matches!(o.action, Action::Post(p, _, _) if p == task);
        self.operations.iter().position(is_post)
    }

    /// Takes in one more operation. All pairs so far stay: the rules still give them.
    pub fn push(&mut self, operation: Operation) {
        let new = self.operations.len();
        self.operations.push(operation);
        self.tasks.push(self.find_task(new));
        let given: Vec<_> = (0..new).filter(|i| self.plain_rule(*i, new)).map(|i| (i, new)).collect();
        self.close(given);
        loop {
            let handovers = self.given_handovers();
            if handovers.is_empty() {
                return;
            }
            self.close(handovers);
        }
    }

    fn find_task(&self, i: usize) -> Option<Task> {
        let thread = self.operations[i].thread;
        for (k, operation) in self.operations[..=i].iter().enumerate().rev() {
            match operation.action {
                _ if operation.thread != thread => {}
                Action::Begin(task) => return Some(task),
                Action::End(_) if k < i => return None,
                _ => {}
            }
        }
        None
    }

    /// The eight rules that do not ask which pairs the ordering has.
    fn plain_rule(&self, i: usize, j: usize) -> bool {
        let (first, second) = (&self.operations[i], &self.operations[j]);
        let other_thread = first.thread != second.thread;
        let by_actions = match (first.action, second.action) {
            (Action::AttachQ, Action::Post(_, target, _)) => target == first.thread && other_thread,
            (Action::Enable(p), Action::Post(q, _, _)) => p == q,
            (Action::Post(p, _, _), Action::Begin(q)) => p == q,
            (Action::Fork(target), Action::ThreadInit) => target == second.thread,
            (Action::ThreadExit, Action::Join(target)) => target == first.thread,
            (Action::Release(k), Action::Acquire(l)) => k == l && other_thread,
            _ => false,
        };
        by_actions || self.program_order(i, j) || self.task_order(i, j)
    }

    fn program_order(&self, i: usize, j: usize) -> bool {
        let thread = self.operations[i].thread;
        let loop_stands_before =
            || self.operations[..i].contains(&Operation { thread, action: Action::LoopOnQ });
        thread == self.operations[j].thread && !loop_stands_before()
    }

    fn task_order(&self, i: usize, j: usize) -> bool {
        self.tasks[i].is_some() && self.tasks[i] == self.tasks[j]
    }

    /// Adds the pairs, and what the two transitivities then give.
    fn close(&mut self, mut fresh: Vec<(usize, usize)>) {
        while let Some((i, j)) = fresh.pop() {
            if self.is_before(i, j) {
                continue;
            }
            self.pairs[i * MOST_RECORDS + j] = true;
            for k in j + 1..self.operations.len() {
                if self.is_before(j, k) && !self.is_before(i, k) && self.joins(i, j, k) {
                    fresh.push((i, k));
                }
            }
            for h in 0..i {
                if self.is_before(h, i) && !self.is_before(h, j) && self.joins(h, i, j) {
                    fresh.push((h, j));
                }
            }
        }
    }

    /// Whether one of the transitivities makes (i, j) of (i, k) and (k, j).
    fn joins(&self, i: usize, k: usize, j: usize) -> bool {
        let thread = |at: usize| self.operations[at].thread;
        thread(i) != thread(j) || thread(i) == thread(k)
    }

    /// The pairs that queue order and run to completion give and the ordering lacks.
    fn given_handovers(&self) -> Vec<(usize, usize)> {
        let mut given = Vec::new();
        for (i, first) in self.operations.iter().enumerate() {
            let Action::End(p) = first.action else { continue };
            for (j, second) in self.operations.iter().enumerate().skip(i + 1) {
                let Action::Begin(q) = second.action else { continue };
                let lacked = first.thread == second.thread && !self.is_before(i, j);
                if lacked && (self.queue_order(p, q) || self.run_to_completion(p, q)) {
                    given.push((i, j));
                }
            }
        }
        given
    }

    fn queue_order(&self, p: Task, q: Task) -> bool {
        match (self.post_of(p), self.post_of(q)) {
            (Some((a, first)), Some((b, second))) => {
                self.is_before(a, b) && self.discipline.precedes(first, second)
            }
            _ => false,
        }
    }

    fn run_to_completion(&self, p: Task, q: Task) -> bool {
        let Some((post, _)) = self.post_of(q) else {
            return false;
        };
        let of_p = |i: usize| self.tasks[i] == Some(p);
        (0..self.operations.len()).any(|i| of_p(i) && (i == post || self.is_before(i, post)))
    }

    fn post_of(&self, task: Task) -> Option<(usize, Marks)> {
        self.operations.iter().enumerate().find_map(|(at, o)| match o.action {
            Action::Post(posted, _, marks) if posted == task => Some((at, marks)),
            _ => None,
        })
    }
}
