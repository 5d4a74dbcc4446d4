//! An examination and its calls: the sections Answers and Whole runs of docs/EXAMINATION.md.

use crate::acceptance::Held;
use crate::ordering::Ordering;
use crate::races::{class_of_pair, race_list, Class, Race};
use crate::recording::{Operation, Setting};

pub const NOT_HELD: u8 = 18;

pub struct Examination {
    setting: Setting,
    ordering: Ordering,
}

#[derive(Clone, Copy, Debug, PartialEq, Eq)]
pub enum Order {
    Same,
    Before,
    After,
    Unordered,
}

impl Examination {
    pub fn open(setting: Setting) -> Examination {
        Examination { setting, ordering: Ordering::new(setting.discipline) }
    }

    pub fn held(&self) -> usize {
        self.ordering.operations().len()
    }

    pub fn refusal(&self, operation: &Operation) -> Option<u8> {
        Held { setting: &self.setting, operations: self.ordering.operations() }.refusal(operation)
    }

    /// The new position and how many held operations are before it, or the refusal.
    pub fn add(&mut self, operation: Operation) -> Result<(usize, usize), u8> {
        if let Some(refusal) = self.refusal(&operation) {
            return Err(refusal);
        }
        let new = self.held();
        self.ordering.push(operation);
        let before = (0..new).filter(|i| self.ordering.is_before(*i, new)).count();
        Ok((new, before))
    }

    pub fn cut(&mut self, length: u64) -> Result<(), u8> {
        if length > self.held() as u64 {
            return Err(NOT_HELD);
        }
        let kept = &self.ordering.operations()[..length as usize];
        self.ordering = Ordering::of(self.setting.discipline, kept);
        Ok(())
    }

    pub fn order(&self, i: u64, j: u64) -> Result<Order, u8> {
        let (i, j) = (self.position(i)?, self.position(j)?);
        Ok(if i == j {
            Order::Same
        } else if self.ordering.is_before(i, j) {
            Order::Before
        } else if self.ordering.is_before(j, i) {
            Order::After
        } else {
            Order::Unordered
        })
    }

    pub fn class(&self, i: u64, j: u64) -> Result<Option<Class>, u8> {
        let (i, j) = (self.position(i)?, self.position(j)?);
        Ok(class_of_pair(&self.ordering, i, j))
    }

    pub fn races(&self) -> Vec<Race> {
        race_list(&self.ordering)
    }

    fn position(&self, number: u64) -> Result<usize, u8> {
        if number < self.held() as u64 { Ok(number as usize) } else { Err(NOT_HELD) }
    }
}
