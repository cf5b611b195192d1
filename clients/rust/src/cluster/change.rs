//! Changes and conditions, by the object that they are of.

use crate::sys::cluster::{Change, Condition, ObjectId};

// They have the names of the operations in a script.
#[allow(clippy::should_implement_trait)]
impl ObjectId {
    /// The value and this number.
    pub fn add(self, number: i64) -> Change {
        self.becomes(0, number)
    }

    /// This number.
    pub fn set(self, number: i64) -> Change {
        self.becomes(1, number)
    }

    /// The value times this number.
    pub fn mul(self, number: i64) -> Change {
        self.becomes(2, number)
    }

    /// The greater one of the value and this number.
    pub fn max(self, number: i64) -> Change {
        self.becomes(3, number)
    }

    /// The lesser one of the value and this number.
    pub fn min(self, number: i64) -> Change {
        self.becomes(4, number)
    }

    /// The value of another object.
    pub fn take(self, source: ObjectId) -> Change {
        self.becomes(5, source.0.into())
    }

    /// The value is this number or more after the update and all before it.
    pub fn at_least(self, number: i64) -> Condition {
        Condition { object: self, bound: 0, number }
    }

    /// The value is this number or less after the update and all before it.
    pub fn at_most(self, number: i64) -> Condition {
        Condition { object: self, bound: 1, number }
    }

    fn becomes(self, op: u32, operand: i64) -> Change {
        Change { object: self, op, operand }
    }
}
