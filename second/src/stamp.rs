//! Stamps and the record that a relay keeps.

use std::cmp::Ordering;

#[derive(Clone, Copy, PartialEq, Eq, Debug, Default)]
pub struct Stamp {
    pub count: u16,
    pub desk: u8,
}

impl Stamp {
    pub fn new(count: u16, desk: u8) -> Stamp {
        Stamp { count, desk }
    }

    /// "ordered by count, then desk. Comparing two stamps answers minus one, zero or one."
    pub fn compare(self, other: Stamp) -> i8 {
        match self
            .count
            .cmp(&other.count)
            .then(self.desk.cmp(&other.desk))
        {
            Ordering::Less => -1,
            Ordering::Equal => 0,
            Ordering::Greater => 1,
        }
    }

    pub fn is_above(self, other: Stamp) -> bool {
        self.compare(other) == 1
    }
}

/// "Fresh record: stamp (0,0), value 0."
#[derive(Clone, Copy, PartialEq, Eq, Debug, Default)]
pub struct Record {
    pub stamp: Stamp,
    pub value: u32,
}

impl Record {
    pub fn new(stamp: Stamp, value: u32) -> Record {
        Record { stamp, value }
    }

    /// "Wherever the greatest stamp is kept, of equal stamps the pair already held stays."
    pub fn keep_greater(&mut self, other: Record) -> bool {
        let greater = other.stamp.is_above(self.stamp);
        if greater {
            *self = other;
        }
        greater
    }
}
