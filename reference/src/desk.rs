//! The desk: three counts of the checks that it has heard (FORMAT 9.11, 9.12, 9.13, 9.15).

/// What a desk has heard, accepted and refused (FORMAT 9.11).
#[derive(Clone, Copy, Debug, PartialEq, Eq)]
pub struct Desk {
    pub heard: u64,
    pub accepted: u64,
    pub refused: u64,
}

impl Desk {
    /// A desk that has heard nothing.
    pub fn fresh() -> Desk {
        Desk { heard: 0, accepted: 0, refused: 0 }
    }

    /// Checks, counts, and returns the check's reply (FORMAT 9.12); 19 and 20 come first and count
    /// nothing (FORMAT 10.19, 10.20, 13.8).
    pub fn call(&mut self, list: &[u8], table: &[u32]) -> (u64, u64) {
        // A sum past 2^64-1 is no count that heard could hold (FORMAT 9.13).
        if self.accepted.checked_add(self.refused) != Some(self.heard) {
            return (19, 0);
        }
        if self.heard == u64::MAX {
            return (20, 0);
        }
        let reply = crate::check(list, table);
        self.heard += 1;
        if reply == (0, 0) {
            self.accepted += 1;
        } else {
            self.refused += 1;
        }
        reply
    }
}
