//! In place of the comparison's count of goto lookups: nothing is counted while time is taken.

#[inline(always)]
pub fn count_lookup() {}
