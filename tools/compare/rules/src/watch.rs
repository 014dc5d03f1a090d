//! What a command came upon: the conditions for agreement with the original, and what is counted for coverage.

#[derive(Clone, Copy, Default, Debug)]
pub struct Watch {
    /// 6 to 11 if a limit or the table refused; else 0.
    pub refusal: u8,
    /// A reduce action refused.
    pub action_refused: bool,
    /// A chain pops the entry under its own empty reduction.
    pub pops_under_empty: bool,
    /// The same for an empty reduction that has another rule or a shift beside it: then others need what is popped.
    pub pops_beside: bool,
    /// Recovery reached an entry that another reading holds.
    pub shared_reached: bool,

    /// Recovery started; its first stage gave a reading.
    pub recovery: bool,
    pub recovered: bool,
    /// Entries that recovery popped, at most; readings that stayed in its second stage.
    pub popped_most: u32,
    pub stayed: u32,
    /// Reductions walked in one planning, at most.
    pub walked_most: u32,
}

impl Watch {
    /// Whether the original must do the same from the same state.
    pub fn inside(&self) -> bool {
        self.refusal == 0 && !self.action_refused && !self.pops_under_empty && !self.shared_reached
    }
}
