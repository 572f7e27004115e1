/// The mark joins are named by the source; no image holds one.
#[derive(Clone, Copy, Debug, PartialEq, Eq)]
pub enum JoinType {
    Inner,
    Left,
    Right,
    Full,
    LeftSemi,
    RightSemi,
    LeftAnti,
    RightAnti,
    LeftMark,
    RightMark,
}

impl JoinType {
    /// Whether a conjunct of the join's own filter may move to its left input, and to its right input.
    pub fn on_lr_is_preserved(self) -> (bool, bool) {
        match self {
            JoinType::Inner | JoinType::LeftSemi | JoinType::RightSemi => (true, true),
            JoinType::Left | JoinType::LeftAnti => (false, true),
            JoinType::Right | JoinType::RightAnti => (true, false),
            JoinType::Full => (false, false),
            JoinType::LeftMark | JoinType::RightMark => unreachable!("no image holds a mark join"),
        }
    }
}
