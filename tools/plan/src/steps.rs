//! The states of a pass: the plan before it, and after each visit.

use push_down_filter::image::{read, Tree};
use push_down_filter::{pass, Refusal, MAX_BYTES};

/// The plan that a pass leaves.
#[derive(Clone, Debug, PartialEq, Eq)]
pub struct State {
    pub plan: Tree,
    pub visits: u64,
    /// How many visits raised the flag.
    pub changed: u64,
    pub finished: bool,
}

/// The plan after a pass of at most `budget` visits.
pub fn after(image: &[u8], budget: u64) -> Result<State, Refusal> {
    let mut out = vec![0; MAX_BYTES];
    let passed = pass(image, budget, &mut out)?;
    let plan = Tree::of_records(&read(&out[..passed.bytes()]));
    Ok(State { plan, visits: passed.visits, changed: passed.changed, finished: passed.finished })
}

/// The plan before a pass of at most `budget` visits and after each of them: the answers of passes with the budgets 0, 1, 2 and so on.
pub fn states(image: &[u8], budget: u64) -> Result<Vec<State>, Refusal> {
    let visits = after(image, budget)?.visits;
    (0..=visits).map(|budget| after(image, budget)).collect()
}

/// The last state before the visit that refuses a pass. It is the plan of which the refusal names a record.
pub fn last_granted(image: &[u8], budget: u64) -> Option<State> {
    let mut last = after(image, 0).ok()?;
    while last.visits < budget && !last.finished {
        match after(image, last.visits + 1) {
            Ok(state) => last = state,
            Err(_) => return Some(last),
        }
    }
    Some(last)
}
