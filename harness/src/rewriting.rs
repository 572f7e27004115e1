//! The calls `rewrite` and `pass` as docs/FORMAT.md settles them, over the source: number, record, flag, counts and every byte
//! of the output. Tests 1 to 7 are the checker's; 8, 11 and 12 stand here.

use crate::checker::{check, Verdict};
use crate::image::{self, Tree, RECORD_BYTES};
use crate::kinds::*;
use crate::limits;
use crate::source::{self, Build};

#[derive(Clone, Debug, PartialEq, Eq)]
pub enum Answer {
    Granted { flag: bool, plan: Tree },
    Refused(Verdict),
}

/// What a call of rewrite hands back, beside the output.
#[derive(Clone, Copy, Debug, PartialEq, Eq)]
#[repr(C)]
pub struct Rewritten {
    pub number: u32,
    pub record: u32,
    pub flag: u32,
    pub records: u32,
}

/// What a call of pass hands back, beside the output.
#[derive(Clone, Copy, Debug, PartialEq, Eq)]
#[repr(C)]
pub struct Passed {
    pub number: u32,
    pub record: u32,
    pub visits: u64,
    pub changed: u64,
    pub finished: u32,
    pub records: u32,
}

/// The whole call: the image, the record, and an output of `room` bytes.
pub fn rewrite(build: Build, image: &[u8], node: u32, room: usize) -> (Rewritten, Vec<u8>) {
    let answer = match check(image) {
        Verdict::ACCEPTED => rewrite_at(build, &Tree::of_records(&image::read(image)), node),
        refusal => Answer::Refused(refusal),
    };
    handed_back(&answer, room)
}

/// The rewrite of an accepted plan at a record, in its place.
pub fn rewrite_at(build: Build, plan: &Tree, node: u32) -> Answer {
    let refused = |number: u32| Answer::Refused(Verdict { number, record: node });
    let at = node as usize;
    let Some(given) = plan.node(at).filter(|tree| is_plan(tree.label.kind)) else { return refused(8) };
    let source::Transformed { plan: made, flag, merges } = source::rewrite(build, given);
    let answer = plan.with(at, made);
    if fits(&answer) && merges.into_iter().all(|merged| fits(&plan.with(at, merged))) {
        Answer::Granted { flag, plan: answer }
    } else {
        refused(11)
    }
}

/// Test 12, and what the caller sees: the image of the answer, then zeros; all zeros for a refusal.
pub fn handed_back(answer: &Answer, room: usize) -> (Rewritten, Vec<u8>) {
    let refused =
        |Verdict { number, record }: Verdict| (Rewritten { number, record, flag: 0, records: 0 }, vec![0; room]);
    match answer {
        Answer::Granted { flag, plan } => match in_room(plan, room) {
            Some((records, output)) => (Rewritten { number: 0, record: 0, flag: u32::from(*flag), records }, output),
            None => refused(TOO_SHORT),
        },
        Answer::Refused(verdict) => refused(*verdict),
    }
}

/// Test 12.
const TOO_SHORT: Verdict = Verdict { number: 12, record: 0 };

/// The number of records and the output that they fill, if there is room for them.
fn in_room(plan: &Tree, room: usize) -> Option<(u32, Vec<u8>)> {
    let mut output = plan.image();
    if output.len() > room {
        return None;
    }
    let records = output.len() / RECORD_BYTES;
    output.resize(room, 0);
    Some((records as u32, output))
}

/// Test 11: records, depth, and the length of every list.
fn fits(plan: &Tree) -> bool {
    let nodes = plan.parent_first();
    let within = |(level, tree): &(usize, &Tree)| *level <= limits::DEPTH && list(tree) <= limits::LIST;
    nodes.len() <= limits::RECORDS && nodes.iter().all(within)
}

/// How long the list of a plan is, 0 where it has none.
pub fn list(tree: &Tree) -> usize {
    let expressions = tree.children.iter().filter(|child| is_expr(child.label.kind));
    match tree.label.kind {
        SCAN => expressions.count(),
        FILTER | JOIN => expressions.map(conjuncts).sum(),
        _ => 0,
    }
}

/// How many conjuncts a predicate has, split at its Ands.
fn conjuncts(predicate: &Tree) -> usize {
    match (predicate.label.kind, predicate.label.p) {
        (BINARY, AND) => predicate.children.iter().map(conjuncts).sum(),
        _ => 1,
    }
}

#[derive(Clone, Debug, PartialEq, Eq)]
pub enum PassAnswer {
    Passed { visits: u64, changed: u64, finished: bool, plan: Tree },
    Refused(Verdict),
}

/// The whole call: the image, the budget, and an output of `room` bytes.
pub fn pass(build: Build, image: &[u8], budget: u64, room: usize) -> (Passed, Vec<u8>) {
    let answer = match check(image) {
        Verdict::ACCEPTED => pass_over(build, &Tree::of_records(&image::read(image)), budget),
        refusal => PassAnswer::Refused(refusal),
    };
    pass_handed_back(&answer, room)
}

/// Test 12, on the last plan alone, and what the caller sees.
pub fn pass_handed_back(answer: &PassAnswer, room: usize) -> (Passed, Vec<u8>) {
    let refused = |Verdict { number, record }: Verdict| {
        (Passed { number, record, visits: 0, changed: 0, finished: 0, records: 0 }, vec![0; room])
    };
    match answer {
        PassAnswer::Passed { visits, changed, finished, plan } => match in_room(plan, room) {
            Some((records, output)) => {
                let (visits, changed, finished) = (*visits, *changed, u32::from(*finished));
                (Passed { number: 0, record: 0, visits, changed, finished, records }, output)
            }
            None => refused(TOO_SHORT),
        },
        PassAnswer::Refused(verdict) => refused(*verdict),
    }
}

/// The pass over an accepted plan.
pub fn pass_over(build: Build, plan: &Tree, budget: u64) -> PassAnswer {
    let mut walk = Walk { build, plan: plan.clone(), budget, visits: 0, changed: 0 };
    match walk.visit(0) {
        Ok(finished) => PassAnswer::Passed { visits: walk.visits, changed: walk.changed, finished, plan: walk.plan },
        Err(refusal) => PassAnswer::Refused(refusal),
    }
}

/// A pass under way: the plan as it stands, what is left of the budget, visits and flags raised.
struct Walk {
    build: Build,
    plan: Tree,
    budget: u64,
    visits: u64,
    changed: u64,
}

impl Walk {
    /// Rewrites the node, then visits the plans among the children of what stands there now. False if nodes remain.
    fn visit(&mut self, at: usize) -> Result<bool, Verdict> {
        if self.budget == 0 {
            return Ok(false);
        }
        self.budget -= 1;
        self.visits += 1;
        match rewrite_at(self.build, &self.plan, at as u32) {
            Answer::Granted { flag, plan } => {
                self.changed += u64::from(flag);
                self.plan = plan;
            }
            Answer::Refused(refusal) => return Err(refusal),
        }
        // a visit changes neither how many children stand here nor their kinds, but how far apart their records are
        let mut child_at = at + 1;
        for child in 0..self.node(at).children.len() {
            if is_plan(self.node(at).children[child].label.kind) && !self.visit(child_at)? {
                return Ok(false);
            }
            child_at += self.node(at).children[child].size();
        }
        Ok(true)
    }

    fn node(&self, at: usize) -> &Tree {
        self.plan.node(at).expect("the walk stays inside the plan")
    }
}
