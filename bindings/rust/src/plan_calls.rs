//! The calls on plans.

use crate::calls::{check, pass, rewrite, row_test, Truth};
use crate::{Error, Plan, MAX_BYTES};

/// What a rewrite left.
#[derive(Clone, Debug, PartialEq, Eq)]
pub struct RewrittenPlan {
    /// The whole plan.
    pub plan: Plan,
    /// Whether the rewrite says that it changed the plan. It may have altered it without saying so.
    pub changed: bool,
}

/// What a pass left.
#[derive(Clone, Debug, PartialEq, Eq)]
pub struct PassedPlan {
    /// The whole plan.
    pub plan: Plan,
    /// How many nodes were visited.
    pub visits: u64,
    /// How many of these rewrites said that they changed the plan. A plan that no longer alters can have some at each
    /// pass: compare images, do not wait for 0.
    pub changed: u64,
    /// Whether every node was visited.
    pub finished: bool,
}

/// A value of a row.
#[derive(Clone, Copy, Debug, PartialEq, Eq, Hash)]
pub enum Value {
    /// No value.
    Null,
    /// An integer.
    Integer(i64),
    /// TRUE or FALSE. In a field of integers it counts as 1 or 0.
    Boolean(bool),
}

impl From<i64> for Value {
    fn from(value: i64) -> Value {
        Value::Integer(value)
    }
}

impl From<i32> for Value {
    fn from(value: i32) -> Value {
        Value::Integer(value.into())
    }
}

impl From<bool> for Value {
    fn from(value: bool) -> Value {
        Value::Boolean(value)
    }
}

impl Value {
    /// The number that is lent to the library, and the NULL mark beside it.
    fn lent(self) -> (i64, u8) {
        match self {
            Value::Null => (0, 1),
            Value::Integer(value) => (value, 0),
            Value::Boolean(value) => (value.into(), 0),
        }
    }
}

impl Plan {
    /// Whether the plan is sound and within the limits: the tests 1 to 7 of its image.
    pub fn check(&self) -> Result<(), Error> {
        let image = self.to_image();
        check(&image).map_err(|refusal| Error::new(&image, refusal))
    }

    /// The whole plan after the rewrite of the one at record `node`; [`Plan::plans`] has the record numbers.
    pub fn rewrite(&self, node: u32) -> Result<RewrittenPlan, Error> {
        let image = self.to_image();
        let mut out = vec![0; MAX_BYTES];
        let rewritten = rewrite(&image, node, &mut out).map_err(|refusal| Error::new(&image, refusal))?;
        Ok(RewrittenPlan { plan: Plan::from_image(&out[..rewritten.bytes()])?, changed: rewritten.changed })
    }

    /// The plan after a pass: the root is rewritten, then likewise, in order, the plans below what stands there now,
    /// until `budget` nodes were visited.
    pub fn pass(&self, budget: u64) -> Result<PassedPlan, Error> {
        let image = self.to_image();
        let mut out = vec![0; MAX_BYTES];
        let passed = pass(&image, budget, &mut out).map_err(|refusal| Error::new(&image, refusal))?;
        let plan = Plan::from_image(&out[..passed.bytes()])?;
        Ok(PassedPlan { plan, visits: passed.visits, changed: passed.changed, finished: passed.finished })
    }

    /// What the predicate of the Filter at record `node` says of a row, which has a value for each field of the
    /// Filter's input.
    pub fn row_test(&self, node: u32, row: &[Value]) -> Result<Truth, Error> {
        let image = self.to_image();
        let (values, marks): (Vec<i64>, Vec<u8>) = row.iter().map(|value| value.lent()).unzip();
        row_test(&image, node, &values, &marks).map_err(|refusal| Error::new(&image, refusal))
    }
}
