//! The Filter t.c > 5 over a scan of table 1 whose field c is marked: checks it, passes over it, and prints the plan
//! that is left, depth, kind, p, q, r, lo and hi of each record, then the counts.

use push_down_filter::image::{Label, Tree};
use push_down_filter::{col, field, scan, Error, Plan, Type};

fn main() -> Result<(), Error> {
    // the qualifier t is 1, and so is the name c
    let plan = scan(1, [field(1, 1, Type::Integer).marked()]).filter(col(1, 1).gt(5));
    plan.check()?;
    let passed = plan.pass(10_000)?;
    list(&passed.plan);
    println!("visits {} changed {} finished {}", passed.visits, passed.changed, u32::from(passed.finished));
    Ok(())
}

fn list(plan: &Plan) {
    for (depth, Tree { label, .. }) in plan.to_tree().parent_first() {
        let Label { kind, p, q, r, lo, hi } = label;
        println!("{depth} {kind} {p} {q} {r} {lo} {hi}");
    }
}
