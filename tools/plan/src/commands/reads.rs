//! Commands that read a plan and say what it is: check, show, write.

use super::{only_input, to};
use crate::arguments::Arguments;
use crate::{Answer, Failure, Outcome};
use push_down_filter::kinds::is_plan;
use push_down_filter::text::lines;

pub fn check(arguments: &Arguments) -> Outcome {
    let input = only_input(arguments)?;
    match input.plan() {
        Ok(plan) => {
            let plans = plan.parent_first().iter().filter(|(_, tree)| is_plan(tree.label.kind)).count();
            let [records, depth] = [plan.size(), plan.depth()];
            Ok(format!("accepted: {records} records, {plans} plans, depth {depth}\n").into())
        }
        Err(Failure::Refused(why)) => Ok(Answer { output: why.into_bytes(), granted: false }),
        Err(other) => Err(other),
    }
}

pub fn show(arguments: &Arguments) -> Outcome {
    let input = only_input(arguments)?;
    let lines = lines(&input.plan()?, &input.names);
    let shown = |(record, line): (usize, String)| match arguments.has("--records") {
        true => format!("{line}  # {record}\n"),
        false => format!("{line}\n"),
    };
    Ok(lines.into_iter().map(shown).collect::<String>().into())
}

pub fn write(arguments: &Arguments) -> Outcome {
    let input = only_input(arguments)?;
    Ok(to("image", &input.plan()?, &input.names))
}
