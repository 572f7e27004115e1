//! Commands that change a plan: rewrite and pass.

use super::{misused, node, only_input, to};
use crate::arguments::Arguments;
use crate::columns::columns;
use crate::input::Input;
use crate::steps::{self, State};
use crate::{page, Failure, Outcome};
use push_down_filter::image::{read, Tree};
use push_down_filter::text::line;
use push_down_filter::{Reason, Refusal, MAX_BYTES};
use std::path::Path;

const BUDGET: u64 = 10_000;

pub fn rewrite(arguments: &Arguments) -> Outcome {
    let (node, wanted) = (node(arguments)?, wanted(arguments)?);
    let input = only_input(arguments)?;
    let before = input.plan()?;
    let mut out = vec![0; MAX_BYTES];
    let rewritten =
        push_down_filter::rewrite(&input.image, node, &mut out).map_err(|refusal| input.refused(refusal))?;
    let after = Tree::of_records(&read(&out[..rewritten.bytes()]));
    Ok(match wanted {
        Some(wanted) => to(wanted, &after, &input.names),
        None => format!("{}flag {}\n", columns(&before, &after, &input.names), u32::from(rewritten.changed)).into(),
    })
}

pub fn pass(arguments: &Arguments) -> Outcome {
    let (wanted, page) = (wanted(arguments)?, arguments.value("--html"));
    if wanted.is_some() && page.is_some() {
        return Err(misused("--to and --html do not go together"));
    }
    let budget = arguments.number("--budget").map_err(misused)?.unwrap_or(BUDGET);
    let input = only_input(arguments)?;
    let before = input.plan()?;
    let last = steps::after(&input.image, budget).map_err(|refusal| refused(&input, budget, refusal))?;
    match (wanted, page) {
        (Some(wanted), _) => {
            if !last.finished {
                eprintln!("{}: the budget ended before the pass did", counts(&last));
            }
            Ok(to(wanted, &last.plan, &input.names))
        }
        (_, Some(page)) => write_page(page, &input, budget),
        _ => Ok(format!("{}{}\n", columns(&before, &last.plan, &input.names), counts(&last)).into()),
    }
}

/// The form in which the answer alone is wanted.
fn wanted(arguments: &Arguments) -> Result<Option<&'static str>, Failure> {
    arguments.among("--to", &["image", "text"]).map_err(misused)
}

fn counts(State { visits, changed, finished, .. }: &State) -> String {
    format!("visits {visits} changed {changed} finished {}", u32::from(*finished))
}

/// A refused pass. Number 11 names a record of the plan as it stood before the visit that was refused.
fn refused(input: &Input, budget: u64, refusal: Refusal) -> Failure {
    let last = match refusal.reason {
        Reason::Result => steps::last_granted(&input.image, budget),
        _ => None,
    };
    let Some(State { plan, visits, .. }) = last else {
        return input.refused(refusal);
    };
    let file = &input.file;
    let at = plan.node(refusal.record as usize).map_or(String::new(), |node| beginning(&line(node, &input.names)));
    Failure::Refused(format!(
        "{file}: {refusal}\n  visit {} is refused, at this plan as it then stood:\n  {at}\n",
        visits + 1
    ))
}

/// A line, or the first hundred characters of a long one.
fn beginning(line: &str) -> String {
    match line.char_indices().nth(100) {
        Some((end, _)) => format!("{} ..", &line[..end]),
        None => line.to_string(),
    }
}

/// Writes the page of a pass. Its counts are printed, unless the page itself is.
fn write_page(file: &str, input: &Input, budget: u64) -> Outcome {
    let states = steps::states(&input.image, budget).map_err(|refusal| refused(input, budget, refusal))?;
    let text = page::page(&title(&input.file), &states, &input.names);
    if file == "-" {
        return Ok(text.into());
    }
    std::fs::write(file, text).map_err(|error| Failure::Unusable(format!("{file}: {error}")))?;
    let last = states.last().map_or(String::new(), counts);
    Ok(format!("{last}\n").into())
}

/// A file by its name alone, without the folders that it stands in.
fn title(file: &str) -> String {
    let name = Path::new(file).file_name().map(|name| name.to_string_lossy().into_owned());
    name.filter(|_| file != "-").unwrap_or_else(|| "standard input".to_string())
}
