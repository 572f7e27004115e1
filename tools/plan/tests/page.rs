//! Pages and moves of random plans. What the page shows of each visit is held against the library's own rewrite.

mod random;

use plan::moves::{composed, gone, links, How, Links};
use plan::outline::Outline;
use plan::page::page;
use plan::steps::{states, State};
use push_down_filter::image::{read, Tree};
use push_down_filter::text::{Named, Names};
use push_down_filter::{check, rewrite, MAX_BYTES};
use std::collections::BTreeSet;

const PLANS: u64 = 500;

/// The states of the passes over the plans whose pass is granted.
fn passes() -> impl Iterator<Item = (u64, Vec<State>)> {
    (0..PLANS).filter_map(|seed| {
        let image = random::plan(seed).image();
        assert_eq!(check(&image), Ok(()), "seed {seed}");
        Some((seed, states(&image, 10_000).ok()?))
    })
}

fn steps(outlines: &[Outline]) -> Vec<Links> {
    outlines.windows(2).map(|pair| links(&pair[0], &pair[1])).collect()
}

#[test]
fn a_visit_is_the_rewrite_of_the_plan_that_it_names() {
    let mut visits = 0;
    for (seed, states) in passes() {
        for (number, pair) in (1..).zip(states.windows(2)) {
            // the plan that the page marks as visited
            let node = Outline::of(&pair[0].plan).nodes[number - 1].record;
            let mut out = vec![0; MAX_BYTES];
            let answer = rewrite(&pair[0].plan.image(), node as u32, &mut out).expect("the pass was granted");
            assert_eq!(Tree::of_records(&read(&out[..answer.bytes()])), pair[1].plan, "seed {seed}, visit {number}");
            assert_eq!(pair[1].changed - pair[0].changed, u64::from(answer.changed), "seed {seed}, visit {number}");
            visits += 1;
        }
        let last = states.last().expect("there is a state");
        assert!(
            last.finished && Outline::of(&last.plan).nodes.len() + 1 == states.len(),
            "seed {seed}: a visit for each plan"
        );
    }
    println!("{visits} visits");
    assert!(visits > 5 * PLANS);
}

#[test]
fn every_conjunct_is_accounted_for() {
    let mut counts = std::collections::BTreeMap::new();
    for (seed, states) in passes() {
        let outlines: Vec<Outline> = states.iter().map(|state| Outline::of(&state.plan)).collect();
        let steps = steps(&outlines);
        for (number, (step, after)) in (1..).zip(steps.iter().zip(&outlines[1..])) {
            assert_eq!(step.len(), after.conjuncts.len());
            for link in step {
                assert_ne!(link.how, How::New, "seed {seed}, visit {number}: {link:?}");
                *counts.entry(link.how).or_insert(0) += 1;
            }
        }
        let (first, last) = (&outlines[0], &outlines[outlines.len() - 1]);
        let whole = composed(first, last, &steps);
        assert_eq!(whole.len(), last.conjuncts.len());
        assert!(whole.iter().all(|link| link.how != How::New && !link.from.is_empty()), "seed {seed}");
        assert!(gone(first, &whole).iter().all(|from| *from < first.conjuncts.len()));
    }
    println!("{counts:?}");
    for how in [How::Stays, How::Moved, How::Changed, How::Inferred, How::Clause, How::Contradiction] {
        assert!(counts.contains_key(&how), "the plans show none that is {how:?}");
    }
}

#[test]
fn pages_are_well_formed() {
    let mut pages = 0;
    for (seed, states) in passes() {
        let page = page("a \"b\" <c> & 'd'", &states, &Names::NONE);
        well_formed(&page).unwrap_or_else(|why| panic!("seed {seed}: {why}"));
        let steps = page.matches("<article class=\"step").count();
        assert_eq!(steps, states.len() - 1, "seed {seed}: a step for each visit");
        pages += 1;
    }
    println!("{pages} pages");
    assert!(pages > PLANS * 9 / 10);
}

#[test]
fn a_page_of_no_visit_and_one_with_names_are_well_formed() {
    let image = random::plan(1).image();
    let start = states(&image, 0).expect("nothing is visited");
    assert_eq!(start.len(), 1);
    well_formed(&page("-", &start, &Names::NONE)).unwrap();
    let mut names = Names::NONE;
    (1..9).for_each(|number| names.set(Named::Name, number, &format!("word_{number}")).unwrap());
    let page = page("-", &states(&image, 10_000).expect("the pass is granted"), &names);
    well_formed(&page).unwrap();
    assert!(page.contains("word_1"));
}

#[test]
fn a_large_plan_has_a_page() {
    let deep: String = (0..200).map(|level| format!("{}Distinct\n", "  ".repeat(level + 1))).collect();
    let text = format!("Filter c1 > 5\n{deep}{}TableScan 1 [c1:int]\n", "  ".repeat(201));
    let plan = push_down_filter::text::read(&text, &Names::NONE).expect("the text is a plan").plan;
    let page = page("-", &states(&plan.image(), 10_000).expect("the pass is granted"), &Names::NONE);
    well_formed(&page).unwrap();
    assert!(page.contains("No room is left on this page") && page.len() < 10_000_000, "{}", page.len());
    assert_eq!(page.matches("<article class=\"step").count(), 202);
}

const VOID: [&str; 3] = ["meta", "link", "input"];

/// Whether tags are balanced, quotes closed, ids unique, and whether every link inside the page, and every title by id, has its target.
fn well_formed(page: &str) -> Result<(), String> {
    let (mut open, mut ids, mut targets) = (Vec::new(), BTreeSet::new(), BTreeSet::new());
    let mut rest = page.strip_prefix("<!DOCTYPE html>\n").ok_or("no doctype")?;
    while let Some(at) = rest.find('<') {
        text_is_escaped(&rest[..at])?;
        let end = rest[at..].find('>').ok_or("a tag without end")? + at;
        let tag = &rest[at + 1..end];
        rest = &rest[end + 1..];
        if let Some(name) = tag.strip_prefix('/') {
            let last = open.pop().ok_or(format!("</{name}> closes nothing"))?;
            if last != name {
                return Err(format!("</{name}> closes <{last}>"));
            }
            continue;
        }
        let (name, attributes) = tag.split_once(' ').unwrap_or((tag, ""));
        if attributes.matches('"').count() % 2 == 1 {
            return Err(format!("<{tag}> has an open quote"));
        }
        let value = |wanted: &str| {
            let start = format!("{wanted}=\"");
            let from = attributes.find(&start)? + start.len();
            Some(attributes[from..].split('"').next().unwrap_or("").to_string())
        };
        if value(" id").or(value("id").filter(|_| attributes.starts_with("id="))).is_some_and(|id| !ids.insert(id)) {
            return Err(format!("<{tag}> repeats an id"));
        }
        targets.extend(value("aria-labelledby"));
        targets.extend(value("href").and_then(|href| href.strip_prefix('#').map(str::to_string)));
        if matches!(name, "style" | "script") {
            let close = format!("</{name}>");
            let end = rest.find(&close).ok_or(format!("<{name}> has no end"))?;
            rest = &rest[end + close.len()..];
        } else if !VOID.contains(&name) {
            open.push(name.to_string());
        }
    }
    match (open.last(), targets.difference(&ids).next()) {
        (Some(name), _) => Err(format!("<{name}> is not closed")),
        (_, Some(target)) => Err(format!("nothing has the id {target}")),
        _ => Ok(()),
    }
}

fn text_is_escaped(text: &str) -> Result<(), String> {
    let entities = ["&amp;", "&lt;", "&gt;", "&quot;", "&#39;"];
    let plain = |rest: &str| entities.iter().any(|entity| rest.starts_with(entity));
    match text.contains('>') || text.match_indices('&').any(|(at, _)| !plain(&text[at..])) {
        true => Err(format!("'{text}' is not escaped")),
        false => Ok(()),
    }
}

#[test]
fn the_test_of_form_can_fail() {
    let wrong = [
        "<p>",
        "</p>",
        "<p><b></p></b>",
        "<p id=\"a\"></p><p id=\"a\"></p>",
        "<a href=\"#b\"></a>",
        "<p>a & b</p>",
        "<p class=\"></p>",
    ];
    for page in wrong {
        assert!(well_formed(&format!("<!DOCTYPE html>\n{page}")).is_err(), "{page}");
    }
    assert_eq!(well_formed("<!DOCTYPE html>\n<p class=\"a\" id=\"b\">a &amp; b<input></p><a href=\"#b\"></a>"), Ok(()));
}
