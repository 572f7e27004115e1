//! What is wrong with an image at the record that a refusal names, in words.

mod names_and_types;

use crate::form::{self, BadLink, Class, Linked, Range, Run};
use crate::image::{self, Record, FIRST, RECORD_BYTES};
use crate::kinds::*;
use crate::limits;
use crate::text::words::PLANS;
use crate::text::Names;
use crate::{Reason, Refusal};
use names_and_types::View;

/// What is wrong at the record that the refusal of a call on the image names: one line that names the record.
///
/// The verdict is the call's; this only says what stands there. Any bytes and any refusal may be given: where the image
/// gives no ground for the refusal, the line says what its number means.
///
/// ```
/// use push_down_filter::text::{self, Names};
/// use push_down_filter::{explain, Refusal};
///
/// let plan = text::read("Filter t1.c9 > 5\n  TableScan 1 [t1.c1:int]\n", &Names::NONE).unwrap().plan;
/// let line = explain(&plan.image(), Refusal::new(6, 2), &Names::NONE);
/// assert_eq!(line, "record 2 (Column): t1.c9 is none of the fields here: t1.c1:int");
/// ```
pub fn explain(image: &[u8], refusal: Refusal, names: &Names) -> String {
    let record = refusal.record as usize;
    let records = image::read(image);
    let title = match records.get(record) {
        Some(found) if is_of_image(refusal.reason) => format!("record {record} ({})", kind_name(found.label.kind)),
        _ => format!("record {record}"),
    };
    let found = match refusal.reason {
        Reason::Buffer => buffer(image),
        Reason::Record => records.get(record).and_then(words),
        Reason::Link => link(&records, record),
        Reason::Call => Some(asked_for(&records, record)),
        _ => formed(records, record, refusal.reason, names),
    };
    format!("{title}: {}", found.unwrap_or_else(|| refusal.reason.words().to_string()))
}

/// Whether the reason names a record of the image that was given. That of 11 is one of the plan as a pass had left it.
fn is_of_image(reason: Reason) -> bool {
    use Reason::{Call, Depth, Form, Function, Link, Name, Record, Type};
    matches!(reason, Record | Link | Depth | Form | Name | Type | Call | Function)
}

/// The name of a kind, as plans are spoken of.
fn kind_name(kind: u32) -> &'static str {
    const EXPRS: [&str; 10] =
        ["Column", "integer", "boolean", "NULL", "BinaryExpr", "Not", "test", "Between", "InList", "function"];
    const PARTS: [&str; 6] = ["field", "entry", "key pair", "sort key", "aggregate entry", "window entry"];
    let name = |names: &[&'static str], first: u32| names.get(kind.checked_sub(first)? as usize).copied();
    name(&EXPRS, COLUMN).or(name(&PLANS, SCAN)).or(name(&PARTS, FIELD)).unwrap_or("unknown kind")
}

/// Test 1.
fn buffer(image: &[u8]) -> Option<String> {
    let (records, over) = (image.len() / RECORD_BYTES, image.len() % RECORD_BYTES);
    Some(match (image.len(), over) {
        (0, _) => "there are no bytes".to_string(),
        (_, 0) if records <= limits::RECORDS => return None,
        (_, 0) => format!("{records} records; at most {}", limits::RECORDS),
        (bytes, over) => format!("{bytes} bytes are no whole records of {RECORD_BYTES}: {over} are left over"),
    })
}

/// Test 2: which word, what it says, what it is and what it may be.
fn words(record: &Record) -> Option<String> {
    let label = record.label;
    let Some(ranges) = form::words(label) else {
        return Some(format!("kind {}; expressions are 1 to 10, plans 32 to 43, parts of plans 48 to 53", label.kind));
    };
    let place = form::wrong_word(label)?;
    let (letter, found) = (["p", "q", "r", "lo", "hi"][place], record.words()[place + 1]);
    let asked = match ranges[place].range {
        Range::Any => "may be any number".to_string(),
        Range::NotZero => "must not be 0".to_string(),
        Range::From(0, 0) => "must be 0".to_string(),
        Range::From(least, most) => format!("must be {least} to {most}"),
    };
    Some(format!("its word {letter}, {}, is {found}; it {asked}", ranges[place].what))
}

/// Test 3: where the link leads, and where it may.
fn link(records: &[Record], record: usize) -> Option<String> {
    if records.is_empty() {
        return None;
    }
    let bad = Linked::of(records.to_vec()).err().filter(|bad| bad.record() == record)?;
    Some(match bad {
        BadLink::Unread(_) => format!("no link leads here, nor to the {} behind it", records.len() - record - 1),
        BadLink::Leads { owner, place, unread } => {
            let (name, of) = if place == FIRST { ("first", "child") } else { ("next", "sibling") };
            let found = records[owner].words()[place];
            let may = match (owner, place) {
                (0, place) if place != FIRST => "the root has no sibling, so it must be 0".to_string(),
                _ if unread == records.len() => "all records are read, so it must be 0".to_string(),
                _ => format!("it must be 0, for no {of}, or {unread}, the next record that is not read"),
            };
            format!("its {name} is {found}; {may}")
        }
    })
}

/// Test 8.
fn asked_for(records: &[Record], record: usize) -> String {
    match records.get(record).map(|record| record.label.kind) {
        None => format!("there is no such record; the last is {}", records.len().saturating_sub(1)),
        Some(kind) if is_plan(kind) => "a row test asks for a Filter".to_string(),
        Some(_) => "it is no plan".to_string(),
    }
}

/// What needs the links: the tests 4 to 7 and 10.
fn formed(records: Vec<Record>, record: usize, reason: Reason, names: &Names) -> Option<String> {
    if record >= records.len() {
        return None;
    }
    if matches!(reason, Reason::Depth | Reason::Form) {
        let linked = Linked::of(records).ok()?;
        return if reason == Reason::Depth { depth(&linked, record) } else { form_of(&linked, record) };
    }
    let view = View { linked: form::read(&image::write(&records)).ok()?, names };
    match reason {
        Reason::Name => view.name(record),
        Reason::Type => view.types(record),
        Reason::Function => view.function(record),
        _ => None,
    }
}

fn depth(linked: &Linked, record: usize) -> Option<String> {
    let level = linked.level[record];
    (level > limits::DEPTH).then(|| format!("stands at depth {level}; at most {}", limits::DEPTH))
}

/// Test 5: which children are there and which are asked for, or how long the list is.
fn form_of(linked: &Linked, record: usize) -> Option<String> {
    let kind = linked.kind(record);
    if record == 0 && !is_plan(kind) {
        return Some("the root must be a plan".to_string());
    }
    if !linked.children_hold(record) {
        let there: Vec<&str> = linked.children[record].iter().map(|&child| kind_name(linked.kind(child))).collect();
        let there = if there.is_empty() { "none".to_string() } else { some_of(&there, SHOWN) };
        return Some(format!("its children must be {}; they are {there}", asked(kind)));
    }
    let length = linked.list(record);
    let what = if kind == SCAN { "filters" } else { "conjuncts" };
    (length > limits::LIST).then(|| format!("{length} {what}; at most {}", limits::LIST))
}

/// The children that a kind asks for.
fn asked(kind: u32) -> String {
    let runs: Vec<String> = form::pattern(kind).iter().map(|run| children(*run)).collect();
    match (kind, runs.is_empty()) {
        (AGGREGATE, _) => format!("{}, and at least one entry of either sort", runs.join(", ")),
        (_, true) => "none".to_string(),
        _ => runs.join(", "),
    }
}

fn children((class, least, most): Run) -> String {
    let (one, many) = match class {
        Class::Expr => ("expression", "expressions"),
        Class::Plan => ("plan", "plans"),
        Class::Part(COLUMN) => ("Column", "Columns"),
        Class::Part(FIELD) => ("field", "fields"),
        Class::Part(KEY_PAIR) => ("key pair", "key pairs"),
        Class::Part(SORT_KEY) => ("sort key", "sort keys"),
        Class::Part(ENTRY) => ("entry", "entries"),
        Class::Part(AGGREGATE_ENTRY) => ("aggregate entry", "aggregate entries"),
        Class::Part(_) => ("window entry", "window entries"),
    };
    match (least, most) {
        (1, 1) => format!("one {one}"),
        (0, 1) => format!("at most one {one}"),
        (0, usize::MAX) => format!("any {many}"),
        (least, usize::MAX) => format!("{least} or more {many}"),
        (least, _) => format!("{least} {many}"),
    }
}

/// A row of which at most so many are shown.
fn some_of<T: AsRef<str>>(items: &[T], most: usize) -> String {
    let shown: Vec<&str> = items.iter().take(most).map(AsRef::as_ref).collect();
    let rest = items.len().saturating_sub(most);
    let more = if rest == 0 { String::new() } else { format!(" and {rest} more") };
    shown.join(", ") + &more
}

/// How many children or types are shown; of fields, all that a sound schema has.
const SHOWN: usize = 12;
