//! The visits of a pass, one after another.

use super::html::{block, element, escaped, record, scrolling, tag};
use super::marks::Marks;
use super::tree::{drawn, short, Side};
use super::{section, Page};

/// At most so many plans are drawn for the visits of a page; visits that find no room say what moved, without trees.
const ROOM: usize = 20_000;

/// What a visit did.
struct Visit {
    /// Counted from 1.
    number: usize,
    id: String,
    /// The plan that it found, and that plan's record.
    name: String,
    record: usize,
    marks: Marks,
    is_flagged: bool,
    is_altered: bool,
}

impl Page<'_> {
    pub fn visits(&self) -> String {
        let said =
            "A pass visits the plans in the order of their records, each in the plan that the visits before it left.";
        let said = element("p", &[], said) + "\n";
        let visits: Vec<Visit> = (1..=self.steps.len()).map(|number| self.visit(number)).collect();
        if visits.is_empty() {
            return section(
                "visits",
                "Visit by visit",
                &(said + &element("p", &[], "Here there was no visit.") + "\n"),
            );
        }
        let mut room = ROOM;
        let articles: String = visits.iter().map(|visit| self.article(visit, &mut room)).collect();
        section("visits", "Visit by visit", &[said, controls(visits.len()), articles, table(&visits)].concat())
    }

    /// A visit writes only below its plan. So the visits take the plans in the order of their records, each in the plan that the visits
    /// before it left.
    fn visit(&self, number: usize) -> Visit {
        let (before, after) = (&self.outlines[number - 1], &self.outlines[number]);
        let node = &before.nodes[number - 1];
        Visit {
            number,
            id: format!("step-{number}"),
            name: escaped(&short(node.tree, self.names)),
            record: node.record,
            marks: Marks::of(before, after, &self.steps[number - 1], self.names),
            is_flagged: self.states[number].changed > self.states[number - 1].changed,
            is_altered: self.states[number - 1].plan != self.states[number].plan,
        }
    }

    fn article(&self, visit: &Visit, room: &mut usize) -> String {
        let Visit { number, id, name, .. } = visit;
        let title = format!("{id}-title");
        let heading = element("h3", &[("id", &title)], &format!("Visit {number}: {name} {}", record(visit.record)));
        let changed = self.states[*number].changed;
        let said = element("p", &[], &format!("{} Flags raised so far: {changed}.", visit.said()));
        let list = if visit.is_altered { visit.marks.list() } else { String::new() };
        let class = if visit.is_altered { "step altered" } else { "step" };
        let attributes = [("class", class), ("id", id), ("aria-labelledby", &title)];
        block("article", &attributes, &format!("{heading}\n{said}\n{}{list}", self.trees(visit, room)))
    }

    /// The plan before and after a visit; once, if it stays the same.
    fn trees(&self, visit: &Visit, room: &mut usize) -> String {
        let at = visit.number - 1;
        let (before, after) = (&self.outlines[at], &self.outlines[at + 1]);
        let plans = after.nodes.len() + if visit.is_altered { before.nodes.len() } else { 0 };
        if plans > *room {
            *room = 0;
            return element("p", &[], "No room is left on this page to draw the plan.") + "\n";
        }
        *room -= plans;
        if visit.is_altered {
            let sides = [("Before this visit", before, Some(at)), ("After this visit", after, Some(at))];
            return self.sides(&visit.id, sides, &visit.marks);
        }
        scrolling(&format!("{}-title", visit.id), &drawn(after, Side::After, &visit.marks, Some(at), self.names))
    }
}

impl Visit {
    fn said(&self) -> &'static str {
        match (self.is_flagged, self.is_altered) {
            (true, _) => "<strong>The flag is raised.</strong>",
            (false, true) => "<strong>The flag is not raised, although the plan is altered.</strong>",
            (false, false) => "Nothing changes, and the flag is not raised.",
        }
    }

    fn row(&self) -> String {
        let link = element("a", &[("href", &*format!("#{}", self.id))], &self.number.to_string());
        let flag = if self.is_flagged { "raised" } else { "not raised" };
        let counts = if self.is_altered { self.marks.counts() } else { "all stay".to_string() };
        let cells = [link, format!("{} {}", self.name, record(self.record)), flag.to_string(), counts];
        element("tr", &[], &cells.map(|cell| element("td", &[], &cell)).concat()) + "\n"
    }
}

/// All visits in a table.
fn table(visits: &[Visit]) -> String {
    let head = ["Visit", "Plan", "Flag", "Conjuncts"].map(|title| element("th", &[("scope", "col")], title)).concat();
    let head = element("thead", &[], &element("tr", &[], &head)) + "\n";
    let rows: String = visits.iter().map(Visit::row).collect();
    let table = block("table", &[], &(head + &block("tbody", &[], &rows)));
    let summary = element("summary", &[("id", "all-title")], "All visits") + "\n";
    block("details", &[("class", "all")], &(summary + &scrolling("all-title", &table)))
}

/// Buttons and a slider; the script shows them.
fn controls(count: usize) -> String {
    let button = |go: &str, title: &str| element("button", &[("type", "button"), ("data-go", go)], title) + "\n";
    let slider =
        [("type", "range"), ("min", "1"), ("max", &*count.to_string()), ("value", "1"), ("aria-label", "Visit")];
    let parts = [
        button("first", "First"),
        button("back", "← Back"),
        button("next", "Next →"),
        button("last", "Last"),
        button("change", "Next change"),
        tag("input", &slider) + "\n",
        element("output", &[("aria-live", "polite")], "") + "\n",
    ];
    let attributes = [("class", "controls"), ("hidden", ""), ("role", "group"), ("aria-label", "Choose a visit")];
    block("div", &attributes, &parts.concat())
}
