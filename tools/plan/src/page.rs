//! A page that shows a pass: the plan before and after it, what moved, and each visit. One file of HTML that fetches nothing. All it shows
//! stands in the page; its script only hides all visits but one.

mod html;
mod marks;
mod tree;
mod visits;

use crate::moves::{composed, links, Links};
use crate::outline::Outline;
use crate::steps::State;
use html::{block, code, element, escaped, scrolling, tag};
use marks::{Kind, Marks};
use push_down_filter::text::{write, Names};
use tree::{drawn, Side};

const STYLE: &str = include_str!("page/style.css");
const SCRIPT: &str = include_str!("page/script.js");

/// Nothing is fetched, and nothing runs but the page's own style and script.
const POLICY: &str = "default-src 'none'; style-src 'unsafe-inline'; script-src 'unsafe-inline'; img-src data:";

/// The page of a pass, whose states are those before it and after each visit; there is at least one.
pub fn page(title: &str, states: &[State], names: &Names) -> String {
    let outlines: Vec<Outline> = states.iter().map(|state| Outline::of(&state.plan)).collect();
    let pairs = outlines.iter().zip(outlines.iter().skip(1));
    let steps: Vec<Links> = pairs.map(|(before, after)| links(before, after)).collect();
    let page = Page { states, outlines, steps, names };
    let title = format!("A pass over {}", escaped(title));
    let html = element("html", &[("lang", "en")], &format!("\n{}{}", head(&title), page.body(&title)));
    format!("<!DOCTYPE html>\n{html}\n")
}

fn head(title: &str) -> String {
    let lines = [
        tag("meta", &[("charset", "utf-8")]),
        tag("meta", &[("name", "viewport"), ("content", "width=device-width, initial-scale=1")]),
        tag("meta", &[("name", "color-scheme"), ("content", "light dark")]),
        tag("meta", &[("http-equiv", "Content-Security-Policy"), ("content", POLICY)]),
        tag("meta", &[("name", "generator"), ("content", concat!("plan ", env!("CARGO_PKG_VERSION")))]),
        tag("link", &[("rel", "icon"), ("href", "data:,")]),
        element("title", &[], title),
        block("style", &[], STYLE),
    ];
    block("head", &[], &(lines.join("\n")))
}

struct Page<'a> {
    states: &'a [State],
    outlines: Vec<Outline<'a>>,
    /// What moved at each visit.
    steps: Vec<Links>,
    names: &'a Names,
}

/// A plan to be drawn under a title, with the number of the plan where a visit is.
type Drawn<'a> = (&'a str, &'a Outline<'a>, Option<usize>);

impl Page<'_> {
    fn first(&self) -> (&State, &Outline<'_>) {
        (&self.states[0], &self.outlines[0])
    }

    fn last(&self) -> (&State, &Outline<'_>) {
        let last = self.states.len() - 1;
        (&self.states[last], &self.outlines[last])
    }

    fn body(&self, title: &str) -> String {
        let ((_, before), (_, after)) = (self.first(), self.last());
        let marks = Marks::of(before, after, &composed(before, after, &self.steps), self.names);
        let header = block("header", &[], &format!("{}\n{}", element("h1", &[], title), self.summary(&marks)));
        let main = [legend(), self.whole(&marks), self.visits(), self.texts()].concat();
        block("body", &[], &[header, block("main", &[], &main), block("script", &[], SCRIPT)].concat())
    }

    /// The counts of the pass.
    fn summary(&self, marks: &Marks) -> String {
        let ((first, before), (last, after)) = (self.first(), self.last());
        let rows = [
            ("visits", last.visits.to_string()),
            ("flags raised", last.changed.to_string()),
            ("finished", (if last.finished { "yes" } else { "no, plans remain" }).to_string()),
            ("conjuncts", marks.counts()),
            ("plans", format!("{} → {}", before.nodes.len(), after.nodes.len())),
            ("records", format!("{} → {}", first.plan.size(), last.plan.size())),
        ];
        let row = |(title, value): (&str, String)| {
            block("div", &[], &(element("dt", &[], title) + &element("dd", &[], &value) + "\n"))
        };
        block("dl", &[("class", "counts")], &rows.map(row).concat())
    }

    fn whole(&self, marks: &Marks) -> String {
        let ((_, before), (_, after)) = (self.first(), self.last());
        let sides = self.sides("whole", [("Before", before, None), ("After", after, None)], marks);
        section("whole", "Before and after", &(sides + &marks.list()))
    }

    /// Two plans side by side.
    fn sides(&self, id: &str, [before, after]: [Drawn; 2], marks: &Marks) -> String {
        let side = |side: Side, word: &str, (title, outline, visited): Drawn| {
            let id = format!("{id}-{word}");
            let tree = drawn(outline, side, marks, visited, self.names);
            let caption = element("figcaption", &[("id", &id)], title);
            block("figure", &[("aria-labelledby", &id)], &format!("{caption}\n{}", scrolling(&id, &tree)))
        };
        let both = side(Side::Before, "before", before) + &side(Side::After, "after", after);
        block("div", &[("class", "sides")], &both)
    }

    /// Both plans for copying.
    fn texts(&self) -> String {
        let text = |title: &str, state: &State| {
            let attributes = [("tabindex", "0"), ("aria-label", &*format!("{title}, as text"))];
            let text = element("pre", &attributes, &escaped(&write(&state.plan, self.names)));
            format!("{}\n{text}\n", element("h3", &[], title))
        };
        let said = element("p", &[], &format!("Each can be copied into a file, which {} reads.", code("plan")));
        let both = text("Before", self.first().0) + &text("After", self.last().0);
        section("text", "As text", &format!("{said}\n{both}"))
    }
}

/// A part of the page under its title.
fn section(id: &str, title: &str, inner: &str) -> String {
    let name = format!("{id}-title");
    let heading = element("h2", &[("id", &name)], title);
    block("section", &[("id", id), ("aria-labelledby", &name)], &format!("{heading}\n{inner}"))
}

/// What the marks mean.
fn legend() -> String {
    let visited = element("b", &[("class", "tag")], "visited");
    let entries = [
        (Kind::Moved.sample(), "stands elsewhere now, as it was"),
        (Kind::Changed.sample(), "stands elsewhere now, in other words"),
        (Kind::New.sample(), "was not there before"),
        (Kind::Gone.sample(), "is not there any more"),
        (element("span", &[("class", "node visited")], &format!("{visited} plan")), "where the visit is"),
    ];
    let entry = |(sample, what): (String, &str)| element("li", &[], &format!("{sample} {what}")) + "\n";
    block("ul", &[("class", "legend"), ("aria-label", "What the marks mean")], &entries.map(entry).concat())
}

#[cfg(test)]
mod tests {
    use super::STYLE;
    use std::collections::BTreeMap;

    /// The share of light that a colour such as #1b1b1b gives, by the definition of WCAG.
    fn light(colour: &str) -> f64 {
        let share = |at: usize| {
            let part = f64::from(u8::from_str_radix(&colour[at..at + 2], 16).expect("two digits")) / 255.0;
            if part <= 0.03928 {
                part / 12.92
            } else {
                ((part + 0.055) / 1.055).powf(2.4)
            }
        };
        0.2126 * share(1) + 0.7152 * share(3) + 0.0722 * share(5)
    }

    fn contrast(one: &str, other: &str) -> f64 {
        let (one, other) = (light(one), light(other));
        (one.max(other) + 0.05) / (one.min(other) + 0.05)
    }

    /// The colours by name, of the light scheme and of the dark one.
    fn schemes() -> Vec<BTreeMap<&'static str, &'static str>> {
        let blocks = STYLE.split(":root {").skip(1).take(2).map(|rest| rest.split('}').next().expect("a block ends"));
        let colour = |line: &'static str| line.trim().strip_prefix("--")?.split_once(": ");
        blocks.map(|block| block.split(';').filter_map(colour).collect()).collect()
    }

    #[test]
    fn text_stands_out_from_its_ground() {
        let schemes = schemes();
        assert_eq!(schemes.len(), 2);
        for scheme in schemes {
            let marks = ["moved", "changed", "new", "gone", "visited"];
            let own = marks.map(|mark| (mark.to_string(), format!("{mark}-back")));
            let text = marks.map(|mark| ("text".to_string(), format!("{mark}-back")));
            let plain = ["page", "panel"].iter().flat_map(|ground| {
                ["text", "soft", "moved", "changed", "new", "gone"].map(|ink| (ink.to_string(), ground.to_string()))
            });
            for (ink, ground) in own.into_iter().chain(text).chain(plain) {
                let found = contrast(scheme[&*ink], scheme[&*ground]);
                assert!(found >= 4.5, "{ink} on {ground}: {found:.1}");
            }
        }
    }
}
