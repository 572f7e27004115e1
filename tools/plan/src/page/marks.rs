//! The marks of conjuncts: what became of each, by number and in words.

use super::html::{block, code, element, escaped, record};
use super::tree::short;
use crate::moves::{gone, How, Link, Links};
use crate::outline::{Conjunct, Outline, Slot};
use push_down_filter::kinds::JOIN;
use push_down_filter::text::{expr, Names};

#[derive(Clone, Copy, Debug, PartialEq, Eq, PartialOrd, Ord)]
pub enum Kind {
    Moved,
    Changed,
    New,
    Gone,
}

impl Kind {
    pub fn word(self) -> &'static str {
        match self {
            Kind::Moved => "moved",
            Kind::Changed => "changed",
            Kind::New => "new",
            Kind::Gone => "gone",
        }
    }

    /// A mark without a number.
    pub fn sample(self) -> String {
        let word = self.word();
        let inner = format!("{} conjunct", element("b", &[("class", "tag")], word));
        element("span", &[("class", &format!("conjunct {word}"))], &inner)
    }
}

#[derive(Clone, Copy, Debug, PartialEq, Eq)]
pub struct Mark {
    pub number: usize,
    pub kind: Kind,
}

/// The marks of the conjuncts before and after, in their order, and a sentence for each number.
pub struct Marks {
    pub before: Vec<Option<Mark>>,
    pub after: Vec<Option<Mark>>,
    said: Vec<(Mark, String)>,
}

impl Marks {
    pub fn of(before: &Outline, after: &Outline, links: &Links, names: &Names) -> Marks {
        let marks = Marks {
            before: vec![None; before.conjuncts.len()],
            after: vec![None; after.conjuncts.len()],
            said: Vec::new(),
        };
        let mut marking = Marking { before, after, links, names, marks };
        let gone = gone(before, links);
        for from in 0..before.conjuncts.len() {
            match gone.contains(&from) {
                true => marking.mark_gone(from),
                false => marking.mark_moved(from),
            }
        }
        for (to, link) in links.iter().enumerate() {
            if !matches!(link.how, How::Stays | How::Moved | How::Changed) {
                marking.mark_new(to, link);
            }
        }
        marking.marks
    }

    /// How many conjuncts are marked, by kind.
    pub fn counts(&self) -> String {
        let count = |kind: Kind| self.said.iter().filter(|(mark, _)| mark.kind == kind).count();
        let counted = [Kind::Moved, Kind::Changed, Kind::New, Kind::Gone].map(|kind| (count(kind), kind));
        let said =
            counted.iter().filter(|(count, _)| *count > 0).map(|(count, kind)| format!("{count} {}", kind.word()));
        let said: Vec<String> = said.collect();
        if said.is_empty() {
            return "all stay".to_string();
        }
        said.join(", ")
    }

    /// A list of what moved from where to where.
    pub fn list(&self) -> String {
        if self.said.is_empty() {
            return element("p", &[], "Every conjunct stays where it is.") + "\n";
        }
        let entry = |(mark, said): &(Mark, String)| {
            let Mark { number, kind } = mark;
            let word = kind.word();
            let label = element("b", &[("class", "tag")], &format!("{number} {word}"));
            element("li", &[("class", word)], &format!("{label} {said}")) + "\n"
        };
        block("ul", &[("class", "moves")], &self.said.iter().map(entry).collect::<String>())
    }
}

struct Marking<'a> {
    before: &'a Outline<'a>,
    after: &'a Outline<'a>,
    links: &'a Links,
    names: &'a Names,
    marks: Marks,
}

impl Marking<'_> {
    fn say(&mut self, kind: Kind, sentence: String) -> Mark {
        let mark = Mark { number: self.marks.said.len() + 1, kind };
        self.marks.said.push((mark, sentence));
        mark
    }

    fn text(&self, conjunct: &Conjunct) -> String {
        code(&expr(conjunct.expr, self.names))
    }

    fn texts(&self, from: &[usize]) -> String {
        let texts: Vec<String> = from.iter().map(|&from| self.text(&self.before.conjuncts[from])).collect();
        texts.join(" and ")
    }

    /// Where a conjunct stands, in words.
    fn place(&self, outline: &Outline, conjunct: &Conjunct) -> String {
        let node = &outline.nodes[conjunct.node];
        let anchor = short(outline.anchors[conjunct.place.anchor].tree, self.names);
        let which = match (conjunct.place.slot, node.tree.label.kind) {
            (Slot::Above(0), _) => format!("the Filter over {anchor}"),
            (Slot::Above(_), _) => format!("the upper Filter over {anchor}"),
            (Slot::Own, JOIN) => format!("the filter of {anchor}"),
            (Slot::Own, _) => format!("the filters of {anchor}"),
        };
        format!("{} {}", escaped(&which), record(node.record))
    }

    /// Marks a conjunct that stands elsewhere, or in other words, and what it became.
    fn mark_moved(&mut self, from: usize) {
        let became = |(to, link): (usize, &Link)| match link.how {
            How::Moved if link.from == [from] => Some((to, Kind::Moved)),
            How::Changed if link.from == [from] => Some((to, Kind::Changed)),
            _ => None,
        };
        let became: Vec<(usize, Kind)> = self.links.iter().enumerate().filter_map(became).collect();
        let Some(kind) = became.iter().map(|(_, kind)| *kind).max() else { return };
        let old = &self.before.conjuncts[from];
        let ends = became.iter().map(|&(to, kind)| {
            let new = &self.after.conjuncts[to];
            let words = if kind == Kind::Changed { format!(", as {}", self.text(new)) } else { String::new() };
            format!("to {}{words}", self.place(self.after, new))
        });
        let ends: Vec<String> = ends.collect();
        let said = format!("{} from {} {}", self.text(old), self.place(self.before, old), ends.join(" and "));
        let mark = self.say(kind, said);
        self.marks.before[from] = Some(mark);
        for (to, kind) in became {
            self.marks.after[to] = Some(Mark { kind, ..mark });
        }
    }

    fn mark_gone(&mut self, from: usize) {
        let old = &self.before.conjuncts[from];
        let makes = |how: How| self.links.iter().any(|link| link.how == how && link.from.contains(&from));
        let mut others = self.before.conjuncts.iter().enumerate().filter(|(at, _)| *at != from);
        let repeats = others.any(|(_, other)| other.place.anchor == old.place.anchor && other.expr == old.expr);
        let why = match (makes(How::Contradiction), repeats) {
            (true, _) => "it cannot hold together with others, which makes FALSE",
            (_, true) => "it is a repeat",
            _ => "others say as much",
        };
        let said = format!("{} of {}: {why}", self.text(old), self.place(self.before, old));
        self.marks.before[from] = Some(self.say(Kind::Gone, said));
    }

    fn mark_new(&mut self, to: usize, link: &Link) {
        let new = &self.after.conjuncts[to];
        let from = self.texts(&link.from);
        let why = match link.how {
            How::Inferred => format!(", inferred from {from} by the keys of a join"),
            How::Clause => format!(", which {from} asks of this side of a join"),
            How::Contradiction => format!(", since {from} cannot hold together"),
            _ => String::new(),
        };
        let said = format!("{} in {}{why}", self.text(new), self.place(self.after, new));
        self.marks.after[to] = Some(self.say(Kind::New, said));
    }
}
