//! Texts read as plans. Reading asks for the shape of a text alone; names and types are the check's.

use super::reader::{Name, Node, Read, Reader};
use super::tokens::{lines, Line};
use super::words::{COUNTS, JOINS, PLANS};
use super::{Names, Place, Trouble};
use crate::image::{Label, Tree};
use crate::kinds::*;

/// A plan, and where in the text each of its records stands.
#[derive(Clone, Debug, PartialEq, Eq)]
pub struct Written {
    /// The plan as a tree of labels.
    pub plan: Tree,
    /// By record number, the place of the word or sign that the record stands for.
    pub places: Vec<Place>,
}

/// A plan whose inputs are still to come. Those of a join stand before its parts, others behind them.
struct Open {
    label: Label,
    place: Place,
    parts: Vec<Node>,
    inputs: Vec<Node>,
}

/// The plan of a text. What the check would refuse of it, names and types, is not looked at.
pub fn read(text: &str, names: &Names) -> Result<Written, Trouble> {
    let mut reader = Reader::new(names);
    let mut open: Vec<Open> = Vec::new();
    for Line { spaces, tokens } in lines(text)? {
        let level = level(spaces, open.len(), tokens[0].place)?;
        close_to(level, &mut open)?;
        reader.begin(tokens);
        open.push(reader.plan()?);
    }
    close_to(1, &mut open)?;
    let root = open.pop().ok_or_else(|| Place::START.trouble("there is no plan"))?;
    let mut places = Vec::new();
    let plan = tree(closed(root)?, &mut places);
    Ok(Written { plan, places })
}

/// How many plans a line stands below.
fn level(spaces: usize, open: usize, place: Place) -> Read<usize> {
    let level = spaces / 2;
    if spaces % 2 == 1 {
        return Err(place.trouble(format!("indented by {spaces} spaces; a level is two")));
    }
    if level > open {
        return Err(place.trouble(format!("indented by {spaces} spaces; at most {} here", 2 * open)));
    }
    if level == 0 && open > 0 {
        return Err(place.trouble("a second plan without indent; a text is one plan"));
    }
    Ok(level)
}

/// The last open plans have all their inputs: each becomes an input of the one before, until `level` are open.
fn close_to(level: usize, open: &mut Vec<Open>) -> Read<()> {
    while open.len() > level {
        let last = open.pop().map(closed).transpose()?;
        if let Some(above) = open.last_mut() {
            above.inputs.extend(last);
        }
    }
    Ok(())
}

fn closed(Open { label, place, parts, inputs }: Open) -> Read {
    let (range, asked) = match label.kind {
        SCAN => (0..=0, "no plan"),
        JOIN => (2..=2, "two plans"),
        UNION => (2..=usize::MAX, "two plans or more"),
        _ => (1..=1, "one plan"),
    };
    if !range.contains(&inputs.len()) {
        let name = PLANS[(label.kind - SCAN) as usize];
        return Err(place.trouble(format!("a {name} reads {asked}; {} below it", stand(inputs.len()))));
    }
    let (first, last) = if label.kind == JOIN { (inputs, parts) } else { (parts, inputs) };
    Ok(Node { label, place, children: beside(first, last) })
}

fn stand(count: usize) -> String {
    match count {
        0 => "none stands".to_string(),
        1 => "one stands".to_string(),
        _ => format!("{count} stand"),
    }
}

fn beside(mut first: Vec<Node>, last: Vec<Node>) -> Vec<Node> {
    first.extend(last);
    first
}

fn tree(Node { label, place, children }: Node, places: &mut Vec<Place>) -> Tree {
    places.push(place);
    Tree { label, children: children.into_iter().map(|child| tree(child, places)).collect() }
}

impl Reader<'_> {
    /// A whole line.
    fn plan(&mut self) -> Read<Open> {
        let place = self.token.place;
        let kind = SCAN - 1 + self.among(&PLANS, "a plan such as Filter or TableScan")?;
        let (label, parts) = self.plan_of(kind)?;
        if !self.token.text.is_empty() {
            return Err(self.expected("the end of the line"));
        }
        let node = self.node(place, label, parts)?;
        Ok(Open { label, place, parts: node.children, inputs: Vec::new() })
    }

    /// What follows the name of a plan: its words and its parts.
    fn plan_of(&mut self, kind: u32) -> Read<(Label, Vec<Node>)> {
        let plain = Label::of(kind, 0);
        Ok(match kind {
            SCAN => {
                let table = self.table()?;
                let fields = self.row(Reader::field)?;
                (Label::of(kind, table), beside(fields, self.titled("filters", Reader::expr)?))
            }
            FILTER => (plain, vec![self.expr()?]),
            PROJECTION => (plain, self.row(Reader::entry)?),
            JOIN => {
                let which = self.among(&JOINS, "a join such as Inner or LeftSemi")?;
                let pairs = self.titled("on", Reader::key_pair)?;
                let own = if self.takes("filter") { vec![self.expr()?] } else { Vec::new() };
                (Label::of(kind, which), beside(pairs, own))
            }
            ALIAS => (Label::of(kind, self.qualifier()?), Vec::new()),
            SORT => {
                let keys = self.row(Reader::sort_key)?;
                let fetch = if self.takes("fetch") { Some(self.number()?) } else { None };
                (Label { p: u32::from(fetch.is_some()), lo: fetch.unwrap_or(0), ..plain }, keys)
            }
            LIMIT => {
                self.must_take("skip")?;
                let hi = self.number()?;
                self.must_take("fetch")?;
                (Label { lo: self.number()?, hi, ..plain }, Vec::new())
            }
            AGGREGATE => {
                let groups = self.titled("group", Reader::entry)?;
                (plain, beside(groups, self.titled("entries", Reader::aggregate_entry)?))
            }
            WINDOW => (plain, self.row(Reader::window_entry)?),
            _ => (plain, Vec::new()),
        })
    }

    /// `t1.c2:int:marked`
    fn field(&mut self) -> Read {
        let place = self.token.place;
        let (qualifier, name) = self.name()?;
        let of = self.of_type()?;
        let marked = self.takes(":");
        if marked {
            self.must_take("marked")?;
        }
        self.node(place, field(qualifier, name, of, marked).label, Vec::new())
    }

    fn key_pair(&mut self) -> Read {
        let left = self.operand()?;
        let place = self.token.place;
        self.must_take("=")?;
        let right = self.operand()?;
        self.node(place, Label::of(KEY_PAIR, 0), vec![left, right])
    }

    fn sort_key(&mut self) -> Read {
        let place = self.token.place;
        let key = self.expr()?;
        let descending = self.takes("DESC");
        self.node(place, Label::of(SORT_KEY, u32::from(descending)), vec![key])
    }

    /// `t1.c2 :=`
    fn assigned(&mut self) -> Read<Name> {
        let name = self.name()?;
        self.must_take(":=")?;
        Ok(name)
    }

    fn entry(&mut self) -> Read {
        let place = self.token.place;
        let (p, q) = self.assigned()?;
        let value = self.expr()?;
        self.node(place, Label { p, q, ..Label::of(ENTRY, 0) }, vec![value])
    }

    fn aggregate_entry(&mut self) -> Read {
        let place = self.token.place;
        let (p, q) = self.assigned()?;
        let (r, value) = self.counted()?;
        self.node(place, Label { p, q, r, ..Label::of(AGGREGATE_ENTRY, 0) }, vec![value])
    }

    fn window_entry(&mut self) -> Read {
        let place = self.token.place;
        let (p, q) = self.assigned()?;
        let (r, value) = self.counted()?;
        let by = self.titled("over", Reader::column)?;
        self.node(place, Label { p, q, r, ..Label::of(WINDOW_ENTRY, 0) }, beside(vec![value], by))
    }

    /// `Count(t1.c1)`: which it is, and of what.
    fn counted(&mut self) -> Read<(u32, Node)> {
        let which = self.among(&COUNTS, "Count, Min or Max")?;
        self.must_take("(")?;
        let value = self.expr()?;
        self.must_take(")")?;
        Ok((which, value))
    }

    fn column(&mut self) -> Read {
        let place = self.token.place;
        let (qualifier, name) = self.name()?;
        self.node(place, column(qualifier, name).label, Vec::new())
    }
}
