//! The form of images: what the words of a record may be, how records are linked, and which children each has. An image
//! that has it, the tests 1 to 5, is that of a plan whose names and types are still to be judged.

use crate::image::{self, Label, Record, Tree, FIRST, NEXT, RECORD_BYTES};
use crate::kinds::*;
use crate::limits;
use crate::Refusal;

/// What a word may be.
#[derive(Clone, Copy)]
pub enum Range {
    Any,
    NotZero,
    From(u32, u32),
}

/// A word of a record: what it says, and what it may be.
#[derive(Clone, Copy)]
pub struct Word {
    pub what: &'static str,
    pub range: Range,
}

impl Word {
    const UNUSED: Word = Word { what: "which is not used", range: Range::From(0, 0) };

    pub fn holds(self, word: u32) -> bool {
        match self.range {
            Range::Any => true,
            Range::NotZero => word != 0,
            Range::From(least, most) => (least..=most).contains(&word),
        }
    }
}

/// The words that a kind uses, by place: p is 1 and hi 5. An unknown kind has none.
fn used(label: Label) -> Option<&'static [(usize, &'static str, Range)]> {
    use Range::{Any, From, NotZero};
    const QUALIFIER: (usize, &str, Range) = (1, "the qualifier", Any);
    const NAME: (usize, &str, Range) = (2, "the name", NotZero);
    Some(match label.kind {
        COLUMN | ENTRY => &[QUALIFIER, NAME],
        INTEGER => &[(4, "the lower half", Any), (5, "the upper half", Any)],
        BOOLEAN => &[(1, "the truth", From(0, 1))],
        NULL => &[(1, "the type", From(1, 2))],
        BINARY => &[(1, "the operator", From(1, 8))],
        TEST => &[(1, "the test", From(1, 8))],
        BETWEEN | IN_LIST => &[(1, "1 if negated", From(0, 1))],
        FUNCTION => &[(1, "the function", Any), (2, "its marks", From(0, 3)), (3, "the type", From(1, 2))],
        SCAN => &[(1, "the table", Any)],
        JOIN => &[(1, "the kind of join", From(1, 8))],
        ALIAS => &[(1, "the qualifier", NotZero)],
        SORT if label.p == 1 => &[(1, "1 if it has a fetch", From(0, 1)), (4, "the fetch", Any)],
        SORT => &[(1, "1 if it has a fetch", From(0, 1))],
        LIMIT => &[(4, "the fetch", Any), (5, "the skip", Any)],
        FIELD => &[QUALIFIER, NAME, (3, "the type", From(1, 2)), (4, "1 if marked", From(0, 1))],
        SORT_KEY => &[(1, "1 if descending", From(0, 1))],
        AGGREGATE_ENTRY | WINDOW_ENTRY => &[QUALIFIER, NAME, (3, "Count, Min or Max", From(1, 3))],
        NOT | FILTER | PROJECTION | UNION | DISTINCT | REPARTITION | AGGREGATE | WINDOW | KEY_PAIR => &[],
        _ => return None,
    })
}

/// The words p, q, r, lo and hi of a record of the label's kind; none of an unknown one.
pub fn words(label: Label) -> Option<[Word; 5]> {
    let mut words = [Word::UNUSED; 5];
    for &(place, what, range) in used(label)? {
        words[place - 1] = Word { what, range };
    }
    Some(words)
}

/// The place among p, q, r, lo and hi of the first word out of its range; none if all are in theirs.
pub fn wrong_word(label: Label) -> Option<usize> {
    let Label { p, q, r, lo, hi, .. } = label;
    let words = words(label)?;
    [p, q, r, lo, hi].into_iter().zip(words).position(|(word, range)| !range.holds(word))
}

fn words_hold(label: Label) -> bool {
    words(label).is_some() && wrong_word(label).is_none()
}

/// What a child may be.
#[derive(Clone, Copy, PartialEq, Eq)]
pub enum Class {
    Expr,
    Plan,
    Part(u32),
}

impl Class {
    fn has(self, kind: u32) -> bool {
        match self {
            Class::Expr => is_expr(kind),
            Class::Plan => is_plan(kind),
            Class::Part(part) => kind == part,
        }
    }
}

/// Children of one class behind each other: at least and at most so many.
pub type Run = (Class, usize, usize);

/// The children that a kind asks for, run by run. (An Aggregate's two runs of entries may not both be empty.)
pub fn pattern(kind: u32) -> &'static [Run] {
    use Class::{Expr, Part, Plan};
    const MANY: usize = usize::MAX;
    const INPUT: Run = (Plan, 1, 1);
    match kind {
        NOT | TEST | ENTRY | SORT_KEY | AGGREGATE_ENTRY => &[(Expr, 1, 1)],
        BINARY | KEY_PAIR => &[(Expr, 2, 2)],
        BETWEEN => &[(Expr, 3, 3)],
        IN_LIST => &[(Expr, 2, MANY)],
        FUNCTION => &[(Expr, 0, MANY)],
        WINDOW_ENTRY => &[(Expr, 1, 1), (Part(COLUMN), 0, MANY)],
        SCAN => &[(Part(FIELD), 0, MANY), (Expr, 0, MANY)],
        FILTER => &[(Expr, 1, 1), INPUT],
        PROJECTION => &[(Part(ENTRY), 1, MANY), INPUT],
        JOIN => &[(Plan, 2, 2), (Part(KEY_PAIR), 0, MANY), (Expr, 0, 1)],
        ALIAS | DISTINCT | REPARTITION | LIMIT => &[INPUT],
        UNION => &[(Plan, 2, MANY)],
        SORT => &[(Part(SORT_KEY), 0, MANY), INPUT],
        AGGREGATE => &[(Part(ENTRY), 0, MANY), (Part(AGGREGATE_ENTRY), 0, MANY), INPUT],
        WINDOW => &[(Part(WINDOW_ENTRY), 1, MANY), INPUT],
        _ => &[],
    }
}

/// A link that leads to the wrong place, met when `unread` was the next record to be read; or the records that are
/// left, if there is no such link.
#[derive(Clone, Copy)]
pub enum BadLink {
    Leads { owner: usize, place: usize, unread: usize },
    Unread(usize),
}

impl BadLink {
    pub fn record(self) -> usize {
        match self {
            BadLink::Leads { owner, .. } => owner,
            BadLink::Unread(record) => record,
        }
    }
}

/// The records of an image, and the tree that its links make of them.
pub struct Linked {
    pub records: Vec<Record>,
    pub children: Vec<Vec<usize>>,
    /// The root's is the root.
    pub parent: Vec<usize>,
    /// The root's is 1.
    pub level: Vec<usize>,
}

impl Linked {
    /// Follows the links of at least one record: `first` when a record is read, `next` behind all that stands below it.
    pub fn of(records: Vec<Record>) -> Result<Linked, BadLink> {
        let count = records.len();
        let mut linked =
            Linked { records, children: vec![vec![]; count], parent: vec![0; count], level: vec![1; count] };
        // the records read whose `next` was not yet met, from the root down
        let mut path = vec![0];
        let mut unread = 1;
        let (mut owner, mut place) = (0, FIRST);
        loop {
            let link = linked.records[owner].words()[place] as usize;
            if link == 0 {
                let Some(done) = path.pop() else { break };
                (owner, place) = (done, NEXT);
                continue;
            }
            let parent = if place == FIRST { Some(owner) } else { path.last().copied() };
            let Some(parent) = parent.filter(|_| link == unread && unread < count) else {
                return Err(BadLink::Leads { owner, place, unread });
            };
            linked.hang(unread, parent);
            path.push(unread);
            (owner, place) = (unread, FIRST);
            unread += 1;
        }
        match unread < count {
            true => Err(BadLink::Unread(unread)),
            false => Ok(linked),
        }
    }

    fn hang(&mut self, child: usize, parent: usize) {
        self.children[parent].push(child);
        self.parent[child] = parent;
        self.level[child] = self.level[parent] + 1;
    }

    pub fn label(&self, at: usize) -> Label {
        self.records[at].label
    }

    pub fn kind(&self, at: usize) -> u32 {
        self.label(at).kind
    }

    /// Whether the children are as the kind asks.
    pub fn children_hold(&self, at: usize) -> bool {
        let kinds: Vec<u32> = self.children[at].iter().map(|&child| self.kind(child)).collect();
        let mut taken = 0;
        for (class, least, most) in pattern(self.kind(at)) {
            let length = kinds[taken..].iter().take(*most).take_while(|&&kind| class.has(kind)).count();
            if length < *least {
                return false;
            }
            taken += length;
        }
        let has_entry = self.kind(at) != AGGREGATE || kinds.len() > 1;
        taken == kinds.len() && has_entry
    }

    /// How long the list of a plan is: a scan's filters, or the conjuncts of a Filter or of a join's filter.
    pub fn list(&self, at: usize) -> usize {
        let exprs = self.children[at].iter().filter(|&&child| is_expr(self.kind(child)));
        match self.kind(at) {
            SCAN => exprs.count(),
            FILTER | JOIN => exprs.map(|&predicate| self.conjuncts(predicate)).sum(),
            _ => 0,
        }
    }

    /// Into how many conjuncts a predicate splits. An And with other children than two expressions does not split.
    fn conjuncts(&self, predicate: usize) -> usize {
        let mut count = 0;
        let mut waiting = vec![predicate];
        while let Some(at) = waiting.pop() {
            let label = self.label(at);
            match (label.kind, label.p) == (BINARY, AND) && self.children_hold(at) {
                true => waiting.extend(&self.children[at]),
                false => count += 1,
            }
        }
        count
    }

    fn form_holds(&self, at: usize) -> bool {
        let root_is_plan = at != 0 || is_plan(self.kind(0));
        root_is_plan && self.children_hold(at) && self.list(at) <= limits::LIST
    }

    /// The tree at a record, whose depth must be known to be small.
    pub fn tree(&self, at: usize) -> Tree {
        Tree { label: self.label(at), children: self.children[at].iter().map(|&child| self.tree(child)).collect() }
    }
}

/// The tests 1 to 5: number and record of the first that an image meets, else its records, linked.
pub fn read(image: &[u8]) -> Result<Linked, Refusal> {
    let whole = image.len().is_multiple_of(RECORD_BYTES) && !image.is_empty();
    if !whole || image.len() > limits::RECORDS * RECORD_BYTES {
        return Err(Refusal::new(1, 0));
    }
    let records = image::read(image);
    let lowest = |number: u32, wrong: &dyn Fn(usize) -> bool| match (0..records.len()).find(|&at| wrong(at)) {
        Some(at) => Err(Refusal::new(number, at as u32)),
        None => Ok(()),
    };
    lowest(2, &|at| !words_hold(records[at].label))?;
    let linked = Linked::of(records.clone()).map_err(|bad| Refusal::new(3, bad.record() as u32))?;
    lowest(4, &|at| linked.level[at] > limits::DEPTH)?;
    lowest(5, &|at| !linked.form_holds(at))?;
    Ok(linked)
}
