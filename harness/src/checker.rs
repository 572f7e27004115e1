//! The check: which images are accepted, and the number and record of the first test that an image meets.
//!
//! Written from the rules of docs/FORMAT.md and the settled readings (docs/DECISIONS.md) alone, so that the ported check and
//! this one have no line in common. Parents stand before their children: whatever flows down is settled by one walk forward over the
//! records, whatever flows up by one walk backward, and no depth of the image is a depth of the stack.

use crate::image::{self, Record, RECORD_BYTES};
use crate::kinds::*;
use crate::limits;
use std::rc::Rc;

#[derive(Clone, Copy, Debug, PartialEq, Eq)]
#[repr(C)]
pub struct Verdict {
    pub number: u32,
    pub record: u32,
}

impl Verdict {
    pub const ACCEPTED: Verdict = Verdict { number: 0, record: 0 };
}

impl std::fmt::Display for Verdict {
    fn fmt(&self, f: &mut std::fmt::Formatter<'_>) -> std::fmt::Result {
        write!(f, "{} at {}", self.number, self.record)
    }
}

type Tested<T = ()> = Result<T, Verdict>;

pub fn check(image: &[u8]) -> Verdict {
    match tests(image) {
        Ok(()) => Verdict::ACCEPTED,
        Err(refusal) => refusal,
    }
}

/// The tests 1 to 7, each over the whole image before the next begins.
fn tests(image: &[u8]) -> Tested {
    buffer(image)?;
    let records = image::read(image);
    lowest(2, records.len(), |at| words_in_range(&records[at]))?;
    let shape = links(&records)?;
    lowest(4, records.len(), |at| shape.level[at] <= limits::DEPTH)?;
    let form = Form { records: &records, shape: &shape };
    lowest(5, records.len(), |at| form.holds(at))?;
    let names = Names::of(&records, &shape);
    lowest(6, records.len(), |at| names.hold(at))?;
    lowest(7, records.len(), |at| names.types_hold(at))
}

fn refusal(number: u32, at: usize) -> Verdict {
    Verdict { number, record: at as u32 }
}

/// Refuses with the lowest record that does not pass.
fn lowest(number: u32, records: usize, passes: impl Fn(usize) -> bool) -> Tested {
    match (0..records).find(|&at| !passes(at)) {
        Some(at) => Err(refusal(number, at)),
        None => Ok(()),
    }
}

fn buffer(image: &[u8]) -> Tested {
    let whole = image.len().is_multiple_of(RECORD_BYTES);
    let fits = image.len() <= limits::RECORDS * RECORD_BYTES;
    if whole && fits && !image.is_empty() {
        Ok(())
    } else {
        Err(refusal(1, 0))
    }
}

/// Test 2. Each kind says which words it uses, and what they may be; the others are 0.
fn words_in_range(record: &Record) -> bool {
    let label = record.label;
    let [mut p, mut q, mut r, mut lo, mut hi] =
        [label.p == 0, label.q == 0, label.r == 0, label.lo == 0, label.hi == 0];
    let flag = |word: u32| word <= 1;
    let among = |word: u32, last: u32| (1..=last).contains(&word);
    match label.kind {
        COLUMN | ENTRY => (p, q) = (true, label.q != 0),
        INTEGER | LIMIT => (lo, hi) = (true, true),
        BOOLEAN | BETWEEN | IN_LIST | SORT_KEY => p = flag(label.p),
        NULL => p = among(label.p, 2),
        BINARY | TEST | JOIN => p = among(label.p, 8),
        FUNCTION => (p, q, r) = (true, label.q <= 3, among(label.r, 2)),
        SCAN => p = true,
        ALIAS => p = label.p != 0,
        SORT => (p, lo) = (flag(label.p), label.p == 1 || label.lo == 0),
        FIELD => (p, q, r, lo) = (true, label.q != 0, among(label.r, 2), flag(label.lo)),
        AGGREGATE_ENTRY | WINDOW_ENTRY => (p, q, r) = (true, label.q != 0, among(label.r, 3)),
        NOT | FILTER | PROJECTION | UNION | DISTINCT | REPARTITION | AGGREGATE | WINDOW | KEY_PAIR => {}
        _ => return false,
    }
    p && q && r && lo && hi
}

/// The tree that the links describe.
struct Shape {
    children: Vec<Vec<usize>>,
    level: Vec<usize>,
}

/// Test 3. Links are met in reading order: `first` when its record is read, `next` after the record's whole subtree.
fn links(records: &[Record]) -> Tested<Shape> {
    let mut children = vec![Vec::new(); records.len()];
    let mut level = vec![1; records.len()];
    // the records read whose `next` is still to be met, the innermost last
    let mut open = vec![0];
    let mut unread = 1;
    let mut link = records[0].first;
    let mut owner = 0;
    loop {
        let parent = *open.last().expect("the root stays open until the end");
        if link == 0 {
            // nothing more hangs on the parent: its own `next` is the link to meet now
            open.pop();
            owner = parent;
            link = records[owner].next;
            if open.is_empty() {
                break;
            }
            continue;
        }
        if link as usize != unread || unread == records.len() {
            return Err(refusal(3, owner));
        }
        children[parent].push(unread);
        level[unread] = open.len() + 1;
        open.push(unread);
        owner = unread;
        link = records[unread].first;
        unread += 1;
    }
    if link != 0 {
        return Err(refusal(3, owner));
    }
    if unread < records.len() {
        return Err(refusal(3, unread));
    }
    Ok(Shape { children, level })
}

/// Test 5: each record's children, the root, and the lists.
struct Form<'a> {
    records: &'a [Record],
    shape: &'a Shape,
}

impl Form<'_> {
    fn kind(&self, at: usize) -> u32 {
        self.records[at].label.kind
    }

    fn holds(&self, at: usize) -> bool {
        let kind = self.kind(at);
        let root_is_plan = at != 0 || is_plan(kind);
        root_is_plan && self.children_hold(at, kind) && self.list_holds(at, kind)
    }

    fn children_hold(&self, at: usize, kind: u32) -> bool {
        let kinds: Vec<u32> = self.shape.children[at].iter().map(|&child| self.kind(child)).collect();
        let mut rest = Runs(&kinds);
        let fits = match kind {
            COLUMN | INTEGER | BOOLEAN | NULL | FIELD => true,
            NOT | TEST | ENTRY | SORT_KEY | AGGREGATE_ENTRY => rest.run(is_expr) == 1,
            BINARY | KEY_PAIR => rest.run(is_expr) == 2,
            BETWEEN => rest.run(is_expr) == 3,
            IN_LIST => rest.run(is_expr) >= 2,
            FUNCTION => rest.any(is_expr),
            WINDOW_ENTRY => rest.one(is_expr) && rest.any(|kind| kind == COLUMN),
            SCAN => rest.any(|kind| kind == FIELD) && rest.any(is_expr),
            FILTER => rest.one(is_expr) && rest.one(is_plan),
            PROJECTION => rest.run(|kind| kind == ENTRY) >= 1 && rest.one(is_plan),
            JOIN => rest.run(is_plan) == 2 && rest.any(|kind| kind == KEY_PAIR) && rest.run(is_expr) <= 1,
            ALIAS | DISTINCT | REPARTITION | LIMIT => rest.one(is_plan),
            UNION => rest.run(is_plan) >= 2,
            SORT => rest.any(|kind| kind == SORT_KEY) && rest.one(is_plan),
            AGGREGATE => {
                let groups = rest.run(|kind| kind == ENTRY);
                let entries = rest.run(|kind| kind == AGGREGATE_ENTRY);
                groups + entries >= 1 && rest.one(is_plan)
            }
            WINDOW => rest.run(|kind| kind == WINDOW_ENTRY) >= 1 && rest.one(is_plan),
            _ => unreachable!("test 2 lets no other kind pass"),
        };
        fits && rest.0.is_empty()
    }

    /// The list of a plan that has one; its children are as they must be.
    fn list_holds(&self, at: usize, kind: u32) -> bool {
        let children = &self.shape.children[at];
        let filters = || children.iter().copied().filter(|&child| is_expr(self.kind(child)));
        let length = match kind {
            SCAN => filters().count(),
            FILTER | JOIN => filters().map(|predicate| self.conjuncts(predicate)).sum(),
            _ => 0,
        };
        length <= limits::LIST
    }

    /// Into how many conjuncts a predicate splits. An And with other children than two expressions does not split.
    fn conjuncts(&self, predicate: usize) -> usize {
        let mut count = 0;
        let mut waiting = vec![predicate];
        while let Some(at) = waiting.pop() {
            let children = &self.shape.children[at];
            let is_and = self.kind(at) == BINARY && self.records[at].label.p == AND;
            if is_and && children.len() == 2 && children.iter().all(|&child| is_expr(self.kind(child))) {
                waiting.extend(children);
            } else {
                count += 1;
            }
        }
        count
    }
}

/// The kinds of the children that are not yet accounted for.
struct Runs<'a>(&'a [u32]);

impl Runs<'_> {
    /// Takes as many as fit, and says how many.
    fn run(&mut self, fits: impl Fn(u32) -> bool) -> usize {
        let length = self.0.iter().take_while(|&&kind| fits(kind)).count();
        self.0 = &self.0[length..];
        length
    }

    fn any(&mut self, fits: impl Fn(u32) -> bool) -> bool {
        self.run(fits);
        true
    }

    /// Takes exactly the next one.
    fn one(&mut self, fits: impl Fn(u32) -> bool) -> bool {
        let Some((&kind, rest)) = self.0.split_first() else { return false };
        self.0 = rest;
        fits(kind)
    }
}

#[derive(Clone, Copy)]
struct Field {
    qualifier: u32,
    name: u32,
    of: u32,
}

type Schema = Rc<[Field]>;

/// The plans whose fields a reference can name.
#[derive(Clone, Copy)]
enum Scope {
    Nothing,
    One(usize),
    Both(usize, usize),
}

/// The tests 6 and 7: what stands over what, and every plan's schema.
struct Names<'a> {
    records: &'a [Record],
    shape: &'a Shape,
    scope: Vec<Scope>,
    /// Empty for records that are no plan.
    schema: Vec<Schema>,
}

impl<'a> Names<'a> {
    fn of(records: &'a [Record], shape: &'a Shape) -> Self {
        let nothing: Schema = Rc::from([]);
        let scope = vec![Scope::Nothing; records.len()];
        let schema = vec![nothing; records.len()];
        let mut names = Names { records, shape, scope, schema };
        for at in 0..records.len() {
            names.hand_down_scope(at);
        }
        for at in (0..records.len()).rev() {
            if is_plan(names.kind(at)) {
                names.schema[at] = names.schema_of(at);
            }
        }
        names
    }

    fn kind(&self, at: usize) -> u32 {
        self.records[at].label.kind
    }

    fn children(&self, at: usize) -> &'a [usize] {
        &self.shape.children[at]
    }

    /// The one plan below a plan of one input: its last child.
    fn input(&self, at: usize) -> usize {
        *self.children(at).last().expect("test 5 saw the input")
    }

    fn hand_down_scope(&mut self, at: usize) {
        let kind = self.kind(at);
        let children = self.children(at);
        let below = match kind {
            SCAN => Scope::One(at),
            JOIN => Scope::Both(children[0], children[1]),
            FILTER | PROJECTION | SORT | AGGREGATE | WINDOW => Scope::One(self.input(at)),
            _ => self.scope[at],
        };
        for (place, &child) in children.iter().enumerate() {
            self.scope[child] = match (kind, below) {
                _ if is_plan(self.kind(child)) => Scope::Nothing,
                (KEY_PAIR, Scope::Both(left, right)) => Scope::One(if place == 0 { left } else { right }),
                _ => below,
            };
        }
    }

    fn schema_of(&self, at: usize) -> Schema {
        let label = self.records[at].label;
        let children = self.children(at);
        match label.kind {
            SCAN | PROJECTION | AGGREGATE => self.made_fields(at).collect(),
            WINDOW => self.schema[self.input(at)].iter().copied().chain(self.made_fields(at)).collect(),
            JOIN => match label.p {
                1..=4 => self.both(at).collect(),
                5 | 7 => self.schema[children[0]].clone(),
                _ => self.schema[children[1]].clone(),
            },
            ALIAS => {
                let input = &self.schema[children[0]];
                input.iter().map(|field| Field { qualifier: label.p, ..*field }).collect()
            }
            UNION => self.schema[children[0]].clone(),
            _ => self.schema[self.input(at)].clone(),
        }
    }

    /// The fields that a plan's own parts name.
    fn made_fields(&self, at: usize) -> impl Iterator<Item = Field> + '_ {
        self.children(at).iter().filter_map(|&part| {
            let label = self.records[part].label;
            let of = match label.kind {
                FIELD => label.r,
                ENTRY => self.type_of(self.children(part)[0]),
                AGGREGATE_ENTRY | WINDOW_ENTRY => OF_INTEGER,
                _ => return None,
            };
            Some(Field { qualifier: label.p, name: label.q, of })
        })
    }

    /// Both inputs of a join together.
    fn both(&self, at: usize) -> impl Iterator<Item = Field> + '_ {
        let children = self.children(at);
        self.schema[children[0]].iter().chain(self.schema[children[1]].iter()).copied()
    }

    /// The type of an expression, which its topmost record settles; 0 for a reference that names no field.
    fn type_of(&self, at: usize) -> u32 {
        let label = self.records[at].label;
        match label.kind {
            COLUMN => self.named(at).next().map_or(0, |field| field.of),
            INTEGER => OF_INTEGER,
            NULL => label.p,
            FUNCTION => label.r,
            _ => OF_BOOLEAN,
        }
    }

    /// The fields that a reference names.
    fn named(&self, at: usize) -> impl Iterator<Item = &Field> {
        let label = self.records[at].label;
        let (left, right): (&[Field], &[Field]) = match self.scope[at] {
            Scope::Nothing => (&[], &[]),
            Scope::One(plan) => (&self.schema[plan], &[]),
            Scope::Both(left, right) => (&self.schema[left], &self.schema[right]),
        };
        left.iter().chain(right).filter(move |field| (field.qualifier, field.name) == (label.p, label.q))
    }

    /// Test 6, for references and for plans.
    fn hold(&self, at: usize) -> bool {
        match self.kind(at) {
            COLUMN => self.named(at).count() == 1,
            JOIN => sound(&self.both(at).collect::<Vec<_>>()) && sound(&self.schema[at]),
            kind if is_plan(kind) => sound(&self.schema[at]),
            _ => true,
        }
    }

    /// Test 7, for the record that would be named.
    fn types_hold(&self, at: usize) -> bool {
        let label = self.records[at].label;
        match label.kind {
            BINARY if label.p > OR => self.share_type(at),
            BETWEEN | IN_LIST | KEY_PAIR => self.share_type(at),
            BINARY | NOT | SCAN | FILTER | JOIN => self.booleans(at) && self.agrees_with_earlier_scan(at),
            TEST => label.p <= 2 || self.booleans(at),
            AGGREGATE_ENTRY | WINDOW_ENTRY => label.r == COUNT || self.type_of(self.children(at)[0]) == OF_INTEGER,
            UNION => self.inputs_agree(at),
            _ => true,
        }
    }

    fn share_type(&self, at: usize) -> bool {
        let children = self.children(at);
        let of = self.type_of(children[0]);
        children.iter().all(|&child| self.type_of(child) == of)
    }

    /// Every expression right below is a boolean.
    fn booleans(&self, at: usize) -> bool {
        let mut expressions = self.children(at).iter().filter(|&&child| is_expr(self.kind(child)));
        expressions.all(|&child| self.type_of(child) == OF_BOOLEAN)
    }

    fn inputs_agree(&self, at: usize) -> bool {
        let children = self.children(at);
        children.iter().all(|&input| self.same_types(input, children[0]))
    }

    /// If a scan differs from any earlier one of its table and none before it did, it differs from the first.
    fn agrees_with_earlier_scan(&self, at: usize) -> bool {
        let label = self.records[at].label;
        if label.kind != SCAN {
            return true;
        }
        let of_table = |&other: &usize| self.kind(other) == SCAN && self.records[other].label.p == label.p;
        let first = (0..=at).find(of_table).expect("the scan itself is one");
        self.same_types(at, first)
    }

    fn same_types(&self, one: usize, other: usize) -> bool {
        let types = |at: usize| self.schema[at].iter().map(|field| field.of);
        types(one).eq(types(other))
    }
}

/// At most 64 fields, no two alike, and a name without qualifier is held once.
fn sound(schema: &[Field]) -> bool {
    let apart = |one: &Field, other: &Field| {
        let bare = one.qualifier == 0 || other.qualifier == 0;
        one.name != other.name || (one.qualifier != other.qualifier && !bare)
    };
    let parted = |(place, field): (usize, &Field)| schema[..place].iter().all(|earlier| apart(earlier, field));
    schema.len() <= limits::FIELDS && schema.iter().enumerate().all(parted)
}

#[cfg(test)]
mod tests {
    use super::*;
    use crate::image::Tree;

    /// Filter t.c > 5 over table 1 with c marked, t and c both 1.
    fn worked_example() -> Tree {
        filter(binary(GT, column(1, 1), integer(5)), scan(1, vec![field(1, 1, OF_INTEGER, true)]))
    }

    #[test]
    fn the_worked_example_stands_as_the_page_writes_it() {
        let words: Vec<[u32; 8]> = worked_example().records().iter().map(Record::words).collect();
        let expected = [
            [33, 0, 0, 0, 0, 0, 1, 0],
            [5, 7, 0, 0, 0, 0, 2, 4],
            [1, 1, 1, 0, 0, 0, 0, 3],
            [2, 0, 0, 0, 5, 0, 0, 0],
            [32, 1, 0, 0, 0, 0, 5, 0],
            [48, 1, 1, 1, 1, 0, 0, 0],
        ];
        assert_eq!(words, expected);
        assert_eq!(check(&worked_example().image()), Verdict::ACCEPTED);
    }

    /// What the pass makes of the worked example is accepted as well.
    #[test]
    fn the_worked_example_after_the_pass_is_accepted() {
        let predicate = binary(GT, column(1, 1), integer(5));
        let pushed = scan(1, vec![field(1, 1, OF_INTEGER, true), predicate]);
        assert_eq!(check(&pushed.image()), Verdict::ACCEPTED);
    }

    /// Every word of every record of the worked example, set to a word that no record takes there.
    #[test]
    fn each_wrong_word_is_2_and_each_wrong_link_3_at_its_record() {
        let good = worked_example().records();
        for at in 0..good.len() {
            for place in 0..8 {
                let mut words = good[at].words();
                words[place] = u32::MAX;
                let mut records = good.clone();
                records[at] = Record::of_words(words);
                let free =
                    matches!((good[at].label.kind, place), (COLUMN | FIELD, 1 | 2) | (INTEGER, 4 | 5) | (SCAN, 1));
                let number = if place < image::FIRST { 2 } else { 3 };
                let verdict = check(&image::write(&records));
                assert!(free || verdict == refusal(number, at), "word {place} of record {at}: {verdict}");
                assert!(!free || verdict.number != 2, "word {place} of record {at}: {verdict}");
            }
        }
    }

    /// Of several tests met the lowest number counts, then the lowest record.
    #[test]
    fn lower_numbers_come_first() {
        let named_6 = || filter(test(1, column(9, 9)), scan(1, vec![]));
        let typed_7 = || filter(integer(1), named_6());
        let formed_5 = || filter(typed_7(), typed_7());
        assert_eq!(check(&named_6().image()), refusal(6, 2));
        assert_eq!(check(&typed_7().image()), refusal(6, 4));
        assert_eq!(check(&formed_5().image()), refusal(5, 0));
        let mut unlinked = formed_5().image();
        let end = unlinked.len();
        unlinked[end - 1] = 1;
        assert_eq!(check(&unlinked).number, 3);
        unlinked[4] = 1;
        assert_eq!(check(&unlinked), refusal(2, 0));
        unlinked.push(0);
        assert_eq!(check(&unlinked), refusal(1, 0));
    }
}
