//! Images on both sides of every limit and of every rule of names and types, each with the verdict it must get; and
//! random plans whose size, depth, list or width is near a limit.

use crate::checker::Verdict;
use crate::image::{Tree, FIRST, NEXT, RECORD_BYTES, WORD_BYTES};
use crate::kinds::*;
use crate::limits::{DEPTH, FIELDS, LIST, RECORDS};
use crate::random::{accepted, Draw, Random};

pub struct Edge {
    pub name: String,
    pub image: Vec<u8>,
    pub verdict: Verdict,
}

pub fn edges() -> Vec<Edge> {
    [buffers(), depths(), links(), forms(), lists(), widths(), names(), types()].into_iter().flatten().collect()
}

fn edge(name: impl Into<String>, image: Vec<u8>, number: u32, record: usize) -> Edge {
    Edge { name: name.into(), image, verdict: Verdict { number, record: record as u32 } }
}

fn of_plan(name: impl Into<String>, plan: Tree, number: u32, record: usize) -> Edge {
    edge(name, plan.image(), number, record)
}

/// The record number of the first node for which `wanted` holds.
fn record_of(plan: &Tree, wanted: impl Fn(&Tree) -> bool) -> usize {
    plan.parent_first().iter().position(|(_, tree)| wanted(tree)).expect("the plan has such a node")
}

pub fn set_word(image: &mut [u8], at: usize, place: usize, word: u32) {
    let start = RECORD_BYTES * at + WORD_BYTES * place;
    image[start..start + WORD_BYTES].copy_from_slice(&word.to_le_bytes());
}

/// A scan of `width` integer fields with the qualifier, named from 1 on.
pub fn wide_scan(table: u32, qualifier: u32, width: usize) -> Tree {
    scan(table, (1..=width as u32).map(|name| field(qualifier, name, OF_INTEGER, true)).collect())
}

/// A plan of exactly so many records, three or more: a Filter whose function has as many arguments as that takes.
pub fn of_records(records: usize) -> Tree {
    filter(function(1, 0, OF_BOOLEAN, vec![integer(7); records - 3]), scan(1, vec![]))
}

/// A plan of exactly that depth, by nodes with one input.
pub fn deep_plan(depth: usize) -> Tree {
    (1..depth).fold(scan(1, vec![]), |input, _| distinct(input))
}

/// A Filter of exactly that depth, by its predicate.
pub fn deep_predicate(depth: usize) -> Tree {
    let predicate = (2..depth).fold(boolean(true), |operand, _| not(operand));
    filter(predicate, scan(1, vec![]))
}

#[derive(Clone, Copy, PartialEq, Eq, Debug)]
pub enum Nesting {
    Left,
    Right,
    Balanced,
}

/// The conjuncts, one or more, joined by Ands.
pub fn conjunction(conjuncts: Vec<Tree>, nesting: Nesting) -> Tree {
    let joined = match nesting {
        Nesting::Left => conjuncts.into_iter().reduce(and),
        Nesting::Right => conjuncts.into_iter().rev().reduce(|right, left| and(left, right)),
        Nesting::Balanced => balanced(conjuncts),
    };
    joined.expect("one conjunct or more")
}

fn balanced(mut conjuncts: Vec<Tree>) -> Option<Tree> {
    if conjuncts.len() <= 1 {
        return conjuncts.pop();
    }
    let right = conjuncts.split_off(conjuncts.len() / 2);
    Some(and(balanced(conjuncts)?, balanced(right)?))
}

fn trues(count: usize) -> Vec<Tree> {
    vec![boolean(true); count]
}

fn buffers() -> Vec<Edge> {
    let one = scan(1, vec![]).image();
    let two = [one.clone(), vec![0]].concat();
    let most = of_records(RECORDS).image();
    let over = [most.clone(), vec![0]].concat();
    vec![
        edge("0 bytes", vec![], 1, 0),
        edge("1 byte", one[..1].to_vec(), 1, 0),
        edge("31 bytes", one[..31].to_vec(), 1, 0),
        edge("32 bytes", one, 0, 0),
        edge("33 bytes", two, 1, 0),
        of_plan("2047 records", of_records(RECORDS - 1), 0, 0),
        edge("one byte less than 2048 records", most[..most.len() - 1].to_vec(), 1, 0),
        edge("2048 records", most, 0, 0),
        edge("one byte more than 2048 records", over, 1, 0),
        of_plan("2049 records", of_records(RECORDS + 1), 1, 0),
        edge("2048 records of zeros", vec![0; RECORDS * RECORD_BYTES], 2, 0),
        edge("2049 records of zeros", vec![0; (RECORDS + 1) * RECORD_BYTES], 1, 0),
    ]
}

fn depths() -> Vec<Edge> {
    let deep_field = |depth: usize| (2..depth).fold(wide_scan(1, 1, 2), |input, _| repartition(input));
    let mut bad_link = deep_plan(RECORDS).image();
    set_word(&mut bad_link, RECORDS - 1, FIRST, RECORDS as u32);
    let deep_expression = deep_predicate(DEPTH + 2).children[0].clone();
    vec![
        of_plan("plans of depth 256", deep_plan(DEPTH), 0, 0),
        of_plan("plans of depth 257", deep_plan(DEPTH + 1), 4, DEPTH),
        of_plan("a predicate of depth 256", deep_predicate(DEPTH), 0, 0),
        of_plan("a predicate of depth 257", deep_predicate(DEPTH + 1), 4, DEPTH),
        of_plan("a field at depth 256", deep_field(DEPTH), 0, 0),
        of_plan("a field at depth 257", deep_field(DEPTH + 1), 4, DEPTH),
        of_plan("plans of depth 2048", deep_plan(RECORDS), 4, DEPTH),
        edge("plans of depth 2048, the last with a bad link", bad_link, 3, RECORDS - 1),
        of_plan("an expression of depth 257 as root", deep_expression, 4, DEPTH),
    ]
}

fn links() -> Vec<Edge> {
    let plan = filter(boolean(true), scan(1, vec![]));
    let with = |at: usize, place: usize, word: u32| {
        let mut image = plan.image();
        set_word(&mut image, at, place, word);
        image
    };
    let mut two_bad = with(0, NEXT, 1);
    set_word(&mut two_bad, 2, NEXT, 1);
    vec![
        edge("the root's next is 1", with(0, NEXT, 1), 3, 0),
        edge("the root's next is the number of records", with(0, NEXT, 3), 3, 0),
        edge("the root has no first", with(0, FIRST, 0), 3, 1),
        edge("the root's first skips a record", with(0, FIRST, 2), 3, 0),
        edge("a record is left", with(1, NEXT, 0), 3, 2),
        edge("a last next is the number of records", with(2, NEXT, 3), 3, 2),
        edge("a last first is the number of records", with(2, FIRST, 3), 3, 2),
        edge("a link to itself", with(1, FIRST, 1), 3, 1),
        edge("a link far away", with(1, NEXT, u32::MAX), 3, 1),
        edge("of two bad links the one met first has the higher record", two_bad, 3, 2),
    ]
}

fn forms() -> Vec<Edge> {
    let table = || scan(1, vec![]);
    let count = || aggregate_entry(0, 1, COUNT, integer(1));
    let group = || entry(0, 1, integer(1));
    let key = || key_pair(integer(1), integer(1));
    let mut leaf_with_child = filter(boolean(true), table());
    leaf_with_child.children[0].children.push(boolean(true));
    let partition = |by: Tree| over(WINDOW, vec![window_entry(0, 9, COUNT, vec![integer(1), by])], wide_scan(1, 1, 1));
    let late_group = || over(AGGREGATE, vec![count(), group()], table());
    vec![
        of_plan("an expression as root", boolean(true), 5, 0),
        of_plan("a part as root", field(1, 1, OF_INTEGER, true), 5, 0),
        of_plan("a leaf with a child", leaf_with_child, 5, 1),
        of_plan("a plan for a predicate", filter(table(), table()), 5, 0),
        of_plan("a part inside an expression", filter(not(group()), table()), 5, 1),
        of_plan("a Projection without entries", over(PROJECTION, vec![], table()), 5, 0),
        of_plan("an Aggregate without entries", over(AGGREGATE, vec![], table()), 5, 0),
        of_plan("an Aggregate of a group entry", over(AGGREGATE, vec![group()], table()), 0, 0),
        of_plan("an Aggregate of an entry", over(AGGREGATE, vec![count()], table()), 0, 0),
        of_plan("a group entry after an entry", late_group(), 5, 0),
        of_plan("a Window without entries", over(WINDOW, vec![], table()), 5, 0),
        of_plan("a Sort without keys", sort(None, vec![], table()), 0, 0),
        of_plan("a Union of one", union(vec![table()]), 5, 0),
        of_plan("a Union of two", union(vec![table(), table()]), 0, 0),
        of_plan("a join of one input", join(1, vec![table()]), 5, 0),
        of_plan("a join of three inputs", join(1, vec![table(), table(), table()]), 5, 0),
        of_plan("a join with its filter before its key", join(1, vec![table(), table(), boolean(true), key()]), 5, 0),
        of_plan("a join with two filters", join(1, [vec![table(), table()], trues(2)].concat()), 5, 0),
        of_plan("a field after a filter", scan(1, vec![boolean(true), field(1, 1, 1, true)]), 5, 0),
        of_plan("an InList without items", filter(in_list(false, vec![integer(1)]), table()), 5, 1),
        of_plan("an InList of one item", filter(in_list(false, vec![integer(1), integer(1)]), table()), 0, 0),
        of_plan("a function without arguments", filter(function(1, 0, OF_BOOLEAN, vec![]), table()), 0, 0),
        of_plan("a partition by a column", partition(column(1, 1)), 0, 0),
        of_plan("a partition by a literal", partition(integer(1)), 5, 1),
    ]
}

fn lists() -> Vec<Edge> {
    let mut edges = Vec::new();
    for nesting in [Nesting::Left, Nesting::Right, Nesting::Balanced] {
        for (length, number) in [(LIST, 0), (LIST + 1, 5)] {
            let name = |plan: &str| format!("{plan} of {length} conjuncts, nested {nesting:?}");
            let predicate = conjunction(trues(length), nesting);
            let filter = filter(predicate.clone(), scan(1, vec![]));
            let joined = join(1, vec![scan(1, vec![]), scan(1, vec![]), predicate.clone()]);
            let named = if number == 0 { 0 } else { 1 };
            edges.push(of_plan(name("a Filter"), filter.clone(), number, 0));
            edges.push(of_plan(name("a Filter below"), distinct(filter), number, named));
            edges.push(of_plan(name("a join's filter"), joined.clone(), number, 0));
            edges.push(of_plan(name("a join's filter below"), distinct(joined), number, named));
            edges.push(of_plan(name("one filter of a scan"), scan(1, vec![predicate.clone()]), 0, 0));
            edges.push(of_plan(name("below a Not"), self::filter(not(predicate), scan(1, vec![])), 0, 0));
        }
    }
    edges.push(of_plan("a scan of 128 filters", scan(1, trues(LIST)), 0, 0));
    edges.push(of_plan("a scan of 129 filters", scan(1, trues(LIST + 1)), 5, 0));
    edges.push(of_plan("a scan of 129 filters below", limit(1, 0, scan(1, trues(LIST + 1))), 5, 1));
    edges.push(of_plan("128 filters that are Ands", scan(1, vec![and(boolean(true), boolean(true)); LIST]), 0, 0));
    edges.push(of_plan("129 items", filter(in_list(false, vec![integer(1); LIST + 2]), scan(1, vec![])), 0, 0));
    edges.extend(broken_ands());
    edges
}

/// Ands without exactly two expressions below them.
fn ands_that_do_not_split() -> [(&'static str, Tree); 4] {
    let of = |children: Vec<Tree>| Tree { children, ..and(boolean(true), boolean(true)) };
    [
        ("an And of three", of(trues(3))),
        ("an And of one", of(trues(1))),
        ("an And of none", of(vec![])),
        ("an And with a plan", of(vec![boolean(true), scan(1, vec![])])),
    ]
}

/// Such an And counts as one conjunct, and is named itself.
fn broken_ands() -> Vec<Edge> {
    let mut edges = Vec::new();
    for (name, broken) in ands_that_do_not_split() {
        for length in [LIST, LIST + 1] {
            let conjuncts = [trues(length - 1), vec![broken.clone()]].concat();
            let plan = filter(conjunction(conjuncts, Nesting::Left), scan(1, vec![]));
            let at = if length > LIST { 0 } else { record_of(&plan, |tree| *tree == broken) };
            edges.push(of_plan(format!("{name} among {length} conjuncts"), plan, 5, at));
        }
    }
    edges
}

/// Plans with so many fields of their own, and the record to be named where those are too many.
pub fn wide_plans(width: usize) -> Vec<(&'static str, Tree, usize)> {
    let entries = |count: usize| (1..=count as u32).map(|name| entry(1, name, integer(1)));
    let counts = |from: usize| (from as u32 + 1..=width as u32).map(|name| aggregate_entry(1, name, COUNT, integer(1)));
    let windows = (11..=width as u32).map(|name| window_entry(1, name, COUNT, vec![integer(1)]));
    let table = || scan(2, vec![]);
    vec![
        ("a scan", wide_scan(1, 1, width), 0),
        ("a Filter over a scan", filter(boolean(true), wide_scan(1, 1, width)), 0),
        ("an alias", alias(3, wide_scan(1, 1, width)), 0),
        ("a Union", union(vec![wide_scan(1, 1, width), wide_scan(1, 2, width)]), 0),
        ("a Projection", over(PROJECTION, entries(width).collect(), table()), 0),
        ("a Projection that drops fields", over(PROJECTION, entries(1).collect(), wide_scan(1, 1, width)), 3),
        ("an Aggregate", over(AGGREGATE, entries(10).chain(counts(10)).collect(), table()), 0),
        ("a Window", over(WINDOW, windows.collect(), wide_scan(1, 1, 10)), 0),
    ]
}

fn widths() -> Vec<Edge> {
    let mut edges = Vec::new();
    for (width, number) in [(FIELDS, 0), (FIELDS + 1, 6)] {
        let record = |at: usize| if number == 0 { 0 } else { at };
        for (name, plan, at) in wide_plans(width) {
            edges.push(of_plan(format!("{name} of {width} fields"), plan, number, record(at)));
        }
        for which in 1..=8 {
            let joined = join(which, vec![wide_scan(1, 1, 32), wide_scan(2, 2, width - 32)]);
            let below = if which <= 4 { 0 } else { 1 };
            let name = format!("a join {which} of {width} fields in both inputs");
            edges.push(of_plan(name.clone(), joined.clone(), number, 0));
            edges.push(of_plan(format!("{name}, below a Distinct"), distinct(joined), number, record(below)));
        }
    }
    edges
}

fn names() -> Vec<Edge> {
    let fields = |names: &[(u32, u32)]| scan(1, names.iter().map(|&(p, q)| field(p, q, OF_INTEGER, true)).collect());
    let asks = |p: u32, q: u32| test(1, column(p, q));
    let keyed = |left: (u32, u32), right: (u32, u32)| {
        let pair = key_pair(column(left.0, left.1), column(right.0, right.1));
        join(1, vec![fields(&[(1, 1)]), fields(&[(2, 1)]), pair])
    };
    let joined = |which: u32, right: (u32, u32)| join(which, vec![fields(&[(1, 1)]), fields(&[right])]);
    let filtered = |which: u32, p: u32| join(which, vec![fields(&[(1, 1)]), fields(&[(2, 1)]), asks(p, 1)]);
    let above = |which: u32, p: u32| filter(asks(p, 1), joined(which, (2, 1)));
    let counted = |by: Vec<Tree>| over(WINDOW, vec![window_entry(3, 1, COUNT, by)], fields(&[(1, 1)]));
    let mut edges = vec![
        of_plan("two fields alike", fields(&[(1, 1), (1, 1)]), 6, 0),
        of_plan("one name under two qualifiers", fields(&[(1, 1), (2, 1)]), 0, 0),
        of_plan("a bare name before a qualified one", fields(&[(0, 1), (2, 1)]), 6, 0),
        of_plan("a bare name after a qualified one", fields(&[(1, 1), (0, 1)]), 6, 0),
        of_plan("an alias that makes two fields alike", alias(3, fields(&[(1, 1), (2, 1)])), 6, 0),
        of_plan("a bad scan below an alias", filter(boolean(true), alias(3, fields(&[(0, 1), (2, 1)]))), 6, 0),
        of_plan("a reference without its qualifier", filter(asks(0, 1), fields(&[(1, 1)])), 6, 2),
        of_plan("a reference to another name", filter(asks(1, 2), fields(&[(1, 1)])), 6, 2),
        of_plan("a reference past an alias", filter(asks(1, 1), alias(3, fields(&[(1, 1)]))), 6, 2),
        of_plan("a reference to an alias", filter(asks(3, 1), alias(3, fields(&[(1, 1)]))), 0, 0),
        of_plan("keys over their own sides", keyed((1, 1), (2, 1)), 0, 0),
        of_plan("keys over the other sides", keyed((2, 1), (1, 1)), 6, 6),
        of_plan("a right key over the left side", keyed((1, 1), (1, 1)), 6, 7),
        of_plan("a Window's entry over its input", counted(vec![column(1, 1), column(1, 1)]), 0, 0),
        of_plan("a Window's entry over itself", counted(vec![column(3, 1)]), 6, 2),
        of_plan("a Window's partition over itself", counted(vec![column(1, 1), column(3, 1)]), 6, 3),
    ];
    for which in 1..=8 {
        let gone = |side: u32| which > 4 && ((which - 5) % 2 == 0) != (side == 1);
        edges.push(of_plan(format!("join {which}: both inputs alike"), joined(which, (1, 1)), 6, 0));
        edges.push(of_plan(format!("join {which}: a bare name beside"), joined(which, (0, 1)), 6, 0));
        for side in [1, 2] {
            let (number, at) = if gone(side) { (6, 2) } else { (0, 0) };
            edges.push(of_plan(format!("join {which}: its filter over side {side}"), filtered(which, side), 0, 0));
            edges.push(of_plan(format!("join {which}: side {side} seen from above"), above(which, side), number, at));
        }
    }
    edges
}

fn types() -> Vec<Edge> {
    let table = || scan(1, vec![]);
    let (int, truth) = (|| integer(1), || boolean(true));
    let of = |types: &[u32]| scan(1, (1..).zip(types).map(|(name, &of)| field(1, name, of, true)).collect());
    let mut edges = Vec::new();
    let mut predicate = |name: String, expression: Tree, number: u32| {
        edges.push(of_plan(name, filter(expression, table()), number, number.min(1) as usize));
    };
    for operator in 1..=8 {
        let logical = operator <= OR;
        predicate(
            format!("operator {operator}, integers"),
            binary(operator, int(), null(1)),
            if logical { 7 } else { 0 },
        );
        predicate(format!("operator {operator}, booleans"), binary(operator, truth(), null(2)), 0);
        predicate(format!("operator {operator}, one of each"), binary(operator, truth(), int()), 7);
    }
    for which in 1..=8 {
        predicate(format!("test {which} of a boolean"), test(which, truth()), 0);
        predicate(format!("test {which} of an integer"), test(which, int()), if which <= 2 { 0 } else { 7 });
    }
    predicate("Not of an integer".into(), not(int()), 7);
    predicate("Between booleans".into(), between(false, truth(), truth(), null(2)), 0);
    predicate("Between with one of another type".into(), between(false, int(), int(), truth()), 7);
    predicate("InList of booleans".into(), in_list(true, vec![null(2), truth()]), 0);
    predicate("InList with a last item of another type".into(), in_list(true, vec![int(), int(), truth()]), 7);
    predicate("a function of any arguments".into(), function(1, 0, 2, vec![int(), truth()]), 0);
    let counted = |what: u32, argument: Tree| over(AGGREGATE, vec![aggregate_entry(1, 1, what, argument)], table());
    let windowed = |what: u32, argument: Tree| over(WINDOW, vec![window_entry(9, 1, what, vec![argument])], table());
    let (both, one) = (of(&[1, 2]), of(&[1]));
    edges.extend([
        of_plan("an integer for a predicate", filter(int(), table()), 7, 0),
        of_plan("an integer for a scan's filter", scan(1, vec![truth(), int()]), 7, 0),
        of_plan("an integer for a join's filter", join(4, vec![table(), table(), int()]), 7, 0),
        of_plan("a key pair of two types", join(4, vec![table(), table(), key_pair(int(), truth())]), 7, 3),
        of_plan("Count of a boolean", counted(COUNT, truth()), 0, 0),
        of_plan("Min of a boolean", counted(MIN, truth()), 7, 1),
        of_plan("Max of a boolean", counted(MAX, truth()), 7, 1),
        of_plan("Max of a boolean in a Window", windowed(MAX, truth()), 7, 1),
        of_plan("Count of a boolean is an integer", filter(test(3, column(9, 1)), windowed(COUNT, truth())), 7, 1),
        of_plan("a Union of two widths", union(vec![one.clone(), scan(2, vec![])]), 7, 0),
        of_plan(
            "a Union of two types",
            union(vec![one.clone(), over(PROJECTION, vec![entry(1, 1, truth())], table())]),
            7,
            0,
        ),
        of_plan("scans of a table alike", join(7, vec![of(&[2, 1]), alias(2, of(&[2, 1]))]), 0, 0),
        of_plan("scans of a table of two widths", join(7, vec![one.clone(), alias(2, both)]), 7, 4),
        of_plan("scans of a table of two types", join(7, vec![one, alias(2, of(&[2]))]), 7, 4),
    ]);
    edges
}

/// A plan near a limit, on either side of it, below some nodes of one input.
pub fn near(random: &mut Random) -> Tree {
    let plan = match random.below(6) {
        0 => near_records(random),
        1 => near_depth(random),
        2 | 3 => near_list(random),
        _ => near_width(random),
    };
    let nodes = if random.chance(50) { 0 } else { random.within(1, 3) };
    below(random, plan, nodes)
}

fn below(random: &mut Random, plan: Tree, nodes: usize) -> Tree {
    let mut draw = Draw::new(random, 0);
    (0..nodes).fold(plan, |plan, _| draw.pass_through(plan))
}

/// A drawn plan, filled to 2,046 to 2,050 records by a function's arguments.
fn near_records(random: &mut Random) -> Tree {
    let records = random.within(RECORDS - 2, RECORDS + 2);
    let drawn = accepted(random, 300).plan;
    let arguments = records.saturating_sub(2 + drawn.size());
    filter(function(1, 0, OF_BOOLEAN, vec![null(2); arguments]), drawn)
}

/// A drawn plan, lowered to a depth of 254 to 258, by plans or by a predicate.
fn near_depth(random: &mut Random) -> Tree {
    let depth = random.within(DEPTH - 2, DEPTH + 2);
    let drawn = accepted(random, 40).plan;
    if random.chance(50) {
        let nodes = depth.saturating_sub(drawn.depth());
        return below(random, drawn, nodes);
    }
    let predicate = (2..depth).fold(boolean(false), |operand, _| not(operand));
    filter(predicate, drawn)
}

/// 126 to 130 drawn predicates, in one of the three lists.
fn near_list(random: &mut Random) -> Tree {
    let length = random.within(LIST - 2, LIST + 2);
    let which = random.below(3);
    let input = accepted(random, if which == 2 { 1 } else { 10 });
    let mut draw = Draw::new(random, 400);
    let mut conjuncts: Vec<Tree> = (0..length).map(|_| not(draw.expr(&input.fields, OF_BOOLEAN, 1))).collect();
    if which == 2 {
        return of_filters(random, input.plan, conjuncts);
    }
    if random.chance(20) {
        conjuncts[random.below(length)] = random.pick(&ands_that_do_not_split()).1.clone();
    }
    let nesting = *random.pick(&[Nesting::Left, Nesting::Right, Nesting::Balanced]);
    let predicate = conjunction(conjuncts, nesting);
    match which {
        0 => filter(predicate, input.plan),
        _ => join(random.within(1, 8) as u32, vec![input.plan, scan(9, vec![]), predicate]),
    }
}

/// The scan with these filters for its own, some of them an And, which a scan does not split.
fn of_filters(random: &mut Random, mut table: Tree, mut filters: Vec<Tree>) -> Tree {
    for _ in 0..random.below(3) {
        let at = random.below(filters.len());
        filters[at] = and(filters[at].clone(), boolean(true));
    }
    table.children.retain(|part| part.label.kind == FIELD);
    table.children.extend(filters);
    table
}

/// A plan or a join of 62 to 66 fields.
fn near_width(random: &mut Random) -> Tree {
    let width = random.within(FIELDS - 2, FIELDS + 2);
    if random.chance(60) {
        let mut plans = wide_plans(width);
        let which = random.below(plans.len());
        return plans.swap_remove(which).1;
    }
    let left = random.within(0, width);
    let which = random.within(1, 8) as u32;
    join(which, vec![wide_scan(1, 1, left), wide_scan(2, 2, width - left)])
}

#[cfg(test)]
mod tests {
    use super::*;
    use crate::checker::check;

    #[test]
    fn every_edge_gets_its_verdict() {
        for edge in edges() {
            assert_eq!(check(&edge.image), edge.verdict, "{}", edge.name);
        }
    }

    #[test]
    fn sizes_are_what_the_names_say() {
        assert_eq!(of_records(RECORDS).size(), RECORDS);
        assert_eq!(deep_plan(DEPTH).depth(), DEPTH);
        assert_eq!(deep_predicate(DEPTH + 1).depth(), DEPTH + 1);
    }

    #[test]
    fn plans_near_the_limits_fall_on_both_sides() {
        let numbers: Vec<u32> =
            (0..500).map(|case| check(&near(&mut Random::of_case(3, case)).image()).number).collect();
        for number in [0, 1, 4, 5, 6] {
            assert!(numbers.contains(&number), "number {number}");
        }
    }
}
