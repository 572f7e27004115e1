//! Damaged images: accepted ones in which a word, a link, a record, a subtree, a name or a type was changed. What number
//! a damaged image gets is for the checkers to say; the damage of a number is drawn so that it is likely to get that one.

use crate::checker::check;
use crate::edges::{near, of_records, set_word};
use crate::image::{self, Label, Tree, FIRST, NEXT, RECORD_BYTES};
use crate::kinds::*;
use crate::limits::{DEPTH, RECORDS};
use crate::random::{accepted, size, Draw, Random};

/// An image and how it was drawn.
pub struct Case {
    pub family: &'static str,
    pub image: Vec<u8>,
}

/// Case number `case` of a seed.
pub fn case(seed: u64, case: u64) -> Case {
    let random = &mut Random::of_case(seed, case);
    let (family, image) = match random.below(100) {
        0..25 => ("accepted", drawn(random).image()),
        25..30 => ("near a limit", near(random).image()),
        30..33 => ("near a limit, damaged", damaged(random, near)),
        33..60 => ("damaged", damaged(random, drawn)),
        60..70 => ("damaged twice", damaged_twice(random)),
        _ => directed(random),
    };
    Case { family, image }
}

fn drawn(random: &mut Random) -> Tree {
    let records = size(random);
    accepted(random, records).plan
}

fn damaged(random: &mut Random, draw: fn(&mut Random) -> Tree) -> Vec<u8> {
    let plan = draw(random);
    damaged_image(random, plan)
}

/// The image of the plan with one damage, of the tree or of the bytes.
pub fn damaged_image(random: &mut Random, mut plan: Tree) -> Vec<u8> {
    if random.chance(50) {
        damage_tree(random, &mut plan);
        return plan.image();
    }
    let mut image = plan.image();
    damage_bytes(random, &mut image);
    image
}

fn damaged_twice(random: &mut Random) -> Vec<u8> {
    let mut plan = drawn(random);
    damage_tree(random, &mut plan);
    damage_tree(random, &mut plan);
    let mut image = plan.image();
    if random.chance(30) {
        damage_bytes(random, &mut image);
    }
    image
}

/// Images that are likely to meet one test: drawn again, a few times, until the checker says so.
fn directed(random: &mut Random) -> (&'static str, Vec<u8>) {
    let number = random.within(1, 7);
    let family = ["", "for 1", "for 2", "for 3", "for 4", "for 5", "for 6", "for 7"][number];
    let mut image = damage_for(random, number);
    for _ in 0..8 {
        if check(&image).number == number as u32 {
            break;
        }
        image = damage_for(random, number);
    }
    (family, image)
}

fn damage_for(random: &mut Random, number: usize) -> Vec<u8> {
    let mut plan = drawn(random);
    match number {
        1 => return wrong_length(random, plan),
        2 | 3 => {
            let mut image = plan.image();
            let damage = if number == 2 { change_word } else { change_link };
            damage(random, &mut image);
            return image;
        }
        4 => lower_a_node(random, &mut plan),
        5 => change_children(random, &mut plan),
        6 => change_name(random, &mut plan),
        _ => change_type(random, &mut plan),
    }
    plan.image()
}

// Damage of bytes

fn damage_bytes(random: &mut Random, image: &mut Vec<u8>) {
    match random.below(10) {
        0..=2 => change_word(random, image),
        3..=5 => change_link(random, image),
        6 => drop_record(random, image),
        7 => add_record(random, image),
        8 => exchange_records(random, image),
        _ => image.truncate(random.below(image.len() + 1)),
    }
}

fn records_in(image: &[u8]) -> usize {
    image.len() / RECORD_BYTES
}

/// Words at which some rule begins or ends, and any word.
fn telling_word(random: &mut Random) -> u32 {
    let any = random.word() as u32;
    let small = random.below(56) as u32;
    *random.pick(&[0, 1, 2, 3, 4, 8, 9, small, small, small, 255, 256, 1 << 31, u32::MAX, any])
}

/// Any word but a link.
fn change_word(random: &mut Random, image: &mut [u8]) {
    let kinds: Vec<u32> = image::read(image).iter().map(|record| record.label.kind).collect();
    let at = evenly(random, &kinds, |_| true);
    let place = random.below(FIRST);
    let word = telling_word(random);
    set_word(image, at, place, word);
}

fn change_link(random: &mut Random, image: &mut [u8]) {
    let records = records_in(image);
    let at = if random.chance(10) { 0 } else { random.below(records) };
    let place = random.within(FIRST, NEXT);
    let near = (at + random.below(4)) as u32;
    let inside = random.below(records) as u32;
    let last = records as u32;
    let link = *random.pick(&[0, 0, near, near, inside, last - 1, last, RECORDS as u32, u32::MAX, inside | 1 << 31]);
    set_word(image, at, place, link);
}

fn record_range(at: usize) -> std::ops::Range<usize> {
    RECORD_BYTES * at..RECORD_BYTES * (at + 1)
}

fn drop_record(random: &mut Random, image: &mut Vec<u8>) {
    let at = random.below(records_in(image));
    image.drain(record_range(at));
}

/// A record more, anywhere: a copy of another, or zeros.
fn add_record(random: &mut Random, image: &mut Vec<u8>) {
    let records = records_in(image);
    let copied = image[record_range(random.below(records))].to_vec();
    let record = if random.chance(80) { copied } else { vec![0; RECORD_BYTES] };
    let at = if random.chance(50) { records } else { random.below(records) };
    image.splice(RECORD_BYTES * at..RECORD_BYTES * at, record);
}

fn exchange_records(random: &mut Random, image: &mut [u8]) {
    let (one, other) = (random.below(records_in(image)), random.below(records_in(image)));
    for byte in 0..RECORD_BYTES {
        image.swap(RECORD_BYTES * one + byte, RECORD_BYTES * other + byte);
    }
}

fn wrong_length(random: &mut Random, plan: Tree) -> Vec<u8> {
    let over = random.within(1, RECORD_BYTES - 1);
    match random.below(5) {
        0 => of_records(RECORDS + random.within(1, 40)).image(),
        1 => plan.image()[..*random.pick(&[0, 1, 31])].to_vec(),
        2 => [plan.image(), vec![0; over]].concat(),
        3 => [of_records(RECORDS).image(), vec![0; over]].concat(),
        _ => {
            let image = plan.image();
            image[..image.len() - over].to_vec()
        }
    }
}

// Damage of trees: the links stay as they must be

fn damage_tree(random: &mut Random, plan: &mut Tree) {
    match random.below(20) {
        0..=5 => change_children(random, plan),
        6..=11 => change_name(random, plan),
        12..=18 => change_type(random, plan),
        _ => lower_a_node(random, plan),
    }
}

/// A node of the plan that `wanted` asks for, or any.
fn some_node<'t>(random: &mut Random, plan: &'t mut Tree, wanted: impl Fn(u32) -> bool) -> &'t mut Tree {
    let kinds: Vec<u32> = plan.parent_first().iter().map(|(_, tree)| tree.label.kind).collect();
    let at = evenly(random, &kinds, wanted);
    plan.node_mut(at).expect("the number is one of its nodes")
}

/// The place of a wanted kind, or of any. The kind is drawn first, so that rare ones come as often as common ones.
fn evenly(random: &mut Random, kinds: &[u32], wanted: impl Fn(u32) -> bool) -> usize {
    let mut met: Vec<u32> = kinds.iter().copied().filter(|&kind| wanted(kind)).collect();
    met.sort_unstable();
    met.dedup();
    if met.is_empty() {
        return random.below(kinds.len());
    }
    let kind = *random.pick(&met);
    let places: Vec<usize> = (0..kinds.len()).filter(|&at| kinds[at] == kind).collect();
    *random.pick(&places)
}

/// One of the wanted nodes goes so deep that it, or something below it, passes the limit or just does not.
fn lower_a_node(random: &mut Random, plan: &mut Tree) {
    let steps = random.within(DEPTH - 12, DEPTH + 4);
    let node = some_node(random, plan, |kind| is_plan(kind) || is_expr(kind));
    let mut lowered = node.clone();
    let expression = is_expr(lowered.label.kind);
    for _ in 0..steps {
        lowered = match expression {
            true => not(lowered),
            false => repartition(lowered),
        };
    }
    *node = lowered;
}

/// Children dropped, doubled, exchanged, added, replaced, or the parent's kind changed.
fn change_children(random: &mut Random, plan: &mut Tree) {
    if random.chance(15) {
        return starve(random, plan);
    }
    let stray = stray_tree(random);
    let choice = random.below(7);
    let root = random.chance(5);
    let node = if root { &mut *plan } else { some_node(random, plan, |kind| kind != FIELD) };
    let children = node.children.len();
    match choice {
        0 if children > 0 => drop(node.children.remove(random.below(children))),
        1 if children > 1 => node.children.swap(random.below(children), random.below(children)),
        2 if children > 0 => {
            let child = random.below(children);
            node.children.insert(child, node.children[child].clone());
        }
        3 if children > 0 => node.children[random.below(children)] = stray,
        4 => node.label = stray.label,
        5 => *node = stray,
        _ => node.children.insert(random.below(children + 1), stray),
    }
}

/// A node that must have some children of a sort keeps one of them, or none.
fn starve(random: &mut Random, plan: &mut Tree) {
    let kept = random.below(2);
    let kind = *random.pick(&[IN_LIST, UNION, AGGREGATE, PROJECTION, WINDOW, FILTER, JOIN, BINARY]);
    let node = some_node(random, plan, |other| other == kind);
    let inputs_last = [AGGREGATE, PROJECTION, WINDOW].contains(&node.label.kind);
    if inputs_last && !node.children.is_empty() {
        let parts = node.children.len() - 1;
        node.children.drain(kept.min(parts)..parts);
    } else {
        node.children.truncate(kept);
    }
}

/// A small tree of any kind: expression, plan or part.
fn stray_tree(random: &mut Random) -> Tree {
    let mut draw = Draw::new(random, 6);
    let of = draw.random.within(1, 2) as u32;
    let expression = draw.expr(&[], of, 2);
    let name = draw.random.within(1, 7) as u32;
    match draw.random.below(12) {
        0..=3 => expression,
        4 => draw.plan(1).plan,
        5 => column(name, name),
        6 => field(name, name, of, true),
        7 => entry(name, name, expression),
        8 => key_pair(expression.clone(), expression),
        9 => sort_key(true, expression),
        10 => aggregate_entry(name, name, COUNT, expression),
        _ => window_entry(name, name, COUNT, vec![expression]),
    }
}

fn is_named(kind: u32) -> bool {
    matches!(kind, COLUMN | ALIAS | FIELD | ENTRY | AGGREGATE_ENTRY | WINDOW_ENTRY)
}

/// The qualifier or name of a reference, a field, an entry or an alias becomes another's, or one that none has.
fn change_name(random: &mut Random, plan: &mut Tree) {
    let others: Vec<Label> = plan
        .parent_first()
        .iter()
        .map(|(_, tree)| tree.label)
        .filter(|label| is_named(label.kind) && label.q != 0)
        .collect();
    let stranger = Label { kind: COLUMN, p: random.below(6) as u32, q: random.within(1, 8) as u32, ..Label::default() };
    let other = if others.is_empty() || random.chance(30) { stranger } else { *random.pick(&others) };
    let choice = random.below(4);
    match random.below(20) {
        0..=2 => return exchange_keys(random, plan),
        3 | 4 => return refer_to_itself(random, plan),
        _ => {}
    }
    let node = some_node(random, plan, is_named);
    match choice {
        _ if node.label.kind == ALIAS => node.label.p = other.p.max(1),
        0 => node.label.p = other.p,
        1 => node.label.q = other.q,
        2 => node.label.p = 0,
        _ => (node.label.p, node.label.q) = (other.p, other.q),
    }
}

/// A key pair's expressions change places, or one of them stands in both.
fn exchange_keys(random: &mut Random, plan: &mut Tree) {
    let exchange = random.chance(50);
    let place = random.below(2);
    let node = some_node(random, plan, |kind| kind == KEY_PAIR);
    if node.label.kind != KEY_PAIR || node.children.len() != 2 {
        return;
    }
    match exchange {
        true => node.children.swap(0, 1),
        false => node.children[place] = node.children[1 - place].clone(),
    }
}

/// An entry's last expression becomes a reference to what the entry makes.
fn refer_to_itself(random: &mut Random, plan: &mut Tree) {
    let kinds = [ENTRY, AGGREGATE_ENTRY, WINDOW_ENTRY];
    let node = some_node(random, plan, |kind| kinds.contains(&kind));
    if kinds.contains(&node.label.kind) {
        let last = node.children.len().max(1) - 1;
        node.children.truncate(last);
        node.children.push(column(node.label.p, node.label.q));
    }
}

fn is_typed(kind: u32) -> bool {
    let kinds = [COLUMN, INTEGER, BOOLEAN, NULL, BINARY, TEST, FUNCTION, SCAN, UNION, FIELD];
    kinds.contains(&kind) || kind >= AGGREGATE_ENTRY
}

/// Whatever settles a type becomes another: a literal, a field's or a function's type, an operator, a table's number.
fn change_type(random: &mut Random, plan: &mut Tree) {
    let columns: Vec<Label> =
        plan.parent_first().iter().map(|(_, tree)| tree.label).filter(|label| label.kind == COLUMN).collect();
    let other_column = if columns.is_empty() { None } else { Some(*random.pick(&columns)) };
    let (up_to_3, up_to_8) = (random.within(1, 3) as u32, random.within(1, 8) as u32);
    let literal = if random.chance(50) { integer(3) } else { boolean(true) };
    let as_literal = random.chance(30);
    let place = random.word() as usize;
    let node = some_node(random, plan, is_typed);
    match node.label.kind {
        COLUMN => match other_column {
            Some(label) if !as_literal => node.label = label,
            _ => *node = literal,
        },
        INTEGER => *node = boolean(true),
        BOOLEAN => *node = integer(1),
        NULL => node.label.p = 3 - node.label.p,
        BINARY | TEST => node.label.p = up_to_8,
        FUNCTION | FIELD => node.label.r = 3 - node.label.r,
        SCAN => node.label.p = up_to_3,
        UNION => widen(&mut node.children, place),
        AGGREGATE_ENTRY | WINDOW_ENTRY => node.label.r = up_to_3,
        _ => {}
    }
}

/// One input of a Union gets another width: one field, or none.
fn widen(inputs: &mut [Tree], place: usize) {
    let Some(at) = place.checked_rem(inputs.len()) else { return };
    let input = inputs[at].clone();
    inputs[at] = match place % 2 {
        0 => over(PROJECTION, vec![entry(1, 1, integer(1))], input),
        _ => scan(78, vec![]),
    };
}

#[cfg(test)]
mod tests {
    use super::*;

    #[test]
    fn every_number_is_met_often() {
        let mut met = [0; 8];
        for number in 0..4000 {
            met[check(&case(1, number).image).number as usize] += 1;
        }
        assert!(met.iter().all(|&count| count >= 100), "{met:?}");
    }

    #[test]
    fn directed_damage_mostly_meets_its_number() {
        for number in 1..=7 {
            let hits = |case: &u64| check(&damage_for(&mut Random::of_case(4, *case), number)).number == number as u32;
            let met = (0..400).filter(hits).count();
            assert!(met >= 60, "{met} of 400 for {number}");
        }
    }
}
