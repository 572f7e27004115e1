//! Plans as text: what is written reads back as the same plan, every trouble has its place, and no text is too damaged to
//! be refused in peace.

use harness::checker::{check, Verdict};
use harness::image::Tree;
use harness::kinds::*;
use harness::limits::{DEPTH, RECORDS};
use harness::random::{accepted, size, Random};
use harness::rewrites::case;
use harness::text::{self, Named, Names, Place, Trouble, Written};

fn drawn(seed: u64, number: u64) -> Tree {
    let random = &mut Random::of_case(seed, number);
    let records = size(random);
    accepted(random, records).plan
}

fn read(text: &str) -> Result<Written, Trouble> {
    text::read(text, &Names::NONE)
}

fn write(plan: &Tree) -> String {
    text::write(plan, &Names::NONE)
}

/// The plan that a text reads as, and comes back from.
fn back(plan: &Tree) -> Written {
    read(&write(plan)).expect("what was written can be read")
}

#[test]
fn accepted_plans_come_back() {
    for number in 0..3000 {
        for plan in [drawn(21, number), case(21, number).plan] {
            if check(&plan.image()) == Verdict::ACCEPTED {
                let Written { plan: read, places } = back(&plan);
                assert_eq!(read, plan, "case {number}");
                assert_eq!(places.len(), plan.size(), "case {number}");
            }
        }
    }
}

/// Words for the lower half of all numbers that drawn plans use, the same words for tables, qualifiers, names and functions.
fn words() -> Names {
    let mut names = Names::NONE;
    for what in [Named::Table, Named::Qualifier, Named::Name, Named::Function] {
        for number in 1..4 {
            names.set(what, number, &format!("word_{number}")).expect("a word of its own");
        }
    }
    names
}

#[test]
fn plans_with_names_come_back() {
    let names = words();
    let mut named = 0;
    for number in 0..1000 {
        let plan = drawn(23, number);
        let text = text::write(&plan, &names);
        named += usize::from(text.contains("word_1.word_2"));
        assert_eq!(text::read(&text, &names).expect(&text).plan, plan, "case {number}");
        assert_eq!(text::read(&write(&plan), &names).expect("numbers are read as well").plan, plan, "case {number}");
    }
    assert!(named > 100, "{named} plans had such a column");
}

#[test]
fn names_stand_in_every_place() {
    let names = "table 1 orders\nqualifier 1 o\nname 1 price\nname 2 open\nfunction 7 rounded\n";
    let names = Names::read(names).expect("a names file");
    let text = "\
Filter o.price > 5 AND open AND rounded:int(o.price) = c9
  SubqueryAlias o
    Projection [price := t3.price, open := TRUE, c9 := f8:int()]
      TableScan orders [t3.price:int]
";
    let plan = text::read(text, &names).expect("a text with names").plan;
    assert_eq!(text::write(&plan, &names), text);
    assert_eq!(read(&write(&plan)).expect("a text without names").plan, plan);
    let unknown = [
        ("Filter o.cost > 5", "1:10: 'cost' is no name of the names file"),
        ("Filter p.price > 5", "1:8: 'p' is no qualifier of the names file"),
        ("Filter price(1)", "1:8: 'price' is no function of the names file"),
        ("Filter rounded(1)", "1:15: expected ':', found '('"),
        ("TableScan goods []", "1:11: 'goods' is no table of the names file"),
        ("Filter o > 5", "1:8: 'o' is no name of the names file"),
    ];
    for (text, trouble) in unknown {
        assert_eq!(text::read(text, &names).map_err(|found| found.to_string()), Err(trouble.to_string()), "{text}");
    }
}

fn table() -> Tree {
    scan(1, vec![field(1, 1, OF_INTEGER, false), field(0, 2, OF_BOOLEAN, true)])
}

/// The predicate of a Filter.
fn predicate(text: &str) -> Tree {
    let text = format!("Filter {text}\n  TableScan 1 [t1.c1:int, c2:bool:marked]\n");
    let plan = read(&text).expect(&text).plan;
    assert_eq!(plan.children[1], table());
    assert_eq!(back(&plan).plan, plan);
    plan.children[0].clone()
}

#[test]
fn expressions_bind_as_they_should() {
    let (a, b) = (|| column(1, 1), || column(0, 2));
    let or = |left: Tree, right: Tree| binary(OR, left, right);
    let one = || binary(GT, a(), integer(1));
    assert_eq!(predicate("c2"), b());
    assert_eq!(predicate("((c2))"), b());
    assert_eq!(predicate("c2 OR c2 AND t1.c1 > 1 OR c2"), or(or(b(), and(b(), one())), b()));
    assert_eq!(predicate("c2 AND (c2 AND c2) AND c2"), and(and(b(), and(b(), b())), b()));
    assert_eq!(predicate("NOT NOT c2 AND c2"), and(not(not(b())), b()));
    assert_eq!(predicate("NOT (c2 AND c2)"), not(and(b(), b())));
    assert_eq!(predicate("(NOT c2) IS NOT TRUE"), test(6, not(b())));
    assert_eq!(predicate("t1.c1 IS NULL"), test(1, a()));
    assert_eq!(predicate("c2 = (t1.c1 > 1)"), binary(EQ, b(), one()));
    assert_eq!(predicate("t1.c1 NOT BETWEEN -9 AND 9 AND c2"), and(between(true, a(), integer(-9), integer(9)), b()));
    assert_eq!(predicate("t1.c1 IN (1, NULL:int)"), in_list(false, vec![a(), integer(1), null(OF_INTEGER)]));
    assert_eq!(predicate("c2 NOT IN (c2 OR c2)"), in_list(true, vec![b(), or(b(), b())]));
    assert_eq!(predicate("f7:bool:leafward:volatile(TRUE, t1.c1)"), function(7, 3, 2, vec![boolean(true), a()]));
    assert_eq!(predicate("t1.c1 <> 1"), binary(NOT_EQ, a(), integer(1)));
    assert_eq!(predicate("NULL:int = t1.c1"), binary(EQ, null(OF_INTEGER), a()));
    assert_eq!(predicate("t1.c1 >= -9223372036854775808"), binary(GT_EQ, a(), integer(i64::MIN)));
}

#[test]
fn every_plan_is_read() {
    let text = "
        Union  # of two
          Sort [t1.c1 DESC, c2] fetch 0
            Limit skip 2 fetch 4294967295
              Distinct
                TableScan 1 [t1.c1:int, c2:bool:marked]
          Join LeftSemi on [t1.c1 = 5, (c2 OR c2) = t3.c2] filter c2

            Repartition
              TableScan 1 [t1.c1:int, c2:bool:marked]
            SubqueryAlias t3
              Aggregate group [t9.c1 := c1] entries [c2 := Max(c1)]
                Window [c1 := Count(t1.c1) over [c2, t1.c1], c3 := Min(1)]
                  Projection [c2 := c2, t1.c1 := 1]
                    TableScan 1 [t1.c1:int, c2:bool:marked] filters [c2, TRUE]
    ";
    let text: String =
        text.lines().map(|line| line.strip_prefix("        ").unwrap_or("").to_string() + "\n").collect();
    let (a, b) = (|| column(1, 1), || column(0, 2));
    let left = distinct(table());
    let left = sort(Some(0), vec![sort_key(true, a()), sort_key(false, b())], limit(u32::MAX, 2, left));
    let scanned = scan(1, [table().children, vec![b(), boolean(true)]].concat());
    let projected = over(PROJECTION, vec![entry(0, 2, b()), entry(1, 1, integer(1))], scanned);
    let counts = vec![window_entry(0, 1, COUNT, vec![a(), b(), a()]), window_entry(0, 3, MIN, vec![integer(1)])];
    let grouped = vec![entry(9, 1, column(0, 1)), aggregate_entry(0, 2, MAX, column(0, 1))];
    let right = alias(3, over(AGGREGATE, grouped, over(WINDOW, counts, projected)));
    let pairs = vec![key_pair(a(), integer(5)), key_pair(binary(OR, b(), b()), column(3, 2))];
    let joined = join(LEFT_SEMI, [vec![repartition(table()), right], pairs, vec![b()]].concat());
    let plan = union(vec![left, joined]);
    let Written { plan: read, places } = read(&text).expect("a text of all plans");
    assert_eq!(read, plan);
    assert_eq!(back(&plan).plan, plan);
    assert_eq!(places[..2], [Place { line: 2, column: 1 }, Place { line: 3, column: 3 }]);
}

#[test]
fn every_trouble_has_its_place() {
    let scan = "TableScan 1 []";
    let troubles = [
        ("", "1:1: there is no plan"),
        ("\n  # nothing\n", "1:1: there is no plan"),
        ("TableScan 1 [] x", "1:16: expected the end of the line, found 'x'"),
        ("TableScan 4294967296 []", "1:11: expected a number from 0 to 4294967295, found '4294967296'"),
        ("Tablescan 1 []", "1:1: expected a plan such as Filter or TableScan, found 'Tablescan'"),
        ("TableScan 1 [t1.c1:int c2:int]", "1:24: expected ',' or ']', found 'c2'"),
        ("TableScan 1 [t1.c1:text]", "1:20: expected 'int' or 'bool', found 'text'"),
        ("TableScan 1 [t0.c1:int]", "1:14: the qualifier 0 is none; a name without qualifier is written c1"),
        ("  TableScan 1 []", "1:3: indented by 2 spaces; at most 0 here"),
        ("TableScan 1 []\nDistinct", "2:1: a second plan without indent; a text is one plan"),
        ("Distinct\n   TableScan 1 []", "2:4: indented by 3 spaces; a level is two"),
        ("Distinct\n\tTableScan 1 []", "2:1: a tab; lines are indented by spaces"),
        ("Distinct", "1:1: a Distinct reads one plan; none stands below it"),
        ("Union\n  TableScan 1 []", "1:1: a Union reads two plans or more; one stands below it"),
        ("TableScan 1 []\n  TableScan 1 []", "1:1: a TableScan reads no plan; one stands below it"),
        ("Filter\n  TableScan 1 []", "1:7: expected an expression, found the end of the line"),
        ("Filter (c1\n  TableScan 1 []", "1:11: expected ')', found the end of the line"),
        ("Filter c1 NOT c2", "1:15: expected 'BETWEEN' or 'IN', found 'c2'"),
        ("Filter c1 BETWEEN 1 OR 2", "1:21: expected 'AND', found 'OR'"),
        ("Filter c1 = 9223372036854775808", "1:13: expected an integer of 64 bits, found '9223372036854775808'"),
        ("Filter c1 < > 2", "1:13: expected an expression, found '>'"),
        (
            "Filter c1 = NULL",
            "1:13: a comparison with NULL is never TRUE: write IS NULL, or, for the literal, NULL:int or NULL:bool",
        ),
        (
            "Filter NULL = c1",
            "1:8: a comparison with NULL is never TRUE: write IS NULL, or, for the literal, NULL:int or NULL:bool",
        ),
        (
            "Filter c1 <> NULL",
            "1:14: a comparison with NULL is never TRUE: write IS NOT NULL, or, for the literal, NULL:int or NULL:bool",
        ),
        (
            "Filter c1 != NULL AND c2",
            "1:14: a comparison with NULL is never TRUE: write IS NOT NULL, or, for the literal, NULL:int or NULL:bool",
        ),
        ("Filter c1 > NULL", "1:13: a NULL has a type: write NULL:int or NULL:bool"),
        ("Filter c1 IN (NULL)", "1:15: a NULL has a type: write NULL:int or NULL:bool"),
        ("Filter price > 5", "1:8: expected a name such as t1.c2 or c2, found 'price'"),
        ("Filter f1(c1)", "1:10: expected ':', found '('"),
        ("Filter c1 > ä", "1:13: 'ä' stands in no plan"),
        ("Join Outer", "1:6: expected a join such as Inner or LeftSemi, found 'Outer'"),
        ("Limit fetch 1", "1:7: expected 'skip', found 'fetch'"),
    ];
    for (text, trouble) in troubles {
        assert_eq!(read(text).map_err(|found| found.to_string()), Err(trouble.to_string()), "{text}");
    }
    let many = format!("Filter {}c1\n  {scan}", "c1 AND ".repeat(RECORDS));
    let found = read(&many).expect_err("too many records");
    assert_eq!(found.what, "a plan of more than 2048 records");
    let deep = |of: &str, levels: usize| format!("Filter {}c1{}\n  {scan}", of.repeat(levels), ")".repeat(levels));
    for of in ["(", "c1 = (", "NOT (", "f1:int(", "c1 IN (", "c1 BETWEEN c1 AND ("] {
        let most = if of == "NOT (" { DEPTH / 2 - 1 } else { DEPTH - 1 };
        assert!(read(&deep(of, most)).is_ok(), "{of}");
        assert_eq!(read(&deep(of, DEPTH)).expect_err(of).what, "an expression of more than 256 levels");
    }
    assert_eq!(read(&deep("(", 1_000_000)).expect_err("too deep").place, Place { line: 1, column: 8 + DEPTH });
}

const PIECES: [&str; 28] = [
    " ", "  ", "\n", "\n  ", "#", "(", ")", "[", "]", ",", ":", ":=", "AND", "NOT ", "IS ", "IN (", "t1.", "c", "f",
    "-", "9", "Join", "\t", "é", "<>", "NULL", "word_1", ".word_2",
];

/// Removes, doubles, replaces or puts in a piece, or takes away the end.
fn damaged(random: &mut Random, text: &str) -> String {
    let mut characters: Vec<char> = text.chars().collect();
    for _ in 0..random.within(1, 3) {
        let at = random.below(characters.len() + 1);
        let end = characters.len().min(at + random.below(9));
        let piece: Vec<char> = match random.below(4) {
            0 => Vec::new(),
            1 => characters[at..end].repeat(2),
            _ => random.pick(&PIECES).chars().collect(),
        };
        match random.below(20) {
            0 => characters.truncate(at),
            _ => drop(characters.splice(at..end, piece)),
        }
    }
    characters.into_iter().collect()
}

/// A damaged text is refused, or it is another plan, which comes back if the check accepts it.
#[test]
fn damaged_texts_are_refused_or_read() {
    let mut counts = [0; 3];
    let all_names = [Names::NONE, words()];
    for number in 0..20_000 {
        let random = &mut Random::of_case(22, number);
        let plan = accepted(random, 30).plan;
        let names = random.pick(&all_names);
        let text = damaged(random, &text::write(&plan, names));
        let outcome = match text::read(&text, names) {
            Err(trouble) => {
                let line = text.lines().nth(trouble.place.line - 1).unwrap_or("");
                assert!(trouble.place.column <= line.chars().count() + 1, "{trouble} in\n{text}");
                0
            }
            Ok(Written { plan, places }) if check(&plan.image()) == Verdict::ACCEPTED => {
                assert_eq!((places.len(), back(&plan).plan), (plan.size(), plan), "{text}");
                1
            }
            Ok(_) => 2,
        };
        counts[outcome] += 1;
    }
    assert!(counts.iter().all(|count| *count > 100), "{counts:?}");
}

/// A damaged names file is refused at a place of it, or it is another, which comes back.
#[test]
fn damaged_names_are_refused_or_read() {
    let whole = words().write() + "# numbers without a word stay as they are\n";
    let mut counts = [0; 2];
    for number in 0..5000 {
        let text = damaged(&mut Random::of_case(24, number), &whole);
        let outcome = match Names::read(&text) {
            Ok(names) => {
                assert_eq!(Names::read(&names.write()), Ok(names), "{text}");
                0
            }
            Err(Trouble { place, .. }) => {
                let line = text.lines().nth(place.line - 1).unwrap_or("");
                assert!(place.column <= line.chars().count() + 1, "{place:?} in\n{text}");
                1
            }
        };
        counts[outcome] += 1;
    }
    assert!(counts.iter().all(|count| *count > 100), "{counts:?}");
}
