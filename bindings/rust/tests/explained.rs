//! What is said of refused images: which record, and what is wrong there.

use push_down_filter::image::{read, write, Record};
use push_down_filter::text::{self, Names};
use push_down_filter::{explain, Refusal};

/// What is said of the image. The refusal must be the library's where it is linked.
fn explained(image: &[u8], number: u32, record: u32, names: &Names) -> String {
    let refusal = Refusal::new(number, record);
    #[cfg(feature = "library")]
    assert_eq!(push_down_filter::check(image), Err(refusal));
    explain(image, refusal, names)
}

/// The image of the text.
fn image(text: &str, names: &Names) -> Vec<u8> {
    text::read(text, names).unwrap_or_else(|trouble| panic!("{trouble} in\n{text}")).plan.image()
}

/// Each text with the number and the record of its refusal, and what is said.
fn all_say(cases: &[(&str, u32, u32, &str)]) {
    for (text, number, record, line) in cases {
        let said = explained(&image(text, &Names::NONE), *number, *record, &Names::NONE);
        assert_eq!(said, *line, "{text}");
    }
}

const SCAN: &str = "TableScan 1 [t1.c1:int, t1.c2:bool, t2.c2:int]";

/// A Filter of the predicate over that scan.
fn filter(predicate: &str) -> String {
    format!("Filter {predicate}\n  {SCAN}")
}

#[test]
fn references_and_schemas() {
    let over = |plan: &str| format!("{plan}\n  {SCAN}");
    let join = "Join Inner on [t2.c1 = t1.c1]\n  TableScan 1 [t1.c1:int]\n  TableScan 2 [t2.c1:int]";
    let wide: Vec<String> = (1..=65).map(|name| format!("c{name}:int")).collect();
    let wide = format!("TableScan 1 [{}]", wide.join(", "));
    let joined = format!("Join LeftSemi\n  {}\n  TableScan 2 [t2.c9:int]", wide.replace(", c65:int", ""));
    all_say(&[
        (
            &filter("t1.c9 > 5"),
            6,
            2,
            "record 2 (Column): t1.c9 is none of the fields here: t1.c1:int, t1.c2:bool, t2.c2:int",
        ),
        (&filter("c2"), 6, 1, "record 1 (Column): c2 is none of the fields here: t1.c2:bool, t2.c2:int, t1.c1:int"),
        ("Filter c1\n  TableScan 1 []", 6, 1, "record 1 (Column): c1 is no field here; there are none"),
        (join, 6, 6, "record 6 (Column): t2.c1 is none of the fields here: t1.c1:int"),
        (
            "TableScan 1 [t1.c1:int, t1.c1:bool]",
            6,
            0,
            "record 0 (TableScan): two fields are t1.c1, of the records 1 and 2",
        ),
        (
            &over("Projection [c1 := 5, t3.c1 := t1.c2]"),
            6,
            0,
            "record 0 (Projection): the fields c1 and t3.c1, of the records 1 and 3, share a name, and c1 has no \
             qualifier to tell them apart",
        ),
        (&over("SubqueryAlias t4"), 6, 0, "record 0 (SubqueryAlias): two fields are t4.c2, of the records 3 and 4"),
        (&wide, 6, 0, "record 0 (TableScan): it has 65 fields; at most 64"),
        (&joined, 6, 0, "record 0 (Join): both inputs together have 65 fields; at most 64"),
    ]);
}

#[test]
fn types() {
    let over = |plan: &str| format!("{plan}\n  {SCAN}");
    let scans = "Union\n  TableScan 1 [t1.c1:int]\n  TableScan 1 [t1.c1:bool]";
    all_say(&[
        (&filter("t1.c1 = t1.c2"), 7, 1, "record 1 (BinaryExpr): = takes one type; t1.c1 is int, t1.c2 is bool"),
        (&filter("t1.c1 AND t1.c2"), 7, 1, "record 1 (BinaryExpr): AND takes bool; t1.c1 is int"),
        (&filter("NOT NULL:int"), 7, 1, "record 1 (Not): NOT takes bool; NULL:int is int"),
        (&filter("t1.c1 IS NOT TRUE"), 7, 1, "record 1 (test): this test takes bool; t1.c1 is int"),
        (&filter("t1.c1 IN (1, 2, TRUE)"), 7, 1, "record 1 (InList): IN takes one type; t1.c1 is int, TRUE is bool"),
        (
            &filter("t1.c1 BETWEEN 1 AND t1.c2"),
            7,
            1,
            "record 1 (Between): BETWEEN takes one type; t1.c1 is int, t1.c2 is bool",
        ),
        (&filter("f1:int(t1.c1)"), 7, 0, "record 0 (Filter): a Filter takes bool; f1:int(t1.c1) is int"),
        ("TableScan 1 [] filters [5]", 7, 0, "record 0 (TableScan): a scan's filter takes bool; 5 is int"),
        (
            "Join Full filter 5\n  TableScan 1 []\n  TableScan 1 []",
            7,
            0,
            "record 0 (Join): a join's filter takes bool; 5 is int",
        ),
        (
            "Join Full on [1 = t2.c1]\n  TableScan 1 []\n  TableScan 2 [t2.c1:bool]",
            7,
            4,
            "record 4 (key pair): a key pair takes one type; 1 is int, t2.c1 is bool",
        ),
        (
            &over("Aggregate entries [c1 := Min(t1.c2)]"),
            7,
            1,
            "record 1 (aggregate entry): Min takes int; t1.c2 is bool",
        ),
        (&over("Window [c9 := Max(TRUE)]"), 7, 1, "record 1 (window entry): Max takes int; TRUE is bool"),
        (
            scans,
            7,
            0,
            "record 0 (Union): inputs of a Union share types; the first and input 2: field 1 is int and bool",
        ),
        (
            "Union\n  TableScan 1 []\n  TableScan 2 [c1:int]",
            7,
            0,
            "record 0 (Union): inputs of a Union share types; the first and input 2: 0 fields and 1: [] and [int]",
        ),
        (
            &scans.replace("Union", "Join Full").replace("c1:bool", "c2:bool"),
            7,
            3,
            "record 3 (TableScan): scans of a table share types; here and at record 1: field 1 is bool and int",
        ),
    ]);
}

#[test]
fn children_and_lists() {
    all_say(&[
        (
            "Projection []\n  TableScan 1 []",
            5,
            0,
            "record 0 (Projection): its children must be 1 or more entries, one plan; they are TableScan",
        ),
        (
            &filter("t1.c1 IN ()"),
            5,
            1,
            "record 1 (InList): its children must be 2 or more expressions; they are Column",
        ),
        (
            "Aggregate\n  TableScan 1 []",
            5,
            0,
            "record 0 (Aggregate): its children must be any entries, any aggregate entries, one plan, and at least one \
             entry of either sort; they are TableScan",
        ),
        (&filter(&["t1.c2"; 129].join(" AND ")), 5, 0, "record 0 (Filter): 129 conjuncts; at most 128"),
        (
            &format!("TableScan 1 [] filters [{}]", ["TRUE"; 129].join(", ")),
            5,
            0,
            "record 0 (TableScan): 129 filters; at most 128",
        ),
    ]);
    let mut records = read(&image(&filter("t1.c2 AND t1.c2"), &Names::NONE));
    // a plan in an expression's place, then an expression alone
    records[3].label = records[4].label;
    let said = "record 1 (BinaryExpr): its children must be 2 expressions; they are Column, TableScan";
    assert_eq!(explained(&write(&records), 5, 1, &Names::NONE), said);
    let column = read(&image(&filter("t1.c2"), &Names::NONE))[1].label;
    let alone = write(&[Record { label: column, first: 0, next: 0 }]);
    assert_eq!(explained(&alone, 5, 0, &Names::NONE), "record 0 (Column): the root must be a plan");
    let deep = format!("{}{}", "NOT ".repeat(255), "t1.c2");
    let said = "record 256 (Column): stands at depth 257; at most 256";
    assert_eq!(explained(&image(&filter(&deep), &Names::NONE), 4, 256, &Names::NONE), said);
}

/// The Filter t1.c1 > 5 over a scan with one word changed.
fn changed(at: usize, place: usize, word: u32) -> Vec<u8> {
    let mut records = read(&image("Filter t1.c1 > 5\n  TableScan 1 [t1.c1:int]", &Names::NONE));
    let mut words = records[at].words();
    words[place] = word;
    records[at] = Record::of_words(words);
    write(&records)
}

#[test]
fn words_and_links() {
    let cases = [
        (1, 1, 9, 2, "record 1 (BinaryExpr): its word p, the operator, is 9; it must be 1 to 8"),
        (2, 2, 0, 2, "record 2 (Column): its word q, the name, is 0; it must not be 0"),
        (0, 5, 7, 2, "record 0 (Filter): its word hi, which is not used, is 7; it must be 0"),
        (5, 3, 0, 2, "record 5 (field): its word r, the type, is 0; it must be 1 to 2"),
        (
            0,
            6,
            2,
            3,
            "record 0 (Filter): its first is 2; it must be 0, for no child, or 1, the next record that is not read",
        ),
        (
            2,
            7,
            9,
            3,
            "record 2 (Column): its next is 9; it must be 0, for no sibling, or 3, the next record that is not read",
        ),
        (5, 7, 6, 3, "record 5 (field): its next is 6; all records are read, so it must be 0"),
        (0, 7, 1, 3, "record 0 (Filter): its next is 1; the root has no sibling, so it must be 0"),
    ];
    for (at, place, word, number, line) in cases {
        assert_eq!(explained(&changed(at, place, word), number, at as u32, &Names::NONE), line);
    }
    let said = "record 4 (TableScan): no link leads here, nor to the 1 behind it";
    assert_eq!(explained(&changed(1, 7, 0), 3, 4, &Names::NONE), said);
}

#[test]
fn calls() {
    let image = image(&filter("f7:bool(t1.c1)"), &Names::NONE);
    let said = |number: u32, record: u32| explain(&image, Refusal::new(number, record), &Names::NONE);
    assert_eq!(said(8, 1), "record 1 (function): it is no plan");
    assert_eq!(said(8, 3), "record 3 (TableScan): a row test asks for a Filter");
    assert_eq!(said(8, 9), "record 9: there is no such record; the last is 6");
    let function = "the predicate holds the function f7:bool(t1.c1) at record 1, whose meaning is not known";
    assert_eq!(said(10, 0), format!("record 0 (Filter): {function}"));
    assert_eq!(said(12, 0), "record 0: the output is shorter than the answer");
    assert_eq!(said(17, 0), "record 0: a test that is newer than this crate");
    assert!(said(11, 3).starts_with("record 3: the answer, or the plan after a merge of Filters"));
    // no ground for the refusal
    assert_eq!(said(1, 0), "record 0: length 0, not whole records, or over 2,048 records");
    assert_eq!(said(7, 0), "record 0 (Filter): a type rule broken");
}

#[test]
fn names_are_used() {
    let names = Names::read("table 3 orders\nqualifier 3 orders\nname 7 price\nname 8 open\n").expect("names");
    let text = "Filter orders.open > 5\n  TableScan orders [orders.price:int]";
    let said = "record 2 (Column): orders.open is none of the fields here: orders.price:int";
    assert_eq!(explained(&image(text, &names), 6, 2, &names), said);
}
