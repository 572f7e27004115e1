//! Every call, granted and refused, on bytes and on plans: the Filter t.c > 5 over a scan of table 1, c marked.

use push_down_filter::{check, col, field, function, scan, Plan, Type::Integer, Value};
use push_down_filter::{row_test, Reason, Refusal, Truth};

const PLAN: [[u32; 8]; 6] = [
    [33, 0, 0, 0, 0, 0, 1, 0],
    [5, 7, 0, 0, 0, 0, 2, 4],
    [1, 1, 1, 0, 0, 0, 0, 3],
    [2, 0, 0, 0, 5, 0, 0, 0],
    [32, 1, 0, 0, 0, 0, 5, 0],
    [48, 1, 1, 1, 1, 0, 0, 0],
];

fn image() -> Vec<u8> {
    PLAN.iter().flatten().flat_map(|word| word.to_le_bytes()).collect()
}

/// The scan with the predicate, which is what a rewrite or a pass leaves.
fn answer() -> Vec<u8> {
    const ANSWER: [[u32; 8]; 5] = [
        [32, 1, 0, 0, 0, 0, 1, 0],
        [48, 1, 1, 1, 1, 0, 0, 2],
        [5, 7, 0, 0, 0, 0, 3, 0],
        [1, 1, 1, 0, 0, 0, 0, 4],
        [2, 0, 0, 0, 5, 0, 0, 0],
    ];
    ANSWER.iter().flatten().flat_map(|word| word.to_le_bytes()).collect()
}

fn refused<T>(reason: Reason, record: u32) -> Result<T, Refusal> {
    Err(Refusal { reason, record })
}

#[test]
fn an_image_is_checked() {
    assert_eq!(check(&image()), Ok(()));
    assert_eq!(check(&[]), refused(Reason::Buffer, 0));
    let mut unknown = image();
    unknown[4 * 8 * 2 + 8] = 9;
    assert_eq!(check(&unknown), refused(Reason::Name, 2));
    let refusal = check(&unknown).expect_err("no field has that name");
    assert_eq!(refusal.to_string(), "refused 6 at 2: a reference or schema rule broken, or over 64 fields");
}

#[test]
fn a_row_is_tested() {
    assert_eq!(row_test(&image(), 0, &[6], &[0]), Ok(Truth::True));
    assert_eq!(row_test(&image(), 0, &[5], &[0]), Ok(Truth::False));
    assert_eq!(row_test(&image(), 0, &[6], &[1]), Ok(Truth::Unknown));
    assert_eq!(row_test(&image(), 4, &[6], &[0]), refused(Reason::Call, 4));
    assert_eq!(row_test(&image(), 0, &[], &[]), refused(Reason::Row, 0));
}

#[test]
fn a_plan_is_rewritten() {
    use push_down_filter::{rewrite, Rewritten};
    let mut out = [0xA5; 192];
    assert_eq!(rewrite(&image(), 0, &mut out), Ok(Rewritten { changed: true, records: 5 }));
    assert_eq!(out[..], [answer(), vec![0; 32]].concat());
    assert_eq!(rewrite(&image(), u32::MAX, &mut out), refused(Reason::Call, u32::MAX));
    assert_eq!(out, [0; 192]);
    assert_eq!(rewrite(&image(), 0, &mut out[..159]), refused(Reason::Output, 0));
    assert_eq!(rewrite(&[], 0, &mut []), refused(Reason::Buffer, 0));
}

#[test]
fn a_plan_is_passed_over() {
    use push_down_filter::{pass, Passed};
    let mut out = [0xA5; 192];
    let passed = Passed { visits: 1, changed: 1, finished: true, records: 5 };
    assert_eq!(pass(&image(), u64::MAX, &mut out), Ok(passed));
    assert_eq!(out[..passed.bytes()], answer());
    let unvisited = Passed { visits: 0, changed: 0, finished: false, records: 6 };
    assert_eq!(pass(&image(), 0, &mut out), Ok(unvisited));
    assert_eq!(out[..], image());
    assert_eq!(pass(&image()[1..], 1, &mut out), refused(Reason::Buffer, 0));
}

fn plan() -> Plan {
    scan(1, [field(1, 1, Integer).marked()]).filter(col(1, 1).gt(5))
}

#[test]
fn plans_are_called_on() {
    let answer = scan(1, [field(1, 1, Integer).marked()]).scan_filters([col(1, 1).gt(5)]);
    assert_eq!(plan().check(), Ok(()));
    let rewritten = plan().rewrite(0).expect("a plan stands at record 0");
    assert_eq!((rewritten.plan, rewritten.changed), (answer.clone(), true));
    let passed = plan().pass(10_000).expect("the plan is sound");
    assert_eq!((passed.plan, passed.visits, passed.changed, passed.finished), (answer, 1, 1, true));
    let unvisited = plan().pass(0).expect("the plan is sound");
    assert_eq!((unvisited.plan, unvisited.finished), (plan(), false));
    for (value, truth) in [(6.into(), Truth::True), (Value::Integer(5), Truth::False), (Value::Null, Truth::Unknown)] {
        assert_eq!(plan().row_test(0, &[value]), Ok(truth));
    }
}

#[test]
fn refused_plans_are_explained() {
    let said = |error: push_down_filter::Error| error.to_string();
    let unknown = plan().filter(col(1, 9).is_null());
    assert_eq!(
        unknown.check().map_err(said),
        Err("refused 6: record 2 (Column): t1.c9 is none of the fields here: t1.c1:int".into())
    );
    assert_eq!(unknown.pass(1).expect_err("unsound").refusal, Refusal { reason: Reason::Name, record: 2 });
    assert_eq!(plan().rewrite(1).map_err(said), Err("refused 8: record 1 (BinaryExpr): it is no plan".into()));
    assert_eq!(plan().row_test(0, &[]).map_err(|error| error.refusal), refused(Reason::Row, 0));
    let asked = plan().filter(function(3, Integer, []).eq(1)).row_test(0, &[6.into()]).map_err(said);
    let held = "the predicate holds the function f3:int() at record 2, whose meaning is not known";
    assert_eq!(asked, Err(format!("refused 10: record 0 (Filter): {held}")));
    let wide = scan(1, (1..=2048).map(|name| field(1, name, Integer)));
    assert_eq!(wide.check().map_err(said), Err("refused 1: record 0: 2049 records; at most 2048".into()));
}

#[test]
fn the_library_is_of_this_version() {
    let [major, minor, patch] = push_down_filter::version();
    assert_eq!(format!("{major}.{minor}.{patch}"), env!("CARGO_PKG_VERSION"));
}
