//! Plans that are built come back from their images and texts, and images that are no plan's are refused with words.

use push_down_filter::image::{read, write, Record};
use push_down_filter::{
    all, bare, col, count, field, function, lit, max, min, name, not, null, scan, union, AggregateKind, Expr, JoinKind,
    Names, Operator, Plan, Reason, Test, Type,
};
use Type::{Boolean, Integer};

fn table() -> Plan {
    scan(1, [field(1, 1, Integer).marked(), field(1, 2, Boolean), field(0, 3, Integer)])
}

/// At least one expression of every kind, operator and test.
fn exprs() -> Vec<Expr> {
    let (a, b) = (|| col(1, 1), || col(1, 2));
    let mut exprs = vec![
        b(),
        lit(true),
        not(b()),
        !b().and(false),
        null(Boolean).or(b()).or(b().and(b())),
        a().eq(5),
        a().not_eq(i64::MIN),
        a().lt(i64::MAX),
        a().lt_eq(-1),
        a().gt(null(Integer)),
        lit(5).gt_eq(a()),
        a().between(1, bare(3)),
        a().not_between(1, 2),
        a().in_list([1, 2, 3]),
        b().not_in_list([b(), lit(false)]),
        a().is_null(),
        a().is_not_null(),
        b().is_true(),
        b().is_false(),
        b().is_unknown(),
        b().is_not_true(),
        b().is_not_false(),
        b().is_not_unknown(),
        function(0, Boolean, []),
        function(u32::MAX, Boolean, [a(), b(), lit(1)]).volatile(),
        function(7, Integer, [a()]).leafward().eq(1),
        function(7, Boolean, []).volatile().leafward(),
        all([b(), a().gt(1), b()]),
        all([]),
        name(1, 2).into(),
    ];
    exprs.extend(Operator::ALL.iter().map(|operator| b().binary(*operator, b())));
    exprs.extend(Test::ALL.iter().map(|test| b().test(*test)));
    exprs
}

/// At least one plan of every kind and of every join, and each of the expressions in a Filter.
fn plans() -> Vec<Plan> {
    let right = || scan(2, [field(0, 1, Integer)]).alias(2);
    let mut plans = vec![
        scan(0, []),
        table().scan_filters([col(1, 1).gt(1), lit(true)]),
        table().project([col(1, 1).named(0, 9), lit(5).named(4, 1)]),
        union([table(), table().distinct(), table().repartition()]),
        table().sort([]),
        table().sort([col(1, 1).asc(), bare(3).desc()]),
        table().sort_fetch([col(1, 1).desc()], 0),
        table().limit(2, u32::MAX),
        table().aggregate([col(1, 2).named(1, 2)], []),
        table().aggregate([], [count(5).named(0, 1), min(col(1, 1)).named(0, 2), max(bare(3)).named(3, 3)]),
        table().aggregate([bare(3).named(0, 3)], [count(col(1, 2)).named(0, 4)]),
        table().window([count(bare(3)).over([]).named(0, 8), max(bare(3)).over([name(1, 1), name(0, 3)]).named(0, 9)]),
        table().join(JoinKind::Inner, right()).plan(),
        union([table().join(JoinKind::LeftSemi, right()), table().join(JoinKind::LeftAnti, right())]),
    ];
    let join =
        |kind: &JoinKind| table().join(*kind, right()).on(col(1, 1), col(2, 1)).on(bare(3), 7).filter(col(1, 2)).plan();
    plans.extend(JoinKind::ALL.iter().map(join));
    plans.extend(exprs().into_iter().map(|expr| table().filter(expr)));
    plans
}

#[test]
fn every_plan_comes_back() {
    for plan in plans() {
        let image = plan.to_image();
        let read = Plan::from_image(&image).unwrap_or_else(|error| panic!("{plan:?}: {error}"));
        assert_eq!(read, plan);
        assert_eq!(read.to_image(), image);
        let text = plan.to_text(&Names::NONE);
        assert_eq!(Plan::from_text(&text, &Names::NONE).as_ref(), Ok(&plan), "{text}");
    }
}

#[cfg(feature = "library")]
#[test]
fn every_plan_is_accepted() {
    for plan in plans() {
        assert_eq!(plan.check(), Ok(()), "{}", plan.to_text(&Names::NONE));
    }
}

#[test]
fn records_are_as_the_format_has_them() {
    let plan = scan(1, [field(1, 1, Integer).marked()]).filter(col(1, 1).gt(5));
    let words: Vec<[u32; 8]> = read(&plan.to_image()).iter().map(Record::words).collect();
    let expected = [
        [33, 0, 0, 0, 0, 0, 1, 0],
        [5, 7, 0, 0, 0, 0, 2, 4],
        [1, 1, 1, 0, 0, 0, 0, 3],
        [2, 0, 0, 0, 5, 0, 0, 0],
        [32, 1, 0, 0, 0, 0, 5, 0],
        [48, 1, 1, 1, 1, 0, 0, 0],
    ];
    assert_eq!(words, expected);
    assert_eq!(plan.plans().iter().map(|(record, _)| *record).collect::<Vec<u32>>(), [0, 4]);
}

#[test]
fn numbers_and_members_agree() {
    let numbers = |count: usize| (1..=count as u32).collect::<Vec<u32>>();
    assert_eq!(Type::ALL.iter().map(|of| of.number()).collect::<Vec<u32>>(), numbers(2));
    assert_eq!(AggregateKind::ALL.iter().map(|of| of.number()).collect::<Vec<u32>>(), numbers(3));
    for (place, number) in (1..=8).enumerate() {
        assert_eq!(Operator::of_number(number), Some(Operator::ALL[place]));
        assert_eq!(Test::of_number(number), Some(Test::ALL[place]));
        assert_eq!(JoinKind::of_number(number), Some(JoinKind::ALL[place]));
    }
    assert_eq!((Type::of_number(0), Type::of_number(3)), (None, None));
}

/// The error of an image, as it is printed.
fn refused(image: &[u8]) -> String {
    Plan::from_image(image).expect_err("no plan").to_string()
}

#[test]
fn other_images_are_refused() {
    assert_eq!(refused(&[]), "refused 1: record 0: there are no bytes");
    assert_eq!(refused(&[0; 40]), "refused 1: record 0: 40 bytes are no whole records of 32: 8 are left over");
    assert_eq!(refused(&[0; 2049 * 32]), "refused 1: record 0: 2049 records; at most 2048");
    let good = table().filter(col(1, 2)).to_image();
    let mut records = read(&good);
    records[1].label.kind = 11;
    let unknown = "kind 11; expressions are 1 to 10, plans 32 to 43, parts of plans 48 to 53";
    assert_eq!(refused(&write(&records)), format!("refused 2: record 1 (unknown kind): {unknown}"));
    let error = Plan::from_image(&write(&read(&good)[1..2])).expect_err("a Column alone");
    assert_eq!((error.refusal.reason, error.refusal.record), (Reason::Link, 0));
}

/// What the check refuses for its names, its types or its size is a plan all the same.
#[test]
fn unsound_plans_are_written() {
    for plan in [table().filter(col(9, 9)), table().filter(5), union([scan(1, []), table()])] {
        assert_eq!(Plan::from_image(&plan.to_image()), Ok(plan));
    }
    let conjuncts = |length: usize| table().filter(all((0..length).map(|_| col(1, 2))));
    assert_eq!(Plan::from_image(&conjuncts(128).to_image()), Ok(conjuncts(128)));
    assert_eq!(refused(&conjuncts(129).to_image()), "refused 5: record 0 (Filter): 129 conjuncts; at most 128");
    let deep = |levels: usize| (1..levels).fold(scan(1, []), |plan, _| plan.distinct());
    assert_eq!(Plan::from_image(&deep(256).to_image()), Ok(deep(256)));
    assert_eq!(refused(&deep(257).to_image()), "refused 4: record 256 (TableScan): stands at depth 257; at most 256");
}

#[test]
#[should_panic(expected = "only a function can be volatile")]
fn a_mark_is_not_lost() {
    let _ = col(1, 1).gt(function(1, Integer, [])).volatile();
}
