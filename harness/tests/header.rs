//! include/push_down_filter.h says the numbers of the sources: every constant that a source has for callers stands in the header, every
//! constant of the header stands in a source, and they are equal; so are those of the Rust crate, which the harness uses. The
//! version is one throughout. The functions that the header declares are those that the sources export, under the contracts of the
//! library.

use std::collections::{BTreeMap, BTreeSet};
use std::fs;
use std::path::Path;

use harness::image;
use harness::kinds::{self, boolean, column, field, function, in_list, scan, sort, sort_key};
use harness::limits;

const KINDS: &str = "crates/plan/src/kinds.rt";
const WORDS: &str = "crates/plan/src/words.rt";
const LIMITS: &str = "crates/image/src/limits.rt";
const RECORDS: &str = "crates/image/src/records.rt";
const REFUSALS: &str = "crates/image/src/refusals.rt";
const TRUTHS: &str = "crates/call_row_test/src/testing.rt";
const LIBRARY: &str = "crates/push_down_filter/src/lib.rt";
const EXPORTS: &str = "crates/push_down_filter_c/src/lib.rt";

/// The header's prefix, the source, and the names that follow the prefix; `a=b` where the source says a and the header b.
const SAID: [(&str, &str, &str); 13] = [
    (
        "KIND_",
        KINDS,
        "COLUMN INTEGER_LITERAL BOOLEAN_LITERAL NULL_LITERAL BINARY_EXPR NOT TEST BETWEEN IN_LIST FUNCTION",
    ),
    (
        "KIND_",
        KINDS,
        "TABLE_SCAN FILTER PROJECTION JOIN SUBQUERY_ALIAS UNION DISTINCT SORT REPARTITION LIMIT AGGREGATE",
    ),
    ("KIND_", KINDS, "WINDOW FIELD ENTRY PAIR SORT_KEY AGGREGATE_ENTRY WINDOW_ENTRY"),
    ("OPERATOR_", WORDS, "AND OR EQ NOT_EQ LT LT_EQ GT GT_EQ"),
    ("TEST_", WORDS, "IS_NULL IS_NOT_NULL IS_TRUE IS_FALSE IS_UNKNOWN IS_NOT_TRUE IS_NOT_FALSE IS_NOT_UNKNOWN"),
    ("JOIN_", WORDS, "INNER LEFT RIGHT FULL LEFT_SEMI RIGHT_SEMI LEFT_ANTI RIGHT_ANTI"),
    ("AGGREGATE_", WORDS, "COUNT MIN MAX"),
    ("TYPE_", WORDS, "INTEGER BOOLEAN"),
    ("FUNCTION_", WORDS, "VOLATILE LEAFWARD VOLATILE_LEAFWARD"),
    ("", WORDS, "TRUE=LITERAL_TRUE NEGATED FETCHES=SORT_FETCHES MARKED=FIELD_MARKED"),
    ("", REFUSALS, "GRANTED"),
    ("", LIMITS, "RECORD_BYTES MAX_RECORDS MAX_BYTES MAX_DEPTH MAX_FIELDS MAX_LIST"),
    ("AT_", RECORDS, "KIND P Q R LO HI FIRST_LINK NEXT_LINK"),
];

/// What the sources say for themselves alone: where each sort of kinds begins and ends, no type, what a count stops at.
const INNER: &str =
    "FIRST_EXPRESSION LAST_EXPRESSION FIRST_PLAN LAST_PLAN FIRST_PART LAST_PART NO_TYPE NO_ROOM TOO_MANY_FIELDS \
                     TOO_MANY MAP_BYTES";

/// The numbers of answers: the header's name, the source, and the arm that gives it.
const ANSWERED: [(&str, &str, &str); 15] = [
    ("BUFFER", REFUSALS, "Refusal::Buffer"),
    ("RECORD", REFUSALS, "Refusal::Record(_)"),
    ("LINK", REFUSALS, "Refusal::Link(_)"),
    ("DEPTH", REFUSALS, "Refusal::Depth(_)"),
    ("FORM", REFUSALS, "Refusal::Form(_)"),
    ("NAME", REFUSALS, "Refusal::Names(_)"),
    ("TYPE", REFUSALS, "Refusal::Types(_)"),
    ("CALL", REFUSALS, "Refusal::Absent(_)"),
    ("ROW", REFUSALS, "Refusal::Row"),
    ("FUNCTION", REFUSALS, "Refusal::Function(_)"),
    ("RESULT", REFUSALS, "Refusal::TooLarge(_)"),
    ("OUTPUT", REFUSALS, "Refusal::NoRoom"),
    ("FALSE", TRUTHS, "Truth::False"),
    ("TRUE", TRUTHS, "Truth::True"),
    ("UNKNOWN", TRUTHS, "Truth::Unknown"),
];

/// Said by the harness alone of all that the header is compared with.
const UNNAMED: &str = "KEY_DESCENDING";

const PREFIX: &str = "PUSH_DOWN_FILTER_";

type Constants = BTreeMap<String, u64>;

fn read(path: &str) -> String {
    let root = Path::new(env!("CARGO_MANIFEST_DIR")).join("..");
    fs::read_to_string(root.join(path)).unwrap_or_else(|e| panic!("{path}: {e}"))
}

/// A number, or a product of numbers and of names that were read before.
fn value(text: &str, before: &Constants) -> Option<u64> {
    let factor = |word: &str| word.parse().ok().or_else(|| before.get(word.trim_start_matches(PREFIX)).copied());
    text.split('*').map(|word| factor(word.trim())).product()
}

/// The text without what stands between /* and */.
fn without_comments(text: &str) -> String {
    let mut pieces = text.split("/*");
    let first = pieces.next().unwrap_or_default().to_string();
    pieces.fold(first, |code, piece| code + piece.split_once("*/").expect("a comment ends").1)
}

/// The constants of the header's enums, without their prefix.
fn of_header() -> Constants {
    let code = without_comments(&read("include/push_down_filter.h"));
    let mut found = Constants::new();
    for body in code.split("enum {").skip(1).map(|rest| rest.split('}').next().unwrap()) {
        for constant in body.split(',') {
            let (name, text) = constant.split_once('=').unwrap_or_else(|| panic!("{constant} has no number"));
            let name = name.trim().strip_prefix(PREFIX).unwrap_or_else(|| panic!("{name} has no prefix"));
            let value = value(text, &found).unwrap_or_else(|| panic!("{name} is {text}"));
            assert!(found.insert(name.to_string(), value).is_none(), "{name} stands twice");
        }
    }
    found
}

/// The constants of a source whose value is a number or a product of such; of others the name with no value.
fn of_source(path: &str) -> BTreeMap<String, Option<u64>> {
    let (mut found, mut known) = (BTreeMap::new(), Constants::new());
    for line in read(path).lines() {
        let Some(constant) = line.trim_start_matches("pub ").strip_prefix("const ") else { continue };
        let (name, rest) = constant.split_once(':').expect("a constant has a type");
        let text = rest.split_once('=').expect("a constant has a value").1.trim_end_matches(';');
        let value = value(text, &known);
        known.extend(value.map(|value| (name.to_string(), value)));
        found.insert(name.to_string(), value);
    }
    found
}

/// The number that an arm of a `match` gives.
fn of_arm(path: &str, arm: &str) -> u64 {
    let text = read(path);
    let body = text.split(if arm.starts_with("Truth") { "fn truth_number" } else { "fn number" }).nth(1);
    let mut lines = body.unwrap_or_else(|| panic!("{path} gives no number")).lines();
    let line = lines.find_map(|line| line.trim().strip_prefix(arm)?.strip_prefix(" => "));
    let number = line.unwrap_or_else(|| panic!("{path}: no arm {arm}")).trim_end_matches(',');
    number.parse().unwrap_or_else(|_| panic!("{path}: {arm} gives {number}"))
}

/// The header's name of each constant of `SAID` beside what its source says.
fn said() -> Vec<(String, &'static str, &'static str, Option<u64>)> {
    let sources: BTreeMap<_, _> = [KINDS, WORDS, LIMITS, RECORDS, REFUSALS].map(|path| (path, of_source(path))).into();
    let named = |(prefix, path, names): (&'static str, &'static str, &'static str)| {
        let sources = &sources;
        names.split(' ').map(move |name| {
            let (name, after) = name.split_once('=').unwrap_or((name, name));
            (format!("{prefix}{after}"), path, name, sources[path].get(name).copied().flatten())
        })
    };
    SAID.iter().copied().flat_map(named).collect()
}

#[test]
fn the_header_says_the_numbers_of_the_sources() {
    let header = of_header();
    for (name, path, source, value) in said() {
        assert!(value.is_some(), "{path} has no number {source}");
        assert_eq!(header.get(&name).copied(), value, "{name}, which is {source} of {path}");
    }
    for (name, path, arm) in ANSWERED {
        assert_eq!(header.get(name).copied(), Some(of_arm(path, arm)), "{name}, which is {arm} of {path}");
    }
}

#[test]
fn none_is_missing_on_either_side() {
    let said = said();
    for path in [KINDS, WORDS, LIMITS, RECORDS, REFUSALS] {
        let mut names: BTreeSet<String> = of_source(path).into_keys().collect();
        names.retain(|name| !said.iter().any(|(_, from, said, _)| path == *from && name == said));
        names.retain(|name| !INNER.split_whitespace().any(|inner| inner == name));
        assert!(names.is_empty(), "{path} has constants that the header lacks: {names:?}");
    }
    let mut names: BTreeSet<String> = of_header().into_keys().collect();
    names.retain(|name| name != UNNAMED && !said.iter().any(|(said, ..)| name == said));
    names.retain(|name| !ANSWERED.iter().any(|(answered, ..)| name == answered));
    assert!(names.is_empty(), "the header has constants that no source has: {names:?}");
}

/// What the harness names, and words that its constructors write.
fn of_harness() -> Vec<(&'static str, u64)> {
    let leaf = || column(0, 1);
    let marked = field(0, 1, kinds::OF_INTEGER, true);
    let bits = [
        ("LITERAL_TRUE", boolean(true).label.p),
        ("NEGATED", in_list(true, vec![leaf()]).label.p),
        ("SORT_FETCHES", sort(Some(0), vec![], scan(1, vec![])).label.p),
        ("KEY_DESCENDING", sort_key(true, leaf()).label.p),
        ("FIELD_MARKED", marked.label.lo),
        ("KIND_FUNCTION", function(1, 0, kinds::OF_INTEGER, vec![]).label.kind),
    ];
    let sizes = [
        ("RECORD_BYTES", image::RECORD_BYTES),
        ("MAX_RECORDS", limits::RECORDS),
        ("MAX_BYTES", limits::RECORDS * image::RECORD_BYTES),
        ("MAX_DEPTH", limits::DEPTH),
        ("MAX_FIELDS", limits::FIELDS),
        ("MAX_LIST", limits::LIST),
        ("AT_FIRST_LINK", image::WORD_BYTES * image::FIRST),
        ("AT_NEXT_LINK", image::WORD_BYTES * image::NEXT),
    ];
    let words = kinds_of_harness().into_iter().chain(words_of_harness()).chain(bits);
    words.map(|(name, word)| (name, word.into())).chain(sizes.map(|(name, size)| (name, size as u64))).collect()
}

fn kinds_of_harness() -> [(&'static str, u32); 28] {
    [
        ("KIND_COLUMN", kinds::COLUMN),
        ("KIND_INTEGER_LITERAL", kinds::INTEGER),
        ("KIND_BOOLEAN_LITERAL", kinds::BOOLEAN),
        ("KIND_NULL_LITERAL", kinds::NULL),
        ("KIND_BINARY_EXPR", kinds::BINARY),
        ("KIND_NOT", kinds::NOT),
        ("KIND_TEST", kinds::TEST),
        ("KIND_BETWEEN", kinds::BETWEEN),
        ("KIND_IN_LIST", kinds::IN_LIST),
        ("KIND_FUNCTION", kinds::FUNCTION),
        ("KIND_TABLE_SCAN", kinds::SCAN),
        ("KIND_FILTER", kinds::FILTER),
        ("KIND_PROJECTION", kinds::PROJECTION),
        ("KIND_JOIN", kinds::JOIN),
        ("KIND_SUBQUERY_ALIAS", kinds::ALIAS),
        ("KIND_UNION", kinds::UNION),
        ("KIND_DISTINCT", kinds::DISTINCT),
        ("KIND_SORT", kinds::SORT),
        ("KIND_REPARTITION", kinds::REPARTITION),
        ("KIND_LIMIT", kinds::LIMIT),
        ("KIND_AGGREGATE", kinds::AGGREGATE),
        ("KIND_WINDOW", kinds::WINDOW),
        ("KIND_FIELD", kinds::FIELD),
        ("KIND_ENTRY", kinds::ENTRY),
        ("KIND_PAIR", kinds::KEY_PAIR),
        ("KIND_SORT_KEY", kinds::SORT_KEY),
        ("KIND_AGGREGATE_ENTRY", kinds::AGGREGATE_ENTRY),
        ("KIND_WINDOW_ENTRY", kinds::WINDOW_ENTRY),
    ]
}

fn words_of_harness() -> [(&'static str, u32); 21] {
    [
        ("OPERATOR_AND", kinds::AND),
        ("OPERATOR_OR", kinds::OR),
        ("OPERATOR_EQ", kinds::EQ),
        ("OPERATOR_NOT_EQ", kinds::NOT_EQ),
        ("OPERATOR_LT", kinds::LT),
        ("OPERATOR_LT_EQ", kinds::LT_EQ),
        ("OPERATOR_GT", kinds::GT),
        ("OPERATOR_GT_EQ", kinds::GT_EQ),
        ("JOIN_INNER", kinds::INNER),
        ("JOIN_LEFT", kinds::LEFT),
        ("JOIN_RIGHT", kinds::RIGHT),
        ("JOIN_FULL", kinds::FULL),
        ("JOIN_LEFT_SEMI", kinds::LEFT_SEMI),
        ("JOIN_RIGHT_SEMI", kinds::RIGHT_SEMI),
        ("JOIN_LEFT_ANTI", kinds::LEFT_ANTI),
        ("JOIN_RIGHT_ANTI", kinds::RIGHT_ANTI),
        ("AGGREGATE_COUNT", kinds::COUNT),
        ("AGGREGATE_MIN", kinds::MIN),
        ("AGGREGATE_MAX", kinds::MAX),
        ("TYPE_INTEGER", kinds::OF_INTEGER),
        ("TYPE_BOOLEAN", kinds::OF_BOOLEAN),
    ]
}

#[test]
fn the_header_says_the_numbers_of_the_harness() {
    let (header, harness) = (of_header(), of_harness());
    for (name, value) in &harness {
        assert_eq!(header.get(*name), Some(value), "{name}");
    }
    for name in header.keys().filter(|name| ["KIND_", "OPERATOR_", "JOIN_"].iter().any(|sort| name.starts_with(sort))) {
        assert!(harness.iter().any(|(said, _)| said == name), "{name} is not compared with the harness");
    }
}

#[test]
fn the_version_is_one() {
    let header = read("include/push_down_filter.h");
    let of_code = of_source(LIBRARY);
    let version = ["MAJOR", "MINOR", "PATCH"].map(|part| {
        let name = format!("#define {PREFIX}VERSION_{part} ");
        let line = header.lines().find_map(|line| line.strip_prefix(&name));
        let number: u64 = line.unwrap_or_else(|| panic!("no {name}")).parse().expect("a number");
        assert_eq!(of_code[part], Some(number), "{part} of {LIBRARY}");
        assert!(number < 1000, "{part} is {number}, and has three digits in the number of the version");
        number
    });
    let [major, minor, patch] = version;
    let definition = format!("version = 1000000 * {major} + 1000 * {minor} + {patch}");
    let boundary = read("crates/push_down_filter/specs/Boundary.antt");
    assert!(boundary.lines().any(|line| line == definition), "Boundary.antt does not say {definition}");
    let bindings = format!("version = \"{major}.{minor}.{patch}\"");
    let cargo = read("bindings/rust/Cargo.toml");
    let said = cargo.lines().find(|line| line.starts_with("version"));
    assert_eq!(said, Some(bindings.as_str()), "bindings/rust/Cargo.toml");
}

/// The functions of a source that begin so: their names, and the whole head of each, clauses too, however its lines are broken.
fn heads(path: &str, begin: &str) -> BTreeMap<String, String> {
    let head = |rest: &str| {
        let words: Vec<&str> = rest.split("\n{").next().unwrap().split_whitespace().collect();
        let line = words.join(" ").replace("( ", "(").replace(", )", ")");
        (line.split('(').next().unwrap().to_string(), line)
    };
    read(path).split(begin).skip(1).map(head).collect()
}

#[test]
fn the_exports_are_those_of_the_library_and_of_the_header() {
    let exports = heads(EXPORTS, "\n#[unsafe(no_mangle)]\npub extern \"C\" fn ");
    assert_eq!(exports, heads(LIBRARY, "\npub fn "));
    let header = without_comments(&read("include/push_down_filter.h"));
    let named = header.split(|c: char| !c.is_alphanumeric() && !"_(".contains(c));
    let declared: BTreeSet<&str> = named.filter_map(|word| word.split_once('(')).map(|(name, _)| name).collect();
    let declared = declared.into_iter().filter(|name| name.starts_with("push_down_filter_"));
    assert!(
        declared.eq(exports.keys().map(String::as_str)),
        "the header declares other functions than {EXPORTS} exports"
    );
}
