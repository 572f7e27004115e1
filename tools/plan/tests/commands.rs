//! The program `plan`, run as a user runs it.

use push_down_filter::kinds::*;
use std::io::Write;
use std::process::{Command, Output, Stdio};

/// Runs it with the bytes as its standard input.
fn plan(words: &[&str], input: &[u8]) -> Output {
    let mut command = Command::new(env!("CARGO_BIN_EXE_plan"));
    command.args(words).stdin(Stdio::piped()).stdout(Stdio::piped()).stderr(Stdio::piped());
    let mut running = command.spawn().expect("plan can be run");
    // it may end without reading its input
    let _ = running.stdin.take().expect("its input is piped").write_all(input);
    running.wait_with_output().expect("plan ends")
}

fn text(bytes: Vec<u8>) -> String {
    String::from_utf8(bytes).expect("plan prints text")
}

fn granted(words: &[&str], input: &[u8]) -> Vec<u8> {
    let output = plan(words, input);
    assert_eq!(output.status.code(), Some(0), "{words:?}: {}", String::from_utf8_lossy(&output.stderr));
    assert!(output.stderr.is_empty(), "{words:?}");
    output.stdout
}

fn printed(words: &[&str], input: &[u8]) -> String {
    text(granted(words, input))
}

/// What stands in standard error; nothing may stand in standard output.
fn failed(status: i32, words: &[&str], input: &[u8]) -> String {
    let output = plan(words, input);
    assert_eq!(output.status.code(), Some(status), "{words:?}");
    assert!(output.stdout.is_empty(), "{words:?}");
    text(output.stderr)
}

const WORKED: &str = "Filter t1.c1 > 5\n  TableScan 1 [t1.c1:int:marked]\n";

fn worked() -> Vec<u8> {
    filter(binary(GT, column(1, 1), integer(5)), scan(1, vec![field(1, 1, OF_INTEGER, true)])).image()
}

#[test]
fn a_plan_is_written_and_shown() {
    let image = worked();
    assert_eq!(granted(&["write", "-"], WORKED.as_bytes()), image);
    assert_eq!(granted(&["write", "-"], &image), image);
    assert_eq!(printed(&["show", "-"], &image), WORKED);
    assert_eq!(printed(&["show", "-"], WORKED.as_bytes()), WORKED);
    let numbered = "Filter t1.c1 > 5  # 0\n  TableScan 1 [t1.c1:int:marked]  # 4\n";
    assert_eq!(printed(&["show", "--records", "-"], &image), numbered);
    assert_eq!(granted(&["write", "-"], numbered.as_bytes()), image);
}

#[test]
fn a_plan_is_seen_before_and_after() {
    let sides = "\
before                           | after
Filter t1.c1 > 5                 | TableScan 1 [t1.c1:int:marked] filters [t1.c1 > 5]
  TableScan 1 [t1.c1:int:marked] |
";
    for input in [WORKED.as_bytes(), &worked()] {
        assert_eq!(printed(&["pass", "-"], input), format!("{sides}visits 1 changed 1 finished 1\n"));
        assert_eq!(printed(&["rewrite", "--node", "0", "-"], input), format!("{sides}flag 1\n"));
    }
    let stopped = printed(&["pass", "--budget=0", "-"], WORKED.as_bytes());
    assert!(stopped.ends_with("\nvisits 0 changed 0 finished 0\n"), "{stopped}");
}

#[test]
fn answers_can_be_read_by_other_commands() {
    let after = "TableScan 1 [t1.c1:int:marked] filters [t1.c1 > 5]\n";
    assert_eq!(printed(&["pass", "--to", "text", "-"], WORKED.as_bytes()), after);
    assert_eq!(printed(&["rewrite", "--node", "0", "--to", "text", "-"], WORKED.as_bytes()), after);
    let image = granted(&["pass", "--to", "image", "-"], &granted(&["write", "-"], WORKED.as_bytes()));
    assert_eq!(printed(&["show", "-"], &image), after);
    assert_eq!(granted(&["rewrite", "--to", "image", "--node", "0", "-"], &worked()), image);
}

#[test]
fn a_check_answers_in_its_output() {
    assert_eq!(printed(&["check", "-"], WORKED.as_bytes()), "accepted: 6 records, 2 plans, depth 3\n");
    let refused = |input: &[u8]| {
        let output = plan(&["check", "-"], input);
        assert!(output.status.code() == Some(1) && output.stderr.is_empty());
        text(output.stdout)
    };
    assert!(refused(&[0; 32]).starts_with("-: refused 2 at 0: "));
    assert!(refused(&[0; 33]).starts_with("-: refused 1 at 0: "));
    let unknown = refused(WORKED.replace("c1 >", "c9 >").as_bytes());
    assert!(unknown.starts_with("-:1:8: refused 6 at 2: "), "{unknown}");
    assert!(unknown.contains("t1.c9 is none of the fields here: t1.c1:int\n"), "{unknown}");
    assert!(unknown.ends_with("  1 | Filter t1.c9 > 5\n    |        ^\n"), "{unknown}");
    let mixed = refused(WORKED.replace("5", "TRUE").as_bytes());
    assert!(mixed.contains("t1.c1 is int, TRUE is bool"), "{mixed}");
}

#[test]
fn refusals_exit_with_1() {
    let unknown = WORKED.replace("c1 >", "c9 >");
    for words in [vec!["write"], vec!["show"], vec!["pass"], vec!["rewrite", "--node=0"], vec!["row", "--node=0"]] {
        let why = failed(1, &[words, vec!["-"]].concat(), unknown.as_bytes());
        assert!(
            why.starts_with("-:1:8: refused 6 at 2: a reference or schema rule broken, or over 64 fields\n"),
            "{why}"
        );
    }
    assert!(failed(1, &["show", "-"], &[0; 32]).starts_with("-: refused 2 at 0: "));
    assert!(failed(1, &["show", "--from", "image", "-"], b"").starts_with("-: refused 1 at 0: "));
    assert!(failed(1, &["rewrite", "--node", "1", "-"], WORKED.as_bytes()).starts_with("-:1:14: refused 8 at 1: "));
    assert!(failed(1, &["rewrite", "--node", "9", "-"], WORKED.as_bytes()).starts_with("-: refused 8 at 9: "));
    assert!(failed(1, &["row", "--node", "4", "-", "1"], WORKED.as_bytes()).starts_with("-:2:3: refused 8 at 4: "));
}

#[test]
fn what_cannot_be_read_exits_with_2() {
    let cases: [(&str, &str); 5] = [
        ("Filter", "-:1:7: expected an expression, found the end of the line\n  1 | Filter\n    |       ^\n"),
        ("", "-:1:1: there is no plan\n"),
        ("Distinct", "-:1:1: a Distinct reads one plan; none stands below it\n"),
        (&WORKED.replace("> 5", "= NULL"), "-:1:16: a comparison with NULL is never TRUE: write IS NULL, or"),
        (&WORKED.replace("t1.c1 >", "meal.price >"), "-:1:8: "),
    ];
    for (input, why) in cases {
        let found = failed(2, &["pass", "-"], input.as_bytes());
        assert!(found.starts_with(why), "{found}");
    }
    let named = failed(2, &["pass", "-"], WORKED.replace("t1.c1 >", "meal.price >").as_bytes());
    assert!(named.ends_with("  words for numbers come from a names file: --names NAMES\n"), "{named}");
    assert_eq!(failed(2, &["write", "-"], b"\xff"), "-: neither text nor an image\n");
    assert_eq!(failed(2, &["write", "--from", "text", "-"], &[0xff; 32]), "-: neither text nor an image\n");
    assert!(failed(2, &["write", "no such file"], b"").starts_with("no such file: "));
    assert_eq!(
        printed(&["check", "-"], WORKED.replace(">", "<>").as_bytes()),
        "accepted: 6 records, 2 plans, depth 3\n"
    );
}

#[test]
fn wrong_words_exit_with_2() {
    let cases: [(&[&str], &str); 13] = [
        (&[], "usage: plan check FILE"),
        (&["look"], "plan: there is no command look\n\nusage: plan check FILE"),
        (&["show", "--all", "-"], "plan show: there is no option --all\n\nusage: plan show"),
        (&["show"], "plan show: there is no FILE"),
        (&["show", "-", "-"], "plan show: a word too many: -"),
        (&["rewrite", "-"], "plan rewrite: --node N is missing"),
        (&["rewrite", "--node", "4294967296", "-"], "plan rewrite: --node 4294967296: no number"),
        (&["pass", "--budget", "-1", "-"], "plan pass: --budget -1: no number"),
        (&["pass", "--to", "html", "-"], "plan pass: --to html: it is one of image, text"),
        (&["pass", "--to", "text", "--html", "-", "-"], "plan pass: --to and --html do not go together"),
        (&["row", "--node", "0"], "plan row: there is no FILE"),
        (
            &["row", "--node", "0", "-", "five"],
            "plan row: five is no value: an integer of 64 bits, TRUE, FALSE or NULL",
        ),
        (&["row", "--node", "0", "-", "TRUE"], "plan row: TRUE is no value of t1.c1:int"),
    ];
    for (words, why) in cases {
        let found = failed(2, words, WORKED.as_bytes());
        assert!(found.starts_with(why), "{words:?}: {found}");
    }
}

#[test]
fn a_row_is_tried() {
    let row = |values: &[&str]| printed(&[&["row", "--node", "0", "-"], values].concat(), WORKED.as_bytes());
    assert_eq!([row(&["6"]), row(&["-6"]), row(&["NULL"])], ["TRUE\n", "FALSE\n", "UNKNOWN\n"]);
    let why = failed(1, &["row", "--node", "0", "-", "1", "2"], WORKED.as_bytes());
    assert!(why.starts_with("-: refused 9 at 0: "), "{why}");
    assert!(why.ends_with("  the fields are t1.c1:int; the values are 1, 2\n"), "{why}");
}

#[test]
fn names_are_read_and_shown() {
    let folder = std::env::temp_dir().join(format!("plan-names-{}", std::process::id()));
    std::fs::create_dir_all(&folder).unwrap();
    let file = |name: &str, text: &str| {
        let path = folder.join(name);
        std::fs::write(&path, text).unwrap();
        path.display().to_string()
    };
    let names = file("good", "table 1 meals\nqualifier 1 meal\nname 1 price\n");
    let named = "Filter meal.price > 5\n  TableScan meals [meal.price:int:marked]\n";
    assert_eq!(printed(&["show", "--names", &names, "-"], WORKED.as_bytes()), named);
    assert_eq!(granted(&["write", "--names", &names, "-"], named.as_bytes()), worked());
    let why = failed(1, &["pass", "--names", &names, "-"], named.replace("price >", "c9 >").as_bytes());
    assert!(why.contains("meal.c9 is none of the fields here: meal.price:int"), "{why}");
    let wrong = file("wrong", "table 1 meals\nname one price\n");
    let why = failed(2, &["show", "--names", &wrong, "-"], WORKED.as_bytes());
    assert_eq!(
        why,
        format!(
            "{wrong}:2:6: expected a number from 0 to 4294967295, found 'one'\n  2 | name one price\n    |      ^\n"
        )
    );
    std::fs::remove_dir_all(&folder).unwrap();
}

#[test]
fn a_page_is_written() {
    let page = std::env::temp_dir().join(format!("plan-page-{}.html", std::process::id()));
    let file = page.display().to_string();
    assert_eq!(printed(&["pass", "--html", &file, "-"], WORKED.as_bytes()), "visits 1 changed 1 finished 1\n");
    let written = std::fs::read_to_string(&page).unwrap();
    std::fs::remove_file(&page).unwrap();
    assert_eq!(printed(&["pass", "--html", "-", "-"], WORKED.as_bytes()), written);
    assert!(written.starts_with("<!DOCTYPE html>") && written.contains("<title>A pass over standard input</title>"));
    assert!(failed(2, &["pass", "--html", "no such folder/page.html", "-"], WORKED.as_bytes())
        .starts_with("no such folder"));
}

#[test]
fn a_refused_pass_names_the_visit() {
    let mut text = "Filter c1\n".to_string();
    for level in 1..12 {
        text += &format!("{}Projection [c1 := f1:bool(c1, c1)]\n", "  ".repeat(level));
    }
    text += &format!("{}TableScan 1 [c1:bool]\n", "  ".repeat(12));
    let why = failed(1, &["pass", "-"], text.as_bytes());
    assert!(why.starts_with("-: refused 11 at 45: ") && why.contains("visit 10 is refused"), "{why}");
    assert_eq!(failed(1, &["pass", "--html", "-", "-"], text.as_bytes()), why);
    assert!(printed(&["pass", "--budget", "9", "-"], text.as_bytes()).ends_with("visits 9 changed 9 finished 0\n"));
}
