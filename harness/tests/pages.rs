//! docs/FORMAT.md, docs/MEANING.md and docs/REWRITE.md are executed: what they show is what the harness answers, and the library where
//! it is linked. A page without an example of something it should have fails as well.
//!
//! How a page is read. The first word behind a fence says what the block holds:
//! - `image`: a record a line, kind p q r lo hi first next; `n` is the record's number, `n+1` the one behind it, `x 9` at the end
//!   nine such records, `;` begins a comment. Then calls, each with its answer behind a colon.
//! - `bytes`: those of the image before it, in hex. `listing`: what the lister prints of the first plan.
//! - `plan`: a plan as text. On FORMAT the image behind it is its image, on MEANING the `rows` behind it are its rows, one a line.
//! - `tables`: the tables of the plans that follow, a row a line under `table N`.
//! - `values`: expressions and their values, `EXPR -> VALUE`, several in a line between bars.
//! - `rewrite`: a plan and what a rewrite at its root makes of it, side by side; the first line has the flag. Rows over drawn tables are
//!   compared too. `cases`: the same, each plan behind the name of its case, the flag in a third column. `pass`: the same of a pass, with
//!   the budget and the counts.
//! - `row_test`: a Filter as text, then rows with their truth.
//! - `text`: nothing that is read.

use harness::checker::{check, Verdict};
use harness::image::Tree;
use harness::source::{Build, ALL};
use harness::text::{self, Names};
use std::fs;

#[path = "pages/format.rs"]
mod format;
#[path = "pages/meaning.rs"]
mod meaning;
#[path = "pages/rewrite.rs"]
mod rewrite;

const PATCHED: Build = Build::Patched(ALL);

/// An output with room for any answer.
const ROOM: usize = 65536;

/// A fenced block: where it stands, the first word of its fence, and its lines.
struct Block {
    place: String,
    label: String,
    lines: Vec<String>,
}

fn page(name: &str) -> String {
    let path = format!("{}/../docs/{name}", env!("CARGO_MANIFEST_DIR"));
    fs::read_to_string(&path).unwrap_or_else(|error| panic!("{path}: {error}"))
}

fn blocks(name: &str) -> Vec<Block> {
    let mut blocks: Vec<Block> = Vec::new();
    let mut inside = false;
    for (number, line) in (1..).zip(page(name).lines()) {
        match line.strip_prefix("```") {
            Some(label) if !inside => {
                let (place, label) = (format!("docs/{name}:{number}"), label.to_string());
                blocks.push(Block { place, label, lines: Vec::new() });
                inside = true;
            }
            Some(_) => inside = false,
            None if inside => blocks.last_mut().expect("a block is open").lines.push(line.to_string()),
            None => {}
        }
    }
    assert!(!inside, "docs/{name}: a fence is not closed");
    blocks
}

impl Block {
    fn text(&self) -> String {
        self.lines.join("\n")
    }

    fn plan(&self) -> Tree {
        plan_of(&self.place, &self.text())
    }
}

/// A plan written as text; it must be accepted.
fn plan_of(place: &str, written: &str) -> Tree {
    let plan = text::read(written, &Names::NONE).unwrap_or_else(|trouble| panic!("{place}: {trouble}")).plan;
    assert_eq!(check(&plan.image()), Verdict::ACCEPTED, "{place}");
    plan
}

fn number<T: std::str::FromStr>(place: &str, word: &str) -> T {
    word.parse().unwrap_or_else(|_| panic!("{place}: {word} is no number"))
}
