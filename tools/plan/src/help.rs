//! What the tool says of itself. README.md holds the same texts, and tests/readme.rs compares them.

use push_down_filter::text::GRAMMAR;

pub const USAGE: &str = "\
usage: plan check FILE                          whether the plan is accepted, else what is wrong with it
       plan show [--records] FILE               the plan as text
       plan write FILE                          the plan as an image
       plan rewrite --node N FILE               the plan before and after the rewrite at record N
       plan pass [--budget N] FILE              the plan before and after a pass of at most N visits
       plan pass --html PAGE FILE               a page that shows the pass visit by visit
       plan row --node N FILE VALUE..           what the Filter at record N says of a row
       plan COMMAND --help                      more of a command
       plan --help                              this, and how a plan is written
       plan --version                           the versions of the tool and of the library that it calls

FILE holds a plan as text or as an image; which of them is seen from its bytes, unless --from says it. - is standard input.
Every command takes --from and --names, rewrite and pass take --to as well:

  --from image|text    how FILE is read
  --to image|text      only the answer, as an image or as text, so that another command can read it
  --names NAMES        words for numbers, from a names file; plans are read and shown with them

Exit status: 0 granted; 1 refused by the library; 2 words or a file that cannot be used. Refusals and troubles go to standard
error, but for those of check, whose answer they are.
";

pub const CHECK: &str = "\
usage: plan check [--from image|text] [--names NAMES] FILE

Prints 'accepted' with the number of records, of plans, and the depth; or the number of the refusal, the record, what is wrong
there, and of a text the line and the column.
";

pub const SHOW: &str = "\
usage: plan show [--records] [--from image|text] [--names NAMES] FILE

Prints the plan as text, a line for each plan.

  --records    adds the record number of each plan, as a comment; rewrite and row ask for it
";

pub const WRITE: &str = "\
usage: plan write [--from image|text] [--names NAMES] FILE

Writes the image of the plan to standard output: a record of 32 bytes for each plan, expression and part.
";

pub const REWRITE: &str = "\
usage: plan rewrite --node N [--to image|text] [--from image|text] [--names NAMES] FILE

Rewrites the plan at record N, prints the whole before and after side by side, and the flag: 1 if the rewrite says that it
changed the plan. With --to it prints the answer alone.
";

pub const PASS: &str = "\
usage: plan pass [--budget N] [--to image|text | --html PAGE] [--from image|text] [--names NAMES] FILE

Visits the root, rewrites it, then likewise the plans below what stands there now. Prints the plan before and after side by
side, and the counts: visits, how many of them raised the flag, and finished 1, or 0 if the budget ended first.

  --budget N     at most so many visits; 10,000 if not said
  --to ..        the answer alone
  --html PAGE    writes a page to the file PAGE (- is standard output) that shows each visit; the counts are still printed
";

pub const ROW: &str = "\
usage: plan row --node N [--from image|text] [--names NAMES] FILE VALUE..

Tries the predicate of the Filter at record N on one row and prints TRUE, FALSE or UNKNOWN. The values are those of the fields
of the Filter's input, in their order: integers, TRUE, FALSE or NULL.
";

/// What `plan --help` prints.
pub fn whole() -> String {
    format!("{USAGE}\n{GRAMMAR}")
}

/// The versions of the tool and of the library that it calls.
pub fn version() -> String {
    let [major, minor, patch] = push_down_filter::version();
    format!("plan {}\nlibrary {major}.{minor}.{patch}\n", env!("CARGO_PKG_VERSION"))
}
