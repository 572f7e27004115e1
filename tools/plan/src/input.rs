//! What a command reads: a plan as text or as an image, and a names file.

use crate::arguments::Arguments;
use crate::Failure;
use push_down_filter::image::{read, Tree};
use push_down_filter::text::{self, Names, Place, Trouble, Written};
use push_down_filter::{check, explain, Reason, Refusal};
use std::io::Read;

/// A plan's image as it was read, not yet checked.
pub struct Input {
    pub file: String,
    pub image: Vec<u8>,
    pub names: Names,
    source: Option<Source>,
}

/// The text that an image was written as, and where its records stand in it.
struct Source {
    text: String,
    places: Vec<Place>,
}

fn unusable(why: String) -> Failure {
    Failure::Unusable(why)
}

impl Input {
    /// Reads a file as the options say.
    pub fn read(file: &str, arguments: &Arguments) -> Result<Input, Failure> {
        let names = arguments.value("--names").map_or(Ok(Names::NONE), names)?;
        let from = arguments.among("--from", &["image", "text"]).map_err(Failure::Misused)?;
        let bytes = bytes(file)?;
        // the first word of every image is a kind, which is below 256, so that an image holds zeros
        let is_image = from.map_or(bytes.contains(&0), |from| from == "image");
        if is_image {
            return Ok(Input { file: file.to_string(), image: bytes, names, source: None });
        }
        let text = String::from_utf8(bytes).map_err(|_| unusable(format!("{file}: neither text nor an image")))?;
        let Written { plan, places } = text::read(&text, &names)
            .map_err(|trouble| unusable(pointed(file, &text, &trouble) + hint(&trouble, &names)))?;
        Ok(Input { file: file.to_string(), image: plan.image(), names, source: Some(Source { text, places }) })
    }

    /// The plan, if the library accepts it.
    pub fn plan(&self) -> Result<Tree, Failure> {
        match check(&self.image) {
            Ok(()) => Ok(Tree::of_records(&read(&self.image))),
            Err(refusal) => Err(self.refused(refusal)),
        }
    }

    /// A refusal that names a record of the input.
    pub fn refused(&self, refusal: Refusal) -> Failure {
        Failure::Refused(self.described(refusal))
    }

    /// A refusal in words, with its place in the text.
    fn described(&self, refusal: Refusal) -> String {
        let file = &self.file;
        let line = explain(&self.image, refusal, &self.names);
        // where it has nothing to add it repeats the words of the number
        let explained = if line.ends_with(refusal.reason.words()) { String::new() } else { format!("  {line}\n") };
        match self.place(refusal) {
            Some((text, place)) => {
                let trouble = Trouble { place, what: refusal.to_string() };
                format!("{file}:{trouble}\n{explained}{}", pointer(text, place))
            }
            None => format!("{file}: {refusal}\n{explained}"),
        }
    }

    /// The text, and where in it the record stands that a refusal names.
    fn place(&self, refusal: Refusal) -> Option<(&str, Place)> {
        let Source { text, places } = self.source.as_ref()?;
        match refusal.reason {
            // these name no record
            Reason::Buffer | Reason::Row | Reason::Output => None,
            _ => places.get(refusal.record as usize).map(|place| (text.as_str(), *place)),
        }
    }
}

fn bytes(file: &str) -> Result<Vec<u8>, Failure> {
    let mut bytes = Vec::new();
    let opened: std::io::Result<Box<dyn Read>> = match file {
        "-" => Ok(Box::new(std::io::stdin())),
        _ => std::fs::File::open(file).map(|file| Box::new(file) as Box<dyn Read>),
    };
    let read = opened.and_then(|mut input| input.read_to_end(&mut bytes));
    read.map_err(|error| unusable(format!("{file}: {error}")))?;
    Ok(bytes)
}

fn names(file: &str) -> Result<Names, Failure> {
    let text = String::from_utf8(bytes(file)?).map_err(|_| unusable(format!("{file}: is no text")))?;
    Names::read(&text).map_err(|trouble| unusable(pointed(file, &text, &trouble)))
}

/// What helps where a word stands in the place of a number and no words are known.
fn hint(trouble: &Trouble, names: &Names) -> &'static str {
    let places = ["a qualifier such as", "a name such as", "a function such as"];
    let is_word = trouble.what.split_once("found '").is_some_and(|(_, found)| found.starts_with(char::is_alphabetic));
    match names.is_empty() && is_word && places.iter().any(|place| trouble.what.contains(place)) {
        true => "  words for numbers come from a names file: --names NAMES\n",
        false => "",
    }
}

/// A trouble with the line that it stands in.
fn pointed(file: &str, text: &str, trouble: &Trouble) -> String {
    format!("{file}:{trouble}\n{}", pointer(text, trouble.place))
}

/// A line of twice so many characters is shown whole, of a longer one so many on either side of a place.
const AROUND: usize = 60;

/// A line of a text, and below it a sign under the place. Of a long line only what stands around the place is shown.
fn pointer(text: &str, place: Place) -> String {
    let line: Vec<char> = text.lines().nth(place.line - 1).unwrap_or("").chars().collect();
    let column = (place.column - 1).min(line.len());
    let (from, to) = match line.len() <= 2 * AROUND {
        true => (0, line.len()),
        false => (column.saturating_sub(AROUND), (column + AROUND).min(line.len())),
    };
    let shown: String = line[from..to].iter().collect();
    let (before, after) = (if from > 0 { ".. " } else { "" }, if to < line.len() { " .." } else { "" });
    let number = place.line.to_string();
    let [blank, under] = [number.len(), before.len() + column - from].map(|width| " ".repeat(width));
    format!("  {number} | {before}{shown}{after}\n  {blank} | {under}^\n")
}

#[cfg(test)]
mod tests {
    use super::*;

    #[test]
    fn the_sign_stands_under_the_place() {
        assert_eq!(pointer("ab\ncd", Place { line: 2, column: 2 }), "  2 | cd\n    |  ^\n");
        assert_eq!(pointer("", Place { line: 1, column: 1 }), "  1 | \n    | ^\n");
        let long = "x".repeat(100) + "y" + &"x".repeat(100);
        let shown = pointer(&long, Place { line: 1, column: 101 });
        let [line, sign] = [0, 1].map(|at| shown.lines().nth(at).expect("there are two lines"));
        assert_eq!(line.find('y'), sign.find('^'));
        assert!(line.len() < 2 * AROUND + 20 && line.ends_with("x ..") && line.contains("| .. x"), "{shown}");
    }
}
