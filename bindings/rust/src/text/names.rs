//! Words for the numbers of tables, qualifiers, names and functions.

use super::tokens::{lines, Token};
use super::words::is_reserved;
use super::Trouble;
use std::collections::BTreeMap;

/// What a number counts. Each has words of its own: a table and a qualifier may share one.
#[derive(Clone, Copy, Debug, PartialEq, Eq, PartialOrd, Ord, Hash)]
pub enum Named {
    /// A table, in a TableScan.
    Table,
    /// A qualifier, in names and in a SubqueryAlias.
    Qualifier,
    /// A name, with or without qualifier.
    Name,
    /// A function.
    Function,
}

/// Each with the word that a names file has for it, and the letter that goes before its numbers in a plan.
const NAMED: [(Named, &str, &str); 4] = [
    (Named::Table, "table", ""),
    (Named::Qualifier, "qualifier", "t"),
    (Named::Name, "name", "c"),
    (Named::Function, "function", "f"),
];

impl Named {
    fn row(self) -> (Named, &'static str, &'static str) {
        NAMED[self as usize]
    }

    pub(super) fn title(self) -> &'static str {
        self.row().1
    }

    pub(super) fn letter(self) -> &'static str {
        self.row().2
    }
}

/// Words for numbers, so that `orders.price` may be written for `t3.c7` and is shown so. Numbers without a word are
/// written as they are.
///
/// ```
/// use push_down_filter::text::{read, write, Names};
///
/// let names = Names::read("table 3 orders\nqualifier 3 orders\nname 7 price\n").unwrap();
/// let text = "Filter orders.price > 5\n  TableScan orders [orders.price:int:marked]\n";
/// let plan = read(text, &names).unwrap().plan;
/// assert_eq!(write(&plan, &names), text);
/// assert_eq!(write(&plan, &Names::NONE), "Filter t3.c7 > 5\n  TableScan 3 [t3.c7:int:marked]\n");
/// ```
#[derive(Clone, Debug, Default, PartialEq, Eq)]
pub struct Names {
    words: BTreeMap<(Named, u32), String>,
    numbers: BTreeMap<(Named, String), u32>,
}

impl Names {
    /// No words: every number is written as it is.
    pub const NONE: Names = Names { words: BTreeMap::new(), numbers: BTreeMap::new() };

    /// The names of a names file; [`GRAMMAR`](super::GRAMMAR) says how it is written.
    pub fn read(text: &str) -> Result<Names, Trouble> {
        let mut names = Names::NONE;
        for line in lines(text)? {
            names.read_line(&line.tokens)?;
        }
        Ok(names)
    }

    /// The names file that reads as these names.
    pub fn write(&self) -> String {
        self.words.iter().map(|((what, number), word)| format!("{} {number} {word}\n", what.title())).collect()
    }

    /// A line such as `name 7 price`; the last token of a line is empty.
    fn read_line(&mut self, tokens: &[Token]) -> Result<(), Trouble> {
        let token = |at: usize| &tokens[at.min(tokens.len() - 1)];
        let [title, number, word, end] = [0, 1, 2, 3].map(token);
        let Some(&(what, ..)) = NAMED.iter().find(|(_, word, _)| *word == title.text) else {
            return Err(title.expected("'table', 'qualifier', 'name' or 'function'"));
        };
        let value = number.text.parse().map_err(|_| number.expected("a number from 0 to 4294967295"))?;
        if word.text.is_empty() {
            return Err(word.expected("a word for the number"));
        }
        if !end.text.is_empty() {
            return Err(end.expected("the end of the line"));
        }
        self.set(what, value, word.text).map_err(|wrong| word.place.trouble(wrong))
    }

    /// Gives a number its word. Says what is wrong with the word, or with giving it to that number.
    pub fn set(&mut self, what: Named, number: u32, word: &str) -> Result<(), String> {
        let title = what.title();
        fit(word)?;
        if number == 0 && matches!(what, Named::Qualifier | Named::Name) {
            return Err(format!("the {title} 0 is none"));
        }
        if let Some(other) = self.word(what, number) {
            return Err(format!("the {title} {number} has the word '{other}' already"));
        }
        if let Some(other) = self.number(what, word) {
            return Err(format!("'{word}' is the {title} {other} already"));
        }
        self.words.insert((what, number), word.to_string());
        self.numbers.insert((what, word.to_string()), number);
        Ok(())
    }

    /// The word of a number, if it has one.
    pub fn word(&self, what: Named, number: u32) -> Option<&str> {
        self.words.get(&(what, number)).map(String::as_str)
    }

    /// The number of a word, if it is one's.
    pub fn number(&self, what: Named, word: &str) -> Option<u32> {
        self.numbers.get(&(what, word.to_string())).copied()
    }

    /// Whether there are no words at all.
    pub fn is_empty(&self) -> bool {
        self.words.is_empty()
    }

    /// The number as it is written in a plan: its word, or the number behind its letter.
    pub fn written(&self, what: Named, number: u32) -> String {
        self.word(what, number).map_or_else(|| format!("{}{number}", what.letter()), str::to_string)
    }

    /// Qualifier and name as they are written; the qualifier 0 is none.
    pub fn column(&self, qualifier: u32, name: u32) -> String {
        let name = self.written(Named::Name, name);
        match qualifier {
            0 => name,
            _ => format!("{}.{name}", self.written(Named::Qualifier, qualifier)),
        }
    }
}

/// Whether a word can stand for a number: it must be told from the words of plans and from numbers behind their
/// letters.
fn fit(word: &str) -> Result<(), String> {
    let letters = |c: char| c.is_ascii_alphanumeric() || c == '_';
    if !word.starts_with(|c: char| c.is_ascii_alphabetic()) || !word.chars().all(letters) {
        return Err(format!("'{word}' is no word: a letter, then letters, digits and '_'"));
    }
    if is_reserved(word) {
        return Err(format!("'{word}' is a word of plans, in small letters or capitals"));
    }
    match coded(word) {
        true => Err(format!("'{word}' is how a number without word is written")),
        false => Ok(()),
    }
}

/// Whether it is a number behind a letter, such as t1, c2 or f3.
pub(super) fn coded(word: &str) -> bool {
    let digits = word.strip_prefix(['t', 'c', 'f']).unwrap_or("");
    !digits.is_empty() && digits.bytes().all(|digit| digit.is_ascii_digit())
}

#[cfg(test)]
mod tests {
    use super::*;

    #[test]
    fn a_names_file_is_read() {
        let names = Names::read("# words\n\ntable 0 orders\nqualifier 3 orders # both\n  name 7 unit_price\n").unwrap();
        assert_eq!(names.number(Named::Table, "orders"), Some(0));
        assert_eq!(names.number(Named::Qualifier, "orders"), Some(3));
        assert_eq!(names.number(Named::Name, "orders"), None);
        assert_eq!(names.column(3, 7), "orders.unit_price");
        assert_eq!(names.column(0, 8), "c8");
        assert_eq!(names.column(4, 7), "t4.unit_price");
        assert_eq!(names.write(), "table 0 orders\nqualifier 3 orders\nname 7 unit_price\n");
        assert_eq!(Names::read(&names.write()), Ok(names));
    }

    #[test]
    fn every_trouble_has_its_place() {
        let troubles = [
            ("names 1 a", "1:1: expected 'table', 'qualifier', 'name' or 'function', found 'names'"),
            ("\nname x a", "2:6: expected a number from 0 to 4294967295, found 'x'"),
            ("name 4294967296 a", "1:6: expected a number from 0 to 4294967295, found '4294967296'"),
            ("name", "1:5: expected a number from 0 to 4294967295, found the end of the line"),
            ("name 7", "1:7: expected a word for the number, found the end of the line"),
            ("name 7 8", "1:8: '8' is no word: a letter, then letters, digits and '_'"),
            ("name 7 a b", "1:10: expected the end of the line, found 'b'"),
            ("name 7 Null", "1:8: 'Null' is a word of plans, in small letters or capitals"),
            ("name 7 filter", "1:8: 'filter' is a word of plans, in small letters or capitals"),
            ("name 7 t12", "1:8: 't12' is how a number without word is written"),
            ("name 0 a", "1:8: the name 0 is none"),
            ("name 7 a\nname 7 b", "2:8: the name 7 has the word 'a' already"),
            ("name 7 a\nname 8 a", "2:8: 'a' is the name 7 already"),
        ];
        for (text, trouble) in troubles {
            assert_eq!(Names::read(text).map_err(|found| found.to_string()), Err(trouble.to_string()), "{text}");
        }
    }
}
