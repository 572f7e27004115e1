//! What all of reading is made of: tokens taken one by one, words, numbers, names and lists.

use super::names::coded;
use super::tokens::Token;
use super::words::{is_reserved, number, TYPES};
use super::{Named, Names, Place, Trouble};
use crate::image::Label;
use crate::limits::{DEPTH, RECORDS};
use std::str::FromStr;

/// A record to be, with the place of its word or sign.
pub struct Node {
    pub label: Label,
    pub place: Place,
    pub children: Vec<Node>,
}

pub type Read<T = Node> = Result<T, Trouble>;

/// Qualifier and name; the qualifier 0 is none.
pub type Name = (u32, u32);

/// The token in hand and what follows it in its line, how deep the expression in hand is, and how many records there
/// are.
pub struct Reader<'a> {
    names: &'a Names,
    pub token: Token<'a>,
    line: std::vec::IntoIter<Token<'a>>,
    nested: usize,
    records: usize,
}

impl<'a> Reader<'a> {
    pub fn new(names: &'a Names) -> Reader<'a> {
        let token = Token { text: "", place: Place::START };
        Reader { names, token, line: Vec::new().into_iter(), nested: 0, records: 0 }
    }

    pub fn begin(&mut self, line: Vec<Token<'a>>) {
        self.line = line.into_iter();
        self.advance();
    }

    /// To the next token. The last of a line, which is empty, stays in hand.
    fn advance(&mut self) {
        self.token = self.line.next().unwrap_or(self.token);
    }

    pub fn expected(&self, what: &str) -> Trouble {
        self.token.expected(what)
    }

    /// What follows the token in hand.
    pub fn following(&self) -> &'a str {
        self.line.as_slice().first().map_or("", |token| token.text)
    }

    /// Whether a word is in hand that is none of plans.
    pub fn has_word(&self) -> bool {
        self.token.text.starts_with(|c: char| c.is_ascii_alphabetic()) && !is_reserved(self.token.text)
    }

    /// Whether a number behind the letter is in hand.
    pub fn has_coded(&self, what: Named) -> bool {
        self.token.text.starts_with(what.letter()) && coded(self.token.text)
    }

    /// Goes past the text if it is in hand.
    pub fn takes(&mut self, text: &str) -> bool {
        let is_here = self.token.text == text;
        if is_here {
            self.advance();
        }
        is_here
    }

    pub fn must_take(&mut self, text: &str) -> Read<()> {
        match self.takes(text) {
            true => Ok(()),
            false => Err(self.expected(&format!("'{text}'"))),
        }
    }

    /// A record more.
    pub fn node(&mut self, place: Place, label: Label, children: Vec<Node>) -> Read {
        self.records += 1;
        match self.records > RECORDS {
            true => Err(place.trouble(format!("a plan of more than {RECORDS} records"))),
            false => Ok(Node { label, place, children }),
        }
    }

    /// What stands a level further inside an expression.
    pub fn inside(&mut self, read: fn(&mut Self) -> Read) -> Read {
        if self.nested == DEPTH {
            return Err(self.token.place.trouble(format!("an expression of more than {DEPTH} levels")));
        }
        self.nested += 1;
        let inner = read(self);
        self.nested -= 1;
        inner
    }

    /// The number, from 1, of the word in hand.
    pub fn among(&mut self, words: &[&str], what: &str) -> Read<u32> {
        let found = number(words, self.token.text).ok_or_else(|| self.expected(what))?;
        self.advance();
        Ok(found)
    }

    /// A number, after the letter that goes before it, if any.
    pub fn digits<N: FromStr>(&mut self, letter: &str, what: &str) -> Read<N> {
        let digits = self.token.text.strip_prefix(letter).and_then(|digits| digits.parse().ok());
        let found = digits.ok_or_else(|| self.expected(what))?;
        self.advance();
        Ok(found)
    }

    pub fn number(&mut self) -> Read<u32> {
        self.digits("", "a number from 0 to 4294967295")
    }

    /// A number behind its letter, or the number of a word.
    pub fn named(&mut self, what: Named, expected: &str) -> Read<u32> {
        if let Some(number) = self.names.number(what, self.token.text) {
            self.advance();
            return Ok(number);
        }
        let unknown = self.has_word() && !coded(self.token.text) && !self.names.is_empty();
        if unknown {
            let (word, title) = (self.token.text, what.title());
            return Err(self.token.place.trouble(format!("'{word}' is no {title} of the names file")));
        }
        self.digits(what.letter(), expected)
    }

    pub fn table(&mut self) -> Read<u32> {
        self.named(Named::Table, "a number from 0 to 4294967295")
    }

    /// `:int` or `:bool`
    pub fn of_type(&mut self) -> Read<u32> {
        self.must_take(":")?;
        self.among(&TYPES, "'int' or 'bool'")
    }

    /// `t1`
    pub fn qualifier(&mut self) -> Read<u32> {
        let place = self.token.place;
        match self.named(Named::Qualifier, "a qualifier such as t1")? {
            0 => Err(place.trouble("the qualifier 0 is none; a name without qualifier is written c1")),
            qualifier => Ok(qualifier),
        }
    }

    /// `t1.c2` or `c2`
    pub fn name(&mut self) -> Read<Name> {
        let mut qualifier = 0;
        if self.following() == "." || self.has_coded(Named::Qualifier) {
            qualifier = self.qualifier()?;
            self.must_take(".")?;
        }
        Ok((qualifier, self.named(Named::Name, "a name such as t1.c2 or c2")?))
    }

    /// Items with commas between them, inside brackets.
    pub fn list(&mut self, [begin, end]: [&str; 2], item: fn(&mut Self) -> Read) -> Read<Vec<Node>> {
        self.must_take(begin)?;
        let mut items = Vec::new();
        if self.takes(end) {
            return Ok(items);
        }
        loop {
            items.push(item(self)?);
            if self.takes(end) {
                return Ok(items);
            }
            if !self.takes(",") {
                return Err(self.expected(&format!("',' or '{end}'")));
            }
        }
    }

    pub fn row(&mut self, item: fn(&mut Self) -> Read) -> Read<Vec<Node>> {
        self.list(["[", "]"], item)
    }

    /// A row under its title, or none.
    pub fn titled(&mut self, title: &str, item: fn(&mut Self) -> Read) -> Read<Vec<Node>> {
        match self.takes(title) {
            true => self.row(item),
            false => Ok(Vec::new()),
        }
    }
}
