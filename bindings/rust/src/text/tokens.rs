//! A text cut into lines of words, numbers and signs.

use super::{Place, Trouble};

/// A word, a number or a sign; the last of a line is empty.
#[derive(Clone, Copy)]
pub struct Token<'a> {
    pub text: &'a str,
    pub place: Place,
}

impl Token<'_> {
    /// What was expected in the token's place.
    pub fn expected(&self, what: &str) -> Trouble {
        let found = match self.text {
            "" => "the end of the line".to_string(),
            text => format!("'{text}'"),
        };
        self.place.trouble(format!("expected {what}, found {found}"))
    }
}

/// A line that is not blank: by how many spaces it is indented, and its tokens.
pub struct Line<'a> {
    pub spaces: usize,
    pub tokens: Vec<Token<'a>>,
}

pub fn lines(text: &str) -> Result<Vec<Line<'_>>, Trouble> {
    let mut lines = Vec::new();
    for (at, line) in text.lines().enumerate() {
        let line = line.split('#').next().unwrap_or("").trim_end_matches(' ');
        if !line.is_empty() {
            let spaces = line.len() - line.trim_start_matches(' ').len();
            lines.push(Line { spaces, tokens: tokens(line, at + 1)? });
        }
    }
    Ok(lines)
}

fn tokens(line: &str, number: usize) -> Result<Vec<Token<'_>>, Trouble> {
    let mut tokens = Vec::new();
    let mut rest = line;
    loop {
        rest = rest.trim_start_matches(' ');
        // what was cut off so far is spaces and tokens, and these have a byte for each character
        let place = Place { line: number, column: line.len() - rest.len() + 1 };
        let length = length(rest).ok_or_else(|| unknown(rest, place))?;
        let (text, after) = rest.split_at(length);
        tokens.push(Token { text, place });
        if text.is_empty() {
            return Ok(tokens);
        }
        rest = after;
    }
}

fn unknown(rest: &str, place: Place) -> Trouble {
    let what = match rest.chars().next() {
        Some('\t') => "a tab; lines are indented by spaces".to_string(),
        Some(sign) => format!("{sign:?} stands in no plan"),
        None => unreachable!("an empty rest is the last token"),
    };
    Trouble { place, what }
}

const SIGNS: [&str; 15] = [":=", "!=", "<>", "<=", ">=", "[", "]", "(", ")", ",", ":", ".", "=", "<", ">"];

/// How many bytes the first token has: 0 at the end, none if no token begins so.
fn length(rest: &str) -> Option<usize> {
    let run = |from: usize, holds: fn(&u8) -> bool| from + rest.bytes().skip(from).take_while(holds).count();
    match rest.as_bytes() {
        [] => Some(0),
        [b'a'..=b'z' | b'A'..=b'Z', ..] => Some(run(1, |&byte| byte.is_ascii_alphanumeric() || byte == b'_')),
        [b'-', b'0'..=b'9', ..] | [b'0'..=b'9', ..] => Some(run(1, u8::is_ascii_digit)),
        _ => SIGNS.iter().find(|sign| rest.starts_with(**sign)).map(|sign| sign.len()),
    }
}
