//! The row test.

use super::{misused, node, NO_FILE};
use crate::arguments::Arguments;
use crate::fields::{fields, Field};
use crate::input::Input;
use crate::{Failure, Outcome};
use push_down_filter::image::Tree;
use push_down_filter::kinds::{FILTER, OF_INTEGER};
use push_down_filter::{row_test, Reason, Truth};

pub fn row(arguments: &Arguments) -> Outcome {
    let node = node(arguments)?;
    let [file, words @ ..] = arguments.words.as_slice() else {
        return Err(misused(NO_FILE));
    };
    let (values, marks): (Vec<i64>, Vec<u8>) =
        words.iter().map(|word| cell(word)).collect::<Result<Vec<_>, _>>()?.into_iter().unzip();
    let input = Input::read(file, arguments)?;
    let fields = fields_at(&input.plan()?, node);
    if let Some((word, field)) =
        words.iter().zip(&fields).find(|(word, field)| is_truth(word) && field.of == OF_INTEGER)
    {
        return Err(misused(format!("{word} is no value of {}", field.written(&input.names))));
    }
    match row_test(&input.image, node, &values, &marks) {
        Ok(truth) => Ok(format!("{}\n", word_of(truth)).into()),
        Err(refusal) if refusal.reason == Reason::Row => {
            let fields: Vec<String> = fields.iter().map(|field| field.written(&input.names)).collect();
            let asked = format!("the fields are {}; the values are {}", listed(&fields), listed(words));
            Err(Failure::Refused(format!("{}: {refusal}\n  {asked}\n", input.file)))
        }
        Err(refusal) => Err(input.refused(refusal)),
    }
}

fn word_of(truth: Truth) -> &'static str {
    match truth {
        Truth::True => "TRUE",
        Truth::False => "FALSE",
        Truth::Unknown => "UNKNOWN",
    }
}

fn is_truth(word: &str) -> bool {
    matches!(word, "TRUE" | "FALSE")
}

/// A value and its mark, which is 1 for NULL.
fn cell(word: &str) -> Result<(i64, u8), Failure> {
    match word {
        "TRUE" => Ok((1, 0)),
        "FALSE" => Ok((0, 0)),
        "NULL" => Ok((0, 1)),
        _ => match word.parse() {
            Ok(value) => Ok((value, 0)),
            Err(_) => Err(misused(format!("{word} is no value: an integer of 64 bits, TRUE, FALSE or NULL"))),
        },
    }
}

/// The fields of the input of the Filter at a record; none if there is no Filter.
fn fields_at(plan: &Tree, node: u32) -> Vec<Field> {
    match plan.node(node as usize) {
        Some(filter) if filter.label.kind == FILTER => fields(&filter.children[1]),
        _ => Vec::new(),
    }
}

fn listed<S: AsRef<str>>(items: &[S]) -> String {
    let items: Vec<&str> = items.iter().map(AsRef::as_ref).collect();
    match items.is_empty() {
        true => "none".to_string(),
        false => items.join(", "),
    }
}
