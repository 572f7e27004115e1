//! What is wrong with the names or the types of an image that has its form.

use super::{some_of, SHOWN};
use crate::form::Linked;
use crate::kinds::*;
use crate::limits;
use crate::schema::{clash, Field};
use crate::text::words::{word, COUNTS, OPERATORS, TYPES};
use crate::text::{self, Names};

fn type_name(of: Option<u32>) -> &'static str {
    of.map_or("no type", |of| word(&TYPES, of))
}

/// An image that has its form, and the words for its numbers.
pub struct View<'a> {
    pub linked: Linked,
    pub names: &'a Names,
}

impl View<'_> {
    fn field(&self, field: &Field) -> String {
        self.names.column(field.qualifier, field.name)
    }

    fn fields(&self, fields: &[&Field]) -> String {
        let shown = |field: &&Field| format!("{}:{}", self.field(field), type_name(field.of));
        some_of(&fields.iter().map(shown).collect::<Vec<String>>(), limits::FIELDS)
    }

    /// An expression, cut short where it is long.
    fn expr(&self, at: usize) -> String {
        const LONG: usize = 60;
        let whole = text::expr(&self.linked.tree(at), self.names);
        match whole.len() > LONG {
            true => whole.chars().take(LONG).chain("..".chars()).collect(),
            false => whole,
        }
    }

    /// Test 6.
    pub fn name(&self, at: usize) -> Option<String> {
        let kind = self.linked.kind(at);
        if kind == COLUMN {
            return self.reference(at);
        }
        if !is_plan(kind) {
            return None;
        }
        let (schema, whose) = match kind {
            JOIN => (self.linked.joined(at), "both inputs together"),
            _ => (self.linked.fields(at), "it"),
        };
        if schema.len() > limits::FIELDS {
            let verb = if kind == JOIN { "have" } else { "has" };
            return Some(format!("{whose} {verb} {} fields; at most {}", schema.len(), limits::FIELDS));
        }
        let (one, other) = clash(&schema)?;
        let (named, again) = (self.field(&one), self.field(&other));
        let (first, second) = (one.record, other.record);
        Some(match named == again {
            true => format!("two fields are {named}, of the records {first} and {second}"),
            false => {
                let bare = if one.qualifier == 0 { &named } else { &again };
                let both = format!("the fields {named} and {again}, of the records {first} and {second}, share a name");
                format!("{both}, and {bare} has no qualifier to tell them apart")
            }
        })
    }

    /// A reference that names no field, or more than one.
    fn reference(&self, at: usize) -> Option<String> {
        let label = self.linked.label(at);
        let written = self.names.column(label.p, label.q);
        let scope = self.linked.scope(at);
        let named = scope.iter().filter(|field| (field.qualifier, field.name) == (label.p, label.q)).count();
        if scope.is_empty() {
            return Some(format!("{written} is no field here; there are none"));
        }
        // those of its name are shown first
        let mut fields: Vec<&Field> = scope.iter().collect();
        fields.sort_by_key(|field| field.name != label.q);
        let fields = self.fields(&fields);
        match named {
            0 => Some(format!("{written} is none of the fields here: {fields}")),
            1 => None,
            _ => Some(format!("{written} is the name of {named} fields here: {fields}")),
        }
    }

    /// Test 7.
    pub fn types(&self, at: usize) -> Option<String> {
        let label = self.linked.label(at);
        match label.kind {
            BINARY if label.p <= OR => self.booleans(at, word(&OPERATORS, label.p)),
            BINARY => self.one_type(at, word(&OPERATORS, label.p)),
            BETWEEN => self.one_type(at, "BETWEEN"),
            IN_LIST => self.one_type(at, "IN"),
            KEY_PAIR => self.one_type(at, "a key pair"),
            NOT => self.booleans(at, "NOT"),
            TEST if label.p > 2 => self.booleans(at, "this test"),
            FILTER => self.booleans(at, "a Filter"),
            JOIN => self.booleans(at, "a join's filter"),
            SCAN => self.booleans(at, "a scan's filter").or_else(|| self.scans(at)),
            AGGREGATE_ENTRY | WINDOW_ENTRY if label.r != COUNT => self.integer(at, word(&COUNTS, label.r)),
            UNION => self.inputs(at),
            _ => None,
        }
    }

    /// The expressions right below a record, each with its type.
    fn typed(&self, at: usize) -> Vec<(usize, Option<u32>)> {
        let exprs = self.linked.children[at].iter().filter(|&&child| is_expr(self.linked.kind(child)));
        let mut scope = Vec::new();
        let typed = exprs.enumerate().map(|(place, &child)| {
            if place == 0 || self.linked.kind(at) == KEY_PAIR {
                scope = self.linked.scope(child);
            }
            (child, self.linked.type_of(child, &scope))
        });
        typed.collect()
    }

    fn typed_expr(&self, (at, of): (usize, Option<u32>)) -> String {
        format!("{} is {}", self.expr(at), type_name(of))
    }

    fn booleans(&self, at: usize, what: &str) -> Option<String> {
        let wrong = self.typed(at).into_iter().find(|(_, of)| *of != Some(OF_BOOLEAN))?;
        Some(format!("{what} takes bool; {}", self.typed_expr(wrong)))
    }

    fn one_type(&self, at: usize, what: &str) -> Option<String> {
        let typed = self.typed(at);
        let (first, rest) = typed.split_first()?;
        let other = rest.iter().find(|(_, of)| *of != first.1)?;
        Some(format!("{what} takes one type; {}, {}", self.typed_expr(*first), self.typed_expr(*other)))
    }

    fn integer(&self, at: usize, what: &str) -> Option<String> {
        let wrong = self.typed(at).into_iter().next().filter(|(_, of)| *of != Some(OF_INTEGER))?;
        Some(format!("{what} takes int; {}", self.typed_expr(wrong)))
    }

    fn types_of(&self, plan: usize) -> Vec<Option<u32>> {
        self.linked.fields(plan).iter().map(|field| field.of).collect()
    }

    fn type_list(types: &[Option<u32>]) -> String {
        format!("[{}]", some_of(&types.iter().map(|of| type_name(*of)).collect::<Vec<&str>>(), SHOWN))
    }

    /// Where two rows of types part: their lengths, or the first place.
    fn parted(one: &[Option<u32>], other: &[Option<u32>]) -> String {
        let place = one.iter().zip(other).position(|(one, other)| one != other);
        match place {
            Some(place) => format!("field {} is {} and {}", place + 1, type_name(one[place]), type_name(other[place])),
            None => format!(
                "{} fields and {}: {} and {}",
                one.len(),
                other.len(),
                Self::type_list(one),
                Self::type_list(other)
            ),
        }
    }

    /// A scan and the first one of its table.
    fn scans(&self, at: usize) -> Option<String> {
        let table = self.linked.label(at).p;
        let same = |&other: &usize| self.linked.kind(other) == SCAN && self.linked.label(other).p == table;
        let first = (0..at).find(same)?;
        let (here, there) = (self.types_of(at), self.types_of(first));
        let parted = || Self::parted(&here, &there);
        (here != there).then(|| format!("scans of a table share types; here and at record {first}: {}", parted()))
    }

    /// The first input of a Union that differs from the first of all.
    fn inputs(&self, at: usize) -> Option<String> {
        let inputs = &self.linked.children[at];
        let first = self.types_of(inputs[0]);
        let (place, types) =
            inputs.iter().map(|&input| self.types_of(input)).enumerate().find(|(_, types)| *types != first)?;
        let parted = Self::parted(&first, &types);
        Some(format!("inputs of a Union share types; the first and input {}: {parted}", place + 1))
    }

    /// Test 10: the first function of a Filter's predicate.
    pub fn function(&self, at: usize) -> Option<String> {
        let end = *self.linked.children[at].last()?;
        let function = (at + 1..end).find(|&below| self.linked.kind(below) == FUNCTION)?;
        let written = self.expr(function);
        Some(format!("the predicate holds the function {written} at record {function}, whose meaning is not known"))
    }
}
