//! The fields of plans and the types of expressions, for images that have their form.

use crate::form::Linked;
use crate::kinds::*;
use crate::{name, Name, Plan, Type};

impl Plan {
    /// The names and types of its fields, in order. A type is none where an entry refers to no field, which the check
    /// refuses.
    pub fn schema(&self) -> Vec<(Name, Option<Type>)> {
        let fields = Linked::of(self.to_tree().records()).map(|linked| linked.fields(0)).unwrap_or_default();
        let of = |field: &Field| field.of.and_then(Type::of_number);
        fields.iter().map(|field| (name(field.qualifier, field.name), of(field))).collect()
    }
}

/// A field of a plan's schema.
#[derive(Clone, Copy)]
pub struct Field {
    pub qualifier: u32,
    pub name: u32,
    /// 1 integer, 2 boolean; none if the field is a reference that names no field itself.
    pub of: Option<u32>,
    /// The record that makes the field.
    pub record: usize,
}

impl Linked {
    /// The one input of a plan that has one: its last child.
    fn input(&self, at: usize) -> usize {
        self.children[at].last().copied().unwrap_or(at)
    }

    fn own(&self, part: usize, of: Option<u32>) -> Field {
        let label = self.label(part);
        Field { qualifier: label.p, name: label.q, of, record: part }
    }

    /// The parts of a plan, all of a kind.
    fn parts(&self, at: usize, kind: u32) -> impl Iterator<Item = usize> + '_ {
        self.children[at].iter().copied().filter(move |&part| self.kind(part) == kind)
    }

    fn scanned(&self, at: usize) -> Vec<Field> {
        self.parts(at, FIELD).map(|part| self.own(part, Some(self.label(part).r))).collect()
    }

    /// The fields that the entries 49 make over the fields of the input.
    fn entries(&self, at: usize, input: &[Field]) -> Vec<Field> {
        let entry = |part: usize| self.own(part, self.type_of(self.children[part][0], input));
        self.parts(at, ENTRY).map(entry).collect()
    }

    fn counted(&self, at: usize, kind: u32) -> Vec<Field> {
        self.parts(at, kind).map(|part| self.own(part, Some(OF_INTEGER))).collect()
    }

    /// Both inputs of a join together.
    pub fn joined(&self, at: usize) -> Vec<Field> {
        [self.fields(self.children[at][0]), self.fields(self.children[at][1])].concat()
    }

    /// The schema of a plan.
    pub fn fields(&self, at: usize) -> Vec<Field> {
        let label = self.label(at);
        let input = || self.fields(self.input(at));
        match label.kind {
            SCAN => self.scanned(at),
            PROJECTION => self.entries(at, &input()),
            AGGREGATE => [self.entries(at, &input()), self.counted(at, AGGREGATE_ENTRY)].concat(),
            WINDOW => [input(), self.counted(at, WINDOW_ENTRY)].concat(),
            JOIN => match label.p {
                LEFT_SEMI | LEFT_ANTI => self.fields(self.children[at][0]),
                RIGHT_SEMI | RIGHT_ANTI => self.fields(self.children[at][1]),
                _ => self.joined(at),
            },
            UNION => self.fields(self.children[at][0]),
            ALIAS => input().into_iter().map(|field| Field { qualifier: label.p, ..field }).collect(),
            _ => input(),
        }
    }

    /// The fields that an expression or a part may refer to.
    pub fn scope(&self, at: usize) -> Vec<Field> {
        let (mut below, mut at) = (at, self.parent[at]);
        let mut side = None;
        while !is_plan(self.kind(at)) && at != 0 {
            if self.kind(at) == KEY_PAIR {
                side = self.children[at].iter().position(|&child| child == below);
            }
            (below, at) = (at, self.parent[at]);
        }
        match (self.kind(at), side) {
            (SCAN, _) => self.scanned(at),
            (JOIN, Some(side)) => self.fields(self.children[at][side]),
            (JOIN, None) => self.joined(at),
            _ => self.fields(self.input(at)),
        }
    }

    /// The type of an expression over the fields, which its topmost record settles.
    pub fn type_of(&self, at: usize, scope: &[Field]) -> Option<u32> {
        let label = self.label(at);
        match label.kind {
            COLUMN => {
                let named = scope.iter().find(|field| (field.qualifier, field.name) == (label.p, label.q));
                named.and_then(|field| field.of)
            }
            INTEGER => Some(OF_INTEGER),
            NULL => Some(label.p),
            FUNCTION => Some(label.r),
            _ => Some(OF_BOOLEAN),
        }
    }
}

/// The first two fields that a schema may not have both: alike, or of one name that one of them has without qualifier.
pub fn clash(schema: &[Field]) -> Option<(Field, Field)> {
    let clashes = |one: &Field, other: &Field| {
        let bare = one.qualifier == 0 || other.qualifier == 0;
        one.name == other.name && (bare || one.qualifier == other.qualifier)
    };
    schema.iter().enumerate().find_map(|(place, field)| {
        let earlier = schema[..place].iter().find(|earlier| clashes(earlier, field));
        earlier.map(|earlier| (*earlier, *field))
    })
}
