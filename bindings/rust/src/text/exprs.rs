//! Expressions read from a line.

use super::reader::{Node, Read, Reader};
use super::words::{number, OPERATORS};
use super::Named;
use crate::image::Label;
use crate::kinds::*;

/// The operator of a comparison that a token is. `<>` is another way to write `!=`.
fn compares(token: &str) -> Option<u32> {
    let sign = if token == "<>" { "!=" } else { token };
    number(&OPERATORS, sign).filter(|operator| (EQ..=GT_EQ).contains(operator))
}

impl Reader<'_> {
    pub fn expr(&mut self) -> Read {
        self.inside(|reader| reader.chain(OR, |reader| reader.chain(AND, Reader::negation)))
    }

    /// Operands with ANDs or ORs between them, joined from the left.
    fn chain(&mut self, operator: u32, operand: fn(&mut Self) -> Read) -> Read {
        let mut left = operand(self)?;
        loop {
            let place = self.token.place;
            if !self.takes(OPERATORS[operator as usize - 1]) {
                return Ok(left);
            }
            let right = operand(self)?;
            left = self.node(place, Label::of(BINARY, operator), vec![left, right])?;
        }
    }

    fn negation(&mut self) -> Read {
        let place = self.token.place;
        if !self.takes("NOT") {
            return self.tested();
        }
        let operand = self.inside(Reader::negation)?;
        self.node(place, Label::of(NOT, 0), vec![operand])
    }

    fn tested(&mut self) -> Read {
        let operand = self.operand()?;
        self.tested_so(operand)
    }

    /// The comparison or test that follows the operand, or the operand alone.
    fn tested_so(&mut self, operand: Node) -> Read {
        let place = self.token.place;
        if let Some(operator) = self.comparison() {
            self.typed_null(Some(operator))?;
            let right = self.operand()?;
            return self.node(place, Label::of(BINARY, operator), vec![operand, right]);
        }
        if self.takes("IS") {
            let which = self.test()?;
            return self.node(place, Label::of(TEST, which), vec![operand]);
        }
        let negated = self.takes("NOT");
        if self.takes("BETWEEN") {
            let low = self.operand()?;
            self.must_take("AND")?;
            let high = self.operand()?;
            return self.node(place, Label::of(BETWEEN, u32::from(negated)), vec![operand, low, high]);
        }
        if self.takes("IN") {
            let mut operands = vec![operand];
            operands.extend(self.list(["(", ")"], Reader::expr)?);
            return self.node(place, Label::of(IN_LIST, u32::from(negated)), operands);
        }
        match negated {
            true => Err(self.expected("'BETWEEN' or 'IN'")),
            false => Ok(operand),
        }
    }

    /// The operator of a comparison, if one is in hand.
    fn comparison(&mut self) -> Option<u32> {
        let operator = compares(self.token.text)?;
        self.takes(self.token.text);
        Some(operator)
    }

    /// A NULL in hand has a type. One without is often a test for NULL that was written as a comparison.
    fn typed_null(&self, compared: Option<u32>) -> Read<()> {
        if self.token.text != "NULL" || self.following() == ":" {
            return Ok(());
        }
        let never = "a comparison with NULL is never TRUE: write";
        let what = match compared {
            Some(EQ) => format!("{never} IS NULL, or, for the literal, NULL:int or NULL:bool"),
            Some(NOT_EQ) => format!("{never} IS NOT NULL, or, for the literal, NULL:int or NULL:bool"),
            _ => "a NULL has a type: write NULL:int or NULL:bool".to_string(),
        };
        Err(self.token.place.trouble(what))
    }

    /// What follows IS, as the p of a test.
    fn test(&mut self) -> Read<u32> {
        let negated = self.takes("NOT");
        let which = self.among(&["NULL", "TRUE", "FALSE", "UNKNOWN"], "NULL, TRUE, FALSE or UNKNOWN")?;
        Ok(match (which, negated) {
            (1, false) => 1,
            (1, true) => 2,
            (which, false) => which + 1,
            (which, true) => which + 4,
        })
    }

    pub fn operand(&mut self) -> Read {
        let called = self.has_coded(Named::Function) || matches!(self.following(), ":" | "(");
        match self.token.text {
            "(" => self.bracketed(),
            _ if called && self.has_word() => self.function(),
            _ => self.leaf(),
        }
    }

    /// A literal or a column.
    fn leaf(&mut self) -> Read {
        let place = self.token.place;
        let label = match self.token.text.as_bytes() {
            b"TRUE" | b"FALSE" => Label::of(BOOLEAN, self.among(&["FALSE", "TRUE"], "a truth")? - 1),
            b"NULL" => {
                self.typed_null(compares(self.following()))?;
                self.must_take("NULL")?;
                Label::of(NULL, self.of_type()?)
            }
            [b'-' | b'0'..=b'9', ..] => integer(self.digits("", "an integer of 64 bits")?).label,
            _ if self.has_word() => {
                let (qualifier, name) = self.name()?;
                column(qualifier, name).label
            }
            _ => return Err(self.expected("an expression")),
        };
        self.node(place, label, Vec::new())
    }

    fn bracketed(&mut self) -> Read {
        self.must_take("(")?;
        let inner = self.expr()?;
        self.must_take(")")?;
        Ok(inner)
    }

    /// `f3:int:volatile:leafward(t1.c1, 5)`
    fn function(&mut self) -> Read {
        let place = self.token.place;
        let number = self.named(Named::Function, "a function such as f1")?;
        let of = self.of_type()?;
        let mut marks = 0;
        while self.takes(":") {
            let mark = self.among(&["volatile", "leafward"], "'volatile' or 'leafward'")?;
            marks |= mark;
        }
        let arguments: Vec<Node> = self.list(["(", ")"], Reader::expr)?;
        self.node(place, function(number, marks, of, Vec::new()).label, arguments)
    }
}
