//! Expressions that stand for sets of byte strings, and their derivatives.
//!
//! The derivative of a set of strings by a byte holds what may follow that
//! byte in it (Brzozowski, 1964). So a string belongs to an expression exactly
//! if deriving by its bytes one after the other ends in an expression that
//! holds the empty string. An `Either` is the set of all readings that are
//! still possible, and a derivative moves all of them on at once.

use super::byte_set::ByteSet;
use crate::field::Field;
use std::cell::RefCell;
use std::collections::{BTreeSet, HashMap};

/// An expression of a [`Grammar`]; two that are written alike are equal.
#[derive(Clone, Copy, Debug, PartialEq, Eq, PartialOrd, Ord, Hash)]
pub struct Expr(usize);

#[derive(Clone, Debug, PartialEq, Eq, Hash)]
enum Form {
    /// No string at all.
    Nothing,
    /// The empty string only.
    Empty,
    /// One byte from the set.
    OneOf(ByteSet),
    /// A string of the first, then one of the second.
    Then(Expr, Expr),
    /// A string of any of these. Sorted, without repeats.
    Either(Vec<Expr>),
    /// A string that belongs to both.
    Both(Expr, Expr),
    /// Any string that does not belong to it.
    Not(Expr),
    /// So many strings of it, from the least to the most number.
    Repeat(Expr, usize, usize),
    /// A string of it, as that field of the header.
    InField(Field, Expr),
}

/// Keeps the expressions. Each form is kept once, so that the derivatives of
/// an expression are finitely many and soon found again.
#[derive(Default)]
pub struct Grammar {
    store: RefCell<Store>,
}

#[derive(Default)]
struct Store {
    forms: Vec<Form>,
    holds_empty: Vec<bool>,
    known: HashMap<Form, Expr>,
    derivatives: HashMap<(Expr, u8), Expr>,
}

/// Ways to write expressions. They leave out what cannot matter, such as
/// `Nothing` among alternatives.
impl Grammar {
    pub fn nothing(&self) -> Expr {
        self.keep(Form::Nothing)
    }

    pub fn empty(&self) -> Expr {
        self.keep(Form::Empty)
    }

    /// Every string.
    pub fn anything(&self) -> Expr {
        self.not(self.nothing())
    }

    pub fn one_of(&self, set: ByteSet) -> Expr {
        if set.is_empty() {
            return self.nothing();
        }
        self.keep(Form::OneOf(set))
    }

    pub fn byte(&self, byte: u8) -> Expr {
        self.one_of(ByteSet::of(|other| other == byte))
    }

    pub fn any_byte(&self) -> Expr {
        self.one_of(ByteSet::of(|_| true))
    }

    /// Exactly these bytes.
    pub fn text(&self, bytes: impl AsRef<[u8]>) -> Expr {
        self.sequence(bytes.as_ref().iter().map(|&byte| self.byte(byte)))
    }

    pub fn sequence<I>(&self, parts: I) -> Expr
    where
        I: IntoIterator<Item = Expr, IntoIter: DoubleEndedIterator>,
    {
        let parts = parts.into_iter();
        parts.rfold(self.empty(), |rest, part| self.then(part, rest))
    }

    pub fn then(&self, first: Expr, second: Expr) -> Expr {
        match (self.form(first), self.form(second)) {
            (Form::Nothing, _) | (_, Form::Nothing) => self.nothing(),
            (Form::Empty, _) => second,
            (_, Form::Empty) => first,
            (Form::Then(a, b), _) => self.then(a, self.then(b, second)),
            _ => self.keep(Form::Then(first, second)),
        }
    }

    pub fn either(&self, alternatives: impl IntoIterator<Item = Expr>) -> Expr {
        let mut distinct = BTreeSet::new();
        for alternative in alternatives {
            match self.form(alternative) {
                Form::Nothing => {}
                Form::Either(inner) => distinct.extend(inner),
                _ => {
                    distinct.insert(alternative);
                }
            }
        }
        let alternatives: Vec<Expr> = distinct.into_iter().collect();
        match alternatives[..] {
            [] => self.nothing(),
            [only] => only,
            _ => self.keep(Form::Either(alternatives)),
        }
    }

    pub fn both(&self, first: Expr, second: Expr) -> Expr {
        if self.form(first) == Form::Nothing || self.form(second) == Form::Nothing {
            return self.nothing();
        }
        self.keep(Form::Both(first, second))
    }

    pub fn not(&self, excluded: Expr) -> Expr {
        self.keep(Form::Not(excluded))
    }

    /// From `least` to `most` strings of `part`, one behind the other.
    pub fn repeat(&self, part: Expr, least: usize, most: usize) -> Expr {
        if most == 0 {
            return self.empty();
        }
        self.keep(Form::Repeat(part, least, most))
    }

    pub fn in_field(&self, field: Field, inner: Expr) -> Expr {
        match self.form(inner) {
            Form::Nothing | Form::Empty => inner,
            _ => self.keep(Form::InField(field, inner)),
        }
    }
}

/// Questions about expressions.
impl Grammar {
    pub fn holds_empty(&self, expr: Expr) -> bool {
        self.store.borrow().holds_empty[expr.0]
    }

    pub fn derivative(&self, expr: Expr, byte: u8) -> Expr {
        let known = self.store.borrow().derivatives.get(&(expr, byte)).copied();
        known.unwrap_or_else(|| {
            let derivative = self.derive(expr, byte);
            let derivatives = &mut self.store.borrow_mut().derivatives;
            derivatives.insert((expr, byte), derivative);
            derivative
        })
    }

    fn derive(&self, expr: Expr, byte: u8) -> Expr {
        let by_byte = |inner| self.derivative(inner, byte);
        match self.form(expr) {
            Form::Nothing | Form::Empty => self.nothing(),
            Form::OneOf(set) if set.contains(byte) => self.empty(),
            Form::OneOf(_) => self.nothing(),
            Form::Then(first, second) => {
                let in_first = self.then(by_byte(first), second);
                if self.holds_empty(first) {
                    self.either([in_first, by_byte(second)])
                } else {
                    in_first
                }
            }
            Form::Either(alternatives) => self.either(alternatives.into_iter().map(by_byte)),
            Form::Both(first, second) => self.both(by_byte(first), by_byte(second)),
            Form::Not(excluded) => self.not(by_byte(excluded)),
            Form::Repeat(part, least, most) => {
                let others = self.repeat(part, least.saturating_sub(1), most - 1);
                self.then(by_byte(part), others)
            }
            Form::InField(field, inner) => self.in_field(field, by_byte(inner)),
        }
    }

    /// The fields that the first byte of a string of `expr` may belong to.
    pub fn first_fields(&self, expr: Expr) -> BTreeSet<Field> {
        match self.form(expr) {
            Form::Nothing | Form::Empty | Form::OneOf(_) | Form::Not(_) => BTreeSet::new(),
            Form::Then(first, second) => {
                let mut fields = self.first_fields(first);
                if self.holds_empty(first) {
                    fields.extend(self.first_fields(second));
                }
                fields
            }
            Form::Either(alternatives) => {
                let fields = alternatives
                    .into_iter()
                    .map(|inner| self.first_fields(inner));
                fields.flatten().collect()
            }
            Form::Both(first, second) => &self.first_fields(first) | &self.first_fields(second),
            Form::Repeat(part, ..) => self.first_fields(part),
            Form::InField(field, _) => BTreeSet::from([field]),
        }
    }

    /// The byte sets in all expressions written so far. Derivatives add none.
    pub fn byte_sets(&self) -> Vec<ByteSet> {
        let store = self.store.borrow();
        let set = |form: &Form| match form {
            Form::OneOf(set) => Some(*set),
            _ => None,
        };
        store.forms.iter().filter_map(set).collect()
    }

    fn form(&self, expr: Expr) -> Form {
        self.store.borrow().forms[expr.0].clone()
    }

    fn keep(&self, form: Form) -> Expr {
        let mut store = self.store.borrow_mut();
        if let Some(&expr) = store.known.get(&form) {
            return expr;
        }
        let expr = Expr(store.forms.len());
        let holds_empty = store.form_holds_empty(&form);
        store.holds_empty.push(holds_empty);
        store.forms.push(form.clone());
        store.known.insert(form, expr);
        expr
    }
}

impl Store {
    fn form_holds_empty(&self, form: &Form) -> bool {
        let holds_empty = |expr: &Expr| self.holds_empty[expr.0];
        match form {
            Form::Nothing | Form::OneOf(_) => false,
            Form::Empty => true,
            Form::Then(first, second) | Form::Both(first, second) => {
                holds_empty(first) && holds_empty(second)
            }
            Form::Either(alternatives) => alternatives.iter().any(holds_empty),
            Form::Not(excluded) => !holds_empty(excluded),
            Form::Repeat(part, least, _) => *least == 0 || holds_empty(part),
            Form::InField(_, inner) => holds_empty(inner),
        }
    }
}

#[cfg(test)]
mod tests {
    use super::*;

    fn holds(g: &Grammar, expr: Expr, string: &str) -> bool {
        let derived = string
            .bytes()
            .fold(expr, |expr, byte| g.derivative(expr, byte));
        g.holds_empty(derived)
    }

    /// All strings of up to six letters a and b.
    fn strings() -> Vec<String> {
        let mut strings = vec![String::new()];
        for shorter in 0..(1 << 6) - 1 {
            for letter in ["a", "b"] {
                strings.push(strings[shorter].clone() + letter);
            }
        }
        strings
    }

    /// Checks that `expr` holds exactly the strings for which `belongs` is true.
    fn check(g: &Grammar, expr: Expr, belongs: impl Fn(&str) -> bool) {
        for string in strings() {
            assert_eq!(holds(g, expr, &string), belongs(&string), "{string:?}");
        }
    }

    #[test]
    fn simple_forms_hold_what_they_say() {
        let g = Grammar::default();
        check(&g, g.nothing(), |_| false);
        check(&g, g.empty(), |s| s.is_empty());
        check(&g, g.anything(), |_| true);
        check(&g, g.byte(b'a'), |s| s == "a");
        check(&g, g.any_byte(), |s| s.len() == 1);
        check(&g, g.text("aba"), |s| s == "aba");
        check(&g, g.one_of(ByteSet::of(|_| false)), |_| false);
    }

    #[test]
    fn compound_forms_hold_what_they_say() {
        let g = Grammar::default();
        let (a, ab) = (g.text("a"), g.text("ab"));
        check(&g, g.then(a, ab), |s| s == "aab");
        check(&g, g.sequence([a, g.anything(), a]), |s| {
            s.len() >= 2 && s.starts_with('a') && s.ends_with('a')
        });
        check(&g, g.either([a, ab, g.nothing()]), |s| {
            s == "a" || s == "ab"
        });
        check(&g, g.not(ab), |s| s != "ab");
        check(&g, g.repeat(ab, 1, 2), |s| s == "ab" || s == "abab");
        check(&g, g.repeat(g.any_byte(), 2, 4), |s| {
            (2..=4).contains(&s.len())
        });
        check(&g, g.repeat(g.either([g.empty(), a]), 2, 3), |s| {
            ["", "a", "aa", "aaa"].contains(&s)
        });
        check(&g, g.repeat(a, 0, 0), |s| s.is_empty());
    }

    #[test]
    fn an_end_mark_can_be_kept_out_and_a_length_bounded() {
        let g = Grammar::default();
        let mark = g.text("ab");
        let no_mark = g.not(g.sequence([g.anything(), mark, g.anything()]));
        let up_to_mark = g.then(no_mark, mark);
        check(&g, no_mark, |s| !s.contains("ab"));
        check(&g, up_to_mark, |s| {
            s.find("ab") == s.len().checked_sub(2) && s.len() >= 2
        });
        check(&g, g.both(up_to_mark, g.repeat(g.any_byte(), 0, 4)), |s| {
            s.len() <= 4 && s.len() >= 2 && s.find("ab") == Some(s.len() - 2)
        });
    }

    #[test]
    fn a_field_holds_its_bytes_and_the_one_that_ends_it() {
        let g = Grammar::default();
        let digits = g.repeat(g.byte(b'1'), 1, 2);
        let port = g.in_field(Field::Port, g.then(digits, g.text(" ")));
        let line = g.then(port, g.in_field(Field::LineEnd, g.text("\n")));
        let fields_behind = |string: &str| {
            let derived = string
                .bytes()
                .fold(line, |expr, byte| g.derivative(expr, byte));
            Vec::from_iter(g.first_fields(derived))
        };
        assert_eq!(fields_behind(""), [Field::Port]);
        assert_eq!(fields_behind("1"), [Field::Port]);
        assert_eq!(fields_behind("11"), [Field::Port]);
        assert_eq!(fields_behind("11 "), [Field::LineEnd]);
        assert_eq!(fields_behind("11 \n"), []);
    }
}
