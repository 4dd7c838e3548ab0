//! How an operation's two answers are compared.

use crate::original_side::{attempt, compactified, fits, strictly_in_order};
use crate::text::{self, Line, Op, Var};

#[derive(Clone, Copy, Debug, PartialEq, Eq, PartialOrd, Ord)]
pub enum Outside {
    ZeroAndOne,
    LocateWithoutOrder,
}

impl Outside {
    pub fn reason(self) -> &'static str {
        match self {
            Outside::ZeroAndOne => "Zero and One in one operation",
            Outside::LocateWithoutOrder => {
                "locate in six or more terms out of order or with a repeat"
            }
        }
    }
}

#[derive(Clone, Copy, Debug, PartialEq, Eq)]
pub enum Kind {
    Exact,
    AfterCompactify,
    Outside(Outside),
}

/// From this many terms on the original searches by halving.
pub const HALVING: usize = 6;

pub fn kind(line: &Line) -> Kind {
    let variables = || {
        line.left
            .iter()
            .chain(&line.right)
            .map(|term| term.1)
            .chain(line.arg.var())
    };
    if variables().any(|var| var == Var::Zero) && variables().any(|var| var == Var::One) {
        return Kind::Outside(Outside::ZeroAndOne);
    }
    let without_order = line.left.len() >= HALVING && !strictly_in_order(&line.left);
    if without_order && line.op == Op::Locate {
        return Kind::Outside(Outside::LocateWithoutOrder);
    }
    if without_order && line.op.puts_at_place() {
        return Kind::AfterCompactify;
    }
    Kind::Exact
}

/// Whether two lists are the same after the original's compactify. A text
/// that is no list of the field is like no other, and so is a list on which
/// the original panics.
pub fn same_after_compactify(line: &Line, one: &str, other: &str) -> bool {
    let compact = |text| {
        let list = text::read_list(text).ok()?;
        if !fits(line.field, &list) {
            return None;
        }
        attempt(|| compactified(line.field, &list)).ok()
    };
    match (compact(one), compact(other)) {
        (Some(one), Some(other)) => one == other,
        _ => false,
    }
}

#[cfg(test)]
mod tests {
    use super::*;
    use crate::original_side::answer;
    use crate::text::read_line;

    fn kind_of(text: &str) -> Kind {
        kind(&read_line(text).unwrap())
    }

    #[test]
    fn kinds() {
        let outside = |reason| Kind::Outside(reason);
        assert_eq!(kind_of("p31;compactify;;1*o 2*i0;"), Kind::Exact);
        assert_eq!(
            kind_of("p31;compactify;;1*z 2*o;"),
            outside(Outside::ZeroAndOne)
        );
        assert_eq!(kind_of("p31;sum;;1*z;2*o"), outside(Outside::ZeroAndOne));
        assert_eq!(kind_of("p31;locate;z;2*o;"), outside(Outside::ZeroAndOne));
        assert_eq!(kind_of("p31;compare;o;1*z;"), outside(Outside::ZeroAndOne));
        let five = "1*i5 1*i4 1*i3 1*i2 1*i2";
        let six = "1*i1 1*i2 1*i3 1*i4 1*i5 1*i5";
        let in_order = "1*i1 1*i2 1*i3 1*i4 1*i5 1*i6";
        assert_eq!(kind_of(&format!("p31;locate;i2;{five};")), Kind::Exact);
        assert_eq!(
            kind_of(&format!("p31;locate;i2;{six};")),
            outside(Outside::LocateWithoutOrder)
        );
        assert_eq!(kind_of(&format!("p31;locate;i2;{in_order};")), Kind::Exact);
        assert_eq!(
            kind_of(&format!("p31;add_variable;i2;{six};")),
            Kind::AfterCompactify
        );
        assert_eq!(kind_of(&format!("p31;sum;;{six};{six}")), Kind::Exact);
    }

    #[test]
    fn after_compactify() {
        let line = read_line("p31;add_variable;i2;;").unwrap();
        let same = |one, other| same_after_compactify(&line, one, other);
        assert!(same("1*i2 2*i1 3*i2", "2*i1 4*i2"));
        assert!(!same("1*i2 2*i1 3*i2", "2*i1 5*i2"));
        assert!(!same("0*i2", ""));
        assert!(!same("2147483647*i2", "2147483647*i2"));
        assert!(!same("1*s99999", "1*s99999"));
        assert!(!same("what", "what"));
    }

    #[test]
    fn answers() {
        let answer = |text| answer(&read_line(text).unwrap()).unwrap();
        assert_eq!(answer("p31;negate;;1*i1 0*w0;"), "2147483646*i1 0*w0");
        assert_eq!(answer("gf8;sum;;3*i1;5*i1"), "6*i1");
        assert_eq!(answer("p31;compactify;;1*w0 2*i1 3*w0;"), "2*i1 4*w0");
        assert_eq!(answer("p31;locate;i1;1*i1;"), "free 0");
        assert_eq!(answer("p31;questions;s3;;"), "0 0 0 0 1 3 none");
        assert_eq!(answer("p31;questions;w3;;"), "0 0 0 1 0 none 10");
        assert_eq!(answer("p31;compare;i9;1*w0;"), "less");
        assert_eq!(answer("p31;sum;;;"), "");
    }
}
