//! The operations as lines of text.

use std::fmt;

#[derive(Clone, Copy, Debug, PartialEq, Eq, Hash, PartialOrd, Ord)]
pub enum Var {
    Zero,
    One,
    Instance(u64),
    Witness(u64),
    Symbol(u64),
}

pub type Term = (u64, Var);

#[derive(Clone, Copy, Debug, PartialEq, Eq, Hash, PartialOrd, Ord)]
pub enum FieldName {
    P31,
    Gf8,
}

pub const FIELDS: [FieldName; 2] = [FieldName::P31, FieldName::Gf8];

#[derive(Clone, Copy, Debug, PartialEq, Eq, Hash, PartialOrd, Ord)]
pub enum Op {
    Negate,
    Scale,
    Compactify,
    Locate,
    AddTerm,
    SubTerm,
    AddVariable,
    SubVariable,
    Sum,
    Difference,
    SumScaled,
    DifferenceScaled,
    FromTerm,
    FromVariable,
    Questions,
    Compare,
}

pub const OPS: [(Op, &str); 16] = [
    (Op::Negate, "negate"),
    (Op::Scale, "scale"),
    (Op::Compactify, "compactify"),
    (Op::Locate, "locate"),
    (Op::AddTerm, "add_term"),
    (Op::SubTerm, "sub_term"),
    (Op::AddVariable, "add_variable"),
    (Op::SubVariable, "sub_variable"),
    (Op::Sum, "sum"),
    (Op::Difference, "difference"),
    (Op::SumScaled, "sum_scaled"),
    (Op::DifferenceScaled, "difference_scaled"),
    (Op::FromTerm, "from_term"),
    (Op::FromVariable, "from_variable"),
    (Op::Questions, "questions"),
    (Op::Compare, "compare"),
];

#[derive(Clone, Copy, Debug, PartialEq, Eq, Hash)]
pub enum Arg {
    Nothing,
    Number(u64),
    Var(Var),
    Term(Term),
}

/// One operation.
#[derive(Clone, Debug, PartialEq, Eq, Hash)]
pub struct Line {
    pub field: FieldName,
    pub op: Op,
    pub arg: Arg,
    pub left: Vec<Term>,
    pub right: Vec<Term>,
}

impl Op {
    pub fn name(self) -> &'static str {
        OPS.iter().find(|(op, _)| *op == self).unwrap().1
    }

    /// Which ARG the operation takes, with any value in it.
    fn shape(self) -> Arg {
        match self {
            Op::Negate | Op::Compactify | Op::Sum | Op::Difference => Arg::Nothing,
            Op::Scale | Op::SumScaled | Op::DifferenceScaled => Arg::Number(0),
            Op::AddTerm | Op::SubTerm | Op::FromTerm => Arg::Term((0, Var::Zero)),
            Op::Locate
            | Op::AddVariable
            | Op::SubVariable
            | Op::FromVariable
            | Op::Questions
            | Op::Compare => Arg::Var(Var::Zero),
        }
    }

    pub fn takes_left(self) -> bool {
        !matches!(self, Op::FromTerm | Op::FromVariable | Op::Questions)
    }

    pub fn takes_right(self) -> bool {
        matches!(
            self,
            Op::Sum | Op::Difference | Op::SumScaled | Op::DifferenceScaled
        )
    }

    /// The operations that look for a place in LEFT and change it there.
    pub fn puts_at_place(self) -> bool {
        matches!(
            self,
            Op::AddTerm | Op::SubTerm | Op::AddVariable | Op::SubVariable
        )
    }
}

impl Arg {
    pub fn var(self) -> Option<Var> {
        match self {
            Arg::Var(var) | Arg::Term((_, var)) => Some(var),
            Arg::Nothing | Arg::Number(_) => None,
        }
    }
}

impl FieldName {
    pub fn name(self) -> &'static str {
        match self {
            FieldName::P31 => "p31",
            FieldName::Gf8 => "gf8",
        }
    }
}

impl fmt::Display for Var {
    fn fmt(&self, f: &mut fmt::Formatter<'_>) -> fmt::Result {
        match self {
            Var::Zero => write!(f, "z"),
            Var::One => write!(f, "o"),
            Var::Instance(n) => write!(f, "i{n}"),
            Var::Witness(n) => write!(f, "w{n}"),
            Var::Symbol(n) => write!(f, "s{n}"),
        }
    }
}

pub fn write_list(list: &[Term]) -> String {
    let terms: Vec<String> = list.iter().map(|(n, var)| format!("{n}*{var}")).collect();
    terms.join(" ")
}

impl fmt::Display for Line {
    fn fmt(&self, f: &mut fmt::Formatter<'_>) -> fmt::Result {
        write!(f, "{};{};", self.field.name(), self.op.name())?;
        match self.arg {
            Arg::Nothing => {}
            Arg::Number(n) => write!(f, "{n}")?,
            Arg::Var(var) => write!(f, "{var}")?,
            Arg::Term((n, var)) => write!(f, "{n}*{var}")?,
        }
        write!(f, ";{};{}", write_list(&self.left), write_list(&self.right))
    }
}

/// A number in the one way it is written: digits, no leading zero.
pub fn read_number(text: &str) -> Result<u64, String> {
    match text.parse::<u64>() {
        Ok(n) if n.to_string() == text => Ok(n),
        _ => Err(format!("not a number: '{text}'")),
    }
}

pub fn read_var(text: &str) -> Result<Var, String> {
    match text {
        "z" => return Ok(Var::Zero),
        "o" => return Ok(Var::One),
        _ => {}
    }
    if let Some(rest) = text.strip_prefix('i') {
        Ok(Var::Instance(read_number(rest)?))
    } else if let Some(rest) = text.strip_prefix('w') {
        Ok(Var::Witness(read_number(rest)?))
    } else if let Some(rest) = text.strip_prefix('s') {
        Ok(Var::Symbol(read_number(rest)?))
    } else {
        Err(format!("not a variable: '{text}'"))
    }
}

pub fn read_term(text: &str) -> Result<Term, String> {
    let (number, var) = text
        .split_once('*')
        .ok_or_else(|| format!("not a term: '{text}'"))?;
    Ok((read_number(number)?, read_var(var)?))
}

pub fn read_list(text: &str) -> Result<Vec<Term>, String> {
    if text.is_empty() {
        return Ok(Vec::new());
    }
    text.split(' ').map(read_term).collect()
}

pub fn read_line(text: &str) -> Result<Line, String> {
    let parts: Vec<&str> = text.split(';').collect();
    let [field, op, arg, left, right] = parts[..] else {
        return Err(format!("{} parts instead of five", parts.len()));
    };
    let field = FIELDS
        .into_iter()
        .find(|known| known.name() == field)
        .ok_or_else(|| format!("no field '{field}'"))?;
    let op = OPS
        .iter()
        .find(|(_, name)| *name == op)
        .ok_or_else(|| format!("no operation '{op}'"))?
        .0;
    let arg = match op.shape() {
        Arg::Nothing if arg.is_empty() => Arg::Nothing,
        Arg::Nothing => return Err(format!("an ARG too many: '{arg}'")),
        Arg::Number(_) => Arg::Number(read_number(arg)?),
        Arg::Var(_) => Arg::Var(read_var(arg)?),
        Arg::Term(_) => Arg::Term(read_term(arg)?),
    };
    let left = read_list(left)?;
    let right = read_list(right)?;
    if !op.takes_left() && !left.is_empty() {
        return Err("a LEFT too many".to_string());
    }
    if !op.takes_right() && !right.is_empty() {
        return Err("a RIGHT too many".to_string());
    }
    if op == Op::Compare && left.len() != 1 {
        return Err("compare takes one term".to_string());
    }
    Ok(Line {
        field,
        op,
        arg,
        left,
        right,
    })
}

#[cfg(test)]
mod tests {
    use super::*;

    #[test]
    fn lines_survive_reading() {
        for text in [
            "p31;negate;;;",
            "p31;sum;;1*z 2*i0;3*w9223372036854775808",
            "gf8;scale;255;7*s3;",
            "gf8;add_term;4*o;1*i1;",
            "p31;questions;w4294967296;;",
            "p31;compare;i1;1*i2;",
        ] {
            assert_eq!(read_line(text).unwrap().to_string(), text);
        }
    }

    #[test]
    fn broken_lines_are_refused() {
        for text in [
            "p31;negate;;",
            "p32;negate;;;",
            "p31;flip;;;",
            "p31;negate;1;;",
            "p31;scale;01;;",
            "p31;sum;;1*i0  2*i1;",
            "p31;sum;;1*q0;",
            "p31;negate;;;1*i0",
            "p31;compare;i1;;",
        ] {
            assert!(read_line(text).is_err(), "{text}");
        }
    }
}
