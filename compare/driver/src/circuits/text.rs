//! Circuits as lines of text: the field, then the calls in their order.

use crate::text::{read_list, read_number, read_var, write_list, FieldName, Term, Var, FIELDS};
use std::fmt;

#[derive(Clone, Copy, Debug, PartialEq, Eq, Hash, PartialOrd, Ord)]
pub enum Mode {
    Setup,
    Prove,
    Bare,
}

pub const MODES: [(Mode, &str); 3] = [
    (Mode::Setup, "setup"),
    (Mode::Prove, "prove"),
    (Mode::Bare, "bare"),
];

#[derive(Clone, Copy, Debug, PartialEq, Eq, Hash, PartialOrd, Ord)]
pub enum Goal {
    None,
    Constraints,
    Weight,
}

pub const GOALS: [(Goal, &str); 3] = [
    (Goal::None, "none"),
    (Goal::Constraints, "constraints"),
    (Goal::Weight, "weight"),
];

#[derive(Clone, Debug, PartialEq, Eq, Hash)]
pub enum Call {
    Mode(Mode),
    Goal(Goal),
    /// A value, or nothing where the assignment is missing.
    Input(Option<u64>),
    Witness(Option<u64>),
    Lc(Vec<Term>),
    Constraint([Vec<Term>; 3]),
    Check,
    Value(Var),
    Finalize,
    Matrices,
}

#[derive(Clone, Debug, PartialEq, Eq, Hash)]
pub struct Circuit {
    pub field: FieldName,
    pub calls: Vec<Call>,
}

/// The name that `names` has for `what`.
pub fn name_of<T: Copy + PartialEq>(names: &[(T, &'static str)], what: T) -> &'static str {
    names.iter().find(|(known, _)| *known == what).unwrap().1
}

fn named<T: Copy>(names: &[(T, &str)], name: &str) -> Result<T, String> {
    let found = names.iter().find(|(_, known)| *known == name);
    found
        .map(|(known, _)| *known)
        .ok_or_else(|| format!("no name for it: '{name}'"))
}

/// A number, or the word none.
pub fn or_none<N: ToString>(number: Option<N>) -> String {
    number.map_or("none".to_string(), |n| n.to_string())
}

fn read_or_none(text: &str) -> Result<Option<u64>, String> {
    match text {
        "none" => Ok(None),
        _ => read_number(text).map(Some),
    }
}

impl Call {
    /// The lists that are handed in.
    pub fn lists(&self) -> &[Vec<Term>] {
        match self {
            Call::Lc(list) => std::slice::from_ref(list),
            Call::Constraint(lists) => lists,
            _ => &[],
        }
    }
}

impl fmt::Display for Call {
    fn fmt(&self, f: &mut fmt::Formatter<'_>) -> fmt::Result {
        match self {
            Call::Mode(mode) => write!(f, "mode={}", name_of(&MODES, *mode)),
            Call::Goal(goal) => write!(f, "goal={}", name_of(&GOALS, *goal)),
            Call::Input(value) => write!(f, "input={}", or_none(*value)),
            Call::Witness(value) => write!(f, "witness={}", or_none(*value)),
            Call::Lc(list) => write!(f, "lc={}", write_list(list)),
            Call::Constraint(lists) => {
                let lists: Vec<String> = lists.iter().map(|list| write_list(list)).collect();
                write!(f, "constraint={}", lists.join(","))
            }
            Call::Check => write!(f, "check"),
            Call::Value(var) => write!(f, "value={var}"),
            Call::Finalize => write!(f, "finalize"),
            Call::Matrices => write!(f, "matrices"),
        }
    }
}

impl fmt::Display for Circuit {
    fn fmt(&self, f: &mut fmt::Formatter<'_>) -> fmt::Result {
        write!(f, "{}", self.field.name())?;
        for call in &self.calls {
            write!(f, ";{call}")?;
        }
        Ok(())
    }
}

fn read_call(text: &str) -> Result<Call, String> {
    let Some((name, rest)) = text.split_once('=') else {
        return match text {
            "check" => Ok(Call::Check),
            "finalize" => Ok(Call::Finalize),
            "matrices" => Ok(Call::Matrices),
            _ => Err(format!("no call '{text}'")),
        };
    };
    match name {
        "mode" => Ok(Call::Mode(named(&MODES, rest)?)),
        "goal" => Ok(Call::Goal(named(&GOALS, rest)?)),
        "input" => Ok(Call::Input(read_or_none(rest)?)),
        "witness" => Ok(Call::Witness(read_or_none(rest)?)),
        "lc" => Ok(Call::Lc(read_list(rest)?)),
        "constraint" => {
            let lists: Vec<&str> = rest.split(',').collect();
            let [a, b, c] = lists[..] else {
                return Err(format!("{} lists instead of three", lists.len()));
            };
            Ok(Call::Constraint([
                read_list(a)?,
                read_list(b)?,
                read_list(c)?,
            ]))
        }
        "value" => Ok(Call::Value(read_var(rest)?)),
        _ => Err(format!("no call '{text}'")),
    }
}

pub fn read_circuit(text: &str) -> Result<Circuit, String> {
    let mut parts = text.split(';');
    let field = parts.next().unwrap_or_default();
    let field = FIELDS
        .into_iter()
        .find(|known| known.name() == field)
        .ok_or_else(|| format!("no field '{field}'"))?;
    Ok(Circuit {
        field,
        calls: parts.map(read_call).collect::<Result<_, _>>()?,
    })
}

#[cfg(test)]
mod tests {
    use super::*;

    #[test]
    fn circuits_survive_reading() {
        for text in [
            "p31",
            "gf8;mode=bare;goal=none;finalize",
            "p31;mode=setup;input=none;witness=none;lc=;constraint=,,;check",
            "p31;goal=weight;input=64;witness=3;lc=1*w0 1*o;constraint=1*s0,1*s0,1*i1;value=s0;matrices",
        ] {
            assert_eq!(read_circuit(text).unwrap().to_string(), text);
        }
    }

    #[test]
    fn broken_circuits_are_refused() {
        for text in [
            "",
            "p32",
            "p31;",
            "p31;mode=fast",
            "p31;input=",
            "p31;input=01",
            "p31;lc",
            "p31;lc=1*q0",
            "p31;constraint=1*o,1*o",
            "p31;constraint=1*o,1*o,1*o,1*o",
            "p31;check=1",
            "p31;value=",
        ] {
            assert!(read_circuit(text).is_err(), "{text}");
        }
    }
}
