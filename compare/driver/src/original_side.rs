//! The answers of the original Rust.

use crate::fields::{Gf8, Number, P31};
use crate::text::{self, Arg, FieldName, Line, Op, Term, Var};
use original::r1cs::{ConstraintSystem, LinearCombination, Variable};
use std::cell::Cell;
use std::cmp::Ordering;
use std::ops::MulAssign;
use std::panic::{catch_unwind, AssertUnwindSafe};

/// How many symbols there are to name.
pub const SYMBOLS: u64 = 4096;

thread_local! {
    /// Symbols in the order in which a constraint system numbers them. Their
    /// number is not open to others, so it is told by the place in here.
    static TABLE: Vec<Variable> = {
        let mut system = ConstraintSystem::<P31>::new();
        (0..SYMBOLS)
            .map(|_| system.new_lc(LinearCombination::new()).unwrap())
            .collect()
    };
}

pub fn to_original(var: Var) -> Variable {
    match var {
        Var::Zero => Variable::Zero,
        Var::One => Variable::One,
        Var::Instance(n) => Variable::Instance(n as usize),
        Var::Witness(n) => Variable::Witness(n as usize),
        Var::Symbol(n) => TABLE.with(|table| table[n as usize]),
    }
}

fn number_of_symbol(variable: Variable) -> u64 {
    TABLE.with(|table| table.iter().position(|known| *known == variable).unwrap()) as u64
}

pub fn from_original(variable: Variable) -> Var {
    match variable {
        Variable::Zero => Var::Zero,
        Variable::One => Var::One,
        Variable::Instance(n) => Var::Instance(n as u64),
        Variable::Witness(n) => Var::Witness(n as u64),
        Variable::SymbolicLc(_) => Var::Symbol(number_of_symbol(variable)),
    }
}

/// Whether a list read from elsewhere can be given to the original.
pub fn fits(field: FieldName, list: &[Term]) -> bool {
    let greatest = greatest(field);
    list.iter()
        .all(|(n, var)| *n <= greatest && !matches!(var, Var::Symbol(symbol) if *symbol >= SYMBOLS))
}

pub fn greatest(field: FieldName) -> u64 {
    match field {
        FieldName::P31 => P31::GREATEST,
        FieldName::Gf8 => Gf8::GREATEST,
    }
}

fn number<F: Number>(n: u64) -> F {
    F::from_number(n).expect("a number outside the field")
}

pub fn list_to_original<F: Number>(list: &[Term]) -> LinearCombination<F> {
    LinearCombination(
        list.iter()
            .map(|(n, var)| (number(*n), to_original(*var)))
            .collect(),
    )
}

pub fn list_from_original<F: Number>(list: &LinearCombination<F>) -> Vec<Term> {
    list.0
        .iter()
        .map(|(n, variable)| (n.number(), from_original(*variable)))
        .collect()
}

/// The one answer of all the forms that an operation has in the original.
fn all_forms<F: Number, const N: usize>(forms: [LinearCombination<F>; N]) -> LinearCombination<F> {
    for form in &forms[1..] {
        assert_eq!(*form, forms[0], "two forms of one operation differ");
    }
    forms[0].clone()
}

fn changed<F: Number>(
    list: &LinearCombination<F>,
    change: impl FnOnce(&mut LinearCombination<F>),
) -> LinearCombination<F> {
    let mut list = list.clone();
    change(&mut list);
    list
}

fn bit(yes: bool) -> &'static str {
    if yes {
        "1"
    } else {
        "0"
    }
}

fn or_none(index: Option<u64>) -> String {
    index.map_or("none".to_string(), |n| n.to_string())
}

fn questions(variable: Variable) -> String {
    let lc_index = variable
        .get_lc_index()
        .map(|index| number_of_symbol(Variable::SymbolicLc(index)));
    [
        bit(variable.is_zero()),
        bit(variable.is_one()),
        bit(variable.is_instance()),
        bit(variable.is_witness()),
        bit(variable.is_lc()),
        &or_none(lc_index),
        &or_none(variable.get_index_unchecked(7).map(|n| n as u64)),
    ]
    .join(" ")
}

fn compared(one: Variable, other: Variable) -> &'static str {
    let order = one.cmp(&other);
    assert_eq!(
        one.partial_cmp(&other),
        Some(order),
        "the two orders of variables differ"
    );
    match order {
        Ordering::Less => "less",
        Ordering::Equal => "equal",
        Ordering::Greater => "greater",
    }
}

// Every form is called, the ones by reference too.
#[allow(clippy::op_ref)]
fn answer_in<F: Number>(line: &Line) -> String {
    let left = list_to_original::<F>(&line.left);
    let right = list_to_original::<F>(&line.right);
    let list = match (line.op, line.arg) {
        (Op::Negate, Arg::Nothing) => {
            all_forms([-left.clone(), changed(&left, |list| list.negate_in_place())])
        }
        (Op::Scale, Arg::Number(k)) => {
            let k = number::<F>(k);
            all_forms([
                changed(&left, |list| list.mul_assign(k)),
                left.clone() * k,
                &left * k,
            ])
        }
        (Op::Compactify, Arg::Nothing) => changed(&left, |list| list.compactify()),
        (Op::Locate, Arg::Var(var)) => {
            return match left.get_var_loc(&to_original(var)) {
                Ok(place) => format!("found {place}"),
                Err(place) => format!("free {place}"),
            };
        }
        (Op::AddTerm, Arg::Term((n, var))) => {
            let term = (number::<F>(n), to_original(var));
            all_forms([left.clone() + term, changed(&left, |list| *list += term)])
        }
        (Op::SubTerm, Arg::Term((n, var))) => left - (number::<F>(n), to_original(var)),
        (Op::AddVariable, Arg::Var(var)) => {
            let variable = to_original(var);
            all_forms([left.clone() + variable, left + &variable])
        }
        (Op::SubVariable, Arg::Var(var)) => {
            let variable = to_original(var);
            all_forms([left.clone() - variable, left - &variable])
        }
        (Op::Sum, Arg::Nothing) => all_forms([
            &left + &right,
            &left + right.clone(),
            left.clone() + &right,
            left + right,
        ]),
        (Op::Difference, Arg::Nothing) => all_forms([
            &left - &right,
            &left - right.clone(),
            left.clone() - &right,
            left - right,
        ]),
        (Op::SumScaled, Arg::Number(k)) => {
            let k = number::<F>(k);
            all_forms([
                &left + (k, &right),
                &left + (k, right.clone()),
                left.clone() + (k, &right),
                left + (k, right),
            ])
        }
        (Op::DifferenceScaled, Arg::Number(k)) => {
            let k = number::<F>(k);
            all_forms([
                &left - (k, &right),
                &left - (k, right.clone()),
                left.clone() - (k, &right),
                left - (k, right),
            ])
        }
        (Op::FromTerm, Arg::Term((n, var))) => {
            LinearCombination::from((number::<F>(n), to_original(var)))
        }
        (Op::FromVariable, Arg::Var(var)) => LinearCombination::from(to_original(var)),
        (Op::Questions, Arg::Var(var)) => return questions(to_original(var)),
        (Op::Compare, Arg::Var(var)) => {
            return compared(to_original(var), to_original(line.left[0].1)).to_string();
        }
        (op, arg) => unreachable!("{op:?} with {arg:?}"),
    };
    text::write_list(&list_from_original(&list))
}

thread_local! {
    /// Whether a panic is expected and told by other means.
    static QUIET: Cell<bool> = const { Cell::new(false) };
}

/// Keeps the panics silent that `attempt` catches, and only those.
pub fn silence_attempts() {
    let usual = std::panic::take_hook();
    std::panic::set_hook(Box::new(move |panic| {
        if !QUIET.with(Cell::get) {
            usual(panic);
        }
    }));
}

/// What comes of `act`, or what it said when it panicked, on one line.
pub fn attempt<T>(act: impl FnOnce() -> T) -> Result<T, String> {
    let before = QUIET.with(|quiet| quiet.replace(true));
    let outcome = catch_unwind(AssertUnwindSafe(act));
    QUIET.with(|quiet| quiet.set(before));
    outcome.map_err(|payload| {
        let said = if let Some(text) = payload.downcast_ref::<&str>() {
            text
        } else if let Some(text) = payload.downcast_ref::<String>() {
            text.as_str()
        } else {
            "no text"
        };
        said.split_whitespace().collect::<Vec<_>>().join(" ")
    })
}

/// The answer of the original, or what it said when it panicked.
pub fn answer(line: &Line) -> Result<String, String> {
    attempt(|| match line.field {
        FieldName::P31 => answer_in::<P31>(line),
        FieldName::Gf8 => answer_in::<Gf8>(line),
    })
}

/// The list after the original's compactify.
pub fn compactified(field: FieldName, list: &[Term]) -> Vec<Term> {
    fn of<F: Number>(list: &[Term]) -> Vec<Term> {
        list_from_original(&changed(&list_to_original::<F>(list), |list| {
            list.compactify()
        }))
    }
    match field {
        FieldName::P31 => of::<P31>(list),
        FieldName::Gf8 => of::<Gf8>(list),
    }
}

/// Whether each variable stands before the next one in the original's order.
pub fn strictly_in_order(list: &[Term]) -> bool {
    list.windows(2)
        .all(|pair| to_original(pair[0].1) < to_original(pair[1].1))
}
