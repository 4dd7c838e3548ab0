//! What a circuit comes to, call by call, as far as it is needed to tell
//! whether the circuit lies in the common domain, to make constraints that
//! hold, and to know what there is to ask for. No answer is taken from here.

use super::text::{Call, Circuit, Goal, Mode};
use crate::fields::{Gf8, Number, P31};
use crate::text::{FieldName, Term, Var};
use std::collections::BTreeMap;

/// Why a circuit lies outside the common domain.
#[derive(Clone, Copy, Debug, PartialEq, Eq, PartialOrd, Ord)]
pub enum Outside {
    ZeroAndOne,
    ZeroInRow,
    MissingValue,
    UnknownVariable,
    SetLate,
    BareCheck,
    OwnList,
    FinishedSymbol,
    OutOfPlace,
}

impl Outside {
    pub fn reason(self) -> &'static str {
        match self {
            Outside::ZeroAndOne => "Zero and One in one list as it is written out in finalising",
            Outside::ZeroInRow => "Zero with a number that is not zero in a row of the matrices",
            Outside::MissingValue => "a variable whose value is missing, outside Setup",
            Outside::UnknownVariable => "a list that names what is not known",
            Outside::SetLate => "mode or goal set late",
            Outside::BareCheck => "a check in bare mode after a constraint",
            Outside::OwnList => "the value of a constraint's own list",
            Outside::FinishedSymbol => "the value of a symbol once the circuit is finished",
            Outside::OutOfPlace => "a call in the wrong state: here it does not build",
        }
    }
}

/// A list that was handed in.
struct Given<F> {
    /// Whether `new_lc` named it, so that other lists may.
    plain: bool,
    terms: Vec<(F, Var)>,
    /// What it is worth at the values that were handed in.
    worth: F,
    /// How deep symbols are nested in it.
    depth: usize,
}

pub struct Account<F> {
    pub mode: Mode,
    pub goal: Goal,
    /// The values that were handed in, in Setup too; zero for a missing one.
    pub instances: Vec<F>,
    pub witnesses: Vec<F>,
    pub constraints: usize,
    pub finished: bool,
    /// The witnesses named by calls, where the circuit is finished.
    pub named: usize,
    pub outside: Option<Outside>,
    /// Terms of merged lists whose number is zero.
    zero_sums: usize,
    lists: Vec<Given<F>>,
    zero_in_row: bool,
}

impl<F: Number> Account<F> {
    pub fn new() -> Account<F> {
        Account {
            mode: Mode::Prove,
            goal: Goal::Constraints,
            instances: vec![F::one()],
            witnesses: Vec::new(),
            constraints: 0,
            finished: false,
            named: 0,
            outside: None,
            zero_sums: 0,
            lists: Vec::new(),
            zero_in_row: false,
        }
    }

    /// How many lists are kept; the next symbol has this number.
    pub fn entries(&self) -> usize {
        self.lists.len()
    }

    /// The numbers of the lists that may be named, in their order.
    pub fn symbols(&self) -> Vec<u64> {
        let plain = |(k, list): (usize, &Given<F>)| list.plain.then_some(k as u64);
        self.lists.iter().enumerate().filter_map(plain).collect()
    }

    /// A list that belongs to a constraint.
    pub fn own_list(&self) -> Option<u64> {
        let own = self.lists.iter().position(|list| !list.plain);
        own.map(|k| k as u64)
    }

    /// How many witnesses were added in finalising.
    pub fn added(&self) -> usize {
        if self.finished {
            self.witnesses.len() - self.named
        } else {
            0
        }
    }

    pub fn depth(&self) -> usize {
        self.lists.iter().map(|list| list.depth).max().unwrap_or(0)
    }

    fn value(&self, var: Var) -> Option<F> {
        match var {
            Var::Zero => Some(F::zero()),
            Var::One => Some(F::one()),
            Var::Instance(n) => self.instances.get(n as usize).copied(),
            Var::Witness(n) => self.witnesses.get(n as usize).copied(),
            Var::Symbol(k) => {
                let list = self.lists.get(k as usize)?;
                list.plain.then_some(list.worth)
            }
        }
    }

    /// What a list is worth, or nothing where it names what is not known.
    pub fn worth(&self, list: &[Term]) -> Option<F> {
        let mut sum = F::zero();
        for (n, var) in list {
            sum += F::from_number(*n)? * self.value(*var)?;
        }
        Some(sum)
    }

    /// The account after one call more. Once it is outside it stays there,
    /// and what follows is no longer told.
    pub fn make(&mut self, call: &Call) {
        if self.outside.is_none() {
            if let Err(outside) = self.try_make(call) {
                self.outside = Some(outside);
            }
        }
    }

    fn try_make(&mut self, call: &Call) -> Result<(), Outside> {
        let builds = match call {
            Call::Check | Call::Value(_) => true,
            Call::Matrices => self.finished,
            _ => !self.finished,
        };
        if !builds {
            return Err(Outside::OutOfPlace);
        }
        match call {
            Call::Mode(mode) => {
                self.untouched()?;
                self.mode = *mode;
            }
            Call::Goal(goal) => {
                self.untouched()?;
                self.goal = *goal;
            }
            Call::Input(value) => {
                let value = self.handed_in(*value)?;
                self.instances.push(value);
            }
            Call::Witness(value) => {
                let value = self.handed_in(*value)?;
                self.witnesses.push(value);
            }
            Call::Lc(list) => {
                let list = self.given(list, true)?;
                self.lists.push(list);
            }
            Call::Constraint(lists) => {
                let mut given = Vec::new();
                for list in lists {
                    given.push(self.given(list, false)?);
                }
                if self.mode != Mode::Bare {
                    self.lists.extend(given);
                }
                self.constraints += 1;
            }
            Call::Check => {
                if self.mode == Mode::Bare && self.constraints > 0 {
                    return Err(Outside::BareCheck);
                }
            }
            Call::Value(Var::Symbol(k)) => {
                if self.finished {
                    return Err(Outside::FinishedSymbol);
                }
                if self.lists.get(*k as usize).is_some_and(|list| !list.plain) {
                    return Err(Outside::OwnList);
                }
            }
            Call::Value(_) => {}
            Call::Finalize => self.finalize()?,
            Call::Matrices => {
                if self.zero_in_row {
                    return Err(Outside::ZeroInRow);
                }
            }
        }
        Ok(())
    }

    fn untouched(&self) -> Result<(), Outside> {
        let counts = [
            self.instances.len() - 1,
            self.witnesses.len(),
            self.constraints,
            self.lists.len(),
        ];
        if counts == [0; 4] {
            Ok(())
        } else {
            Err(Outside::SetLate)
        }
    }

    fn handed_in(&self, value: Option<u64>) -> Result<F, Outside> {
        match value {
            Some(n) => Ok(F::from_number(n).expect("a number outside the field")),
            None if self.mode == Mode::Setup => Ok(F::zero()),
            None => Err(Outside::MissingValue),
        }
    }

    fn given(&self, list: &[Term], plain: bool) -> Result<Given<F>, Outside> {
        let worth = self.worth(list).ok_or(Outside::UnknownVariable)?;
        let depth = |term: &Term| match term.1 {
            Var::Symbol(k) => self.lists[k as usize].depth + 1,
            _ => 0,
        };
        Ok(Given {
            plain,
            terms: list
                .iter()
                .map(|(n, var)| (F::from_number(*n).unwrap(), *var))
                .collect(),
            worth,
            depth: list.iter().map(depth).max().unwrap_or(0),
        })
    }

    fn finalize(&mut self) -> Result<(), Outside> {
        self.finished = true;
        self.named = self.witnesses.len();
        if self.mode == Mode::Bare {
            return Ok(());
        }
        let mut uses = vec![0; self.lists.len()];
        for (_, var) in self.lists.iter().flat_map(|list| &list.terms) {
            if let Var::Symbol(k) = var {
                uses[*k as usize] += 1;
            }
        }
        let mut finished: Vec<BTreeMap<Var, F>> = Vec::new();
        for (list, uses) in self.lists.iter().zip(uses) {
            let mut merged: BTreeMap<Var, F> = BTreeMap::new();
            for (number, var) in &list.terms {
                match var {
                    Var::Symbol(k) => {
                        for (var, inner) in &finished[*k as usize] {
                            *merged.entry(*var).or_default() += *inner * *number;
                        }
                    }
                    _ => *merged.entry(*var).or_default() += *number,
                }
            }
            if merged.contains_key(&Var::Zero) && merged.contains_key(&Var::One) {
                return Err(Outside::ZeroAndOne);
            }
            self.zero_sums += merged.values().filter(|number| number.is_zero()).count();
            let (uses, length) = (uses + 1, merged.len());
            let outlined = self.goal == Goal::Weight && uses * length > uses + 2 + length;
            if outlined || !list.plain {
                let zero = merged.get(&Var::Zero);
                self.zero_in_row |= zero.is_some_and(|number| !number.is_zero());
            }
            if outlined {
                let witness = Var::Witness(self.witnesses.len() as u64);
                self.witnesses.push(list.worth);
                merged = BTreeMap::from([(witness, F::one())]);
            }
            finished.push(merged);
        }
        Ok(())
    }
}

/// What is told of a whole circuit.
pub struct Told {
    pub mode: Mode,
    pub goal: Goal,
    pub outside: Option<Outside>,
    pub finished: bool,
    pub constraints: usize,
    pub added: usize,
    pub depth: usize,
    pub zero_sums: usize,
}

fn told_in<F: Number>(circuit: &Circuit) -> Told {
    let mut account = Account::<F>::new();
    for call in &circuit.calls {
        account.make(call);
    }
    Told {
        mode: account.mode,
        goal: account.goal,
        outside: account.outside,
        finished: account.finished,
        constraints: account.constraints,
        added: account.added(),
        depth: account.depth(),
        zero_sums: account.zero_sums,
    }
}

pub fn told(circuit: &Circuit) -> Told {
    match circuit.field {
        FieldName::P31 => told_in::<P31>(circuit),
        FieldName::Gf8 => told_in::<Gf8>(circuit),
    }
}

#[cfg(test)]
mod tests {
    use super::*;
    use crate::circuits::text::read_circuit;

    fn outside(text: &str) -> Option<Outside> {
        told(&read_circuit(text).unwrap()).outside
    }

    #[test]
    fn the_common_domain() {
        for text in [
            "p31",
            "p31;mode=setup;goal=weight;input=none;check;value=i7;value=s7",
            "p31;lc=1*z 1*o;value=s0",
            "p31;lc=1*z;lc=1*o;constraint=,,;finalize;matrices",
            "p31;lc=0*z;constraint=1*s0,,;finalize;check;matrices",
            "p31;lc=5*z;constraint=1*s0,,;finalize;check;value=z",
            "p31;lc=5*z;constraint=1*s0 2147483646*s0,,;finalize;matrices",
            "gf8;lc=5*z;constraint=1*s0 1*s0,,;finalize;matrices",
            "p31;mode=bare;lc=1*z 1*o;constraint=1*z 1*o,,;finalize;matrices",
            "p31;mode=bare;check;finalize;check",
        ] {
            assert_eq!(outside(text), None, "{text}");
        }
    }

    #[test]
    fn reasons() {
        for (text, reason) in [
            ("p31;lc=1*z 1*o;finalize", Outside::ZeroAndOne),
            (
                "p31;lc=1*z;constraint=1*s0,1*s0 1*o,;finalize",
                Outside::ZeroAndOne,
            ),
            ("p31;constraint=5*z,,;finalize;matrices", Outside::ZeroInRow),
            ("p31;witness=none", Outside::MissingValue),
            ("p31;lc=1*s0", Outside::UnknownVariable),
            ("p31;constraint=,,;lc=1*s1", Outside::UnknownVariable),
            ("p31;lc=1*w0", Outside::UnknownVariable),
            ("p31;input=1;mode=setup", Outside::SetLate),
            ("p31;constraint=,,;goal=none", Outside::SetLate),
            ("p31;mode=bare;constraint=,,;check", Outside::BareCheck),
            ("p31;constraint=,,;value=s2", Outside::OwnList),
            ("p31;lc=;finalize;value=s0", Outside::FinishedSymbol),
            ("p31;matrices", Outside::OutOfPlace),
            ("p31;finalize;finalize", Outside::OutOfPlace),
            ("p31;finalize;input=1", Outside::OutOfPlace),
        ] {
            assert_eq!(outside(text), Some(reason), "{text}");
        }
    }

    /// A list is outlined by its uses and its length: see the numbers in the
    /// original, beside `should_dedicate_a_witness_variable`.
    #[test]
    fn outlined_lists() {
        let added = |text: &str| told(&read_circuit(text).unwrap()).added;
        let five = "witness=1;witness=2;witness=3;witness=4;\
                    lc=1*o 1*w0 1*w1 1*w2 1*w3";
        let once = "constraint=1*s0,,;finalize";
        assert_eq!(added(&format!("p31;goal=weight;{five};{once}")), 1);
        assert_eq!(added(&format!("p31;goal=none;{five};{once}")), 0);
        assert_eq!(added(&format!("p31;goal=weight;{five};finalize")), 0);
        assert_eq!(
            added("p31;goal=weight;input=1;lc=1*o 1*i0 1*i1 2*i1;constraint=1*s0 1*s0,,;finalize"),
            1
        );
    }
}
