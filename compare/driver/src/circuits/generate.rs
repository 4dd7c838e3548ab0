//! The circuits to compare: all of the smallest shapes, and random ones.

use super::account::Account;
use super::text::{Call, Circuit, Goal, Mode, GOALS, MODES};
use crate::fields::{Gf8, Number, P31};
use crate::generate::{number, Random};
use crate::original_side::greatest;
use crate::text::{FieldName, Term, Var, FIELDS};
use std::collections::HashSet;
use Var::{Instance, One, Symbol, Witness, Zero};

/// Where a circuit comes from.
#[derive(Clone, Copy, Debug, PartialEq, Eq)]
pub enum Origin {
    Smallest,
    Random,
}

/// The circuits of one run, each once.
#[derive(Default)]
pub struct Circuits {
    pub circuits: Vec<(Circuit, Origin)>,
    seen: HashSet<Circuit>,
}

impl Circuits {
    fn push(&mut self, origin: Origin, circuit: Circuit) -> bool {
        let new = self.seen.insert(circuit.clone());
        if new {
            self.circuits.push((circuit, origin));
        }
        new
    }

    pub fn count(&self, origin: Origin) -> usize {
        let from = self.circuits.iter().filter(|(_, from)| *from == origin);
        from.count()
    }
}

/// A circuit that is being written, with its account so far.
struct Writer<F> {
    field: FieldName,
    calls: Vec<Call>,
    account: Account<F>,
}

impl<F: Number> Writer<F> {
    fn new(field: FieldName) -> Writer<F> {
        Writer {
            field,
            calls: Vec::new(),
            account: Account::new(),
        }
    }

    fn call(&mut self, call: Call) {
        self.account.make(&call);
        self.calls.push(call);
    }

    fn may_check(&self) -> bool {
        self.account.mode != Mode::Bare || self.account.constraints == 0
    }

    fn check(&mut self) {
        if self.may_check() {
            self.call(Call::Check);
        }
    }

    /// Every variable that may be asked for, and one past the last of each
    /// kind.
    fn ask_all(&mut self) {
        let mut all = vec![Zero, One];
        all.extend((0..=self.account.instances.len() as u64).map(Instance));
        all.extend((0..=self.account.witnesses.len() as u64).map(Witness));
        if !self.account.finished {
            all.extend(self.account.symbols().into_iter().map(Symbol));
            all.push(Symbol(self.account.entries() as u64));
        }
        for var in all {
            self.call(Call::Value(var));
        }
    }

    /// All that there is to ask, then finalising, and all again.
    fn end(&mut self) {
        self.check();
        self.ask_all();
        self.call(Call::Finalize);
        self.check();
        self.ask_all();
        self.call(Call::Matrices);
    }

    fn circuit(self) -> Circuit {
        Circuit {
            field: self.field,
            calls: self.calls,
        }
    }
}

fn minus(field: FieldName, n: u64) -> u64 {
    match field {
        FieldName::P31 => (greatest(field) + 1 - n) % (greatest(field) + 1),
        FieldName::Gf8 => n,
    }
}

/// A named list of `length` terms that is used `uses` times: in one
/// constraint, in one of its own each, or within another named list.
fn used_list<F: Number>(
    field: FieldName,
    mode: Mode,
    goal: Goal,
    length: u64,
    uses: usize,
    within: usize,
) -> Circuit {
    let mut writer = Writer::<F>::new(field);
    writer.call(Call::Mode(mode));
    writer.call(Call::Goal(goal));
    let list: Vec<Term> = (0..length)
        .map(|n| {
            writer.call(Call::Witness(Some(n + 2)));
            (n + 1, Witness(n))
        })
        .collect();
    writer.call(Call::Lc(list));
    let symbol = (3, Symbol(0));
    let one = vec![(1, One)];
    match within {
        0 => writer.call(Call::Constraint([
            vec![symbol; uses],
            one.clone(),
            vec![(1, One)],
        ])),
        1 => {
            for _ in 0..uses {
                writer.call(Call::Constraint([
                    vec![symbol],
                    one.clone(),
                    vec![(2, Instance(0))],
                ]));
            }
        }
        _ => {
            writer.call(Call::Lc(vec![symbol; uses]));
            writer.call(Call::Constraint([vec![(1, Symbol(1))], one, Vec::new()]));
        }
    }
    writer.end();
    writer.circuit()
}

/// One constraint of lists from a few.
fn small_constraint<F: Number>(field: FieldName, lists: [&[Term]; 3]) -> Circuit {
    let mut writer = Writer::<F>::new(field);
    writer.call(Call::Input(Some(3)));
    writer.call(Call::Witness(Some(5)));
    writer.call(Call::Lc(vec![(2, Witness(0)), (3, Instance(1))]));
    writer.call(Call::Constraint(lists.map(<[Term]>::to_vec)));
    writer.end();
    writer.circuit()
}

fn smallest<F: Number>(to: &mut Circuits, field: FieldName) {
    let mut push = |circuit| {
        to.push(Origin::Smallest, circuit);
    };
    push(Circuit {
        field,
        calls: Vec::new(),
    });
    for (mode, _) in MODES {
        for (goal, _) in GOALS {
            let mut writer = Writer::<F>::new(field);
            writer.call(Call::Mode(mode));
            writer.call(Call::Goal(goal));
            writer.end();
            push(writer.circuit());
            for length in 0..=8 {
                for uses in 0..=6 {
                    for within in 0..3 {
                        push(used_list::<F>(field, mode, goal, length, uses, within));
                    }
                }
            }
        }
    }
    let lists: [&[Term]; 8] = [
        &[],
        &[(1, One)],
        &[(2, Witness(0))],
        &[(0, Witness(0))],
        &[(1, Instance(0)), (greatest(field), One)],
        &[(4, Instance(1)), (1, Instance(1))],
        &[(1, Symbol(0))],
        &[(7, Witness(0)), (minus(field, 7), Witness(0))],
    ];
    for a in lists {
        for b in lists {
            for c in lists {
                push(small_constraint::<F>(field, [a, b, c]));
            }
        }
    }
}

/// How one random circuit is made. Most are percentages.
struct Shape {
    /// Which of the two constants its lists name.
    zero: bool,
    one: bool,
    /// Whether Zero comes with numbers that are not zero.
    zero_counts: bool,
    steps: u64,
    longest: u64,
    /// Steps that name a list, and those that constrain.
    names: u64,
    constrains: u64,
    /// Terms that are symbols, and those of them that are the favourite.
    symbols: u64,
    favours: u64,
    /// A constraint's lists that are one symbol.
    single: u64,
    repeats: u64,
    cancels: u64,
    zeros: u64,
    holds: u64,
    asks: u64,
    /// Values that are missing, in Setup.
    missing: u64,
    chain: bool,
}

impl Shape {
    fn new(random: &mut Random) -> Shape {
        let (zero, one) = match random.below(100) {
            0..=3 => (true, true),
            4..=69 => (false, true),
            70..=89 => (true, false),
            _ => (false, false),
        };
        let steps = match random.below(100) {
            0..=9 => random.below(5),
            10..=49 => 4 + random.below(10),
            50..=84 => 12 + random.below(20),
            _ => 30 + random.below(60),
        };
        Shape {
            zero,
            one,
            zero_counts: random.chance(30),
            steps,
            longest: random.pick(&[2, 4, 4, 6, 6, 10, 10, 20, 50]),
            names: random.pick(&[10, 30, 30, 50]),
            constrains: random.pick(&[10, 30, 30, 40]),
            symbols: random.pick(&[0, 20, 40, 40, 70]),
            favours: random.pick(&[0, 10, 40, 70]),
            single: random.pick(&[0, 20, 50, 80]),
            repeats: random.pick(&[0, 0, 10, 30, 60]),
            cancels: random.pick(&[0, 0, 10, 40]),
            zeros: random.pick(&[0, 5, 5, 30]),
            holds: random.pick(&[0, 50, 90, 100, 100]),
            asks: random.pick(&[0, 0, 10, 30]),
            missing: random.pick(&[0, 30, 100]),
            chain: random.chance(3),
        }
    }
}

/// The calls that lead out of the common domain. No list names a symbol that
/// is not known: the original could recurse without end on it.
#[derive(Clone, Copy, PartialEq, Eq)]
enum Odd {
    MissingValue,
    UnknownVariable,
    ModeLate,
    GoalLate,
    Check,
    OwnList,
    FinishedSymbol,
    OpenMatrices,
    FinishedCall,
}

const ODD: [Odd; 9] = [
    Odd::MissingValue,
    Odd::UnknownVariable,
    Odd::ModeLate,
    Odd::GoalLate,
    Odd::Check,
    Odd::OwnList,
    Odd::FinishedSymbol,
    Odd::OpenMatrices,
    Odd::FinishedCall,
];

struct Maker<'r, F> {
    random: &'r mut Random,
    shape: Shape,
    writer: Writer<F>,
    favourite: Option<u64>,
}

impl<F: Number> Maker<'_, F> {
    fn symbol(&mut self) -> Option<Var> {
        let symbols = self.writer.account.symbols();
        if symbols.is_empty() {
            return None;
        }
        if let Some(favourite) = self.favourite {
            if self.random.chance(self.shape.favours) {
                return Some(Symbol(favourite));
            }
        }
        // Later ones more often, so that they nest.
        let last = symbols.len() as u64;
        let place = self.random.below(last).max(self.random.below(last));
        Some(Symbol(symbols[place as usize]))
    }

    fn var(&mut self) -> Var {
        if self.random.chance(self.shape.symbols) {
            if let Some(symbol) = self.symbol() {
                return symbol;
            }
        }
        if self.random.chance(15) {
            match (self.shape.zero, self.shape.one) {
                (true, true) => return self.random.pick(&[Zero, One]),
                (true, false) => return Zero,
                (false, true) => return One,
                (false, false) => {}
            }
        }
        let instances = self.writer.account.instances.len() as u64;
        let witnesses = self.writer.account.witnesses.len() as u64;
        let place = self.random.below(instances + witnesses);
        if place < instances {
            Instance(place)
        } else {
            Witness(place - instances)
        }
    }

    fn term(&mut self, var: Var) -> Term {
        let zero = match var {
            Zero if !self.shape.zero_counts => true,
            _ => self.random.chance(self.shape.zeros),
        };
        if zero {
            (0, var)
        } else {
            (number(self.random, self.writer.field), var)
        }
    }

    fn list(&mut self) -> Vec<Term> {
        let length = match self.random.below(8) {
            0 => self.random.below(2),
            1..=3 => 1 + self.random.below(4),
            _ => self.random.below(self.shape.longest + 1),
        };
        let mut list: Vec<Term> = Vec::new();
        for _ in 0..length.min(self.shape.longest) {
            if !list.is_empty() && self.random.chance(self.shape.cancels) {
                let (n, var) = self.random.pick(&list);
                list.push((minus(self.writer.field, n), var));
                continue;
            }
            let var = if !list.is_empty() && self.random.chance(self.shape.repeats) {
                self.random.pick(&list).1
            } else {
                self.var()
            };
            let term = self.term(var);
            list.push(term);
        }
        list
    }

    /// A list of a constraint.
    fn side(&mut self) -> Vec<Term> {
        if self.random.chance(self.shape.single) {
            if let Some(symbol) = self.symbol() {
                let n = if self.random.chance(70) {
                    1
                } else {
                    number(self.random, self.writer.field)
                };
                return vec![(n, symbol)];
            }
        }
        self.list()
    }

    fn worth(&self, list: &[Term]) -> F {
        self.writer.account.worth(list).unwrap_or_default()
    }

    /// A variable that is worth one.
    fn unit(&self) -> Var {
        if self.shape.one {
            One
        } else {
            Instance(0)
        }
    }

    /// A third list that is worth this much.
    fn third(&mut self, worth: F) -> Vec<Term> {
        match self.random.below(5) {
            0 => {
                self.writer.call(Call::Witness(Some(worth.number())));
                let last = self.writer.account.witnesses.len() as u64 - 1;
                vec![(1, Witness(last))]
            }
            1 => {
                self.writer.call(Call::Input(Some(worth.number())));
                let last = self.writer.account.instances.len() as u64 - 1;
                vec![(1, Instance(last))]
            }
            2 if worth.is_zero() => Vec::new(),
            3 => vec![(worth.number(), self.unit())],
            _ => {
                let mut list = self.list();
                let rest = worth - self.worth(&list);
                list.push((rest.number(), self.unit()));
                list
            }
        }
    }

    fn constraint(&mut self) {
        let a = self.side();
        let b = self.side();
        let product = self.worth(&a) * self.worth(&b);
        let c = if self.random.chance(self.shape.holds) {
            self.third(product)
        } else if self.random.chance(30) {
            self.third(product + F::one())
        } else {
            self.side()
        };
        self.writer.call(Call::Constraint([a, b, c]));
    }

    fn value(&mut self) -> Option<u64> {
        let setup = self.writer.account.mode == Mode::Setup;
        if setup && self.random.chance(self.shape.missing) {
            None
        } else {
            Some(number(self.random, self.writer.field))
        }
    }

    fn name_variable(&mut self) {
        let value = self.value();
        self.writer.call(if self.random.chance(35) {
            Call::Input(value)
        } else {
            Call::Witness(value)
        });
    }

    fn name_list(&mut self) {
        let list = self.list();
        let number = self.writer.account.entries() as u64;
        self.writer.call(Call::Lc(list));
        if self.writer.account.outside.is_none() && self.random.chance(30) {
            self.favourite = Some(number);
        }
    }

    fn step(&mut self) {
        let step = self.random.below(100);
        if step < self.shape.names {
            self.name_list();
        } else if step < self.shape.names + self.shape.constrains {
            self.constraint();
        } else {
            self.name_variable();
        }
    }

    /// A question, sometimes for what is not there.
    fn ask(&mut self) {
        if self.random.chance(30) {
            self.writer.check();
            return;
        }
        let past = self.random.below(3);
        let account = &self.writer.account;
        let var = match self.random.below(12) {
            0 => Zero,
            1 => One,
            2 => Instance(account.instances.len() as u64 + past),
            3 => Witness(account.witnesses.len() as u64 + past),
            4 if !account.finished => Symbol(account.entries() as u64 + past),
            _ => self.var(),
        };
        if !(self.writer.account.finished && matches!(var, Symbol(_))) {
            self.writer.call(Call::Value(var));
        }
    }

    fn questions(&mut self) {
        if self.random.chance(90) {
            self.writer.check();
        }
        if self.random.chance(75) {
            self.writer.ask_all();
        } else {
            for _ in 0..self.random.below(5) {
                self.ask();
            }
        }
    }

    fn start(&mut self) {
        let modes: [&[Mode]; 4] = [
            &[Mode::Prove],
            &[Mode::Setup],
            &[Mode::Bare],
            &[Mode::Bare, Mode::Prove],
        ];
        match self.random.below(100) {
            0..=24 => {}
            place => {
                let modes = modes[match place {
                    25..=59 => 0,
                    60..=86 => 1,
                    87..=96 => 2,
                    _ => 3,
                }];
                for mode in modes {
                    self.writer.call(Call::Mode(*mode));
                }
            }
        }
        let goal = match self.random.below(100) {
            0..=54 => Some(Goal::Weight),
            55..=69 => Some(Goal::None),
            70..=84 => Some(Goal::Constraints),
            _ => None,
        };
        if let Some(goal) = goal {
            self.writer.call(Call::Goal(goal));
        }
    }

    /// Variables before anything else, in some circuits many.
    fn variables(&mut self) {
        let most = self.random.pick(&[0, 2, 4, 8, 8, 16, 70]);
        for _ in 0..self.random.below(most + 1) {
            self.name_variable();
        }
    }

    /// Lists that each name the one before.
    fn chain(&mut self) {
        let mut last = self.list();
        for _ in 0..self.random.pick(&[5, 20, 60, 200]) {
            let symbol = Symbol(self.writer.account.entries() as u64);
            self.writer.call(Call::Lc(last));
            last = vec![self.term(symbol)];
            if self.random.chance(50) {
                let mut more = self.list();
                more.truncate(3);
                last.extend(more);
            }
        }
    }

    fn odd(&mut self, odd: Odd) {
        let account = &self.writer.account;
        let (instances, witnesses) = (account.instances.len(), account.witnesses.len());
        let finished = account.finished;
        match odd {
            Odd::MissingValue => {
                let call = self.random.pick(&[Call::Input, Call::Witness]);
                self.writer.call(call(None));
            }
            Odd::UnknownVariable => {
                let past = self.random.below(3);
                let var = self.random.pick(&[
                    Instance(instances as u64 + past),
                    Witness(witnesses as u64 + past),
                ]);
                let mut list = self.list();
                list.push((1, var));
                self.writer.call(if self.random.chance(50) {
                    Call::Lc(list)
                } else {
                    Call::Constraint([Vec::new(), list, Vec::new()])
                });
            }
            Odd::ModeLate => {
                let mode = self.random.pick(&[Mode::Setup, Mode::Prove, Mode::Bare]);
                self.writer.call(Call::Mode(mode));
            }
            Odd::GoalLate => self.writer.call(Call::Goal(Goal::Weight)),
            Odd::Check => self.writer.call(Call::Check),
            Odd::OwnList => {
                if let Some(own) = account.own_list() {
                    self.writer.call(Call::Value(Symbol(own)));
                }
            }
            Odd::FinishedSymbol => {
                if let Some(symbol) = self.symbol() {
                    self.writer.call(Call::Value(symbol));
                }
            }
            Odd::OpenMatrices => {
                if !finished {
                    self.writer.call(Call::Matrices);
                }
            }
            Odd::FinishedCall => {
                let list = self.list();
                let call = match self.random.below(4) {
                    0 => Call::Lc(list),
                    1 => Call::Constraint([list, Vec::new(), Vec::new()]),
                    2 => Call::Witness(Some(1)),
                    _ => Call::Finalize,
                };
                if finished {
                    self.writer.call(call);
                }
            }
        }
    }

    fn end(&mut self, odd: Option<Odd>) {
        self.questions();
        if self.random.chance(6) {
            return;
        }
        self.writer.call(Call::Finalize);
        if let Some(odd) = odd {
            self.odd(odd);
        }
        self.questions();
        // Where Zero may stand in a row with a number that is not zero the
        // original cannot write it.
        let zero_counts = self.shape.zero && self.shape.zero_counts;
        if self.random.chance(if zero_counts { 40 } else { 95 }) {
            self.writer.call(Call::Matrices);
            if self.random.chance(10) {
                self.questions();
                self.writer.call(Call::Matrices);
            }
        }
    }

    fn make(mut self) -> Circuit {
        let odd = self.random.chance(2).then(|| self.random.pick(&ODD));
        let at_end = matches!(odd, Some(Odd::FinishedSymbol | Odd::FinishedCall));
        self.start();
        self.variables();
        if self.shape.chain {
            self.chain();
        }
        let at = self.random.below(self.shape.steps + 1);
        for step in 0..self.shape.steps {
            if let Some(odd) = odd {
                if step == at && !at_end {
                    self.odd(odd);
                }
            }
            if self.writer.account.outside.is_some() {
                break;
            }
            self.step();
            if self.random.chance(self.shape.asks) {
                self.ask();
            }
        }
        self.end(odd.filter(|_| at_end));
        self.writer.circuit()
    }
}

fn random_circuit<F: Number>(random: &mut Random, field: FieldName) -> Circuit {
    let shape = Shape::new(random);
    Maker::<F> {
        random,
        shape,
        writer: Writer::new(field),
        favourite: None,
    }
    .make()
}

/// All circuits of a run: `count` random ones beside the smallest.
pub fn circuits(seed: u64, count: usize) -> Circuits {
    let mut random = Random::new(seed);
    let mut circuits = Circuits::default();
    smallest::<P31>(&mut circuits, FieldName::P31);
    smallest::<Gf8>(&mut circuits, FieldName::Gf8);
    let mut made = 0;
    // Repeats are dropped; the bound only keeps odd settings from looping.
    for _ in 0..count.saturating_mul(20) {
        if made == count {
            break;
        }
        let field = random.pick(&FIELDS);
        let circuit = match field {
            FieldName::P31 => random_circuit::<P31>(&mut random, field),
            FieldName::Gf8 => random_circuit::<Gf8>(&mut random, field),
        };
        if circuits.push(Origin::Random, circuit) {
            made += 1;
        }
    }
    circuits
}

#[cfg(test)]
mod tests {
    use super::*;
    use crate::circuits::text::read_circuit;

    fn made(seed: u64) -> Vec<String> {
        let circuits = circuits(seed, 300).circuits;
        circuits
            .iter()
            .map(|(circuit, _)| circuit.to_string())
            .collect()
    }

    #[test]
    fn the_seed_decides() {
        assert_eq!(made(1), made(1));
        assert_ne!(made(1), made(2));
    }

    #[test]
    fn every_circuit_can_be_read_back() {
        for (circuit, _) in circuits(3, 1000).circuits {
            assert_eq!(read_circuit(&circuit.to_string()).unwrap(), circuit);
        }
    }
}
