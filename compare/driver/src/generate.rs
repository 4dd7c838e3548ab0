//! The operations to compare: all of the smallest shapes, the neighbourhood
//! of six terms, and random ones.

use crate::original_side::greatest;
use crate::text::{Arg, FieldName, Line, Op, Term, Var, FIELDS, OPS};
use std::collections::HashSet;

/// Numbers that look random and depend on the seed only: xorshift, with a
/// multiplication at the end.
pub struct Random(u64);

impl Random {
    pub fn new(seed: u64) -> Random {
        let mut random = Random(seed ^ 0x9e37_79b9_7f4a_7c15);
        if random.0 == 0 {
            random.0 = 1;
        }
        for _ in 0..8 {
            random.next();
        }
        random
    }

    fn next(&mut self) -> u64 {
        self.0 ^= self.0 >> 12;
        self.0 ^= self.0 << 25;
        self.0 ^= self.0 >> 27;
        self.0.wrapping_mul(0x2545_f491_4f6c_dd1d)
    }

    /// A number from 0 to one below `end`.
    pub fn below(&mut self, end: u64) -> u64 {
        (self.next() >> 16) % end
    }

    /// True in `percent` of a hundred cases.
    pub fn chance(&mut self, percent: u64) -> bool {
        self.below(100) < percent
    }

    pub fn pick<T: Copy>(&mut self, from: &[T]) -> T {
        from[self.below(from.len() as u64) as usize]
    }
}

/// Where an operation comes from.
#[derive(Clone, Copy, Debug, PartialEq, Eq)]
pub enum Origin {
    Smallest,
    Boundary,
    Random,
}

/// The operations of one run, each once.
#[derive(Default)]
pub struct Operations {
    pub lines: Vec<(Line, Origin)>,
    seen: HashSet<Line>,
}

impl Operations {
    fn push(&mut self, origin: Origin, line: Line) -> bool {
        let new = self.seen.insert(line.clone());
        if new {
            self.lines.push((line, origin));
        }
        new
    }

    pub fn count(&self, origin: Origin) -> usize {
        self.lines
            .iter()
            .filter(|(_, from)| *from == origin)
            .count()
    }
}

const BIG: u64 = 1 << 32;
const HUGE: u64 = 1 << 63;

use Var::{Instance, One, Symbol, Witness, Zero};

/// All variables of the smallest shapes.
const SMALL: [Var; 8] = [
    Zero,
    One,
    Instance(0),
    Instance(1),
    Witness(0),
    Witness(1),
    Symbol(0),
    Symbol(1),
];

/// The same, and some with large indexes.
const WITH_LARGE: [Var; 16] = [
    Zero,
    One,
    Instance(0),
    Instance(1),
    Instance(2),
    Instance(BIG),
    Instance(HUGE),
    Witness(0),
    Witness(1),
    Witness(2),
    Witness(BIG),
    Witness(HUGE),
    Symbol(0),
    Symbol(1),
    Symbol(2),
    Symbol(40),
];

/// Variables in their order. Every other one makes a list, so that all of them
/// lie before, at, between or after its terms.
const LADDER: [Var; 19] = [
    One,
    Instance(0),
    Instance(1),
    Instance(2),
    Instance(7),
    Instance(BIG),
    Instance(HUGE),
    Witness(0),
    Witness(1),
    Witness(2),
    Witness(7),
    Witness(BIG),
    Witness(HUGE),
    Symbol(0),
    Symbol(1),
    Symbol(2),
    Symbol(3),
    Symbol(9),
    Symbol(40),
];

/// All lists of up to `longest` of these terms.
fn all_lists(terms: &[Term], longest: usize) -> Vec<Vec<Term>> {
    let mut all = vec![Vec::new()];
    let mut last = all.clone();
    for _ in 0..longest {
        let mut next = Vec::new();
        for list in &last {
            for term in terms {
                let mut longer: Vec<Term> = list.clone();
                longer.push(*term);
                next.push(longer);
            }
        }
        all.extend(next.iter().cloned());
        last = next;
    }
    all
}

fn products(numbers: &[u64], variables: &[Var]) -> Vec<Term> {
    variables
        .iter()
        .flat_map(|var| numbers.iter().map(|n| (*n, *var)))
        .collect()
}

fn smallest(to: &mut Operations, field: FieldName) {
    let last = greatest(field);
    let mut push = |op, arg, left: &[Term], right: &[Term]| {
        to.push(
            Origin::Smallest,
            Line {
                field,
                op,
                arg,
                left: left.to_vec(),
                right: right.to_vec(),
            },
        );
    };

    for var in WITH_LARGE {
        push(Op::Questions, Arg::Var(var), &[], &[]);
        push(Op::FromVariable, Arg::Var(var), &[], &[]);
        for n in [0, 1, 2, last] {
            push(Op::FromTerm, Arg::Term((n, var)), &[], &[]);
        }
        for other in WITH_LARGE {
            push(Op::Compare, Arg::Var(var), &[(1, other)], &[]);
        }
    }

    for list in all_lists(&products(&[0, 1, last], &SMALL), 2) {
        push(Op::Negate, Arg::Nothing, &list, &[]);
        push(Op::Compactify, Arg::Nothing, &list, &[]);
    }
    for first in [Zero, One] {
        let variables = [first, Instance(0), Witness(0), Symbol(0)];
        for list in all_lists(&products(&[1], &variables), 3) {
            push(Op::Compactify, Arg::Nothing, &list, &[]);
            for var in [
                first,
                Instance(0),
                Instance(1),
                Witness(0),
                Symbol(0),
                Symbol(1),
            ] {
                push(Op::Locate, Arg::Var(var), &list, &[]);
            }
        }
    }
    for list in all_lists(&products(&[0, 1, last], &[One, Instance(0)]), 2) {
        for k in [0, 1, 2, last] {
            push(Op::Scale, Arg::Number(k), &list, &[]);
        }
    }

    let terms = products(&[1, last], &[One, Instance(0), Witness(0), Symbol(0)]);
    for list in all_lists(&terms, 2) {
        for var in [Zero, One, Instance(0), Instance(1), Witness(0), Symbol(0)] {
            push(Op::AddVariable, Arg::Var(var), &list, &[]);
            push(Op::SubVariable, Arg::Var(var), &list, &[]);
            for n in [1, last] {
                push(Op::AddTerm, Arg::Term((n, var)), &list, &[]);
                push(Op::SubTerm, Arg::Term((n, var)), &list, &[]);
            }
        }
    }

    let lists = all_lists(&products(&[1, last], &[One, Instance(0), Witness(0)]), 2);
    for left in &lists {
        for right in &lists {
            push(Op::Sum, Arg::Nothing, left, right);
            push(Op::Difference, Arg::Nothing, left, right);
        }
    }
    let lists = all_lists(&products(&[1, last], &[Witness(0), Symbol(0)]), 2);
    for left in &lists {
        for right in &lists {
            for k in [0, 1, 2, last] {
                push(Op::SumScaled, Arg::Number(k), left, right);
                push(Op::DifferenceScaled, Arg::Number(k), left, right);
            }
        }
    }
}

/// Lists in order of four to eight terms, and every place to look for.
fn boundary(to: &mut Operations, field: FieldName, random: &mut Random) {
    for first in [Zero, One] {
        let mut ladder = LADDER;
        ladder[0] = first;
        for length in 4..=8usize {
            for start in 0..2 {
                let left: Vec<Term> = (0..length)
                    .map(|step| (number(random, field), ladder[start + 2 * step]))
                    .collect();
                for var in ladder {
                    let n = number(random, field);
                    let mut push = |op, arg| {
                        to.push(
                            Origin::Boundary,
                            Line {
                                field,
                                op,
                                arg,
                                left: left.clone(),
                                right: Vec::new(),
                            },
                        );
                    };
                    push(Op::Locate, Arg::Var(var));
                    push(Op::AddTerm, Arg::Term((n, var)));
                    push(Op::SubTerm, Arg::Term((n, var)));
                    push(Op::AddVariable, Arg::Var(var));
                    push(Op::SubVariable, Arg::Var(var));
                }
            }
        }
    }
}

/// A number of the field, often one at an end of it.
pub fn number(random: &mut Random, field: FieldName) -> u64 {
    let last = greatest(field);
    match random.below(10) {
        0 => 0,
        1 | 2 => 1,
        3 | 4 => last,
        5 => 2 + random.below(5),
        6 => last - 1 - random.below(5),
        _ => random.below(last + 1),
    }
}

/// The variables that one random operation draws from.
struct Pool {
    /// 0: very few, 1: small indexes, 2: large ones too.
    width: u64,
    zero: bool,
    one: bool,
}

impl Pool {
    fn new(random: &mut Random) -> Pool {
        let (zero, one) = match random.below(100) {
            0..=4 => (true, true),
            5..=49 => (false, true),
            50..=84 => (true, false),
            _ => (false, false),
        };
        Pool {
            width: random.below(3),
            zero,
            one,
        }
    }

    fn index(&self, random: &mut Random) -> u64 {
        match self.width {
            0 => random.below(2),
            1 => random.below(8),
            _ => {
                let base = random.pick(&[0, 0, 1, 3, BIG, BIG + 1, HUGE]);
                base + random.below(2)
            }
        }
    }

    fn var(&self, random: &mut Random) -> Var {
        match random.below(10) {
            0 if self.zero => Zero,
            1 if self.one => One,
            0..=3 => Instance(self.index(random)),
            4..=6 => Witness(self.index(random)),
            _ => Symbol(random.below([2, 8, 41][self.width as usize])),
        }
    }
}

fn length(random: &mut Random, longest: u64) -> usize {
    let length = if random.chance(50) {
        4 + random.below(4)
    } else {
        random.below(longest + 1)
    };
    length.min(longest) as usize
}

fn shuffle(random: &mut Random, list: &mut [Term]) {
    for end in (1..list.len()).rev() {
        list.swap(end, random.below(end as u64 + 1) as usize);
    }
}

/// A list: in order or not, with repeats or without.
fn list(random: &mut Random, field: FieldName, pool: &Pool, longest: u64) -> Vec<Term> {
    let length = length(random, longest);
    let (in_order, repeats) = match random.below(20) {
        0..=8 => (true, false),
        9..=11 => (true, true),
        12..=15 => (false, false),
        _ => (false, true),
    };
    let mut list: Vec<Term> = Vec::new();
    let mut tries = 0;
    while list.len() < length {
        tries += 1;
        // Without repeats the narrow pool runs dry: widen it.
        let wider = Pool {
            width: if tries > 60 { 2 } else { pool.width },
            ..*pool
        };
        let var = if repeats && !list.is_empty() && random.chance(30) {
            random.pick(&list).1
        } else {
            wider.var(random)
        };
        if repeats || tries > 2000 || list.iter().all(|term| term.1 != var) {
            list.push((number(random, field), var));
        }
    }
    if in_order {
        list.sort_by_key(|term| term.1);
    } else {
        shuffle(random, &mut list);
    }
    list
}

/// A variable to look for: often one of the list, else next to one, else any.
fn sought(random: &mut Random, pool: &Pool, left: &[Term]) -> Var {
    if left.is_empty() || random.chance(25) {
        return pool.var(random);
    }
    let var = random.pick(left).1;
    if random.chance(70) {
        return var;
    }
    match var {
        Instance(n) => Instance(n + 1),
        Witness(n) => Witness(n + 1),
        Symbol(n) => Symbol(n + 1),
        Zero | One => var,
    }
}

fn random_line(random: &mut Random, field: FieldName, op: Op, longest: u64) -> Line {
    let pool = Pool::new(random);
    let mut left = if op.takes_left() {
        list(random, field, &pool, longest)
    } else {
        Vec::new()
    };
    let mut right = Vec::new();
    if op.takes_right() {
        right = list(random, field, &pool, longest);
        if random.chance(15) {
            // Much in common, so that terms meet and cancel.
            right = left.clone();
            if random.chance(50) && !right.is_empty() {
                right.remove(random.below(right.len() as u64) as usize);
            }
            if random.chance(50) && field == FieldName::P31 {
                for term in &mut right {
                    term.0 = (greatest(field) + 1 - term.0) % (greatest(field) + 1);
                }
            }
        }
    }
    if op == Op::Compare {
        left = vec![(number(random, field), pool.var(random))];
    }
    let arg = match op {
        Op::Negate | Op::Compactify | Op::Sum | Op::Difference => Arg::Nothing,
        Op::Scale | Op::SumScaled | Op::DifferenceScaled => Arg::Number(number(random, field)),
        Op::AddTerm | Op::SubTerm | Op::FromTerm => {
            Arg::Term((number(random, field), sought(random, &pool, &left)))
        }
        Op::Locate
        | Op::AddVariable
        | Op::SubVariable
        | Op::FromVariable
        | Op::Questions
        | Op::Compare => Arg::Var(sought(random, &pool, &left)),
    };
    Line {
        field,
        op,
        arg,
        left,
        right,
    }
}

/// How often each operation comes among the random ones.
fn weight(op: Op) -> u64 {
    match op {
        Op::FromTerm | Op::FromVariable | Op::Questions | Op::Compare => 1,
        Op::Negate | Op::Scale => 4,
        Op::Compactify | Op::Locate => 10,
        _ => 8,
    }
}

/// All operations of a run: `count` random ones beside the fixed ones.
pub fn operations(seed: u64, count: usize, longest: u64) -> Operations {
    let mut random = Random::new(seed);
    let mut operations = Operations::default();
    for field in FIELDS {
        smallest(&mut operations, field);
        boundary(&mut operations, field, &mut random);
    }
    let weighted: Vec<Op> = OPS
        .iter()
        .flat_map(|(op, _)| (0..weight(*op)).map(|_| *op))
        .collect();
    let mut made = 0;
    // Repeats are dropped; the bound only keeps odd settings from looping.
    for _ in 0..count.saturating_mul(20) {
        if made == count {
            break;
        }
        let field = random.pick(&FIELDS);
        let op = random.pick(&weighted);
        let line = random_line(&mut random, field, op, longest);
        if operations.push(Origin::Random, line) {
            made += 1;
        }
    }
    operations
}

#[cfg(test)]
mod tests {
    use super::*;
    use crate::text::read_line;

    #[test]
    fn the_seed_decides() {
        let text = |seed| -> Vec<String> {
            operations(seed, 500, 20)
                .lines
                .iter()
                .map(|(line, _)| line.to_string())
                .collect()
        };
        assert_eq!(text(1), text(1));
        assert_ne!(text(1), text(2));
    }

    #[test]
    fn every_line_can_be_read_back() {
        for (line, _) in operations(3, 3000, 20).lines {
            assert_eq!(read_line(&line.to_string()).unwrap(), line);
        }
    }
}
