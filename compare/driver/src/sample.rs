//! A sample of operations that reaches every branch.

use crate::generate::{Operations, Random};
use crate::original_side::{answer, to_original};
use crate::text::{Arg, Line, Op, Term, Var, FIELDS, OPS};
use crate::verdict::{kind, Kind, HALVING};
use std::cmp::Ordering;
use std::collections::{BTreeMap, BTreeSet};

fn length_class(list: &[Term]) -> &'static str {
    match list.len() {
        0 => "none",
        1 => "one",
        length if length + 1 == HALVING => "five",
        length if length < HALVING => "few",
        HALVING => "six",
        _ => "many",
    }
}

fn order_class(list: &[Term]) -> &'static str {
    let pairs = || list.windows(2).map(|pair| pair[0].1.cmp(&pair[1].1));
    let variables: BTreeSet<Var> = list.iter().map(|term| term.1).collect();
    let in_order = pairs().all(|order| order != Ordering::Greater);
    match (in_order, variables.len() == list.len()) {
        (true, true) => "in order",
        (true, false) => "in order with repeats",
        (false, true) => "out of order",
        (false, false) => "out of order with repeats",
    }
}

fn var_class(var: Var) -> &'static str {
    match var {
        Var::Zero => "z",
        Var::One => "o",
        Var::Instance(_) => "i",
        Var::Witness(_) => "w",
        Var::Symbol(_) => "s",
    }
}

fn is_large(var: Var) -> bool {
    matches!(var, Var::Instance(n) | Var::Witness(n) if n >> 32 > 0)
}

fn number_class(line: &Line, n: u64) -> &'static str {
    match n {
        0 => "0",
        1 => "1",
        _ if n == crate::original_side::greatest(line.field) => "greatest",
        _ => "other",
    }
}

fn place_class(place: usize, length: usize) -> &'static str {
    match place {
        0 => "at the start",
        _ if place == length => "at the end",
        _ if place + 1 == length => "at the last",
        _ => "inside",
    }
}

/// The steps that adding or subtracting the two lists takes.
fn merge_steps(left: &[Term], right: &[Term]) -> Vec<&'static str> {
    let mut steps = BTreeSet::new();
    let (mut i, mut j) = (0, 0);
    while i < left.len() && j < right.len() {
        match to_original(left[i].1).cmp(&to_original(right[j].1)) {
            Ordering::Less => {
                steps.insert("takes left");
                i += 1;
            }
            Ordering::Greater => {
                steps.insert("takes right");
                j += 1;
            }
            Ordering::Equal => {
                steps.insert("takes both");
                i += 1;
                j += 1;
            }
        }
    }
    if i < left.len() {
        steps.insert("rest of left");
    }
    if j < right.len() {
        steps.insert("rest of right");
    }
    if left.is_empty() {
        steps.insert("no left");
    }
    if right.is_empty() {
        steps.insert("no right");
    }
    steps.into_iter().collect()
}

/// What the operation reaches, as words: about its numbers for each field by
/// itself, about the rest for both together.
fn reaches(line: &Line, answer: &str) -> Vec<String> {
    let mut numbers = vec!["any".to_string()];
    let mut words: Vec<String> = Vec::new();
    let length = length_class(&line.left);
    if let Some(var) = line.arg.var() {
        words.push(format!("var {}, large {}", var_class(var), is_large(var)));
    }
    if let Arg::Number(n) | Arg::Term((n, _)) = line.arg {
        numbers.push(number_class(line, n).to_string());
    }
    if line.op.takes_left() && line.op != Op::Compare {
        words.push(format!("left {length}"));
        words.push(format!("left {}", order_class(&line.left)));
        for (n, var) in &line.left {
            words.push(format!("left holds {}", var_class(*var)));
            numbers.push(format!("left holds {}", number_class(line, *n)));
        }
        if answer.split(' ').any(|term| term.starts_with("0*")) {
            numbers.push("a zero in the answer".to_string());
        }
    }
    match line.op {
        Op::Locate => {
            let (word, place) = answer.split_once(' ').unwrap();
            let place = place_class(place.parse().unwrap(), line.left.len());
            words.push(format!("{length}, {word} {place}"));
        }
        op if op.puts_at_place() => {
            let var = line.arg.var().unwrap();
            let held = line.left.iter().any(|term| term.1 == var);
            let before = line.left.iter().take_while(|term| term.1 < var).count();
            let place = place_class(before, line.left.len());
            let halving = line.left.len() >= HALVING;
            words.push(format!("halving {halving}, held {held}, {place}"));
            words.push(format!("{length}, held {held}"));
        }
        op if op.takes_right() => {
            let steps = merge_steps(&line.left, &line.right);
            words.extend(steps.iter().map(|step| step.to_string()));
            if line.left.is_empty() || line.right.is_empty() || steps.len() == 1 {
                words.push(format!("all steps {}", steps.join(", ")));
            }
            words.push(format!("right {}", order_class(&line.right)));
        }
        Op::Compare => {
            let (one, other) = (line.arg.var().unwrap(), line.left[0].1);
            words.push(format!("{} {answer} {}", var_class(one), var_class(other)));
            words.push(format!(
                "large {}, {}, {answer}",
                is_large(one),
                is_large(other)
            ));
        }
        Op::Compactify => {
            let after = answer.split(' ').count();
            words.push(format!("{length}, shorter {}", after < line.left.len()));
            words.push(format!(
                "{}, one is left {}",
                order_class(&line.left),
                after == 1
            ));
        }
        _ => {}
    }
    let name = line.op.name();
    words
        .into_iter()
        .map(|word| format!("{name}: {word}"))
        .chain(
            numbers
                .into_iter()
                .map(|word| format!("{} {name}: {word}", line.field.name())),
        )
        .collect()
}

/// About `count` operations that are compared exactly, with the original's
/// answers, in the order in which they were generated. Everything that any of
/// the operations reaches is reached by one of the sample, so there can be
/// more than `count`. The second value is how many things are reached.
pub fn sample(operations: &Operations, count: usize, seed: u64) -> (Vec<(String, String)>, usize) {
    let mut candidates = Vec::new();
    for (line, _) in &operations.lines {
        if kind(line) == Kind::Exact {
            if let Ok(answer) = answer(line) {
                let words = reaches(line, &answer);
                candidates.push((line, answer, words));
            }
        }
    }

    // Those that reach the most new things first, down to a single one.
    let mut chosen = BTreeSet::new();
    let mut reached: BTreeSet<&str> = BTreeSet::new();
    for least in (1..=12).rev() {
        for (place, (_, _, words)) in candidates.iter().enumerate() {
            let new: BTreeSet<&str> = words
                .iter()
                .map(String::as_str)
                .filter(|word| !reached.contains(word))
                .collect();
            if new.len() >= least {
                reached.extend(new);
                chosen.insert(place);
            }
        }
    }

    // The rest by turns from each field and operation.
    let mut by_turn: BTreeMap<(_, _), Vec<usize>> = BTreeMap::new();
    for (place, (line, _, _)) in candidates.iter().enumerate() {
        if !chosen.contains(&place) {
            by_turn
                .entry((line.op, line.field))
                .or_default()
                .push(place);
        }
    }
    let mut random = Random::new(seed);
    while chosen.len() < count && by_turn.values().any(|places| !places.is_empty()) {
        for (op, _) in OPS {
            for field in FIELDS {
                let Some(places) = by_turn.get_mut(&(op, field)) else {
                    continue;
                };
                if chosen.len() < count && !places.is_empty() {
                    let at = random.below(places.len() as u64) as usize;
                    chosen.insert(places.swap_remove(at));
                }
            }
        }
    }

    let lines = chosen
        .into_iter()
        .map(|place| {
            let (line, answer, _) = &candidates[place];
            (line.to_string(), answer.clone())
        })
        .collect();
    (lines, reached.len())
}
