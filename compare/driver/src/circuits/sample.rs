//! A sample of circuits that reaches every kind of call and answer.

use super::account::{told, Told};
use super::generate::Circuits;
use super::original_side::answer;
use super::text::{name_of, Call, Circuit, GOALS, MODES};
use crate::generate::Random;
use crate::text::{Term, Var};
use std::collections::{BTreeMap, BTreeSet};

/// Longer lines than this, the answer included, are left out, so that the
/// sample stays small.
const LONGEST: usize = 700;

fn var_class(var: Var) -> &'static str {
    match var {
        Var::Zero => "z",
        Var::One => "o",
        Var::Instance(0) => "i0",
        Var::Instance(_) => "i",
        Var::Witness(_) => "w",
        Var::Symbol(_) => "s",
    }
}

fn some(count: usize) -> &'static str {
    match count {
        0 => "none",
        1 => "one",
        2..=3 => "a few",
        _ => "many",
    }
}

fn list_words(place: &str, list: &[Term]) -> Vec<String> {
    let mut words = vec![format!("{place}: {} terms", some(list.len()))];
    let vars: BTreeSet<Var> = list.iter().map(|term| term.1).collect();
    words.push(format!("{place}: repeats {}", vars.len() < list.len()));
    words.push(format!(
        "{place}: rises {}",
        list.windows(2).all(|pair| pair[0].1 < pair[1].1)
    ));
    for (n, var) in list {
        words.push(format!("{place}: zero {}, {}", *n == 0, var_class(*var)));
    }
    words
}

fn answer_class(answer: &str) -> &'static str {
    match answer {
        "none" => "none",
        "0" => "0",
        _ if answer.starts_with("refused") => "refused",
        _ => "other",
    }
}

fn call_words(told: &Told, call: &Call, answer: &str, finished: bool) -> Vec<String> {
    let mode = name_of(&MODES, told.mode);
    let goal = name_of(&GOALS, told.goal);
    let answer = answer_class(answer);
    match call {
        Call::Mode(_) | Call::Goal(_) => vec![format!("set {mode}, {goal}")],
        Call::Input(value) => vec![format!("input {mode}, missing {}", value.is_none())],
        Call::Witness(value) => vec![format!("witness {mode}, missing {}", value.is_none())],
        Call::Lc(list) => list_words("lc", list),
        Call::Constraint(lists) => {
            let mut words = vec![format!("constraint in {mode}")];
            for (place, list) in ["a", "b", "c"].into_iter().zip(lists) {
                words.extend(list_words(place, list));
            }
            words
        }
        Call::Check => vec![format!("check {mode}, {goal}, {finished}: {answer}")],
        Call::Value(var) => {
            let var = var_class(*var);
            vec![format!("value {mode}, {finished}, {var}: {answer}")]
        }
        Call::Finalize => vec![
            format!("finalize {mode}, {goal}"),
            format!("{mode}: {} added", some(told.added)),
            format!(
                "{} constraints, {} added",
                some(told.constraints),
                some(told.added)
            ),
            format!("depth {}, added {}", told.depth.min(4), told.added > 0),
        ],
        Call::Matrices => vec![format!("matrices {mode}, {goal}: {answer}")],
    }
}

/// What the circuit reaches, as words, for each field by itself.
fn reaches(circuit: &Circuit, told: &Told, answer: &str) -> BTreeSet<String> {
    let mut words = Vec::new();
    let mut finished = false;
    for (call, answer) in circuit.calls.iter().zip(answer.split(';')) {
        words.extend(call_words(told, call, answer, finished));
        finished |= *call == Call::Finalize;
    }
    for word in ["[]", "0@", "@0 1@0"] {
        if answer.contains(word) {
            words.push(format!("rows with {word}"));
        }
    }
    let field = circuit.field.name();
    words
        .into_iter()
        .map(|word| format!("{field} {word}"))
        .collect()
}

/// About `count` circuits of the common domain, with what comes of them in
/// the original, in the order in which they were generated. Everything that
/// any circuit of moderate size reaches is reached by one of the sample, so
/// there can be more than `count`. The second value is how many things are
/// reached.
pub fn sample(circuits: &Circuits, count: usize, seed: u64) -> (Vec<(String, String)>, usize) {
    let mut candidates = Vec::new();
    for (circuit, _) in &circuits.circuits {
        let question = circuit.to_string();
        let told = told(circuit);
        if question.len() > LONGEST || told.outside.is_some() {
            continue;
        }
        if let Ok(answer) = answer(circuit) {
            if question.len() + answer.len() <= LONGEST {
                let words = reaches(circuit, &told, &answer);
                let kind = (circuit.field, told.mode, told.goal, told.finished);
                candidates.push((kind, question, answer, words));
            }
        }
    }

    // Those that reach the most new things first, down to a single one.
    let mut chosen = BTreeSet::new();
    let mut reached: BTreeSet<&str> = BTreeSet::new();
    for least in [40, 30, 20, 15, 12, 10, 8, 6, 5, 4, 3, 2, 1] {
        for (place, (_, _, _, words)) in candidates.iter().enumerate() {
            let new: BTreeSet<&str> = words
                .iter()
                .map(String::as_str)
                .filter(|word| !reached.contains(word))
                .collect();
            if new.len() >= least {
                reached.extend(new);
                chosen.insert(place);
            }
        }
    }

    // The rest by turns from each field, mode and goal.
    let mut by_turn: BTreeMap<_, Vec<usize>> = BTreeMap::new();
    for (place, (kind, ..)) in candidates.iter().enumerate() {
        if !chosen.contains(&place) {
            by_turn.entry(*kind).or_default().push(place);
        }
    }
    let mut random = Random::new(seed);
    while chosen.len() < count && by_turn.values().any(|places| !places.is_empty()) {
        for places in by_turn.values_mut() {
            if chosen.len() < count && !places.is_empty() {
                let at = random.below(places.len() as u64) as usize;
                chosen.insert(places.swap_remove(at));
            }
        }
    }

    let lines = chosen
        .into_iter()
        .map(|place| {
            let (_, question, answer, _) = &candidates[place];
            (question.clone(), answer.clone())
        })
        .collect();
    (lines, reached.len())
}
