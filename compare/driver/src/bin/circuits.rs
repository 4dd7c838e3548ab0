//! Compares what comes of circuits in a program and in the original Rust,
//! line by line.

use driver::circuits::account::{told, Outside, Told};
use driver::circuits::generate::{circuits, Circuits, Origin};
use driver::circuits::original_side::answer;
use driver::circuits::sample::sample;
use driver::circuits::text::{name_of, read_circuit, Call, Circuit, GOALS, MODES};
use driver::comparison::{conclude, report_outside, Comparison, Mode, Options, OutsideCounts};
use driver::original_side::silence_attempts;
use driver::text::{Term, Var, FIELDS};
use std::collections::{BTreeMap, HashSet};

const CIRCUITS: Comparison = Comparison {
    name: "circuits",
    line: "circuit",
    lines: "circuits",
    variable: "CIRCUIT_OPS",
    usage: "usage:
  circuits [--seed N] [--random N] [PROGRAM]
  circuits [--seed N] [--random N] --list
  circuits [--seed N] [--random N] --sample N OUT_STDIN OUT_STDOUT
  circuits --answers IN_STDIN
Without PROGRAM the variable CIRCUIT_OPS names it.",
};

fn main() {
    silence_attempts();
    let options = CIRCUITS.options(22_000, None);
    let made = || circuits(options.seed, options.random);
    match &options.mode {
        Mode::Compare => compare(&options, &made()),
        Mode::List => CIRCUITS.list(made().circuits.iter().map(|(circuit, _)| circuit)),
        Mode::Sample {
            count,
            stdin,
            stdout,
        } => CIRCUITS.write_sample(&sample(&made(), *count, options.seed), stdin, stdout),
        Mode::Answers(path) => CIRCUITS.answers(path, read_circuit, answer),
    }
}

/// The lists that were handed in.
#[derive(Default)]
struct Lists {
    all: usize,
    empty: usize,
    with_repeat: usize,
    with_zero: usize,
    longest: usize,
}

impl Lists {
    fn count(&mut self, list: &[Term]) {
        let vars: HashSet<Var> = list.iter().map(|term| term.1).collect();
        self.all += 1;
        self.empty += usize::from(list.is_empty());
        self.with_repeat += usize::from(vars.len() < list.len());
        self.with_zero += usize::from(list.iter().any(|term| term.0 == 0));
        self.longest = self.longest.max(list.len());
    }

    fn add(&mut self, other: &Lists) {
        self.all += other.all;
        self.empty += other.empty;
        self.with_repeat += other.with_repeat;
        self.with_zero += other.with_zero;
        self.longest = self.longest.max(other.longest);
    }
}

/// How much was compared, of one kind of circuit or of all.
#[derive(Default)]
struct Counts {
    circuits: usize,
    finished: usize,
    constraints: usize,
    lists: Lists,
    zero_sums: usize,
    /// Witnesses that finalising added, and the circuits that have some.
    added: usize,
    with_added: usize,
    /// Checks of open circuits and of finished ones, and those of both that
    /// name a row.
    open_checks: usize,
    finished_checks: usize,
    failing: usize,
    /// Values that were asked for, and those of them that are none.
    values: usize,
    without: usize,
    symbols: usize,
    /// Circuits whose matrices were written, with their rows and cells.
    matrices: usize,
    rows: usize,
    cells: usize,
    most_added: usize,
    deepest: usize,
}

impl Counts {
    fn count(&mut self, circuit: &Circuit, told: &Told, answer: &str) {
        self.circuits += 1;
        self.finished += usize::from(told.finished);
        self.constraints += told.constraints;
        self.added += told.added;
        self.with_added += usize::from(told.added > 0);
        self.most_added = self.most_added.max(told.added);
        self.deepest = self.deepest.max(told.depth);
        self.zero_sums += told.zero_sums;
        let mut finished = false;
        for (call, answer) in circuit.calls.iter().zip(answer.split(';')) {
            for list in call.lists() {
                self.lists.count(list);
            }
            match call {
                Call::Check => {
                    let checks = if finished {
                        &mut self.finished_checks
                    } else {
                        &mut self.open_checks
                    };
                    *checks += 1;
                    self.failing += usize::from(answer.parse::<usize>().is_ok());
                }
                Call::Finalize => finished = true,
                Call::Value(var) => {
                    self.values += 1;
                    self.without += usize::from(answer == "none");
                    self.symbols += usize::from(matches!(var, Var::Symbol(_)));
                }
                _ => {}
            }
        }
        let rows = answer.matches('[').count();
        self.matrices += usize::from(answer.contains(";a="));
        self.rows += rows / 3;
        self.cells += answer.matches('@').count();
    }

    fn add(&mut self, other: &Counts) {
        self.circuits += other.circuits;
        self.finished += other.finished;
        self.constraints += other.constraints;
        self.added += other.added;
        self.with_added += other.with_added;
        self.open_checks += other.open_checks;
        self.finished_checks += other.finished_checks;
        self.lists.add(&other.lists);
        self.zero_sums += other.zero_sums;
        self.failing += other.failing;
        self.values += other.values;
        self.without += other.without;
        self.symbols += other.symbols;
        self.matrices += other.matrices;
        self.rows += other.rows;
        self.cells += other.cells;
        self.most_added = self.most_added.max(other.most_added);
        self.deepest = self.deepest.max(other.deepest);
    }
}

type Kinds = BTreeMap<(&'static str, &'static str, &'static str), Counts>;

fn compare(options: &Options, made: &Circuits) {
    let mut counts = Kinds::new();
    let mut outside: BTreeMap<Outside, OutsideCounts> = BTreeMap::new();
    let lines = made.circuits.iter().map(|(circuit, _)| circuit);
    let (asked, differences) = CIRCUITS.ask(
        &options.program,
        lines,
        answer,
        |circuit, original, theirs, differences| {
            let told = told(circuit);
            match told.outside {
                Some(reason) => outside.entry(reason).or_default().count(original, theirs),
                None if original.as_deref() == Ok(theirs) => {
                    let mode = name_of(&MODES, told.mode);
                    let kind = (circuit.field.name(), mode, name_of(&GOALS, told.goal));
                    counts
                        .entry(kind)
                        .or_default()
                        .count(circuit, &told, theirs);
                }
                None => differences.add(&circuit.to_string(), original, theirs),
            }
        },
    );
    report(made, asked, &counts, &outside);
    conclude(&differences);
}

fn report(
    made: &Circuits,
    asked: usize,
    counts: &Kinds,
    outside: &BTreeMap<Outside, OutsideCounts>,
) {
    println!(
        "circuits: {} (smallest shapes {}, random {}), answered {asked}",
        made.circuits.len(),
        made.count(Origin::Smallest),
        made.count(Origin::Random)
    );
    println!(
        "{:<22} {:>8} {:>9} {:>11} {:>7} {:>9} {:>8}",
        "", "the same", "finished", "constraints", "added", "cells", "values"
    );
    let mut all = Counts::default();
    for field in FIELDS {
        for (_, mode) in MODES {
            for (_, goal) in GOALS {
                let kind = (field.name(), mode, goal);
                let Some(counts) = counts.get(&kind) else {
                    continue;
                };
                println!(
                    "{:<22} {:>8} {:>9} {:>11} {:>7} {:>9} {:>8}",
                    format!("{} {mode} {goal}", field.name()),
                    counts.circuits,
                    counts.finished,
                    counts.constraints,
                    counts.added,
                    counts.cells,
                    counts.values
                );
                all.add(counts);
            }
        }
    }
    println!("compared, and the same: {}", all.circuits);
    println!(
        "  finalised: {}, with {} witnesses added in {} of them (at most {} in one)",
        all.finished, all.added, all.with_added, all.most_added
    );
    println!(
        "  constraints: {}; symbols nested up to {} deep",
        all.constraints, all.deepest
    );
    println!(
        "  lists: {} ({} empty, {} with a repeat, {} with a number zero, the longest of {} terms)",
        all.lists.all,
        all.lists.empty,
        all.lists.with_repeat,
        all.lists.with_zero,
        all.lists.longest
    );
    println!(
        "  terms of merged lists whose number is zero: {}",
        all.zero_sums
    );
    println!(
        "  matrices of {} circuits: {} rows of each, {} cells",
        all.matrices, all.rows, all.cells
    );
    println!(
        "  checks: {} before finalising and {} after, of which {} name a row",
        all.open_checks, all.finished_checks, all.failing
    );
    println!(
        "  values asked for: {} ({} of symbols), of which {} are none",
        all.values, all.symbols, all.without
    );
    report_outside(outside, |reason| reason.reason());
}
