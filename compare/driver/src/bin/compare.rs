//! Compares a program with the original Rust, line by line.

use driver::comparison::{
    conclude, report_outside, Answer, Comparison, Differences, Mode, Options, OutsideCounts,
};
use driver::generate::{operations, Operations, Origin};
use driver::original_side::{answer, silence_attempts};
use driver::sample::sample;
use driver::text::{read_line, Line, OPS};
use driver::verdict::{kind, same_after_compactify, Kind, Outside};
use std::collections::{BTreeMap, HashSet};

const OPERATIONS: Comparison = Comparison {
    name: "compare",
    line: "operation",
    lines: "operations",
    variable: "LIST_OPS",
    usage: "usage:
  compare [--seed N] [--random N] [--longest N] [PROGRAM]
  compare [--seed N] [--random N] [--longest N] --list
  compare [--seed N] [--random N] [--longest N] --sample N OUT_STDIN OUT_STDOUT
  compare --answers IN_STDIN
Without PROGRAM the variable LIST_OPS names it.",
};

fn main() {
    silence_attempts();
    let options = OPERATIONS.options(34_000, Some(20));
    let longest = options.longest.unwrap_or_default();
    let made = || operations(options.seed, options.random, longest);
    match &options.mode {
        Mode::Compare => compare(&options, &made()),
        Mode::List => OPERATIONS.list(made().lines.iter().map(|(line, _)| line)),
        Mode::Sample {
            count,
            stdin,
            stdout,
        } => OPERATIONS.write_sample(&sample(&made(), *count, options.seed), stdin, stdout),
        Mode::Answers(path) => OPERATIONS.answers(path, read_line, answer),
    }
}

#[derive(Default)]
struct Counts {
    exact: usize,
    after_compactify: usize,
    outside: usize,
}

fn compare(options: &Options, made: &Operations) {
    let mut counts: BTreeMap<&str, Counts> = BTreeMap::new();
    let mut outside: BTreeMap<Outside, OutsideCounts> = BTreeMap::new();
    let lines = made.lines.iter().map(|(line, _)| line);
    let (asked, differences) = OPERATIONS.ask(
        &options.program,
        lines,
        answer,
        |line, original, theirs, differences| {
            judge(
                line,
                original,
                theirs,
                &mut counts,
                &mut outside,
                differences,
            );
        },
    );
    report(made, asked, &counts, &outside);
    conclude(&differences);
}

fn judge(
    line: &Line,
    original: &Answer,
    theirs: &str,
    counts: &mut BTreeMap<&str, Counts>,
    outside: &mut BTreeMap<Outside, OutsideCounts>,
    differences: &mut Differences,
) {
    let counts = counts.entry(line.op.name()).or_default();
    let same = match kind(line) {
        Kind::Exact => {
            counts.exact += 1;
            original.as_deref() == Ok(theirs)
        }
        Kind::AfterCompactify => {
            counts.after_compactify += 1;
            match original {
                Ok(ours) => same_after_compactify(line, ours, theirs),
                Err(_) => false,
            }
        }
        Kind::Outside(reason) => {
            counts.outside += 1;
            outside.entry(reason).or_default().count(original, theirs);
            true
        }
    };
    if !same {
        differences.add(&line.to_string(), original, theirs);
    }
}

fn report(
    made: &Operations,
    asked: usize,
    counts: &BTreeMap<&str, Counts>,
    outside: &BTreeMap<Outside, OutsideCounts>,
) {
    println!(
        "operations: {} (smallest shapes {}, around six terms {}, random {}), answered {asked}",
        made.lines.len(),
        made.count(Origin::Smallest),
        made.count(Origin::Boundary),
        made.count(Origin::Random)
    );
    let lists: Vec<_> = made
        .lines
        .iter()
        .filter(|(_, origin)| *origin != Origin::Smallest)
        .flat_map(|(line, _)| {
            let left = line.op.takes_left().then_some(&line.left);
            let right = line.op.takes_right().then_some(&line.right);
            left.into_iter().chain(right)
        })
        .collect();
    println!(
        "random lists and lists around six terms: {}, of four to seven terms: {}, different ones: {}",
        lists.len(),
        lists.iter().filter(|list| (4..=7).contains(&list.len())).count(),
        lists.iter().collect::<HashSet<_>>().len()
    );
    println!(
        "{:<18} {:>8} {:>17} {:>8}",
        "", "exactly", "after compactify", "outside"
    );
    let mut all = Counts::default();
    for (_, name) in OPS {
        if let Some(counts) = counts.get(name) {
            println!(
                "{name:<18} {:>8} {:>17} {:>8}",
                counts.exact, counts.after_compactify, counts.outside
            );
            all.exact += counts.exact;
            all.after_compactify += counts.after_compactify;
            all.outside += counts.outside;
        }
    }
    println!("compared exactly: {}", all.exact);
    println!("compared after compactify: {}", all.after_compactify);
    report_outside(outside, |reason| reason.reason());
}
