//! What both comparisons have in common, that of operations and that of
//! circuits: their options, their samples, and how a program is asked line by
//! line.

use std::collections::BTreeMap;
use std::fmt::Display;
use std::io::{BufRead, BufReader, BufWriter, Write};
use std::process::{exit, Command, Stdio};

/// After this many differences the rest is left alone.
const ENOUGH: usize = 20;

/// What the original answers, or how it panics.
pub type Answer = Result<String, String>;

pub enum Mode {
    Compare,
    List,
    Sample {
        count: usize,
        stdin: String,
        stdout: String,
    },
    Answers(String),
}

pub struct Options {
    pub seed: u64,
    pub random: usize,
    /// The greatest length of a random list, where that can be chosen.
    pub longest: Option<u64>,
    pub program: String,
    pub mode: Mode,
}

/// A comparison, by its own name and by what its lines are called.
pub struct Comparison {
    pub name: &'static str,
    pub line: &'static str,
    pub lines: &'static str,
    pub variable: &'static str,
    pub usage: &'static str,
}

/// Lines outside the common domain, for one reason.
#[derive(Default)]
pub struct OutsideCounts {
    all: usize,
    same: usize,
    panics: usize,
}

impl OutsideCounts {
    pub fn count(&mut self, original: &Answer, theirs: &str) {
        self.all += 1;
        self.same += usize::from(original.as_deref() == Ok(theirs));
        self.panics += usize::from(original.is_err());
    }
}

/// Prints how many lines were outside the common domain, and why.
pub fn report_outside<K: Ord>(
    outside: &BTreeMap<K, OutsideCounts>,
    reason: impl Fn(&K) -> &'static str,
) {
    let all: usize = outside.values().map(|counts| counts.all).sum();
    println!("outside the common domain: {all}");
    for (key, counts) in outside {
        println!(
            "  {}: {} (the same answer all the same: {}, the Rust panics: {})",
            reason(key),
            counts.all,
            counts.same,
            counts.panics
        );
    }
}

/// Counts and prints the differences.
pub struct Differences {
    line: &'static str,
    count: usize,
}

impl Differences {
    pub fn add(&mut self, line: &str, original: &Answer, program: &str) {
        self.found(line, &shown(original), program);
    }

    fn found(&mut self, line: &str, original: &str, program: &str) {
        self.count += 1;
        println!("difference {}", self.count);
        println!("  {}: {line}", self.line);
        println!("  the Rust: {original}");
        println!("  program: {program}");
        let parts = || original.split(';').zip(program.split(';'));
        if let Some((at, (one, other))) = parts().enumerate().find(|(_, (a, b))| a != b) {
            println!("  first in part {}: {one} and {other}", at + 1);
        }
    }
}

fn shown(answer: &Answer) -> String {
    match answer {
        Ok(answer) => answer.clone(),
        Err(panic) => format!("panics: {panic}"),
    }
}

/// The next line without its end. A line that the output's end cuts off counts
/// as none.
fn next_line(from: &mut impl BufRead) -> Option<String> {
    let mut bytes = Vec::new();
    match from.read_until(b'\n', &mut bytes) {
        Ok(_) if bytes.pop() == Some(b'\n') => Some(String::from_utf8_lossy(&bytes).into_owned()),
        _ => None,
    }
}

impl Comparison {
    fn fail(&self, text: &str) -> ! {
        eprintln!("{}: {text}", self.name);
        exit(2);
    }

    /// The options of the command line, beside what they are if not given.
    pub fn options(&self, random: usize, longest: Option<u64>) -> Options {
        let mut options = Options {
            seed: 1,
            random,
            longest,
            program: std::env::var(self.variable).unwrap_or_default(),
            mode: Mode::Compare,
        };
        let mut arguments = std::env::args().skip(1);
        while let Some(argument) = arguments.next() {
            let mut value = || arguments.next().unwrap_or_else(|| self.fail(self.usage));
            let number = |text: String| {
                text.parse::<u64>()
                    .unwrap_or_else(|_| self.fail(self.usage))
            };
            match argument.as_str() {
                "--seed" => options.seed = number(value()),
                "--random" => options.random = number(value()) as usize,
                "--longest" if longest.is_some() => options.longest = Some(number(value())),
                "--list" => options.mode = Mode::List,
                "--sample" => {
                    options.mode = Mode::Sample {
                        count: number(value()) as usize,
                        stdin: value(),
                        stdout: value(),
                    }
                }
                "--answers" => options.mode = Mode::Answers(value()),
                text if text.starts_with("--") => self.fail(self.usage),
                _ => options.program = argument,
            }
        }
        options
    }

    /// Prints the lines that were made.
    pub fn list<T: Display>(&self, made: impl Iterator<Item = T>) {
        let mut out = BufWriter::new(std::io::stdout().lock());
        for line in made {
            if writeln!(out, "{line}").is_err() {
                return;
            }
        }
    }

    /// Writes a sample, lines with the original's answers, which reach so many
    /// things.
    pub fn write_sample(&self, sample: &(Vec<(String, String)>, usize), stdin: &str, stdout: &str) {
        let (lines, reached) = sample;
        let mut questions = String::new();
        let mut answers = String::new();
        for (question, answer) in lines {
            questions.push_str(question);
            questions.push('\n');
            answers.push_str(answer);
            answers.push('\n');
        }
        for (path, text) in [(stdin, questions), (stdout, answers)] {
            if let Err(error) = std::fs::write(path, text) {
                self.fail(&format!("{path}: {error}"));
            }
        }
        println!(
            "sample: {} {} that reach {reached} things",
            lines.len(),
            self.lines
        );
    }

    /// Prints the original's answers to the lines of a file.
    pub fn answers<T>(
        &self,
        path: &str,
        read: impl Fn(&str) -> Result<T, String>,
        answer: impl Fn(&T) -> Answer,
    ) {
        let text = std::fs::read_to_string(path).unwrap_or_else(|error| {
            self.fail(&format!("{path}: {error}"));
        });
        for (at, text) in text.lines().enumerate() {
            let line = read(text).unwrap_or_else(|error| {
                self.fail(&format!("{path}, line {}: {error}", at + 1));
            });
            match answer(&line) {
                Ok(answer) => println!("{answer}"),
                Err(panic) => println!("panic: {panic}"),
            }
        }
    }

    /// Asks the program and the original all lines, and has each pair of
    /// answers judged. Answers how many lines were answered.
    pub fn ask<'a, T: Display + 'a>(
        &self,
        program: &str,
        made: impl Iterator<Item = &'a T> + Clone,
        answer: impl Fn(&T) -> Answer,
        mut judge: impl FnMut(&T, &Answer, &str, &mut Differences),
    ) -> (usize, Differences) {
        if program.is_empty() {
            self.fail(&format!(
                "name the program to compare (an argument, or {})",
                self.variable
            ));
        }
        let program = std::fs::canonicalize(program)
            .unwrap_or_else(|error| self.fail(&format!("{program}: {error}")));
        let mut child = Command::new(&program)
            .stdin(Stdio::piped())
            .stdout(Stdio::piped())
            .spawn()
            .unwrap_or_else(|error| self.fail(&format!("{}: {error}", program.display())));

        let text: String = made.clone().map(|line| format!("{line}\n")).collect();
        let mut to_program = child.stdin.take().unwrap();
        // A program that stops reading is noticed by the answers that are missing.
        let writer = std::thread::spawn(move || {
            let _ = to_program.write_all(text.as_bytes());
        });
        let mut from_program = BufReader::new(child.stdout.take().unwrap());

        let mut differences = Differences {
            line: self.line,
            count: 0,
        };
        let mut asked = 0;
        for line in made {
            if differences.count >= ENOUGH {
                println!("stopped after {ENOUGH} differences");
                break;
            }
            let original = answer(line);
            let Some(theirs) = next_line(&mut from_program) else {
                differences.add(&line.to_string(), &original, "no answer: its output ended");
                break;
            };
            asked += 1;
            judge(line, &original, &theirs, &mut differences);
        }
        if differences.count == 0 {
            if let Some(more) = next_line(&mut from_program) {
                differences.found("none: the input has ended", "nothing", &more);
            }
        }

        if differences.count > 0 {
            // It may still be waiting with output that nobody reads.
            let _ = child.kill();
        }
        drop(from_program);
        let status = child.wait().expect("the program's status");
        let _ = writer.join();
        if differences.count == 0 && !status.success() {
            differences.found("none: the input has ended", "success", &status.to_string());
        }
        (asked, differences)
    }
}

/// Says how many differences there are, by the exit status too.
pub fn conclude(differences: &Differences) -> ! {
    println!("differences: {}", differences.count);
    exit(if differences.count == 0 { 0 } else { 1 });
}
