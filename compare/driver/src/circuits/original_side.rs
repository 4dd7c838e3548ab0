//! What comes of a circuit in the original Rust.

use super::text::{or_none, Call, Circuit, Goal, Mode};
use crate::fields::{Gf8, Number, P31};
use crate::original_side::{attempt, from_original, list_to_original, to_original};
use crate::text::FieldName;
use original::r1cs::{
    ConstraintMatrices, ConstraintSystem, Matrix, OptimizationGoal, SynthesisError, SynthesisMode,
    Variable,
};

/// The number of an error, its place among the errors.
fn error_number(error: SynthesisError) -> u8 {
    match error {
        SynthesisError::MissingCS => 1,
        SynthesisError::AssignmentMissing => 2,
        SynthesisError::DivisionByZero => 3,
        SynthesisError::Unsatisfiable => 4,
        SynthesisError::PolynomialDegreeTooLarge => 5,
        SynthesisError::UnexpectedIdentity => 6,
        SynthesisError::MalformedVerifyingKey => 7,
        SynthesisError::UnconstrainedVariable => 8,
    }
}

fn refused(error: SynthesisError) -> String {
    format!("refused={}", error_number(error))
}

fn named(answer: Result<Variable, SynthesisError>) -> String {
    match answer {
        Ok(variable) => from_original(variable).to_string(),
        Err(error) => refused(error),
    }
}

fn number<F: Number>(n: u64) -> F {
    F::from_number(n).expect("a number outside the field")
}

fn values<F: Number>(values: &[F]) -> String {
    let texts: Vec<String> = values
        .iter()
        .map(|value| value.number().to_string())
        .collect();
    texts.join(" ")
}

/// Each row in brackets, its cells as number and column.
fn rows<F: Number>(matrix: &Matrix<F>) -> String {
    matrix
        .iter()
        .map(|row| {
            let cells: Vec<String> = row
                .iter()
                .map(|(number, column)| format!("{}@{column}", number.number()))
                .collect();
            format!("[{}]", cells.join(" "))
        })
        .collect()
}

/// Whether this is the first row of the matrices that the kept values do not
/// satisfy.
fn fails_first<F: Number>(
    row: Option<usize>,
    matrices: &ConstraintMatrices<F>,
    system: &ConstraintSystem<F>,
) -> bool {
    let vector: Vec<F> = system
        .instance_assignment
        .iter()
        .chain(&system.witness_assignment)
        .copied()
        .collect();
    let worth = |row: &[(F, usize)]| {
        let mut sum = F::zero();
        for (number, column) in row {
            sum += *number * *vector.get(*column)?;
        }
        Some(sum)
    };
    let holds = |row: usize| {
        let (a, b) = (worth(&matrices.a[row])?, worth(&matrices.b[row])?);
        Some(a * b == worth(&matrices.c[row])?)
    };
    let first = (0..matrices.a.len()).find(|row| holds(*row) != Some(true));
    first == row
}

/// A circuit on its way: the calls are made one by one.
struct Making<F: Number> {
    system: ConstraintSystem<F>,
    finished: bool,
    /// What the last check of the finished circuit answered.
    checked: Option<Option<usize>>,
    matrices: Option<ConstraintMatrices<F>>,
    /// Where the original contradicts itself. It stands at the end of the
    /// line, so that no other answer is the same.
    doubts: Vec<String>,
}

impl<F: Number> Making<F> {
    /// Without the feature `std` the original's text is the number of the
    /// row and nothing else, which reading it as a number makes sure of.
    fn check(&mut self) -> String {
        let answer = self.system.which_is_unsatisfied();
        if self.system.is_satisfied() != answer.clone().map(|text| text.is_none()) {
            self.doubts.push("two checks differ".to_string());
        }
        match answer {
            Ok(text) => {
                let row = text.map(|text| text.parse::<usize>().expect("the number of a row"));
                if self.finished {
                    self.checked = Some(row);
                }
                or_none(row)
            }
            Err(error) => refused(error),
        }
    }

    fn write(&mut self) -> String {
        self.matrices = self.system.to_matrices();
        let Some(matrices) = &self.matrices else {
            return "none".to_string();
        };
        let rows = [&matrices.a, &matrices.b, &matrices.c].map(|matrix| matrix.len());
        if rows != [matrices.num_constraints; 3] {
            self.doubts.push("rows are not counted".to_string());
        }
        format!(
            "{} {} {} {} {} {}",
            matrices.num_instance_variables,
            matrices.num_witness_variables,
            matrices.num_constraints,
            matrices.a_num_non_zero,
            matrices.b_num_non_zero,
            matrices.c_num_non_zero
        )
    }

    fn call(&mut self, call: &Call) -> String {
        let done = || "done".to_string();
        let given = |value: &Option<u64>| {
            value
                .map(number::<F>)
                .ok_or(SynthesisError::AssignmentMissing)
        };
        match call {
            Call::Mode(mode) => {
                self.system.set_mode(match mode {
                    Mode::Setup => SynthesisMode::Setup,
                    Mode::Prove => SynthesisMode::Prove {
                        construct_matrices: true,
                    },
                    Mode::Bare => SynthesisMode::Prove {
                        construct_matrices: false,
                    },
                });
                done()
            }
            Call::Goal(goal) => {
                self.system.set_optimization_goal(match goal {
                    Goal::None => OptimizationGoal::None,
                    Goal::Constraints => OptimizationGoal::Constraints,
                    Goal::Weight => OptimizationGoal::Weight,
                });
                done()
            }
            Call::Input(value) => named(self.system.new_input_variable(|| given(value))),
            Call::Witness(value) => named(self.system.new_witness_variable(|| given(value))),
            Call::Lc(list) => named(self.system.new_lc(list_to_original(list))),
            Call::Constraint(lists) => {
                let [a, b, c] = lists.each_ref().map(|list| list_to_original(list));
                match self.system.enforce_constraint(a, b, c) {
                    Ok(()) => done(),
                    Err(error) => refused(error),
                }
            }
            Call::Check => self.check(),
            Call::Value(var) => {
                let value = self.system.assigned_value(to_original(*var));
                or_none(value.map(|value| value.number()))
            }
            Call::Finalize => {
                self.system.finalize();
                self.finished = true;
                done()
            }
            Call::Matrices => self.write(),
        }
    }

    /// The counts and the kept values in the end, and the matrices if they
    /// were written.
    fn left(&self) -> Vec<String> {
        let system = &self.system;
        let state = if self.finished { "finished" } else { "open" };
        let mut parts = vec![
            format!(
                "{state}={} {} {} {}",
                system.num_instance_variables,
                system.num_witness_variables,
                system.num_constraints,
                system.num_linear_combinations
            ),
            format!("instances={}", values(&system.instance_assignment)),
            format!("witnesses={}", values(&system.witness_assignment)),
        ];
        if let Some(matrices) = &self.matrices {
            parts.push(format!("a={}", rows(&matrices.a)));
            parts.push(format!("b={}", rows(&matrices.b)));
            parts.push(format!("c={}", rows(&matrices.c)));
            if self
                .checked
                .is_some_and(|row| !fails_first(row, matrices, system))
            {
                parts.push("the check and the matrices differ".to_string());
            }
        }
        parts.extend(self.doubts.iter().cloned());
        parts
    }
}

fn answer_in<F: Number>(circuit: &Circuit) -> String {
    let mut making = Making {
        system: ConstraintSystem::<F>::new(),
        finished: false,
        checked: None,
        matrices: None,
        doubts: Vec::new(),
    };
    let mut parts: Vec<String> = circuit.calls.iter().map(|call| making.call(call)).collect();
    parts.extend(making.left());
    parts.join(";")
}

/// The line that the original answers, or what it said when it panicked.
pub fn answer(circuit: &Circuit) -> Result<String, String> {
    attempt(|| match circuit.field {
        FieldName::P31 => answer_in::<P31>(circuit),
        FieldName::Gf8 => answer_in::<Gf8>(circuit),
    })
}

#[cfg(test)]
mod tests {
    use super::*;
    use crate::circuits::text::read_circuit;

    fn answered(text: &str) -> String {
        answer(&read_circuit(text).unwrap()).unwrap()
    }

    /// The worked sample of the repository's rules, section 11.
    #[test]
    fn the_worked_sample() {
        assert_eq!(
            answered(
                "p31;goal=weight;input=64;witness=3;witness=4;lc=1*w0 1*w1 1*o;\
                 constraint=1*s0,1*s0,1*i1;check;value=s0;finalize;check;value=w2;matrices"
            ),
            "done;i1;w0;w1;s0;done;none;8;done;none;8;2 3 2 4 2 2;finished=2 3 2 7;\
             instances=1 64;witnesses=3 4 8;\
             a=[1@4][1@0 1@2 1@3];b=[1@4][1@0];c=[1@1][1@4]"
        );
    }

    #[test]
    fn small_circuits() {
        assert_eq!(answered("gf8"), "open=1 0 0 0;instances=1;witnesses=");
        assert_eq!(
            answered("p31;mode=setup;witness=none;check;value=w0;value=i0"),
            "done;w0;refused=2;none;1;open=1 1 0 0;instances=1;witnesses="
        );
        assert_eq!(
            answered("p31;mode=bare;constraint=,,;finalize;matrices"),
            "done;done;done;none;finished=1 0 1 0;instances=1;witnesses="
        );
        assert_eq!(
            answered("gf8;constraint=1*o,1*o,1*o;constraint=2*o,3*o,5*o;check;finalize;check"),
            "done;done;1;done;1;finished=1 0 2 6;instances=1;witnesses="
        );
    }
}
