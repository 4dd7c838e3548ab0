//! Prints what the original Rust does on inputs that are odd on purpose.

use ark_ff::Field;
use driver::fields::P31;
use driver::generate::Random;
use driver::original_side::{attempt, list_from_original, list_to_original, silence_attempts};
use driver::text::{read_list, write_list};
use original::r1cs::{
    ConstraintSystem, LinearCombination, OptimizationGoal, SynthesisError, SynthesisMode, Variable,
};
use std::fmt::Debug;
use std::hint::black_box;
use std::process::Command;

type System = ConstraintSystem<P31>;
type List = LinearCombination<P31>;

fn number(n: u64) -> P31 {
    <P31 as driver::fields::Number>::from_number(n).unwrap()
}

fn list(text: &str) -> List {
    list_to_original(&read_list(text).unwrap())
}

fn text(list: &List) -> String {
    write_list(&list_from_original(list))
}

/// The symbol with this number, made by a system of its own.
fn symbol(number: usize) -> Variable {
    let mut system = System::new();
    for _ in 0..number {
        system.new_lc(List::new()).unwrap();
    }
    system.new_lc(List::new()).unwrap()
}

/// Prints what was done and what came of it.
fn tell<T: Debug>(what: &str, act: impl FnOnce() -> T) {
    match attempt(act) {
        Ok(value) => println!("  {what} -> {value:?}"),
        Err(panic) => println!("  {what} -> PANIC: {panic}"),
    }
}

fn compactify(given: &str) -> Result<String, String> {
    let mut list = list(given);
    attempt(|| list.compactify()).map(|()| text(&list))
}

fn tell_compactify(given: &str) {
    match compactify(given) {
        Ok(answer) => println!("  compactify({given}) -> {answer}"),
        Err(panic) => println!("  compactify({given}) -> PANIC: {panic}"),
    }
}

fn main() {
    let arguments: Vec<String> = std::env::args().skip(1).collect();
    if let [mode, length] = &arguments[..] {
        return chain(mode, length.parse().unwrap());
    }
    silence_attempts();

    println!("1. Zero and One in one list");
    zero_and_one();
    println!("2. a list with Zero and One on which the sort panics");
    sort_panics();
    println!("3. the constant Zero in a constraint");
    zero_in_matrices();
    println!("4. a constraint in Prove without matrices");
    without_matrices();
    println!("5. a value that is an error");
    value_in_error();
    println!("6. set_mode after variables were made");
    mode_changed();
    println!("7. get_index_unchecked at the end of usize");
    index_overflow();
    println!("8. the value of a constraint's own symbol, and of symbols after finalize");
    symbols_and_finalize();
    println!("9. a deep chain of symbols");
    chains();
    println!("10. finalize twice");
    finalize_twice();
}

fn zero_and_one() {
    tell("Zero.cmp(One)", || Variable::Zero.cmp(&Variable::One));
    tell("One.cmp(Zero)", || Variable::One.cmp(&Variable::Zero));
    for given in [
        "1*z 2*o",
        "2*o 1*z",
        "1*z 2*o 3*z",
        "1*o 2*z 3*o",
        "1*z 2*z 3*o 4*o",
        "1*o 2*i0 3*z 4*i0 5*o",
    ] {
        tell_compactify(given);
    }
    println!(
        "  sum of (1*z) and (2*o) -> {}",
        text(&(list("1*z") + list("2*o")))
    );
    println!(
        "  sum of (2*o) and (1*z) -> {}",
        text(&(list("2*o") + list("1*z")))
    );
    println!(
        "  (1*z 2*o) + (5, Zero) -> {}",
        text(&(list("1*z 2*o") + (number(5), Variable::Zero)))
    );
    println!(
        "  (2*o 1*z) + (5, Zero) -> {}",
        text(&(list("2*o 1*z") + (number(5), Variable::Zero)))
    );
}

/// Looks for the shortest list that a fixed series of random ones gives.
fn sort_panics() {
    let mut random = Random::new(1);
    let mut shortest: Option<(usize, String, String)> = None;
    let mut panicked = 0;
    let tries = 20_000;
    for length in [2, 10, 20, 21, 22, 24, 28, 32, 33, 40, 64, 100] {
        let mut panicked_here = 0;
        for _ in 0..tries / 10 {
            let terms: Vec<String> = (0..length)
                .map(|_| format!("1*{}", random.pick(&["z", "o", "i1", "w1"])))
                .collect();
            let given = terms.join(" ");
            if let Err(panic) = compactify(&given) {
                panicked_here += 1;
                if shortest.is_none() {
                    shortest = Some((length, given, panic));
                }
            }
        }
        println!(
            "  random lists of {length} terms over z, o, i1, w1: {panicked_here} of {} panic",
            tries / 10
        );
        panicked += panicked_here;
    }
    match shortest {
        Some((length, given, panic)) => {
            println!("  the first one found has {length} terms:");
            println!("  compactify({given}) -> PANIC: {panic}");
        }
        None => println!("  none found, {panicked} panics"),
    }
}

fn zero_in_matrices() {
    for (a, what) in [("5*z", "5*z"), ("0*z", "0*z"), ("5*z 1*i0", "5*z 1*i0")] {
        let mut system = System::new();
        system
            .enforce_constraint(list(a), list("1*o"), List::new())
            .unwrap();
        system.finalize();
        tell(&format!("to_matrices with A = {what}"), || {
            system.to_matrices().map(|matrices| matrices.a)
        });
        tell(
            &format!("is_satisfied with A = {what}, B = 1*o, C empty"),
            || system.is_satisfied(),
        );
    }
}

fn without_matrices() {
    let mut system = System::new();
    system.set_mode(SynthesisMode::Prove {
        construct_matrices: false,
    });
    tell("which_is_unsatisfied without a constraint", || {
        system.which_is_unsatisfied()
    });
    tell("enforce_constraint(1*o, 1*o, 1*o)", || {
        system.enforce_constraint(list("1*o"), list("1*o"), list("1*o"))
    });
    println!("  num_constraints -> {}", system.num_constraints);
    println!(
        "  num_linear_combinations -> {}",
        system.num_linear_combinations
    );
    tell("which_is_unsatisfied with that constraint", || {
        system.which_is_unsatisfied()
    });
    tell("is_satisfied with that constraint", || {
        system.is_satisfied()
    });
    tell("to_matrices is there", || system.to_matrices().is_some());
}

fn counts(system: &System) {
    println!(
        "    now instances {} (assigned {}), witnesses {} (assigned {})",
        system.num_instance_variables,
        system.instance_assignment.len(),
        system.num_witness_variables,
        system.witness_assignment.len()
    );
}

fn value_in_error() {
    let missing = || Err(SynthesisError::AssignmentMissing);
    let mut system = System::new();
    counts(&system);
    tell("new_witness_variable(Err(AssignmentMissing))", || {
        system.new_witness_variable(missing)
    });
    counts(&system);
    tell("new_witness_variable(Ok(5))", || {
        system.new_witness_variable(|| Ok(number(5)))
    });
    counts(&system);
    tell("assigned_value(Witness(0))", || {
        system.assigned_value(Variable::Witness(0))
    });
    tell("assigned_value(Witness(1))", || {
        system.assigned_value(Variable::Witness(1))
    });
    tell("new_input_variable(Err(DivisionByZero))", || {
        system.new_input_variable(|| Err(SynthesisError::DivisionByZero))
    });
    counts(&system);

    println!("  the same through a shared reference:");
    let shared = System::new_ref();
    tell("new_witness_variable(Err(AssignmentMissing))", || {
        shared.new_witness_variable(missing)
    });
    println!(
        "  num_witness_variables() -> {}",
        shared.num_witness_variables()
    );

    println!("  in Setup:");
    let mut system = System::new();
    system.set_mode(SynthesisMode::Setup);
    tell("new_witness_variable(Err(AssignmentMissing))", || {
        system.new_witness_variable(missing)
    });
    counts(&system);
}

fn prove(construct_matrices: bool) -> SynthesisMode {
    SynthesisMode::Prove { construct_matrices }
}

// A true constraint made without matrices, and then one with them, whose third list is given.
fn bare_then_matrices(third: &str) -> System {
    let mut system = System::new();
    system.set_mode(prove(false));
    system
        .enforce_constraint(list("1*o"), list("1*o"), list("1*o"))
        .unwrap();
    system.set_mode(prove(true));
    system
        .enforce_constraint(list("1*o"), list("1*o"), list(third))
        .unwrap();
    system
}

fn mode_changed() {

    println!("  Prove, then Setup:");
    let mut system = System::new();
    let first = system.new_witness_variable(|| Ok(number(5))).unwrap();
    system
        .enforce_constraint(list("1*w0"), list("1*o"), list("5*o"))
        .unwrap();
    tell("is_satisfied before", || system.is_satisfied());
    system.set_mode(SynthesisMode::Setup);
    let second = system.new_witness_variable(|| Ok(number(6))).unwrap();
    counts(&system);
    tell("assigned_value of the first", || {
        system.assigned_value(first)
    });
    tell("assigned_value of the second", || {
        system.assigned_value(second)
    });
    tell("is_satisfied after", || system.is_satisfied());

    println!("  Setup, then Prove:");
    let mut system = System::new();
    system.set_mode(SynthesisMode::Setup);
    let first = system.new_witness_variable(|| Ok(number(5))).unwrap();
    system.set_mode(prove(true));
    let second = system.new_witness_variable(|| Ok(number(6))).unwrap();
    counts(&system);
    tell("assigned_value of the first, given 5 in Setup", || {
        system.assigned_value(first)
    });
    tell("assigned_value of the second, given 6 in Prove", || {
        system.assigned_value(second)
    });
    tell("assigned_value(Instance(0)) all along", || {
        system.assigned_value(Variable::Instance(0))
    });

    println!("  Prove without matrices, then with:");
    let system = bare_then_matrices("2*o");
    tell("(num_constraints, rows) of to_matrices", || {
        system
            .to_matrices()
            .map(|matrices| (matrices.num_constraints, matrices.a.len()))
    });
    tell(
        "which_is_unsatisfied (the second constraint is false)",
        || system.which_is_unsatisfied(),
    );
    let system = bare_then_matrices("1*o");
    tell("which_is_unsatisfied (both constraints true)", || {
        system.which_is_unsatisfied()
    });

    println!("  set_optimization_goal after a variable was made, for comparison:");
    let mut system = System::new();
    system.new_witness_variable(|| Ok(number(5))).unwrap();
    tell("set_optimization_goal(Weight)", || {
        system.set_optimization_goal(OptimizationGoal::Weight)
    });
}

fn index_overflow() {
    tell("Witness(1).get_index_unchecked(usize::MAX)", || {
        black_box(Variable::Witness(1)).get_index_unchecked(black_box(usize::MAX))
    });
    tell("Witness(0).get_index_unchecked(usize::MAX)", || {
        black_box(Variable::Witness(0)).get_index_unchecked(black_box(usize::MAX))
    });
    tell("Zero.get_index_unchecked(7)", || {
        Variable::Zero.get_index_unchecked(7)
    });
}

fn symbols_and_finalize() {
    let made = || {
        let mut system = System::new();
        system.new_witness_variable(|| Ok(number(5))).unwrap();
        let used = system.new_lc(list("2*w0 1*o")).unwrap();
        let unused = system.new_lc(list("3*w0")).unwrap();
        system
            .enforce_constraint(List::from(used), list("1*o"), list("11*o"))
            .unwrap();
        (system, used, unused)
    };
    println!("  w0 = 5; s0 = 2*w0 + 1 (used in the constraint), s1 = 3*w0 (unused);");
    println!("  the constraint s0 * 1 = 11 makes s2, s3, s4");

    let (system, used, unused) = made();
    println!("  before finalize:");
    tell("assigned_value(s0)", || system.assigned_value(used));
    tell("assigned_value(s1)", || system.assigned_value(unused));
    for n in 2..=4 {
        tell(&format!("assigned_value(s{n})"), || {
            system.assigned_value(symbol(n))
        });
    }
    tell("assigned_value(s5), never made", || {
        system.assigned_value(symbol(5))
    });

    for goal in [OptimizationGoal::Constraints, OptimizationGoal::Weight] {
        println!("  after finalize for {goal:?}, not asked before:");
        let (mut system, used, unused) = made();
        system.optimization_goal = goal;
        system.finalize();
        tell("assigned_value(s0)", || system.assigned_value(used));
        tell("assigned_value(s1)", || system.assigned_value(unused));
        for n in 2..=4 {
            tell(&format!("assigned_value(s{n})"), || {
                system.assigned_value(symbol(n))
            });
        }
    }

    println!("  after finalize for Constraints, s0 asked before:");
    let (mut system, used, _) = made();
    tell("assigned_value(s0) before", || system.assigned_value(used));
    system.finalize();
    tell("assigned_value(s0) after", || system.assigned_value(used));

    println!("  a value asked for, then changed in the public witness_assignment:");
    let (mut system, used, _) = made();
    tell("assigned_value(s0) with w0 = 5", || {
        system.assigned_value(used)
    });
    system.witness_assignment[0] = number(6);
    tell("assigned_value(s0) with w0 = 6", || {
        system.assigned_value(used)
    });
    tell("assigned_value(w0)", || {
        system.assigned_value(Variable::Witness(0))
    });
    tell("which_is_unsatisfied (13 is not 11)", || {
        system.which_is_unsatisfied()
    });
}

/// In a process of its own, on its main thread.
fn chain(mode: &str, length: usize) {
    let mut system = System::new();
    let mut last = Variable::One;
    for _ in 0..length {
        last = system.new_lc(List::from(last)).unwrap();
    }
    match mode {
        "--own" => {
            // A symbol whose list holds the symbol itself.
            let own = symbol(length);
            last = system.new_lc(List::from(own)).unwrap();
        }
        "--finalized" => system.finalize(),
        _ => {}
    }
    let value = system.assigned_value(last);
    println!(
        "{}",
        if value == Some(P31::one()) {
            "Some(1)"
        } else {
            "another value"
        }
    );
}

fn chains() {
    let this = std::env::current_exe().unwrap();
    let run = |mode: &str, length: usize| {
        let output = Command::new(&this)
            .args([mode, &length.to_string()])
            .output()
            .unwrap();
        let out = String::from_utf8_lossy(&output.stdout);
        let errors = String::from_utf8_lossy(&output.stderr);
        let errors: Vec<&str> = errors
            .lines()
            .filter(|line| !line.is_empty() && !line.contains("thread '"))
            .collect();
        println!(
            "  {mode} {length} -> {}; said: {}{}",
            output.status,
            out.trim(),
            errors.join(" ")
        );
    };
    println!(
        "  (--value: assigned_value of the last of so many symbols, each 1 times the one before;"
    );
    println!("  --finalized: the same after finalize; --own: a symbol that holds itself)");
    for length in [1_000, 5_000, 10_000, 20_000, 50_000, 100_000, 200_000] {
        run("--value", length);
    }
    run("--finalized", 200_000);
    run("--own", 0);
}

fn finalize_twice() {
    let mut system = System::new();
    let used = system.new_lc(list("1*o")).unwrap();
    system
        .enforce_constraint(List::from(used), list("1*o"), list("1*o"))
        .unwrap();
    tell("finalize", || system.finalize());
    tell(
        "finalize again, a symbol having been put into its place",
        || system.finalize(),
    );

    let mut system = System::new();
    system
        .enforce_constraint(list("1*o"), list("1*o"), list("1*o"))
        .unwrap();
    tell("finalize without symbols of one's own", || {
        system.finalize()
    });
    tell("finalize again", || system.finalize());
}
