//! Times both methods of the oracle and the proved library on the same
//! inputs, in one process.
//!
//! The library is linked if `DEMGRIV_LIB` named its folder when this was
//! built; else only the oracle is timed. Usage: `bench [WORD]`, where only
//! inputs whose names contain the word are run.

use oracle::bench_inputs;
use oracle::generate::files::Files;
use oracle::{judge_by, Method};
use std::hint::black_box;
use std::process::ExitCode;
use std::time::{Duration, Instant};

/// The sides take turns of so many timed runs, at least so many turns and for
/// about this long for each side.
const RUNS_IN_A_TURN: usize = 4;
const LEAST_TURNS: usize = 4;
const TIME_FOR_EACH: Duration = Duration::from_millis(400);

#[cfg(proved)]
mod proved {
    use oracle::generate::files::Files;

    // Linked by `build.rs`.
    extern "C" {
        fn demgriv_judge(
            case: *const u8,
            case_len: usize,
            plan: *const u8,
            plan_len: usize,
            tree: *const u8,
            tree_len: usize,
            line: *mut u8,
            line_len: usize,
        ) -> usize;
    }

    pub fn judge(files: &Files) -> String {
        let mut line = [0; 128];
        // SAFETY: each pointer stands with the length of its list, and the
        // function keeps none of them.
        let length = unsafe {
            demgriv_judge(
                files.case.as_ptr(),
                files.case.len(),
                files.plan.as_ptr(),
                files.plan.len(),
                files.tree.as_ptr(),
                files.tree.len(),
                line.as_mut_ptr(),
                line.len(),
            )
        };
        String::from_utf8_lossy(&line[..length.min(line.len())]).trim_end_matches('\n').into()
    }
}

/// A side of the benchmark: its name, and the line that it gives.
type Side = (&'static str, fn(&Files) -> String);

const SIDES: &[Side] = &[
    ("oracle", |files| judge_by(Method::Swift, &files.case, &files.plan, &files.tree)),
    ("plain", |files| judge_by(Method::Plain, &files.case, &files.plan, &files.tree)),
    #[cfg(proved)]
    ("proved", proved::judge),
];

/// Microseconds of one run.
fn time<T>(run: impl FnOnce() -> T) -> f64 {
    let begun = Instant::now();
    black_box(run());
    begun.elapsed().as_secs_f64() * 1e6
}

fn median(times: &mut [f64]) -> f64 {
    times.sort_unstable_by(f64::total_cmp);
    times[times.len() / 2]
}

/// The median time of each side. Each turn begins with a run that is not
/// counted, so that no side is slowed by the one before it.
fn medians(files: &Files) -> Vec<f64> {
    let mut times = vec![Vec::new(); SIDES.len()];
    let begun = Instant::now();
    let mut turns = 0;
    while turns < LEAST_TURNS || begun.elapsed() < TIME_FOR_EACH * SIDES.len() as u32 {
        for ((_, judge), times) in SIDES.iter().zip(&mut times) {
            black_box(judge(black_box(files)));
            times.extend((0..RUNS_IN_A_TURN).map(|_| time(|| judge(black_box(files)))));
        }
        turns += 1;
    }
    times.iter_mut().map(|times| median(times)).collect()
}

fn main() -> ExitCode {
    let word = std::env::args().nth(1).unwrap_or_default();
    let mut all_same = true;
    println!(
        "{:34}{:>11}{:>11}{:>11}{:>15}{:>14}  line",
        "input", "oracle µs", "plain µs", "proved µs", "proved/oracle", "proved/plain"
    );
    for input in bench_inputs::all().iter().filter(|input| input.name.contains(&word)) {
        let lines: Vec<String> = SIDES.iter().map(|(_, judge)| judge(&input.files)).collect();

        print!("{:34}", input.name);
        match medians(&input.files)[..] {
            [oracle, plain, proved] => {
                print!("{oracle:>11.1}{plain:>11.1}{proved:>11.1}{:>15.2}{:>14.2}", proved / oracle, proved / plain)
            }
            [oracle, plain] => print!("{oracle:>11.1}{plain:>11.1}{:>11}{:>15}{:>14}", "-", "-", "-"),
            _ => unreachable!("two sides or three"),
        }
        println!("  {}", lines[0]);
        for ((side, _), line) in SIDES.iter().zip(&lines).filter(|(_, line)| **line != lines[0]) {
            println!("  DIFFERENT: {side} has {line:?}");
            all_same = false;
        }
    }
    if all_same {
        ExitCode::SUCCESS
    } else {
        ExitCode::FAILURE
    }
}
