//! Compares the lines of the oracle, by both methods, with those of a compiled
//! `judge`.
//!
//! Usage: `compare JUDGE [COUNT] [SEED]`. The exit status is 1 if any line
//! differs; the files of such inputs are kept.

use oracle::generate::files::Files;
use oracle::generate::{family, Sample};
use oracle::{judge_by, Method};
use std::collections::BTreeMap;
use std::fs;
use std::io;
use std::path::{Path, PathBuf};
use std::process::{Command, ExitCode};
use std::sync::atomic::{AtomicU64, AtomicUsize, Ordering};
use std::thread;
use std::time::Instant;

const DEFAULT_COUNT: usize = 20_000;
const DEFAULT_SEED: u64 = 1;
const THREADS: usize = 2;

/// How many inputs got each kind of line, by measure, and how many were made
/// in each way.
#[derive(Default)]
struct Tally {
    lines: BTreeMap<(String, &'static str), usize>,
    made: BTreeMap<(&'static str, &'static str), usize>,
    differences: Vec<String>,
}

fn main() -> ExitCode {
    let mut arguments = std::env::args().skip(1);
    let Some(judge) = arguments.next().and_then(|path| fs::canonicalize(path).ok()) else {
        eprintln!("usage: compare JUDGE [COUNT] [SEED], where JUDGE is the compiled program");
        return ExitCode::from(2);
    };
    let count = arguments.next().and_then(|word| word.parse().ok()).unwrap_or(DEFAULT_COUNT);
    let seed = arguments.next().and_then(|word| word.parse().ok()).unwrap_or(DEFAULT_SEED);
    println!("seed {seed}, count {count}");

    let scratch = std::env::temp_dir().join(format!("oracle-compare-{}", std::process::id()));
    let begun = Instant::now();
    let next_family = AtomicU64::new(0);
    let left = AtomicUsize::new(count);
    let tallies: Vec<io::Result<Tally>> = thread::scope(|scope| {
        let workers: Vec<_> = (0..THREADS)
            .map(|number| {
                let worker = Worker {
                    judge: &judge,
                    folder: scratch.join(format!("run-{number}")),
                    kept: scratch.join("kept"),
                    seed,
                    next_family: &next_family,
                    left: &left,
                };
                scope.spawn(move || worker.run())
            })
            .collect();
        workers.into_iter().map(|worker| worker.join().expect("a worker ends")).collect()
    });

    let mut all = Tally::default();
    for tally in tallies {
        match tally {
            Ok(tally) => all.add(tally),
            Err(error) => {
                eprintln!("compare: {error}");
                return ExitCode::from(2);
            }
        }
    }
    all.print();
    println!("{:.1} seconds", begun.elapsed().as_secs_f64());
    if all.differences.is_empty() {
        fs::remove_dir_all(&scratch).ok();
        println!("no difference");
        ExitCode::SUCCESS
    } else {
        println!("{} differences, files kept in {}", all.differences.len(), scratch.join("kept").display());
        ExitCode::FAILURE
    }
}

struct Worker<'a> {
    judge: &'a Path,
    folder: PathBuf,
    kept: PathBuf,
    seed: u64,
    next_family: &'a AtomicU64,
    left: &'a AtomicUsize,
}

impl Worker<'_> {
    fn run(&self) -> io::Result<Tally> {
        let mut tally = Tally::default();
        fs::create_dir_all(&self.folder)?;
        loop {
            let number = self.next_family.fetch_add(1, Ordering::Relaxed);
            // Far apart, so that neighbouring seeds have no family in common.
            let samples = family(self.seed.wrapping_mul(0x1_0000_0001).wrapping_add(number));
            for (k, sample) in samples.iter().enumerate() {
                let taken = self.left.fetch_update(Ordering::Relaxed, Ordering::Relaxed, |left| left.checked_sub(1));
                if taken.is_err() {
                    return Ok(tally);
                }
                self.compare(sample, &format!("{number}-{k}"), &mut tally)?;
            }
        }
    }

    fn compare(&self, sample: &Sample, name: &str, tally: &mut Tally) -> io::Result<()> {
        let files = &sample.files;
        let [expected, plain] =
            [Method::Swift, Method::Plain].map(|method| judge_by(method, &files.case, &files.plan, &files.tree));
        write_files(&self.folder, files)?;
        let output = Command::new(self.judge).current_dir(&self.folder).output()?;
        let printed = String::from_utf8_lossy(&output.stdout);
        tally.count(sample, &expected);
        if !output.status.success() || printed != format!("{expected}\n") || plain != expected {
            let folder = self.kept.join(name);
            fs::create_dir_all(&folder)?;
            write_files(&folder, files)?;
            let paths = ["case.txt", "plan.txt", "tree.bin"].map(|file| folder.join(file).display().to_string());
            tally.differences.push(format!(
                "made as: {}\n  oracle: {expected}\n  plain:  {plain}\n  judge:  {} ({})\n  {}",
                sample.made,
                printed.trim_end_matches('\n'),
                output.status,
                paths.join("\n  "),
            ));
        }
        Ok(())
    }
}

fn write_files(folder: &Path, files: &Files) -> io::Result<()> {
    fs::write(folder.join("case.txt"), &files.case)?;
    fs::write(folder.join("plan.txt"), &files.plan)?;
    fs::write(folder.join("tree.bin"), &files.tree)
}

impl Tally {
    fn count(&mut self, sample: &Sample, line: &str) {
        let tree = &sample.files.tree;
        let measure = match tree.get(4) {
            Some(1) => "time",
            Some(2) => "load",
            Some(3) => "pair",
            _ => "none",
        };
        let forks = tree.get(6..8).is_some_and(|count| count != [1, 0]);
        let words: Vec<&str> = line.split(' ').collect();
        let (kind, outcome) = match words[0] {
            "optimal" if forks => ("optimal with forks".to_string(), "optimal"),
            "fault" => (format!("fault {:>2} {}", words[1], words[2]), "fault"),
            "open" => ("open".to_string(), "open"),
            _ => ("optimal".to_string(), "optimal"),
        };
        *self.lines.entry((kind, measure)).or_default() += 1;
        *self.made.entry((sample.made, outcome)).or_default() += 1;
    }

    fn add(&mut self, other: Tally) {
        for (key, count) in other.lines {
            *self.lines.entry(key).or_default() += count;
        }
        for (key, count) in other.made {
            *self.made.entry(key).or_default() += count;
        }
        self.differences.extend(other.differences);
    }

    fn print(&self) {
        print_table("line", &["time", "load", "pair", "none"], &self.lines);
        println!();
        print_table("made as", &["optimal", "open", "fault"], &self.made);
        for difference in &self.differences {
            println!("\n{difference}");
        }
        println!();
    }
}

fn print_table<K: AsRef<str> + Ord>(title: &str, columns: &[&str], cells: &BTreeMap<(K, &'static str), usize>) {
    let mut rows: BTreeMap<&str, BTreeMap<&str, usize>> = BTreeMap::new();
    for ((row, column), count) in cells {
        rows.entry(row.as_ref()).or_default().insert(column, *count);
    }
    print!("{title:24}");
    columns.iter().for_each(|column| print!("{column:>9}"));
    println!("{:>9}", "all");
    for (row, counts) in rows {
        print!("{row:24}");
        for column in columns {
            print!("{:>9}", counts.get(column).copied().unwrap_or(0));
        }
        println!("{:>9}", counts.values().sum::<usize>());
    }
}
