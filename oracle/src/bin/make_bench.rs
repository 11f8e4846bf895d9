//! Writes the inputs of the benchmark as folders of three files each.
//!
//! Usage: `make_bench FOLDER`.

use std::fs;
use std::io;
use std::path::Path;
use std::process::ExitCode;

fn main() -> ExitCode {
    let Some(folder) = std::env::args().nth(1) else {
        eprintln!("usage: make_bench FOLDER");
        return ExitCode::from(2);
    };
    match write_all(Path::new(&folder)) {
        Ok(()) => ExitCode::SUCCESS,
        Err(error) => {
            eprintln!("make_bench: {error}");
            ExitCode::FAILURE
        }
    }
}

fn write_all(folder: &Path) -> io::Result<()> {
    for input in oracle::bench_inputs::all() {
        let name = input.name.replace(", ", "-").replace(' ', "-");
        let into = folder.join(name);
        fs::create_dir_all(&into)?;
        fs::write(into.join("case.txt"), &input.files.case)?;
        fs::write(into.join("plan.txt"), &input.files.plan)?;
        fs::write(into.join("tree.bin"), &input.files.tree)?;
        println!("{} ({} bytes of tree)", into.display(), input.files.tree.len());
    }
    Ok(())
}
