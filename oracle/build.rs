//! Links the proved library into the benchmark, if its folder is given.

use std::path::{Path, PathBuf};
use std::{env, fs, io};

const LIBRARY: &str = "libexports.a";

fn main() {
    println!("cargo:rustc-check-cfg=cfg(proved)");
    println!("cargo:rerun-if-env-changed=DEMGRIV_LIB");
    let Some(folder) = env::var_os("DEMGRIV_LIB").map(PathBuf::from) else { return };
    println!("cargo:rerun-if-changed={}", folder.display());
    match archives(&folder) {
        Ok(archives) => link(&archives),
        Err(error) => panic!("no {LIBRARY} in {}: {error}", folder.display()),
    }
}

/// Every `lib*.a` of a folder: the library, then what it may need.
fn archives(folder: &Path) -> io::Result<Vec<PathBuf>> {
    let folder = fs::canonicalize(folder)?;
    let library = folder.join(LIBRARY);
    fs::metadata(&library)?;
    let mut others = Vec::new();
    for file in fs::read_dir(&folder)? {
        let file = file?;
        let name = file.file_name();
        let name = name.to_string_lossy();
        if name.starts_with("lib") && name.ends_with(".a") && name != LIBRARY {
            others.push(file.path());
        }
    }
    others.sort();
    Ok([vec![library], others].concat())
}

/// Links archives as a group, so that they may use each other.
fn link(archives: &[PathBuf]) {
    println!("cargo:rustc-cfg=proved");
    println!("cargo:rustc-link-arg-bin=bench=-Wl,--start-group");
    for archive in archives {
        println!("cargo:rerun-if-changed={}", archive.display());
        println!("cargo:rustc-link-arg-bin=bench={}", archive.display());
    }
    println!("cargo:rustc-link-arg-bin=bench=-Wl,--end-group");
}
