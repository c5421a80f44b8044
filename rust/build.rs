//! Finds the proved archive and has it linked: the file that CELESTIAL_TIME_ARCHIVE names, else the one that
//! `tools/staticlib capi` makes, else the one that `make` makes.

use std::path::{Path, PathBuf};
use std::{env, process};

const VARIABLE: &str = "CELESTIAL_TIME_ARCHIVE";
const MADE: [&str; 2] = ["../target/staticlib/libcapi.a", "../target/lib/libcelestial_time.a"];

fn stop(why: &str) -> ! {
    eprintln!("{why}");
    eprintln!("In the repository `tools/staticlib capi` makes target/staticlib/libcapi.a.");
    eprintln!("An archive that lies elsewhere is named by {VARIABLE}=/FOLDER/libNAME.a");
    process::exit(1)
}

fn archive() -> PathBuf {
    if let Some(named) = env::var_os(VARIABLE) {
        return PathBuf::from(named);
    }
    let here = PathBuf::from(env::var_os("CARGO_MANIFEST_DIR").unwrap_or_default());
    let found = MADE.iter().map(|made| here.join(made)).find(|path| path.exists());
    found.unwrap_or_else(|| stop("The proved archive is not there."))
}

/// What the linker calls the archive libNAME.a.
fn name(path: &Path) -> Option<&str> {
    path.file_name()?.to_str()?.strip_prefix("lib")?.strip_suffix(".a")
}

fn main() {
    println!("cargo:rerun-if-env-changed={VARIABLE}");
    let path = archive();
    let Ok(path) = path.canonicalize() else { stop(&format!("There is no archive {}.", path.display())) };
    let (Some(folder), Some(name)) = (path.parent(), name(&path)) else {
        stop(&format!("{} is not named libNAME.a.", path.display()))
    };
    println!("cargo:rerun-if-changed={}", path.display());
    println!("cargo:rustc-link-search=native={}", folder.display());
    println!("cargo:rustc-link-lib=static={name}");
}
