//! Links libdumachik.a, from crates/dumachik/out of the repository or from the folder that DUMACHIK_LIB names.
use std::path::PathBuf;
use std::{env, fs, process};

/// Every call that this crate makes; an older library may lack one.
const CALLS: [&str; 7] = ["mfl_scan", "mfl_count", "mfl_print", "mfl_statement", "mfl_statements", "mfl_profile", "mfl_resolve"];

fn main() {
    let beside = || PathBuf::from(env!("CARGO_MANIFEST_DIR")).join("../crates/dumachik/out");
    let folder = env::var_os("DUMACHIK_LIB").map_or_else(beside, PathBuf::from);
    let library = folder.join("libdumachik.a");
    println!("cargo::rerun-if-env-changed=DUMACHIK_LIB");
    println!("cargo::rerun-if-changed={}", library.display());

    let Ok(archive) = fs::read(&library) else {
        stop(&format!("not found: {}", library.display()));
    };
    for call in CALLS {
        if !archive.windows(call.len()).any(|name| name == call.as_bytes()) {
            stop(&format!("{} has no {call}: it is older than this crate", library.display()));
        }
    }
    println!("cargo::rustc-link-search=native={}", folder.display());
    println!("cargo::rustc-link-lib=static=dumachik");
}

fn stop(why: &str) -> ! {
    println!("cargo::error={why}");
    println!("cargo::error=run `rt lib` in crates/dumachik of the repository, or set DUMACHIK_LIB to the folder that has libdumachik.a");
    // Cargo fails the build for the lines above.
    process::exit(0);
}
