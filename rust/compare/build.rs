//! Puts the source's mfl.rs and resolve.rs, unchanged, where lib.rs can name them: from the folder `shared` beside the repository, or from the
//! folder that DUMACHIK_SHARED names. Where they are not there the programs are built to say so. For src/bin/ceilings.rs and
//! src/bin/profiles.rs there is a copy of mfl.rs for each of some ceilings, which has that number for its own in the line that says its limit
//! for counts, and no other change.
use std::path::{Path, PathBuf};
use std::{env, fs};

const MODULES: [&str; 2] = ["mfl", "resolve"];

/// The limit for counts in mfl.rs, and the ceilings that stand for it in the copies: near the ends of what there is; below and above the
/// largest count of the profile, 10, and at it.
const LIMIT: &str = "pub const MAX_COUNT: u32 = 64;";
const CEILINGS: [u32; 7] = [0, 1, 3, 63, 65, 255, 256];
const PROFILED: [u32; 5] = [3, 10, 11, 65, 256];

fn main() {
    let beside = || PathBuf::from(env!("CARGO_MANIFEST_DIR")).join("../../../shared");
    let shared = env::var_os("DUMACHIK_SHARED").map_or_else(beside, PathBuf::from);
    println!("cargo::rerun-if-env-changed=DUMACHIK_SHARED");
    println!("cargo::rustc-check-cfg=cfg(without_source)");
    println!("cargo::rustc-env=SOURCE={}", shared.display());

    let out = PathBuf::from(env::var_os("OUT_DIR").expect("cargo sets OUT_DIR"));
    let mut lines = String::new();
    for name in MODULES {
        let source = shared.join(format!("src--crates--ferx-tools--src--search--{name}.rs.txt"));
        println!("cargo::rerun-if-changed={}", source.display());
        let Ok(text) = fs::read(&source) else {
            println!("cargo::rustc-cfg=without_source");
            return;
        };
        let module = out.join(format!("{name}.rs"));
        fs::write(&module, text).expect("OUT_DIR can be written");
        lines += &format!("#[allow(dead_code)]\n#[path = {module:?}]\npub mod {name};\n");
    }
    fs::write(out.join("source.rs"), lines).expect("OUT_DIR can be written");

    let text = fs::read_to_string(out.join("mfl.rs")).expect("mfl.rs is UTF-8");
    assert_eq!(text.matches(LIMIT).count(), 1, "mfl.rs says its limit for counts once");
    fs::write(out.join("ceilings.rs"), copies(&out, &text, &CEILINGS)).expect("OUT_DIR can be written");
    fs::write(out.join("profiles.rs"), copies(&out, &text, &PROFILED)).expect("OUT_DIR can be written");

    // A caller: of structure.rs, what `space_features` needs, and the function, from its first line to its last.
    let source = shared.join("src--crates--ferx-tools--src--modelsearch--structure.rs.txt");
    println!("cargo::rerun-if-changed={}", source.display());
    let text = fs::read_to_string(&source).unwrap_or_default();
    let types = between(&text, "/// The absorption a candidate has.", "/// One point of the structural space.");
    let function =
        between(&text, "/// The structural features a resolved MFL space names", "/// Pharmpy's `least_number_of_transformations`");
    fs::write(out.join("caller.rs"), format!("{types}\n{function}")).expect("OUT_DIR can be written");
}

/// A module for each ceiling, with a copy of mfl.rs and with resolve.rs, and a function that gives what `each_source!` makes of each.
fn copies(out: &Path, text: &str, ceilings: &[u32]) -> String {
    let resolve = out.join("resolve.rs");
    let mut copies = String::new();
    for ceiling in ceilings {
        let module = out.join(format!("mfl_{ceiling}.rs"));
        fs::write(&module, text.replace(LIMIT, &LIMIT.replace("64", &ceiling.to_string()))).expect("OUT_DIR can be written");
        copies += &format!("#[allow(dead_code)]\npub mod under_{ceiling} {{\n#[path = {module:?}]\npub mod mfl;\n");
        copies += &format!("#[path = {resolve:?}]\npub mod resolve;\n}}\n");
    }
    let sources: Vec<String> = ceilings.iter().map(|ceiling| format!("each_source!(under_{ceiling})")).collect();
    copies + &format!("fn sources() -> [EachSource; {}] {{\n[{}]\n}}\n", ceilings.len(), sources.join(", "))
}

/// The lines of a text from one that starts so to the one before another.
fn between(text: &str, first: &str, behind: &str) -> String {
    let lines = text.lines().skip_while(|line| !line.starts_with(first)).take_while(|line| !line.starts_with(behind));
    lines.map(|line| line.to_string() + "\n").collect()
}
