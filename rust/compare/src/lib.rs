//! What the comparisons and the benchmark share: the source's own mfl.rs and resolve.rs, and texts.

#[cfg(not(without_source))]
include!(concat!(env!("OUT_DIR"), "/source.rs"));

/// The text of mfl.rs.
#[cfg(not(without_source))]
pub const MFL_RS: &str = include_str!(concat!(env!("OUT_DIR"), "/mfl.rs"));

pub mod held;
pub mod random;
pub mod texts;

/// Says that the source is missing; the status is 3.
pub fn without_source() -> ! {
    eprintln!("not found: the source's modules in {} (set DUMACHIK_SHARED to the folder that holds them)", env!("SOURCE"));
    std::process::exit(3);
}
