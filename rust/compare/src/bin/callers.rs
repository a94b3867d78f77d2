//! A caller of the source, `space_features` of structure.rs, compiled from its unchanged text over mfl.rs and over the crate `dumachik`: only
//! the `use` line differs. What the two give is compared on generated texts.
//!
//! usage: callers [TEXTS [SEED]]      Its last line is `N agree`; the status is 1 where one does not, and 3 where the source is not there.

#[cfg(without_source)]
fn main() {
    compare::without_source()
}

#[cfg(not(without_source))]
use compare::texts::{Kind, Texts};

#[cfg(not(without_source))]
macro_rules! caller {
    ($name:ident, $mfl:path) => {
        #[allow(dead_code)]
        mod $name {
            use std::fmt;

            use mfl::{AbsorptionMode, DepotMode, EliminationMode, Feature, LagtimeMode, Mfl, Mode as _, TransitCounts};
            use $mfl as mfl;

            include!(concat!(env!("OUT_DIR"), "/caller.rs"));

            /// What it gives of a text, in words.
            pub fn features(text: &str) -> Result<Vec<String>, String> {
                let space = Mfl::parse(text).map_err(|_| "refused".to_string())?;
                Ok(space_features(&space)?.iter().map(|key| key.to_string()).collect())
            }
        }
    };
}

#[cfg(not(without_source))]
caller!(with_source, compare::mfl);
#[cfg(not(without_source))]
caller!(with_crate, dumachik);

#[cfg(not(without_source))]
fn main() {
    let number = |at: usize, or: u64| std::env::args().nth(at).and_then(|word| word.parse().ok()).unwrap_or(or);
    let mut texts = Texts::new(number(2, 1));
    let (mut agree, mut given) = (0, 0);
    while agree < number(1, 20000) {
        let (Kind::Good, text) = texts.text() else { continue };
        let text = String::from_utf8(text).expect("a good text is ASCII");
        let (theirs, ours) = (with_source::features(&text), with_crate::features(&text));
        if theirs != ours {
            println!("{text:?}\n  the source: {theirs:?}\n  the crate: {ours:?}");
            std::process::exit(1);
        }
        given += usize::from(ours.is_ok());
        agree += 1;
    }
    println!("{given} of them have structural features alone");
    println!("{agree} agree");
}
