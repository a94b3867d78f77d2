//! MFL, Pharmpy's Model Feature Language, read, printed and resolved by Dumachik's proved calls.
//!
//! [`Mfl`] is a space that was accepted; its statements are a tree with the names of ferx-core's mfl.rs. [`resolve()`] gives it in a
//! [`ModelContext`], with the names of resolve.rs. What is refused is refused by a number and a place, [`Refusal`]. The calls themselves are
//! there on slices: [`scan`], [`count`], [`print_into`], [`statement_into`], [`statements_into`], [`profile`], [`resolve_into`]; they allocate
//! nothing.
//!
//! ```
//! use dumachik::{Counts, Fault, Feature, Mfl, Statement};
//!
//! let space = Mfl::parse(" peripherals( 007 ) # x; LAGTIME(ON)\n let(sizes, [WT, BMI])")?;
//! assert_eq!(space.render(), "PERIPHERALS(7);LET(sizes,[WT,BMI])");
//! assert_eq!(space.len(), 2);
//! assert_eq!(
//!     space.statement(0),
//!     Some(&Statement::Feature(Feature::Peripherals { counts: Counts::Single(7), kind: None }))
//! );
//!
//! let refusal = Mfl::parse("LAGTIME(ON)\nPERIPHERALS(65)").unwrap_err();
//! assert_eq!((refusal.fault, refusal.number(), refusal.place), (Fault::NotACount, 4, 24));
//! assert_eq!(refusal.line_and_column("LAGTIME(ON)\nPERIPHERALS(65)"), (2, 13));
//! assert_eq!(refusal.to_string(), "MFL: 4 at 24: count not a whole 32-bit number, or above the ceiling");
//! # Ok::<(), dumachik::Refusal>(())
//! ```
//!
//! A count is at most 64, as in the source, unless a study has a ceiling of its own, from 0 to 256: whatever reads a text has a second form
//! with `_under`, which takes it. A space keeps the ceiling that it was read under, and [`resolve()`] gives its ground space under the same.
//!
//! ```
//! use dumachik::{Fault, Mfl};
//!
//! let space = Mfl::parse_under("PERIPHERALS(0..3)", 3)?;
//! assert_eq!((space.as_str(), space.ceiling()), ("PERIPHERALS(0..3)", 3));
//! let refusal = Mfl::parse_under("PERIPHERALS(12)", 3).unwrap_err();
//! assert_eq!((refusal.fault, refusal.place), (Fault::NotACount, 12));
//! let refusal = Mfl::parse_under("PERIPHERALS(12)", 257).unwrap_err();
//! assert_eq!((refusal.fault, refusal.number(), refusal.place), (Fault::CeilingTooHigh, 21, 0));
//! # Ok::<(), dumachik::Refusal>(())
//! ```
//!
//! [`Mfl::profile`] says whether a space is of the PK-only profile, or which statement is against it; [`profile`] says so of a text.
//!
//! ```
//! use dumachik::{profile, Fault, Mfl};
//!
//! assert_eq!(profile(b"ABSORPTION([FO,ZO]);PERIPHERALS(0..2);TRANSITS(N)"), Ok(()));
//! let refusal = profile(b"LET(SIZE,WT);PERIPHERALS(1);METABOLITE(PSC)").unwrap_err();
//! assert_eq!((refusal.fault, refusal.number(), refusal.statement()), (Fault::OutsideProfile, 22, Some(2)));
//! assert_eq!(refusal.to_string(), "MFL: 22 at statement 2: feature outside the PK-only profile");
//! assert_eq!(profile(b"LAGTIME(ON);LAGTIME(OFF)").unwrap_err().fault, Fault::SecondStatement);
//! assert_eq!(Mfl::parse("TRANSITS(0..11)")?.profile().unwrap_err().fault, Fault::CountAboveTen);
//! # Ok::<(), dumachik::Refusal>(())
//! ```
#![deny(unsafe_op_in_unsafe_fn, missing_debug_implementations)]

mod calls;
mod context;
mod display;
mod numbers;
mod refusal;
mod resolved;
mod tree;

use std::fmt;
use std::hash::{Hash, Hasher};
use std::sync::OnceLock;

pub use calls::{
    count, count_under, print_into, print_into_under, profile, profile_under, resolve_into, resolve_into_under, scan, statement_into,
    statement_into_under, statements_into, statements_into_under, Buffers, Effect, Lengths, NoteNumbers, MAX_EFFECTS, MAX_NOTES,
    STATEMENT_ROOM, WORKING,
};
pub use context::{CovariateKind, Handed, ModelContext, PkTemplate};
pub use refusal::{Fault, Refusal};
pub use resolved::{resolve, CovariateEffectSpec, Note, Resolved, Unresolved};
pub use tree::{
    AbsorptionMode, Counts, CovariateEffect, CovariateOp, DepotMode, EliminationMode, Feature, Item, LagtimeMode, MetaboliteMode, Mode,
    Modes, Operand, PdMode, PeripheralKind, ProductionMode, Statement, TransitCounts, VariabilityEffect, VariabilityLevel,
};

/// The most bytes of a text.
pub const MAX_TEXT: usize = 16384;
/// The most statements of a text.
pub const MAX_STATEMENTS: usize = 256;
/// The most entries of an array.
pub const MAX_ENTRIES: usize = 64;
/// The largest count where no ceiling is given, which is the source's.
pub const MAX_COUNT: u32 = 64;
/// The highest ceiling for counts.
pub const MAX_CEILING: u32 = 256;
/// The largest count of the PK-only profile.
pub const MAX_PROFILE_COUNT: u32 = 10;

/// Statement: the statement of a text at an index, from zero. Each call reads the whole text; [`Mfl::statements`] is for all of them.
pub fn statement(text: &[u8], index: u32) -> Result<Statement, Refusal> {
    statement_under(text, index, MAX_COUNT)
}

/// [`statement`] with a ceiling for counts.
pub fn statement_under(text: &[u8], index: u32, ceiling: u32) -> Result<Statement, Refusal> {
    let mut numbers = [0; STATEMENT_ROOM];
    let written = statement_into_under(text, index, &mut numbers, ceiling)?;
    Ok(numbers::statement_of(&numbers[..written], text))
}

/// All statements of a text, in their order.
pub fn statements(text: &[u8]) -> Result<Vec<Statement>, Refusal> {
    statements_under(text, MAX_COUNT)
}

/// [`statements`] with a ceiling for counts.
pub fn statements_under(text: &[u8], ceiling: u32) -> Result<Vec<Statement>, Refusal> {
    let mut numbers = vec![0; 2 * text.len().min(MAX_TEXT)];
    let written = statements_into_under(text, &mut numbers, ceiling)?;
    Ok(numbers::statements_of(&numbers[..written], text))
}

/// An accepted space: its statements, the text they were read from, and the ceiling they were read under. Two spaces are equal exactly where
/// their statements are.
#[derive(Debug, Clone)]
pub struct Mfl {
    text: Vec<u8>,
    ceiling: u32,
    statements: Vec<Statement>,
    canonical: OnceLock<String>,
}

impl Default for Mfl {
    /// No statements, under [`MAX_COUNT`].
    fn default() -> Self {
        Mfl { text: Vec::new(), ceiling: MAX_COUNT, statements: Vec::new(), canonical: OnceLock::new() }
    }
}

impl Mfl {
    /// Reads a text, of any bytes.
    pub fn parse(text: impl AsRef<[u8]>) -> Result<Mfl, Refusal> {
        Mfl::parse_under(text, MAX_COUNT)
    }

    /// Reads a text with a ceiling for counts, from 0 to [`MAX_CEILING`].
    pub fn parse_under(text: impl AsRef<[u8]>, ceiling: u32) -> Result<Mfl, Refusal> {
        let text = text.as_ref();
        let statements = statements_under(text, ceiling)?;
        Ok(Mfl { text: text.to_vec(), ceiling, statements, canonical: OnceLock::new() })
    }

    /// The space of these statements: they are printed and read back. What is not accepted is refused as a text is; and a name that does not
    /// read back as itself, such as `CL)` or `#`, by [`Fault::UnexpectedToken`] at 0.
    pub fn from_statements(statements: Vec<Statement>) -> Result<Mfl, Refusal> {
        Mfl::from_statements_under(statements, MAX_COUNT)
    }

    /// [`Mfl::from_statements`] with a ceiling for counts.
    pub fn from_statements_under(statements: Vec<Statement>, ceiling: u32) -> Result<Mfl, Refusal> {
        let lines: Vec<String> = statements.iter().map(Statement::to_string).collect();
        let space = Mfl::parse_under(lines.join(";"), ceiling)?;
        if space.statements != statements {
            return Err(Refusal { fault: Fault::UnexpectedToken, place: 0 });
        }
        Ok(space)
    }

    /// The canonical text.
    pub fn render(&self) -> String {
        self.as_str().to_string()
    }

    /// The canonical text, lent. It is printed once.
    pub fn as_str(&self) -> &str {
        self.canonical.get_or_init(|| {
            // A canonical text is never longer than its text.
            let mut out = vec![0; self.text.len()];
            let length = print_into_under(&self.text, &mut out, self.ceiling).expect("the text was accepted");
            out.truncate(length);
            String::from_utf8(out).expect("a canonical text is ASCII")
        })
    }

    /// The text that was read.
    pub fn as_bytes(&self) -> &[u8] {
        &self.text
    }

    /// The ceiling that the text was read under.
    pub fn ceiling(&self) -> u32 {
        self.ceiling
    }

    /// Whether it is of the PK-only profile ([`profile`]), under its ceiling.
    pub fn profile(&self) -> Result<(), Refusal> {
        profile_under(&self.text, self.ceiling)
    }

    /// The number of statements.
    pub fn len(&self) -> usize {
        self.statements.len()
    }

    pub fn is_empty(&self) -> bool {
        self.statements.is_empty()
    }

    /// The statement at an index, from zero.
    pub fn statement(&self, index: usize) -> Option<&Statement> {
        self.statements.get(index)
    }

    /// The statements in their order.
    pub fn statements(&self) -> &[Statement] {
        &self.statements
    }

    /// The features in their order, each LET skipped.
    pub fn features(&self) -> impl Iterator<Item = &Feature> {
        self.statements.iter().filter_map(|statement| match statement {
            Statement::Feature(feature) => Some(feature),
            Statement::Let { .. } => None,
        })
    }
}

impl PartialEq for Mfl {
    fn eq(&self, other: &Mfl) -> bool {
        self.statements == other.statements
    }
}

impl Eq for Mfl {}

impl Hash for Mfl {
    fn hash<H: Hasher>(&self, state: &mut H) {
        self.statements.hash(state);
    }
}

impl fmt::Display for Mfl {
    fn fmt(&self, f: &mut fmt::Formatter<'_>) -> fmt::Result {
        f.write_str(self.as_str())
    }
}

impl std::str::FromStr for Mfl {
    type Err = Refusal;

    fn from_str(text: &str) -> Result<Mfl, Refusal> {
        Mfl::parse(text)
    }
}

/// The README's example is run with the tests.
#[cfg(doctest)]
#[doc = include_str!("../README.md")]
struct Readme;
