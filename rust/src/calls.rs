//! The library's calls on slices, each under [`MAX_COUNT`] and under any ceiling. All of the crate's `unsafe` is here.

use crate::refusal::{answered, refused, Refusal};
use crate::MAX_COUNT;

mod library {
    extern "C" {
        pub fn mfl_scan(text: *const u8, length: usize) -> usize;
        pub fn mfl_count(text: *const u8, length: usize, ceiling: u32) -> u64;
        pub fn mfl_print(text: *const u8, length: usize, out: *mut u8, room: usize, ceiling: u32) -> u64;
        pub fn mfl_statement(text: *const u8, length: usize, index: u32, out: *mut u32, room: usize, ceiling: u32) -> u64;
        pub fn mfl_statements(text: *const u8, length: usize, out: *mut u32, room: usize, ceiling: u32) -> u64;
        pub fn mfl_profile(text: *const u8, length: usize, ceiling: u32) -> u64;
        pub fn mfl_resolve(
            text: *const u8,
            length: usize,
            block: *const u8,
            block_length: usize,
            lists: *const u32,
            lists_length: usize,
            ground: *mut u8,
            ground_room: usize,
            effects: *mut super::Effect,
            effects_room: usize,
            notes: *mut super::NoteNumbers,
            notes_room: usize,
            work: *mut u32,
            work_room: usize,
            ceiling: u32,
        ) -> u64;
    }
}

/// [`statement_into`] never writes more numbers (proved). COVARIATE with two lists of 64 names and all seven effects has as many.
pub const STATEMENT_ROOM: usize = 272;

/// The offset of the first byte that starts no token, or the text's length where there is none. Of a text of any length.
pub fn scan(text: &[u8]) -> usize {
    // SAFETY: the pointer and the length are one slice's.
    unsafe { library::mfl_scan(text.as_ptr(), text.len()) }
}

/// Count: the number of statements of a text.
pub fn count(text: &[u8]) -> Result<usize, Refusal> {
    count_under(text, MAX_COUNT)
}

/// [`count`] with a ceiling for counts, from 0 to [`MAX_CEILING`](crate::MAX_CEILING).
pub fn count_under(text: &[u8], ceiling: u32) -> Result<usize, Refusal> {
    // SAFETY: as above.
    answered(unsafe { library::mfl_count(text.as_ptr(), text.len(), ceiling) })
}

/// Print: writes the canonical text's bytes and gives their number. `out` past them is as it was, and all of it on a refusal, which is
/// [`OutputTooShort`](crate::Fault::OutputTooShort) where they do not fit. A text's own length is always enough.
pub fn print_into(text: &[u8], out: &mut [u8]) -> Result<usize, Refusal> {
    print_into_under(text, out, MAX_COUNT)
}

/// [`print_into`] with a ceiling for counts.
pub fn print_into_under(text: &[u8], out: &mut [u8], ceiling: u32) -> Result<usize, Refusal> {
    // SAFETY: as above for both slices, which a shared and an exclusive borrow keep apart.
    answered(unsafe { library::mfl_print(text.as_ptr(), text.len(), out.as_mut_ptr(), out.len(), ceiling) })
}

/// Statement: writes the statement at an index as numbers, which `include/dumachik.h` describes, and gives how many. `out` past them is as it
/// was, and all of it on a refusal. [`STATEMENT_ROOM`] is always enough. [`Mfl::statement`](crate::Mfl::statement) gives the same as a tree.
pub fn statement_into(text: &[u8], index: u32, out: &mut [u32]) -> Result<usize, Refusal> {
    statement_into_under(text, index, out, MAX_COUNT)
}

/// [`statement_into`] with a ceiling for counts.
pub fn statement_into_under(text: &[u8], index: u32, out: &mut [u32], ceiling: u32) -> Result<usize, Refusal> {
    // SAFETY: as above.
    answered(unsafe { library::mfl_statement(text.as_ptr(), text.len(), index, out.as_mut_ptr(), out.len(), ceiling) })
}

/// Statement at every index: writes the numbers of all statements, one statement after the other, each behind how many they are, and gives how
/// many all are. `out` past them is as it was, and all of it on a refusal. Two for each byte of the text are always enough.
/// [`Mfl::statements`](crate::Mfl::statements) gives the same as trees.
pub fn statements_into(text: &[u8], out: &mut [u32]) -> Result<usize, Refusal> {
    statements_into_under(text, out, MAX_COUNT)
}

/// [`statements_into`] with a ceiling for counts.
pub fn statements_into_under(text: &[u8], out: &mut [u32], ceiling: u32) -> Result<usize, Refusal> {
    // SAFETY: as above.
    answered(unsafe { library::mfl_statements(text.as_ptr(), text.len(), out.as_mut_ptr(), out.len(), ceiling) })
}

/// Profile: whether a text is of the PK-only profile, which has no DIRECTEFFECT, EFFECTCOMP, INDIRECTEFFECT or METABOLITE, at most one statement
/// each of ABSORPTION, ELIMINATION, PERIPHERALS, TRANSITS and LAGTIME, and no count above [`MAX_PROFILE_COUNT`](crate::MAX_PROFILE_COUNT). What
/// is not read is refused as by [`count`]; then the first statement that is against the profile, by [`Fault::OutsideProfile`],
/// [`Fault::SecondStatement`] or [`Fault::CountAboveTen`], with its index.
///
/// [`Fault::OutsideProfile`]: crate::Fault::OutsideProfile
/// [`Fault::SecondStatement`]: crate::Fault::SecondStatement
/// [`Fault::CountAboveTen`]: crate::Fault::CountAboveTen
pub fn profile(text: &[u8]) -> Result<(), Refusal> {
    profile_under(text, MAX_COUNT)
}

/// [`profile`] with a ceiling for counts. A ground text of a text of the profile is of the profile under the same ceiling.
pub fn profile_under(text: &[u8], ceiling: u32) -> Result<(), Refusal> {
    // SAFETY: as above.
    answered(unsafe { library::mfl_profile(text.as_ptr(), text.len(), ceiling) }).map(|_| ())
}

/// How many elements Resolve's working buffer has to have.
pub const WORKING: usize = 2048;
/// The most effects that Resolve gives.
pub const MAX_EFFECTS: usize = 2048;
/// The most notes that Resolve gives.
pub const MAX_NOTES: usize = 257;

/// A covariate effect: the indexes of its parameter and its covariate, each that of its name's first entry in the context's list, its form by
/// its place in [`CovariateEffect`](crate::CovariateEffect), its operator (0 `*`, 1 `+`), and whether it is optional (0 or 1).
#[repr(C)]
#[derive(Debug, Clone, Copy, PartialEq, Eq, Hash, Default)]
pub struct Effect {
    pub parameter: u8,
    pub covariate: u8,
    pub form: u8,
    pub operator: u8,
    pub optional: u8,
}

/// A note: its reason (0 dropped, 1 some effect is additive) and the index of its statement.
#[repr(C)]
#[derive(Debug, Clone, Copy, PartialEq, Eq, Hash, Default)]
pub struct NoteNumbers {
    pub reason: u8,
    pub index: u8,
}

/// What is lent to Resolve: its three outputs and what it works with. Full size always suffices.
#[derive(Debug, Clone)]
pub struct Buffers {
    pub ground: Vec<u8>,
    pub effects: Vec<Effect>,
    pub notes: Vec<NoteNumbers>,
    pub work: Vec<u32>,
}

impl Default for Buffers {
    /// Of full size.
    fn default() -> Self {
        Buffers {
            ground: vec![0; crate::MAX_TEXT],
            effects: vec![Effect::default(); MAX_EFFECTS],
            notes: vec![NoteNumbers::default(); MAX_NOTES],
            work: vec![0; WORKING],
        }
    }
}

/// How many bytes the ground text has, and how many effects and notes there are.
#[derive(Debug, Clone, Copy, PartialEq, Eq, Hash)]
pub struct Lengths {
    pub ground: usize,
    pub effects: usize,
    pub notes: usize,
}

/// Resolve: writes the ground text, the effects and the notes of a text in a context, which `include/dumachik.h` describes, and gives how many.
/// Outputs past them are as they were, and all of them on a refusal; the working buffer is zero afterwards, unless it is shorter than
/// [`WORKING`]. [`resolve`](crate::resolve()) gives the same with names.
pub fn resolve_into(text: &[u8], block: &[u8], lists: &[u32], buffers: &mut Buffers) -> Result<Lengths, Refusal> {
    resolve_into_under(text, block, lists, buffers, MAX_COUNT)
}

/// [`resolve_into`] with a ceiling for counts, under which the ground text is to be read again.
pub fn resolve_into_under(text: &[u8], block: &[u8], lists: &[u32], buffers: &mut Buffers, ceiling: u32) -> Result<Lengths, Refusal> {
    let Buffers { ground, effects, notes, work } = buffers;
    // SAFETY: each pointer and the length after it are one slice's, and the borrows keep the slices apart. `Effect` and `NoteNumbers` are
    // laid out as the header's five and two bytes.
    let answer = unsafe {
        library::mfl_resolve(
            text.as_ptr(),
            text.len(),
            block.as_ptr(),
            block.len(),
            lists.as_ptr(),
            lists.len(),
            ground.as_mut_ptr(),
            ground.len(),
            effects.as_mut_ptr(),
            effects.len(),
            notes.as_mut_ptr(),
            notes.len(),
            work.as_mut_ptr(),
            work.len(),
            ceiling,
        )
    };
    match refused(answer) {
        Some(refusal) => Err(refusal),
        None => {
            Ok(Lengths { ground: (answer & 0xffff) as usize, effects: (answer >> 16 & 0xffff) as usize, notes: (answer >> 40) as usize })
        }
    }
}
