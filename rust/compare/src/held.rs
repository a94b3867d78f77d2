//! Holds the calls on one text to a source: accepted or refused by the same number, the count, the canonical bytes, statements by value, and
//! every byte of the outputs.
//!
//! Texts met by 1 or 11 are not compared, since the source has no such limits, but held to their limit. A text that is not UTF-8 is given to
//! the source with a character for each byte: to it all characters past 127 are one.

use dumachik::{count_under, print_into_under, scan, statement_into_under, statement_under, statements_into_under};
use dumachik::{CovariateKind, Item, ModelContext, PkTemplate, Refusal, Statement, MAX_ENTRIES, MAX_STATEMENTS, MAX_TEXT, STATEMENT_ROOM};

/// What stands in outputs before a call.
pub const BYTE: u8 = 0xa5;
pub const NUMBER: u32 = 0xa5a5_a5a5;

/// How many shorter texts are tried of one that differs.
const TRIALS: usize = 5000;

/// What a text becomes with a source: its statements, as `Debug` shows them, and its canonical text.
#[derive(Debug)]
pub struct Read {
    pub statements: Vec<String>,
    pub canonical: String,
}

/// What a text becomes in a model: its ground text, its effects, as `Debug` shows them, and how many notes.
#[derive(Debug, PartialEq, Eq)]
pub struct Ground {
    pub text: String,
    pub effects: Vec<String>,
    pub notes: usize,
}

/// The source with its limit for counts, which may be another than its own (build.rs).
pub struct Source {
    pub ceiling: u32,
    pub read: fn(&str) -> Result<Read, String>,
    pub ground: fn(&str, &ModelContext) -> Result<Ground, String>,
}

/// The `Source` of a module that has mfl.rs and resolve.rs.
#[macro_export]
macro_rules! source {
    ($module:ident) => {
        $crate::held::Source {
            ceiling: $module::mfl::MAX_COUNT,
            read: |text| {
                let space = $module::mfl::Mfl::parse(text)?;
                let statements = space.statements.iter().map(|statement| format!("{statement:?}")).collect();
                Ok($crate::held::Read { statements, canonical: space.render() })
            },
            ground: |text, model| {
                let kind = |kind| match kind {
                    dumachik::CovariateKind::Continuous => ferx_core::CovariateKind::Continuous,
                    dumachik::CovariateKind::Categorical => ferx_core::CovariateKind::Categorical,
                };
                let declared = |covariates: &Vec<(String, _)>| covariates.iter().map(|(name, of)| (name.clone(), kind(*of))).collect();
                let context = $module::resolve::ModelContext {
                    parameters: model.parameters.clone(),
                    iiv: model.iiv.clone(),
                    template: model.template.clone().map(|line| $module::resolve::PkTemplate {
                        keyword: line.keyword,
                        name: line.name,
                        bindings: line.bindings,
                    }),
                    covariates: model.covariates.as_ref().map(declared),
                    data_covariates: model.data_covariates.clone(),
                };
                let resolved = $module::resolve::resolve(&$module::mfl::Mfl::parse(text)?, &context)?;
                let effects = resolved.covariate_effects.iter().map(|effect| format!("{effect:?}")).collect();
                Ok($crate::held::Ground { text: resolved.mfl.render(), effects, notes: resolved.notes.len() })
            },
        }
    };
}

/// Document 01's K; the same without a template; and with columns for declared covariates.
pub fn models() -> [ModelContext; 3] {
    let names = |words: &str| words.split(' ').map(str::to_string).collect::<Vec<_>>();
    let k = ModelContext {
        parameters: names("CL V KA"),
        iiv: names("CL V"),
        template: Some(PkTemplate {
            keyword: "pk".into(),
            name: "one_cpt_oral".into(),
            bindings: ["CL", "V", "KA"].map(|name| (name.to_lowercase(), name.to_string())).to_vec(),
        }),
        covariates: Some(vec![("WT".into(), CovariateKind::Continuous), ("SEX".into(), CovariateKind::Categorical)]),
        data_covariates: names("WT SEX"),
    };
    [k.clone(), ModelContext { template: None, ..k.clone() }, ModelContext { covariates: None, ..k }]
}

/// What became of a text on which all agree.
pub enum Outcome {
    Accepted {
        statements: usize,
    },
    Refused(u32),
    /// By 1 or 11, with its number.
    AtALimit(u32),
}

/// A text that differs, with parts taken out as long as it still does, and how it differs.
pub fn smallest(mut text: Vec<u8>, differs: impl Fn(&[u8]) -> Option<String>) -> (Vec<u8>, String) {
    let (mut part, mut trials) = (text.len(), 0);
    while part > 0 {
        let mut at = 0;
        while at < text.len() && trials < TRIALS {
            let mut shorter = text.clone();
            shorter.drain(at..(at + part).min(text.len()));
            trials += 1;
            if differs(&shorter).is_some() {
                text = shorter;
            } else {
                at += part;
            }
        }
        part /= 2;
    }
    let why = differs(&text).expect("it still differs");
    (text, why)
}

pub fn ensure(holds: bool, why: impl FnOnce() -> String) -> Result<(), String> {
    if holds {
        Ok(())
    } else {
        Err(why())
    }
}

/// Holds every call on one text, under a ceiling, to a source; an error says how they differ.
pub fn held(text: &[u8], source: &Source, ceiling: u32) -> Result<Outcome, String> {
    let theirs_of = |text: &[u8]| (source.read)(&characters(text));
    let (ours, theirs) = (count_under(text, ceiling), theirs_of(text));
    let stray = theirs.as_ref().err().and_then(|message| stray_of(message, text));
    let scanned = scan(text);
    ensure(scanned == stray.unwrap_or(text.len()), || format!("scan {scanned}, the source {stray:?}"))?;

    let long = text.len() > MAX_TEXT;
    let refusal = match ours {
        Ok(number) => {
            let theirs = theirs.map_err(|message| format!("accepted; the source: {message}"))?;
            ensure(!long && number <= MAX_STATEMENTS && !has_long_array(text), || "accepted over a limit".into())?;
            ensure(number == theirs.statements.len(), || format!("{number} statements, the source {}", theirs.statements.len()))?;
            printed(text, &theirs.canonical, ceiling)?;
            let statements = stated(text, &theirs.statements, ceiling)?;
            return Ok(Outcome::Accepted { statements });
        }
        Err(refusal) => refusal,
    };
    refused_by_all(text, refusal, ceiling)?;
    let (number, place) = (refusal.number(), refusal.place);
    ensure((number == 1) == long, || format!("{} bytes: {refusal}", text.len()))?;
    match (number, theirs) {
        (1, _) => ensure(place == 0, || refusal.to_string())?,
        (11, theirs) => {
            ensure(stray.is_none(), || format!("{refusal}; the source: {theirs:?}"))?;
            let reached = match theirs_of(&text[..place]) {
                Ok(before) => before.statements.len() == MAX_STATEMENTS && !b" \t\r\n;#".contains(&text[place]),
                Err(message) => {
                    let entry = text[place].is_ascii_alphanumeric() || text[place] == b'_';
                    entry && message.contains("unclosed `[`") && entries_at_end(&text[..place]) == MAX_ENTRIES + 1
                }
            };
            ensure(reached, || format!("no limit: {refusal}"))?;
        }
        (_, Ok(_)) => return Err(format!("{refusal}; the source accepts it")),
        (_, Err(message)) => {
            ensure(number == number_of(&message), || format!("{refusal}; the source: {message}"))?;
            match stray {
                Some(stray) => ensure(place == stray, || format!("{refusal}; the source: {message}"))?,
                None => ensure(!limit_before(text, refusal), || format!("over a limit: {refusal}"))?,
            }
        }
    }
    Ok(if number == 1 || number == 11 { Outcome::AtALimit(number) } else { Outcome::Refused(number) })
}

/// A text as the source takes it.
pub fn characters(text: &[u8]) -> String {
    match std::str::from_utf8(text) {
        Ok(text) => text.to_string(),
        Err(_) => text.iter().map(|&byte| byte as char).collect(),
    }
}

/// The offset in bytes of the character that the source refuses; it counts characters.
fn stray_of(message: &str, text: &[u8]) -> Option<usize> {
    let (_, rest) = message.split_once("unexpected character `")?;
    let (_, rest) = rest.split_once("at offset ")?;
    let characters: usize = rest.split(':').next()?.parse().ok()?;
    Some(match std::str::from_utf8(text) {
        Ok(text) => text.char_indices().nth(characters)?.0,
        Err(_) => characters,
    })
}

/// Document 01's number for one of the source's refusals.
pub fn number_of(message: &str) -> u32 {
    const UNEXPECTED: [&str; 10] = [
        "expected a feature keyword, found",
        "expected `(`",
        "expected `)`",
        "expected `,`",
        "expected `;`",
        "unexpected ",
        "unclosed",
        "expected a symbol name",
        "expected a number after",
        "expected a name or number",
    ];
    let has = |part: &str| message.contains(part);
    match () {
        _ if has("unexpected character") => 2,
        _ if has("is not a non-negative integer") || has("above the largest") => 4,
        _ if has("runs backwards") => 5,
        _ if has("is not a feature keyword") => 6,
        _ if has("is not valid — only") => 7,
        _ if has(" takes ") && has("; found ") && has(" argument") => 8,
        _ if has("is not a known") => 10,
        _ if UNEXPECTED.iter().any(|part| has(part)) => 3,
        _ => 9,
    }
}

/// A text without its comments.
fn bare(text: &[u8]) -> Vec<u8> {
    let lines = text.split(|&byte| byte == b'\n').map(|line| line.split(|&byte| byte == b'#').next().unwrap_or(&[]));
    lines.collect::<Vec<_>>().join(&b'\n')
}

/// Whether a text has an array with a 65th word or number.
fn has_long_array(text: &[u8]) -> bool {
    let arrays = bare(text);
    let mut insides = arrays.split(|&byte| byte == b'[').skip(1).map(|array| array.split(|&byte| byte == b']').next().unwrap_or(array));
    insides.any(|inside| {
        let further =
            inside.split(|&byte| byte == b',').nth(MAX_ENTRIES).and_then(|entry| entry.iter().find(|byte| !b" \t\r".contains(byte)));
        further.is_some_and(|&byte| byte.is_ascii_alphanumeric() || byte == b'_')
    })
}

/// The number of the entry that would come next in the array at a text's end.
fn entries_at_end(text: &[u8]) -> usize {
    bare(text).iter().rev().take_while(|&&byte| byte != b'[').filter(|&&byte| byte == b',').count() + 1
}

/// Whether 11 should have come before a refusal: statements over their limit before it, or entries in what is read before it or with it. From
/// 6 on that is the whole statement, to its `)`.
fn limit_before(text: &[u8], refusal: Refusal) -> bool {
    let place = refusal.place;
    let closed = bare(&text[..place]).iter().filter(|&&byte| byte == b')').count();
    let whole = text[place..].iter().position(|&byte| byte == b')').map_or(text.len(), |length| place + length);
    let read = if refusal.number() >= 6 { &text[..whole] } else { &text[..text.len().min(place + 1)] };
    closed >= MAX_STATEMENTS || has_long_array(read)
}

/// Every call refuses so, whatever its output, and leaves it as it was.
pub fn refused_by_all(text: &[u8], refusal: Refusal, ceiling: u32) -> Result<(), String> {
    let answer = count_under(text, ceiling);
    ensure(answer == Err(refusal), || format!("Count: {answer:?}, not {refusal}"))?;
    let mut out = vec![BYTE; text.len() + 3];
    for room in [0, text.len(), text.len() + 3] {
        let answer = print_into_under(text, &mut out[..room], ceiling);
        ensure(answer == Err(refusal), || format!("Print with room {room}: {answer:?}, not {refusal}"))?;
        ensure(out.iter().all(|&byte| byte == BYTE), || format!("Print with room {room} writes, and refuses"))?;
    }
    let mut out = [NUMBER; STATEMENT_ROOM];
    for index in [0, u32::MAX] {
        let answer = statement_into_under(text, index, &mut out, ceiling);
        ensure(answer == Err(refusal), || format!("Statement {index}: {answer:?}, not {refusal}"))?;
        ensure(out.iter().all(|&number| number == NUMBER), || format!("Statement {index} writes, and refuses"))?;
    }
    let answer = statements_into_under(text, &mut out, ceiling);
    ensure(answer == Err(refusal), || format!("all statements: {answer:?}, not {refusal}"))?;
    ensure(out.iter().all(|&number| number == NUMBER), || "all statements: it writes, and refuses".into())?;
    Ok(())
}

/// Print with outputs one short, exact, as long as the text and longer; and the canonical text printed again.
fn printed(text: &[u8], wanted: &str, ceiling: u32) -> Result<(), String> {
    let length = wanted.len();
    let mut out = vec![BYTE; text.len() + 9];
    ensure(length <= text.len(), || format!("longer than its text: {wanted:?}"))?;
    if length > 0 {
        let answer = print_into_under(text, &mut out[..length - 1], ceiling);
        let short = matches!(answer, Err(refusal) if (refusal.number(), refusal.place) == (19, 0));
        ensure(short, || format!("Print one byte short: {answer:?}"))?;
        ensure(out.iter().all(|&byte| byte == BYTE), || "Print one byte short writes".into())?;
    }
    for room in [length, text.len(), text.len() + 9] {
        out.fill(BYTE);
        let answer = print_into_under(text, &mut out[..room], ceiling);
        ensure(answer == Ok(length), || format!("Print with room {room}: {answer:?}, not {length}"))?;
        let (canonical, rest) = out.split_at(length);
        let shown = String::from_utf8_lossy(canonical);
        ensure(canonical == wanted.as_bytes(), || format!("printed {shown:?}, the source {wanted:?}"))?;
        ensure(rest.iter().all(|&byte| byte == BYTE), || format!("Print with room {room} writes past its answer"))?;
    }
    out.fill(BYTE);
    let again = print_into_under(wanted.as_bytes(), &mut out, ceiling);
    let (canonical, rest) = out.split_at(length);
    let same = again == Ok(length) && canonical == wanted.as_bytes() && rest.iter().all(|&byte| byte == BYTE);
    ensure(same, || format!("printed again, it is another: {:?}", String::from_utf8_lossy(canonical)))
}

/// Statements by value: all as `Mfl` gives them; by their indexes all of a few, else the first, the last and six between; then the index
/// behind the last. Gives how many.
fn stated(text: &[u8], wanted: &[String], ceiling: u32) -> Result<usize, String> {
    let number = wanted.len();
    let all = dumachik::Mfl::parse_under(text, ceiling).map(|space| space.statements().iter().map(shown).collect::<Vec<_>>());
    let same = all.as_ref().is_ok_and(|all| all == wanted);
    ensure(same, || format!("statements {all:?}, the source {wanted:?}"))?;
    let indexes: Vec<usize> = match number {
        0..=8 => (0..number).collect(),
        _ => [0, number - 1].into_iter().chain((1..=6).map(|k| (k * 41 + text.len()) % number)).collect(),
    };
    for &index in &indexes {
        let (ours, theirs) = (statement_under(text, index as u32, ceiling).map(|found| shown(&found)), &wanted[index]);
        ensure(ours.as_ref() == Ok(theirs), || format!("statement {index}: {ours:?}, the source {theirs}"))?;
        numbered(text, index as u32, ceiling)?;
    }
    for past in [number, number + 1, u32::MAX as usize] {
        let mut out = [NUMBER; STATEMENT_ROOM];
        let answer = statement_into_under(text, past as u32, &mut out, ceiling);
        let none = matches!(answer, Err(refusal) if (refusal.number(), refusal.place) == (20, past));
        ensure(none, || format!("statement {past} of {number}: {answer:?}"))?;
        ensure(out.iter().all(|&number| number == NUMBER), || format!("Statement {past} writes, and refuses"))?;
    }
    Ok(number)
}

/// A statement as the source's is shown. The two trees have the same names, so the same words of `Debug`; but the source keeps a LET's values
/// without their kinds, which `ordered` looks at.
fn shown(statement: &Statement) -> String {
    #[derive(Debug)]
    #[allow(dead_code)]
    struct Let<'a> {
        name: &'a str,
        values: Vec<&'a str>,
    }
    match statement {
        Statement::Let { name, values } => format!("{:?}", Let { name, values: values.iter().map(Item::text).collect() }),
        Statement::Feature(_) => format!("{statement:?}"),
    }
}

/// Statement with outputs one short, exact and long; the pairs of each list in order, apart, and in the text.
fn numbered(text: &[u8], index: u32, ceiling: u32) -> Result<(), String> {
    let mut long = [NUMBER; STATEMENT_ROOM + 5];
    let length = statement_into_under(text, index, &mut long, ceiling).map_err(|refusal| refusal.to_string())?;
    ensure(long[length..].iter().all(|&number| number == NUMBER), || format!("Statement {index} writes past its answer"))?;
    let mut out = [NUMBER; STATEMENT_ROOM];
    let answer = statement_into_under(text, index, &mut out[..length - 1], ceiling);
    let short = matches!(answer, Err(refusal) if (refusal.number(), refusal.place) == (19, 0));
    ensure(short, || format!("Statement {index} one number short: {answer:?}"))?;
    ensure(out.iter().all(|&number| number == NUMBER), || format!("Statement {index} one number short writes"))?;
    let answer = statement_into_under(text, index, &mut out[..length], ceiling);
    ensure(answer == Ok(length) && out[..length] == long[..length], || format!("Statement {index} with exact room: {answer:?}"))?;
    ensure(out[length..].iter().all(|&number| number == NUMBER), || format!("Statement {index} writes past exact room"))?;
    ordered(text, &long[..length]).ok_or_else(|| format!("the pairs of {:?}", &long[..length]))
}

/// Walks a statement's numbers by their kinds. Each pair must be a whole word or number of the text, behind the one before; a value of a LET
/// is a number by its kind exactly where it starts with a digit.
fn ordered(text: &[u8], numbers: &[u32]) -> Option<()> {
    let part = |byte: &u8| byte.is_ascii_alphanumeric() || b"_-.".contains(byte);
    let mut left = numbers.get(2..)?;
    let mut behind = 0;
    while let [kind, rest @ ..] = left {
        let (skipped, pairs) = match kind {
            0 | 5 | 9..=11 => (0, 0),
            1 | 4 => (1 + *rest.first()? as usize, 0),
            2 => (1, 0),
            3 => (2, 0),
            6 | 8 => (0, 1),
            7 | 12 => (1, *rest.first()? as usize),
            _ => return None,
        };
        left = rest.get(skipped..)?;
        for _ in 0..pairs {
            let (said, pair) = left.split_at_checked(usize::from(*kind == 12))?;
            let [offset, length, rest @ ..] = pair else { return None };
            let (offset, end) = (*offset as usize, *offset as usize + *length as usize);
            let name = text.get(offset..end)?;
            let apart = !text[..offset].last().is_some_and(part) && !text[end..].first().is_some_and(part);
            if offset < behind || name.is_empty() || !name.iter().all(part) || !apart {
                return None;
            }
            let digit = u32::from(name[0].is_ascii_digit());
            if said.first().is_some_and(|&said| said != digit) {
                return None;
            }
            behind = end;
            left = rest;
        }
    }
    Some(())
}
