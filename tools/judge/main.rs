//! The judge: one answer line for each request line, by the source's own mfl.rs and resolve.rs.
//! README.md states every request and answer.

// Both are put there by `make`; not all of their interface is used.
#[allow(dead_code)]
#[path = "build/mfl.rs"]
mod mfl;
#[allow(dead_code)]
#[path = "build/resolve.rs"]
mod resolve;

use std::fmt::Write as _;
use std::io::{self, BufRead, BufReader, BufWriter, Write};

use ferx_core::CovariateKind;
use mfl::{Counts, CovariateOp, Feature, Mfl, Mode, Modes, Operand, Statement, TransitCounts};
use resolve::{CovariateEffectSpec, ModelContext, PkTemplate};

/// Why a request has no `ok` answer.
enum Fault {
    Malformed(&'static str),
    Unjudged(&'static str),
    Refused(String),
}

use Fault::{Malformed, Refused, Unjudged};

fn main() -> io::Result<()> {
    let mut input = BufReader::with_capacity(1 << 16, io::stdin().lock());
    let mut output = BufWriter::with_capacity(1 << 16, io::stdout().lock());
    let mut line = Vec::new();
    loop {
        // A caller that waits for an answer before it asks again must get it.
        if input.buffer().is_empty() {
            output.flush()?;
        }
        line.clear();
        if input.read_until(b'\n', &mut line)? == 0 {
            return output.flush();
        }
        if line.last() == Some(&b'\n') {
            line.pop();
        }
        match answer(&line) {
            Ok(rest) => writeln!(output, "ok{rest}")?,
            Err(Malformed(reason)) => writeln!(output, "malformed {reason}")?,
            Err(Unjudged(reason)) => writeln!(output, "unjudged {reason}")?,
            Err(Refused(message)) => writeln!(output, "refused {}", one_line(&message))?,
        }
    }
}

/// What follows `ok` in the answer.
fn answer(line: &[u8]) -> Result<String, Fault> {
    let line = std::str::from_utf8(line).map_err(|_| Malformed("the line is not UTF-8"))?;
    // Single spaces, so that an empty text in front of a context can be seen.
    let parts: Vec<&str> = line.split(' ').collect();
    match parts.as_slice() {
        ["count"] => count(""),
        ["count", hex] => count(&text_of(hex)?),
        ["print"] => print(""),
        ["print", hex] => print(&text_of(hex)?),
        ["tokens"] => tokens(""),
        ["tokens", hex] => tokens(&text_of(hex)?),
        ["statement", index, hex] => {
            // As below: the index first.
            let index = index_of(index)?;
            statement(index, &text_of(hex)?)
        }
        ["resolve", hex, context] => {
            // The context first: a malformed request is one whatever its text.
            let context = context_of(context)?;
            resolve_text(&text_of(hex)?, &context)
        }
        [""] => Err(Malformed("empty line")),
        ["count" | "print" | "tokens" | "statement" | "resolve", ..] => {
            Err(Malformed("number of parts"))
        }
        _ => Err(Malformed("unknown request")),
    }
}

fn count(text: &str) -> Result<String, Fault> {
    let mfl = Mfl::parse(text).map_err(Refused)?;
    Ok(format!(" {}", mfl.statements.len()))
}

fn print(text: &str) -> Result<String, Fault> {
    let mfl = Mfl::parse(text).map_err(Refused)?;
    Ok(format!(" {}", hex_of(&mfl.render())))
}

fn tokens(text: &str) -> Result<String, Fault> {
    let mut out = String::new();
    for (kind, text) in mfl::judge_tokens(text).map_err(Refused)? {
        out.push(' ');
        match kind {
            b'W' | b'N' => {
                out.push(kind as char);
                out.push(':');
                out.push_str(&hex_of(&text));
            }
            b'.' => out.push_str(".."),
            _ => out.push(kind as char),
        }
    }
    Ok(out)
}

fn statement(index: usize, text: &str) -> Result<String, Fault> {
    let mfl = Mfl::parse(text).map_err(Refused)?;
    match mfl.statements.get(index) {
        Some(statement) => Ok(format!(" {}", form_of(statement))),
        // The number and place of document 01: the source has no such call.
        None => Err(Refused(format!("20 {index}"))),
    }
}

/// A statement's value: its keyword, then what each argument of `build_feature` has become.
fn form_of(statement: &Statement) -> String {
    let feature = match statement {
        Statement::Let { name, values } => return format!("LET {name} {}", list_form(values)),
        Statement::Feature(feature) => feature,
    };
    let fields = match feature {
        Feature::Absorption(modes) => modes_form(modes),
        Feature::Elimination(modes) => modes_form(modes),
        Feature::Peripherals { counts, kind } => {
            format!("{} {}", counts_form(counts), or_none(kind, modes_form))
        }
        Feature::Transits { counts, depot } => {
            let counts = match counts {
                TransitCounts::N => "N".to_string(),
                TransitCounts::Counts(counts) => counts_form(counts),
            };
            format!("{counts} {}", or_none(depot, modes_form))
        }
        Feature::Lagtime(modes) => modes_form(modes),
        // `keyword` below has the mark of those with one.
        Feature::Covariate {
            optional: _,
            parameters,
            covariates,
            effects,
            op,
        } => format!(
            "{} {} {} {}",
            operand_form(parameters),
            operand_form(covariates),
            modes_form(effects),
            op.label()
        ),
        Feature::Allometry {
            covariate,
            reference,
        } => format!("{covariate} {}", or_none(reference, String::clone)),
        Feature::DirectEffect(modes) => modes_form(modes),
        Feature::EffectComp(modes) => modes_form(modes),
        Feature::IndirectEffect { mode, production } => {
            format!("{} {}", modes_form(mode), modes_form(production))
        }
        Feature::Metabolite(modes) => modes_form(modes),
        Feature::Iiv {
            optional: _,
            parameters,
            effects,
        }
        | Feature::Iov {
            optional: _,
            parameters,
            effects,
        } => format!("{} {}", operand_form(parameters), modes_form(effects)),
        Feature::Covariance {
            optional: _,
            level,
            parameters,
        } => format!("{} {}", modes_form(level), operand_form(parameters)),
    };
    format!("{} {fields}", feature.keyword())
}

/// Modes by their places in the family.
fn modes_form<M: Mode>(modes: &Modes<M>) -> String {
    match modes {
        Modes::Wildcard => "*".to_string(),
        Modes::List(list) => list_form(list.iter().map(place_of)),
    }
}

fn place_of<M: Mode>(mode: &M) -> usize {
    M::ALL.iter().take_while(|other| *other != mode).count()
}

fn counts_form(counts: &Counts) -> String {
    match counts {
        Counts::Single(count) => count.to_string(),
        Counts::Range(first, last) => format!("{first}..{last}"),
        Counts::List(list) => list_form(list),
    }
}

fn operand_form(operand: &Operand) -> String {
    match operand {
        Operand::Wildcard => "*".to_string(),
        Operand::Symbol(name) => format!("@{name}"),
        Operand::Names(names) => list_form(names),
    }
}

fn list_form(entries: impl IntoIterator<Item = impl ToString>) -> String {
    let entries: Vec<String> = entries.into_iter().map(|entry| entry.to_string()).collect();
    format!("[{}]", entries.join(","))
}

fn or_none<T>(field: &Option<T>, form: impl Fn(&T) -> String) -> String {
    field.as_ref().map_or("-".to_string(), form)
}

fn resolve_text(text: &str, context: &ModelContext) -> Result<String, Fault> {
    let mfl = Mfl::parse(text).map_err(Refused)?;
    let resolved = resolve::resolve(&mfl, context).map_err(Refused)?;
    let effects = resolved.covariate_effects.iter().map(effect_of).collect();
    Ok(format!(
        " {} {} {}",
        hex_of(&resolved.mfl.render()),
        or_dash(effects),
        or_dash(notes_of(&mfl, &resolved.notes))
    ))
}

fn or_dash(entries: Vec<String>) -> String {
    if entries.is_empty() {
        "-".to_string()
    } else {
        entries.join(",")
    }
}

/// Notes by reason and index. A note of a dropped feature has no index, but quotes it: it is the
/// next one that reads so, since features that read the same are dropped together.
fn notes_of(mfl: &Mfl, notes: &[String]) -> Vec<String> {
    let mut statements = mfl.statements.iter().enumerate();
    let form = |note: &String| {
        if note.starts_with("COVARIATE(..., +): ") {
            return "1:0".to_string();
        }
        let quoted = |statement: &Statement| match statement {
            Statement::Let { .. } => false,
            Statement::Feature(feature) => note.starts_with(&format!("dropped `{feature}`: ")),
        };
        match statements.find(|(_, statement)| quoted(statement)) {
            Some((index, _)) => format!("0:{index}"),
            None => format!("unknown:{}", hex_of(note)),
        }
    };
    notes.iter().map(form).collect()
}

fn effect_of(spec: &CovariateEffectSpec) -> String {
    let form = place_of(&spec.effect);
    let operator = match spec.op {
        CovariateOp::Multiply => 0,
        CovariateOp::Add => 1,
    };
    format!(
        "{}:{}:{form}:{operator}:{}",
        spec.parameter,
        spec.covariate,
        u8::from(spec.optional)
    )
}

/// An index in decimal digits alone; `parse` would take a `+` too.
fn index_of(digits: &str) -> Result<usize, Fault> {
    if !digits.bytes().all(|b| b.is_ascii_digit()) {
        return Err(Malformed("the index is not decimal"));
    }
    digits
        .parse()
        .map_err(|_| Malformed("the index is not a number of 64 bits"))
}

/// The context of a request. It is built as it stands: the checks of `ModelContext::from_model` are
/// the caller's there, and those of document 01 are the caller's here.
fn context_of(word: &str) -> Result<ModelContext, Fault> {
    let parts: Vec<&str> = word.split('/').collect();
    let [parameters, iiv, template, covariates, columns] = parts.as_slice() else {
        return Err(Malformed("the context has not five parts"));
    };
    Ok(ModelContext {
        parameters: names_of(parameters)?,
        iiv: names_of(iiv)?,
        template: template_of(template)?,
        covariates: covariates_of(covariates)?,
        data_covariates: names_of(columns)?,
    })
}

/// The entries of a comma-separated list; an empty part is the empty list.
fn entries_of(part: &str) -> Vec<&str> {
    if part.is_empty() {
        Vec::new()
    } else {
        part.split(',').collect()
    }
}

/// A name has only bytes of words and numbers, so that it cannot be taken for two in an answer.
fn name_of(name: &str) -> Result<String, Fault> {
    let plain = |b: u8| b.is_ascii_alphanumeric() || matches!(b, b'_' | b'-' | b'.');
    if name.is_empty() || !name.bytes().all(plain) {
        return Err(Malformed("a name in the context"));
    }
    Ok(name.to_string())
}

fn names_of(part: &str) -> Result<Vec<String>, Fault> {
    entries_of(part).into_iter().map(name_of).collect()
}

fn template_of(part: &str) -> Result<Option<PkTemplate>, Fault> {
    if part == "-" {
        return Ok(None);
    }
    let mut bindings = Vec::new();
    for entry in entries_of(part) {
        let Some((role, variable)) = entry.split_once('=') else {
            return Err(Malformed("a binding without `=`"));
        };
        bindings.push((name_of(role)?, name_of(variable)?));
    }
    // `resolve` reads the bindings alone.
    Ok(Some(PkTemplate {
        keyword: "pk".to_string(),
        name: String::new(),
        bindings,
    }))
}

fn covariates_of(part: &str) -> Result<Option<Vec<(String, CovariateKind)>>, Fault> {
    if part == "-" {
        return Ok(None);
    }
    let mut declared = Vec::new();
    for entry in entries_of(part) {
        let (name, kind) = match entry.split_once(':') {
            Some((name, "0")) => (name, CovariateKind::Continuous),
            Some((name, "1")) => (name, CovariateKind::Categorical),
            _ => return Err(Malformed("a covariate without its kind, `:0` or `:1`")),
        };
        declared.push((name_of(name)?, kind));
    }
    Ok(Some(declared))
}

/// The text of a request; the modules take `&str`, so bytes that are not UTF-8 cannot be judged.
fn text_of(hex: &str) -> Result<String, Fault> {
    let digits = hex.as_bytes();
    if digits.len() % 2 != 0 {
        return Err(Malformed("odd number of hex digits"));
    }
    let mut bytes = Vec::with_capacity(digits.len() / 2);
    for pair in digits.chunks_exact(2) {
        bytes.push(digit_of(pair[0])? << 4 | digit_of(pair[1])?);
    }
    String::from_utf8(bytes).map_err(|_| Unjudged("not UTF-8"))
}

fn digit_of(byte: u8) -> Result<u8, Fault> {
    match (byte as char).to_digit(16) {
        Some(digit) => Ok(digit as u8),
        None => Err(Malformed("not a hex digit")),
    }
}

fn hex_of(text: &str) -> String {
    let mut out = String::with_capacity(2 * text.len());
    for byte in text.bytes() {
        let _ = write!(out, "{byte:02x}");
    }
    out
}

/// A message quotes the character it met, which some readers of lines would take for a line's end.
fn one_line(message: &str) -> String {
    let ends_line = |c: char| c.is_control() || matches!(c, '\u{2028}' | '\u{2029}');
    message
        .chars()
        .map(|c| if ends_line(c) { ' ' } else { c })
        .collect()
}
