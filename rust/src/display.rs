//! Statements as a canonical text has them.

use std::fmt::{self, Display, Formatter};

use crate::tree::{Counts, CovariateOp, Feature, Item, Mode, Modes, Operand, Statement, TransitCounts};

/// Entries joined by `,`, in brackets.
fn bracketed(f: &mut Formatter<'_>, entries: impl IntoIterator<Item = impl Display>) -> fmt::Result {
    f.write_str("[")?;
    for (at, entry) in entries.into_iter().enumerate() {
        write!(f, "{}{entry}", if at == 0 { "" } else { "," })?;
    }
    f.write_str("]")
}

/// A list of one stands bare.
fn listed(f: &mut Formatter<'_>, entries: impl ExactSizeIterator<Item = impl Display>) -> fmt::Result {
    let mut entries = entries;
    match entries.len() {
        1 => entries.next().expect("there is one").fmt(f),
        _ => bracketed(f, entries),
    }
}

fn optionally<A: Display>(f: &mut Formatter<'_>, argument: &Option<A>) -> fmt::Result {
    argument.as_ref().map_or(Ok(()), |argument| write!(f, ",{argument}"))
}

impl Display for Statement {
    fn fmt(&self, f: &mut Formatter<'_>) -> fmt::Result {
        match self {
            Statement::Let { name, values } => {
                write!(f, "LET({name},")?;
                listed(f, values.iter().map(Item::text))?;
                f.write_str(")")
            }
            Statement::Feature(feature) => feature.fmt(f),
        }
    }
}

impl Display for Feature {
    fn fmt(&self, f: &mut Formatter<'_>) -> fmt::Result {
        write!(f, "{}(", self.keyword())?;
        match self {
            Feature::Absorption(modes) => modes.fmt(f)?,
            Feature::Elimination(modes) => modes.fmt(f)?,
            Feature::Peripherals { counts, kind } => {
                counts.fmt(f)?;
                optionally(f, kind)?;
            }
            Feature::Transits { counts, depot } => {
                counts.fmt(f)?;
                optionally(f, depot)?;
            }
            Feature::Lagtime(modes) => modes.fmt(f)?,
            Feature::Covariate { parameters, covariates, effects, op, .. } => {
                write!(f, "{parameters},{covariates},{effects}")?;
                if *op == CovariateOp::Add {
                    f.write_str(",+")?;
                }
            }
            Feature::Allometry { covariate, reference } => {
                f.write_str(covariate)?;
                optionally(f, reference)?;
            }
            Feature::DirectEffect(modes) | Feature::EffectComp(modes) => modes.fmt(f)?,
            Feature::IndirectEffect { mode, production } => write!(f, "{mode},{production}")?,
            Feature::Metabolite(modes) => modes.fmt(f)?,
            Feature::Iiv { parameters, effects, .. } | Feature::Iov { parameters, effects, .. } => write!(f, "{parameters},{effects}")?,
            Feature::Covariance { level, parameters, .. } => write!(f, "{level},{parameters}")?,
        }
        f.write_str(")")
    }
}

impl<M: Mode> Display for Modes<M> {
    fn fmt(&self, f: &mut Formatter<'_>) -> fmt::Result {
        match self {
            Modes::Wildcard => f.write_str("*"),
            Modes::List(list) => listed(f, list.iter().map(Mode::label)),
        }
    }
}

impl Display for Operand {
    fn fmt(&self, f: &mut Formatter<'_>) -> fmt::Result {
        match self {
            Operand::Wildcard => f.write_str("*"),
            Operand::Symbol(name) => write!(f, "@{name}"),
            Operand::Names(names) => listed(f, names.iter()),
        }
    }
}

impl Display for Counts {
    fn fmt(&self, f: &mut Formatter<'_>) -> fmt::Result {
        match self {
            Counts::Single(count) => count.fmt(f),
            Counts::Range(first, last) => write!(f, "{first}..{last}"),
            Counts::List(list) => bracketed(f, list),
        }
    }
}

impl Display for TransitCounts {
    fn fmt(&self, f: &mut Formatter<'_>) -> fmt::Result {
        match self {
            TransitCounts::N => f.write_str("N"),
            TransitCounts::Counts(counts) => counts.fmt(f),
        }
    }
}
