//! Resolving: symbols and `*` become a model's names, by the names of resolve.rs.

use std::{error, fmt};

use crate::calls::{resolve_into_under, Buffers, Effect, NoteNumbers};
use crate::context::ModelContext;
use crate::refusal::Refusal;
use crate::tree::{CovariateEffect, CovariateOp, Mode, Statement};
use crate::Mfl;

/// One covariate effect of the resolved space.
#[derive(Debug, Clone, PartialEq, Eq, Hash)]
pub struct CovariateEffectSpec {
    pub parameter: String,
    pub covariate: String,
    pub effect: CovariateEffect,
    pub op: CovariateOp,
    /// Whether the search may leave it out.
    pub optional: bool,
}

impl CovariateEffectSpec {
    /// A short key, as `CL-WT`.
    pub fn pair(&self) -> String {
        format!("{}-{}", self.parameter, self.covariate)
    }
}

/// Something that a user should see once.
#[derive(Debug, Clone, PartialEq, Eq, Hash)]
pub enum Note {
    /// The statement was dropped, as one of its operands stands for too few names in this model.
    Dropped { index: usize, statement: Statement },
    /// Some effect is additive.
    Additive,
}

impl fmt::Display for Note {
    fn fmt(&self, f: &mut fmt::Formatter<'_>) -> fmt::Result {
        match self {
            Note::Dropped { statement, .. } => write!(f, "dropped `{statement}`: it resolves to nothing on this model"),
            Note::Additive => f.write_str("COVARIATE(..,+): an additive effect is null at theta = 0, where Pharmpy's adds 1"),
        }
    }
}

/// A space with every symbol and `*` replaced by names.
#[derive(Debug, Clone, PartialEq, Eq)]
pub struct Resolved {
    /// The ground text, read back under the ceiling of its space: no LET, no symbol, no `*`.
    pub mfl: Mfl,
    pub covariate_effects: Vec<CovariateEffectSpec>,
    pub notes: Vec<Note>,
}

/// Why a space does not resolve, and the statement that stands in the way, where it is one.
#[derive(Debug, Clone, PartialEq, Eq)]
pub struct Unresolved {
    pub refusal: Refusal,
    pub statement: Option<Statement>,
}

impl fmt::Display for Unresolved {
    fn fmt(&self, f: &mut fmt::Formatter<'_>) -> fmt::Result {
        match &self.statement {
            Some(statement) => write!(f, "{} (`{statement}`)", self.refusal),
            None => self.refusal.fmt(f),
        }
    }
}

impl error::Error for Unresolved {}

/// Resolves every symbol and `*` of a space in a model's context, under the ceiling that the space was read under.
pub fn resolve(mfl: &Mfl, ctx: &ModelContext) -> Result<Resolved, Unresolved> {
    let handed = ctx.handed();
    let mut buffers = Buffers::default();
    let lengths = resolve_into_under(mfl.as_bytes(), &handed.block, &handed.lists, &mut buffers, mfl.ceiling())
        .map_err(|refusal| Unresolved { refusal, statement: refusal.statement().and_then(|index| mfl.statements().get(index).cloned()) })?;
    let covariates = ctx.all_covariates();
    let effect = |effect: &Effect| CovariateEffectSpec {
        parameter: ctx.parameters[usize::from(effect.parameter)].clone(),
        covariate: covariates[usize::from(effect.covariate)].clone(),
        effect: CovariateEffect::ALL[usize::from(effect.form)],
        op: if effect.operator == 1 { CovariateOp::Add } else { CovariateOp::Multiply },
        optional: effect.optional == 1,
    };
    let note = |note: &NoteNumbers| match note.reason {
        0 => Note::Dropped { index: usize::from(note.index), statement: mfl.statements()[usize::from(note.index)].clone() },
        _ => Note::Additive,
    };
    Ok(Resolved {
        mfl: Mfl::parse_under(&buffers.ground[..lengths.ground], mfl.ceiling()).expect("a ground text is accepted"),
        covariate_effects: buffers.effects[..lengths.effects].iter().map(effect).collect(),
        notes: buffers.notes[..lengths.notes].iter().map(note).collect(),
    })
}
