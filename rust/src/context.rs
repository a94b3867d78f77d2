//! What symbols are resolved against, by the names of resolve.rs, and how it is handed to the call.

use std::fmt;

/// The kind of a declared covariate.
#[derive(Debug, Clone, Copy, PartialEq, Eq, Hash)]
pub enum CovariateKind {
    Continuous,
    Categorical,
}

impl CovariateKind {
    pub fn label(&self) -> &'static str {
        match self {
            CovariateKind::Continuous => "continuous",
            CovariateKind::Categorical => "categorical",
        }
    }
}

impl fmt::Display for CovariateKind {
    fn fmt(&self, f: &mut fmt::Formatter<'_>) -> fmt::Result {
        f.write_str(self.label())
    }
}

/// The template line of a base model. Only its bindings are looked at.
#[derive(Debug, Clone, PartialEq, Eq)]
pub struct PkTemplate {
    /// `pk` or `ode_template`.
    pub keyword: String,
    /// The template's name, as `two_cpt_oral`.
    pub name: String,
    /// Role and variable, in the line's order, as `("cl", "CL")`. Roles match exactly, variables ignoring ASCII case.
    pub bindings: Vec<(String, String)>,
}

/// What the symbols are resolved against: at most 64 names in each list, each of 1 to 32 bytes that are one word or one number. Nothing of this
/// is believed: [`resolve`](crate::resolve()) refuses another context by [`Fault::WrongContext`](crate::Fault::WrongContext).
#[derive(Debug, Clone, PartialEq, Eq, Default)]
pub struct ModelContext {
    pub parameters: Vec<String>,
    /// The parameters that have an η.
    pub iiv: Vec<String>,
    /// None: the symbols that read the template are unavailable.
    pub template: Option<PkTemplate>,
    /// The declared covariates; None: there is no block, and the data's columns stand for them.
    pub covariates: Option<Vec<(String, CovariateKind)>>,
    pub data_covariates: Vec<String>,
}

/// A context as [`resolve_into`](crate::resolve_into) takes it: a block of name bytes, and one run of numbers.
#[derive(Debug, Clone, PartialEq, Eq, Default)]
pub struct Handed {
    pub block: Vec<u8>,
    pub lists: Vec<u32>,
}

impl ModelContext {
    /// Every covariate a `COVARIATE` may name: the declared ones where there is a block, else the data's columns.
    pub fn all_covariates(&self) -> Vec<String> {
        match &self.covariates {
            Some(declared) => declared.iter().map(|(name, _)| name.clone()).collect(),
            None => self.data_covariates.clone(),
        }
    }

    /// The kind of a covariate's first declared entry.
    pub fn covariate_kind(&self, name: &str) -> Option<CovariateKind> {
        self.covariates.as_ref()?.iter().find(|(declared, _)| declared == name).map(|(_, kind)| *kind)
    }

    /// The names, one after the other, and where they stand.
    pub fn handed(&self) -> Handed {
        let bindings = self.template.as_ref().map_or(&[][..], |template| &template.bindings);
        let declared = self.covariates.as_deref().unwrap_or_default();
        let counts = [self.parameters.len(), self.iiv.len(), bindings.len(), declared.len(), self.data_covariates.len()];
        let mut handed = Handed::default();
        handed.lists.extend(counts.map(number));
        handed.lists.extend([u32::from(self.template.is_some()), u32::from(self.covariates.is_some())]);
        self.parameters.iter().chain(&self.iiv).for_each(|name| handed.put(name));
        for (role, variable) in bindings {
            handed.put(role);
            handed.put(variable);
        }
        for (name, kind) in declared {
            handed.put(name);
            handed.lists.push(u32::from(*kind == CovariateKind::Categorical));
        }
        self.data_covariates.iter().for_each(|name| handed.put(name));
        handed
    }
}

impl Handed {
    fn put(&mut self, name: &str) {
        self.lists.extend([number(self.block.len()), number(name.len())]);
        self.block.extend(name.as_bytes());
    }
}

/// A number that is too large for 32 bits is too large for any context, and so is the largest that they have.
fn number(n: usize) -> u32 {
    u32::try_from(n).unwrap_or(u32::MAX)
}
