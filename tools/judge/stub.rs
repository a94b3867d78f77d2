//! What resolve.rs takes from ferx_core, and no more. The judge builds its contexts directly, so
//! everything but `CovariateKind` is here only for the module to compile.

/// Document 01, The context: "`CovariateKind` has just these two kinds here, in the comparison too."
#[derive(Debug, Clone, Copy, PartialEq, Eq, Hash)]
pub enum CovariateKind {
    Continuous,
    Categorical,
}

impl CovariateKind {
    /// Stands in a message only.
    pub fn label(&self) -> &'static str {
        match self {
            CovariateKind::Continuous => "continuous",
            CovariateKind::Categorical => "categorical",
        }
    }
}

pub struct EtaParamInfo {
    pub individual_param_name: String,
}

pub struct Model {
    pub indiv_param_names: Vec<String>,
    pub eta_param_info: Vec<EtaParamInfo>,
}

pub struct CovariateDecl {
    pub name: String,
    pub kind: CovariateKind,
}

pub struct ParsedModel {
    pub model: Model,
    pub covariate_decls: Option<Vec<CovariateDecl>>,
}

pub struct Population {
    pub covariate_names: Vec<String>,
}

pub mod edit {
    pub struct ModelText;

    impl ModelText {
        pub fn block_lines(&self, _block: &str) -> Vec<String> {
            Vec::new()
        }
    }
}
