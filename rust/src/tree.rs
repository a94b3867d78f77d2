//! A statement as an owned tree, by the names of mfl.rs.

/// One statement.
#[derive(Debug, Clone, PartialEq, Eq, Hash)]
pub enum Statement {
    /// `LET(NAME, [a, b])`: defines `@NAME`.
    Let {
        name: String,
        values: Vec<Item>,
    },
    Feature(Feature),
}

/// A value of a LET, as written.
#[derive(Debug, Clone, PartialEq, Eq, Hash)]
pub enum Item {
    Word(String),
    Number(String),
}

impl Item {
    /// The value without its kind.
    pub fn text(&self) -> &str {
        match self {
            Item::Word(text) | Item::Number(text) => text,
        }
    }
}

#[derive(Debug, Clone, PartialEq, Eq, Hash)]
pub enum Feature {
    Absorption(Modes<AbsorptionMode>),
    Elimination(Modes<EliminationMode>),
    Peripherals { counts: Counts, kind: Option<Modes<PeripheralKind>> },
    Transits { counts: TransitCounts, depot: Option<Modes<DepotMode>> },
    Lagtime(Modes<LagtimeMode>),
    Covariate { optional: bool, parameters: Operand, covariates: Operand, effects: Modes<CovariateEffect>, op: CovariateOp },
    Allometry { covariate: String, reference: Option<String> },
    DirectEffect(Modes<PdMode>),
    EffectComp(Modes<PdMode>),
    IndirectEffect { mode: Modes<PdMode>, production: Modes<ProductionMode> },
    Metabolite(Modes<MetaboliteMode>),
    Iiv { optional: bool, parameters: Operand, effects: Modes<VariabilityEffect> },
    Iov { optional: bool, parameters: Operand, effects: Modes<VariabilityEffect> },
    Covariance { optional: bool, level: Modes<VariabilityLevel>, parameters: Operand },
}

impl Feature {
    /// The keyword as a canonical text has it, with its `?`.
    pub fn keyword(&self) -> String {
        let (word, optional) = match self {
            Feature::Absorption(_) => ("ABSORPTION", false),
            Feature::Elimination(_) => ("ELIMINATION", false),
            Feature::Peripherals { .. } => ("PERIPHERALS", false),
            Feature::Transits { .. } => ("TRANSITS", false),
            Feature::Lagtime(_) => ("LAGTIME", false),
            Feature::Covariate { optional, .. } => ("COVARIATE", *optional),
            Feature::Allometry { .. } => ("ALLOMETRY", false),
            Feature::DirectEffect(_) => ("DIRECTEFFECT", false),
            Feature::EffectComp(_) => ("EFFECTCOMP", false),
            Feature::IndirectEffect { .. } => ("INDIRECTEFFECT", false),
            Feature::Metabolite(_) => ("METABOLITE", false),
            Feature::Iiv { optional, .. } => ("IIV", *optional),
            Feature::Iov { optional, .. } => ("IOV", *optional),
            Feature::Covariance { optional, .. } => ("COVARIANCE", *optional),
        };
        format!("{word}{}", if optional { "?" } else { "" })
    }
}

/// `*`, or the modes named, each once.
#[derive(Debug, Clone, PartialEq, Eq, Hash)]
pub enum Modes<M> {
    Wildcard,
    List(Vec<M>),
}

impl<M: Mode> Modes<M> {
    /// The modes this stands for, `*` being all of the family.
    pub fn expand(&self) -> Vec<M> {
        match self {
            Modes::Wildcard => M::ALL.to_vec(),
            Modes::List(list) => list.clone(),
        }
    }
}

/// A family of modes.
pub trait Mode: Copy + PartialEq + 'static {
    /// The family in its order.
    const ALL: &'static [Self];
    /// The spelling in canonical texts.
    fn label(&self) -> &'static str;
    /// The mode of a spelling, in any case.
    fn parse(word: &str) -> Option<Self> {
        Self::ALL.iter().copied().find(|mode| mode.label().eq_ignore_ascii_case(word))
    }
}

macro_rules! mode_enum {
    ($(#[$meta:meta])* $name:ident { $($variant:ident => $label:literal),+ $(,)? }) => {
        $(#[$meta])*
        #[derive(Debug, Clone, Copy, PartialEq, Eq, Hash)]
        pub enum $name {
            $($variant),+
        }

        impl Mode for $name {
            const ALL: &'static [$name] = &[$($name::$variant),+];
            fn label(&self) -> &'static str {
                match self {
                    $($name::$variant => $label),+
                }
            }
        }
    };
}

mode_enum!(AbsorptionMode { Inst => "INST", Fo => "FO", Zo => "ZO", SeqZoFo => "SEQ-ZO-FO", Weibull => "WEIBULL" });
mode_enum!(EliminationMode { Fo => "FO", Zo => "ZO", Mm => "MM", MixFoMm => "MIX-FO-MM" });
mode_enum!(
    /// The second argument of `PERIPHERALS`.
    PeripheralKind { Drug => "DRUG", Met => "MET" }
);
mode_enum!(
    /// The second argument of `TRANSITS`.
    DepotMode { Depot => "DEPOT", NoDepot => "NODEPOT" }
);
mode_enum!(LagtimeMode { Off => "OFF", On => "ON" });
mode_enum!(CovariateEffect {
    Lin => "lin", PieceLin => "piece_lin", Exp => "exp", Pow => "pow", Cat => "cat", Cat2 => "cat2", Custom => "custom",
});
mode_enum!(
    /// Of `DIRECTEFFECT`, `EFFECTCOMP` and `INDIRECTEFFECT`.
    PdMode { Linear => "LINEAR", Emax => "EMAX", Sigmoid => "SIGMOID", Step => "STEP", Loglin => "LOGLIN" }
);
mode_enum!(
    /// The second argument of `INDIRECTEFFECT`.
    ProductionMode { Production => "PRODUCTION", Degradation => "DEGRADATION" }
);
mode_enum!(MetaboliteMode { Basic => "BASIC", Psc => "PSC" });
mode_enum!(
    /// Of `IIV` and `IOV`.
    VariabilityEffect { Exp => "EXP", Add => "ADD", Prop => "PROP", Log => "LOG", ReLog => "RE_LOG" }
);
mode_enum!(
    /// The first argument of `COVARIANCE`.
    VariabilityLevel { Iiv => "IIV", Iov => "IOV" }
);

impl CovariateEffect {
    /// The forms for continuous covariates.
    pub const CONTINUOUS: &'static [CovariateEffect] =
        &[CovariateEffect::Lin, CovariateEffect::PieceLin, CovariateEffect::Exp, CovariateEffect::Pow];

    /// Whether this form is for categorical covariates.
    pub fn is_categorical(&self) -> bool {
        matches!(self, CovariateEffect::Cat | CovariateEffect::Cat2)
    }
}

/// `*`, also where it is not written, or `+`.
#[derive(Debug, Clone, Copy, PartialEq, Eq, Hash)]
pub enum CovariateOp {
    Multiply,
    Add,
}

impl CovariateOp {
    pub fn label(&self) -> &'static str {
        match self {
            CovariateOp::Multiply => "*",
            CovariateOp::Add => "+",
        }
    }
}

/// Parameters or covariates: `*`, `@SYMBOL`, or names as written.
#[derive(Debug, Clone, PartialEq, Eq, Hash)]
pub enum Operand {
    Wildcard,
    Symbol(String),
    Names(Vec<String>),
}

impl Operand {
    /// Whether a model must say what this stands for.
    pub fn is_symbolic(&self) -> bool {
        !matches!(self, Operand::Names(_))
    }
}

/// One count, a range with both ends, or an array; each count is at most the ceiling that it was read under, 64 or another.
#[derive(Debug, Clone, PartialEq, Eq, Hash)]
pub enum Counts {
    Single(u32),
    Range(u32, u32),
    List(Vec<u32>),
}

impl Counts {
    /// The counts this stands for, ascending, each once.
    pub fn expand(&self) -> Vec<u32> {
        let mut counts = match self {
            Counts::Single(count) => vec![*count],
            Counts::Range(first, last) => (*first..=*last).collect(),
            Counts::List(list) => list.clone(),
        };
        counts.sort_unstable();
        counts.dedup();
        counts
    }
}

/// `TRANSITS` takes counts or `N`.
#[derive(Debug, Clone, PartialEq, Eq, Hash)]
pub enum TransitCounts {
    N,
    Counts(Counts),
}
