//! Every feature as a tree, and spaces as a whole.
use dumachik::{
    count, AbsorptionMode, Counts, CovariateEffect, CovariateOp, DepotMode, EliminationMode, Feature, Item, LagtimeMode, MetaboliteMode,
    Mfl, Mode, Modes, Operand, PdMode, PeripheralKind, ProductionMode, Statement, TransitCounts, VariabilityEffect, VariabilityLevel,
    STATEMENT_ROOM,
};

fn names(names: &[&str]) -> Vec<String> {
    names.iter().map(|name| name.to_string()).collect()
}

fn reads(text: &str, feature: Feature) {
    assert_eq!(Mfl::parse(text).unwrap().statements(), [Statement::Feature(feature)], "{text}");
}

#[test]
fn modes_alone() {
    reads("absorption([seq-zo-fo,FO,fo])", Feature::Absorption(Modes::List(vec![AbsorptionMode::SeqZoFo, AbsorptionMode::Fo])));
    reads("ELIMINATION(mix-fo-mm)", Feature::Elimination(Modes::List(vec![EliminationMode::MixFoMm])));
    reads("LAGTIME(*)", Feature::Lagtime(Modes::Wildcard));
    reads("LAGTIME([OFF])", Feature::Lagtime(Modes::List(vec![LagtimeMode::Off])));
    reads("DIRECTEFFECT(STEP)", Feature::DirectEffect(Modes::List(vec![PdMode::Step])));
    reads("EFFECTCOMP(LOGLIN)", Feature::EffectComp(Modes::List(vec![PdMode::Loglin])));
    reads("METABOLITE(PSC)", Feature::Metabolite(Modes::List(vec![MetaboliteMode::Psc])));
    reads(
        "INDIRECTEFFECT(*,DEGRADATION)",
        Feature::IndirectEffect { mode: Modes::Wildcard, production: Modes::List(vec![ProductionMode::Degradation]) },
    );
}

#[test]
fn counts() {
    let peripherals = |counts, kind| Feature::Peripherals { counts, kind };
    reads("PERIPHERALS(007)", peripherals(Counts::Single(7), None));
    reads("PERIPHERALS(0 .. 64,MET)", peripherals(Counts::Range(0, 64), Some(Modes::List(vec![PeripheralKind::Met]))));
    reads("PERIPHERALS([3,1,3],*)", peripherals(Counts::List(vec![3, 1, 3]), Some(Modes::Wildcard)));
    reads("TRANSITS(n)", Feature::Transits { counts: TransitCounts::N, depot: None });
    reads(
        "TRANSITS([9],NODEPOT)",
        Feature::Transits { counts: TransitCounts::Counts(Counts::List(vec![9])), depot: Some(Modes::List(vec![DepotMode::NoDepot])) },
    );
    assert_eq!(Counts::Range(2, 4).expand(), [2, 3, 4]);
    assert_eq!(Counts::List(vec![3, 1, 3]).expand(), [1, 3]);
}

#[test]
fn operands() {
    reads(
        "COVARIATE?(@ IIV,[Wt,70,Wt],[pow,custom],+)",
        Feature::Covariate {
            optional: true,
            parameters: Operand::Symbol("IIV".into()),
            covariates: Operand::Names(names(&["Wt", "70", "Wt"])),
            effects: Modes::List(vec![CovariateEffect::Pow, CovariateEffect::Custom]),
            op: CovariateOp::Add,
        },
    );
    reads(
        "COVARIATE(CL,*,lin)",
        Feature::Covariate {
            optional: false,
            parameters: Operand::Names(names(&["CL"])),
            covariates: Operand::Wildcard,
            effects: Modes::List(vec![CovariateEffect::Lin]),
            op: CovariateOp::Multiply,
        },
    );
    let effects = Modes::List(vec![VariabilityEffect::ReLog]);
    reads("IIV?(*,re_log)", Feature::Iiv { optional: true, parameters: Operand::Wildcard, effects: effects.clone() });
    reads("IOV(*,re_log)", Feature::Iov { optional: false, parameters: Operand::Wildcard, effects });
    reads(
        "COVARIANCE([IOV,IIV],@PK)",
        Feature::Covariance {
            optional: false,
            level: Modes::List(vec![VariabilityLevel::Iov, VariabilityLevel::Iiv]),
            parameters: Operand::Symbol("PK".into()),
        },
    );
}

#[test]
fn names_alone() {
    reads("ALLOMETRY(WT)", Feature::Allometry { covariate: "WT".into(), reference: None });
    reads("ALLOMETRY(WT,70.0)", Feature::Allometry { covariate: "WT".into(), reference: Some("70.0".into()) });
    let space = Mfl::parse("LET(x,1.5)\nLET(N,[a-b,007,_])").unwrap();
    let lets = |name: &str, values| Statement::Let { name: name.into(), values };
    let (word, number) = (|text: &str| Item::Word(text.into()), |text: &str| Item::Number(text.into()));
    assert_eq!(space.statements(), [lets("x", vec![number("1.5")]), lets("N", vec![word("a-b"), number("007"), word("_")])]);
    assert_eq!(space.features().count(), 0);
    assert_eq!((word("WT").text(), number("70").text()), ("WT", "70"));
}

/// The numbers of a LET, the kind of each value before its place.
#[test]
fn values_by_kind() {
    let mut out = [0; STATEMENT_ROOM];
    assert_eq!(dumachik::statement_into(b";let(Pk, [CL, 7, E2])", 0, &mut out), Ok(16));
    assert_eq!(out[..16], [14, 0, 8, 5, 2, 12, 3, 0, 10, 2, 1, 14, 1, 0, 17, 2]);
}

/// The numbers of all statements are those of each, behind how many they are.
#[test]
fn all_at_once() {
    let text = b"LET(X,[WT,7]);COVARIATE?([CL,V],@X,[lin,exp],+)\n# c\nPERIPHERALS(0..2)";
    let mut all = vec![0xa5; 2 * text.len()];
    let written = dumachik::statements_into(text, &mut all).unwrap();
    let mut wanted = Vec::new();
    for index in 0..3 {
        let mut out = [0; STATEMENT_ROOM];
        let many = dumachik::statement_into(text, index, &mut out).unwrap();
        wanted.push(many as u32);
        wanted.extend(&out[..many]);
    }
    assert_eq!(all[..written], wanted);
    assert!(all[written..].iter().all(|&number| number == 0xa5));
    assert_eq!(dumachik::statements_into(text, &mut all[..written - 1]).unwrap_err().number(), 19);
    assert_eq!(dumachik::statements_into(text, &mut all[..written]), Ok(written));
    // one number and one name for every two bytes: the longest answer for its text
    let names = format!("LET(A,[{}])", vec!["B"; 64].join(","));
    let text = [names.as_str(); 60].join(";");
    let mut all = vec![0; 2 * text.len()];
    assert_eq!(dumachik::statements_into(text.as_bytes(), &mut all), Ok(60 * (1 + 7 + 3 * 64)));
}

/// The largest answer of Statement fits `STATEMENT_ROOM` exactly.
#[test]
fn largest_statement() {
    let list = vec!["B"; 64].join(",");
    let text = format!("COVARIATE?([{list}],[{list}],[lin,piece_lin,exp,pow,cat,cat2,custom])");
    let mut out = [0; STATEMENT_ROOM];
    assert_eq!(dumachik::statement_into(text.as_bytes(), 0, &mut out), Ok(STATEMENT_ROOM));
    let space = Mfl::parse(text).unwrap();
    let [Statement::Feature(Feature::Covariate { parameters: Operand::Names(parameters), effects, .. })] = space.statements() else {
        panic!("not a COVARIATE")
    };
    assert_eq!(parameters.len(), 64);
    assert_eq!(effects.expand(), CovariateEffect::ALL);
}

#[test]
fn spaces() {
    let space = Mfl::parse("# none\n;;").unwrap();
    assert_eq!((space.len(), space.is_empty(), space.as_str()), (0, true, ""));
    assert_eq!(space, Mfl::default());

    let text = "let(S, [WT]); lagtime([ON,on])\nIIV?(@S, *) # é\n".repeat(85);
    let space: Mfl = text.parse().unwrap();
    assert_eq!((space.len(), count(text.as_bytes())), (255, Ok(255)));
    assert_eq!((space.statements().len(), space.features().count()), (255, 170));
    assert_eq!(space.to_string(), vec!["LET(S,WT);LAGTIME(ON);IIV?(@S,*)"; 85].join(";"));
    assert_eq!(Mfl::parse(space.render()).unwrap(), space);
    assert_ne!(Mfl::parse("LAGTIME(ON)"), Mfl::parse("LAGTIME([ON,OFF])"));
}

/// The keyword of each feature is that of its canonical text, and each label reads as its mode.
#[test]
fn words() {
    let text = "ABSORPTION(*);ELIMINATION(*);PERIPHERALS(1);TRANSITS(1);LAGTIME(*);COVARIATE?(*,*,*);ALLOMETRY(WT);DIRECTEFFECT(*);EFFECTCOMP(*);\
                INDIRECTEFFECT(*,*);METABOLITE(*);IIV(*,*);IIV?(*,*);IOV(*,*);IOV?(*,*);COVARIANCE(*,*);COVARIANCE?(*,*);COVARIATE(*,*,lin)";
    let space = Mfl::parse(text).unwrap();
    let keywords: Vec<String> = space.features().map(|feature| feature.keyword()).collect();
    let wanted: Vec<&str> = text.split(';').map(|part| &part[..part.find('(').unwrap()]).collect();
    assert_eq!(keywords, wanted);
    for effect in CovariateEffect::ALL {
        assert_eq!(CovariateEffect::parse(&effect.label().to_uppercase()), Some(*effect));
        assert_eq!(Mfl::parse(format!("COVARIATE(*,*,{})", effect.label())).unwrap().len(), 1);
    }
    assert_eq!(CovariateEffect::parse("linear"), None);
    assert_eq!(CovariateEffect::ALL.iter().filter(|effect| effect.is_categorical()).count(), 2);
    assert!(Operand::Wildcard.is_symbolic() && !Operand::Names(names(&["CL"])).is_symbolic());
    assert_eq!((CovariateOp::Multiply.label(), CovariateOp::Add.label()), ("*", "+"));
}

/// A statement prints as its canonical text, and a space of statements is the one that they were read from.
#[test]
fn built() {
    let text =
        "LET(S,[WT,007]);LET(T,x);ABSORPTION([FO,SEQ-ZO-FO]);ELIMINATION(*);PERIPHERALS(0..2,[DRUG,MET]);TRANSITS([1,3],*);TRANSITS(N);\
                LAGTIME(ON);COVARIATE?(@PK,[WT,AGE],[lin,cat2],+);COVARIATE(CL,*,exp);ALLOMETRY(WT,70.0);ALLOMETRY(WT);DIRECTEFFECT(STEP);\
                EFFECTCOMP(*);INDIRECTEFFECT(LINEAR,[PRODUCTION,DEGRADATION]);METABOLITE(PSC);IIV?(*,[EXP,RE_LOG]);IOV(CL,PROP);\
                COVARIANCE?([IIV,IOV],[CL,V]);PERIPHERALS([3]);PERIPHERALS(7)";
    let space = Mfl::parse(text).unwrap();
    let printed: Vec<String> = space.statements().iter().map(|statement| statement.to_string()).collect();
    assert_eq!(printed.join(";"), text);
    assert_eq!(Mfl::from_statements(space.statements().to_vec()).unwrap(), space);
    assert_eq!(Mfl::from_statements(Vec::new()).unwrap(), Mfl::default());

    // what a text cannot say is refused
    let lag = |modes| Mfl::from_statements(vec![Statement::Feature(Feature::Lagtime(Modes::List(modes)))]);
    assert_eq!(lag(Vec::new()).unwrap_err().number(), 9);
    assert_eq!(lag(vec![LagtimeMode::On, LagtimeMode::On]).unwrap_err().number(), 3);
    for name in ["CL)", "", "A B", "CL#", "é", "CL;LAGTIME(ON)"] {
        let feature = Feature::Iiv { optional: false, parameters: Operand::Names(names(&[name])), effects: Modes::Wildcard };
        assert!(Mfl::from_statements(vec![Statement::Feature(feature)]).is_err(), "{name}");
    }
    let many = Feature::Peripherals { counts: Counts::Single(65), kind: None };
    assert_eq!(Mfl::from_statements(vec![Statement::Feature(many)]).unwrap_err().number(), 4);
}
