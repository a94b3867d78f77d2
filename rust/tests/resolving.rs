//! Resolving with names, by document 01's examples and faults.
use dumachik::{resolve, resolve_into, Buffers, CovariateKind, Effect, Fault, Mfl, ModelContext, Note, PkTemplate, WORKING};

fn names(names: &str) -> Vec<String> {
    names.split_whitespace().map(str::to_string).collect()
}

/// Document 01's K.
fn k() -> ModelContext {
    let bound = |role: &str, variable: &str| (role.to_string(), variable.to_string());
    ModelContext {
        parameters: names("CL V KA"),
        iiv: names("CL V"),
        template: Some(PkTemplate {
            keyword: "pk".into(),
            name: "one_cpt_oral".into(),
            bindings: vec![bound("cl", "CL"), bound("v", "V"), bound("ka", "KA")],
        }),
        covariates: Some(vec![("WT".into(), CovariateKind::Continuous), ("SEX".into(), CovariateKind::Categorical)]),
        data_covariates: names("WT SEX"),
    }
}

fn ground(text: &str) -> String {
    resolve(&Mfl::parse(text).unwrap(), &k()).unwrap().mfl.render()
}

/// The effects as lines, in the list's order.
fn effects(text: &str) -> Vec<String> {
    let resolved = resolve(&Mfl::parse(text).unwrap(), &k()).unwrap();
    let line = |spec: &dumachik::CovariateEffectSpec| {
        let optional = if spec.optional { " optional" } else { "" };
        format!("{} {}{optional}", spec.pair(), dumachik::Mode::label(&spec.effect))
    };
    resolved.covariate_effects.iter().map(line).collect()
}

fn refused(text: &str, context: &ModelContext, fault: Fault, statement: Option<usize>) {
    let why = resolve(&Mfl::parse(text).unwrap(), context).expect_err(text);
    assert_eq!((why.refusal.fault, why.refusal.statement()), (fault, statement), "{text}");
    assert_eq!(why.statement.is_some(), statement.is_some(), "{text}");
}

#[test]
fn examples() {
    assert_eq!(ground("LET(PK,[CL]);IIV(@PK_IIV,*)"), "IIV([CL,V],[EXP,ADD,PROP,LOG,RE_LOG])");
    assert_eq!(ground("LET(PK,[CL]);IIV(*,*)"), "IIV(CL,[EXP,ADD,PROP,LOG,RE_LOG])");
    refused("COVARIATE(CL,WT,lin);COVARIATE(CL,WT,exp)", &k(), Fault::ForcedTwice, Some(1));
    assert_eq!(ground("COVARIATE(CL,WT,[lin,exp])"), "COVARIATE(CL,WT,[lin,exp])");
    assert_eq!(effects("COVARIATE(@PK,WT,lin);COVARIATE?(CL,WT,exp)"), ["V-WT lin", "KA-WT lin", "CL-WT exp optional"]);
}

#[test]
fn notes() {
    let resolved = resolve(&Mfl::parse("LAGTIME(ON);COVARIANCE(IIV,CL);COVARIATE(CL,WT,lin,+)").unwrap(), &k()).unwrap();
    assert_eq!(resolved.mfl.render(), "LAGTIME(ON);COVARIATE(CL,WT,lin,+)");
    let [Note::Dropped { index: 1, statement }, Note::Additive] = &resolved.notes[..] else { panic!("{:?}", resolved.notes) };
    assert_eq!(statement.to_string(), "COVARIANCE(IIV,CL)");
    assert_eq!(resolved.notes[0].to_string(), "dropped `COVARIANCE(IIV,CL)`: it resolves to nothing on this model");
}

#[test]
fn faults() {
    refused("LET(A,CL);let(a,V)", &k(), Fault::SecondLet, Some(1));
    refused("LAGTIME(ON);IIV(@NOSUCH,EXP)", &k(), Fault::UnknownSymbol, Some(1));
    refused("IIV(CL,EXP);IIV(Q,EXP)", &k(), Fault::NotInModel, Some(1));
    refused("COVARIATE(CL,SEX,lin)", &k(), Fault::WrongKind, Some(0));
    refused("IIV(*,EXP)", &ModelContext { template: None, ..k() }, Fault::UnknownSymbol, Some(0));
    refused("LAGTIME(ON)", &ModelContext { parameters: names("CL CRCL.1"), ..k() }, Fault::WrongContext, None);
    refused("LAGTIME(ON)", &ModelContext { iiv: vec!["CL".into(); 65], ..k() }, Fault::WrongContext, None);
    let why = resolve(&Mfl::parse("IIV(CL,EXP);IIV(Q,EXP)").unwrap(), &k()).unwrap_err();
    assert_eq!(why.to_string(), "MFL: 15 at statement 1: name not in the model (`IIV(Q,EXP)`)");
}

/// Lengths at and below those of the answer; what is past an answer is as it was, and all of it on a refusal.
#[test]
fn buffers() {
    let text = b"COVARIATE?(CL,WT,[lin,exp]);COVARIANCE(IIV,CL)";
    let handed = k().handed();
    let lent = |ground, effects, notes, work| Buffers {
        ground: vec![0xa5; ground],
        effects: vec![Effect { parameter: 0xa5, ..Effect::default() }; effects],
        notes: vec![Default::default(); notes],
        work: vec![0xa5a5_a5a5; work],
    };
    let mut buffers = lent(28, 3, 1, WORKING);
    let lengths = resolve_into(text, &handed.block, &handed.lists, &mut buffers).unwrap();
    assert_eq!((lengths.ground, lengths.effects, lengths.notes), (27, 2, 1));
    assert_eq!(&buffers.ground, b"COVARIATE?(CL,WT,[lin,exp])\xa5");
    assert_eq!(buffers.effects[2].parameter, 0xa5);
    assert!(buffers.work.iter().all(|&number| number == 0));
    for (ground, effects, notes, work) in [(26, 2, 1, WORKING), (27, 1, 1, WORKING), (27, 2, 0, WORKING), (27, 2, 1, WORKING - 1)] {
        let mut buffers = lent(ground, effects, notes, work);
        let refusal = resolve_into(text, &handed.block, &handed.lists, &mut buffers).unwrap_err();
        assert_eq!((refusal.fault, refusal.place), (Fault::OutputTooShort, 0));
        assert!(buffers.ground.iter().all(|&byte| byte == 0xa5));
        assert!(buffers.effects.iter().all(|effect| effect.parameter == 0xa5));
        assert!(buffers.work.iter().all(|&number| number == if work < WORKING { 0xa5a5_a5a5 } else { 0 }));
    }
}
