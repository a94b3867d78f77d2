//! The PK-only profile: what it has, and each of its faults at its statement.
use dumachik::{
    count_under, profile, profile_under, resolve, CovariateKind, Fault, Mfl, ModelContext, Refusal, MAX_COUNT, MAX_PROFILE_COUNT,
};

const FIVE: [&str; 5] = ["ABSORPTION(FO)", "ELIMINATION(MM)", "PERIPHERALS(1)", "TRANSITS(N)", "LAGTIME(ON)"];
const OUTSIDE: [&str; 4] = ["DIRECTEFFECT(EMAX)", "EFFECTCOMP(*)", "INDIRECTEFFECT(*,PRODUCTION)", "METABOLITE(PSC)"];

fn fits(text: &str) {
    assert_eq!(profile(text.as_bytes()), Ok(()), "{text}");
    assert_eq!(profile_under(text.as_bytes(), MAX_COUNT), Ok(()), "{text}");
    assert_eq!(Mfl::parse(text).unwrap().profile(), Ok(()), "{text}");
}

fn against(text: &str, fault: Fault, index: usize) {
    let refusal = Refusal { fault, place: index };
    assert_eq!(profile(text.as_bytes()), Err(refusal), "{text}");
    // the text is read all the same
    assert_eq!(Mfl::parse(text).unwrap().profile(), Err(refusal), "{text}");
    assert_eq!(refusal.statement(), Some(index));
}

#[test]
fn of_the_profile() {
    assert_eq!(Mfl::default().profile(), Ok(()));
    for text in
        ["", "# nothing", "LET(METABOLITE,11)", "IIV(CL,EXP);IIV(CL,EXP)", "LET(A,11);LET(A,12)", "ALLOMETRY(WT,70);ALLOMETRY(WT,11)"]
    {
        fits(text);
    }
    fits(&FIVE.join("\n"));
    fits("COVARIATE?(CL,WT,*);COVARIATE?(CL,WT,*);IOV(11,EXP);IOV(11,EXP);COVARIANCE(IIV,[11,12]);COVARIANCE(IIV,*)");
}

#[test]
fn outside() {
    for feature in OUTSIDE {
        against(feature, Fault::OutsideProfile, 0);
        // LETs count
        against(&format!("LET(A,B);LAGTIME(ON);;LET(C,D)\n{feature};LAGTIME(ON)"), Fault::OutsideProfile, 3);
    }
}

#[test]
fn second_statement() {
    for (at, feature) in FIVE.iter().enumerate() {
        against(&format!("{feature};{feature}"), Fault::SecondStatement, 1);
        let between = FIVE[(at + 1) % 5];
        against(&format!("LET(A,B);{feature};{between};LET(C,D);{feature};{feature}"), Fault::SecondStatement, 4);
    }
    against("TRANSITS(N);TRANSITS(1)", Fault::SecondStatement, 1);
    against("PERIPHERALS(1);peripherals(1,MET)", Fault::SecondStatement, 1);
}

#[test]
fn counts() {
    assert_eq!(MAX_PROFILE_COUNT, 10);
    for keyword in ["PERIPHERALS", "TRANSITS"] {
        for form in ["(_)", "(000_)", "(0.._)", "(10.._)", "([_])", "([0,_,1])", "([_,0],*)"] {
            let text = |count: u32| keyword.to_string() + &form.replace('_', &count.to_string());
            fits(&text(10));
            against(&text(11), Fault::CountAboveTen, 0);
            against(&format!("LET(A,B);IIV(CL,EXP);{};LAGTIME(ON)", text(64)), Fault::CountAboveTen, 2);
        }
    }
    against("PERIPHERALS(11..12)", Fault::CountAboveTen, 0);
}

/// The first statement first; in one, 23 comes before 24.
#[test]
fn order() {
    against("TRANSITS(11);METABOLITE(PSC)", Fault::CountAboveTen, 0);
    against("METABOLITE(PSC);TRANSITS(11)", Fault::OutsideProfile, 0);
    against("LAGTIME(ON);LAGTIME(ON);METABOLITE(PSC)", Fault::SecondStatement, 1);
    against("TRANSITS(1);TRANSITS(11)", Fault::SecondStatement, 1);
    against("METABOLITE(PSC);METABOLITE(PSC)", Fault::OutsideProfile, 0);
}

/// What reading refuses is refused so, whatever stands before it.
#[test]
fn reading_first() {
    for text in ["METABOLITE(PSC);FOO(1)", "LAGTIME(ON);LAGTIME(ON);$", "TRANSITS(11);TRANSITS(257)", "METABOLITE?(*)", &" ".repeat(16385)]
    {
        for ceiling in [0, 3, 64, 256, 257, u32::MAX] {
            let refusal = count_under(text.as_bytes(), ceiling).unwrap_err();
            assert_eq!(profile_under(text.as_bytes(), ceiling), Err(refusal), "{text} under {ceiling}");
        }
    }
}

#[test]
fn ceilings() {
    let of = |text: &str, ceiling| profile_under(text.as_bytes(), ceiling).map_err(|refusal| (refusal.number(), refusal.place));
    for (ceiling, eleven) in [(3, (4, 12)), (10, (4, 12)), (11, (24, 0)), (64, (24, 0)), (256, (24, 0)), (257, (21, 0))] {
        assert_eq!(of("PERIPHERALS(11)", ceiling), Err(eleven));
        let second = if ceiling > 256 { (21, 0) } else { (23, 1) };
        assert_eq!(of("LAGTIME(ON);LAGTIME(ON)", ceiling), Err(second));
    }
    assert_eq!((of("TRANSITS(0..3)", 3), of("TRANSITS(0..4)", 3)), (Ok(()), Err((4, 12))));
    assert_eq!((of("TRANSITS(10)", 10), of("TRANSITS(10)", 11), of("TRANSITS(256)", 256)), (Ok(()), Ok(()), Err((24, 0))));
    assert_eq!(Mfl::parse_under("TRANSITS(200)", 256).unwrap().profile().unwrap_err().number(), 24);
    assert_eq!(Mfl::parse_under("TRANSITS(3)", 3).unwrap().profile(), Ok(()));
}

#[test]
fn messages() {
    let message = |text: &str| profile(text.as_bytes()).unwrap_err().to_string();
    assert_eq!(message("LET(A,B);METABOLITE(PSC)"), "MFL: 22 at statement 1: feature outside the PK-only profile");
    assert_eq!(
        message("LAGTIME(ON);LAGTIME(ON)"),
        "MFL: 23 at statement 1: second statement of a feature that the PK-only profile has once"
    );
    assert_eq!(message("TRANSITS(11)"), "MFL: 24 at statement 0: count above 10, the highest of the PK-only profile");
}

/// A ground space of such a space is one too.
#[test]
fn ground() {
    let model = ModelContext {
        parameters: vec!["CL".into(), "V".into()],
        covariates: Some(vec![("WT".into(), CovariateKind::Continuous)]),
        ..ModelContext::default()
    };
    let space = Mfl::parse_under("LET(S,[CL,V]);transits([3,10]);COVARIATE?(@S,*,*);IIV(@S,EXP);LAGTIME(*)", 10).unwrap();
    assert_eq!(space.profile(), Ok(()));
    let resolved = resolve(&space, &model).unwrap();
    assert_eq!((resolved.mfl.ceiling(), resolved.mfl.profile()), (10, Ok(())));
}
