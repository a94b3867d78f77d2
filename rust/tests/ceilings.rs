//! Ceilings for counts, from 0 to 256, by every call that reads.
use dumachik::{
    count, count_under, print_into_under, resolve, resolve_into_under, statement_into_under, statement_under, statements_into_under,
    statements_under, Buffers, Counts, CovariateKind, Fault, Feature, Mfl, ModelContext, Refusal, Statement, MAX_CEILING, MAX_COUNT,
    STATEMENT_ROOM, WORKING,
};

fn peripherals(counts: Counts) -> Statement {
    Statement::Feature(Feature::Peripherals { counts, kind: None })
}

/// Count, Print, Statement and the two forms of all statements under a ceiling: all accept or refuse alike.
fn read(text: &str, ceiling: u32) -> Result<usize, Refusal> {
    let answer = count_under(text.as_bytes(), ceiling);
    let mut out = vec![0; text.len()];
    let printed = print_into_under(text.as_bytes(), &mut out, ceiling).map(|length| out[..length].to_vec());
    let space = Mfl::parse_under(text, ceiling);
    assert_eq!(printed.map(|bytes| String::from_utf8(bytes).unwrap()), space.as_ref().map(Mfl::render).map_err(|refusal| *refusal));
    assert_eq!(statements_under(text.as_bytes(), ceiling).map(|all| all.len()), answer);
    assert_eq!(space.as_ref().map(Mfl::len).map_err(|refusal| *refusal), answer);
    let first = statement_under(text.as_bytes(), 0, ceiling);
    match answer {
        Err(refusal) => assert_eq!(first, Err(refusal), "{text}"),
        Ok(0) => assert_eq!(first.unwrap_err().fault, Fault::NoSuchStatement),
        Ok(_) => assert_eq!(&first.unwrap(), space.unwrap().statement(0).unwrap(), "{text}"),
    }
    answer
}

fn refused(text: &str, ceiling: u32, fault: Fault, place: usize) {
    assert_eq!(read(text, ceiling), Err(Refusal { fault, place }), "{text} under {ceiling}");
}

/// The largest count, and one more, wherever a count may stand.
#[test]
fn held_to_the_ceiling() {
    for ceiling in [0, 1, 3, 63, 64, 65, 255, 256] {
        let over = ceiling + 1;
        for (text, place) in [
            ("PERIPHERALS(_)", 12),
            ("PERIPHERALS(000_)", 12),
            ("PERIPHERALS(0.._)", 15),
            ("PERIPHERALS(_.._)", 12),
            ("TRANSITS([0, _],DEPOT)", 13),
            ("LAGTIME(ON);TRANSITS([_])", 22),
        ] {
            assert_eq!(
                read(&text.replace('_', &ceiling.to_string()), ceiling),
                Ok(1 + text.matches(';').count()),
                "{text} under {ceiling}"
            );
            refused(&text.replace('_', &over.to_string()), ceiling, Fault::NotACount, place);
        }
        // a range is held to it where it is refused later, too
        for (text, place) in [("LET(A,0.._)", 6), ("IIV(0.._,EXP)", 4), ("COVARIATE?(CL,0.._,lin)", 14), ("LAGTIME(0.._)", 8)] {
            refused(&text.replace('_', &ceiling.to_string()), ceiling, Fault::WrongArgument, place);
            refused(&text.replace('_', &over.to_string()), ceiling, Fault::NotACount, place + 3);
        }
        refused(&format!("PERIPHERALS({over}..0)"), ceiling, Fault::NotACount, 12);
        // names that are numbers and ALLOMETRY's reference are no counts
        assert_eq!(read(&format!("LET({0},{over});IIV([{over},CL],EXP);ALLOMETRY(WT,{over})", "A"), ceiling), Ok(3));
    }
}

#[test]
fn ceiling_too_high() {
    for ceiling in [257, 258, 65536, 65600, u32::MAX] {
        for text in ["", "LAGTIME(ON)", "$", "PERIPHERALS(1000)", &" ".repeat(16385)] {
            refused(text, ceiling, Fault::CeilingTooHigh, 0);
        }
        let mut bytes = [0xa5; 32];
        assert_eq!(print_into_under(b"LAGTIME(ON)", &mut bytes, ceiling).unwrap_err().number(), 21);
        assert_eq!(bytes, [0xa5; 32]);
        let mut numbers = [7; STATEMENT_ROOM];
        assert_eq!(statement_into_under(b"LAGTIME(ON)", 9, &mut numbers, ceiling).unwrap_err().number(), 21);
        assert_eq!(statements_into_under(b"LAGTIME(ON)", &mut numbers, ceiling).unwrap_err().number(), 21);
        assert_eq!(numbers, [7; STATEMENT_ROOM]);
        assert_eq!(Mfl::from_statements_under(Vec::new(), ceiling).unwrap_err().number(), 21);
    }
    assert_eq!(MAX_CEILING, 256);
    let refusal = count_under(b"", 257).unwrap_err();
    assert_eq!(refusal.to_string(), "MFL: 21 at 0: ceiling above 256");
    assert_eq!((refusal.statement(), refusal.fault.message()), (None, "ceiling above 256"));
}

/// Without a ceiling it is 64.
#[test]
fn usual_ceiling() {
    assert_eq!(MAX_COUNT, 64);
    for text in ["PERIPHERALS(64)", "PERIPHERALS(65)", "TRANSITS(0..65)"] {
        assert_eq!(count(text.as_bytes()), count_under(text.as_bytes(), 64));
        assert_eq!(Mfl::parse(text), Mfl::parse_under(text, 64));
    }
    assert_eq!((Mfl::parse("PERIPHERALS(64)").unwrap().ceiling(), Mfl::default().ceiling()), (64, 64));
}

/// A space keeps its ceiling; equal spaces may have different ones.
#[test]
fn spaces() {
    let space = Mfl::parse_under(" peripherals( 0256 ) # x", 256).unwrap();
    assert_eq!((space.as_str(), space.ceiling()), ("PERIPHERALS(256)", 256));
    assert_eq!(space.statements(), [peripherals(Counts::Single(256))]);
    assert_eq!(Mfl::from_statements_under(space.statements().to_vec(), 256).unwrap(), space);
    assert_eq!(Mfl::from_statements(space.statements().to_vec()).unwrap_err().number(), 4);
    assert_eq!(Mfl::parse_under("PERIPHERALS(2)", 3), Mfl::parse("PERIPHERALS(2)"));
}

/// A ground text is made and read again under the ceiling of its space.
#[test]
fn resolving() {
    let model = ModelContext {
        parameters: vec!["CL".into(), "V".into()],
        covariates: Some(vec![("WT".into(), CovariateKind::Continuous)]),
        ..ModelContext::default()
    };
    let text = "transits([3,0256]);COVARIATE?(CL,@CONTINUOUS,lin)";
    let ground = "TRANSITS([3,256]);COVARIATE?(CL,WT,lin)";
    let resolved = resolve(&Mfl::parse_under(text, 256).unwrap(), &model).unwrap();
    assert_eq!((resolved.mfl.as_str(), resolved.mfl.ceiling()), (ground, 256));
    assert_eq!(resolve(&resolved.mfl, &model).unwrap().mfl, resolved.mfl);
    assert_eq!(Mfl::parse(resolved.mfl.render()).unwrap_err().number(), 4);

    let handed = model.handed();
    let lent = |text: &str, work, ceiling| {
        let mut buffers = Buffers { work: vec![7; work], ..Buffers::default() };
        let answer = resolve_into_under(text.as_bytes(), &handed.block, &handed.lists, &mut buffers, ceiling);
        assert!(buffers.work.iter().all(|&number| number == if work < WORKING { 7 } else { 0 }));
        answer.map(|lengths| lengths.ground).map_err(|refusal| (refusal.number(), refusal.place))
    };
    assert_eq!(lent(text, WORKING, 256), Ok(ground.len()));
    assert_eq!(lent(text, WORKING, 255), Err((4, 12)));
    assert_eq!(lent(text, WORKING, 257), Err((21, 0)));
    assert_eq!(lent("IIV(@X,EXP)", WORKING, 257), Err((21, 0)));
    // a working buffer that is too short comes first of all
    assert_eq!(lent(text, WORKING - 1, 257), Err((19, 0)));
    let mut wrong = Buffers::default();
    assert_eq!(resolve_into_under(b"", b"", &[], &mut wrong, 257).unwrap_err().number(), 21);
    assert_eq!(resolve_into_under(b"", b"", &[], &mut wrong, 256).unwrap_err().number(), 12);
}
