//! Every fault, with its place, by every call that can give it.
use dumachik::{count, print_into, scan, statement_into, Fault, Mfl, STATEMENT_ROOM};

/// Refused so by Count, by Print and by Statement at any index, each output being left as it was, and by `Mfl::parse`.
fn refused(text: impl AsRef<[u8]>, number: u32, place: usize) {
    let text = text.as_ref();
    let named = || String::from_utf8_lossy(&text[..text.len().min(60)]).into_owned();
    let refusal = count(text).expect_err(&named());
    assert_eq!((refusal.number(), refusal.place), (number, place), "{}", named());

    let mut out = vec![0xa5; text.len() + 1];
    assert_eq!(print_into(text, &mut out), Err(refusal), "{}", named());
    assert!(out.iter().all(|&byte| byte == 0xa5), "{}", named());
    assert_eq!(print_into(text, &mut []), Err(refusal), "{}", named());

    for index in [0, 1, u32::MAX] {
        let mut out = [0xa5a5_a5a5; STATEMENT_ROOM];
        assert_eq!(statement_into(text, index, &mut out), Err(refusal), "{}", named());
        assert!(out.iter().all(|&number| number == 0xa5a5_a5a5), "{}", named());
    }
    assert_eq!(Mfl::parse(text), Err(refusal), "{}", named());
}

fn array(entries: usize) -> String {
    format!("LET(A,[{}])", vec!["B"; entries].join(","))
}

#[test]
fn text_too_long() {
    assert_eq!(count(&[b' '; 16384]), Ok(0));
    refused([b' '; 16385], 1, 0);
    refused([b'$'; 16385], 1, 0);
}

#[test]
fn stray_byte() {
    refused("ABSORPTION?($)", 2, 12);
    refused("LAGTIME(ON;)\n# $\n .", 2, 18);
    refused([255], 2, 0);
    assert_eq!(count(b"# \xff"), Ok(0));
    assert_eq!((scan(b"IIV($"), scan(b"IIV("), scan(b"")), (4, 4, 0));
}

#[test]
fn unexpected_token() {
    refused("FOO(", 3, 4);
    refused("LAGTIME(ON) LAGTIME(ON)", 3, 12);
    refused("LAGTIME([1..2])", 3, 10);
    refused("LET?(A,B)", 3, 3);
    refused("IIV(@3,EXP)", 3, 5);
}

#[test]
fn not_a_count() {
    assert_eq!(Mfl::parse("PERIPHERALS(0000000000064)").unwrap().as_str(), "PERIPHERALS(64)");
    refused("PERIPHERALS(65)", 4, 12);
    refused("PERIPHERALS(4294967296)", 4, 12);
    refused("PERIPHERALS([1, 1.5])", 4, 16);
    refused("PERIPHERALS(0..65)", 4, 15);
}

#[test]
fn range_backwards() {
    assert_eq!(Mfl::parse("PERIPHERALS(2..2)").unwrap().as_str(), "PERIPHERALS(2..2)");
    refused("PERIPHERALS(2..1)", 5, 12);
    refused("FOO(2 .. 1)", 5, 4);
}

#[test]
fn unknown_keyword() {
    refused("LAGTIME(ON);FOO(1)", 6, 12);
}

#[test]
fn not_optional() {
    refused("ABSORPTION?(*)", 7, 0);
    refused(";TRANSITS?(N)", 7, 1);
}

#[test]
fn argument_number() {
    refused("LAGTIME()", 8, 0);
    refused(" COVARIATE?(CL,WT)", 8, 1);
    refused("ABSORPTION?(FO,ZO)", 8, 0);
}

#[test]
fn wrong_argument() {
    refused("COVARIATE(CL,WT,*)", 9, 16);
    refused("COVARIATE(CL,WT,*,CL)", 9, 16);
    refused("TRANSITS(N,*)", 9, 11);
    refused("IIV([],EXP)", 9, 4);
    refused("PERIPHERALS([1,x])", 9, 12);
    refused("ALLOMETRY(70)", 9, 10);
    refused("LET(A,*)", 9, 6);
}

#[test]
fn unknown_mode() {
    refused("LAGTIME(MAYBE)", 10, 8);
    refused("LAGTIME([ON,1])", 10, 12);
}

#[test]
fn too_many() {
    assert_eq!(count("LAGTIME(ON);".repeat(256).as_bytes()), Ok(256));
    assert_eq!(count((" LAGTIME(ON);".repeat(256) + "\n;# x").as_bytes()), Ok(256));
    refused("LAGTIME(ON);".repeat(257), 11, 3072);
    refused("LAGTIME(ON);".repeat(256) + ")", 11, 3072);
    refused("LAGTIME(ON);".repeat(256) + "$", 2, 3072);
    assert_eq!(count(array(64).as_bytes()), Ok(1));
    refused(array(65), 11, 135);
}

#[test]
fn output_too_short() {
    let text = b" peripherals( 007 ) # x";
    let mut out = [0xa5; 16];
    for room in 0..14 {
        let refusal = print_into(text, &mut out[..room]).unwrap_err();
        assert_eq!((refusal.fault, refusal.number(), refusal.place), (Fault::OutputTooShort, 19, 0));
        assert_eq!(out, [0xa5; 16]);
    }
    assert_eq!(print_into(text, &mut out), Ok(14));
    assert_eq!(out, *b"PERIPHERALS(7)\xa5\xa5");

    let mut out = [7; 6];
    for room in 0..5 {
        let refusal = statement_into(text, 0, &mut out[..room]).unwrap_err();
        assert_eq!((refusal.number(), refusal.place), (19, 0));
        assert_eq!(out, [7; 6]);
    }
    assert_eq!(statement_into(text, 0, &mut out), Ok(5));
    assert_eq!(out, [2, 0, 2, 7, 9, 7]);
}

#[test]
fn no_such_statement() {
    for (text, index) in [("", 0), ("LAGTIME(ON)", 1), ("LAGTIME(ON)", u32::MAX)] {
        let refusal = statement_into(text.as_bytes(), index, &mut []).unwrap_err();
        assert_eq!((refusal.fault, refusal.number(), refusal.place), (Fault::NoSuchStatement, 20, index as usize));
    }
    assert_eq!(Mfl::parse("LAGTIME(ON)").unwrap().statement(1), None);
    assert_eq!(Mfl::parse("LAGTIME(ON)").unwrap().statement(usize::MAX), None);
}

#[test]
fn in_words() {
    let text = "LAGTIME(ON)\nLAGTIME(MAYBE)";
    let refusal = Mfl::parse(text).unwrap_err();
    assert_eq!(refusal.to_string(), "MFL: 10 at 20: unknown mode");
    assert_eq!(refusal.line_and_column(text), (2, 9));
    assert_eq!(Mfl::parse("FOO(").unwrap_err().line_and_column("FOO("), (1, 5));
}
