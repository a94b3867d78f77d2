"""Requests `count` with their answers: every fault from 1 to 11 with its place and every limit, written by hand after document 01, and texts
that are accepted, with the judge's count. Where the source has the limit or the rule too, the judge must refuse what is refused here."""
import sys

import judged
from texts import Texts, number_of

# Every fault: the text, the number, the place.
FAULTS = [
    # 2: a byte that starts no token wins over what stands before it
    ("ABSORPTION?($)", 2, 12), ("FOO($", 2, 4), ("PERIPHERALS(65);%", 2, 16), ("1.", 2, 1), ("A(1...2)", 2, 5), ("LET(A,B)é", 2, 8),
    # 3: a token that is not allowed, or the text's end
    ("FOO(", 3, 4), ("(", 3, 0), ("1", 3, 0), (";*", 3, 1), ("IIV", 3, 3), ("IIV?", 3, 4), ("IIV??", 3, 4), ("IIV CL", 3, 4),
    ("IIV(CL EXP)", 3, 7), ("IIV(CL,)", 3, 7), ("IIV(,)", 3, 4), ("IIV(CL,EXP", 3, 10), ("IIV(CL,EXP;", 3, 10), ("IIV(CL\n,EXP)", 3, 6),
    ("IIV(@)", 3, 5), ("IIV(@1,EXP)", 3, 5), ("IIV(@", 3, 5), ("IIV([CL V],EXP)", 3, 8), ("IIV([CL,],EXP)", 3, 8), ("IIV([,CL],EXP)", 3, 5),
    ("IIV([CL", 3, 7), ("IIV([", 3, 5), ("IIV([@PK],EXP)", 3, 5), ("IIV([*],EXP)", 3, 5), ("PERIPHERALS([1..2])", 3, 14),
    ("PERIPHERALS(1..)", 3, 15), ("PERIPHERALS(1..x)", 3, 15), ("PERIPHERALS(1..2..3)", 3, 16), ("PERIPHERALS(..2)", 3, 12),
    ("LAGTIME(ON) LAGTIME(ON)", 3, 12), ("LAGTIME(ON))", 3, 11), ("LET", 3, 3), ("LET?(A,B)", 3, 3), ("LET(1,B)", 3, 4), ("LET(A)", 3, 5),
    ("LET(A,B,C)", 3, 7), ("LET(A,)", 3, 6), ("LET(A,B", 3, 7), ("LET A", 3, 4), ("?", 3, 0), ("LAGTIME", 3, 7), ("LAGTIME(ON)(", 3, 11),
    # 4: a count that is no whole 32-bit number, or above the limit
    ("PERIPHERALS(65)", 4, 12), ("PERIPHERALS(1.0)", 4, 12), ("PERIPHERALS(4294967296)", 4, 12), ("PERIPHERALS([1,65,a])", 4, 15),
    ("PERIPHERALS(65..2)", 4, 12), ("PERIPHERALS(2..65)", 4, 15), ("PERIPHERALS(70..65)", 4, 12), ("FOO(1.5..2)", 4, 4), ("LET(A,65..2)", 4, 6),
    ("TRANSITS(18446744073709551617)", 4, 9), ("TRANSITS(00000000000000000065,DEPOT)", 4, 9),
    # 5: a range that runs backwards
    ("PERIPHERALS(2..1)", 5, 12), ("FOO(2..1)", 5, 4), ("ABSORPTION(FO, 3 .. 2)", 5, 15), ("LET(A,2..1)", 5, 6),
    # 6: an unknown keyword
    ("FOO()", 6, 0), ("FOO(1,2,3,4,5)", 6, 0), (" LETS(A,B)", 6, 1), ("LAGTIME(ON);IIVS?(CL,EXP)", 6, 12),
    # 7: `?` on a feature without it, judged last
    ("ABSORPTION?(*)", 7, 0), ("ELIMINATION?(FO)", 7, 0), ("PERIPHERALS?(1)", 7, 0), ("TRANSITS?(N)", 7, 0), ("LAGTIME?(ON)", 7, 0),
    ("ALLOMETRY?(WT)", 7, 0), ("DIRECTEFFECT?(*)", 7, 0), ("EFFECTCOMP?(*)", 7, 0), ("INDIRECTEFFECT?(*,*)", 7, 0), ("METABOLITE?(*)", 7, 0),
    # 8: the number of arguments
    ("ABSORPTION()", 8, 0), ("ABSORPTION(FO,ZO)", 8, 0), ("ELIMINATION()", 8, 0), ("PERIPHERALS()", 8, 0), ("PERIPHERALS(1,MET,*)", 8, 0),
    ("TRANSITS(1,*,*)", 8, 0), ("TRANSITS(N,*,*)", 8, 0), ("LAGTIME(ON,OFF)", 8, 0), ("COVARIATE(CL,WT)", 8, 0), ("COVARIATE(CL,WT,lin,+,+)", 8, 0),
    ("ALLOMETRY(WT,70,1)", 8, 0), ("DIRECTEFFECT(*,*)", 8, 0), ("EFFECTCOMP()", 8, 0), ("INDIRECTEFFECT(*)", 8, 0), ("METABOLITE(*,*)", 8, 0),
    ("IIV(CL)", 8, 0), ("IOV(CL,EXP,ADD)", 8, 0), ("COVARIANCE(IIV)", 8, 0), ("ABSORPTION?()", 8, 0),
    # 9: an argument of a wrong kind
    ("ABSORPTION(1)", 9, 11), ("ABSORPTION(@A)", 9, 11), ("ABSORPTION(1..2)", 9, 11), ("ABSORPTION(+)", 9, 11), ("ABSORPTION([])", 9, 11),
    ("PERIPHERALS(x)", 9, 12), ("PERIPHERALS(*)", 9, 12), ("PERIPHERALS([])", 9, 12), ("PERIPHERALS([1,a,65])", 9, 12), ("TRANSITS(N,*)", 9, 11),
    ("TRANSITS(n, DEPOT)", 9, 12), ("TRANSITS([N])", 9, 9), ("COVARIATE(CL,WT,*)", 9, 16), ("COVARIATE(CL,WT,*,1)", 9, 16),
    ("COVARIATE(CL,WT,lin,1)", 9, 20), ("COVARIATE(1..2,WT,lin)", 9, 10), ("COVARIATE(CL,+,lin)", 9, 13), ("COVARIATE([],WT,lin)", 9, 10),
    ("ALLOMETRY(1)", 9, 10), ("ALLOMETRY([WT])", 9, 10), ("ALLOMETRY(WT,x)", 9, 13), ("ALLOMETRY(*,x)", 9, 10), ("IIV(+,EXP)", 9, 4),
    ("COVARIANCE(IIV,+)", 9, 15), ("LET(A,*)", 9, 6), ("LET(A,@B)", 9, 6), ("LET(A,[])", 9, 6), ("LET(A,+)", 9, 6), ("LET(A,1..2)", 9, 6),
    # 10: an unknown mode
    ("ABSORPTION(MM)", 10, 11), ("ABSORPTION([FO,XX])", 10, 15), ("ABSORPTION([1])", 10, 12), ("LAGTIME?(NO)", 10, 9), ("IIV(CL,lin)", 10, 7),
    ("COVARIATE(CL,WT,EX)", 10, 16), ("INDIRECTEFFECT(*,FO)", 10, 17), ("PERIPHERALS(1,DEPOT)", 10, 14), ("COVARIANCE(IIVS,CL)", 10, 11),
]

STATEMENT = "LAGTIME(ON)"

# At the limits, which the source does not have: the text and the answer.
LIMITS = [
    (" " * 16384, b"ok 0"),
    (" " * 16385, b"refused 1 0"),
    ("$" * 16385, b"refused 1 0"),
    ("\n" * 16373 + STATEMENT, b"ok 1"),
    (";".join([STATEMENT] * 256), b"ok 256"),
    ("\n".join([STATEMENT] * 256) + ";;\n# end", b"ok 256"),
    (";".join([STATEMENT] * 257), b"refused 11 3072"),
    (";".join([STATEMENT] * 256) + ";(", b"refused 11 3072"),
    (";".join([STATEMENT] * 256) + " (", b"refused 11 3072"),
    (";".join([STATEMENT] * 256) + STATEMENT, b"refused 11 3071"),
    (";".join([STATEMENT] * 256) + ";1$", b"refused 2 3073"),
    (";".join([STATEMENT] * 255) + " (", b"refused 3 3060"),
    ("LET(A,[" + ",".join(["B"] * 64) + "])", b"ok 1"),
    ("LET(A,[" + ",".join(["B"] * 65) + "])", b"refused 11 135"),
    ("FOO([" + ",".join(["1"] * 65) + "])", b"refused 11 133"),
    ("LET(A,[" + ",".join(["B"] * 64) + ",])", b"refused 3 135"),
    ("ABSORPTION([" + ",".join(["FO"] * 64) + "])", b"ok 1"),
    ("PERIPHERALS([" + ",".join(["64"] * 64) + "])", b"ok 1"),
]

# Accepted texts that are worth their own line.
ACCEPTED = [
    "", "# nothing", ";;\n;", "PERIPHERALS(64)", "PERIPHERALS(2..2)", "PERIPHERALS(0000000000064)", "TRANSITS(n)", "TRANSITS([0,1,1])",
    "COVARIATE?(CL,WT,*,*)", "COVARIATE(CL,WT,[lin,LIN,Exp],+)", "COVARIATE?(*,@X,*)", "ALLOMETRY(WT,70.5)", "ALLOMETRY(WT)",
    "absorption([seq-zo-fo,Weibull]);elimination(mix-fo-mm)", "INDIRECTEFFECT(*,[PRODUCTION,degradation])", "COVARIANCE?([IIV,IOV],*)",
    "IIV ? ( @ PK , EXP )", "LET(A,1)", "let(Let,[1,a,2.5])", "IIV(70,RE_LOG)", "IIV([70,CL],*);IOV(*,prop)", "METABOLITE(psc)\r\nDIRECTEFFECT(*)\r\n",
    "EFFECTCOMP([EMAX,EMAX])", "LAGTIME([OFF,ON])#", "IIV(CL-,EXP)", "PERIPHERALS(1,[DRUG,MET])", "TRANSITS(0..3,NODEPOT)",
]


def request(text):
    return b"count " + text.encode().hex().encode()


def pairs(program):
    """The requests and their answers."""
    made = Texts(3)
    generated = [t for t in (made.text() for _ in range(400)) if len(t) < 2000]
    held = [t for t, _, _ in FAULTS] + ACCEPTED + generated
    judged_by = dict(zip(held, judged.run(program, [request(t) for t in held])))
    out = []
    for text, number, place in FAULTS:
        theirs = judged_by[text].decode()
        if theirs.startswith("ok") or number_of(theirs) != number:
            sys.exit(f"the judge does not refuse {text!r} by {number}: {theirs}")
        out.append((request(text), b"refused %d %d" % (number, place)))
    out += [(request(text), answer) for text, answer in LIMITS]
    for text in ACCEPTED:
        if not judged_by[text].startswith(b"ok "):
            sys.exit(f"the judge refuses {text!r}")
        out.append((request(text), judged_by[text]))
    out += [(request(t), judged_by[t]) for t in generated if judged_by[t].startswith(b"ok ")][:120]
    return out
