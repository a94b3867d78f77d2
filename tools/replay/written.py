"""Requests `line`, `line-profile`, `line-ground`, `line-effects` and `line-notes` with their answers: the bytes that the programs write. The
answers are written by hand after document 01 and docs/CALLS.md: a refusal of each number that reading has, texts that are accepted, and K's
ground texts, effects and notes."""

# Document 01's K, as docs/CALLS.md has it.
K = (
    "11 434c564b41434c56636c434c76566b614b4157545345585754534558 "
    "0+2,2+1,3+2/5+2,7+1/8+2=10+2,12+1=13+1,14+2=16+2/18+2:0,20+3:1/23+2,25+3"
)

PRINTED = [
    (" peripherals( 007 ) # x", "PERIPHERALS(7)\n"), ("", "\n"), ("LAGTIME(ON)\n\nIIV?(CL,EXP);", "LAGTIME(ON);IIV?(CL,EXP)\n"),
    ("#" + "x" * 16384, "refused 1 0\n"), ("ABSORPTION?($)", "refused 2 12\n"), ("FOO(", "refused 3 4\n"), ("PERIPHERALS(65)", "refused 4 12\n"),
    ("PERIPHERALS(2..1)", "refused 5 12\n"), ("FOO()", "refused 6 0\n"), ("ABSORPTION?(*)", "refused 7 0\n"), ("ABSORPTION()", "refused 8 0\n"),
    ("TRANSITS(N,*)", "refused 9 11\n"), ("ABSORPTION(MM)", "refused 10 11\n"), ("LAGTIME(ON);" * 256 + "X", "refused 11 3072\n"),
]
CEILINGS = [(7, "PERIPHERALS(7)", "PERIPHERALS(7)\n"), (6, "PERIPHERALS(7)", "refused 4 12\n"), (257, "", "refused 21 0\n")]
PROFILED = [
    ("LAGTIME(ON)", "ok\n"), ("PERIPHERALS(65)", "refused 4 12\n"), ("LET(A,B);METABOLITE(*)", "refused 22 1\n"),
    ("LAGTIME(ON);LAGTIME(ON)", "refused 23 1\n"), ("PERIPHERALS(11)", "refused 24 0\n"),
]
FORCED = "COVARIATE(CL,WT,lin);COVARIATE(CL,WT,exp)"
BOTH = "COVARIATE(@PK,WT,lin);COVARIATE?(CL,WT,exp)"
GROUND = [
    (BOTH, "COVARIATE(V,WT,lin);COVARIATE(KA,WT,lin);COVARIATE?(CL,WT,exp)\n"), ("COVARIANCE(IIV,CL)", "\n"), (FORCED, "refused 17 1\n"),
    ("PERIPHERALS(65)", "refused 4 12\n"),
]
EFFECTS = [
    (BOTH, "V WT lin * mandatory\nKA WT lin * mandatory\nCL WT exp * optional\n"), ("COVARIATE?(V,SEX,cat,+)", "V SEX cat + optional\n"),
    ("LAGTIME(ON)", ""), (FORCED, "refused 17 1\n"),
]
NOTES = [
    ("COVARIANCE(IIV,CL)", "statement 0, line 1: dropped, for it has fewer than two parameters in this model: COVARIANCE(IIV,CL)\n"),
    ("LET(A,CL) # )\n\n iiv( @PD, EXP ); covariate?(@PD,*,lin)",
     "statement 1, line 3: dropped, for its parameters stand for nothing in this model: iiv( @PD, EXP )\n"
     "statement 2, line 3: dropped, for its parameters or its covariates stand for nothing in this model: covariate?(@PD,*,lin)\n"),
    ("COVARIATE(CL,WT,lin,+)", "some effects are additive (+): each adds to its parameter and is null where its coefficient is 0\n"),
    ("LAGTIME(ON)", ""), (FORCED, "refused 17 1\n"),
]


def hexed(text):
    return text.encode().hex()


def pairs():
    answers = [("line " + (hexed(t) or "-"), w) for t, w in PRINTED]
    answers += [(f"under {n} line " + (hexed(t) or "-"), w) for n, t, w in CEILINGS]
    answers += [("line-profile " + (hexed(t) or "-"), w) for t, w in PROFILED]
    for word, cases in (("line-ground", GROUND), ("line-effects", EFFECTS), ("line-notes", NOTES)):
        answers += [(f"{word} {hexed(t)} {K}", w) for t, w in cases]
    return [(request.encode(), b"ok " + hexed(written).encode()) for request, written in answers]
