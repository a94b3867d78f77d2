"""Known answers of dumachik.py. usage: python3 python/test_dumachik.py (after tools/shared-library); its last line is `N passed, M failed`."""
import copy
import doctest
import multiprocessing
import pathlib
import pickle
import sys

sys.path.insert(0, str(pathlib.Path(__file__).resolve().parent))
import dumachik
from dumachik import Context, Effect, Note, Refusal, Statement, Symbol

# Document 01's K.
K = Context(
    ["CL", "V", "KA"],
    iiv=["CL", "V"],
    template=[("cl", "CL"), ("v", "V"), ("ka", "KA")],
    covariates={"WT": "continuous", "SEX": "categorical"},
    columns=["WT", "SEX"],
)
passed = failed = 0


def check(what, got, wanted):
    global passed, failed
    if got == wanted:
        passed += 1
    else:
        failed += 1
        print(f"{what}: got {got!r}, wanted {wanted!r}")


def refused(what, call, *wanted):
    """The number, the place, the line and the column of what a call refuses."""
    try:
        check(what, call(), wanted)
    except Refusal as refusal:
        check(what, (refusal.number, refusal.place, refusal.line, refusal.column, refusal.statement), wanted)


check("the module's examples", doctest.testmod(dumachik).failed, 0)
check("count", [dumachik.count(text) for text in ("", "LAGTIME(ON);;\n ABSORPTION(*) # é", b"# \xff")], [0, 2, 0])
check("render", dumachik.render("let(S, [WT]); lagtime([ON,on])\nIIV?(@S, *)"), "LET(S,WT);LAGTIME(ON);IIV?(@S,*)")
check("render, empty", dumachik.render(" # none"), "")



def raised(what, call, kind):
    """That a call raises an error of a kind, and that it says so in words."""
    try:
        check(what, call(), kind)
    except kind as error:
        check(what, len(str(error)) > 10, True)


raised("a number is no text", lambda: dumachik.count(0), TypeError)
raised("a str is no list of names", lambda: dumachik.resolve("", Context("CL")), TypeError)
raised("a str is no list of IIV parameters", lambda: dumachik.resolve("", Context(["CL"], iiv="CL")), TypeError)
raised("a kind that is none", lambda: dumachik.resolve("", Context(["CL"], covariates={"WT": "continous"})), ValueError)
check("a symbol as it is written", [str(Symbol("PK")), Symbol("PK") == "PK", Symbol("PK") == Symbol("PK")], ["@PK", False, True])


def refusal_of(text):
    try:
        return dumachik.render(text)
    except Refusal as refusal:
        return refusal


first = refusal_of("LAGTIME(ON)\nFOO(1)")
for what, second in (("copied", copy.copy(first)), ("pickled", pickle.loads(pickle.dumps(first)))):
    check(f"a refusal that is {what}", (str(second), vars(second)), (str(first), vars(first)))
with multiprocessing.Pool(1) as pool:
    refused("a refusal from another process", lambda: pool.map(dumachik.render, ["FOO(1)"]), 6, 0, 1, 1, None)

SPACES = {
    "ABSORPTION([FO,SEQ-ZO-FO])": Statement("ABSORPTION", False, (("FO", "SEQ-ZO-FO"),)),
    "PERIPHERALS(0..2)": Statement("PERIPHERALS", False, (range(3), None)),
    "PERIPHERALS([1,3],MET)": Statement("PERIPHERALS", False, ((1, 3), ("MET",))),
    "TRANSITS(N)": Statement("TRANSITS", False, ("N", None)),
    "TRANSITS(7,*)": Statement("TRANSITS", False, (7, "*")),
    "COVARIATE?(@PK,[WT,AGE],[lin,cat2],+)": Statement("COVARIATE", True, (Symbol("PK"), ("WT", "AGE"), ("lin", "cat2"), "+")),
    "COVARIATE(CL,*,exp)": Statement("COVARIATE", False, (("CL",), "*", ("exp",), "*")),
    "ALLOMETRY(WT,70.0)": Statement("ALLOMETRY", False, ("WT", "70.0")),
    "ALLOMETRY(WT)": Statement("ALLOMETRY", False, ("WT", None)),
    "INDIRECTEFFECT(*,DEGRADATION)": Statement("INDIRECTEFFECT", False, ("*", ("DEGRADATION",))),
    "IIV?(*,[EXP,RE_LOG])": Statement("IIV", True, ("*", ("EXP", "RE_LOG"))),
    "COVARIANCE?(IIV,@PK_IIV)": Statement("COVARIANCE", True, (("IIV",), Symbol("PK_IIV"))),
    "LET(S,[WT,007])": Statement("LET", False, ("S", ("WT", "007"))),
}
check("statements", dumachik.statements("\n".join(SPACES)), list(SPACES.values()))
check("the text again", dumachik.render("\n".join(SPACES)), ";".join(SPACES))
# every label of every family, as Print has it
for keyword, *families in dumachik.KEYWORDS:
    for at, family in enumerate(families):
        for label in family or ():
            arguments = {"PERIPHERALS": ["1"], "TRANSITS": ["1"], "COVARIATE": ["*", "*"], "IIV": ["*"], "IOV": ["*"]}.get(keyword, [])
            arguments = arguments + [label] if keyword != "INDIRECTEFFECT" else [label, "*"] if at == 0 else ["*", label]
            text = f"{keyword}({','.join(arguments + ['*'] * (keyword == 'COVARIANCE'))})"
            check(text, dumachik.render(text.lower()), text)
            check(text, dumachik.statements(text)[0].arguments[at], (label,))

refused("a stray byte", lambda: dumachik.render("LAGTIME(ON)\n $"), 2, 13, 2, 2, None)
refused("the end", lambda: dumachik.count("FOO("), 3, 4, 1, 5, None)
refused("a count", lambda: dumachik.statements("LAGTIME(ON)\nPERIPHERALS(65)"), 4, 24, 2, 13, None)
refused("a long text", lambda: dumachik.render(" " * 16385), 1, 0, None, None, None)

check("ground", dumachik.resolve("LET(PK,[CL]);IIV(@PK_IIV,*)", K).ground, "IIV([CL,V],[EXP,ADD,PROP,LOG,RE_LOG])")
resolved = dumachik.resolve("COVARIATE(@PK,WT,lin);COVARIATE?(CL,WT,exp,+);COVARIANCE(IIV,CL)", K)
check("ground", resolved.ground, "COVARIATE(V,WT,lin);COVARIATE(KA,WT,lin);COVARIATE?(CL,WT,exp,+)")
lin = lambda parameter: Effect(parameter, "WT", "lin", "*", False)
check("effects", resolved.effects, [lin("V"), lin("KA"), Effect("CL", "WT", "exp", "+", True)])
check("notes", resolved.notes, [Note("dropped", 2), Note("additive", 0)])
columns = Context(["CL"], columns=["AGE"])
check("columns", dumachik.resolve("COVARIATE(CL,*,custom)", columns).effects, [Effect("CL", "AGE", "custom", "*", False)])
refused("forced twice", lambda: dumachik.resolve("COVARIATE(CL,WT,lin);COVARIATE(CL,WT,exp)", K), 17, 1, None, None, 1)
refused("an unknown name", lambda: dumachik.resolve("LAGTIME(ON);IIV(Q,EXP)", K), 15, 1, None, None, 1)
refused("no template", lambda: dumachik.resolve("IIV(@PK,EXP)", columns), 14, 0, None, None, 0)
refused("a wrong context", lambda: dumachik.resolve("LAGTIME(ON)", Context(["CRCL.1"])), 12, 0, None, None, None)
refused("a wrong text first", lambda: dumachik.resolve("LAGTIME(MAYBE)", Context(["CRCL.1"])), 10, 8, 1, 9, None)

# Ceilings: every count held to them, wherever it stands, by every call; without one it is 64.
CALLS = {
    "count": dumachik.count,
    "render": dumachik.render,
    "statements": dumachik.statements,
    "resolve": lambda text, **named: dumachik.resolve(text, K, **named),
}
for name, call in CALLS.items():
    for ceiling in (0, 1, 3, 63, 64, 65, 255, 256):
        for form, place in (("PERIPHERALS({})", 12), ("PERIPHERALS(0..{})", 15), ("TRANSITS([0,{}],DEPOT)", 12)):
            text, over = form.format(ceiling), form.format(ceiling + 1)
            wanted = {"count": 1, "render": text, "statements": dumachik.statements(text, ceiling=256)}.get(name)
            found = call(text, ceiling=ceiling)
            check(f"{name} under {ceiling}", found.ground if name == "resolve" else found, text if name == "resolve" else wanted)
            refused(f"{name} under {ceiling}", lambda: call(over, ceiling=ceiling), 4, place, 1, place + 1, None)
        refused(f"{name} under {ceiling}", lambda: call(f"LET(A,0..{ceiling})", ceiling=ceiling), 9, 6, 1, 7, None)
        refused(f"{name} under {ceiling}", lambda: call(f"LET(A,0..{ceiling + 1})", ceiling=ceiling), 4, 9, 1, 10, None)
    refused(f"{name}, as usual", lambda: call("PERIPHERALS(65)"), 4, 12, 1, 13, None)
    check(f"{name}, as usual", call("PERIPHERALS(64)"), call("PERIPHERALS(64)", ceiling=64))
    for ceiling in (257, 65536 + 64, 2**32 - 1, 2**32, 2**32 + 64, 2**70):
        for text in ("", "LAGTIME(ON)", "$", " " * 16385):
            refused(f"{name} under {ceiling}", lambda: call(text, ceiling=ceiling), 21, 0, None, None, None)
    for ceiling, kind in ((-1, ValueError), (3.0, TypeError), ("3", TypeError), (None, TypeError)):
        try:
            check(f"{name} under {ceiling}", call("", ceiling=ceiling), kind)
        except Exception as raised:
            check(f"{name} under {ceiling}", (type(raised)), kind)
check("no counts", dumachik.count("LET(A,9);IIV([9,CL],EXP);ALLOMETRY(WT,9)", ceiling=0), 3)
ground = dumachik.resolve("transits(0256);IIV(@PK,EXP)", K, ceiling=256).ground
check("a ground text", ground, "TRANSITS(256);IIV([CL,V,KA],EXP)")
check("a ground text again", dumachik.resolve(ground, K, ceiling=256).ground, ground)
refused("a ground text under 64", lambda: dumachik.count(ground), 4, 9, 1, 10, None)

# The profile: what it has, each of its faults at its statement's index with LETs counted, and what comes before them.
FIVE = ["ABSORPTION(FO)", "ELIMINATION(MM)", "PERIPHERALS(1)", "TRANSITS(n)", "LAGTIME(ON)"]
OUTSIDE = ["DIRECTEFFECT(EMAX)", "EFFECTCOMP(*)", "INDIRECTEFFECT(*,PRODUCTION)", "METABOLITE(PSC)"]
OTHERS = ["LET(A,11)", "COVARIATE?(CL,WT,lin)", "ALLOMETRY(WT,70)", "IIV(11,EXP)", "IOV(*,EXP)", "COVARIANCE(IIV,[11,12])"]


def against(what, text, number, index, **named):
    refused(what, lambda: dumachik.profile(text, **named), number, index, None, None, index)


for text in ["", b"# \xff", ";".join(FIVE), ";".join(OTHERS + OTHERS), ";".join(OTHERS + FIVE)]:
    check(f"profile of {text}", dumachik.profile(text), None)
for feature in OUTSIDE:
    against(feature, feature, 22, 0)
    against(feature, f"LET(A,B);LAGTIME(ON)\nLET(C,D);{feature};LAGTIME(ON)", 22, 3)
for feature, other in zip(FIVE, FIVE[1:] + FIVE[:1]):
    against(f"{feature} twice", f"{feature};{feature}", 23, 1)
    against(f"{feature} twice", f"LET(A,B);{feature};{other};IIV(CL,EXP);{feature.lower()};{feature}", 23, 4)
for keyword in ("PERIPHERALS", "TRANSITS"):
    for form in ("({})", "(000{})", "(0..{})", "(10..{})", "([{}])", "([0,{},1])", "([{},0],*)"):
        check(f"{keyword}: 10", dumachik.profile(keyword + form.format(10)), None)
        against(f"{keyword}: 11", keyword + form.format(11), 24, 0)
        against(f"{keyword}: 64", f"LET(A,B);LAGTIME(ON);{keyword}{form.format(64)}", 24, 2)
against("the first statement", "TRANSITS(11);METABOLITE(PSC)", 24, 0)
against("22 before 23 and 24", "METABOLITE(PSC);METABOLITE(PSC);TRANSITS(11)", 22, 0)
against("23 before 24", "TRANSITS(1);TRANSITS(11)", 23, 1)
refused("a fault of reading", lambda: dumachik.profile("METABOLITE(PSC)\nLAGTIME(MAYBE)"), 10, 24, 2, 9, None)
refused("a long text", lambda: dumachik.profile("METABOLITE(PSC)" + " " * 16384), 1, 0, None, None, None)
for ceiling in (3, 10, 11, 64, 256):
    over = lambda: dumachik.profile("PERIPHERALS(11)", ceiling=ceiling)
    refused(f"11 under {ceiling}", over, *((24, 0, None, None, 0) if ceiling > 10 else (4, 12, 1, 13, None)))
    check(f"a count under {ceiling}", dumachik.profile(f"TRANSITS({min(10, ceiling)})", ceiling=ceiling), None)
    against(f"23 under {ceiling}", "LAGTIME(ON);LAGTIME(ON)", 23, 1, ceiling=ceiling)
for ceiling in (257, 2**32 + 64):
    for text in ("", "METABOLITE(PSC)", "$", " " * 16385):
        refused(f"profile under {ceiling}", lambda: dumachik.profile(text, ceiling=ceiling), 21, 0, None, None, None)
ground = dumachik.resolve("LET(S,[CL,V]);transits([3,10]);IIV(@S,*);COVARIATE?(@PK,*,*);LAGTIME(*)", K).ground
check("the ground text of a text of the profile", dumachik.profile(ground), None)
print(f"{passed} passed, {failed} failed")
sys.exit(failed != 0)
