"""Requests `resolve` with their answers. Where the source accepts a text in a context, the answer is the judge's; where it refuses, the judge must
refuse by the number that stands here, and the place is written by hand after document 01, or, of generated texts, found by asking the judge of
parts of the text (tools/compare/contexts.py). What the source does not have (damaged contexts, limits, lent lengths) is in bounded.py."""
import random
import sys

import judged
from comparing import may_meet_a_limit
from contexts import BUILTINS, Cases, Context, resolving_number_of, up_to
from handed import Handed


def context(parameters, iiv, template, declared, columns):
    """Names joined by blanks; None for no template and no block; `role=VARIABLE`, `NAME:KIND`."""
    bindings = None if template is None else [tuple(entry.split("=")) for entry in template.split()]
    block = None if declared is None else [(entry[:-2], int(entry[-1])) for entry in declared.split()]
    return Context(parameters.split(), iiv.split(), bindings, block, columns.split())


# The working length that docs/CALLS.md states.
WORKING = 2048

K = context("CL V KA", "CL V", "cl=CL v=V ka=KA", "WT:0 SEX:1", "WT SEX")
K_WORDS = (
    b"11 434c564b41434c56636c434c76566b614b4157545345585754534558 "
    b"0+2,2+1,3+2/5+2,7+1/8+2=10+2,12+1=13+1,14+2=16+2/18+2:0,20+3:1/23+2,25+3"
)
BARE = context("CL V KA", "CL V", None, None, "WT SEX AGE")
NOTHING = context("", "", None, None, "")
EMPTY = context("", "", "", "", "")
# Repeats, several letters, numbers, a role in other letters, variables that are no parameters, an IIV parameter that is none, two kinds of one name.
ODD = context(
    "cl CL V 70 CL", "CL cl 70 ETA", "CL=V cl=Cl v=v f=1 ka=KA q=V v1=CL alag=70", "WT:0 wt:1 WT:1 SEX:1 1.5:0 CL:0", "AGE SEX SEX",
)
# The model of the source's test against Pharmpy.
TESTED = context("CL VC QP1 VP1 MAT", "CL VC MAT", "cl=CL v1=VC q=QP1 v2=VP1 ka=MAT", "WT:0 CRCL:0 SEX:1", "WT CRCL SEX")

# Document 01's examples in K: the text, the ground text, the effects, the notes.
OF_THE_PAPER = [
    ("", "", "", ""),
    ("LET(PK,[CL]);IIV(@PK_IIV,*)", "IIV([CL,V],[EXP,ADD,PROP,LOG,RE_LOG])", "", ""),
    ("LET(PK,[CL]);IIV(*,*)", "IIV(CL,[EXP,ADD,PROP,LOG,RE_LOG])", "", ""),
    ("COVARIATE(CL,WT,[lin,exp])", "COVARIATE(CL,WT,[lin,exp])", "0:0:0:0:0,0:0:2:0:0", ""),
    (
        "COVARIATE(@PK,WT,lin);COVARIATE?(CL,WT,exp)", "COVARIATE(V,WT,lin);COVARIATE(KA,WT,lin);COVARIATE?(CL,WT,exp)",
        "1:0:0:0:0,2:0:0:0:0,0:0:2:0:1", "",
    ),
    ("COVARIANCE(IIV,CL)", "", "", "0:0"),
]

# Texts that are resolved in K, for what they show.
IN_K = [
    # counts stay, modes become whole lists
    "PERIPHERALS(2..2);PERIPHERALS([3]);TRANSITS(n);TRANSITS(007,*)", "absorption(*);elimination(*);lagtime(*);PERIPHERALS(1,*)",
    "DIRECTEFFECT(*);EFFECTCOMP(*);INDIRECTEFFECT(*,*);METABOLITE(*)", "ALLOMETRY(WT);ALLOMETRY(SEX,0070.50)", "INDIRECTEFFECT(*,degradation)",
    # symbols, in all letters; LETs come before built-ins, wherever they stand; `*` is one of them; a LET that is not used may have any names
    "IIV(@iiv,EXP);IIV(@Pk,ADD);IIV(@pk_Iiv,PROP)", "IIV(@ABSORPTION,EXP);IIV(@ELIMINATION,EXP);IIV(@DISTRIBUTION,EXP)", "IIV(@BIOAVAIL,EXP)",
    "IIV(@PD,EXP);IOV(@pd_iiv,EXP);COVARIATE(@PD,WT,lin);COVARIANCE(IIV,@PD)", "IIV(@a,EXP);LET(A,[V,CL,V])",
    "LET(IIV,KA);IOV(*,*);COVARIANCE(*,*)", "LET(PK,[V]);IIV(@PK_IIV,EXP);IIV(@PK,EXP);IIV(*,EXP)",
    "LET(PD,CL);LET(PD_IIV,[V]);IIV(@PD,EXP);IIV(@PD_IIV,EXP)", "LET(A,[X,Y])", "LET(CL,V);IIV(CL,EXP)",
    "IIV(*,EXP);IOV(*,EXP);COVARIANCE(IIV,*);COVARIANCE?([IOV,IIV],*)", "IIV([V,CL,V],EXP);IOV?(KA,[ADD,EXP])",
    *[f"LET({symbol.lower()},[KA,V]);IIV(@{symbol},EXP)" for symbol in BUILTINS], "IIV([V,CL,KA,V,KA,CL,V],EXP);COVARIANCE(IIV,[KA,V,CL,CL,KA])",
    "LET(CONTINUOUS,SEX);COVARIATE?(CL,@CONTINUOUS,cat)", "COVARIATE?(CL,@CATEGORICAL,*);COVARIATE?(CL,@continuous,*)", "COVARIATE?(CL,*,*)",
    # dropped where nothing is left; the kind is not looked at then
    "COVARIANCE(IIV,CL);COVARIANCE(IIV,[V,V]);COVARIANCE(IIV,[V,CL])", "COVARIATE(@PD,SEX,lin)",
    "LAGTIME(ON);IIV(@PD,EXP);LAGTIME(OFF);IOV(@BIOAVAIL,EXP)",
    # effects: their order, the operator, the note
    "COVARIATE?([V,CL],[SEX,WT],*)", "COVARIATE([V,CL,V],[WT,WT],[exp,lin,exp])", "COVARIATE(CL,WT,custom,+)",
    "COVARIATE?(CL,SEX,[cat2,cat],+);IIV(@PD,EXP)", "COVARIATE(@PK,WT,lin,+);COVARIATE([CL,V,KA],WT,lin)", "COVARIATE?(*,WT,lin,*)",
    # merging: explicit by the parameters alone, from behind too; optional beside mandatory; repeats; two operators
    "COVARIATE?(*,*,*);COVARIATE(CL,@CONTINUOUS,exp)", "COVARIATE(V,@CATEGORICAL,cat);COVARIATE(@PK,SEX,cat2)",
    "COVARIATE?(CL,@CONTINUOUS,[lin,exp]);COVARIATE(CL,WT,exp)", "COVARIATE?(CL,WT,exp);COVARIATE(CL,WT,exp)",
    "COVARIATE?(CL,WT,[pow,exp]);COVARIATE?(CL,WT,[exp,lin])", "COVARIATE?(CL,WT,lin);COVARIATE(CL,WT,lin,+)",
    "COVARIATE(@IIV,WT,lin);COVARIATE(@ABSORPTION,WT,exp)", "COVARIATE?(@PK,WT,lin);COVARIATE?(*,WT,exp);COVARIATE?(@IIV,WT,pow)",
    # groups: by pair, operator and mark, behind all other ground statements
    "COVARIATE?(CL,WT,lin);LAGTIME(ON);COVARIATE?(V,WT,lin);COVARIATE?(CL,WT,exp)",
    "COVARIATE?(CL,WT,lin);COVARIATE?(CL,WT,exp,+);COVARIATE?(CL,WT,pow);COVARIATE(CL,WT,pow,+)",
    # blanks, comments and separators
    " # \u00e9 COVARIATE\n iiv ? ( @ PK , * ) ;; \r\n\tCOVARIATE?(CL , [ WT ] , [lin,LIN]) # +\n", "# nothing", ";\n;",
]

# Texts that are resolved in other contexts.
ELSEWHERE = [
    (BARE, [
        "IOV(*,EXP)", "COVARIATE?(CL,*,*)", "COVARIATE(CL,[SEX,AGE],[lin,cat,custom])", "LET(PK,CL);IIV(*,EXP)", "IIV(@PD,EXP)", "ALLOMETRY(AGE)",
        "LET(CONTINUOUS,[AGE,WT]);COVARIATE?(CL,@CONTINUOUS,*)", "COVARIATE?([KA,CL],AGE,cat);COVARIATE(KA,AGE,[cat,cat2],+)",
    ]),
    (NOTHING, ["", "LAGTIME(*)", "IIV(@PD,EXP)", "LET(A,B)", "IOV(*,EXP);COVARIANCE(IIV,*)", "COVARIATE?(@IIV,*,*)"]),
    (EMPTY, ["", "IIV(*,EXP)", "COVARIATE?(*,*,*)", "COVARIATE(@PK,@CATEGORICAL,cat)", "IIV(@ABSORPTION,EXP);IIV(@PK_IIV,EXP)"]),
    (ODD, [
        "IIV(*,EXP)", "IIV(@PK,EXP);IIV(@PK_IIV,EXP)", "IIV(@ELIMINATION,EXP);IIV(@DISTRIBUTION,EXP);IIV(@BIOAVAIL,EXP);IIV(@ABSORPTION,EXP)",
        "IIV([CL,70,cl],EXP)", "COVARIATE?(V,*,*)", "COVARIATE?(70,[CL,1.5],lin)", "COVARIATE?(CL,@CATEGORICAL,*)",
        "COVARIATE?(cl,WT,lin);COVARIATE?(CL,wt,cat)", "COVARIATE?(CL,WT,lin);COVARIATE?(V,CL,pow)", "COVARIATE(*,CL,lin);COVARIATE?([cl,V],CL,exp)",
    ]),
    # docs/DIFFERENCES.md
    (TESTED, [
        "COVARIATE?(@PD,WT,pow)", "COVARIATE?(@PK,@CONTINUOUS,[pow,lin]);COVARIATE(CL,WT,exp)", "COVARIATE?(@IIV,[WT,CRCL],*);COVARIATE?(CL,WT,exp)",
        "COVARIATE?(CL,SEX,*)", "COVARIATE(CL,WT,lin,+)",
    ]),
]

# Refused in K: the text, the number, the place.
FAULTS = [
    # 13, before 14 to 17 and whatever is between; the key ignores case
    ("LET(A,CL);LET(a,V)", 13, 1), ("LET(A,CL);IIV(@B,EXP);LET(B,CL);LET(B,CL);LET(A,V)", 13, 3),
    ("IIV(@X,EXP);LET(pk,CL);IIV(X,EXP);LET(PK,CL)", 13, 3),
    # 14: symbols that are none
    ("IIV(@X,EXP)", 14, 0), ("LAGTIME(ON);LET(A,CL);COVARIATE?(CL,@B,lin)", 14, 2), ("IOV(@CL,EXP)", 14, 0), ("COVARIANCE(IIV,@PK_)", 14, 0),
    # 15: names that are not in the model; letters count; by a symbol and by `*` too
    ("IIV(cl,EXP)", 15, 0), ("IOV([CL,WT],EXP)", 15, 0), ("COVARIANCE(IIV,[CL,Q])", 15, 0), ("COVARIATE(WT,WT,lin)", 15, 0),
    ("COVARIATE(CL,wt,lin)", 15, 0), ("ALLOMETRY(CL)", 15, 0), ("ALLOMETRY(AGE,70)", 15, 0), ("LET(A,[CL,X]);LET(B,Q);IIV(@A,EXP)", 15, 2),
    ("COVARIATE(@CONTINUOUS,WT,lin)", 15, 0), ("COVARIATE?(CL,@PK,lin)", 15, 0), ("LET(PK,[CL,70]);IOV(CL,EXP);IIV(*,EXP)", 15, 2),
    ("LET(IIV,WT);IIV(CL,EXP);COVARIANCE(IIV,*)", 15, 2),
    # 16: effects against their covariate's kind
    ("COVARIATE(CL,SEX,lin)", 16, 0), ("COVARIATE(CL,WT,cat2)", 16, 0), ("COVARIATE?(CL,*,lin)", 16, 0), ("COVARIATE?(CL,[WT,SEX],[lin,cat])", 16, 0),
    ("COVARIATE(CL,WT,[lin,cat])", 16, 0), ("LAGTIME(ON);COVARIATE?(@PK,@CATEGORICAL,custom)", 16, 1),
    # 14 to 16 by statement, and there parameters, covariates, pairs
    ("COVARIATE(CL,SEX,lin);IIV(@X,EXP)", 16, 0), ("IIV(@X,EXP);COVARIATE(CL,SEX,lin)", 14, 0), ("IIV(X,EXP);IIV(@X,EXP)", 15, 0),
    ("COVARIATE(@X,Y,lin)", 14, 0), ("COVARIATE(X,@Y,lin)", 15, 0), ("COVARIATE(CL,Y,cat)", 15, 0), ("COVARIATE(CL,[SEX,Y],lin)", 15, 0),
    ("COVARIATE(@PD,Y,lin)", 15, 0), ("COVARIATE(@PD,@Y,lin)", 14, 0),
    # 17: the lowest index that forces a pair already forced, after all of these
    ("COVARIATE(CL,WT,lin);COVARIATE(CL,WT,exp)", 17, 1), ("COVARIATE(CL,WT,lin);COVARIATE(CL,WT,lin)", 17, 1),
    ("COVARIATE(CL,WT,lin);COVARIATE(V,WT,lin);COVARIATE(V,WT,exp);COVARIATE(CL,WT,exp)", 17, 2),
    ("COVARIATE(V,WT,lin);LAGTIME(ON);COVARIATE([CL,V],WT,exp)", 17, 2), ("COVARIATE(@PK,WT,lin);COVARIATE(*,WT,exp)", 17, 1),
    ("COVARIATE(@PK,WT,lin);COVARIATE(CL,WT,exp);COVARIATE(*,WT,pow)", 17, 2), ("COVARIATE(CL,WT,lin);COVARIATE(CL,WT,lin,+)", 17, 1),
    ("COVARIATE(CL,WT,lin);COVARIATE(CL,WT,exp);COVARIATE(CL,SEX,lin)", 16, 2), ("COVARIATE(CL,WT,lin);COVARIATE(CL,WT,exp);IIV(@X,EXP)", 14, 2),
    # reading comes first
    ("LET(A,CL);LET(A,CL);FOO()", 6, 20), ("IIV(X,EXP);IIV(CL,EXP", 3, 21), ("COVARIATE(CL,WT,*)", 9, 16), ("PERIPHERALS(65)", 4, 12),
    ("IIV(@X,EXP);$", 2, 12),
]

# Refused in other contexts.
FAULTS_ELSEWHERE = [
    (BARE, [(f"LAGTIME(ON);IIV(@{symbol},EXP)", 14, 1) for symbol in "PK PK_IIV ABSORPTION Elimination DISTRIBUTION BIOAVAIL".split()]),
    (BARE, [
        ("IIV(*,EXP)", 14, 0), ("COVARIATE?(*,WT,lin)", 14, 0), ("COVARIATE?(CL,@CONTINUOUS,lin)", 14, 0), ("COVARIATE?(CL,@categorical,*)", 14, 0),
        ("COVARIATE(CL,DOSE,lin)", 15, 0), ("IIV(@CONTINUOUS,EXP)", 14, 0),
    ]),
    (NOTHING, [("IIV(CL,EXP)", 15, 0), ("ALLOMETRY(WT)", 15, 0), ("IIV(*,EXP)", 14, 0), ("COVARIATE?(@PD,WT,lin)", 15, 0)]),
    (ODD, [
        ("IOV(*,EXP)", 15, 0), ("COVARIANCE(IIV,*)", 15, 0), ("COVARIATE?(V,WT,cat)", 16, 0), ("COVARIATE?(V,wt,lin)", 16, 0),
        ("COVARIATE?(V,@CATEGORICAL,cat2);IIV(@IIV,EXP)", 16, 0), ("COVARIATE?(V,@CONTINUOUS,pow);IIV(@IIV,EXP)", 15, 1),
        ("COVARIATE?(V,AGE,lin)", 15, 0), ("COVARIATE?(Cl,WT,lin)", 15, 0),
    ]),
    (TESTED, [("COVARIATE?(@NOSUCH,WT,pow)", 14, 0), ("COVARIATE?(@ABSORPTION,WT,pow);COVARIATE?(@DISTRIBUTION,WT,cat)", 16, 1)]),
]


def words(context):
    return Handed.of(context, lambda: False).words()


def request(text, where, lent=b""):
    return b"resolve %s %s%s" % (text.encode().hex().encode() or b"-", where, lent)


def asked(text, context):
    """The judge's request."""
    return b"resolve %s %s" % (text.encode().hex().encode(), context.word().encode())


def answer_of(context, answer):
    """The judge's `ok` in the program's form: names by their first entries, and `-` for an empty ground text."""
    ground, effects, notes = answer.removeprefix(b"ok ").split(b" ")
    numbers = []
    for effect in effects.decode().split(",") if effects != b"-" else []:
        parameter, covariate, rest = effect.split(":", 2)
        numbers.append(f"{context.parameters.index(parameter)}:{context.covariates.index(covariate)}:{rest}")
    return b"ok %s %s %s" % (ground or b"-", ",".join(numbers).encode() or b"-", notes)


def resolve(program, cases):
    """Texts in their contexts, which the judge resolves, with their answers."""
    told = judged.run(program, [asked(text, context) for context, text in cases])
    for (context, text), answer in zip(cases, told):
        if not answer.startswith(b"ok "):
            sys.exit(f"the judge refuses {text!r}: {answer!r}")
        yield text, words(context), answer_of(context, answer)


def refuse(program, cases):
    """Texts in their contexts with a number and a place: the judge must refuse each by its number."""
    told = judged.run(program, [asked(text, context) for context, text, _, _ in cases])
    for (context, text, number, place), answer in zip(cases, told):
        if answer.startswith(b"ok") or resolving_number_of(answer.decode()) != number:
            sys.exit(f"the judge does not refuse {text!r} by {number}: {answer!r}")
        yield text, words(context), b"refused %d %d" % (number, place)


def of_the_paper(program):
    """Document 01's examples, which the judge must answer as they stand."""
    for (text, ground, effects, notes), (_, _, answer) in zip(OF_THE_PAPER, resolve(program, [(K, text) for text, *_ in OF_THE_PAPER])):
        wanted = f"ok {ground.encode().hex() or '-'} {effects or '-'} {notes or '-'}".encode()
        if wanted != answer:
            sys.exit(f"{text!r} by hand and by the judge: {wanted!r}, {answer!r}")
        yield text, K_WORDS, wanted


def place_of(program, number, lines, joint, context):
    """The index of the statement that the source refuses by a number."""
    told = judged.run(program, [asked(joint.join(up_to(number, i, lines)), context) for i in range(len(lines))])
    return [resolving_number_of(answer.decode()) if answer.startswith(b"refused") else 0 for answer in told].index(number)


def generated(program):
    """Generated texts with contexts: those that are resolved, or refused by 13 to 17."""
    made, rng = Cases(9), random.Random(9)
    cases = [case for case in (made.case_of() for _ in range(260)) if not may_meet_a_limit(case[1].join(case[0]))]
    told = judged.run(program, [asked(joint.join(lines), context) for lines, joint, context in cases])
    for (lines, joint, context), answer in zip(cases, told):
        where = Handed.of(context, lambda: rng.random() < 0.3).words()
        if answer.startswith(b"ok "):
            yield joint.join(lines), where, answer_of(context, answer)
        elif (number := resolving_number_of(answer.decode())) > 12:
            yield joint.join(lines), where, b"refused %d %d" % (number, place_of(program, number, lines, joint, context))


def pairs(program):
    """The requests and their answers."""
    if words(K) != K_WORDS:
        sys.exit("K is not laid out as the paper's")
    made = [*of_the_paper(program), *resolve(program, [(K, text) for text in IN_K])]
    made += resolve(program, [(context, text) for context, texts in ELSEWHERE for text in texts])
    made += refuse(program, [(K, *fault) for fault in FAULTS])
    made += refuse(program, [(context, *fault) for context, faults in FAULTS_ELSEWHERE for fault in faults])
    return [(request(text, where), answer) for text, where, answer in [*made, *generated(program)]]
