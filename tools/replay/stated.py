"""Requests `statement` with their answers. Accepted texts: each feature and LET with each form of each argument, in texts of several statements,
every statement asked for; the answer is the judge's, with an offset and a length for each name (tools/compare/places.py). Some are written by
hand, and what is made so must be the same. Refusals with their places, and lines that are no requests, are written by hand."""
import random
import sys

import counted
import judged
from places import located
from texts import FAMILIES, OPTIONAL, number_of

COUNTS = ["0", "64", "007", "0000000000064", "2..2", "0..64", "00 .. 03", "[3]", "[3,3,0]", "[ 1 , 064 ]"]
OPERANDS = ["*", "@X", "@ sym-1", "CL", "_x", "70", "1.50", "[Vc]", "[CL,V,KA]", "[a-b , 70,cl]", "[CL,CL]", "[2,1]"]


def modes(family):
    """All, each label, a label in the other case, arrays: of one, of all, in the other order and case, with repeats."""
    labels = FAMILIES[family]
    back = ", ".join(reversed(labels)).swapcase()
    twice = ",".join([labels[1], labels[0], labels[1].lower(), labels[0].upper()])
    return ["*", *labels, labels[0].swapcase(), f"[{labels[-1]}]", f"[{','.join(labels)}]", f"[{back}]", f"[{twice}]"]


# The forms of each argument, None where it is left out.
FORMS = [
    ("ABSORPTION", [modes("absorption")]),
    ("ELIMINATION", [modes("elimination")]),
    ("PERIPHERALS", [COUNTS, [None, *modes("peripheral")]]),
    ("TRANSITS", [["N", "n"]]),
    ("TRANSITS", [COUNTS, [None, *modes("depot")]]),
    ("LAGTIME", [modes("lagtime")]),
    ("COVARIATE", [OPERANDS, OPERANDS[5:] + OPERANDS[:5] + ["Wt"], modes("effect"), [None, "+", "*"]]),
    ("ALLOMETRY", [["WT", "_", "Allometry", "N"], [None, "70", "070.50", "0", "99999999999999999999"]]),
    ("DIRECTEFFECT", [modes("pd")]),
    ("EFFECTCOMP", [modes("pd")]),
    ("INDIRECTEFFECT", [modes("pd"), modes("production")]),
    ("METABOLITE", [modes("metabolite")]),
    ("IIV", [OPERANDS, modes("variability")]),
    ("IOV", [OPERANDS, modes("variability")]),
    ("COVARIANCE", [modes("level"), OPERANDS]),
    ("LET", [["X", "let", "sym-1", "_", "PK"], [form for form in OPERANDS if form[0] not in "*@"]]),
]


def statements():
    """Each form of each argument, beside others of the other arguments: a keyword with several arguments goes round three times."""
    made = []
    for keyword, forms in FORMS:
        for turn in range(3 if len(forms) > 1 else 1):
            for k in range(max(map(len, forms))):
                row = [form[(k + turn * (i + 1)) % len(form)] for i, form in enumerate(forms)]
                needs_mark = keyword == "COVARIATE" and row[2] == "*"
                mark = "?" if keyword in OPTIONAL and (needs_mark or (k + turn) % 2) else ""
                made.append((keyword, mark, [argument for argument in row if argument is not None]))
    return made


def texts():
    """Those statements in texts of one to six, in a mixed order, with blanks, comments and keywords in several cases."""
    rng, made, left = random.Random(1), [], 0
    every = statements()
    rng.shuffle(every)
    for keyword, mark, arguments in every:
        if not left:
            made.append(rng.choice(["", "", "\n", "# CL, V \xe9\n"]))
            left = rng.randint(1, 6)
        blank = lambda: rng.choice(["", "", "", "", " ", "\t", "\r"])
        word = rng.choice([keyword, keyword, keyword.lower(), keyword.capitalize()])
        inside = ",".join(blank() + argument + blank() for argument in arguments)
        made[-1] += blank() + word + blank() + mark + blank() + "(" + inside + ")" + blank()
        made[-1] += rng.choice([";", ";", "\n", ";;", "\r\n", " # IIV(CL,EXP);\n"])
        left -= 1
    return made


# Written by hand: the text, the index, the answer.
BY_HAND = [
    ("COVARIATE?(CL,@X,[lin,exp],+)", 0, "ok COVARIATE? [11+2] @15+1 [0,2] +"),
    ("COVARIATE([CL,70,CL],Wt,custom,*)", 0, "ok COVARIATE [11+2,14+2,17+2] [21+2] [6] *"),
    ("COVARIATE?(*,@ COVARIATE,*)", 0, "ok COVARIATE? * @15+9 * *"),
    ("LET(CL,CL)", 0, "ok LET 4+2 [7+2]"),
    ("LET(LET,[LET,1.5,LET])", 0, "ok LET 4+3 [9+3,13+3,17+3]"),
    ("IIV([CL,CL,CL],EXP)", 0, "ok IIV [5+2,8+2,11+2] [0]"),
    ("IIV ? ( @ PK , EXP )", 0, "ok IIV? @10+2 [0]"),
    ("# CL\nIIV(CL,EXP) # CL\n;IOV(CL,ADD)", 0, "ok IIV [9+2] [0]"),
    ("# CL\nIIV(CL,EXP) # CL\n;IOV(CL,ADD)", 1, "ok IOV [27+2] [1]"),
    ("# \xe9\nALLOMETRY(WT,70)", 0, "ok ALLOMETRY 15+2 18+2"),
    ("ALLOMETRY(ALLOMETRY,1)", 0, "ok ALLOMETRY 10+9 20+1"),
    ("ALLOMETRY(WT)", 0, "ok ALLOMETRY 10+2 -"),
    ("COVARIANCE(IIV,IIV)", 0, "ok COVARIANCE [0] [15+3]"),
    ("COVARIANCE(IIV,*)", 0, "ok COVARIANCE [0] *"),
    ("INDIRECTEFFECT(*,production)", 0, "ok INDIRECTEFFECT * [0]"),
    ("PERIPHERALS(0..3);PERIPHERALS(2..2)", 1, "ok PERIPHERALS 2..2 -"),
    ("PERIPHERALS([3]);PERIPHERALS(2)", 0, "ok PERIPHERALS [3] -"),
    ("TRANSITS(n)", 0, "ok TRANSITS N -"),
    ("TRANSITS(0..3,[nodepot,NODEPOT,DEPOT])", 0, "ok TRANSITS 0..3 [1,0]"),
    ("LAGTIME(ON);LAGTIME(OFF)", 2, "refused 20 2"),
    ("LAGTIME(ON)", 4294967296, "refused 20 4294967296"),
    ("", 0, "refused 20 0"),
    (";;\n#", 0, "refused 20 0"),
]

NAMES = ",".join(f"P{i}" for i in range(100, 164))
PAIRS = ",".join(f"{5 + 5 * i}+4" for i in range(64))

# At the limits, which the source does not have, and in bytes that are not UTF-8.
BEYOND_THE_SOURCE = [
    (b" " * 16385, 0, b"refused 1 0"),
    (b"\n" * 16371 + b"ALLOMETRY(WT)", 0, b"ok ALLOMETRY 16381+2 -"),
    (b";".join([b"LAGTIME(ON)"] * 256), 255, b"ok LAGTIME [1]"),
    (b";".join([b"LAGTIME(ON)"] * 256), 256, b"refused 20 256"),
    (b";".join([b"LAGTIME(ON)"] * 257), 0, b"refused 11 3072"),
    (b";".join([b"LAGTIME(ON)"] * 257), 257, b"refused 11 3072"),
    (f"IIV([{NAMES}],EXP)".encode(), 0, f"ok IIV [{PAIRS}] [0]".encode()),
    (f"LET(A,B);IIV([{NAMES},P164],EXP)".encode(), 0, b"refused 11 334"),
    (b"# \xff\nIIV(CL,EXP)", 0, b"ok IIV [8+2] [0]"),
    (b"IIV(CL,EXP);\xff", 0, b"refused 2 12"),
]

# Every line that is no request is answered so.
LINES = [
    b"statement", b"statement ", b"statement 1", b"statement x 41", b"statement 1 4", b"statement 1 zz", b"statement -1 41", b"statement +1 41",
    b"statement 1.0 41", b"statement 0x1 41", b"statement 99999999999999999999999 41", b"statement  41", b"statement 41", b"statement 0  41",
    b"statement 0 41 42", b"statement 0 41\r", b"statements 0 41", b"STATEMENT 0 41", b" statement 0 41", b"statement\t0 41",
]


def request(index, text):
    return b"statement %d " % index + text.hex().encode()


def faults():
    """The first of counted.py's faults of each number: alone, and behind a statement that is in order, asked for that one and for none."""
    first = {}
    for text, number, place in counted.FAULTS:
        first.setdefault(number, (text, place))
    for number, (text, place) in sorted(first.items()):
        yield text, 0, number, place
        yield "LAGTIME(ON);" + text, 0, number, place + 12
        yield "LAGTIME(ON);" + text, 9, number, place + 12


def accepted(program, asked):
    """The answers to accepted texts, each asked for with an index."""
    told = judged.run(program, [request(index, text) for text, index in asked])
    for (text, index), answer in zip(asked, told):
        form = located(text, index, answer.decode().removeprefix("ok ")) if answer.startswith(b"ok ") else None
        if form is None:
            sys.exit(f"no form of statement {index} of {text!r}: {answer!r}")
        yield request(index, text), b"ok " + form.encode()


def pairs(program):
    """The requests and their answers."""
    out = []
    by_hand = [(text.encode(), index, answer.encode()) for text, index, answer in BY_HAND]
    made = dict(accepted(program, [(text, index) for text, index, answer in by_hand if answer.startswith(b"ok")]))
    for text, index, answer in by_hand:
        theirs = made.get(request(index, text)) or judged.run(program, [request(index, text)])[0]
        if theirs != answer:
            sys.exit(f"statement {index} of {text!r} by hand and by the judge: {answer!r}, {theirs!r}")
        out.append((request(index, text), answer))
    held = list(faults())
    told = judged.run(program, [request(index, text.encode()) for text, index, _, _ in held])
    for (text, index, number, place), theirs in zip(held, told):
        if theirs.startswith(b"ok") or number_of(theirs.decode()) != number:
            sys.exit(f"the judge does not refuse {text!r} by {number}: {theirs!r}")
        out.append((request(index, text.encode()), b"refused %d %d" % (number, place)))
    out += [(request(index, text), answer) for text, index, answer in BEYOND_THE_SOURCE]
    out += [(line, judged.NO_REQUEST) for line in LINES]
    whole = [text.encode() for text in texts()]
    counts = judged.run(program, [b"count " + text.hex().encode() for text in whole])
    out += accepted(program, [(text, index) for text, count in zip(whole, counts) for index in range(int(count[3:]))])
    return out
