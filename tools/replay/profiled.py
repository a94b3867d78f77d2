"""Requests `profile` with their answers, plain and behind `under N `. The rule stands here once more (`rule`), over what the judge with that
limit for counts says of each statement (tools/judge/make N): the answer to an accepted text is the rule's, never that of `replay`, and where one
is written by hand it must be the same. Where the judge refuses, it must be by the number that stands here, and the place is written by hand; so
are limits that the source does not have, ceilings above 256, and lines that are no requests."""
import itertools
import sys

import counted
import judged
from texts import number_of

OUTSIDE = ["DIRECTEFFECT", "EFFECTCOMP", "INDIRECTEFFECT", "METABOLITE"]
FIVE = ["ABSORPTION", "ELIMINATION", "PERIPHERALS", "TRANSITS", "LAGTIME"]
# A statement of each feature, two of each of the five.
ONE = {
    "ABSORPTION": ["ABSORPTION(FO)", "absorption([ZO,FO])"], "ELIMINATION": ["ELIMINATION(MM)", "Elimination(*)"],
    "PERIPHERALS": ["PERIPHERALS(1)", "PERIPHERALS(0..2,MET)"], "TRANSITS": ["TRANSITS(N)", "TRANSITS([1,3],*)"],
    "LAGTIME": ["LAGTIME(ON)", "lagtime ( [OFF,ON] )"], "DIRECTEFFECT": ["DIRECTEFFECT(EMAX)"], "EFFECTCOMP": ["effectcomp(*)"],
    "INDIRECTEFFECT": ["INDIRECTEFFECT(*,PRODUCTION)"], "METABOLITE": ["METABOLITE([BASIC,PSC])"], "COVARIATE": ["COVARIATE?(@PK,*,lin)"],
    "ALLOMETRY": ["ALLOMETRY(WT,70)"], "IIV": ["IIV([CL,11],EXP)"], "IOV": ["IOV?(*,*)"], "COVARIANCE": ["COVARIANCE(IIV,@PK_IIV)"],
    "LET": ["LET(METABOLITE,[12,TRANSITS])"],
}
# Each form of counts, `_` being the highest.
FORMS = ["(_)", "(000_)", "(_,*)", "(0.._)", "(_.._)", "( 1 .. _ )", "([_])", "([0,_,1])", "([_,0],*)", "([0,0,0,_])"]

# By hand: the text and the answer at 64.
BY_HAND = [
    ("", "ok"), (" # METABOLITE(PSC)\n;;", "ok"), ("ABSORPTION(*);ELIMINATION(FO);PERIPHERALS(0..10);TRANSITS(N);LAGTIME(ON)", "ok"),
    ("IIV(CL,EXP);IIV(CL,EXP);LET(A,11);LET(A,B);ALLOMETRY(WT,70);ALLOMETRY(WT,11)", "ok"), ("LET(LAGTIME,11);LAGTIME(ON)", "ok"),
    ("METABOLITE(PSC)", "refused 22 0"), ("LET(A,B);IIV(CL,EXP)\nLET(C,D);DIRECTEFFECT(*)", "refused 22 3"),
    ("LAGTIME(ON);LAGTIME(ON)", "refused 23 1"), ("LET(A,B);LAGTIME(ON);LET(C,D);LAGTIME(OFF);LAGTIME(ON)", "refused 23 3"),
    ("TRANSITS(N);TRANSITS(n)", "refused 23 1"), ("TRANSITS(N);TRANSITS(3)", "refused 23 1"), ("TRANSITS(3);PERIPHERALS(3)", "ok"),
    ("PERIPHERALS(10)", "ok"), ("PERIPHERALS(11)", "refused 24 0"), ("TRANSITS(11,DEPOT)", "refused 24 0"), ("TRANSITS(10..11)", "refused 24 0"),
    ("PERIPHERALS(11..12)", "refused 24 0"), ("LET(A,B);TRANSITS([1,11,2])", "refused 24 1"), ("TRANSITS(n)", "ok"),
    # the first statement first, and in one statement 23 before 24
    ("TRANSITS(11);METABOLITE(PSC)", "refused 24 0"), ("METABOLITE(PSC);TRANSITS(11)", "refused 22 0"), ("TRANSITS(1);TRANSITS(11)", "refused 23 1"),
    ("TRANSITS(11);TRANSITS(11)", "refused 24 0"), ("LAGTIME(ON);LAGTIME(ON);METABOLITE(PSC);TRANSITS(11)", "refused 23 1"),
    ("METABOLITE(PSC);METABOLITE(PSC)", "refused 22 0"), ("PERIPHERALS(1);TRANSITS(1);LAGTIME(ON);TRANSITS(11);LAGTIME(ON)", "refused 23 3"),
]

# At the limits: a statement of the profile's faults at the last index there is, and 1 and 11, which come first.
FILLED = ";".join(["IIV(CL,EXP)"] * 254)
LIMITS = [
    (b"METABOLITE(PSC)" + b" " * 16369, b"refused 22 0"), (b"METABOLITE(PSC)" + b" " * 16370, b"refused 1 0"), (b" " * 16384, b"ok"),
    (f"LAGTIME(ON);{FILLED};LAGTIME(ON)".encode(), b"refused 23 255"), (f"LET(A,B);{FILLED};TRANSITS(11)".encode(), b"refused 24 255"),
    (f"LET(A,B);{FILLED};METABOLITE(*)".encode(), b"refused 22 255"), (f"LET(A,B);{FILLED};TRANSITS(10)".encode(), b"ok"),
    (f"METABOLITE(*);{FILLED};LAGTIME(ON);X".encode(), b"refused 11 3074"), (b"METABOLITE(*);LET(A,[" + b"B," * 64 + b"B])", b"refused 11 149"),
    (b"PERIPHERALS([" + b"10," * 63 + b"11])", b"refused 24 0"), (b"PERIPHERALS([" + b"10," * 63 + b"10])", b"ok"),
    (b"# \xff\nLAGTIME(ON);LAGTIME(ON)", b"refused 23 1"), (b"METABOLITE(*)\xff", b"refused 2 13"),
]

# `under N` with counts of 10 and 11, at the ceiling, and one above it.
CEILINGS = [3, 10, 11, 65, 256]
ABOVE = [257, 320, 65600, 4294967295]
HIGH = b"refused 21 0"

LINES = [
    (b"profile", b"ok"), (b"profile ", b"ok"), (b"profile -", b"ok"), (b"under 0 profile -", b"ok"), (b"under 256 profile", b"ok"),
    *[(line, judged.NO_REQUEST) for line in [
        b"profile zz", b"profile 4", b"profile - 3", b"profile - -", b"profile -4c", b"profile 4c 4c", b"profile  -", b"profile\t-", b"profile -\r",
        b"profiles -", b"profil -", b"PROFILE -", b" profile -", b"profile 0 -", b"under profile -", b"under 3 profile zz", b"under 257 profile zz",
        b"under 3 profile - 3", b"under 4294967296 profile -", b"profile under 3 -",
    ]],
]


def request(text, ceiling=None):
    return (b"" if ceiling is None else b"under %d " % ceiling) + b"profile " + text.hex().encode()


def highest(words):
    """The highest count of a statement, by its words; N is none."""
    if words[0] not in ("PERIPHERALS", "TRANSITS") or words[1] == "N":
        return 0
    return max(int(count) for count in words[1].strip("[]").replace("..", ",").split(","))


def rule(statements):
    """Document 02: of the first statement that has one, the first fault, with the statement's index."""
    seen = []
    for index, form in enumerate(statements):
        words = form.split(" ")
        if words[0] in OUTSIDE:
            return "refused 22 %d" % index
        if words[0] in FIVE and words[0] in seen:
            return "refused 23 %d" % index
        if highest(words) > 10:
            return "refused 24 %d" % index
        seen.append(words[0])
    return "ok"


def answers(program, texts):
    """The rule's answers to texts that the judge accepts."""
    hexed = [text.encode().hex().encode() for text in texts]
    counts = judged.run(program, [b"count " + text for text in hexed])
    for text, count in zip(texts, counts):
        if not count.startswith(b"ok "):
            sys.exit(f"{program} refuses {text!r}: {count!r}")
    asked = [b"statement %d " % index + text for text, count in zip(hexed, counts) for index in range(int(count[3:]))]
    told = iter([answer.decode().removeprefix("ok ") for answer in judged.run(program, asked)])
    return [rule([*itertools.islice(told, int(count[3:]))]).encode() for count in counts]


def refused(program, text, number):
    theirs = judged.run(program, [b"count " + text.encode().hex().encode()])[0].decode()
    if theirs.startswith("ok") or number_of(theirs) != number:
        sys.exit(f"{program} does not refuse {text!r} by {number}: {theirs}")


def made():
    """Each feature alone, twice, and with each of the others; each form of counts with 9 to 12."""
    for keyword, forms in ONE.items():
        first, second = forms[0], forms[-1]
        yield from (first, f"{first};{second}", f"LET(A,B);{second}\n{first};{second}")
    for first, second in itertools.combinations(FIVE, 2):
        yield f"{ONE[first][0]};{ONE[second][0]};{ONE[first][1]};{ONE[second][1]}"
    for keyword in ("PERIPHERALS", "TRANSITS"):
        for form in FORMS:
            for count in (9, 10, 11, 12):
                yield keyword + form.replace("_", str(count))
            yield f"LET(A,[B,11]);IIV(CL,EXP);{keyword}{form.replace('_', '64')};METABOLITE(*)"
    # every one of the five and one more at each place
    whole = [ONE[keyword][0] for keyword in FIVE]
    for at in range(len(whole) + 1):
        for more in ("LET(A,B)", "LAGTIME(ON)", "TRANSITS(12)", "EFFECTCOMP(*)", "IIV(@PK,EXP)"):
            yield ";".join([*whole[:at], more, *whole[at:]])


def reading(program):
    """Faults of reading come first, whatever of the profile's stands before them: the first of counted.py's of each number."""
    first = {}
    for text, number, place in counted.FAULTS:
        first.setdefault(number, (text, place))
    for number, (text, place) in sorted(first.items()):
        for front in ("", "METABOLITE(*);", "LAGTIME(ON);LAGTIME(ON);", "TRANSITS(11);"):
            refused(program, front + text, number)
            yield request((front + text).encode()), b"refused %d %d" % (number, len(front) + place)


def under(ceiling):
    """Below 10 a count above the ceiling is 4; from 11 on one above 10 is 24."""
    program = judged.judge(ceiling)
    fronts = ("", "LET(A,11);LAGTIME(ON);")
    counts = sorted({min(ceiling, count) for count in (3, 10, 11, ceiling)})
    texts = [front + keyword + form.replace("_", str(count))
             for front in fronts for keyword in ("PERIPHERALS", "TRANSITS") for form in FORMS for count in counts]
    texts += [text.replace("11", "1") for text, _ in BY_HAND if "10" not in text and "12" not in text]
    yield from ((request(text.encode(), ceiling), answer) for text, answer in zip(texts, answers(program, texts)))
    for count in sorted({max(11, ceiling + 1), ceiling + 1}):
        for form, place in (("PERIPHERALS(_)", 12), ("TRANSITS(0.._)", 12), ("TRANSITS([0,_],*)", 12), ("PERIPHERALS(_..0)", 12)):
            for front in ("", "METABOLITE(*);"):
                text = front + form.replace("_", str(count))
                refused(program, text, 4)
                yield request(text.encode(), ceiling), b"refused 4 %d" % (len(front) + place)
    yield request(b"METABOLITE(*)" + b" " * 16372, ceiling), b"refused 1 0"


def above():
    for ceiling in ABOVE:
        for text in ("", "LAGTIME(ON)", "METABOLITE(*)", "LAGTIME(ON);LAGTIME(ON)", "TRANSITS(11)", "$", " " * 16385):
            yield request(text.encode(), ceiling), HIGH


def pairs(program):
    """The requests and their answers."""
    by_rule = answers(program, [text for text, _ in BY_HAND])
    for (text, answer), made_answer in zip(BY_HAND, by_rule):
        if answer.encode() != made_answer:
            sys.exit(f"the profile of {text!r} by hand and by the rule: {answer}, {made_answer!r}")
    texts = [text for text, _ in BY_HAND] + [*made()]
    out = [(request(text.encode()), answer) for text, answer in zip(texts, answers(program, texts))]
    out += [(request(text), answer) for text, answer in LIMITS]
    out += reading(program)
    for ceiling in CEILINGS:
        out += under(ceiling)
    return out + [*above()] + LINES
