"""Requests `print` with their answers: the judge's for texts that the source accepts (those of stated.py, with every form of every argument;
generated ones; the header comment's; those of Pharmpy's grammar), and each canonical text printed again; refusals with their places,
limits and texts that the source does not have, by hand. Then requests with the length of the output, and with `-` for the empty text."""
import sys

import counted
import judged
import stated
from texts import Texts, number_of

# Texts in the grammar that Pharmpy documents. Those that the source's test against Pharmpy names as divergent come first, for what the source
# reads of them: the test compares with Pharmpy 2.0.0, which is not here. Where the source refuses, the number and the place.
PHARMPY = [
    ("PERIPHERALS(2..0)", (5, 12)),
    ("PERIPHERALS(0..100)", (4, 15)),
    ("ALLOMETRY(WT)", None),
    ("COVARIATE?(*,*,*)", None),
    ("COVARIATE?(CL,*,pow)", None),
    ("COVARIATE?(*,WT,pow)", None),
    ("ABSORPTION(FO) # c", None),
    ("ABSORPTION(FO);;\nELIMINATION(FO)", None),
    ("IIV(@PK,EXP)", None),
    ("IIV?([CL,V],[EXP,ADD])", None),
    ("IOV(CL,PROP)", None),
    ("COVARIANCE(IIV,@PK_IIV)", None),
    ("COVARIANCE?(IOV,[CL,V])", None),
    # resolved otherwise than by Pharmpy, read as by it
    ("COVARIATE?(@PD,WT,pow)", None),
    ("COVARIATE?(@NOSUCH,WT,pow)", None),
    ("COVARIATE?(@ABSORPTION,WT,pow);COVARIATE?(@DISTRIBUTION,WT,cat)", None),
    ("COVARIATE?(@PK,@CONTINUOUS,[pow,lin]);COVARIATE(CL,WT,exp)", None),
    ("COVARIATE?(@IIV,[WT,CRCL],*);COVARIATE?(CL,WT,exp)", None),
    # repeats, cases and defaults, which the test's comparison makes alike
    ("LAGTIME([ON,ON,OFF])", None),
    ("IIV(Vc,exp);iiv(VC,EXP)", None),
    ("PERIPHERALS(1);PERIPHERALS(1,DRUG)", None),
    ("TRANSITS(1);TRANSITS(1,DEPOT);TRANSITS(N)", None),
    ("TRANSITS(N,NODEPOT)", (9, 11)),
    ("ALLOMETRY(WT,70.0)", None),
    ("COVARIATE(CL,WT,*)", (9, 16)),
    ("COVARIANCE([IIV,IOV],*);COVARIANCE(*,[CL,V])", None),
    # a space of each keyword
    ("ABSORPTION([FO,ZO,SEQ-ZO-FO]);ELIMINATION([FO,MM,MIX-FO-MM]);PERIPHERALS(0..2);TRANSITS([0,1,3,10],*);LAGTIME([OFF,ON])", None),
    ("DIRECTEFFECT(*);EFFECTCOMP([LINEAR,EMAX]);INDIRECTEFFECT(*,PRODUCTION);METABOLITE([BASIC,PSC]);PERIPHERALS(0..1,MET)", None),
    ("LET(CONTINUOUS,[WT,AGE])\nLET(CATEGORICAL,SEX)\nCOVARIATE?(@IIV,@CONTINUOUS,*)\nCOVARIATE?(@IIV,@CATEGORICAL,cat,+)", None),
]

# Texts that are not UTF-8, which the source cannot be given.
NOT_UTF8 = [
    (b"# \xff\nlagtime(on) # \x80", b"ok " + b"LAGTIME(ON)".hex().encode()),
    (b"# \xff", b"ok"),
    (b"LAGTIME(ON)\xff", b"refused 2 11"),
]

# Lines that are no requests, and one whose 42 is the length of the output.
LINES = [(line, judged.NO_REQUEST) for line in [b"prints", b"PRINT 41", b" print 41", b"print  41", b"print 4", b"print zz"]]
LINES += [(b"print 41 42", b"refused 3 1"), (b"print 41\r", judged.NO_REQUEST)]

# Texts for outputs of several lengths; below, texts that are refused whatever the output.
ROOMS = [
    "LAGTIME(ON)", " peripherals( 007 ) # x", "absorption([fo,zo,fo]);Elimination(mm)\n\n;lagtime(*)", "COVARIATE?([CL,V],@X,[lin,exp],+)",
    "\n".join(["LAGTIME(ON)"] * 40) + "\nIIV(CL,EXP)", "LET(A,[" + ",".join(["B"] * 64) + "])", ";".join(["LAGTIME(ON)"] * 256),
    "LET(A," + "B" * 16376 + ")", "LET(A," + "B" * 16 + ")" + " " * 16360,
]
# Those of them that counted.py has not.
FAULTS = [("LAGTIME(", 3, 8), ("LAGTIME(ON);PERIPHERALS(65)", 4, 24), ("LAGTIME(ON)$", 2, 11)]
NO_ROOM = ["LAGTIME(", "FOO()", "LAGTIME(ON);PERIPHERALS(65)", "LAGTIME(ON)$", " " * 16385]

# The empty text as `-`, and outputs of a length, with their answers.
DASHES = [
    (b"tokens -", b"ok"), (b"count -", b"ok 0"), (b"statement 0 -", b"refused 20 0"), (b"statement 7 -", b"refused 20 7"), (b"print -", b"ok"),
    (b"print - 0", b"ok -"), (b"print - 1", b"ok -"), (b"print - 16384", b"ok -"), (b"print - 4294967295", b"ok -"),
    (b"print 20 0", b"ok -"), (b"print 230a3b 5", b"ok -"), (b"print ff 0", b"refused 2 0"),
]
DASHES += [
    (line, judged.NO_REQUEST)
    for line in [
        b"tokens --", b"tokens - ", b"tokens -41", b"tokens 41-", b"tokens - 1", b"count --", b"count - ", b"count - 1", b"count 41 1",
        b"statement -", b"statement - -", b"statement 0 --", b"statement 0 - ", b"statement 0 - 1", b"statement 0 41 1", b"print --", b"print - ",
        b"print  0", b"print  - 0", b"print 41 ", b"print 41  1", b"print 41 1 ", b"print 41 1 2", b"print 41 x", b"print 41 -", b"print 41 -1",
        b"print 41 +1", b"print 41 1x", b"print 4 1", b"print zz 1", b"print 41 4294967296", b"print 41 18446744073709551617",
    ]
]


def request(text):
    return b"print " + text.hex().encode()


def told(program, texts):
    """The judge's answers, the empty text's without the space behind `ok`."""
    answers = judged.run(program, [request(text) for text in texts])
    return [answer.rstrip(b" ") if answer.startswith(b"ok") else answer for answer in answers]


def pairs(program):
    """The requests and their answers."""
    faults = counted.FAULTS + [(text, *refusal) for text, refusal in PHARMPY if refusal]
    out = []
    for (text, number, place), theirs in zip(faults, told(program, [text.encode() for text, _, _ in faults])):
        if theirs.startswith(b"ok") or number_of(theirs.decode()) != number:
            sys.exit(f"the judge does not refuse {text!r} by {number}: {theirs!r}")
        out.append((request(text.encode()), b"refused %d %d" % (number, place)))

    within = [text for text, answer in counted.LIMITS if answer.startswith(b"ok")]
    out += [(request(text.encode()), answer) for text, answer in counted.LIMITS if text not in within]
    out += [(request(text), answer) for text, answer in NOT_UTF8]
    out += [(b"print", b"ok")] + LINES

    accepted = [*within, *counted.ACCEPTED, *stated.texts(), judged.header_space(program), *(text for text, refusal in PHARMPY if not refusal)]
    accepted = [text.encode() for text in accepted]
    answers = told(program, accepted)
    for text, answer in zip(accepted, answers):
        if not answer.startswith(b"ok"):
            sys.exit(f"the judge refuses {text!r}: {answer!r}")
    made = Texts(5)
    generated = [text.encode() for text in (made.text() for _ in range(200)) if len(text) < 2000]
    both = [(text, answer) for text, answer in zip(generated, told(program, generated)) if answer.startswith(b"ok")]
    both = list(zip(accepted, answers)) + both
    out += [(request(text), answer) for text, answer in both]
    # Printed again, a canonical text is itself.
    again = sorted({answer for text, answer in both if answer != b"ok " + text.hex().encode()})
    texts = [bytes.fromhex(answer.decode()[3:]) for answer in again]
    if told(program, texts) != again:
        sys.exit("the judge prints a canonical text as another")
    return out + [(request(text), answer) for text, answer in zip(texts, again)]


def roomed(program):
    """Requests with the length of the output: too short, exact and longer than the canonical text; of a refused text, its refusal."""
    out = list(DASHES)
    texts = [text.encode() for text in ROOMS]
    for text, answer in zip(texts, told(program, texts)):
        if not answer.startswith(b"ok "):
            sys.exit(f"the judge refuses {text!r}: {answer!r}")
        length = (len(answer) - 3) // 2
        small = len(text) < 2000
        short = [0, 1, length // 2, length - 1] if small else [length - 1]
        out += [(request(text) + b" %d" % room, b"refused 19 0") for room in short]
        long = [length, length + 1, 16384, 65535, 65536, 65537, 4294967295] if small else [length]
        out += [(request(text) + b" %d" % room, answer) for room in long]
    refused = dict(counted.LIMITS)
    refused.update((text, b"refused %d %d" % (number, place)) for text, number, place in counted.FAULTS + FAULTS)
    return out + [(request(text.encode()) + b" %d" % room, refused[text]) for text in NO_ROOM for room in ((0, 16384) if len(text) < 2000 else (0,))]
