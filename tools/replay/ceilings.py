"""Requests behind `under N `, the ceiling for counts, with their answers. Where the source with that number for its limit accepts a text, the
answer is that judge's (tools/judge/make N); where it refuses, the judge must refuse by the number that stands here, and the place is written by
hand. Ceilings above 256, which the source does not have, and lines that are no requests are written by hand, too."""
import sys

import judged
from places import located
from resolved import K, K_WORDS, WORKING, request, resolve
from texts import number_of

CEILINGS = [0, 3, 65, 256]

# Texts with a count `_`, which is at the ceiling or one above it, and the number that refuses the text at the ceiling, 0 where it is accepted.
# That refusal's place is behind `%`. Above the ceiling it is 4, at what is behind `!`; where there is no `!`, all is as at the ceiling.
FORMS = [
    # a single count, both ends of a range, an array
    ("PERIPHERALS(!_)", 0), ("TRANSITS(!000_,DEPOT)", 0), (" peripherals ( !_ , met ) # x", 0), ("PERIPHERALS(0..!_)", 0), ("PERIPHERALS(!_.._)", 0),
    ("TRANSITS([0,!_,0])", 0), ("LAGTIME(ON);TRANSITS([!_],*);PERIPHERALS(0)", 0),
    # the left end is read first, and both before the range runs backwards
    ("PERIPHERALS(!_..%999)", 4), ("PERIPHERALS(!%999.._)", 4),
    # a range where there is no place for one: a count above the ceiling comes first
    ("LET(A,%0..!_)", 9), ("LET(A,!%_.._)", 9), ("IIV(%0..!_,EXP)", 9), ("COVARIATE?(CL,%0..!_,lin)", 9), ("LAGTIME(%0..!_)", 9),
    ("ALLOMETRY(WT,%0..!_)", 9), ("%FOO(0..!_)", 6), ("PERIPHERALS(0,%0..!_)", 9),
    # an array with a word is none of counts; what is wrong in front of a count comes first
    ("PERIPHERALS(%[0,!_,x])", 9), ("PERIPHERALS(%[x,_])", 9), ("PERIPHERALS(%*,_)", 9), ("%PERIPHERALS(_,*,*)", 8), ("%PERIPHERALS?(!_)", 7),
    ("PERIPHERALS(_)%$", 2),
]
# No counts: names that are numbers, and a reference.
NO_COUNTS = ["IIV([_,CL],EXP)", "LET(A,_)", "LET(A,[_,B])", "COVARIATE?(_,WT,lin)", "ALLOMETRY(WT,_)", "ALLOMETRY(WT,_.5)"]

# What is resolved in K under a ceiling.
RESOLVED = ["PERIPHERALS(_);IIV(@PK,EXP)", "TRANSITS(0.._,*);COVARIATE?(@PK,WT,[lin,exp])", "LET(A,CL);TRANSITS([_,0_,0]);COVARIANCE(IIV,CL)"]

ABOVE = [257, 258, 320, 65536, 65600, 4294967295]
HIGH, SHORT = b"refused 21 0", b"refused 19 0"
LAG = b"4c414754494d45284f4e29"

# Lines by hand. N is a 32-bit number, in digits; leading zeros are nothing. `tokens` reads no count and takes any ceiling.
LINES = [
    (b"under 3 count -", b"ok 0"), (b"under 03 count -", b"ok 0"), (b"under 0000000000000256 count", b"ok 0"), (b"under 256 print -", b"ok"),
    (b"under 256 print - 0", b"ok -"), (b"under 0 statement 0 -", b"refused 20 0"), (b"under 257 tokens 41", b"ok W:41"),
    (b"under 4294967295 tokens", b"ok"), (b"under 257 tokens 24", b"refused 2 0"), (b"under 3 tokens -", b"ok"),
    (b"under 3 resolve - 00 - ////", b"ok - - -"), (b"under 3 resolve - 00 434c 0+3////", b"refused 12 0"),
    (b"under 257 resolve - 00 434c 0+3////", HIGH), (b"under 257 resolve - 00 434c 0+3//// 0,0,0,%d" % (WORKING - 1), SHORT),
    *[(line, judged.NO_REQUEST) for line in [
        b"under", b"under ", b"under 3", b"under 64", b"under 3 ", b"under x count -", b"under -1 count -", b"under +3 count -", b"under 3.0 count -",
        b"under 0x3 count -", b"under  3 count -", b"under 3  count -", b"under 3 counts -", b"under count -", b"under 4294967296 count -",
        b"under 4294967299 count -", b"under 18446744073709551619 count -", b"under 99999999999999999999999 count -", b"under 3 under 3 count -",
        b"under 3 count 4", b"under 257 count zz", b"under 257 print 41 x", b"under 257 statement x 41", b"under 257 resolve -", b"unders 3 count -",
        b"UNDER 3 count -", b" under 3 count -", b"under\t3 count -", b"under 3\tcount -", b"under 3 count - ", b"count - under 3", b"under3 count -",
    ]],
]


def under(ceiling, line):
    return b"under %d " % ceiling + line


def asked(text):
    """The requests that read a text."""
    hexed = text.encode().hex().encode()
    return [b"count " + hexed, b"print " + hexed, b"statement 0 " + hexed]


def told(program, text):
    """The judge's answers to them: it has names where `replay` has places, and a space behind `ok` for the empty canonical text."""
    count, printed, statement = judged.run(program, asked(text))
    form = located(text.encode(), 0, statement.decode().removeprefix("ok ")) if statement.startswith(b"ok ") else None
    if form is None or not count.startswith(b"ok "):
        sys.exit(f"{program} refuses {text!r}: {count!r}, {statement!r}")
    return [count, printed.rstrip(b" "), b"ok " + form.encode()]


def refused(program, text, number, place):
    """The refusal, which the judge must have too."""
    theirs = judged.run(program, asked(text)[:1])[0]
    if theirs.startswith(b"ok") or number_of(theirs.decode()) != number:
        sys.exit(f"{program} does not refuse {text!r} by {number}: {theirs!r}")
    return b"refused %d %d" % (number, place)


def place_of(mark, form):
    return form.replace("%" if mark == "!" else "!", "").index(mark)


def answers(program, form, text, number, mark):
    """The requests about a text of a form, with their answers: those of an accepted one, or a refusal by a number at what a mark stands before.
    A working buffer that is too short comes before it."""
    if number == 0:
        return [*zip(asked(text), told(program, text))]
    refusal = refused(program, text, number, place_of(mark, form))
    return [*((line, refusal) for line in [*asked(text), request(text, K_WORDS)]), (request(text, K_WORDS, b" 0,0,0,%d" % (WORKING - 1)), SHORT)]


def reading(ceiling):
    program = judged.judge(ceiling)
    for marked, number in FORMS:
        for count, (by, mark) in ((ceiling, (number, "%")), (ceiling + 1, (4, "!") if "!" in marked else (number, "%"))):
            form = marked.replace("_", str(count))
            text = form.replace("%", "").replace("!", "")
            yield from ((under(ceiling, line), answer) for line, answer in answers(program, form, text, by, mark))
    for form in NO_COUNTS:
        text = form.replace("_", str(ceiling + 1))
        yield from ((under(ceiling, line), answer) for line, answer in zip(asked(text), told(program, text)))
    texts = [form.replace("_", str(ceiling)) for form in RESOLVED]
    for text, where, answer in resolve(program, [(K, text) for text in texts]):
        yield under(ceiling, request(text, where)), answer
    yield under(ceiling, b"count " + b"20" * 16385), b"refused 1 0"


def above():
    """21 comes before all but 19 for a working buffer."""
    for ceiling in ABOVE:
        for line in [b"count -", b"count " + LAG, b"count 24", b"print " + LAG, b"print " + LAG + b" 0", b"statement 0 " + LAG, b"statement 9 " + LAG]:
            yield under(ceiling, line), HIGH
        for text in ("", "LAGTIME(ON)", "$", "IIV(@X,EXP)"):
            for row, wanted in ((b"", HIGH), (b" 0,0,0,%d" % WORKING, HIGH), (b" 16384,2048,257,%d" % (WORKING - 1), SHORT), (b" 0,0,0,0", SHORT)):
                yield under(ceiling, request(text, K_WORDS, row)), wanted
    yield under(257, b"count " + b"20" * 16385), HIGH
    yield under(257, b"print " + b"24" * 16385), HIGH


def pairs():
    """The requests and their answers; the usual ceiling may be said, too."""
    usual = [
        (under(64, b"count " + text.encode().hex().encode()), answer)
        for text, answer in (("PERIPHERALS(64)", b"ok 1"), ("PERIPHERALS(65)", b"refused 4 12"), ("TRANSITS(0..65)", b"refused 4 12"))
    ]
    return [pair for ceiling in CEILINGS for pair in reading(ceiling)] + [*above()] + usual + LINES
