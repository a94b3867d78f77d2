"""Requests `resolve` with answers that the source does not have, by hand after document 01: contexts that are none, limits, lent lengths, and lines
that are no requests. Where a text is at a limit and not over it, or there is room for an answer, the answer is the judge's."""
import sys

import judged
from contexts import Context
from handed import Handed
from resolved import K, K_WORDS, WORKING, request, resolve, words


def lists(*some):
    """Five lists, the last ones empty where they are left out."""
    return [*some, *[[] for _ in range(5 - len(some))]]


def alone(k, entries):
    """The entries as the k-th list, the others empty."""
    return lists(*[[] for _ in range(k)], entries)


def entry(k, at):
    """An entry of the k-th list, of bytes at an offset: one, or two of a binding."""
    return [at, 1, at + 1, 1] if k == 2 else [at, 1, 1] if k == 3 else [at, 1]


HUGE = 4294967295
CL = [[0, 2]]

# The marks, the block, the lists: contexts, and below such as are none.
CONTEXTS = [
    ([0, 0], b"", lists()), ([1, 1], b"", lists()), ([0, 0], b"CL", lists(CL, CL, [], [], CL)), ([0, 0], b"$ \xff CL", lists([[4, 2]])),
    ([0, 0], b" " * 16384, lists()), ([0, 0], b" " * 16382 + b"CL", lists([[16382, 2]])), ([0, 0], b"CL", lists([[1, 1]])),
    ([0, 0], b"C" * 33, lists([[0, 32]])), ([0, 0], b"CLV", lists([[0, 2], [2, 1]], [[0, 3]], [], [], [[1, 2]])),
    ([1, 0], b"clCLvV", lists([], [], [[0, 2, 2, 2], [4, 1, 5, 1]])), ([0, 1], b"CLV", lists([], [], [], [[0, 2, 0], [2, 1, 1]])),
    *[([0, 0], name, lists([[0, len(name)]])) for name in [b"_", b"C-", b"a1_-9", b"007", b"1.50", b"SEQ-ZO-FO", b"LET", b"n"]],
    *[([int(k == 2), int(k == 3)], b"A" * 130, alone(k, [entry(k, 2 * i) for i in range(64)])) for k in range(5)],
]
NONE = [
    # over 16,384 bytes; over 64 entries
    ([0, 0], b" " * 16385, lists()), ([0, 0], b"A" * 1000, lists([[i, 1] for i in range(1000)])),
    *[([int(k == 2), int(k == 3)], b"A" * 130, alone(k, [entry(k, 2 * i) for i in range(65)])) for k in range(5)],
    # pairs that are not in the block, or of no bytes, or of more than 32
    *[([0, 0], b"CL", lists([pair])) for pair in [
        [0, 3], [1, 2], [2, 0], [2, 1], [3, 1], [HUGE, 1], [1, HUGE], [HUGE, HUGE], [HUGE, 0], [0, 0], [0, 33],
    ]],
    *[([int(k == 2), int(k == 3)], b"AB", alone(k, [entry(k, 2)])) for k in range(5)],
    ([0, 0], b"C" * 33, lists([[0, 33]])), ([0, 0], b"1" * 33, lists([[0, 33]])),
    # not one word or one number
    *[([0, 0], name, lists([[0, len(name)]])) for name in [
        b"C L", b" CL", b"CL ", b"-CL", b"C$", b"C.5", b"1.", b"1..2", b".5", b"1.5.2", b"1a", b"1-", b"*", b"@", b",", b"#CL", b"CL\n", b"CL;V",
        b"\xc3\xa9", b"C\xff", b"C\x00",
    ]],
    # not sorted by offset, or with overlap
    *[([0, 0], b"CLV", lists(pairs)) for pairs in ([[2, 1], [0, 2]], [[0, 2], [1, 2]], [[0, 2], [0, 2]], [[0, 1], [2, 1], [1, 1]])],
    *[([int(k == 2), int(k == 3)], b"ABCD", alone(k, [entry(k, 2), entry(k, 0)])) for k in range(5)],
    *[([1, 0], b"clCLvV", lists([], [], bindings)) for bindings in (
        [[2, 2, 0, 2], [4, 1, 5, 1]], [[0, 2, 0, 2]], [[0, 2, 4, 1], [2, 2, 5, 1]], [[0, 2, 1, 2]],
    )],
    # other kinds; entries without the mark
    *[([0, 1], b"CLV", lists([], [], [], [[0, 2, 0], [2, 1, kind]])) for kind in (2, 7, HUGE)],
    ([0, 0], b"clCL", lists([], [], [[0, 2, 2, 2]])), ([0, 1], b"clCL", lists([], [], [[0, 2, 2, 2]])),
    ([0, 0], b"CL", lists([], [], [], [[0, 2, 0]])), ([1, 0], b"CL", lists([], [], [], [[0, 2, 0]])),
]


def damaged():
    """Each context with nothing to resolve. One that is none with a second LET too, which comes later, and with a text that is not read."""
    for right, contexts in ((True, CONTEXTS), (False, NONE)):
        for handed in (Handed(*parts) for parts in contexts):
            if (handed.context() is not None) != right:
                sys.exit(f"handed.py has it otherwise whether this is a context: {handed.words()!r}")
            yield "", handed.words(), b"ok - - -" if right else b"refused 12 0"
            if not right and len(handed.block) < 100:
                yield "LET(A,B);LET(A,B)", handed.words(), b"refused 12 0"
                yield "LET(A,B)$", handed.words(), b"refused 2 8"


def names(letter, number, size):
    return [f"{letter}{i:02d}".ljust(size, "x") for i in range(number)]


def wide(p, c, size, declared=False):
    """A context of so many parameters, all bound, and data columns or declared covariates, with names of a size."""
    parameters, covariates = names("P", p, size), names("C", c, size)
    block = [(name, 0) for name in covariates] if declared else None
    return Context(parameters, parameters, [("cl", name) for name in parameters], block, covariates)


def digits(context, forms, length):
    """A text whose ground text has a length: `*` for both names, and an ALLOMETRY with as many digits as are left."""
    ground = ";".join(f"COVARIATE?({a},{b},{forms})" for a in context.parameters for b in context.covariates)
    left = length - len(f"ALLOMETRY({context.covariates[0]},);{ground}")
    return f"COVARIATE?(*,*,{forms});ALLOMETRY({context.covariates[0]},{'7' * left})"


def times(number, statement, *more):
    return ";".join([statement] * number + list(more))


SQUARE, TALL, TWELVE, LONG = wide(16, 16, 3), wide(64, 4, 3, True), wide(12, 12, 16), wide(2, 64, 32, True)
SEVEN = "[lin,piece_lin,exp,pow,cat,cat2,custom]"
FOUR = "COVARIATE?(*,*,[lin,exp,pow,custom])"
FORCED = "COVARIATE(P00,C00,lin);COVARIATE(P00,C00,exp)"
# The largest answers: 1,792 effects, which is all that 256 ground statements can have; 16,384 bytes; 256 notes.
LARGEST = [
    (SQUARE, f"COVARIATE?(*,*,{SEVEN});COVARIATE?(*,*,lin)"), (TWELVE, digits(TWELVE, SEVEN, 16384)),
    (K, times(255, "IIV(@PD,EXP)", "COVARIATE(CL,WT,lin,+)")),
]

# At a limit, with what is over it: the context, the text, the other text, its refusal.
LIMITS = [
    # 2,048 effects before merging; these come before 17, and after 14 to 16
    (SQUARE, f"{FOUR};{FOUR}", f"{FOUR};{FOUR};COVARIATE?(P00,C00,lin)", b"refused 18 0"),
    (TALL, f"{FOUR};{FOUR}", f"COVARIATE(P00,C00,lin);{FOUR};{FOUR}", b"refused 18 0"),
    (*LARGEST[0], LARGEST[0][1] + ";COVARIATE?(P15,C15,lin)", b"refused 18 0"),
    (SQUARE, f"{FOUR};COVARIATE?([P00,P01],*,[lin,exp,pow])", f"{FORCED};{FOUR};{FOUR}", b"refused 18 0"),
    (TALL, FOUR, f"{FOUR};{FOUR};{FOUR};COVARIATE?(P00,C00,cat)", b"refused 16 3"),
    # 256 ground statements, after 17
    (SQUARE, "COVARIATE?(*,*,lin)", "COVARIATE?(*,*,lin);LAGTIME(ON)", b"refused 18 0"),
    (
        TALL, times(64, "LAGTIME(ON)", "COVARIATE?(*,[C00,C01,C02],lin)", "LET(A,B)"),
        times(65, "LAGTIME(ON)", "COVARIATE?(*,[C00,C01,C02],lin)"), b"refused 18 0",
    ),
    (TALL, "COVARIATE(*,*,lin)", f"{FORCED};COVARIATE?(*,*,lin,+)", b"refused 17 1"),
    (K, times(255, "LAGTIME(ON)", "COVARIATE?(CL,SEX,*)"), times(255, "LAGTIME(ON)", "COVARIATE?([CL,V],SEX,*)"), b"refused 18 0"),
    # 16,384 bytes of ground text
    (*LARGEST[1], digits(TWELVE, SEVEN, 16385), b"refused 18 0"), (LONG, digits(LONG, "lin", 16384), digits(LONG, "lin", 16385), b"refused 18 0"),
    # the limits of reading
    (K, times(256, "IIV(@PD,EXP)"), times(257, "IIV(@PD,EXP)"), b"refused 11 3328"), (*LARGEST[2], LARGEST[2][1] + ";;(", b"refused 11 3339"),
    (K, "LAGTIME(ON)".ljust(16384), "LAGTIME(ON)".ljust(16385), b"refused 1 0"),
    (K, "LET(A,[" + ",".join("X" * 64) + "])", "LET(A,[" + ",".join("X" * 65) + "])", b"refused 11 135"),
]


# Around the sizes up to which the program has a way of its own for short texts: statements, bytes, LETs, terms, bytes of ground text. Texts that
# are resolved, and below such as are refused, by hand.
SIZES = [2, 31, 32, 33, 34, 63, 64, 65]
MANY = wide(8, 8, 3)


def around(n):
    """Texts of n statements; LETs; effects."""
    passed = ["LAGTIME(ON)"] * (n - 2)
    yield K, ";".join(["COVARIATE?(CL,@X,lin)", *passed, "LET(x,[WT])"])
    yield K, ";".join([*passed, "IIV(@PK,EXP)", "COVARIATE(@IIV,WT,exp)"])
    yield K, ";".join([*(f"LET(A{i},WT)" for i in range(n)), f"COVARIATE?(CL,@a{n - 1},lin)"])
    yield MANY, f"COVARIATE?(P00,[{','.join(names('C', 8, 3))}],lin);" + times(n, "COVARIATE?(P01,C01,[lin,exp])")
    yield MANY, ";".join([*(f"COVARIATE?(P0{i % 7},C0{i // 7 % 8},exp)" for i in range(n)), "COVARIATE?(*,C00,lin)", "COVARIATE(P07,C07,pow)"])
    yield MANY, ";".join([*(f"COVARIATE?(@PK,C0{i % 8},pow)" for i in range(n // 8)), "COVARIATE(@IIV,C03,pow)", "COVARIATE?(P03,[C03,C04],lin)"])
    for least in (1023, 1024, 1025):
        yield K, f"IIV(@PK,EXP);{';' * n}LAGTIME(ON)".ljust(least)


def long_names(n):
    """Ground statements of so many names of 32 bytes: 2,048 bytes and about as many, from a short text."""
    return wide(n, 2, 32), "IIV(@PK,EXP);COVARIATE?(*,*,lin);IOV(*,[ADD,EXP])"


def refused_around(n):
    """Texts whose last statement, of n, is refused, and such as end in a fault of reading, which comes first."""
    passed = ["LAGTIME(ON)"] * (n - 2)
    for first, last, number in [
        ("LET(A,CL)", "LET(a,V)", 13), ("LAGTIME(ON)", "IIV(@X,EXP)", 14), ("LET(X,Q)", "IIV(@X,EXP)", 15), ("LAGTIME(ON)", "IIV(Q,EXP)", 15),
        ("LAGTIME(ON)", "COVARIATE(CL,SEX,lin)", 16), ("COVARIATE(CL,WT,lin)", "COVARIATE(CL,WT,exp)", 17),
    ]:
        text = ";".join([first, *passed, last])
        yield text, K_WORDS, b"refused %d %d" % (number, n - 1)
        yield text + ";FOO(", K_WORDS, b"refused 3 %d" % (len(text) + 5)


def borders(program):
    texts = [made for n in SIZES for made in around(n)] + [long_names(n) for n in (29, 30, 31, 32, 59, 60, 61, 62, 63, 64)]
    return [*resolve(program, texts), *(made for n in SIZES for made in refused_around(n))]


def at_limits(program):
    made = resolve(program, [(context, text) for context, text, _, _ in LIMITS])
    for (context, _, over, refusal), resolved in zip(LIMITS, made):
        yield resolved
        yield over, words(context), refusal


# Texts in K for lent lengths, and such as are refused: before 19 for an output, and after 19 for the working buffer.
ROOM = [
    "", "IIV(@PD,EXP)", "LAGTIME(ON)", "COVARIATE?(CL,WT,lin,+)", "COVARIATE(@PK,WT,lin,+);COVARIATE?(CL,WT,exp);IIV(@PD,EXP);absorption(*)",
    times(99, "IIV(@PD,EXP)", "COVARIATE?(*,*,*,+)"),
]
NO_ROOM = [
    ("IIV(@X,EXP)", b"refused 14 0"), ("COVARIATE(CL,WT,lin);COVARIATE(CL,WT,exp)", b"refused 17 1"), ("FOO(", b"refused 3 4"),
    (" " * 16385, b"refused 1 0"),
]
SHORT = b"refused 19 0"


def lengths_of(answer):
    """How many bytes, effects and notes an answer has, and the working length."""
    _, ground, effects, notes = answer.split(b" ")
    return [len(ground) // 2, *(0 if part == b"-" else part.count(b",") + 1 for part in (effects, notes)), WORKING]


def one_less(lengths):
    """The same lengths, one of them less by one, if it is not 0."""
    return [lengths[:k] + [lengths[k] - 1] + lengths[k + 1:] for k in range(4) if lengths[k]]


def lent(program):
    """Requests with lengths: as long as the answer, and longer, and longer than any; one less; nothing at all."""
    for text, where, answer in resolve(program, [(K, text) for text in ROOM]):
        exact = lengths_of(answer)
        enough = [exact, [n + 1 for n in exact], [16384, 2048, 257, WORKING], [65536, 4096, 512, 8192], [65537, 4097, 513, 8193], [HUGE] * 4]
        too_few = [*one_less(exact), [16384, 2048, 257, 0], [16384, 2048, 257, WORKING - 1], [0, 0, 0, 0]]
        (enough if exact[:3] == [0, 0, 0] else too_few).append([0, 0, 0, WORKING])
        for rows, wanted in ((enough, answer), (too_few, SHORT)):
            for row in rows:
                yield request(text, where, b" %d,%d,%d,%d" % tuple(row)), wanted
    for text, where, answer in resolve(program, LARGEST):
        for row in [lengths_of(answer), *one_less(lengths_of(answer))]:
            yield request(text, where, b" %d,%d,%d,%d" % tuple(row)), answer if row == lengths_of(answer) else SHORT
    for text, refusal in NO_ROOM:
        for row, wanted in ((b" 0,0,0,%d" % WORKING, refusal), (b" 0,0,0,%d" % (WORKING - 1), SHORT), (b" 16384,2048,257,%d" % (WORKING - 1), SHORT)):
            yield request(text, K_WORDS, row), wanted
    yield request("", b"00 434c 0+3////", b" 0,0,0,%d" % WORKING), b"refused 12 0"
    yield request("", b"00 434c 0+3////", b" 0,0,0,%d" % (WORKING - 1)), SHORT


HEX, REST = b"4c414754494d45284f4e29", b"00 434c 0+2////"

# Lines with answers, whatever their numbers. A context has at most 16,384 numbers, seven of which are counts and marks.
ODD_LINES = [
    (b"resolve - 00 - ////", b"ok - - -"), (b"resolve - 11 - ////", b"ok - - -"), (b"resolve - 00 434c 0+2////", b"ok - - -"),
    (b"resolve - 00 434C 00+002////", b"ok - - -"), (b"resolve " + HEX.upper() + b" 01 - ////", b"ok %s - -" % HEX),
    (b"resolve " + HEX + b" " + REST + b" 011,0,000,00%d" % WORKING, b"ok %s - -" % HEX), (b"resolve 24 00 434c 0+3////", b"refused 2 0"),
    (b"resolve - 00 434c " + b",".join([b"0+1"] * 8188) + b"////", b"refused 12 0"), (b"resolve ff 00 - ////", b"refused 2 0"),
    (b"resolve 23ff 00 - ////", b"ok - - -"), (b"resolve - 00 - 4294967295+4294967295////", b"refused 12 0"),
    (b"resolve - 10 - //4294967295+4294967295=4294967295+4294967295//", b"refused 12 0"), (b"resolve - 01 - ///0+0:4294967295/", b"refused 12 0"),
]

# Lines that are no requests: words that are missing, too many or damaged; lengths; contexts.
LINES = [
    b"resolve", b"resolve ", b"resolve -", b"resolve - ", b"resolve - 00", b"resolve - 00 ", b"resolve - 00 -", b"resolve - 00 - ",
    b"resolve - 00 - ///", b"resolve - 00 - /////", b"resolve " + REST, b"resolves - " + REST, b"RESOLVE - " + REST, b" resolve - " + REST,
    *[b"resolve %s %s" % (text, REST) for text in [b"", b"4", b"zz", b"--", b"4c-", b" -"]],
    *[b"resolve - %s%s" % (REST, end) for end in [
        b" ", b"\r", b" 1", b" 1,2", b" 1,2,3", b" 1,2,3,", b" 1,2,3,4,5", b" 1,2,3,4 ", b" 1,2,3,4 5", b"  1,2,3,4", b" ,1,2,3", b" 1,2,3,-4",
        b" 1,+2,3,4", b" 1,2,3,4294967296", b" 1,2,3,99999999999999999999", b" 1, 2,3,4", b" 1;2;3;4", b",1,2,3,4", b" 1,,3,4", b" x,2,3,4",
    ]],
    *[b"resolve %s %s" % (HEX, rest) for rest in [
        b"0 434c 0+2////", b"000 434c 0+2////", b"02 434c 0+2////", b"20 434c 0+2////", b"1x 434c 0+2////", b"-- 434c 0+2////", b"00  434c 0+2////",
        b"00434c 0+2////", b"00 434 0+2////", b"00 4x 0+2////", b"00  0+2////", b"00 -- ////", b"00 434c  0+2////",
    ]],
    *[b"resolve %s 11 434c %s" % (HEX, word) for word in [
        b"+2////", b"0+////", b"0////", b"0-2////", b"0+2,////", b",0+2////", b"0+2,,0+2////", b"0+2 ////", b"0+ 2////", b"0+2/0+2/0+2//",
        b"0+2//0+2=//", b"//0+2=0+2=0+2//", b"///0+2/", b"///0+2:/", b"///0+2:0:0/", b"0+2:0////", b"0+2=0+2////", b"x+2////", b"4294967296+2////",
        b"0+4294967296////", b"0+4294967299////", b"0+42949672960////", b"0+99999999999999999999////", b"///0+2:4294967296/", b"0x1+2////",
        b"////0+2,", b"////0+2/", b"////x", b"//// ", b"\t////", b",".join([b"0+1"] * 8189) + b"////",
    ]],
]


def pairs(program):
    """The requests and their answers."""
    made = [(request(text, where), answer) for text, where, answer in [*damaged(), *at_limits(program), *borders(program)]]
    return made + [*lent(program)] + ODD_LINES + [(line, judged.NO_REQUEST) for line in LINES]
