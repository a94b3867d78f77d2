"""MFL search spaces, read, printed and resolved by Dumachik's proved calls.

    >>> import dumachik
    >>> dumachik.render(" peripherals( 007 ) # x")
    'PERIPHERALS(7)'
    >>> model = dumachik.Context(["CL", "V"], covariates={"WT": "continuous", "SEX": "categorical"})
    >>> dumachik.resolve("COVARIATE?([CL,V], @CONTINUOUS, [lin,pow])", model).ground
    'COVARIATE?(CL,WT,[lin,pow]);COVARIATE?(V,WT,[lin,pow])'

A count is at most 64, unless a call is given another ceiling, from 0 to 256:

    >>> dumachik.render("PERIPHERALS(0..12)", ceiling=3)
    Traceback (most recent call last):
    dumachik.Refusal: 4 at 15 (line 1, column 16): count not a whole 32-bit number, or above the ceiling

Whether a space is of the PK-only profile:

    >>> dumachik.profile("ABSORPTION([FO,ZO]);TRANSITS(0..10)")
    >>> dumachik.profile("LET(SIZE,WT);METABOLITE(PSC)")
    Traceback (most recent call last):
    dumachik.Refusal: 22 at 1 (statement 1): feature outside the PK-only profile

One file over a shared library, with ctypes alone. `tools/shared-library` makes the library; it is looked for beside this file and in the
repository's crates/dumachik/out, or where DUMACHIK_SO says.
"""
import ctypes
import dataclasses
import operator
import os
import pathlib
from typing import NamedTuple

__all__ = ["count", "render", "statements", "profile", "resolve", "Context", "Effect", "Note", "Refusal", "Resolved", "Statement", "Symbol"]

# The limits that texts and answers have; a count's is the source's, where no other ceiling is given.
MAX_TEXT = 16384
MAX_COUNT = 64
MAX_EFFECTS = 2048
MAX_NOTES = 257
WORKING = 2048

MEANINGS = {
    1: "text over 16,384 bytes",
    2: "byte that starts no token",
    3: "token not allowed, or end of text",
    4: "count not a whole 32-bit number, or above the ceiling",
    5: "range backwards",
    6: "unknown keyword",
    7: "`?` on a feature without it",
    8: "number of arguments",
    9: "argument of a wrong kind, empty array, word in an array of counts, second argument after N, mandatory `*` effect",
    10: "unknown mode",
    11: "any token but a separator after 256 statements; a 65th word or number in an array",
    12: "context not as it must be",
    13: "second LET of a key",
    14: "unknown symbol, or one whose template or block is missing",
    15: "name not in the model",
    16: "effect against the covariate's kind",
    17: "pair forced by two statements",
    18: "over 2,048 effects before merging; over 256 ground statements; ground text over 16,384 bytes",
    19: "an output shorter than its answer; a working buffer shorter than the call's stated length",
    20: "statement index not below the count",
    21: "ceiling above 256",
    22: "feature outside the PK-only profile",
    23: "second statement of a feature that the PK-only profile has once",
    24: "count above 10, the highest of the PK-only profile",
}
# Those whose place is the index of a statement, and those that have none but 0.
OF_STATEMENTS = (13, 14, 15, 16, 17, 20, 22, 23, 24)
OF_ALL = (1, 12, 18, 19, 21)

# The kinds of declared covariates, by their numbers.
KINDS = ("continuous", "categorical")

VARIABILITY = ("EXP", "ADD", "PROP", "LOG", "RE_LOG")
PD = ("LINEAR", "EMAX", "SIGMOID", "STEP", "LOGLIN")
EFFECTS = ("lin", "piece_lin", "exp", "pow", "cat", "cat2", "custom")
# Each keyword with its arguments: the family of an argument that is modes, None for any other.
KEYWORDS = (
    ("ABSORPTION", ("INST", "FO", "ZO", "SEQ-ZO-FO", "WEIBULL")),
    ("ELIMINATION", ("FO", "ZO", "MM", "MIX-FO-MM")),
    ("PERIPHERALS", None, ("DRUG", "MET")),
    ("TRANSITS", None, ("DEPOT", "NODEPOT")),
    ("LAGTIME", ("OFF", "ON")),
    ("COVARIATE", None, None, EFFECTS, None),
    ("ALLOMETRY", None, None),
    ("DIRECTEFFECT", PD),
    ("EFFECTCOMP", PD),
    ("INDIRECTEFFECT", PD, ("PRODUCTION", "DEGRADATION")),
    ("METABOLITE", ("BASIC", "PSC")),
    ("IIV", None, VARIABILITY),
    ("IOV", None, VARIABILITY),
    ("COVARIANCE", ("IIV", "IOV"), None),
    ("LET", None, None),
)


class Refusal(ValueError):
    """Why a call refuses: `number` and `place` as docs/CALLS.md has them.

    `line` and `column`, both from 1, are those of a place in the text, a column a byte, and None where there is none; where the place is the
    index of a statement, `statement` is that index.
    """

    def __init__(self, number, place, text):
        self.number, self.place = number, place
        self.line = self.column = self.statement = None
        where = ""
        if number in OF_STATEMENTS:
            self.statement = place
            where = f" (statement {place})"
        elif number not in OF_ALL:
            before = text[:place]
            self.line, self.column = before.count(b"\n") + 1, place - (before.rfind(b"\n") + 1) + 1
            where = f" (line {self.line}, column {self.column})"
        super().__init__(f"{number} at {place}{where}: {MEANINGS[number]}")

    def __reduce__(self):
        # a copy, or one from another process, has no text to look the line up in
        return _refusal, (self.args, self.__dict__)


def _refusal(args, fields):
    refusal = Refusal.__new__(Refusal, *args)
    refusal.__dict__.update(fields)
    return refusal


@dataclasses.dataclass(frozen=True)
class Symbol:
    """A symbol by its name, which is without the `@` that the text has before it. It is never equal to a name."""

    name: str

    def __str__(self):
        return f"@{self.name}"


class Statement(NamedTuple):
    """A statement: its keyword, whether it has a `?`, and its arguments.

    Modes are `"*"` or a tuple of labels; counts a number, a range with both ends, a tuple of numbers or `"N"`; parameters and covariates
    `"*"`, a Symbol, or a tuple of names; an operator `"*"` or `"+"`; what was left out None. LET has its name and a tuple of its values.
    """

    keyword: str
    optional: bool
    arguments: tuple


class Context(NamedTuple):
    """A model's names. `template` has pairs of a role and a variable, `covariates` the kind of each declared covariate ("continuous" or
    "categorical"), as a mapping or as pairs; None where there is no template, or no declaration block."""

    parameters: object
    iiv: object = ()
    template: object = None
    covariates: object = None
    columns: object = ()


class Effect(NamedTuple):
    parameter: str
    covariate: str
    effect: str
    operator: str
    optional: bool


class Note(NamedTuple):
    """`reason` is "dropped", with the index of the statement, or "additive"."""

    reason: str
    statement: int


class Resolved(NamedTuple):
    ground: str
    effects: list
    notes: list


class _Effect(ctypes.Structure):
    _fields_ = [(name, ctypes.c_uint8) for name in ("parameter", "covariate", "form", "operator", "optional")]


class _Note(ctypes.Structure):
    _fields_ = [("reason", ctypes.c_uint8), ("index", ctypes.c_uint8)]


def _load():
    here = pathlib.Path(__file__).resolve().parent
    named = os.environ.get("DUMACHIK_SO")
    places = [pathlib.Path(named)] if named else [here / "libdumachik.so", here.parent / "crates" / "dumachik" / "out" / "libdumachik.so"]
    found = next((place for place in places if place.exists()), None)
    if found is None:
        raise ImportError(f"not found: {places[-1]} (tools/shared-library makes it; DUMACHIK_SO names another)")
    library = ctypes.CDLL(str(found))
    text, size = ctypes.c_char_p, ctypes.c_size_t
    numbers = ctypes.POINTER(ctypes.c_uint32)
    signatures = {
        "mfl_count": [text, size, ctypes.c_uint32],
        "mfl_print": [text, size, text, size, ctypes.c_uint32],
        "mfl_statements": [text, size, numbers, size, ctypes.c_uint32],
        "mfl_profile": [text, size, ctypes.c_uint32],
        "mfl_resolve": [text, size, text, size, numbers, size, text, size, ctypes.POINTER(_Effect), size, ctypes.POINTER(_Note), size]
        + [numbers, size, ctypes.c_uint32],
    }
    for name, arguments in signatures.items():
        call = getattr(library, name)
        call.argtypes, call.restype = arguments, ctypes.c_uint64
    return library


_library = _load()


def _bytes(text):
    if isinstance(text, str):
        return text.encode("utf-8")
    if isinstance(text, (bytes, bytearray, memoryview)):
        return bytes(text)
    raise TypeError(f"a text is a str or bytes, not {type(text).__name__}")


def _answered(answer, text):
    """An answer that is no refusal."""
    if number := answer >> 32 & 0xFF:
        raise Refusal(number, answer & 0xFFFFFFFF, text)
    return answer


def _number(ceiling):
    """A ceiling as the calls take it. ctypes would cut a number to 32 bits; one that they do not hold is as much above 256 as their largest."""
    ceiling = operator.index(ceiling)
    if ceiling < 0:
        raise ValueError(f"a ceiling is a number from 0 to 256, not {ceiling}")
    return min(ceiling, 0xFFFFFFFF)


def count(text, *, ceiling=MAX_COUNT):
    """The number of statements of a text."""
    text = _bytes(text)
    return _answered(_library.mfl_count(text, len(text), _number(ceiling)), text)


def render(text, *, ceiling=MAX_COUNT):
    """The canonical text, which is read again under the same ceiling."""
    text = _bytes(text)
    # a canonical text is never longer than its text
    out = ctypes.create_string_buffer(max(1, min(len(text), MAX_TEXT)))
    length = _answered(_library.mfl_print(text, len(text), out, min(len(text), MAX_TEXT), _number(ceiling)), text)
    return out.raw[:length].decode("ascii")


def statements(text, *, ceiling=MAX_COUNT):
    """The statements of a text, in their order."""
    text = _bytes(text)
    # two numbers for each byte of the text always suffice
    room = 2 * min(len(text), MAX_TEXT)
    out = (ctypes.c_uint32 * max(1, room))()
    numbers = iter(out[: _answered(_library.mfl_statements(text, len(text), out, room, _number(ceiling)), text)])
    # each statement stands behind how many numbers it has
    return [_statement(numbers, text) for _ in numbers]


def profile(text, *, ceiling=MAX_COUNT):
    """None where a text is of the PK-only profile; else it raises the Refusal, with the index of the statement that stands in the way.

    The profile has no DIRECTEFFECT, EFFECTCOMP, INDIRECTEFFECT or METABOLITE, at most one statement each of ABSORPTION, ELIMINATION,
    PERIPHERALS, TRANSITS and LAGTIME, and no count above 10.
    """
    text = _bytes(text)
    _answered(_library.mfl_profile(text, len(text), _number(ceiling)), text)


def _statement(numbers, text):
    keyword, *families = KEYWORDS[next(numbers)]
    optional = next(numbers) == 1
    return Statement(keyword, optional, tuple(_argument(numbers, family, text) for family in families))


def _argument(numbers, family, text):
    """An argument, by the number of its kind, as include/dumachik.h has them."""

    def name():
        offset, length = next(numbers), next(numbers)
        return text[offset : offset + length].decode("ascii")

    def value():
        next(numbers)  # whether it is a word or a number
        return name()

    def listed(entry):
        return tuple(entry() for _ in range(next(numbers)))

    def inclusive():
        first, last = next(numbers), next(numbers)
        return range(first, last + 1)

    kinds = {
        0: lambda: "*",
        1: lambda: listed(lambda: family[next(numbers)]),
        2: lambda: next(numbers),
        3: inclusive,
        4: lambda: listed(lambda: next(numbers)),
        5: lambda: "N",
        6: lambda: Symbol(name()),
        7: lambda: listed(name),
        8: name,
        9: lambda: None,
        10: lambda: "*",
        11: lambda: "+",
        12: lambda: listed(value),
    }
    return kinds[next(numbers)]()


def _listed(context, field):
    """The entries of a context's field: names, or pairs, which may be given as a mapping. A str is no list of its letters."""
    entries = getattr(context, field)
    if isinstance(entries, (str, bytes, bytearray)):
        raise TypeError(f"{field} is a list, not {type(entries).__name__}: [{entries!r}]?")
    return list(entries.items() if hasattr(entries, "items") else entries or ())


class _Names:
    """A context as the call takes it: a block of name bytes, and one run of numbers."""

    def __init__(self, context):
        self.parameters, self.iiv, self.columns = (_listed(context, field) for field in ("parameters", "iiv", "columns"))
        bindings, declared = _listed(context, "template"), _listed(context, "covariates")
        self.covariates = self.columns if context.covariates is None else [name for name, _ in declared]
        self.block, self.numbers = bytearray(), [len(self.parameters), len(self.iiv), len(bindings), len(declared), len(self.columns)]
        self.numbers += [int(context.template is not None), int(context.covariates is not None)]
        for name in self.parameters + self.iiv + [name for binding in bindings for name in binding]:
            self.put(name)
        for name, kind in declared:
            self.put(name)
            if kind not in KINDS:
                raise ValueError(f"the kind of the covariate {name!r} is one of {', '.join(KINDS)}, not {kind!r}")
            self.numbers.append(KINDS.index(kind))
        for name in self.columns:
            self.put(name)

    def put(self, name):
        name = _bytes(name)
        self.numbers += [len(self.block), len(name)]
        self.block += name


def resolve(text, context, *, ceiling=MAX_COUNT):
    """The ground text, the covariate effects and the notes of a text in a context. The ground text is read again under the same ceiling."""
    text, names = _bytes(text), _Names(context)
    lists = (ctypes.c_uint32 * len(names.numbers))(*names.numbers)
    ground = ctypes.create_string_buffer(MAX_TEXT)
    effects, notes, work = (_Effect * MAX_EFFECTS)(), (_Note * MAX_NOTES)(), (ctypes.c_uint32 * WORKING)()
    block = bytes(names.block)
    outputs = (ground, MAX_TEXT, effects, MAX_EFFECTS, notes, MAX_NOTES, work, WORKING)
    answer = _library.mfl_resolve(text, len(text), block, len(block), lists, len(lists), *outputs, _number(ceiling))
    _answered(answer, text)
    many = {"ground": answer & 0xFFFF, "effects": answer >> 16 & 0xFFFF, "notes": answer >> 40}
    effect = lambda e: Effect(
        names.parameters[e.parameter], names.covariates[e.covariate], EFFECTS[e.form], "*+"[e.operator], e.optional == 1
    )
    note = lambda n: Note(("dropped", "additive")[n.reason], n.index)
    return Resolved(
        ground.raw[: many["ground"]].decode("ascii"),
        [effect(e) for e in effects[: many["effects"]]],
        [note(n) for n in notes[: many["notes"]]],
    )
