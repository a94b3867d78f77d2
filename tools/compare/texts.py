"""Texts for comparisons: good ones, damaged ones, and ones at the boundaries of numbers and arrays.

Texts(seed).text() gives one text after the other, the same for the same seed. number_of(message) gives document 01's number for one of
the source's English refusals, which have no numbers of their own.
"""
import random
import re

FAMILIES = {
    "absorption": ["INST", "FO", "ZO", "SEQ-ZO-FO", "WEIBULL"],
    "elimination": ["FO", "ZO", "MM", "MIX-FO-MM"],
    "peripheral": ["DRUG", "MET"],
    "depot": ["DEPOT", "NODEPOT"],
    "lagtime": ["OFF", "ON"],
    "effect": ["lin", "piece_lin", "exp", "pow", "cat", "cat2", "custom"],
    "pd": ["LINEAR", "EMAX", "SIGMOID", "STEP", "LOGLIN"],
    "production": ["PRODUCTION", "DEGRADATION"],
    "metabolite": ["BASIC", "PSC"],
    "variability": ["EXP", "ADD", "PROP", "LOG", "RE_LOG"],
    "level": ["IIV", "IOV"],
}
KEYWORDS = [
    "ABSORPTION", "ELIMINATION", "PERIPHERALS", "TRANSITS", "LAGTIME", "COVARIATE", "ALLOMETRY", "DIRECTEFFECT",
    "EFFECTCOMP", "INDIRECTEFFECT", "METABOLITE", "IIV", "IOV", "COVARIANCE", "LET",
]
OPTIONAL = {"COVARIATE", "IIV", "IOV", "COVARIANCE"}
NAMES = ["CL", "V", "KA", "WT", "AGE", "Vc", "_x", "a-b", "70", "1.5", "SEX", "n", "N", "Q2"]
NUMBERS = ["0", "1", "2", "007", "64", "65", "0000000000064", "3", "12", "1.0", "4294967295", "4294967296", "99"]
ODD = ["[]", "+", "*", "@X", "3", "x", "1..2", "[1,x]", "[x]", "[FO]", "$", "", "1.", "[", ")", ";", ".", "..", "[1..2]", "@3", "[@X]"]


class Texts:
    def __init__(self, seed):
        self.r = random.Random(seed)

    def case(self, word):
        mixed = "".join(self.r.choice([c.lower(), c.upper()]) for c in word)
        return self.r.choice([word, word.lower(), word.upper(), mixed])

    def blank(self):
        return self.r.choice([""] * 8 + [" ", "\t", "\r", "  "])

    def array(self, entry, most=4):
        n = self.r.choice([63, 64, 65]) if self.r.random() < 0.01 else self.r.randint(1, most)
        return "[" + ",".join(self.blank() + entry() + self.blank() for _ in range(n)) + "]"

    def modes(self, family):
        one = lambda: self.case(self.r.choice(FAMILIES[family]))
        k = self.r.random()
        return "*" if k < 0.15 else one() if k < 0.55 else self.array(one)

    def name(self):
        return self.r.choice(NAMES)

    def names(self):
        return self.name() if self.r.random() < 0.6 else self.array(self.name)

    def operand(self):
        k = self.r.random()
        if k < 0.15:
            return "*"
        if k < 0.4:
            return "@" + self.blank() + self.r.choice(["PK", "IIV", "CONTINUOUS", "x"])
        return self.names()

    def number(self):
        return self.r.choice(NUMBERS)

    def counts(self):
        k = self.r.random()
        if k < 0.4:
            return self.number()
        if k < 0.7:
            return self.number() + self.blank() + ".." + self.blank() + self.number()
        return self.array(lambda: self.number() if self.r.random() < 0.9 else "x")

    def arguments(self, keyword):
        r, m = self.r, self.modes
        maybe = lambda x, p=0.4: [x()] if r.random() < p else []
        a = {
            "ABSORPTION": lambda: [m("absorption")],
            "ELIMINATION": lambda: [m("elimination")],
            "PERIPHERALS": lambda: [self.counts()] + maybe(lambda: m("peripheral")),
            "TRANSITS": lambda: [r.choice(["N", "n", self.counts(), self.counts()])] + maybe(lambda: m("depot")),
            "LAGTIME": lambda: [m("lagtime")],
            "COVARIATE": lambda: [self.operand(), self.operand(), m("effect")] + maybe(lambda: r.choice("+*")),
            "ALLOMETRY": lambda: [self.name()] + maybe(self.number, 0.5),
            "DIRECTEFFECT": lambda: [m("pd")],
            "EFFECTCOMP": lambda: [m("pd")],
            "INDIRECTEFFECT": lambda: [m("pd"), m("production")],
            "METABOLITE": lambda: [m("metabolite")],
            "IIV": lambda: [self.operand(), m("variability")],
            "IOV": lambda: [self.operand(), m("variability")],
            "COVARIANCE": lambda: [m("level"), self.operand()],
            "LET": lambda: [self.name(), self.names()],
        }[keyword]()
        if r.random() < 0.25:
            i = r.randrange(len(a) + 1)
            if r.random() < 0.5 and i < len(a):
                a[i] = r.choice(ODD)
            else:
                a.insert(i, r.choice(ODD))
        return a[:-1] if r.random() < 0.05 else a

    def statement(self):
        keyword = self.r.choice(KEYWORDS)
        word = self.case(keyword)
        if self.r.random() < 0.04:
            word = self.r.choice(["FOO", "LE", "IIVX", "COV-1"])
        mark = "?" if self.r.random() < (0.4 if keyword in OPTIONAL else 0.05) else ""
        b = self.blank
        arguments = ",".join(b() + x + b() for x in self.arguments(keyword))
        return b() + word + b() + mark + b() + "(" + arguments + ")" + b()

    def damaged(self, text):
        i, k = self.r.randrange(len(text)), self.r.random()
        put = self.r.choice("()[],.*+?@;#\n$%-_aZ09 ") if k < 0.7 else ""
        return text[:i] + put + text[i + (1 if k > 0.3 else 0):]

    def text(self):
        text = ""
        for _ in range(self.r.choice([0, 1, 1, 1, 2, 3])):
            text += self.statement()
            if self.r.random() < 0.1:
                text += "# c\xe9 $ \r ok" + self.r.choice(["", "\n"])
            text += self.r.choice([";", "\n", ";;", "\n;", ";", " "] if self.r.random() < 0.2 else [";", "\n"])
        return self.damaged(text) if text and self.r.random() < 0.15 else text


UNEXPECTED = [
    "expected a feature keyword, found", "expected `(`", "expected `)`", "expected `,`", "expected `;`", "unexpected ", "unclosed",
    "expected a symbol name", "expected a number after", "expected a name or number",
]


def number_of(message):
    if "unexpected character" in message:
        return 2
    if "is not a non-negative integer" in message or "above the largest" in message:
        return 4
    if "runs backwards" in message:
        return 5
    if "is not a feature keyword" in message:
        return 6
    if "is not valid — only" in message:
        return 7
    if re.search(r"takes .*; found \d+ argument", message):
        return 8
    if "is not a known" in message:
        return 10
    return 3 if any(u in message for u in UNEXPECTED) else 9
