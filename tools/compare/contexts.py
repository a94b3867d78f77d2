"""Texts with contexts, for comparisons of resolving: names from a small pool, so that those of a text and of its context meet.

Cases(seed).case_of() gives one case after the other, the same for the same seed: the statements of a text, what joins them, and a context.
resolving_number_of(message) gives document 01's number for one of the source's English refusals of a text in a context.

The source has no places. The index of a refusal's statement is found by asking it again, of the text up to each statement (up_to): what
stands behind is kept as far as it changes what the statement means, and refuses nothing itself.
"""
import re

from texts import Texts, number_of

PARAMETERS = ["CL", "V", "KA", "cl", "Cl", "Q", "v", "70"]
COVARIATES = ["WT", "SEX", "AGE", "wt", "1.5", "CL"]
ROLES = ["cl", "v", "ka", "q", "f", "n", "v1", "v2", "v3", "q2", "q3", "mtt", "mat", "cv2", "lagtime", "alag", "tlag", "w", "s1"]
BUILTINS = ["IIV", "PK", "PK_IIV", "PD", "PD_IIV", "ABSORPTION", "ELIMINATION", "DISTRIBUTION", "BIOAVAIL", "CONTINUOUS", "CATEGORICAL"]
OF_COVARIATES = ["CONTINUOUS", "CATEGORICAL"]
OF_ROLES = ["ABSORPTION", "ELIMINATION", "DISTRIBUTION", "BIOAVAIL"]
OF_PARAMETERS = [name for name in BUILTINS if name not in OF_COVARIATES] + OF_ROLES
OWN = ["A", "B", "PK_", "X-1"]
CONTINUOUS, CATEGORICAL = ["lin", "piece_lin", "exp", "pow", "custom"], ["cat", "cat2"]
# How often statements come: some texts have of all kinds, some are mostly of COVARIATEs, which meet then.
MIXED = {"COVARIATE": 9, "IIV": 3, "IOV": 2, "COVARIANCE": 2, "ALLOMETRY": 1, "LET": 4, "other": 2}
MEETING = {"COVARIATE": 20, "IIV": 1, "LET": 1, "other": 1}
OTHERS = ["ABSORPTION", "ELIMINATION", "PERIPHERALS", "TRANSITS", "LAGTIME", "DIRECTEFFECT", "EFFECTCOMP", "INDIRECTEFFECT", "METABOLITE"]


class Context:
    """Lists of names; a template has (role, variable) pairs, or is None; a block has (name, kind) pairs, or is None."""

    def __init__(self, parameters, iiv, template, block, columns):
        self.parameters, self.iiv, self.template, self.block, self.columns = parameters, iiv, template, block, columns
        self.covariates = columns if block is None else [name for name, _ in block]

    def word(self):
        """The judge's form."""
        template = "-" if self.template is None else ",".join(f"{role}={variable}" for role, variable in self.template)
        block = "-" if self.block is None else ",".join(f"{name}:{kind}" for name, kind in self.block)
        return "/".join([",".join(self.parameters), ",".join(self.iiv), template, block, ",".join(self.columns)])

    def laid(self, again):
        """The product's form: a block of names, and each list by its pairs. `again` says whether a name that stands there already is used, and
        whether there are bytes that are no name's."""
        self.names = "$ " if again() else ""
        pairs = [self.placed(names, again) for names in [
            self.parameters, self.iiv, [name for binding in self.template or [] for name in binding],
            [name for name, _ in self.block or []], self.columns,
        ]]
        pairs[2] = list(zip(pairs[2][::2], pairs[2][1::2]))
        pairs[3] = list(zip(pairs[3], [kind for _, kind in self.block or []]))
        return self.names, pairs

    def placed(self, names, again):
        """Pairs in order, without overlap."""
        end, pairs = 0, []
        for name in names:
            place = self.names.find(name, end)
            if place < 0 or not again():
                place = len(self.names)
                self.names += name
            pairs.append((place, len(name)))
            end = place + len(name)
        return pairs


class Cases(Texts):
    def some(self, names, most):
        """So many at most; repeats may be among them."""
        return [self.r.choice(names) for _ in range(self.r.randint(0, most))]

    def context(self):
        r = self.r
        parameters = r.choice([["CL", "V", "KA"], ["CL", "V"], ["cl", "CL", "V"], self.some(PARAMETERS, 5), self.some(PARAMETERS, 5)])
        iiv = [name for name in parameters if r.random() < 0.6]
        if r.random() < 0.15:
            iiv = self.some(PARAMETERS, 4)
        template = None
        if r.random() < 0.85:
            usual = [("cl", "CL"), ("v", "V"), ("ka", "KA")]
            template = [usual[i] for i in range(3) if r.random() < 0.7] if r.random() < 0.4 else []
            for _ in range(r.randint(0, 4)):
                role = r.choice(ROLES if r.random() < 0.6 else ROLES[:5])
                variable = r.choice((parameters or PARAMETERS) + [r.choice(PARAMETERS), "1", "F1"])
                template.append((role if r.random() < 0.6 else self.case(role), self.case(variable)))
            if r.random() < 0.3:
                r.shuffle(template)
            if r.random() < 0.2:
                template = [(role.upper(), variable) for role, variable in template]
        block = None
        if r.random() < 0.75:
            block = r.choice([[("WT", 0), ("SEX", 1)], [("SEX", 1), ("WT", 0), ("AGE", 0)], []])
            block = block + [(name, r.randint(0, 1)) for name in self.some(COVARIATES, 3 if r.random() < 0.5 else 0)]
        columns = r.choice([["WT", "SEX"], ["WT", "AGE", "SEX"], self.some(COVARIATES, 4)])
        return Context(parameters, iiv, template, block, columns)

    def listed(self, known, others):
        """A name or an array, mostly of names that are known."""
        one = lambda: self.r.choice(known) if known and self.r.random() < 0.97 else self.r.choice(others)
        return one() if self.r.random() < 0.6 else self.array(one)

    def symbol(self, usual):
        k = self.r.random()
        name = self.r.choice(usual if k < 0.7 or k < 0.96 and not self.defined else self.defined if k < 0.96 else BUILTINS + OWN)
        return "@" + self.blank() + self.case(name)

    def parameters(self):
        k = self.r.random()
        return "*" if k < 0.15 else self.symbol(OF_PARAMETERS) if k < 0.45 else self.listed(self.met.parameters, PARAMETERS + ["WT"])

    def covariates(self):
        k = self.r.random()
        return "*" if k < 0.15 else self.symbol(OF_COVARIATES) if k < 0.35 else self.listed(self.met.covariates, COVARIATES + ["V"])

    def forms(self, optional, covariates):
        """Mostly such as suit the first covariate there."""
        one = self.r.choice
        kinds = dict(reversed(self.met.block or []))
        of = [kinds[name] for name in re.findall(r"[\w.]+", covariates) if name in kinds]
        if "categorical" in covariates.lower():
            of = [1]
        suiting = CONTINUOUS + CATEGORICAL if self.met.block is None or self.r.random() < 0.05 else [CONTINUOUS, CATEGORICAL][of[0] if of else 0]
        if self.r.random() < (0.35 if optional else 0.01):
            return "*"
        return self.case(one(suiting)) if self.r.random() < 0.6 else self.array(lambda: self.case(one(suiting)), 3)

    def resolved(self, keyword, optional):
        """The arguments of a statement whose names are resolved."""
        r = self.r
        if keyword == "COVARIATE":
            # one pair again, so that statements meet
            covariates = self.pair[1] if self.pair and r.random() < 0.5 else self.covariates()
            parameters = self.pair[0] if self.pair and r.random() < 0.4 else self.parameters()
            self.pair = parameters, covariates
            return [parameters, covariates, self.forms(optional, covariates)] + ([r.choice("+*")] if r.random() < 0.4 else [])
        if keyword == "LET":
            key = r.choice(self.defined if self.defined and r.random() < 0.4 else OWN + OF_PARAMETERS + OF_COVARIATES)
            self.defined.append(key)
            of = self.listed(self.met.covariates, COVARIATES) if key in OF_COVARIATES + ["B"] else self.listed(self.met.parameters, PARAMETERS)
            return [self.case(key), of]
        if keyword == "ALLOMETRY":
            return [self.listed(self.met.covariates, COVARIATES).strip("[]").split(",")[0]] + r.choice([[], ["70"], ["1.5"], ["0070"]])
        if keyword == "COVARIANCE":
            return [self.modes("level"), self.parameters()]
        return [self.parameters(), self.modes("variability")]

    def line(self):
        r = self.r
        if r.random() < 0.02:
            return self.statement()
        keyword = r.choices(list(self.often), list(self.often.values()))[0]
        if keyword == "other":
            keyword = r.choice(OTHERS)
            good = {"PERIPHERALS": ["0..2", "[0,3]", "1"], "TRANSITS": ["n", "[1,1]", "2..2", "007"]}
            family = {"DIRECTEFFECT": "pd", "EFFECTCOMP": "pd", "PERIPHERALS": "peripheral", "TRANSITS": "depot"}.get(keyword, keyword.lower())
            if keyword == "INDIRECTEFFECT":
                arguments = [self.modes("pd"), self.modes("production")]
            elif keyword in good:
                first = r.choice(good[keyword])
                arguments = [first] + ([self.modes(family)] if first != "n" and r.random() < 0.5 else [])
            else:
                arguments = [self.modes(family)]
            return f"{self.case(keyword)}({','.join(arguments)})"
        optional = keyword not in ("LET", "ALLOMETRY") and r.random() < (self.optional if keyword == "COVARIATE" else 0.4)
        return self.case(keyword) + ("?" if optional else "") + f"({','.join(self.resolved(keyword, optional))})"

    def case_of(self, most=5):
        self.met, self.defined, self.pair = self.context(), [], None
        self.often, self.optional = self.r.choice([MIXED, MEETING]), self.r.choice([0.2, 0.7])
        lines = [self.line() for _ in range(self.r.randint(1, most))]
        return lines, self.r.choice([";", "\n"]), self.met


RESOLVING = [
    (13, "is defined twice; a symbol has one definition"),
    (14, "is not a built-in symbol and no `LET("),
    (14, "needs a `[covariates]` block in the base model"),
    (14, "line, and the base model has none"),
    (15, "is not an individual parameter of the base model"),
    (15, "is not declared in the base model's `[covariates]` block"),
    (15, "is not a covariate column of the dataset"),
    (16, "is declared categorical, and"),
    (16, "is declared continuous, and"),
    (17, "is forced by more than one COVARIATE statement"),
]


def resolving_number_of(message):
    if message.startswith("refused MFL: "):
        return number_of(message)
    numbers = [number for number, words in RESOLVING if words in message]
    if not message.startswith("refused search space: ") or len(numbers) != 1:
        raise ValueError(f"no number for: {message}")
    return numbers[0]


LET = re.compile(r"\s*let\b", re.I)
COVARIATE = re.compile(r"(\s*covariate\s*)\??", re.I)


def up_to(number, index, lines):
    """The lines of a text that is refused by the number as soon as it has the statement that the fault lies at, and not before."""
    behind = lines[index + 1:]
    if number == 13:
        return lines[:index + 1]
    if number == 17:
        # explicit effects win from behind too, but optional ones force nothing
        return lines[:index + 1] + [COVARIATE.sub(r"\1?", line, count=1) if COVARIATE.match(line) else line for line in behind]
    return lines[:index + 1] + [line for line in behind if LET.match(line)]
