"""Texts with contexts near the limits of resolving: 256 statements, 2,048 effects before merging, 256 ground statements, 16,384 bytes of ground
text. large_case(rng, made) gives the statements and the context of one; `made` is a Cases of contexts.py."""
from contexts import CATEGORICAL, CONTINUOUS, Context

ALL = CONTINUOUS + CATEGORICAL


def names(letter, number, size):
    return [f"{letter}{i:02d}".ljust(size, "x") for i in range(number)]


def context_of(r, p, c, size):
    """So many parameters, all bound, and covariates, all continuous where they are declared."""
    parameters, covariates = names("P", p, size), names("C", c, size)
    block = [(name, 0) for name in covariates] if r.random() < 0.5 else None
    return Context(parameters, parameters[::2], [("cl", name.lower()) for name in parameters], block, covariates)


def effects(parameters, covariates, forms):
    return f"COVARIATE?({parameters},{covariates},{forms[0] if len(forms) == 1 else '[' + ','.join(forms) + ']'})"


def some_forms(r, context):
    return r.sample(CONTINUOUS if context.block is not None else ALL, r.randint(1, 5))


def many_statements(r, made):
    """254 to 258 statements."""
    made.met, made.defined, made.pair = made.context(), [], None
    made.often, made.optional = {"COVARIATE": 1, "other": 3}, 1
    lines = [made.line() for _ in range(6)]
    return [r.choice(lines) for _ in range(r.randint(254, 258))], made.met


def many_effects(r, made):
    """2,046 to 2,051 effects before merging, at most 256 pairs, each most often several times."""
    p = r.randint(4, 64)
    context = context_of(r, p, r.randint(1, 256 // p), r.randint(3, 8))
    forms = some_forms(r, context)
    each = p * len(context.covariates) * len(forms)
    left = r.randint(2046, 2051)
    lines = []
    while left >= each and len(lines) < 200:
        lines.append(effects("*", "*", r.sample(forms, len(forms))))
        left -= each
    while left > 0 and len(lines) < 256:
        some = min(left, p)
        lines.append(effects("[" + ",".join(r.sample(context.parameters, some)) + "]", r.choice(context.covariates), [r.choice(forms)]))
        left -= some
    r.shuffle(lines)
    return lines, context


def many_groups(r, made):
    """254 to 258 ground statements."""
    p, c = r.choice([(16, 16), (64, 4), (5, 50), (15, 17), (2, 60), (50, 4)])
    context = context_of(r, p, c, r.randint(3, 10))
    lines = [effects("*", "*", some_forms(r, context))] + ["LAGTIME(ON)"] * max(r.randint(254, 258) - p * c, 0)
    r.shuffle(lines)
    return lines, context


def long_ground(r, made):
    """16,380 to 16,388 bytes of ground text: a number in an ALLOMETRY has as many digits as are left."""
    p, c = r.choice([(2, 60), (10, 16), (12, 12), (40, 4), (4, 40)])
    context = context_of(r, p, c, r.randint(8, 32))
    forms = some_forms(r, context)
    ground = ";".join(effects(a, b, forms) for a in context.parameters for b in context.covariates)
    left = r.randint(16380, 16388) - len(f"ALLOMETRY({context.covariates[0]},);{ground}")
    lines = [effects("*", "*", forms)] + [f"ALLOMETRY({context.covariates[0]},{'7' * left})"] * (left > 0)
    return lines, context


def large_case(r, made):
    return r.choice([many_statements, many_effects, many_groups, long_ground])(r, made)
