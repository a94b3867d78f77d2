"""Where the names of a statement stand in its text: between the judge's form of a statement, which has the names, and the program's, which has
an offset and a length for each, `O+L`. Texts are bytes and accepted ones."""
import re

# A comment, blanks, a separator, a word, a number, `..` or another mark.
TOKEN = re.compile(rb"#[^\n]*|[ \t\r]+|[;\n]|[A-Za-z_][A-Za-z0-9_-]*|[0-9]+(?:\.[0-9]+)?|\.\.|[()\[\],*+?@]")
NAME = re.compile(r"[A-Za-z0-9_][A-Za-z0-9_.-]*")
PAIR = re.compile(r"([0-9]+)\+([0-9]+)")

# Which arguments of a statement are names, by keyword: those of all others are modes, counts or an operator.
NAMED = {"COVARIATE": (0, 1), "ALLOMETRY": (0, 1), "IIV": (0,), "IOV": (0,), "COVARIANCE": (1,), "LET": (0, 1)}


def statements(text):
    """The statements of a text, each a list of tokens, each an offset and its bytes."""
    found, at = [[]], 0
    while at < len(text):
        token = TOKEN.match(text, at).group()
        if token in (b";", b"\n"):
            found.append([])
        elif token[:1] not in b"# \t\r":
            found[-1].append((at, token))
        at += len(token)
    return [tokens for tokens in found if tokens]


def arguments(tokens):
    """The words and numbers of each argument of a statement."""
    found, within = [[]], False
    for at, token in tokens[[token for _, token in tokens].index(b"(") + 1:]:
        within = token == b"[" or within and token != b"]"
        if token == b"," and not within:
            found.append([])
        elif NAME.match(token.decode()):
            found[-1].append((at, token))
    return found


def located(text, index, form):
    """The judge's form of the statement at an index, with `O+L` for each name; None where the text does not have that name there."""
    keyword, *words = form.split(" ")
    read = arguments(statements(text)[index])
    for i in NAMED.get(keyword.rstrip("?"), ()):
        places = read[i] if i < len(read) else []
        if [token.decode() for _, token in places] != NAME.findall(words[i]):
            return None
        pairs = iter([f"{at}+{len(token)}" for at, token in places])
        words[i] = NAME.sub(lambda _: next(pairs), words[i])
    return " ".join([keyword, *words])


def named(text, form):
    """The program's form of a statement, with the text's bytes for each `O+L`; None where one does not lie in the text."""
    if any(len(text) < int(at) + int(length) for at, length in PAIR.findall(form)):
        return None
    return PAIR.sub(lambda p: text[int(p[1]):int(p[1]) + int(p[2])].decode("utf-8", "replace"), form)


def in_order(form):
    """Whether the pairs of each list are sorted by offset and do not overlap."""
    for word in form.split(" "):
        pairs = [(int(at), int(length)) for at, length in PAIR.findall(word)]
        if any(b < a + length for (a, length), (b, _) in zip(pairs, pairs[1:])):
            return False
    return True
