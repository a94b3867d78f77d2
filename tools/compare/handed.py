"""A context as it is handed over: two marks, a block of name bytes, and five lists of pairs into it, in order or damaged.

Handed.of(context, again) lays a context of contexts.py out; words() is its form in a request of `replay`; context() gives the names back, or None
where document 01 says that it is no context (fault 12). damaged(rng, handed) breaks one thing, which may leave a context all the same.
"""
import re

from contexts import Context

NAME = re.compile(rb"[A-Za-z_][A-Za-z0-9_-]*|[0-9]+(?:\.[0-9]+)?")
LISTS = 5


class Handed:
    def __init__(self, marks, block, lists):
        """Marks are two numbers; an entry of a list is a list of numbers: offset and length, twice for a binding, with a kind for a covariate."""
        self.marks, self.block, self.lists = marks, block, lists

    @classmethod
    def of(cls, context, again):
        names, (parameters, iiv, bindings, declared, columns) = context.laid(again)
        lists = [
            [list(pair) for pair in parameters], [list(pair) for pair in iiv], [[*role, *variable] for role, variable in bindings],
            [[*pair, kind] for pair, kind in declared], [list(pair) for pair in columns],
        ]
        return cls([int(context.template is not None), int(context.block is not None)], names.encode(), lists)

    def words(self):
        """MARKS BLOCK LISTS."""
        forms = ["%d+%d", "%d+%d", "%d+%d=%d+%d", "%d+%d:%d", "%d+%d"]
        lists = "/".join(",".join([form % tuple(entry) for entry in entries]) for form, entries in zip(forms, self.lists))
        return b"%d%d %s %s" % (*self.marks, self.block.hex().encode() or b"-", lists.encode())

    def names(self, pairs):
        """The names of a list, or None where a pair is none, or overlaps with the one before it or stands before that."""
        end, names = 0, []
        for offset, length in pairs:
            name = self.block[offset:offset + length]
            if offset < end or not 1 <= length <= 32 or len(self.block) < offset + length or not NAME.fullmatch(name):
                return None
            end = offset + length
            names.append(name.decode())
        return names

    def context(self):
        parameters, iiv, bindings, declared, columns = self.lists
        if len(self.block) > 16384 or any(len(entries) > 64 for entries in self.lists):
            return None
        if bindings and not self.marks[0] or declared and not self.marks[1] or any(entry[2] > 1 for entry in declared):
            return None
        both = [pair for entry in bindings for pair in (entry[:2], entry[2:])]
        found = [self.names(pairs) for pairs in (parameters, iiv, both, [entry[:2] for entry in declared], columns)]
        if None in found:
            return None
        template = list(zip(found[2][::2], found[2][1::2])) if self.marks[0] else None
        block = [(name, entry[2]) for name, entry in zip(found[3], declared)] if self.marks[1] else None
        return Context(found[0], found[1], template, block, found[4])


def copied(handed):
    return Handed(list(handed.marks), handed.block, [[list(entry) for entry in entries] for entries in handed.lists])


def other_number(r, handed):
    """A number of a pair, a little or much other than it was."""
    entry = some_entry(r, handed)
    if entry:
        k = r.randrange(len(entry))
        entry[k] = r.choice([0, 1, entry[k] + 1, max(entry[k] - 1, 0), entry[k] + 32, len(handed.block), len(handed.block) + 1, 4294967295])


def some_entry(r, handed):
    entries = [entry for entries in handed.lists for entry in entries]
    return r.choice(entries) if entries else None


def other_order(r, handed):
    """A list in another order, or with an entry twice."""
    entries = r.choice(handed.lists)
    if entries and r.random() < 0.5:
        entries.insert(r.randrange(len(entries) + 1), list(r.choice(entries)))
    else:
        r.shuffle(entries)


def other_mark(r, handed):
    k = r.randrange(2)
    handed.marks[k] = 1 - handed.marks[k]


def other_kind(r, handed):
    if handed.lists[3]:
        r.choice(handed.lists[3])[2] = r.choice([0, 1, 2, 7, 4294967295])


def other_byte(r, handed):
    """A byte of the block changed, put in or taken out."""
    at, k = r.randrange(len(handed.block) + 1), r.randrange(3)
    byte = bytes([r.choice([r.randrange(256), *b"aZ09_-.$ \n@"])]) if k else b""
    handed.block = handed.block[:at] + byte + handed.block[at + (k < 2):]


def long_name(r, handed):
    """A name of 31 to 34 bytes behind the others, in any list."""
    size, k = r.randint(31, 34), r.randrange(LISTS)
    name = bytes(r.choices(b"AbZ_", k=1) + r.choices(b"AbZ_09-", k=size - 1))
    pair = [len(handed.block), size]
    handed.block += name
    handed.lists[k].append(pair + ([len(handed.block) - 1, 1] if k == 2 else [r.randint(0, 1)] if k == 3 else []))


def many_entries(r, handed):
    """A list of 63 to 66 entries, each one byte."""
    k, many = r.randrange(LISTS), r.randint(63, 66)
    start, step = len(handed.block), 2 if k == 2 else 1
    handed.block += bytes(r.choices(b"AbCd", k=many * step))
    entries = [[start + i * step, 1] for i in range(many)]
    handed.lists[k] = [entry + ([entry[0] + 1, 1] if k == 2 else [r.randint(0, 1)] if k == 3 else []) for entry in entries]


def long_block(r, handed):
    """16,383 to 16,386 bytes, the last of them a name or no name's."""
    handed.block += b" " * (r.randint(16383, 16386) - len(handed.block) - 1) + b"A"
    if r.random() < 0.5:
        handed.lists[4].append([len(handed.block) - 1, 1])


DAMAGES = [other_number] * 6 + [other_order] * 2 + [other_mark] * 2 + [other_kind] * 2 + [other_byte] * 4 + [long_name] * 2 + [many_entries]


def damaged(r, handed):
    handed = copied(handed)
    (long_block if r.random() < 0.005 else r.choice(DAMAGES))(r, handed)
    return handed
