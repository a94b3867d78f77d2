"""What the comparisons of `replay` with the source share: their arguments, the texts, who answers, which texts are left out, the report.

Texts met by 1 or 11 are not compared: the source has no such limits. Our own answer does not settle that: a text that the source accepts must
be refused so exactly where it is over a limit, and one that it refuses must at least be long enough for one. N is the number of texts
compared, those left out not counted.
"""
import pathlib
import random
import re
import sys
from collections import Counter

sys.path.insert(0, str(pathlib.Path(__file__).resolve().parent.parent / "replay"))
import judged  # noqa: E402
from texts import Texts, number_of  # noqa: E402

LONG_ARRAY = re.compile(r"\[(?:[^\[\],]*,){64}")
COMMENT = re.compile(r"#[^\n]*")


def may_meet_a_limit(text):
    """Whether the text is long enough, has statements enough, or an array with entries enough, for 1 or 11."""
    return len(text.encode()) > 16384 or text.count(")") >= 256 or LONG_ARRAY.search(text) is not None


def is_over_a_limit(text):
    """Whether 1 or 11 meets a text that the source accepts: there each statement has one `)`, and commas in brackets part entries."""
    bare = COMMENT.sub("", text)
    return len(text.encode()) > 16384 or bare.count(")") > 256 or LONG_ARRAY.search(bare) is not None


def hex_of(text):
    return text.encode().hex().encode()


def expected(answer):
    """The judge's answer in the program's form, but for places: a refusal is document 01's number alone."""
    answer = answer.decode()
    return answer.rstrip(" ") if answer.startswith("ok") else f"refused {number_of(answer)}"


def found(answer):
    """The program's answer, without the place where it is a refusal."""
    words = answer.decode("utf-8", "replace").split(" ")
    return " ".join(words[:2] if words[0] == "refused" else words)


class Comparison:
    """N texts of a seed. `end` prints how many there were of each kind, and the shortest that differs; its status is 1 then."""

    def __init__(self, usage):
        if len(sys.argv) not in (3, 4):
            sys.exit(usage)
        seed = int(sys.argv[2])
        self.number = self.left = int(sys.argv[1])
        self.texts, self.rng = Texts(seed), random.Random(seed)
        self.program = pathlib.Path(sys.argv[3]) if sys.argv[3:] else judged.PROGRAM
        self.judge = judged.judge()
        self.kinds, self.differences = Counter(), []

    def ours(self, requests):
        return judged.run(self.program, requests)

    def theirs(self, requests):
        return judged.run(self.judge, requests)

    def parts(self):
        """Lists of texts, until enough were compared or some differ."""
        while self.left and not self.differences:
            yield [self.texts.text() for _ in range(min(self.left, 20000))]

    def parts_and_joined(self):
        """The same, one text in fifty being 20 accepted ones joined by newlines, so that offsets and indexes grow."""
        for texts in self.parts():
            answers = self.theirs([b"count " + hex_of(text) for text in texts])
            accepted = [text for text, answer in zip(texts, answers) if answer.startswith(b"ok")]
            if accepted:
                texts[::50] = ["\n".join(self.rng.choices(accepted, k=20)) for _ in texts[::50]]
            yield texts

    def left_out(self, text, ours, theirs):
        """Whether the program refuses the text by a limit of its own; it is a difference if it should not, or does not and should."""
        limited = found(ours) in ("refused 1", "refused 11")
        accepted = theirs.startswith((b"ok", b"refused 20 "))
        if limited and not (is_over_a_limit if accepted else may_meet_a_limit)(text):
            self.differs(text, "no limit to meet", ours, theirs)
        if accepted and not limited and is_over_a_limit(text):
            self.differs(text, "over a limit", ours, theirs)
        self.kinds["at a limit, not compared"] += limited
        return limited

    def differs(self, text, how, ours, theirs):
        self.differences.append((len(text), text, how, ours, theirs))

    def end(self):
        kinds = ", ".join(f"{kind}: {number}" for kind, number in sorted(self.kinds.items()))
        print(f"{self.number - self.left} texts compared; {kinds}")
        if self.differences:
            _, text, how, ours, theirs = min(self.differences)
            print(f"{len(self.differences)} differ; the shortest: {text!r}: {how}\n  ours: {ours.decode()}\n  the source: {theirs.decode()}")
            sys.exit(1)
        print("all agree")
