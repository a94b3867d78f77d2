"""What the program `replay` is to answer, by the judge (tools/judge): its answers where it accepts, and where it refuses the fault's number with the byte's offset."""
import pathlib
import re
import subprocess
import sys

HERE = pathlib.Path(__file__).resolve().parent
REPOSITORY = HERE.parent.parent

# Where `rt run` in crates/replay leaves the program.
PROGRAM = REPOSITORY / "crates" / "replay" / "out" / "replay"

# The texts and places of the comparisons serve the stored list too.
sys.path.insert(0, str(HERE.parent / "compare"))

# The program's answer to a line that is no request.
NO_REQUEST = b"malformed: not a request"

# The judge's words for a character that starts no token. It counts characters.
BAD_CHARACTER = re.compile(rb"refused MFL: unexpected character `.*` at offset ([0-9]+): expected a feature keyword, ")


def judge(ceiling=None):
    """The path of the judge, built where something changed; that of the source with another limit for counts, where there is a ceiling."""
    made = subprocess.run([HERE.parent / "judge" / "make", *([] if ceiling is None else [str(ceiling)])], stdout=subprocess.PIPE)
    if made.returncode != 0:
        sys.exit(made.returncode)
    return pathlib.Path(made.stdout.decode().rstrip("\n"))


def run(program, lines):
    """The answer lines of a program to request lines."""
    asked = b"".join(line + b"\n" for line in lines)
    answers = subprocess.run([program], input=asked, stdout=subprocess.PIPE, check=True).stdout.split(b"\n")
    if answers.pop() != b"" or len(answers) != len(lines):
        sys.exit(f"{program}: not one line for each request")
    return answers


def header_space(program):
    """The space that the header comment of mfl.rs shows, from the judge's copy of the source."""
    lines = (program.parent / "mfl.rs").read_text().split("\n")
    first = lines.index("//! ```text") + 1
    last = lines.index("//! ```")
    return "\n".join(line.removeprefix("//! ") for line in lines[first:last])


def tokens_request(text):
    return b"tokens " + text.hex().encode()


def tokens_requests(texts):
    return [tokens_request(text) for text in texts]


def told(text, answer):
    """The judge's answer about the tokens of a text, in the program's form."""
    if answer == b"ok" or answer.startswith(b"ok "):
        return answer
    found = BAD_CHARACTER.match(answer)
    if not found:
        sys.exit(f"the judge has no answer to {text!r}: {answer!r}")
    before = text.decode()[: int(found.group(1))]
    return b"refused 2 %d" % len(before.encode())


def told_tokens(program, texts):
    """What is to be answered to `tokens` of each text, all of them UTF-8."""
    return [told(text, answer) for text, answer in zip(texts, run(program, tokens_requests(texts)))]
