"""Records of what was tried and refused, or proved, by a sum of all that this can depend on: nothing with such a record is done again.

crates/NAME/wrong/tried has a first line 'SUM WHEN SECONDS', and then the names of wrong bodies, a line each, that were refused over texts with this
sum: WHEN in seconds since 1970, SECONDS of a processor for those that were tried last. crates/NAME/proved has such a first line alone, and is the
record of a crate of tests or a bench that was proved whole.

A sum covers the kit (of a wrong body the kit's logic: a false contract has a proof in no kit of that logic), the tools that do it, the crate's own
sources, definitions and proofs without lines of comments (and its wrong bodies), its line of crates.txt, and of each crate below what that one states: its items with their contracts and without bodies, and its definitions, as rattle wrote them into its library.
A wrong body is refused since its function's contract is false of it, and what a function below promises is its contract: so a body or a proof that
changes below makes no record stale, and a clause or a definition does.
"""
import hashlib
import inspect
import os
import re
import subprocess
import time

from edits import OPAQUE
from repository import ROOT, check_words, kit

# A line of specs/ or proofs/ that is a comment.
COMMENT = re.compile(r"(?m)^[ \t]*--(?:[ \t][^\n]*)?\n")
# A line of src/ that is a comment; or what else may hold two slashes, so that none is sought in it.
COMMENT_OR_TEXT = re.compile(r"(?m:^[ \t]*//[^\n]*\n)|" + OPAQUE.pattern, re.S)
# In each run those crates are done again whatever their records say whose turn it is: one in so many.
TURNS = 10
WRONG, PROVED = "wrong/tried", "proved"
sums = {}


def read(file):
    with open(file, encoding="utf-8", errors="surrogateescape", newline="") as it:
        return it.read()


def files_in(folder):
    """Returns all files below a folder, or the file itself, sorted by their path."""
    return sorted(f"{at}/{it}" for at, _, names in os.walk(folder) for it in names) or [folder] * os.path.isfile(folder)


def texts_of(folder, parts):
    return [(os.path.relpath(it, folder), read(it)) for part in parts for it in files_in(f"{folder}/{part}")]


def without_comments(file, text):
    """Returns the text of a source, definition or proof without the lines that are comments: on these nothing rests that is recorded."""
    if file.endswith(".antt"):
        return COMMENT.sub("", text)
    if file.endswith(".rt"):
        return COMMENT_OR_TEXT.sub(lambda it: "" if it[0].endswith("\n") and it[0].lstrip(" \t").startswith("//") else it[0], text)
    return text


def own_texts(folder, parts):
    return [(it, without_comments(it, text)) for it, text in texts_of(folder, parts)]


def sum_of(*parts):
    return hashlib.sha256(repr(parts).encode(errors="surrogateescape")).hexdigest()


def stated(crate):
    """Returns a sum of what a library states, or None where it is not built. (Nobody builds it anew while this runs.)"""
    lang = f"{crate.rlib}/lang"
    if not os.path.isdir(f"{lang}/src"):
        return None
    if lang not in sums:
        items, definitions = texts_of(lang, ["src"]), texts_of(lang, ["antt/specs"])
        sums[lang] = sum_of(items, [(it, COMMENT.sub("", text)) for it, text in definitions])
    return sums[lang]


def logic_of(identity):
    """Returns the logic that a kit's identity names, as of 'rattle-kit-13b logic dac8208d650f15bf', or the whole identity where it names none."""
    found = re.search(r"\blogic ([0-9a-f]{16,})\b", identity)
    return found[0] if found else identity


def sum_over(crate, tools, identity, own):
    """Returns a sum of these texts, the tools, what names the kit, the crate's line and what stands below it, or None where a library there is not built."""
    under = [(it.name, stated(it)) for it in sorted(crate.below, key=lambda it: it.name)]
    if any(it is None for _, it in under):
        return None
    tools = [read(f"{ROOT}/tools/{it}") for it in tools]
    return sum_of(identity, tools, inspect.getsource(check_words), crate.name, crate.of_kit, [it.name for it in crate.own], own, under)


def name_of(path):
    """Returns an edit's name in a record: in the copy of the repository that the gate judges, those of must-fail/ stand in wrong/ under that name."""
    folder, name = os.path.split(path)
    return f"must-fail-{name}" if os.path.basename(folder) == "must-fail" else name


def sum_of_wrong(crate):
    """Returns the sum under which the wrong bodies of a crate are recorded, or None where a library below it is not built."""
    edits = [it for part in ("wrong", "must-fail") for it in files_in(f"{crate.folder}/{part}") if it.endswith(".edit")]
    own = [own_texts(crate.folder, ("src", "specs", "proofs")), sorted((name_of(it), read(it)) for it in edits)]
    return sum_over(crate, ("trials.py", "edits.py", "records.py"), logic_of(read(f"{kit()}/KIT-ID")), own)


def texts_for_proof(crate):
    """Returns the files of a crate of tests, or of a bench, that its proof and its run rest on."""
    return own_texts(crate.folder, ("src", "specs", "proofs")) + texts_of(crate.folder, ("data", "stdin", "stdout", "args", "status"))


def sum_of_proof(crate, handles):
    """Returns the sum under which the proof of a crate of tests, or of a bench, is recorded, or None where a library below it is not built."""
    return sum_over(crate, ("rt", "as_rt_ci", "records.py"), read(f"{kit()}/KIT-ID"), [handles, texts_for_proof(crate)])


class Record:
    """A record: its sum, when it was written, the processor seconds that it took, and the names in it."""

    def __init__(self, crate, which):
        self.file, self.sum, self.when, self.seconds, self.names = f"{crate.folder}/{which}", None, 0, 0, set()
        lines = read(self.file).split("\n") if os.path.isfile(self.file) else [""]
        first = re.fullmatch(r"([0-9a-f]{64}) (\d{1,12}) (\d{1,9})", lines[0])
        if first:
            self.sum, self.when, self.seconds = first[1], int(first[2]), int(first[3])
            self.names = {it for it in lines[1:] if it}

    def holds(self, total):
        """Returns the names that this record has of texts with that sum."""
        return self.names if total and self.sum == total else set()

    def is_of(self, total):
        """Returns whether it is a record of texts with that sum."""
        return total is not None and self.sum == total

    def write(self, total, seconds, names=()):
        os.makedirs(os.path.dirname(self.file), exist_ok=True)
        with open(f"{self.file}.new", "w", encoding="utf-8") as it:
            it.write("".join(f"{line}\n" for line in [f"{total} {int(time.time())} {round(seconds)}", *sorted(names)]))
        os.replace(f"{self.file}.new", self.file)

    def remove(self):
        if os.path.isfile(self.file):
            os.remove(self.file)


def turn():
    """Returns the number of the commit, which nobody chooses: WRONG_TURN, or of git, or None."""
    number = os.environ.get("WRONG_TURN", "")
    if not number:
        try:
            ran = subprocess.run(["git", "-C", ROOT, "rev-parse", "HEAD"], stdin=subprocess.DEVNULL, capture_output=True, text=True)
            number = ran.stdout.strip()[:8] if not ran.returncode else ""
        except OSError:
            pass
    return int(number, 16) if re.fullmatch(r"[0-9a-f]{1,12}", number) else None


def is_in_turn(name, number):
    """Returns whether a crate is done again whatever its record says: each once in so many numbers of the commit."""
    return number is not None and int(sum_of(name)[:8], 16) % TURNS == number % TURNS


def in_order(whens, number):
    """Returns names in the order in which they are to be done, by when their records were written: by turns the oldest, and one that the commit draws.

    So what has no record comes first, and where records never come back to the repository nothing is left out for good.
    """
    oldest, drawn = sorted(whens, key=lambda it: (whens[it], sum_of(it, number))), sorted(whens, key=lambda it: sum_of(number, it))
    return [*dict.fromkeys(it for both in zip(oldest, drawn) for it in both)]
