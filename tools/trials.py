"""Trials of wrong bodies in a scratch copy of their crate: the checks, and what each says of its edits. tools/wrong_bodies tells how they go.

A record of what was refused (tools/records.py) covers the text of this file: what decides what is tried, and when, stands elsewhere.
"""
import os
import re
import shutil
import signal
import subprocess
import tempfile
import threading
import time

from edits import copy_of, provable_by_hand
from repository import check_words

SECONDS = int(os.environ.get("WRONG_SECONDS", "3600"))
HARMLESS = """
fn {name}(number: u8) -> u8 {{
    if number < 255 {{ number + 1 }} else {{ number }}
}}
"""
# An example is read where the proof of a function cites its file; this function does nothing else.
CITES = "\nfn cites_an_example() {}\n"
# The proof of a function that a check from nothing is not asked for: none is tried, and its callers have its contract all the same.
LEFT_OPEN = """-- This check is not asked for it.
use Rattle.{module}.Statement.{{statement}}

pub {name}_spec : {{M : Type 1}} → statement M
{name}_spec = ?
"""
# What a proof file says that names what an edit took away: this shows nothing of the contract.
BY_NAME = re.compile(r"is not in scope|has no field|has no `|can be named from here|was not admitted|is no name|cannot continue|expected the end")
REFUSED, PROVED, UNREACHED, UNTRIED = "refused", "proved", "unreached", "untried"
started, printing = set(), threading.Lock()


def say(text):
    with printing:
        print(text, flush=True)


class Check:
    """One check of the scratch copy: what it said, and how it ended."""

    def __init__(self, words, folder):
        begun = time.time()
        how = {"cwd": folder, "stdin": subprocess.DEVNULL, "stderr": subprocess.STDOUT, "start_new_session": True}
        with tempfile.TemporaryFile() as said:
            ran = subprocess.Popen(["nice", "-n", "5", *words], stdout=said, **how)
            started.add(ran.pid)
            goes_first(ran.pid)
            timer = threading.Timer(SECONDS, end, [ran.pid])
            timer.start()
            _, status, used = os.wait4(ran.pid, 0)
            ran.returncode = os.waitstatus_to_exitcode(status)
            timer.cancel()
            started.discard(ran.pid)
            said.seek(0)
            self.said = said.read().decode(errors="replace")
        self.lines = self.said.rstrip("\n").split("\n")
        self.seconds, self.used, self.peak = time.time() - begun, used.ru_utime + used.ru_stime, used.ru_maxrss // 1024
        self.functions = dict(re.findall(r"(?m)^fn (\S+): (.*)$", self.said))
        last = self.lines[-1]
        self.why = None
        if ran.returncode < 0:
            ran_out = self.seconds >= SECONDS
            self.why = f"it ran longer than {SECONDS} s" if ran_out else f"it was ended by signal {-ran.returncode}, most likely for memory"
        elif ran.returncode == 3 or "no verdict" in last:
            self.why = f"it could not tell: {last[:160]}"
        elif ran.returncode not in (0, 1):
            self.why = f"it failed: {last[:200]}"
        self.is_reached = self.why is None and last.startswith(("only=", "logic="))

    def lacks(self):
        """Returns the path that fits no function, or several, where the check stopped at one, and the names that it fits."""
        found = re.search(r"rattle: error: (?:`\w+` has no function|several functions are named) `([^`]*)`(.*)", self.said)
        return (found[1], re.findall(r"`\w+?::([^`]*)`", found[2])) if found else (None, [])

    def at_fault(self):
        """Returns the files and lines of the errors by which a check ends before it reaches the prover."""
        return {(it[1], int(it[2])) for it in re.finditer(r"(?m)^(?:\./)?((?:src|specs|proofs)/\S+?):(\d+):\d+: error", self.said)}

    def judged(self, crate, edit):
        """Returns what the check says of an edit of functions, and why."""
        if edit.plain and self.told_of(crate, [edit.plain])[0] in (REFUSED, UNTRIED):
            return UNREACHED, "a copy of the function as it stands is not proved either"
        return self.told_of(crate, edit.told)

    def told_of(self, crate, functions):
        """Returns what the check says of functions, and why."""
        told = [(it, name) for it in functions for name in it.names_in(crate, self.functions)]
        for function, name in told:
            said = self.functions[name]
            if "could not tell" in said:
                return UNTRIED, f"{name}: {said[:160]}"
            goal = "did not prove" in said.partition("; it calls ")[0] or said.startswith("not proved") and self.goal_of(function, name)
            if goal:
                return REFUSED, name
        if not told:
            return UNREACHED, "no line of the check tells of " + " or ".join(it.short() for it in functions)
        if all(self.functions[name] == "proved" for _, name in told):
            return PROVED, f"{told[0][1]} is still proved"
        name = next(name for _, name in told if self.functions[name] != "proved")
        return UNREACHED, f"{name}: {self.functions[name][:200]}"

    def goal_of(self, function, name):
        """Returns whether a goal of a function that is not proved is open, as told at its lines or in its proof's files."""
        folder = re.escape(name.partition("::")[2].replace("::", "/"))
        for line in self.lines:
            at = re.match(r"note: (\S+?):(\d+):\d+: it is not proved", line)
            if at and at[1] == function.file and function.first <= int(at[2]) <= function.last:
                return True
            if re.match(rf"(?:\./)?proofs/{folder}/\S+?: error: ", line) and not BY_NAME.search(line):
                return True
        return False

    def refuses(self, crate, name):
        """Returns what the check says of a definition that a law or an example is to refuse, and why."""
        said = [it for way, it in self.functions.items() if way.startswith(f"{crate}::") and way.endswith(f"::{name}")]
        errors = [it for it in self.lines if re.match(rf"\S+?:\d+:\d+: error: `{re.escape(name)}`", it)]
        if any("did not prove" in it.partition("; it calls ")[0] for it in said) or any(not BY_NAME.search(it) for it in errors):
            return REFUSED, name
        if said and not said[0].startswith("proved"):
            wrong = [it for it in self.lines if re.match(r"(?:\./)?proofs/\S+?: error: ", it)]
            if any(not BY_NAME.search(it) for it in wrong):
                return REFUSED, name
            return UNREACHED, f"{name} is refused by names alone: {(wrong or said)[0][:200]}"
        return PROVED, f"{name} still holds"


def goes_first(pid):
    """Has the system end a check and what it starts before other processes, where memory runs out."""
    try:
        with open(f"/proc/{pid}/oom_score_adj", "w", encoding="ascii") as it:
            it.write("800")
    except OSError:
        pass


def end(pid):
    try:
        os.killpg(pid, signal.SIGKILL)
    except OSError:
        pass


class Scratch:
    """A copy of a crate, in which edits are tried, and the work that its checks keep."""

    def __init__(self, crate, room, jobs):
        self.crate, self.room, self.jobs, self.checks, self.used = crate, f"{room}/{crate.name}", jobs, 0, 0.0
        for part in ("src", "specs", "proofs"):
            if os.path.isdir(f"{crate.folder}/{part}"):
                shutil.copytree(f"{crate.folder}/{part}", f"{self.room}/{part}")
        self.is_warm = os.path.isdir(f"{crate.folder}/out/incremental")
        if self.is_warm:
            shutil.copytree(f"{crate.folder}/out/incremental", f"{self.room}/out/incremental")
        # whether the whole crate is checked, and the paths that are left to ask for a function by
        self.wholly, self.spelled = False, {}
        # the functions that may be tried as copies of another name; and where no work is kept, those that a check need not prove again
        plain = provable_by_hand(self.room)
        self.by_key = {it.key: folder for folder, it in plain.items()}
        self.by_hand = {} if self.is_warm else plain

    def path_of(self, function):
        """Returns the path by which a check is asked for the function."""
        return self.spelled.get(function.key, function.paths())[0]

    def module(self, file):
        inside = re.sub(r"^src/|\.rt$", "", file).split("/")
        return "::".join(inside[:-1] if inside[-1] in ("lib", "main", "mod") else inside)

    def leave_open(self, functions):
        """Leaves open the proofs of all functions but these, and returns the files of proofs/ that this changed, as they were."""
        before, asked = {}, {it.key for it in functions}
        for folder, it in self.by_hand.items():
            if it.key in asked:
                continue
            for name in ("Invariants.antt", "Answers.antt", "Proof.antt"):
                file = f"{self.room}/{folder}/{name}"
                before[file] = read(file) if os.path.isfile(file) else None
                if before[file] is not None:
                    os.remove(file)
            os.makedirs(f"{self.room}/{folder}", exist_ok=True)
            with open(f"{self.room}/{folder}/Proof.antt", "w", encoding="utf-8") as file:
                file.write(LEFT_OPEN.format(module=f"{self.crate.name}.{folder.replace('/', '.')}", name=it.name))
        return before

    def copied(self, edit, number):
        """Returns what a check needs to try an edit on a copy of its function under another name, or None where that can't be.

        With 0 for the number it is a copy of the function as it stands.
        """
        if len(edit.functions) != 1 or len({file for file, _, _ in edit.pairs}) != 1:
            return None
        function = edit.functions[0]
        folder, before = self.by_key.get(function.key), read(f"{self.room}/{function.file}")
        made = folder and copy_of(function, before, edit.apply(self.room, {})[0][function.file] if number else before, number)
        if not made:
            return None
        copy, text, proofs = *made, []
        old, new = (".".join([*folder.split("/")[1:-1], name]) for name in (function.name, copy.name))
        for name in os.listdir(f"{self.room}/{folder}") if os.path.isdir(f"{self.room}/{folder}") else []:
            whole = read(f"{self.room}/{folder}/{name}")
            proofs.append((f"{os.path.dirname(folder)}/{copy.name}/{name}", re.sub(rf"\b{re.escape(old)}\b", new, whole)))
        return copy, text, proofs

    def check(self, edits):
        """Checks the copy with these edits, and returns the check and whether its harmless function was proved."""
        texts, copies, plain, taken = {}, [], {}, set()
        for it in edits:
            it.plain = None
            if taken.isdisjoint(function.key for function in it.functions):
                texts, _ = it.apply(self.room, texts)
                it.told = it.functions
            else:
                # (a copy as it stands goes beside them: where a goal of it stays open, the copies say nothing)
                key = it.functions[0].key
                if key not in plain:
                    plain[key] = self.copied(it, 0)
                    copies.append(plain[key])
                copies.append(self.copied(it, len(copies) + 1))
                it.told, it.plain = [copies[-1][0]], plain[key][0]
            taken.update(function.key for function in it.functions)
        self.checks += 1
        harmless = f"stays_proved_{self.checks}_{os.getpid()}"
        file = edits[0].functions[0].file if edits[0].functions else self.crate.root_file
        cited = self.example(edits[0]) if edits[0].is_definition() else None
        paths = [f"{self.module(file)}::{harmless}".removeprefix("::")]
        more, written = HARMLESS.format(name=harmless), []
        if cited:
            paths.append(f"{self.module(file)}::cites_an_example".removeprefix("::"))
            more += CITES
            written.append((f"proofs/{paths[1].replace('::', '/')}/Answers.antt", f"-- Cites the example.\nuse {cited} as cited\n"))
        elif edits[0].is_definition():
            paths.append(edits[0].refuser)
        for function, text, proofs in copies:
            texts[function.file] += text
            function.last = texts[function.file].count("\n")
            function.first = function.last - text.count("\n")
            written += proofs
        texts[file] = (texts.get(file) or read(f"{self.room}/{file}")) + more
        right = {name: read(f"{self.room}/{name}") for name in texts}
        for name, text in [*texts.items(), *written]:
            os.makedirs(os.path.dirname(f"{self.room}/{name}"), exist_ok=True)
            with open(f"{self.room}/{name}", "w", encoding="utf-8") as it:
                it.write(text)
        functions = [*[function for it in edits for function in it.told], *[it[0] for it in plain.values()]]
        before = self.leave_open(functions) if functions and not edits[0].alone else {}
        while True:
            named = [*paths, *[self.path_of(function) for function in functions]]
            only = [] if self.wholly else [word for path in dict.fromkeys(named) for word in ("--only", path)]
            # (what a check without these proofs has proved serves no other, and a check that keeps nothing proves all in one process)
            kept = [] if before else ["--incremental", f"{self.room}/out/incremental"]
            found = Check([*check_words(self.crate), "--jobs", str(self.jobs), *kept, *only], self.room)
            self.used += found.used
            unknown, fitting = found.lacks()
            mistaken = [it for it in functions if unknown == self.path_of(it)]
            if not unknown or self.wholly:
                break
            # the next spelling of these functions' paths; where none fits, the whole crate is checked
            for it in mistaken:
                self.spelled.setdefault(it.key, it.paths()).pop(0)
                fits = [path for path in fitting if it.pattern(self.crate.name).match(f"{self.crate.name}::{path}")]
                self.spelled[it.key] = fits[:1] + self.spelled[it.key]
            self.wholly = not all(self.spelled[it.key] for it in mistaken) or not mistaken
        found.is_partial, found.has_copies = bool(before), bool(copies)
        for file, text in before.items():
            if text is not None:
                with open(file, "w", encoding="utf-8") as it:
                    it.write(text)
            elif os.path.isfile(file):
                os.remove(file)
        for name, _ in written:
            shutil.rmtree(os.path.dirname(f"{self.room}/{name}"), ignore_errors=True)
        for name, text in right.items():
            with open(f"{self.room}/{name}", "w", encoding="utf-8") as it:
                it.write(text)
        well = [said for name, said in found.functions.items() if name.endswith(f"::{harmless}")]
        return found, well == ["proved"]

    def example(self, edit):
        """Returns the module of proofs/ with the example that is to refuse a definition, or None where a law of src/ is to."""
        for at, _, names in sorted(os.walk(f"{self.room}/proofs")):
            for it in sorted(names):
                if it.endswith(".antt") and re.search(rf"(?m)^(?:pub )?{re.escape(edit.refuser)} :", read(f"{at}/{it}")):
                    inside = os.path.relpath(f"{at}/{it}", self.room).removesuffix(".antt").replace("/", ".")
                    return f"Rattle.{self.crate.name}.{inside}"
        return None


def read(file):
    with open(file, encoding="utf-8") as it:
        return it.read()


def batch_of(waiting, scratch):
    """Returns edits to try in one check: of different functions, or of copies of one, and applicable together; or a definition, or one that goes alone."""
    if waiting[0].alone or waiting[0].is_definition():
        return waiting[:1]
    texts, taken, batch, folder = {}, set(), [], scratch.room
    for it in waiting:
        keys = {function.key for function in it.functions}
        if not it.alone and keys & taken and scratch.copied(it, 1):
            batch.append(it)
            continue
        if it.alone or it.is_definition() or keys & taken:
            continue
        after, why = it.apply(folder, texts)
        if not why:
            texts, taken, batch = after, taken | keys, [*batch, it]
    return batch


def verdict_on(crate, check, is_well, edit):
    """Returns what a check says of an edit, and why."""
    if check.why:
        return UNTRIED, check.why
    if not check.is_reached:
        edit.alone = edit.alone or not check.at_fault() or bool(edit.lines & check.at_fault())
        return UNREACHED, "it does not reach the prover: " + next((it for it in check.lines if "error" in it), check.lines[-1])[:200]
    if not is_well:
        return UNREACHED, "a harmless function beside it was not proved"
    return check.refuses(crate.name, edit.refuser) if edit.is_definition() else check.judged(crate.name, edit)


def appliable(crate, scratch, edits, failed):
    """Returns the edits that can be tried; the others are failures."""
    waiting = []
    for it in edits:
        it.alone, it.tries = False, 0
        why = it.apply(scratch.room, {})[1]
        if why:
            failed.append(f"{crate.name}/{it.name}: CAN'T BE APPLIED: {why}")
        elif it.is_definition() and not it.refuser:
            failed.append(f"{crate.name}/{it.name}: its first line names no law or example that refuses it")
        else:
            waiting.append(it)
    return waiting


def try_crate(crate, edits, room, jobs, limits):
    """Tries edits of a crate, says how it goes, and returns the failures, a line each, the edits that were refused, those that were not tried, and seconds.

    No check begins once `limits` are reached, which are told what each check takes of a processor.
    """
    begun, scratch, failed, refused = time.time(), Scratch(crate, room, jobs), [], []
    waiting = appliable(crate, scratch, edits, failed)
    say(f"{crate.name}: {len(edits)} wrong bodies, {'over kept work' if scratch.is_warm else 'from nothing'}")
    while waiting and limits.may_begin():
        batch, known = batch_of(waiting, scratch), len(refused)
        check, is_well = scratch.check(batch)
        limits.spend(check.used)
        if (check.is_partial or check.has_copies) and not check.is_reached and not check.why:
            scratch.by_hand, scratch.by_key = {}, {}
            continue
        for it in batch:
            it.tries += 1
            verdict, why = verdict_on(crate, check, is_well, it)
            if verdict == REFUSED:
                refused.append(it)
                waiting.remove(it)
            elif len(batch) == 1 and not check.is_partial and (verdict != UNTRIED or it.tries > 2):
                word = {PROVED: "NOT REFUSED", UNREACHED: "NOT REFUSED BY A GOAL OF ITS OWN", UNTRIED: "NOT TRIED"}[verdict]
                failed.append(f"{crate.name}/{it.name}: {word}: {why}")
                say(f"  {failed[-1]}")
                waiting.remove(it)
            else:
                # (where nothing but an error elsewhere keeps it from the prover, it may go with others again)
                it.alone = it.alone or it.tries > 2 or verdict == PROVED or len(batch) == 1 or check.is_reached and not is_well
        names = f"{len(batch)} of them" if len(batch) > 1 else batch[0].name
        cost = f"{check.seconds:.0f} s, of a processor {check.used:.0f} s, {check.peak} MB"
        say(f"  {crate.name}: check {scratch.checks}, {names}: {len(refused) - known} refused; {cost}{'; ' + check.why if check.why else ''}")
    shutil.rmtree(scratch.room)
    counts = f"{len(refused)} refused, {len(failed)} failed, {len(waiting)} left"
    say(f"{crate.name}: {counts}; {time.time() - begun:.0f} s, of a processor {scratch.used:.0f} s")
    return failed, refused, waiting, scratch.used
