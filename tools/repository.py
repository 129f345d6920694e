"""The crates of this repository, the words of a check by the kit's rattle, and what runs side by side."""
import importlib.machinery
import importlib.util
import os
import re
import sys
import threading
import time
from concurrent.futures import FIRST_COMPLETED, ThreadPoolExecutor, wait

from lanes import jobs_for

ROOT = os.path.dirname(os.path.dirname(os.path.realpath(__file__)))


class Crate:
    """A line of crates.txt: its name, its folder, all libraries that it lists, and the crates below it, lowest first."""

    def __init__(self, root, name, libraries, known):
        self.name, self.folder = name, f"{root}/crates/{name}"
        self.of_kit = [it for it in libraries if it not in known]
        self.own = [known[it] for it in libraries if it in known]
        self.below = []
        for it in self.own:
            self.below += [other for other in [*it.below, it] if other not in self.below]
        self.is_program = os.path.isfile(f"{self.folder}/src/main.rt")
        self.root_file = "src/main.rt" if self.is_program else "src/lib.rt"
        self.rlib = f"{self.folder}/out/rlib/{name}.rlib"

    def files(self):
        """Returns all files that a check of the crate reads."""
        return [
            f"{at}/{it}"
            for part in ("src", "specs", "proofs")
            for at, _, names in os.walk(f"{self.folder}/{part}")
            for it in names
        ]

    def lines(self, ending):
        """Returns how many lines the crate's files with this ending have."""
        found = 0
        for file in self.files():
            if file.endswith(ending):
                with open(file, "rb") as it:
                    found += it.read().count(b"\n")
        return found

    def memory(self):
        """Returns about how many bytes a check of the crate takes."""
        below = sum(it.lines(".rt") for it in self.below)
        return 900_000_000 + 500_000 * self.lines(".rt") + 100_000 * self.lines(".antt") + 50_000 * below


def crates_of(root):
    """Returns the crates of crates.txt by name, each after those that it stands on."""
    listed, found = {}, {}
    with open(f"{root}/crates.txt", encoding="utf-8") as it:
        for line in it:
            head, colon, libraries = line.partition("#")[0].partition(":")
            if colon:
                listed[head.split()[0]] = libraries.split()

    def add(name):
        if name not in found:
            for it in listed[name]:
                if it in listed:
                    add(it)
            found[name] = Crate(root, name, listed[name], found)

    for name in listed:
        add(name)
    return found


def kit():
    """Returns the kit's folder, by its command rt; tools/rt stands for that one, and is passed over."""
    for it in os.environ.get("PATH", "").split(os.pathsep):
        rt = os.path.realpath(f"{it or '.'}/rt")
        if os.access(rt, os.X_OK) and os.path.isfile(f"{os.path.dirname(rt)}/rtlib.py"):
            return os.path.dirname(os.path.dirname(rt))
    sys.exit("the Rattle kit's command rt is not on PATH")


def quick_rt():
    """Returns the kit's rt as a module, which sums up a crate's files once, as in tools/rt."""
    loader = importlib.machinery.SourceFileLoader("quick_rt", f"{ROOT}/tools/rt")
    made = importlib.util.module_from_spec(importlib.util.spec_from_loader("quick_rt", loader))
    loader.exec_module(made)
    rt = made.load()
    made.quick(rt.rtlib)
    rt.over = made.over
    return rt


def check_words(crate):
    """Returns the words of a check of the crate, or of a copy of it, as rt calls it, over the libraries in out/rlib."""
    home = kit()
    words = [f"{home}/bin/rattle", "check", "--crate-name", crate.name, crate.root_file]
    for it in ["std", *crate.of_kit]:
        words += ["--extern", f"{it}={home}/rlibs/{it}.rlib"]
    words += ["-L", f"dependency={home}/rlibs"]
    for it in crate.own:
        words += ["--extern", f"{it.name}={it.rlib}"]
    for it in crate.below:
        words += ["-L", f"dependency={os.path.dirname(it.rlib)}"]
    words += ["--antt-project", f"{home}/rattle/logic/antt-project.json"]
    return [*words, "--logic-built", f"{home}/logic_built", "--links", f"{crate.name}="]


def number_in(file, pattern):
    """Returns the number that the pattern finds in a file, or None."""
    try:
        with open(file, encoding="utf-8") as it:
            return int(re.search(pattern, it.read())[1])
    except (OSError, TypeError):
        return None


def processors():
    """Returns how many processors there are to use, by the quota of the control group too."""
    found = len(os.sched_getaffinity(0))
    quota = number_in("/sys/fs/cgroup/cpu.max", r"^(\d+)")
    period = number_in("/sys/fs/cgroup/cpu.max", r"(\d+)\s*$")
    return min(found, max(quota // period, 1)) if quota and period else found


def free_memory():
    """Returns the free memory in bytes, under the limit of the control group too."""
    found = [1024 * (number_in("/proc/meminfo", r"MemAvailable:\s+(\d+)") or 4_000_000)]
    limit = number_in("/sys/fs/cgroup/memory.max", r"(\d+)")
    if limit:
        found.append(limit - (number_in("/sys/fs/cgroup/memory.current", r"(\d+)") or 0))
    return min(found)


class Limits:
    """What a run may take: it begins nothing after a moment (in seconds since 1970), nor what would take it beyond so many minutes of processors.

    Who begins is of one thread, and tells what it took before it begins again. What is under way counts as what the ended ones took on average, or
    as long as it has run by now if that is more; so does what is to begin.
    """

    def __init__(self, minutes="", until=""):
        self.seconds, self.until = 60 * float(minutes or "inf"), float(until or "inf")
        self.spent, self.ended, self.turn, self.under_way = 0.0, 0, threading.Lock(), {}

    def may_begin(self, seconds=0):
        """Returns whether something may begin that takes so many seconds."""
        now, own = time.time(), threading.get_ident()
        with self.turn:
            mean = self.spent / self.ended if self.ended else 0.0
            taken = self.spent + sum(max(mean, now - it) for key, it in self.under_way.items() if key != own)
            begins = now + seconds < self.until and taken + mean < self.seconds
            if begins:
                self.under_way[own] = now
            else:
                self.under_way.pop(own, None)
            return begins

    def spend(self, seconds):
        with self.turn:
            self.under_way.pop(threading.get_ident(), None)
            self.spent, self.ended = self.spent + seconds, self.ended + 1


class Lifted:
    """Limits that hold nothing back, for what is done whatever the others say: what it takes counts in those."""

    def __init__(self, limits):
        self.limits, self.spend = limits, limits.spend

    def may_begin(self, seconds=0):
        self.limits.may_begin(seconds)
        return True


def at_run():
    """Returns how many other processes want a processor now: the most of three looks in a second."""
    most = 0
    for _ in range(3):
        states = []
        for it in filter(str.isdigit, os.listdir("/proc")):
            try:
                with open(f"/proc/{it}/stat", encoding="utf-8", errors="replace") as stat:
                    states += [stat.read().rpartition(")")[2].split()[0]] if it != str(os.getpid()) else []
            except OSError:
                pass
        most = max(most, states.count("R"))
        time.sleep(0.3)
    return most


class Beside:
    """A run of rt ci, beside which tasks begin where it leaves processors and memory idle.

    Its file has a line for each crate that rt ci has proved, and in the end the line 'over'. While it isn't over a task waits for the
    proofs of all crates below its own, one begins at a time, with one job, and some gigabytes of memory stay for what rt ci begins next.
    """

    KEPT = 6_000_000_000

    def __init__(self, file):
        self.file, self.below = file, {}

    def told(self):
        with open(self.file, encoding="utf-8") as it:
            return {*it.read().split("\n")[:-1]}

    def begins(self, key, need, lanes, told):
        """Returns whether a task of a crate may begin beside it."""
        return self.below[key] <= told and free_memory() - self.KEPT >= need and at_run() < lanes


def side_by_side(tasks, beside=None, is_chain=False):
    """Runs tasks, each once those that it waits for have ended, as many as processors and memory hold.

    A task is its key, the keys that it waits for, its memory in bytes, its weight, and a call that takes a number of jobs. Those with
    the greatest weight behind them go first; of a chain, the one that all others wait for in the end gets more jobs. Returns what each call gave, by
    key. RT_JOBS is how many run at a time, as under rt ci. Beside a run of rt ci they begin as `Beside` says, until it is over.
    """
    number = os.environ.get("RT_JOBS", "")
    fixed = int(number) if number.isdigit() else 0
    lanes, memory = fixed or processors(), 0.85 * free_memory()
    by_key, behind = {it[0]: it for it in tasks}, {it[0]: it[3] for it in tasks}
    for key, waits, _, _, _ in reversed(tasks):
        for it in waits:
            behind[it] = max(behind[it], by_key[it][3] + behind[key])
    left = sorted(by_key, key=lambda it: -behind[it])
    running, given, turn = {}, {}, threading.Lock()
    with ThreadPoolExecutor(lanes + 1) as pool:
        while left or running:
            told = beside.told() if beside else set()
            if "over" in told:
                beside, memory = None, 0.85 * free_memory() + sum(it for _, it, _ in running.values())
            ready = [it for it in left if all(below in given for below in by_key[it][1])]
            longest = max([behind[it] for it in [*ready, *[key for key, _, _ in running.values()]]], default=0)
            for at, key in enumerate(ready):
                _, _, need, _, call = by_key[key]
                used = sum(jobs for _, _, jobs in running.values())
                room = memory - sum(it for _, it, _ in running.values())
                wanted = jobs_for(is_chain and not fixed and behind[key] == longest, lanes, used, len(ready) - at)
                if beside and wanted and beside.begins(key, need, lanes, told):
                    jobs = 1
                elif not beside and wanted and (fixed or not running or need <= room):
                    jobs = 1 if fixed else max(1, min(wanted, 1 + int((room / need - 1) / 0.6)))
                else:
                    continue
                with turn:
                    left.remove(key)
                running[pool.submit(call, jobs)] = key, need * (1 + 0.6 * (jobs - 1)), jobs
                if beside:
                    break
            for it in wait(running, 15 if beside else None, return_when=FIRST_COMPLETED).done:
                given[running.pop(it)[0]] = it.result()
            if beside and not running:
                time.sleep(5)
    return given
