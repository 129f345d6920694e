"""Copies of the repository: the whole as it stands when the gate begins, and of it what rt ci judges, the libraries and the program.

The crates of tests and the benches stand apart (tools/apart.py). The edits of must-fail/ stand among the wrong bodies in what rt ci judges, since
tools/wrong_bodies asks each by the one law or example that refuses it, where rt ci would check the whole crate for each. Nothing else differs, and
what rt ci refuses of the files of the crates that stand apart is refused by tools/as_rt_ci.
"""
import os
import shutil

from apart import is_apart

RECORDS = ("wrong/tried", "proved")


def whole(root, to):
    """Copies the repository as it stands, but for what git and checks keep in it. What is no plain file stays none, and is refused there as here."""
    for at, folders, files in os.walk(root):
        inside = os.path.relpath(at, root)
        kept = (".git", "__pycache__") if inside == "." else ("out", "__pycache__") if os.path.dirname(inside) == "crates" else ("__pycache__",)
        folders[:] = [it for it in folders if it not in kept]
        os.makedirs(f"{to}/{inside}", exist_ok=True)
        for name in [*folders, *files]:
            path, copied = f"{at}/{name}", f"{to}/{inside}/{name}"
            if os.path.islink(path):
                os.symlink(os.readlink(path), copied)
            elif os.path.isfile(path):
                if inside != "." or name != ".git":
                    shutil.copy2(path, copied)
            elif not os.path.isdir(path):
                os.mkfifo(copied)
        folders[:] = [it for it in folders if not os.path.islink(f"{at}/{it}")]
    # (it is the top of a repository)
    os.mkdir(f"{to}/.git")


def name_in(line):
    """Returns the name of the crate that a line of crates.txt is of, or None."""
    head, colon, _ = line.partition("#")[0].partition(":")
    return head.split()[0] if colon else None


def staged(root, to):
    """Copies of a repository what rt ci judges: the crates that do not stand apart, with their lines of crates.txt, HANDLES and the tools."""
    os.makedirs(f"{to}/.git")
    with open(f"{root}/crates.txt", encoding="utf-8") as it:
        lines = [line for line in it if not name_in(line) or not is_apart(name_in(line))]
    with open(f"{to}/crates.txt", "w", encoding="utf-8") as it:
        it.writelines(lines)
    if os.path.isfile(f"{root}/HANDLES"):
        shutil.copy2(f"{root}/HANDLES", f"{to}/HANDLES")
    shutil.copytree(f"{root}/tools", f"{to}/tools")
    for name in filter(None, map(name_in, lines)):
        here, there = f"{root}/crates/{name}", f"{to}/crates/{name}"
        shutil.copytree(here, there, ignore=lambda at, _: ["must-fail"] if at == here else [])
        for it in sorted(os.listdir(f"{here}/must-fail")) if os.path.isdir(f"{here}/must-fail") else []:
            os.makedirs(f"{there}/wrong", exist_ok=True)
            if os.path.exists(f"{there}/wrong/must-fail-{it}"):
                raise FileExistsError(f"{name}/wrong/must-fail-{it} has the name of an edit of must-fail/")
            shutil.copy2(f"{here}/must-fail/{it}", f"{there}/wrong/must-fail-{it}")


def take_back(root, *copies):
    """Takes the records that a run has written or removed in copies of the repository, of crates whose folders are there still."""
    for copy in copies:
        for name in sorted(os.listdir(f"{copy}/crates")):
            for it in RECORDS if os.path.isdir(f"{root}/crates/{name}/src") else ():
                made, to = f"{copy}/crates/{name}/{it}", f"{root}/crates/{name}/{it}"
                if os.path.isfile(made):
                    os.makedirs(os.path.dirname(to), exist_ok=True)
                    shutil.copyfile(made, to)
                elif os.path.isfile(to):
                    os.remove(to)
