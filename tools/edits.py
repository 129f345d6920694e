"""Wrong bodies: what an edit changes, and the function that holds a place of a file."""
import os
import re

# Comments, texts and characters, in which no brace counts. (A lifetime is no character.)
OPAQUE = re.compile(r"//[^\n]*|/\*.*?\*/|r(#*)\".*?\"\1|\"(?:\\.|[^\"\\])*\"|'(?:\\[^\n']+|[^\\'\n])'", re.S)
BEFORE = r"(?:pub(?:\([^)]*\))?\s+)?"
HEAD = re.compile(
    rf"^[ \t]*(?:(?P<mod>{BEFORE}mod\s+(?P<mod_name>\w+)\s*\{{)"
    rf"|(?P<impl>(?:unsafe\s+)?impl\b(?P<impl_head>[^{{;]*)\{{)"
    rf"|(?P<trait>{BEFORE}(?:unsafe\s+)?trait\s+(?P<trait_name>\w+))"
    rf"|(?P<macro>macro_rules!\s*(?P<macro_name>\w+))"
    rf"|(?P<fn>{BEFORE}(?:default\s+|const\s+|unsafe\s+|extern\s+\"C\"\s+)*fn\s+(?P<fn_name>\w+)))",
    re.M,
)


class Function:
    """A function of a source file, as a check names it, with its lines (counted from 1)."""

    def __init__(self, file, modules, owner, name, outer):
        self.file, self.modules, self.owner, self.name, self.outer = file, modules, owner, name, outer
        self.first = self.last = 0

    @property
    def key(self):
        return self.file, self.owner, self.outer, self.name

    def short(self):
        """Returns the function's name for a reader."""
        return "::".join(it for it in [self.owner[0] if self.owner else "", self.name] if it)

    def paths(self):
        """Returns the paths by which a check may know the function, the likeliest first."""
        modules = "::".join(self.modules)
        kind, of = self.owner or ("", "")
        owners = [plain(of), plain(of + "Impl")] if of != kind else [kind] if kind else []
        whole = ["::".join(it for it in [modules, owner, *self.outer, self.name] if it) for owner in owners or [""]]
        # (a method may be named by the module of its type, so the end of its name comes first)
        return [*["::".join([it, *self.outer, self.name]) for it in owners if it], *whole, self.name]

    def pattern(self, crate):
        """Returns what the names of this function, and of the closures in it, look like in the lines of a check."""
        kind, of = self.owner or ("", "")
        modules = "".join(rf"{it}::" for it in self.modules)
        if not self.owner:
            owner = ""
        elif of == kind:
            # (an impl for some parameters alone has these in its name; a method may be named by the module of its type)
            owner, modules = rf"{re.escape(kind)}(?:\+[\w+]+)?::", r"(?:\w+::)*?"
        else:
            owner, modules = rf"[\w+]*{re.escape(plain(kind))}[\w+]*{re.escape(of[len(kind):])}[\w+]*::", r"(?:\w+::)*?"
        outer = "".join(rf"{re.escape(it)}::" for it in self.outer)
        return re.compile(rf"{crate}::{modules}(?:fn::)?{owner}{outer}{re.escape(self.name)}(?:(?:::|\+).*)?$")

    def names_in(self, crate, names):
        """Returns those of the names of a check that are this function's own, and not those of a like one."""
        pattern = self.pattern(crate)
        found = [it for it in names if pattern.match(it)]
        exact = [f"{crate}::{it}" for it in self.paths() if it.startswith("::".join(self.modules))]
        # (SessionRowImpl is the impl of Row for Session where there is a type SessionRow)
        for it in reversed(exact):
            if it in found:
                closures = f"{crate}::{'::'.join([*self.modules, 'fn'])}::{it.removeprefix(crate + '::').removeprefix('::'.join(self.modules) + '::')}::"
                return [other for other in found if other == it or other.startswith((f"{it}::", f"{it}+", closures))]
        return found


def plain(name):
    """Returns a type's name as it stands in the name of its impls: u16 as U16."""
    return name[:1].upper() + name[1:]


def without_generics(text):
    """Returns the text without what stands between < and >."""
    depth, kept = 0, []
    for at, it in enumerate(text):
        depth += it == "<"
        if not depth:
            kept.append(it)
        depth -= it == ">" and text[at - 1 : at] != "-"
    return "".join(kept)


def owner_of(head):
    """Returns a type's name and how the names of its methods begin, of the head of an impl: the type, or the type and the trait."""
    words = re.sub(r"\bwhere\b.*", "", without_generics(head), flags=re.S)
    trait, is_for, kind = words.partition(" for ")
    last = lambda it: (re.findall(r"\w+", re.sub(r"'\w+", "", it)) or ["?"])[-1]
    kind = last(kind if is_for else trait)
    return kind, kind + (last(trait) if is_for else "")


def functions_of(file, text):
    """Returns the functions of a source file, and the macros with their lines and the name that calls them."""
    blank = OPAQUE.sub(lambda it: re.sub(r"[^\n]", " ", it[0]), text)
    inside = re.sub(r"^src/|\.rt$", "", file)
    way = inside.split("/")
    way = way[:-1] if way[-1] in ("lib", "main", "mod") else way
    heads = {it.end() - len(it[0].lstrip()): it for it in HEAD.finditer(blank)}
    functions, macros, stack, depth, line = [], [], [], 0, 1

    def close(beyond):
        while stack and beyond(stack[-1][0]):
            entry = stack.pop()
            if isinstance(entry[2], Function):
                entry[2].last = line

    for at, sign in enumerate(blank):
        head = heads.get(at)
        if head:
            close(lambda it: it >= depth)
            if head["fn"]:
                modules = way + [it[2] for it in stack if it[1] == "mod"]
                owner = next((it[2] for it in reversed(stack) if it[1] == "impl"), None)
                outer = tuple(it[2].name for it in stack if it[1] == "fn")
                made = Function(file, modules, owner, head["fn_name"], outer)
                made.first = line
                functions.append(made)
                stack.append((depth, "fn", made))
            elif head["impl"]:
                stack.append((depth, "impl", owner_of(head["impl_head"])))
            elif head["trait"]:
                stack.append((depth, "impl", (head["trait_name"],) * 2))
            elif head["mod"]:
                stack.append((depth, "mod", head["mod_name"]))
            else:
                macro = Function(file, way, None, head["macro_name"], ())
                macro.first = line
                macros.append(macro)
                stack.append((depth, "macro", macro))
        depth += sign == "{"
        if sign == "}":
            depth -= 1
            close(lambda it: it > depth)
        line += sign == "\n"
    close(lambda it: True)
    return functions, macros


def calls_itself(function, lines):
    """Returns whether the code of a function names itself, by the lines of its file: not its contract, and no field or value of that name."""
    rows, name = lines[function.first - 1 : function.last], function.name
    indent = rows[0][: len(rows[0]) - len(rows[0].lstrip())]
    # (as rt fmt lays it out, the body ends at the indent of its head; with clauses above it, it begins there too)
    end = next((at for at, it in enumerate(rows) if at and it in (indent + "}", indent + "{}")), len(rows))
    starts = [at for at, it in enumerate(rows[:end]) if it == indent + "{"]
    starts = starts or [at for at, it in enumerate(rows[:end]) if it.endswith("{") and it.startswith((indent + ")", rows[0]))]
    begin = (starts or [0])[0]
    head = "\n".join(rows[: begin + 1])
    code = OPAQUE.sub(" ", "\n".join(rows[begin + 1 : end])) if starts else rows[0].partition("{")[2]
    if function.owner:
        return bool(re.search(rf"\b(?:Self|{function.owner[0]})::{name}\b|\.{name}\s*(?:::\s*<[^(]*>\s*)?\(", code))
    is_value = re.search(rf"\b{name}\s*:[^:]", head) or re.search(rf"\blet\s+(?:mut\s+)?{name}\b", code)
    return bool(re.search(rf"(?<![.:\w]){name}\s*(?:::\s*<[^(]*>\s*)?\(" if is_value else rf"(?<![.:\w]){name}\b", code))


def provable_by_hand(folder):
    """Returns the functions of a crate that may have a proof of their own by hand, by the folder of proofs/ for it.

    These are functions and methods of the crate's own types, with no constant among them, none that calls itself and none of a cycle.
    """
    texts = {}
    for at, _, names in os.walk(f"{folder}/src"):
        for it in sorted(names):
            if it.endswith(".rt"):
                with open(f"{at}/{it}", encoding="utf-8") as file:
                    texts[os.path.relpath(f"{at}/{it}", folder)] = file.read()
    by_file = {file: functions_of(file, text)[0] for file, text in texts.items()}
    # a method is named by the module of its type
    homes = {}
    for file, text in texts.items():
        inside = re.sub(r"^src/|\.rt$", "", file).split("/")
        way = inside[:-1] if inside[-1] in ("lib", "main", "mod") else inside
        for it in re.finditer(rf"(?m)^{BEFORE}(?:struct|enum)\s+(\w+)", text):
            homes[it[1]] = None if it[1] in homes else way
    found = {}
    for file, functions in by_file.items():
        lines = texts[file].split("\n")
        for it in functions:
            kind, of = it.owner or ("", "")
            way = homes.get(kind) if kind else it.modules
            head = "\n".join(lines[max(it.first - 9, 0) : it.first])
            is_plain = not it.outer and kind == of and way is not None and "macro" not in head
            if is_plain and not calls_itself(it, lines) and not re.search(r"#\[cycle|\bconst\s+fn\b|\btrait\b", head):
                found["/".join(["proofs", *way, *([kind] if kind else []), it.name])] = it
    return found


def copy_of(function, before, after, number):
    """Returns a copy of a function under another name, and its text for the end of the file, as an edit makes it; None where the edit changes more.

    `before` and `after` are the file's text without and with the edit.
    """
    rows, whole = after.split("\n"), before.split("\n")
    found = [it for it in functions_of(function.file, after)[0] if it.key == function.key]
    if len(found) != 1 or len(rows) != len(whole):
        return None
    first = found[0].first - 1
    # (as rt fmt lays it out, the body ends at the indent of its head)
    indent = rows[first][: len(rows[first]) - len(rows[first].lstrip())]
    last = next((at + 1 for at in range(first, found[0].last) if rows[at] in (indent + "}", indent + "{}")), None)
    if last is None or rows[:first] != whole[:first] or rows[last:] != whole[last:]:
        return None
    top = first
    while top and rows[top - 1].strip() and not rows[top - 1].rstrip().endswith(("{", "}", ";")):
        top -= 1
    name = f"{function.name}_tried_{number}"
    text = re.sub(rf"\bfn\s+{function.name}\b", f"fn {name}", "\n".join(rows[top:last]), count=1)
    if function.owner:
        head = next((at for at in range(top - 1, -1, -1) if re.match(r"impl\b", rows[at])), None)
        end = next((at for at in range(head, top) if rows[at].rstrip().endswith("{")), None) if head is not None else None
        if end is None or head and rows[head - 1].rstrip().endswith("]"):
            return None
        text = "\n".join([*rows[head : end + 1], text, "}"])
    copy = Function(function.file, function.modules, function.owner, name, function.outer)
    return copy, f"\n{text}\n"


def functions_at(file, text, line):
    """Returns the function that holds a line, or those that call the macro that does; none where neither does."""
    functions, macros = functions_of(file, text)
    holds = lambda it: it.first <= line <= it.last
    inner = [it for it in functions if holds(it)]
    macro = next((it for it in macros if holds(it)), None)
    if macro:
        rows = text.split("\n")
        return [it for it in functions if not holds(it) and f"{macro.name}!" in "\n".join(rows[it.first - 1 : it.last])]
    return inner[-1:]


class Changed(str):
    """A file's text with edits in it: `before` is the text without them, `places` where they stand there, each with its new text."""

    def __new__(cls, before, places):
        whole = before
        for first, end, new in sorted(places, reverse=True):
            whole = whole[:first] + new + whole[end:]
        made = super().__new__(cls, whole)
        made.before, made.places = before, places
        return made


class Edit:
    """A file *.edit: what it changes in the files of a crate, and who is to refuse it."""

    def __init__(self, path):
        self.path, self.name = path, os.path.basename(path)
        with open(path, encoding="utf-8") as it:
            text = it.read()
        self.sentence = "".join(re.findall(r"(?m)^wrong: (.*)", text)[:1])
        self.refuser = "".join(re.findall(r"Refused by ([\w:]+)", self.sentence)[-1:])
        self.pairs, file, old = [], "", None
        for line in text.split("\n"):
            if line.startswith("file: "):
                file = line[6:].strip()
            elif line.startswith("old: "):
                old = line[5:]
            elif line.startswith("new:") and old is not None:
                self.pairs.append((file, old, line[4:].removeprefix(" ")))
                old = None
        self.functions, self.lines = [], set()

    def apply(self, folder, texts):
        """Returns the texts with this edit in them, and why it can't be applied, if so. The first call finds the functions that it changes.

        An old text has to stand once in the file as it is without any edit, whatever other edits put into it.
        """
        texts = dict(texts)
        if not self.pairs:
            return texts, "it has no pair 'old:' and 'new:'"
        for file, old, new in self.pairs:
            if not file.startswith(("src/", "specs/", "proofs/")) or not os.path.isfile(f"{folder}/{file}"):
                return texts, f"there is no file {file} in src/, specs/ or proofs/"
            if file not in texts:
                with open(f"{folder}/{file}", encoding="utf-8") as it:
                    texts[file] = Changed(it.read(), [])
            before = texts[file].before
            found = before.count(old)
            if found != 1:
                return texts, f"its old text stands {found} times in {file}, and not once"
            at = before.index(old)
            line = before.count("\n", 0, at + len(old) - len(old.lstrip())) + 1
            self.lines.add((file, line))
            if file.endswith(".rt"):
                keys = [it.key for it in self.functions]
                self.functions += [it for it in functions_at(file, before, line) if it.key not in keys]
            if any(at < end and first < at + len(old) for first, end, _ in texts[file].places):
                return texts, f"another edit changes its old text in {file}"
            texts[file] = Changed(before, [*texts[file].places, (at, at + len(old), new)])
        return texts, None

    def is_definition(self):
        """Returns whether it changes no function: a definition, a type or a constant."""
        return not self.functions
