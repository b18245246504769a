"""What the scripts of docs/ know of the sources: crates by kind, the definitions of specs/ with what each names, the functions of src/.

All of it is read from the texts and not from the compiler: a bound name that equals an imported one counts as that one.
"""
import pathlib
import re

TOP = pathlib.Path(__file__).resolve().parent.parent
CRATES = TOP / "crates"
KINDS = ("law_", "claims_", "gate_", "worked_", "bench_", "test_", "example_")
NAME = re.compile(r"[A-Za-z_][\w']*")
QUALIFIED = re.compile(r"\b([A-Za-z]\w*)\.([A-Za-z_][\w']*)")
MARKS = ("pub", "abbrev", "unfoldable", "record", "data", "rec", "opaque")
BEGINS = re.compile(r"\s+(abbrev|unfoldable|pub record|pub data|record|data) +(pub +)?[A-Za-z]")


def crates():
    """The crates in the order of crates.txt, each with those on its line."""
    found = {}
    for line in (TOP / "crates.txt").read_text().split("\n"):
        name, _, below = line.split("#")[0].partition(":")
        if name.strip():
            found[name.split()[0]] = below.split()
    return found


def kind(crate):
    """`law_` and the like, or "" for a crate of the machine."""
    return next((it for it in KINDS if crate.startswith(it)), "")


def head(path, mark):
    """The comment lines with this mark at the beginning of a file."""
    lines = []
    for line in path.read_text().split("\n"):
        if not line.startswith(mark):
            break
        lines.append(line[len(mark):].removeprefix(" ").rstrip())
    return lines


class Definition:
    def __init__(self, module, name, path, line):
        self.module, self.name, self.path, self.line = module, name, path, line
        self.text = []

    @property
    def crate(self):
        return self.path.relative_to(CRATES).parts[0]

    @property
    def place(self):
        return f"{self.path.relative_to(CRATES)}:{self.line}"

    def words(self):
        """What its file's head says of it: the text behind its name, or "" where the head names it together with others or not at all."""
        for number, line in enumerate(told := head(self.path, "--")):
            row = re.match(rf" {{4}}{re.escape(self.name)}(?![\w'])(.*)", line)
            if not row:
                continue
            says = re.split(r" {3,}", row[1].rstrip())[1:]
            for more in told[number + 1:]:
                if not re.match(r" {8,}\S", more):
                    break
                says.append(more.strip())
            return " ".join(says)
        return ""


class Module:
    def __init__(self, name, path):
        self.name, self.path = name, path
        self.imports, self.aliases, self.definitions = {}, {}, {}
        current = None
        for number, line in enumerate(path.read_text().split("\n"), 1):
            if line.startswith("use "):
                self.add_use(line)
            elif line.startswith("--") or not line.strip():
                continue
            else:
                current = self.begun(line, number) or current
                if current:
                    current.text.append(line)

    def add_use(self, line):
        if row := re.match(r"use (Rattle\.[\w.]+)\.\{(.*)\}", line):
            for item in row[2].split(","):
                of, _, known_as = item.strip().partition(" as ")
                self.imports[known_as.strip() or of] = (row[1], of)
        elif row := re.match(r"use (Rattle\.[\w.]+)(?: as (\w+))?\s*$", line):
            self.aliases[row[2] or row[1].split(".")[-1]] = row[1]

    def begun(self, line, number):
        """The definition that begins at this line; None where none does."""
        if line[0].isspace() and (not BEGINS.match(line) or re.match(r"\s+record +[{(]", line)):
            return None
        words = line.split()
        if words[0] not in MARKS or "mod" in words[:2]:
            return None
        name = next((it for it in words if it not in MARKS), None)
        name = name and re.match(r"[^\s:({]+", name)
        if not name:
            return None
        made = self.definitions.get(name[0])
        if made is None:
            made = self.definitions[name[0]] = Definition(self.name, name[0], self.path, number)
        return made


def modules():
    """Each module of specs/ by its name."""
    found = {}
    for path in sorted(CRATES.glob("*/specs/**/*.antt")):
        crate, _, *rest = path.relative_to(CRATES).with_suffix("").parts
        name = ".".join(["Rattle", crate, "specs", *rest])
        found[name] = Module(name, path)
    return found


def named(known, definition):
    """The definitions that this one names."""
    module = known[definition.module]
    text = "\n".join(definition.text)
    keys = [module.imports.get(it, (module.name, it)) for it in NAME.findall(text)]
    keys += [(module.aliases[a], b) for a, b in QUALIFIED.findall(text) if a in module.aliases]
    for of, name in dict.fromkeys(keys):
        if of in known and name in known[of].definitions:
            yield known[of].definitions[name]


def reached(known, roots):
    """The definitions that these reach, with them, in the order in which they are met."""
    seen, found, rest = set(), [], list(roots)
    while rest:
        one = rest.pop(0)
        if id(one) in seen:
            continue
        seen.add(id(one))
        found.append(one)
        rest.extend(named(known, one))
    return found


class Function:
    """A function of src/ with its comment and the clauses of its contract."""

    def __init__(self, path, name, line, comment, public):
        self.path, self.name, self.line, self.comment, self.public = path, name, line, comment, public
        self.clauses = []

    @property
    def sentence(self):
        return re.split(r"(?<=[.:]) ", " ".join(it for it in self.comment if it))[0]


def functions(path):
    """The functions of a file of src/."""
    found, comment, now = [], [], None
    for number, line in enumerate(path.read_text().split("\n"), 1):
        text = line.strip()
        if text.startswith("///"):
            comment.append(text[3:].strip())
        elif begun := re.match(r"(pub(?:\(crate\))? )?(?:const )?fn (\w+)", text):
            now = Function(path, begun[2], number, comment, begun[1] == "pub ")
            found.append(now)
            comment = []
        elif now and (clause := re.match(r"(ensures|requires) (?:(\w+) )?\{ (.*?)(?: \},?;?)?$", text)):
            now.clauses.append((clause[1], clause[2] or "", clause[3]))
        elif text in ("{", "{}") or text.endswith("{"):
            now = None if text in ("{", "{}") else now
            comment = []
        elif text and not text.startswith(("#[", "//")):
            comment = []
    return found


def written(path, text, check, by):
    """Writes a page, or with `check` says whether it stands as it would be written; the exit status."""
    if not check:
        path.write_text(text)
        return 0
    if path.is_file() and path.read_text() == text:
        return 0
    print(f"{path.relative_to(TOP)} is stale: run {by}")
    return 1
