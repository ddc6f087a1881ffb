"""Edits below mutants/, which make wrong bodies, and the functions of a crate that they change."""
import dataclasses
import pathlib
import re

ROOT = pathlib.Path(__file__).resolve().parent.parent
TYPE = re.compile(r"^(?:pub(?:\([^)]*\))? )?(?:struct|enum) (\w+)", re.M)
FUNCTION = re.compile(r'^( *)(?:pub(?:\([^)]*\))? )?(?:const )?(?:unsafe )?(?:extern "C" )?fn (\w+)')
BLOCK = re.compile(r"^( *)(?:pub(?:\([^)]*\))? )?(?:unsafe )?(?:impl\b|trait (\w+))")
# A proof that says nothing: who calls the function is judged by its contract alone. A function that calls itself has
# its statement, its proof and their folder under a name with a plus before it.
HOLE = """use Rattle.{module}.{{statement}}

pub {name}_spec : {{M : Type 1}} → statement M
{name}_spec = ?
"""


class BadEdit(Exception):
    """An edit that cannot be applied, with the reason."""


@dataclasses.dataclass(frozen=True)
class Function:
    """A function of a crate: its file and lines there, and its name below the crate as the prover has it.

    A method's module is the one in which its type stands, wherever its `impl` does, but for an `impl` of a type with
    given arguments: that has a name of its own, in its own module. Of a method of a trait's `impl` the prover's name
    for the `impl` is guessed, so it may be asked for by its module.
    """

    file: str
    first: int
    last: int
    module: str
    owner: str
    name: str
    is_own: bool = True

    def path(self):
        """Returns the name to ask the prover for."""
        return "::".join(it for it in (self.module, self.owner, self.name) if it)

    def folder(self, crate):
        """Returns the folder of its proof in the crate in a folder, below the crate's."""
        plain = pathlib.Path("proofs", *self.path().split("::"))
        plus = plain.with_name(f"+{self.name}")
        return plus if (crate / plus).is_dir() else plain

    def hole(self, crate):
        """Returns a proof of it that has a hole for a proof, for that folder."""
        folder = self.folder(crate)
        module = ".".join([crate.name, *folder.parts])
        if folder.name == self.name:
            module += ".Statement"
        return HOLE.format(module=module, name=folder.name)

    def has_name(self, other):
        """Returns whether the prover's name of a function is that of this one, or of a closure in it."""
        inside = other.removeprefix(f"{self.module}::" if self.module else "").removeprefix("fn::")
        own = "::".join(it for it in (self.owner, self.name) if it)
        return inside == own or inside.startswith(f"{own}::")


@dataclasses.dataclass
class Edit:
    """A wrong body: the lines that it changes, by file and number, and the functions of which one must then be refused.

    It is wide where an 'only:' line names them: what it changes may show in other functions too.
    """

    path: pathlib.Path
    crate: str
    lines: dict
    functions: list
    is_wide: bool
    blockers: set = dataclasses.field(default_factory=set)

    def touches(self, file, line):
        """Returns whether a place in the code is one of the edit's."""
        return any(it.file == file and it.first <= line <= it.last for it in self.functions)


def depth(line):
    return len(line) - len(line.lstrip(" "))


def end_of(lines, start):
    """Returns the last line of the item that starts at a line, as `rt fmt` lays it out."""
    for at in range(start + 1, len(lines)):
        text = lines[at].strip()
        if text and depth(lines[at]) <= depth(lines[start]) and not re.match(r"[{)]|where\b", text):
            return at if text.startswith("}") else at - 1
    return len(lines) - 1


def name_of(path):
    """Returns the last name of a type's or a trait's path, without what stands in its brackets."""
    return re.sub(r"<.*", "", path).strip().lstrip("&").split("::")[-1]


def own_name(kind, parameters):
    """Returns the prover's name of the `impl` of a type alone: the type's name, and after it the names of its
    arguments where they are not just the `impl`'s own parameters, as Leaving+Joined+T of Leaving<Joined<T>>, and
    Leaving+Joined+unit of Leaving<Joined<()>>."""
    names = re.findall(r"[\w:]+", re.sub(r"'\w+,? ?", "", kind).replace("()", "unit"))
    if set(names[1:]) <= set(re.findall(r"\w+", re.sub(r":[^,]*", "", parameters))):
        return name_of(kind)
    return "+".join(it.split("::")[-1] for it in names)


def owner_of(lines, at):
    """Returns the prover's name of the `impl` or the trait at a line, and whether it is an `impl` of a type alone."""
    if BLOCK.match(lines[at])[2]:
        return BLOCK.match(lines[at])[2], False
    head = " ".join(it.strip() for it in lines[at : at + 4]).partition("{")[0].partition(" where ")[0]
    head, level, start = head.strip().removeprefix("unsafe ").removeprefix("impl").strip(), 0, 0
    for place, letter in enumerate(head):
        level += {"<": 1, ">": -1}.get(letter, 0)
        if head[0] == "<" and level == 0:
            start = place + 1
            break
    trait, is_for, kind = head[start:].strip().partition(" for ")
    if not is_for:
        return own_name(trait, head[1:start].rstrip("> ")), True
    inner = re.match(r"[\w:]+<(.*)>", trait)
    given = [name_of(it) for it in re.split(r", ", inner[1])] if inner and name_of(trait) == "From" else []
    return name_of(kind) + name_of(trait) + "".join(given), False


def module_of(file):
    return "" if file in ("src/lib.rt", "src/main.rt") else file[len("src/") : -len(".rt")].replace("/", "::")


def files_of(crate):
    """Returns the source files of the crate in a folder, each with its text."""
    return {str(file.relative_to(crate)): file.read_text() for file in sorted(crate.glob("src/**/*.rt"))}


def homes_of(crate):
    """Returns the types of the crate in a folder, each with its module."""
    return {name: module_of(file) for file, text in files_of(crate).items() for name in TYPE.findall(text)}


def functions_in(file, lines, homes):
    """Returns the functions of a file."""
    module = module_of(file)
    blocks = [(at, end_of(lines, at), *owner_of(lines, at)) for at, line in enumerate(lines) if BLOCK.match(line)]
    found = []
    for at, line in enumerate(lines):
        if FUNCTION.match(line):
            *_, owner, is_own = next((it for it in reversed(blocks) if it[0] < at <= it[1]), ("", True))
            home = homes.get(owner, module) if is_own else module
            found.append(Function(file, at + 1, end_of(lines, at) + 1, home, owner, FUNCTION.match(line)[2], is_own))
    return found


def function_at(file, lines, at, homes):
    """Returns the function in which a line stands, or None."""
    return next((it for it in reversed(functions_in(file, lines, homes)) if it.first <= at + 1 <= it.last), None)


def functions_of(crate):
    """Returns the functions of the crate in a folder."""
    homes = homes_of(crate)
    return [it for file, text in files_of(crate).items() for it in functions_in(file, text.split("\n"), homes)]


def named_function(path, crate):
    """Returns the function that an 'only:' line names."""
    found = next((it for it in functions_of(crate) if it.path() == path), None)
    if found is None:
        raise BadEdit(f"its 'only:' line names {path}, which is no function of the crate")
    return found


def edited(path, crate):
    """Returns the texts of the files that an edit changes, before and after, and the functions that it names."""
    file, old, texts, before, named = None, None, {}, {}, []
    for line in path.read_text().split("\n"):
        if line.startswith("file: "):
            file = line.removeprefix("file: ").strip()
        elif line.startswith("only: "):
            named.append(named_function(line.removeprefix("only: ").strip(), crate))
        elif line.startswith("old: "):
            old = line.removeprefix("old: ")
        elif line.startswith("new:"):
            if file is None or old is None:
                raise BadEdit("a 'new:' line stands before any 'file:' or 'old:' line")
            before.setdefault(file, (crate / file).read_text())
            text = texts.get(file) or before[file]
            if text.count(old) != 1:
                raise BadEdit(f"an 'old:' text stands in {file} {text.count(old)} times, and not once")
            texts[file], old = text.replace(old, line.removeprefix("new:").removeprefix(" ")), None
    return before, texts, named


def read_edit(path):
    """Returns the edit in a file."""
    crate = path.relative_to(ROOT / "mutants").parts[0]
    before, texts, named = edited(path, ROOT / "crates" / crate)
    homes = homes_of(ROOT / "crates" / crate)
    changed, functions = {}, []
    for file, text in texts.items():
        lines = before[file].split("\n")
        for at, line in enumerate(text.split("\n")):
            if line != lines[at]:
                changed[file, at] = line
                functions.append(function_at(file, lines, at, homes))
    if not changed:
        raise BadEdit("it changes nothing")
    if not named and None in functions:
        raise BadEdit("it changes a line that stands in no function, and has no 'only:' line that names one")
    return Edit(path, crate, changed, named or list(dict.fromkeys(functions)), bool(named))
