"""What the crates declare: functions and types of src/, definitions of specs/, laws of proofs/, must-fail edits."""
import dataclasses
import functools
import pathlib
import re

TOP = pathlib.Path(__file__).resolve().parents[2]
CRATES = TOP / "crates"


@functools.cache
def crates():
    """The crates in the order of crates.txt."""
    lines = (TOP / "crates.txt").read_text().splitlines()
    return [line.split(":")[0].split()[0] for line in lines if line and not line.startswith("#")]


def is_program(crate):
    return (CRATES / crate / "src/main.rt").exists()


def edits(crate):
    return sorted(path.stem for path in (CRATES / crate / "must-fail").glob("*.edit"))


def words(text):
    """The names in a text of Rattle or of its logic, parts of a qualified name apart."""
    return set(word for word in re.split(r"[\s(){}\[\];,.⌜⌝«»:&]+", text) if word)


# src/


@dataclasses.dataclass
class Function:
    name: str
    public: bool
    exported: bool
    head: str  # from its name to its body
    empty: bool  # its body: then what it ensures is a theorem


def uncommented(text, mark):
    return re.sub(r"(?m)%s.*$" % mark, "", text)


@functools.cache
def source(crate):
    return "\n".join(uncommented(path.read_text(), "//") for path in sorted((CRATES / crate / "src").rglob("*.rt")))


@functools.cache
def functions(crate):
    found = []
    for m in re.finditer(r'^[ \t]*(pub(?:\([^)]*\))? )?(extern "C" )?fn (\w+)', source(crate), re.M):
        rest = source(crate)[m.start() :]
        body = re.search(r"^[ \t]*\{\}?[ \t]*$|\{[ \t]*$", rest, re.M)
        head = rest[: body.start()] if body else rest
        empty = bool(body) and body.group().strip() == "{}"
        found.append(Function(m.group(3), m.group(1) == "pub ", bool(m.group(2)), head, empty))
    return found


@functools.cache
def types(crate):
    """The structs and enums of src/, each with its body."""
    found = re.finditer(r"^(?:pub )?(?:struct|enum) (\w+)[^{;]*(\{.*?^\}|;)", source(crate), re.M | re.S)
    return {m.group(1): m.group(2) for m in found}


@functools.cache
def constants(crate):
    return set(re.findall(r"^(?:pub )?(?:const|static) (\w+)", source(crate), re.M))


def types_used(crate):
    """Types of other crates by the name that src/ uses: name -> crate."""
    found = re.findall(r"^use (\w+)::(?:(\w+)|\{([^}]*)\});", source(crate), re.M)
    return {name: other for other, one, more in found for name in re.findall(r"\w+", one or more)}


# specs/ and proofs/


@dataclasses.dataclass(frozen=True)
class Name:
    crate: str
    part: str  # a file of specs/, or `declared` for a type of src/
    name: str


def used(text):
    """What the `use` lines of a text bring: the name it has here -> Name, or -> the file that it abbreviates."""
    here = {}
    pattern = r"^(?:ghost )?use Rattle\.(\w+)\.(specs|proofs)\.([\w.-]+?)(?:\.\{([^}]*)\}| as (\w+));?[ \t]*$"
    for other, kind, path, names, alias in re.findall(pattern, text, re.M):
        # what the kit's own libraries declare is not the repository's
        if other not in crates():
            continue
        parts = path.split(".")
        if alias:
            here[alias] = Name(other, parts[0], "")
        for name in re.split(r"\s*,\s*", names.strip()) if names else []:
            there, _, renamed = name.partition(" as ")
            if kind == "specs":
                here[renamed or there] = Name(other, "declared", parts[1]) if parts[0] == "declared" else Name(other, parts[0], there)
    return here


def declared(line):
    """The name that a line begins to define, and whether it is a type with parts of its own."""
    begins = re.match(r"(?:(?:pub|unfoldable|abbrev) )*(record |data )?(\S+)((?: +(?:\([^()]*\)|\{[^{}]*\}))*) +:(?:\s|$)", line)
    return (begins.group(2), bool(begins.group(1))) if begins else (None, False)


class Block:
    """One definition: the names that it gives, and its lines."""

    def __init__(self, name, is_type):
        self.names = [name]
        self.is_type = is_type
        self.lines = []


class File:
    """A file of specs/ or proofs/, in blocks; a module's head belongs to the first block in it."""

    def __init__(self, path):
        text = uncommented(path.read_text(), "--")
        self.uses = used(text)
        text = re.sub(r"^use [^{\n]*(\{[^}]*\})?[^\n]*\n", "", text, flags=re.M)
        self.blocks = []
        margins, heads = [0], []
        for line in text.splitlines():
            if not line.strip() or line.startswith("pub mod "):
                continue
            margin = len(line) - len(line.lstrip(" "))
            while margin < margins[-1]:
                margins.pop()
            body = line[margins[-1] :]
            if body.startswith("module "):
                margins.append(margins[-1] + 2)
                heads.append(line)
                continue
            name, is_type = declared(body)
            if name:
                self.blocks.append(Block(name, is_type))
            elif not self.blocks:
                continue
            elif self.blocks[-1].is_type and (parts := re.match(r"\s+(?:pub )?([^(){}=:]+) :\s", body + " ")):
                self.blocks[-1].names += parts.group(1).split()
            self.blocks[-1].lines += heads + [line]
            heads = []
        self.defines = {name: block for block in reversed(self.blocks) for name in block.names}
        self.lines = sum(len(block.lines) for block in self.blocks)

    def needs(self, block):
        """The blocks of this file, and the Names of others, that a block's words name."""
        text = "\n".join(block.lines)
        found = words(text)
        inside = [other for other in self.blocks if other is not block and any(mentioned(name, found) for name in other.names)]
        outside = set()
        for name, what in self.uses.items():
            if what.name == "":
                outside |= {Name(what.crate, what.part, n) for n in re.findall(r"\b%s\.([^\s(){};,]+)" % name, text)}
            elif mentioned(name, found):
                outside.add(what)
        return inside, outside


def mentioned(name, found):
    """Whether a name is among the words; of an operator, its signs."""
    parts = [part for part in name.split("◌") if part] if "◌" in name else [name]
    return name in found or all(part in found for part in parts)


@functools.cache
def spec(crate, name):
    path = CRATES / crate / "specs" / (name + ".antt")
    return File(path) if path.exists() else None


@functools.cache
def proof(crate, name):
    path = CRATES / crate / "proofs" / (name + ".antt")
    return File(path) if path.exists() else None


def specs(crate):
    """The files of specs/ in reading order: in that of Lib.antt, but what is used before what uses it."""
    lib = CRATES / crate / "specs/Lib.antt"
    order = []

    def visit(name):
        if name not in order and spec(crate, name):
            for what in spec(crate, name).uses.values():
                if what.crate == crate and what.part not in ("declared", name):
                    visit(what.part)
            order.append(name)

    for name in re.findall(r"^(?:pub )?mod (\w+)", lib.read_text(), re.M) if lib.exists() else []:
        visit(name)
    return order
