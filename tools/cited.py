"""Finds the definitions that contracts cite, directly or through other definitions.

A file sees a definition by its own text, by `use Rattle.CRATE.specs.MODULE.{name}`, by an alias
(`use .. as alias`), or through a module that passes the name on (`pub use`).
"""
import pathlib
import re

TOP = pathlib.Path(__file__).resolve().parent.parent

# A definition begins at the margin, or inside a `module _` with a word before or after `pub`,
# which a record's member hasn't.
HOW = "(?:abbrev|unfoldable|opaque)"
DEFINITION = re.compile(
    rf"^(?:(?:{HOW} )*(?:pub )?(?:data |record )?|  (?:{HOW} )+(?:pub )?|  pub (?:data|record) )"
    r"([^\s:({]+)(?: [({].*)? ?:(?: |$)"
)
PUBLIC = re.compile(r"^ *(?:[a-z]+ )*pub ")
NOT_DEFINITIONS = {"mod", "use", "module"}
USE = re.compile(
    r"\b(pub )?use Rattle\.(\w+)\.specs\.((?!declared\b|contracts\b)[\w.]+?)"
    r"(?:\.\{([^}]*)\}| as (\w+))"
)
WORD = re.compile(r"[^\s(){}\[\],;:λ]+")
FUNCTION = re.compile(r"^( *)pub (?:[a-z]+ |\"C\" )*fn \w+(.*?)^\1\{", re.M | re.S)
TRAIT = re.compile(r"^pub trait .*?^\}", re.M | re.S)
GHOST = re.compile(r"^ *ghost (?:Value|view|invariant|also_owns) = .*?;$", re.M | re.S)
COMMENT = re.compile(r"^\s*(?:--|//).*$", re.M)


class Imports:
    """What a file sees of the definitions of other files."""

    def __init__(self, text):
        self.names, self.modules, self.passed_on = {}, {}, {}
        for public, crate, module, names, alias in USE.findall(text):
            if alias:
                self.modules[alias] = crate, module
            for word in filter(None, map(str.strip, names.split(","))):
                name, _, renamed = word.partition(" as ")
                self.names[renamed or name] = crate, module, name
                if public:
                    self.passed_on[renamed or name] = crate, module, name


class Definitions:
    """The definitions of all crates. A key is the crate, the module and the name."""

    def __init__(self, crates):
        self.places = {}  # the file and the line of each key
        self.public = set()
        self.texts = {}  # without comments; inside a `module _`, after its first line
        self.imports = {}
        for crate in crates:
            for module, path in modules_of(crate):
                self.read(crate, module, path)
        self.cites = {key: self.cited_in(text, key[:2]) for key, text in self.texts.items()}

    def read(self, crate, module, path):
        """Adds the definitions of one file."""
        text = path.read_text(encoding="utf-8")
        self.imports[crate, module] = Imports(text)
        key = block = None
        for number, line in enumerate(text.splitlines()):
            if line.startswith("module _"):
                key, block = None, line + "\n"
            match = DEFINITION.match(line)
            if match and match[1] not in NOT_DEFINITIONS:
                key = crate, module, match[1]
                block = block if line.startswith(" ") else None
                if key not in self.places:
                    self.places[key] = path, number
                    self.texts[key] = block or ""
                if PUBLIC.match(line):
                    self.public.add(key)
            if key and not line.lstrip().startswith("--"):
                self.texts[key] += line + "\n"

    def resolve(self, key):
        """The definition that a name of a module is, also if the module passes it on."""
        while key and key not in self.texts:
            crate, module, name = key
            imports = self.imports.get((crate, module))
            key = imports.passed_on.get(name) if imports else None
        return key

    def cited_in(self, text, module=None, imports=None):
        """The definitions that a text cites, which a file with these imports has."""
        imports = imports or self.imports[module]
        found = set()
        for word in WORD.findall(text):
            front, _, rest = word.partition(".")
            name = rest.split(".")[0]
            if front in imports.modules and name:
                found.add(self.resolve((*imports.modules[front], name)))
            elif front in imports.names:
                found.add(self.resolve(imports.names[front]))
            elif f"◌{word}◌" in imports.names:
                found.add(self.resolve(imports.names[f"◌{word}◌"]))
            elif module and (*module, front) in self.texts:
                found.add((*module, front))
        return found - {None}

    def of_contracts(self, paths):
        """The definitions that the clauses of public functions, traits and ghost fields of these
        files cite, with all that those cite."""
        found = set()
        for path in paths:
            text = COMMENT.sub("", path.read_text(encoding="utf-8"))
            clauses = [match[2] for match in FUNCTION.finditer(text)]
            clauses += TRAIT.findall(text) + GHOST.findall(text)
            found |= self.cited_in(" ".join(clauses), imports=Imports(text))
        return self.with_cited(found)

    def with_cited(self, keys):
        """Definitions with all that they cite, directly or through others."""
        found = set(keys)
        left = list(found)
        while left:
            new = self.cites[left.pop()] - found
            found |= new
            left += new
        return found


def modules_of(crate):
    """The name and the path of each file of definitions of a crate."""
    specs = TOP / "crates" / crate / "specs"
    for path in sorted(specs.rglob("*.antt")):
        if "formers" in path.parts:
            continue
        yield ".".join(path.relative_to(specs).with_suffix("").parts), path


def crates():
    """The crates that have definitions, in the order of crates.txt."""
    lines = (TOP / "crates.txt").read_text(encoding="utf-8").splitlines()
    names = [line.split(":")[0].split()[0] for line in lines if line and not line.startswith("#")]
    return [name for name in names if (TOP / "crates" / name / "specs").is_dir()]
