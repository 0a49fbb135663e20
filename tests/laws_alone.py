"""One crate, `alone`, of the definitions of packets, streams, text lines and the server, and of their laws, as the
repository has them: a changed definition is checked there against all laws at once. Its modules are those of specs/ and
proofs/ of CRATES that laws cite, with a word for the crate before each name, and types of the sources without their
functions."""
import re

from trials import ROOT

# Each crate of definitions or laws, and the word that begins the names of its modules.
CRATES = {"gm_packet": "Packet", "gm_admin": "Admin", "gm_feeder": "Feeder", "gm_notes": "Notes", "gm_history": "History", "gm_laws": "Laws"}
# The types that definitions cite: crate, file, names.
TYPES = [
    ("gm_packet", "kind", ["Kind"]),
    ("gm_packet", "request", ["RequestFault", "Request"]),
    ("gm_packet", "response", ["Response"]),
    ("gm_admin", "fault", ["AdminFault", "AdminError"]),
    ("gm_admin", "answers", ["VERSION"]),
    ("gm_feeder", "units", ["Limits", "FeedFault", "Unit", "OwnedPacket"]),
    ("gm_feeder", "head", ["Head"]),
    ("gm_notes", "config", ["ConfigError"]),
    ("gm_notes", "event", ["UnitFault", "ApplyError", "Event", "Done"]),
    ("gm_notes", "note", ["Note"]),
    ("gm_notes", "states", ["Priority", "Place", "Phase", "Mode", "Pick"]),
    ("gm_notes", "text", ["Text"]),
]
# Data of a packet have one owner here.
DATA = "//! Bytes.\n\n/// Bytes that are lent.\n#[derive(Clone, Copy)]\npub struct Data<'a> {\n    pub bytes: &'a [u8],\n}\n"
CITED = re.compile(r"Rattle\.(gm_\w+)\.(specs|proofs)\.([\w.+-]*)")


class Alone:
    """The files of the crate, by path, with laws (`laws`) or rows (`rows`) to be checked. `edited` has the texts that
    are there in place of the repository's, by path."""

    def __init__(self, edited, checked="laws"):
        self.edited = edited
        self.checked = checked
        self.lawful = [crate for crate in CRATES if self.has(f"crates/{crate}/src/{checked}.rt")]
        self.modules = {}
        self.files = {}
        self.make()

    def has(self, path):
        return path in self.edited or (ROOT / path).is_file()

    def text(self, path):
        return self.edited.get(path) or (ROOT / path).read_text()

    def renamed(self, text):
        """The text with the names of this crate's modules."""
        def name(found):
            crate, side, rest = found.groups()
            if rest.startswith("declared."):
                return f"Rattle.alone.{side}.{rest}"
            if rest.startswith(f"{self.checked}."):
                return f"Rattle.alone.{side}.{crate}_{rest}"
            return f"Rattle.alone.{side}.{CRATES[crate]}{rest}"
        return CITED.sub(name, text)

    def reach(self, text):
        """Takes in the modules that the text cites, and those that these cite."""
        for crate, side, rest in CITED.findall(text):
            module = rest.split(".")[0]
            path = f"crates/{crate}/{side}/{module}.antt"
            if module not in ("declared", self.checked) and (side, crate, module) not in self.modules:
                self.modules[side, crate, module] = self.text(path)
                self.reach(self.modules[side, crate, module])

    def make(self):
        put = self.files
        for crate in self.lawful:
            laws = self.text(f"crates/{crate}/src/{self.checked}.rt")
            self.reach(laws)
            put[f"src/{crate}_{self.checked}.rt"] = self.renamed(laws)
            for file in sorted((ROOT / f"crates/{crate}/proofs/{self.checked}").rglob("*.antt")):
                proof = self.text(str(file.relative_to(ROOT)))
                self.reach(proof)
                put[f"proofs/{crate}_{self.checked}/{file.relative_to(ROOT / f'crates/{crate}/proofs/{self.checked}')}"] = self.renamed(proof)
        for (side, crate, module), text in self.modules.items():
            put[f"{side}/{CRATES[crate]}{module}.antt"] = self.renamed(text)
        for side in ("specs", "proofs"):
            put[f"{side}/Lib.antt"] = "".join(sorted(f"pub mod {CRATES[crate]}{module}\n" for at, crate, module in self.modules if at == side))
        self.put_types()

    def put_types(self):
        """The types, without functions."""
        modules = {"data": DATA}
        for crate, file, names in TYPES:
            source = self.text(f"crates/{crate}/src/{file}.rt")
            modules[file] = "//! Types of the sources.\n\n" + "\n".join(item(source, name) for name in names)
        of = {name: file for _, file, names in TYPES for name in names} | {"Data": "data"}
        for file, text in modules.items():
            uses = "".join(f"use crate::{other}::{name};\n" for name, other in of.items() if other != file and re.search(rf"(?m)^(?! *//).*[:(].*\b{name}\b", text))
            ghosts = "ghost use Rattle.std.specs.Prelude.{◌≡◌, ◌≤◌, length};\n" if "ghost " in text and "impl Model" not in text else ""
            uses += "use std::marker::Model;\n" if "impl Model" in text else ""
            head, rest = text.split("\n\n", 1)
            self.files[f"src/{file}.rt"] = "\n\n".join(part for part in (head, ghosts.strip(), uses.strip(), rest) if part)
        names = sorted([*modules, *self.lawful_modules()])
        self.files["src/lib.rt"] = "//! The definitions and the laws alone.\n#![tactic(auto)]\n\n" + "".join(f"pub mod {name};\n" for name in names)

    def write(self, folder):
        """Writes what differs from the files that are there."""
        crate = folder / "crates/alone"
        old = {str(file.relative_to(crate)) for side in ("src", "specs", "proofs") for file in (crate / side).rglob("*") if file.is_file()}
        for path in old - set(self.files):
            (crate / path).unlink()
        for path, text in self.files.items():
            file = crate / path
            file.parent.mkdir(parents=True, exist_ok=True)
            if not file.is_file() or file.read_text() != text:
                file.write_text(text)
        (folder / "crates.txt").write_text("alone: memchr\n")
        (folder / "HANDLES").write_text("Handles allowed: none.\n")

    def statements(self):
        """What is to be proved, laws or rows: by its name the path of its function."""
        found = {}
        for module in self.lawful_modules():
            for name, contract in re.findall(r"(?ms)^pub fn (\w+)\(\)\n(.*?)^\{\}", self.files[f"src/{module}.rt"]):
                for statement in [name] if self.checked == "laws" else re.findall(r"(?m)^    ensures (\w+) ", contract):
                    found[statement] = f"alone::{module}::{name}"
        return found

    def lawful_modules(self):
        return [f"{crate}_{self.checked}" for crate in self.lawful]


def item(source, name):
    """A type or a constant of a source, and what contracts see of it."""
    found = re.search(rf"(?ms)^(?:///[^\n]*\n)*(?:#\[derive[^\n]*\n)?pub(?:\(crate\))? (?:(?:enum|struct) {name}\b.*?^}}|const {name}\b[^\n]*;)\n", source)
    if not found:
        raise LookupError(f"there is no {name}")
    text = re.sub(r", (?:Debug|PartialEq|Eq)\b|\bDebug, ", "", found[0]).replace("pub(crate)", "pub")
    seen = re.search(rf"(?ms)^impl Model for {name} .*?^}}\n", source)
    return text + ("\n" + seen[0] if seen else "")
