#!/usr/bin/env python3
"""Checks what specs say of themselves: a definition that is said to be cited by no public clause is cited by none.

    python3 tools/heads.py [--count]      prints each that is cited, and ends with status 1 then

A file's first line, or the comment in front of one definition, says so by the words 'no public clause' or 'no clause of
a public call'; of a file with a folder of its name the files in it are meant too. A public clause is a clause or a ghost
item of what a library's lib.rt gives out (of the program, of its five public items): functions, methods, traits, structs,
their models, and the models of what lies in their fields. A definition is cited by a clause that names it, or that names
another definition that cites it.
"""
import re
import sys
from pathlib import Path

CLAIM = re.compile(r"no (?:clause of a )?public (?:clause|call)", re.I)
NAME = re.compile(r"[^\s(){}\[\],;.`\\]+(?:\.[^\s(){}\[\],;`\\]+)*")
IMPORT = re.compile(r"^\s*(?:ghost )?(?:pub )?use Rattle\.(\w+)\.specs\.([\w.]+?)\.\{([^}]*)\}", re.M)
PROGRAM = ("run", "run_alone", "read_options", "Sink", "Out")
DEFINITION = re.compile(r"^(?:abbrev |unfoldable |pub |record |data )*(?:pub )(?:record |data )?(\S+)")


def crates(top):
    for line in (top / "crates.txt").read_text().splitlines():
        name = line.split("#")[0].partition(":")[0].split()
        if name:
            yield name[0], top / "crates" / name[0]


def imports(text):
    """The names that a file takes from specs, each with the definition that it is."""
    found = {}
    for crate, module, names in IMPORT.findall(text):
        for name in names.split(","):
            old, _, new = name.strip().partition(" as ")
            found[(new or old).strip()] = (crate, module, old.strip())
    return found


class Definition:
    def __init__(self, file, line, comment):
        self.file, self.line, self.comment, self.text = file, line, comment, ""


def definitions(crate, folder):
    """The definitions of a crate's specs by module and name, with the imports of each module."""
    found, used = {}, {}
    for file in sorted((folder / "specs").rglob("*.antt")):
        module = ".".join(file.relative_to(folder / "specs").with_suffix("").parts)
        text = file.read_text()
        used[(crate, module)] = imports(text)
        now, comment = None, []
        for number, line in enumerate(text.splitlines(), 1):
            if line.startswith("--"):
                comment.append(line)
                continue
            begins = DEFINITION.match(line)
            if begins and not line.startswith(("pub mod", "pub use", "use ")):
                name = begins.group(1)
                now = found.setdefault((crate, module, name), Definition(file, number, " ".join(comment).replace(" -- ", " ")))
            if now and line.strip():
                now.text += line + "\n"
            if line.strip():
                comment = []
    return found, used


def given_out(folder):
    """The names that a crate gives out, and the modules that it gives out whole; of a program its five public items."""
    root = folder / "src/lib.rt"
    if not root.exists():
        return set(PROGRAM), set()
    text = root.read_text()
    names = set()
    for group in re.findall(r"^pub use [\w:]+::\{([^}]*)\}", text, re.M):
        names |= {name.strip() for name in group.split(",") if name.strip()}
    names |= set(re.findall(r"^pub use [\w:]+::(\w+);", text, re.M))
    return names, set(re.findall(r"^pub mod (\w+)", text, re.M))


def head_of(lines, at):
    """The head of the item that begins on a line: up to the line that opens its body, or ends it."""
    head, depth = [], 0
    for line in lines[at:]:
        code = line.split("//")[0].strip()
        if depth == 0 and code in ("{", "{}"):
            break
        head.append(line)
        depth += code.count("{") - code.count("}")
        if depth == 0 and (code.endswith(";") or code == "}"):
            break
    return "\n".join(head)


def sources(folder):
    """The files of a crate's code, without its tests."""
    for file in sorted((folder / "src").rglob("*.rt")):
        if not any("tests" in part for part in (file.stem, *file.parts)):
            yield file


def seen_through(folder, names):
    """The names with those of the types that lie in fields of what they name, and so on."""
    fields = {}
    for file in sources(folder):
        for name, body in re.findall(r"^(?:pub(?:\(\w+\))? )?(?:struct|enum) (\w+)[^{;]*\{(.*?)^\}", file.read_text(), re.M | re.S):
            fields.setdefault(name, set()).update(re.findall(r"\b[A-Z]\w*", body))
    wait, seen = list(names), set(names)
    while wait:
        for name in fields.get(wait.pop(), ()):
            if name not in seen:
                seen.add(name)
                wait.append(name)
    return seen


BLOCK = re.compile(r"(?:unsafe )?(impl|pub trait|pub struct|pub enum)\b(?:<(?:[^<>]|<[^<>]*>)*>)?\s*(?:([\w:]+)(?:<.*>)?\s+for\s+)?(\w+)")
CALL = re.compile(r"\s*(?:pub(?:\(\w+\))? )?(?:extern \"C\" )?(?:const )?(?:unsafe )?(?:extern \"C\" )?fn (\w+)")


def public_texts(folder):
    """The texts of a crate's public clauses, each with the imports of its file."""
    names, modules = given_out(folder)
    seen = seen_through(folder, names)
    for file in sources(folder):
        text = file.read_text()
        lines, used, whole = text.splitlines(), imports(text), file.stem in modules
        kind, of_trait, owner = None, None, None
        for at, line in enumerate(lines):
            block = BLOCK.match(line)
            if block:
                kind, of_trait, owner = block.groups()
            elif line.startswith("}"):
                kind, of_trait, owner = None, None, None
            call, word = CALL.match(line), line.lstrip()
            if call and word.startswith(("fn ", "pub fn ", "pub extern", "pub const fn", "pub unsafe fn")):
                is_pub = word.startswith("pub ") or of_trait or kind == "pub trait"
                is_given = whole or (owner in names if owner else call.group(1) in names or "extern" in line)
                if is_pub and is_given:
                    yield head_of(lines, at), used
            elif owner and word.startswith("ghost ") and (whole or owner in (seen if of_trait == "Model" else names)):
                yield head_of(lines, at), used


def meant(key, found, used):
    """The definition that a name stands for, where its module only gives it out."""
    while key and key not in found and key[2] in used.get(key[:2], ()):
        key = used[key[:2]][key[2]]
    return key


def closure(top):
    """All definitions, and those that a public clause cites, each with what led to it."""
    found, used, cited, wait = {}, {}, {}, []
    for crate, folder in crates(top):
        one, two = definitions(crate, folder)
        found |= one
        used |= two
    for crate, folder in crates(top):
        for text, names in public_texts(folder):
            for word in NAME.findall(text):
                key = meant(names.get(word) or names.get(word.split(".")[0]), found, used)
                if key in found and key not in cited:
                    cited[key] = "a public clause of " + crate
                    wait.append(key)
    while wait:
        key = wait.pop()
        names = used[key[:2]]
        for word in NAME.findall(found[key].text):
            for part in (word, word.split(".")[0]):
                other = meant(names.get(part, (key[0], key[1], part)), found, used)
                if other in found and other not in cited:
                    cited[other] = ".".join(key)
                    wait.append(other)
    return found, cited


def main():
    top = Path(__file__).resolve().parent.parent
    found, cited = closure(top)
    if "--count" in sys.argv:
        print(len(found), "definitions,", len(cited), "cited by public clauses")
    claims = set()
    for crate, folder in crates(top):
        for file in (folder / "specs").rglob("*.antt"):
            front = file.read_text().partition("\nuse ")[0].partition("\npub ")[0].partition("\n\n")[0]
            if CLAIM.search(front.replace("\n-- ", " ")):
                claims.add(file)
                claims |= set(file.with_suffix("").rglob("*.antt"))
    wrong = 0
    for key, definition in sorted(found.items()):
        said = definition.file in claims or CLAIM.search(definition.comment)
        if said and key in cited:
            wrong += 1
            place = definition.file.relative_to(top)
            print(f"{place}:{definition.line}: {key[2]} is cited, by {cited[key]}")
    said = sum(1 for d in found.values() if d.file in claims or CLAIM.search(d.comment))
    if "--count" in sys.argv:
        print(f"{said} definitions are said to be inside, {wrong} of them are cited by public clauses")
    sys.exit(1 if wrong else 0)


main()
