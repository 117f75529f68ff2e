#!/usr/bin/env python3
"""Checks what the pages say of the repository: links, paths, names and the code that they show.

    python3 tools/pages.py     at the repository's top; prints what is wrong, a line each, and ends with status 1 then

  - A link to a file leads to one that is there, and a link to a heading to a heading of that page.
  - A path between backticks or in a fence is there, unless it is built (out/, dist/) or stands for any (NAME, N, *).
  - A name between backticks that has an underscore, or words run together as in FirstOne, occurs in the sources: a clause,
    a definition, a function or a test is called so. Words of capitals alone are left out. A file FILE.rt or FILE.antt, also
    with its crate in front, is one of the src or specs of that crate.
  - A fence with the name of a language shows lines that stand, one after another, in a file of the examples.
"""
import re
import sys
from pathlib import Path

from prose import PAGES

SOURCES = ["crates", "examples", "python", "bench", "tests", "tools", "dist.sh", "test.sh", "crates.txt", "HANDLES"]
SHOWN = ["examples", "crates/hlr_example/src", "crates/hlr_example/specs"]
LANGUAGES = {"c", "cpp", "python", "rust", "csv"}
FOLDERS = "bench|crates|docs|examples|python|tests|tools"
SOURCE = r"(?!crates/|src/|specs/|proofs/)[\w/]+\.(rt|antt)"
# what pages name that isn't in the sources: options and variables of other programs, and names of the kit
ELSEWHERE = Path("tests/outside/names.txt")


def anchors(page):
    """The anchors of a page's headings, as GitHub makes them."""
    found, fenced = {}, False
    for line in page.read_text(encoding="utf-8").splitlines():
        if line.startswith("```"):
            fenced = not fenced
        if not fenced and line.startswith("#"):
            text = re.sub(r"\[([^\]]*)\]\([^)]*\)", r"\1", line.lstrip("# ").strip()).lower()
            slug = re.sub(r"[^\w\- ]", "", text).replace(" ", "-")
            found[slug if slug not in found else f"{slug}-{found[slug]}"] = found.get(slug, 0) + 1
    return found


def fences(page):
    """The fences of a page: the line where each begins, its language, and its lines."""
    found, inside = [], None
    for number, line in enumerate(page.read_text(encoding="utf-8").splitlines(), 1):
        if re.match(r"\s*```", line):
            if inside is None:
                inside = (number, line.strip().strip("`").strip(), [])
            else:
                found.append(inside)
                inside = None
        elif inside is not None:
            inside[2].append(line)
    return found


def prose_lines(page):
    """The lines of a page outside of its fences, with their numbers."""
    fenced = False
    for number, line in enumerate(page.read_text(encoding="utf-8").splitlines(), 1):
        if re.match(r"\s*```", line):
            fenced = not fenced
        elif not fenced:
            yield number, line


def check_links(page):
    for number, line in prose_lines(page):
        for target in re.findall(r"\]\(([^)\s]+)\)", line):
            if re.match(r"[a-z]+:", target):
                continue
            name, _, anchor = target.partition("#")
            path = page.parent / name if name else page
            if not path.exists():
                yield f"{page}:{number}: there is no {name}"
            elif anchor and anchor not in anchors(path):
                yield f"{page}:{number}: {path} has no heading #{anchor}"


def check_paths(page):
    for number, line in enumerate(page.read_text(encoding="utf-8").splitlines(), 1):
        for path in re.findall(rf"(?:^|[^A-Za-z0-9_/.*-])((?:{FOLDERS})/[A-Za-z0-9_/.*-]+)", line):
            path = re.sub(r"[].-]+$", "", path)
            if re.search(r"/out(/|$)|NAME|/[A-Z]+(/|$)", path) or line.lstrip().startswith("$ "):
                continue
            if not list(Path().glob(path)):
                yield f"{page}:{number}: there is no {path}"


def known_names():
    """Each word of the sources, the names of their files, and the names of things elsewhere."""
    names = set()
    for source in map(Path, SOURCES):
        for path in [source] if source.is_file() else source.rglob("*"):
            names.update(re.split(r"\W+", path.name))
            if path.is_file() and "/out/" not in str(path) and "__pycache__" not in str(path):
                names.update(re.findall(r"\w+", path.read_text(encoding="utf-8", errors="replace")))
    return names | set(re.findall(r"^\w+", ELSEWHERE.read_text(encoding="utf-8"), re.M))


def looks_like_name(word):
    """Whether a word of code is checked: it has an underscore inside or two words run together, and isn't all capitals."""
    return bool(re.search(r"[^_]_[^_]|[a-z][A-Z]|^[A-Z][a-z]", word)) and not word.isupper() and not re.search(r"\d{3}", word)


def source_file(name):
    """Whether a crate has this file: CRATE/src/FILE or CRATE/specs/FILE, CRATE/FILE, or FILE of any crate."""
    folder = "specs" if name.endswith(".antt") else "src"
    crate, _, rest = name.partition("/")
    places = [Path("crates", name), Path("crates", crate, folder, rest)]
    return any(it.is_file() for it in places) or any(Path("crates").glob(f"*/{folder}/**/{name}"))


def check_names(page, names):
    for number, line in prose_lines(page):
        for code in re.findall(r"`([^`]+)`", line):
            for name in re.findall(r"\w+", code):
                if looks_like_name(name) and name not in names:
                    yield f"{page}:{number}: nothing is called {name}"
            if re.fullmatch(SOURCE, code) and not re.search(r"[A-Z]{3}", code) and not source_file(code):
                yield f"{page}:{number}: no crate has a file {code}"


def check_code(page, files):
    for number, language, lines in fences(page):
        text = "\n".join(lines).strip("\n") + "\n"
        if language in LANGUAGES and not any("\n" + text in "\n" + shown for shown in files):
            yield f"{page}:{number}: these lines of {language} stand in no file of the examples"
        if language not in LANGUAGES | {"", "sh", "text"}:
            yield f"{page}:{number}: a fence may not be called {language}"


def main():
    pages = sorted({page for it in PAGES for page in Path().glob(it)})
    names, wrong = known_names(), []
    shown = [path for folder in SHOWN for path in Path(folder).rglob("*") if path.is_file()]
    files = [path.read_text(encoding="utf-8", errors="replace") for path in shown]
    for page in pages:
        wrong += [*check_links(page), *check_paths(page), *check_names(page, names), *check_code(page, files)]
    print(*wrong, sep="\n", end="\n" if wrong else "")
    return bool(wrong)


if __name__ == "__main__":
    sys.exit(main())
