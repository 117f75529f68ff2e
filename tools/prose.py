#!/usr/bin/env python3
"""Checks how the pages are written: the lengths of their sentences, their words, and what two pages say alike.

    python3 tools/prose.py [--table]     at the repository's top; --table prints the numbers of each page as well

It prints what is wrong, a line each, and ends with status 1 if there is anything. Four things are checked:

  1. The sentences of a page have 15 to 25 words on average. A page with fewer than 20 sentences has no average.
  2. No sentence has more than 40 words.
  3. No page uses a word that tests/outside/words.txt lists, because there is another word for that thing.
  4. No seven words in a row stand on two pages.

The prose of a page is its paragraphs and the items of its lists. Fenced and indented code, tables, headings, comments and
pictures are no prose. An item that doesn't end in a full stop, a question mark or a colon is an entry of a list of names,
so its length isn't counted; nor is that of a bold phrase that stands in front of a paragraph as its heading. A sentence
ends at '.', '?' or '!' where a space and then a capital letter, a digit, a quote, a bracket, an asterisk or code follow,
and at the end of its paragraph or item, where a colon may end it too. A word is a run of characters without a space that
has a letter or a digit. Code between backticks is one word, and a link is the words that it shows.

For the fourth check headings and the cells of tables count as well. Case and punctuation don't matter there.
"""
import collections
import itertools
import re
import sys
from pathlib import Path

PAGES = ["README.md", "CONTRIBUTING.md", "CHANGELOG.md", "docs/*.md", "examples/README.md", "bench/README.md"]
WORDS = Path("tests/outside/words.txt")
LEAST_MEAN, MOST_MEAN, MOST_WORDS, FEW_SENTENCES, RUN = 15, 25, 40, 20, 7

ITEM = re.compile(r"^\s*(?:[-*]|\d+\.)\s+")
END = re.compile(r"(?<=[.?!])[)\"'*]*\s+(?=[A-Z0-9\"'(\[*`])")
SHORT = re.compile(r"\b(e\.g|i\.e|vs|etc|cf)\.\s+")


class Block:
    """A paragraph, an item of a list, a heading or a cell of a table: its kind, its first line, and its text."""

    def __init__(self, kind, line, text):
        self.kind, self.line, self.text = kind, line, text


def blocks(page):
    """The blocks of a page, without its code."""
    found, fenced, quoted = [], False, False
    for number, line in enumerate(page.read_text(encoding="utf-8").splitlines(), 1):
        bare = line.strip()
        if re.match(r"(```|~~~)", bare):
            fenced = not fenced
            found.append(None)
        elif quoted or bare.startswith("<!--"):
            quoted = not bare.endswith("-->")
        elif fenced or not bare:
            found.append(None)
        elif bare.startswith("#"):
            found += [Block("heading", number, bare.lstrip("# ")), None]
        elif bare.startswith("|"):
            if not re.fullmatch(r"[|:\- ]+", bare):
                found += [Block("cell", number, cell.strip()) for cell in bare.strip("|").split("|")]
            found.append(None)
        elif ITEM.match(line):
            found.append(Block("item", number, ITEM.sub("", line).strip()))
        elif found and found[-1]:
            found[-1].text += " " + bare
        elif not line.startswith("    "):
            found.append(Block("paragraph", number, bare))
    return [block for block in found if block]


def plain(text):
    """A block's text as it is read: links by what they show, and code as one word each."""
    text = re.sub(r"!\[[^\]]*\]\([^)]*\)", "", text)
    text = re.sub(r"\[([^\]]*)\]\([^)]*\)", r"\1", text)
    return re.sub(r"`+([^`]*)`+", lambda code: "`" + re.sub(r"\s+", "_", code[1].strip()) + "`", text)


def sentences(block):
    """The sentences of a block of prose."""
    if block.kind not in ("paragraph", "item"):
        return []
    text = re.sub(r"^\*\*[^*]+[.?:]\*\*\s*", "", plain(block.text).strip())
    if block.kind == "item" and not re.search(r"[.?!:][)\"'*]*$", text):
        return []
    return [it for it in END.split(SHORT.sub(r"\1 ", text)) if words(it)]


def words(text):
    return [it for it in text.split() if re.search(r"\w", it)]


def check_lengths(page, table):
    """What is wrong with the lengths of a page's sentences."""
    lengths = []
    for block in blocks(page):
        for sentence in sentences(block):
            lengths.append(len(words(sentence)))
            if lengths[-1] > MOST_WORDS:
                yield f"{page}:{block.line}: {lengths[-1]} words in a sentence: {sentence[:60]}.."
    mean = sum(lengths) / max(1, len(lengths))
    if table:
        print(f"{page}: {len(lengths)} sentences, {mean:.1f} words each, {max(lengths, default=0)} at most")
    if len(lengths) >= FEW_SENTENCES and not LEAST_MEAN <= mean <= MOST_MEAN:
        yield f"{page}: {mean:.1f} words a sentence on average, and not {LEAST_MEAN} to {MOST_MEAN}"


def banned():
    """The words that may not come back, each with what is said in their place."""
    for line in WORDS.read_text(encoding="utf-8").splitlines():
        if line and not line.startswith("#"):
            pattern, _, instead = line.partition(" | ")
            yield re.compile(rf"\b(?:{pattern})\b", re.I), instead


def check_words(page, rules):
    """Which words that may not come back a page has."""
    for block in blocks(page):
        text = re.sub(r"`[^`]*`", "`", block.text)
        text = re.sub(r"\]\([^)]*\)", "]", text)
        for pattern, instead in rules:
            for found in pattern.finditer(text):
                yield f"{page}:{block.line}: say '{instead}', and not '{found[0]}'"


def check_runs(pages):
    """Runs of words that stand on two pages."""
    seen = {}
    told = collections.Counter()
    for page in pages:
        for block in blocks(page):
            run = re.findall(r"[\w'`./:=<>+-]*\w[\w'`]*", plain(block.text).lower())
            for place in range(len(run) - RUN + 1):
                key = tuple(run[place:place + RUN])
                first = seen.setdefault(key, (page, block.line))
                if first[0] != page and not told[first, page, block.line]:
                    told[first, page, block.line] += 1
                    yield f"{page}:{block.line} and {first[0]}:{first[1]} both say '{' '.join(key)}'"


def main(table):
    pages = sorted(set(itertools.chain.from_iterable(Path().glob(it) for it in PAGES)))
    rules = list(banned())
    wrong = list(check_runs(pages))
    for page in pages:
        wrong += check_lengths(page, table)
        wrong += check_words(page, rules)
    print(*wrong, sep="\n", end="\n" if wrong else "")
    return bool(wrong)


if __name__ == "__main__":
    if sys.argv[1:] not in ([], ["--table"]):
        sys.exit("usage: prose.py [--table]")
    sys.exit(main(sys.argv[1:] == ["--table"]))
