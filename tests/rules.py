"""The rules of a page of docs/, one by one: each row of a table, item of a list and sentence, with the title that it is below."""

import re
from typing import NamedTuple

from program import TOP


class Rule(NamedTuple):
    page: str
    title: str
    text: str


def blocks_of(lines):
    """Paragraphs, items and rows, each as one line; titles as they are; nothing of what is fenced."""
    gathered, is_fenced = [], False

    def done():
        whole = " ".join(gathered)
        gathered.clear()
        return [whole] if whole else []

    for line in [*lines, ""]:
        text = line.strip()
        if text.startswith("```"):
            is_fenced = not is_fenced
            yield from done()
        elif is_fenced:
            continue
        elif text.startswith(("|", "#")) or not text:
            yield from done()
            if text:
                yield text
        else:
            if re.match(r"(-|[0-9]+\.) ", text):
                yield from done()
            gathered.append(text)


def rules_of(page):
    """All rules of a page, in its order. A row that is followed by dashes is the head of its table, and no rule; a word in bold
    by itself is a title, and so is one of a numbered item below it."""
    blocks, titles = list(blocks_of((TOP / "docs" / page).read_text().splitlines())), []
    for at, block in enumerate(blocks):
        title = " / ".join(titles[1:])
        if block.startswith("#"):
            depth = len(block) - len(block.lstrip("#"))
            titles[depth - 1 :] = [block.lstrip("# ")]
        elif re.fullmatch(r"\*\*\w+\*\*", block):
            titles[2:] = [block.strip("*")]
        elif block.startswith("|"):
            is_head = at + 1 < len(blocks) and set(blocks[at + 1]) <= set("|-")
            if not is_head and not set(block) <= set("|-"):
                yield Rule(page, title, block)
        elif re.match(r"[0-9]+\. ", block):
            yield Rule(page, title, block)
        else:
            for sentence in re.split(r"(?<=[.]) (?=[A-Z`*])|(?<=:) (?=[A-Z])", block):
                yield Rule(page, title, sentence)
