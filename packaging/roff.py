"""Documents in Markdown as text for a page of the manual: headings, paragraphs, lists, tables and blocks of code."""
import re
import textwrap

# what has another meaning, or another shape, where roff reads it
MARKS = {"\\": r"\e", "^": r"\(ha", "~": r"\(ti", "`": r"\(ga"}
CODE_MARKS = {**MARKS, "-": r"\-", "'": r"\(aq"}
PIECE = re.compile(r"(\*\*.+?\*\*|`[^`]+`)")
# of a block's first characters its kind, and how its further lines begin
KINDS = {"-": ("item", "  "), "|": ("table", r"\|")}
ITEM = re.compile(r"\*\*.+?\*\*(?:(?:, | or )\*\*.+?\*\*)*")


def escaped(text, marks=MARKS):
    """A text as it is; a character beyond ASCII by its number."""
    return "".join(marks.get(it, it if it.isascii() else f"\\[u{ord(it):04X}]") for it in text)


def bold(text):
    """Words in bold; a space at their beginning stays there."""
    return r"\fB" + re.sub(r"^ ", r"\\ ", escaped(text, CODE_MARKS)) + r"\fR"


def guarded(line):
    """A line that roff takes for no request."""
    return rf"\&{line}" if line[:1] in (".", "'") else line


def inline(text):
    """A paragraph's words, in lines, with what is code or strong in bold."""
    pieces = PIECE.split(text)
    words = "".join(escaped(it) if at % 2 == 0 else bold(it.strip("*").replace("`", "")) for at, it in enumerate(pieces))
    return "\n".join(map(guarded, textwrap.wrap(words, 100, break_long_words=False, break_on_hyphens=False)))


def code(lines):
    return ".PP\n.RS 4\n.nf\n" + "\n".join(guarded(escaped(it, CODE_MARKS)) for it in lines) + "\n.fi\n.RE"


def tagged(tag, *paragraphs):
    """An entry: what it is about, and below it what is said of that."""
    return f".TP\n{guarded(tag)}\n" + "\n.br\n".join(it for it in map(inline, paragraphs) if it)


def item(text):
    """An entry of a list, by its first words if these are strong."""
    found = ITEM.match(text)
    if found:
        rest = text[found.end() :].lstrip(":,. ")
        return tagged(inline(found[0]), rest[:1].upper() + rest[1:])
    return f".IP \\(bu 2\n{inline(text)}"


def table(rows):
    """An entry for each row: its first cell, the second one, and a third one after its head. More cells make a table."""
    heads, _, *rows = [re.split(r" *\| *", it.strip("| ")) for it in rows]
    if len(heads) > 3:
        yield ".TS\n" + "l " * (len(heads) - 1) + "lx.\n" + "\n".join(map(row, [heads, *rows])) + "\n.TE"
        return
    for first, *rest in rows:
        yield tagged(inline(first), *rest[:1], *(f"{head}: {it}" for head, it in zip(heads[2:], rest[1:])))


def row(cells):
    """A table's row, whose last cell may take several lines."""
    *cells, last = map(inline, cells)
    return "\t".join([*cells, f"T{{\n{last}\nT}}"])


def heading(line):
    depth, words = len(line) - len(line.lstrip("#")), line.strip("# ")
    return f".SH {escaped(words).upper()}" if depth == 2 else f".SS {escaped(words)}"


def blocks(text):
    """The text by its kinds: each with the lines that belong together."""
    lines = text.split("\n")
    while lines:
        line = lines.pop(0)
        if line.startswith("```"):
            end = lines.index("```")
            yield "code", lines[:end]
            del lines[: end + 1]
        elif line.startswith("    "):
            block = [line]
            while lines and (lines[0].startswith("    ") or not lines[0] and "".join(lines[1:2]).startswith("    ")):
                block.append(lines.pop(0))
            yield "code", [it[4:] for it in block]
        elif line.startswith("#"):
            yield "heading", [line]
        elif line:
            kind, goes_on = KINDS.get(line[:2].rstrip(), ("paragraph", r"(?!- |\||#|```)."))
            block = [line]
            while lines and re.match(goes_on, lines[0]):
                block.append(lines.pop(0))
            yield kind, block


def page(text):
    """A document's text in roff."""
    for kind, lines in blocks(text):
        if kind == "code":
            yield code(lines)
        elif kind == "heading":
            yield heading(lines[0])
        elif kind == "table":
            yield from table(lines)
        elif kind == "item":
            yield item(" ".join(it.strip() for it in lines)[2:])
        else:
            yield ".PP\n" + inline(" ".join(lines))
