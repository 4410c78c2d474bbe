"""Texts of logs in a page: each is hostile input, so what isn't seen is named, and what is too long is cut."""
from __future__ import annotations

import html
import unicodedata

LONGEST = 160  # characters of a text that are shown
MARKS = 2  # combining marks that may follow each other
UNSEEN = {"Cc", "Cf", "Cs", "Co", "Cn", "Zl", "Zp"}
FILLERS = set("\u115f\u1160\u2800\u3164\uffa0")  # letters and signs that nothing is seen of


def is_odd(character: str, marks: int) -> bool:
    """Whether a character can't be seen, moves others, or is one mark too many after so many."""
    if " " <= character <= "~":
        return False
    category = unicodedata.category(character)
    is_space = category == "Zs"
    return category in UNSEEN or is_space or character in FILLERS or (category[0] == "M" and marks >= MARKS)


def pieces(text: str) -> list[tuple[bool, str]]:
    """A text in pieces that can be shown, and names of the characters that can't (those are true)."""
    found: list[tuple[bool, str]] = []
    plain: list[str] = []
    marks = 0
    for character in text:
        if not is_odd(character, marks):
            plain.append(character)
        else:
            found += [(False, "".join(plain)), (True, f"U+{ord(character):04X}")]
            plain = []
        marks = marks + 1 if ord(character) > 127 and unicodedata.category(character)[0] == "M" else 0
    return [(is_name, piece) for is_name, piece in [*found, (False, "".join(plain))] if piece]


def escaped(text: object) -> str:
    """A text as HTML, in which characters that can't be seen have their names."""
    words = str(text)
    if words.isascii() and words.isprintable():
        return html.escape(words)
    return "".join(f'<span class="odd">{piece}</span>' if is_name else html.escape(piece)
                   for is_name, piece in pieces(words))


def attribute(text: object) -> str:
    """The same for an attribute, or for a title, where there are no elements."""
    words = str(text)
    if words.isascii() and words.isprintable():
        return html.escape(words)
    return html.escape("".join(f"‹{piece}›" if is_name else piece for is_name, piece in pieces(words)))


def isolated(text: str, size: int | None = None) -> str:
    """A text of a log as HTML: cut with a note where it is long, and apart from the direction of what is around it.

    The size in bytes is given where the text is only the beginning.
    """
    if len(text) <= LONGEST and size is None:
        return html.escape(text) if text.isascii() and text.isprintable() else f"<bdi>{escaped(text)}</bdi>"
    size = size or len(text.encode("utf-8", "surrogatepass"))
    return f'<bdi>{escaped(text[:LONGEST])}</bdi><span class="note">… cut: {size:,} bytes in all</span>'


def number(count: int) -> str:
    return f"{count:,}"


def counted(count: int, thing: str) -> str:
    """A number of things in words: `1,204 events`."""
    return f"{count:,} {thing}{'' if count == 1 else 's'}"
