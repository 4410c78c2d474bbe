"""Bytes as a scenario writes them, whole packets and broken ones: the words after `send`.

    30 ff 01        bytes, in hexadecimal digits
    "T/x"           a text with its two bytes of length before it
    'x'             a text without them
    ..              the Remaining Length of what follows, up to a `+` or the end
    [ 23 0005 ]     what is inside, with its length before it as a Variable Byte Integer: a property list
    'p'*50          the word before the star so many times
    "I":65535       a text that is filled up with `x` to so many bytes
    +               the next packet, in the same write
    flags:02        a CONNECT's flags, with those for a user's name and password if there are some
    login           these two as texts, or nothing

So `30 .. "T" [] 'hello'` is a PUBLISH of QoS 0. In texts a level T stands for the scenario's topic, and I for the
actor's Client Identifier; `\\xff` is a byte.
"""
from __future__ import annotations

import re
from collections.abc import Mapping

from exercising.packets import text, varint

WORD = re.compile(r"""\s*(\.\.|login|flags:[0-9a-fA-F]{2}|\[|\]|\+|(?:"[^"]*"|'[^']*'|[0-9a-fA-F]+)(?:[*:]\d+)?)(?=[\s\]\[]|$)|\s*(\[)""")
SUFFIX = re.compile(r"""((?:"[^"]*"|'[^']*'|[0-9a-fA-F]+))([*:])(\d+)""")
ESCAPE = re.compile(rb"\\x([0-9a-fA-F]{2})")
LEVEL = re.compile(r"(?<![^/])[A-Z](?=[/\\]|$)")  # that may be a name
MOST_BYTES = 1_000_000
FLAGS, LOGIN = "flags:", "login"
HAS_USER, HAS_PASSWORD = 0x80, 0x40
USER, PASSWORD = "user", "password"  # among the names, if the broker asks for them
Names = Mapping[str, str]  # what single capital letters stand for, and those two


class NotationError(ValueError):
    """Words that say no bytes."""


def named(text: str, names: Names) -> str:
    """A topic or a filter of a scenario, in which levels that are names say what those stand for."""
    return LEVEL.sub(lambda found: names.get(found[0], found[0]), text)


def words_of(source: str) -> list[str]:
    """The words of the notation."""
    found, at = [], 0
    source = source.rstrip()
    while at < len(source):
        word = WORD.match(source, at)
        if word is None:
            raise NotationError(f"{source[at:].split()[0]!r} says no bytes")
        found.append(word[1] or word[2])
        at = word.end()
    return found


def spell(word: str, names: Names) -> bytes:
    """The bytes of digits or of a text, with its repetition."""
    if word == LOGIN:
        return b"".join(text(names[key]) for key in (USER, PASSWORD) if key in names)
    if word.startswith(FLAGS):
        has = (HAS_USER if USER in names else 0) | (HAS_PASSWORD if PASSWORD in names else 0)
        return bytes((int(word.removeprefix(FLAGS), 16) | has,))
    parts = SUFFIX.fullmatch(word)
    core, sign, number = parts.groups() if parts else (word, "", "")
    times = int(number) if sign == "*" else 1
    if core[0] in "\"'":
        raw = named(core[1:-1], names).encode()
        raw = ESCAPE.sub(lambda found: bytes.fromhex(found[1].decode()), raw)
        raw = raw.ljust(int(number), b"x") if sign == ":" else raw
        piece = text(raw) if core[0] == '"' else raw
    elif len(core) % 2:
        raise NotationError(f"{core!r} has an odd number of digits")
    else:
        piece = bytes.fromhex(core)
    if len(piece) * times > MOST_BYTES:
        raise NotationError(f"{word!r} is too long")
    return piece * times


def bytes_of(source: str, names: Names) -> bytes:
    """The bytes that words say. It raises a NotationError where they say none."""
    whole = b""
    part: list[bytes] = [b""]  # what is said so far at each depth of brackets
    before: bytes | None = None  # what stands before a Remaining Length
    for word in [*words_of(source), "+"]:
        if word == "[":
            part.append(b"")
        elif word == "]":
            if len(part) == 1:
                raise NotationError("a ] without a [ before it")
            inner = part.pop()
            part[-1] += varint(len(inner)) + inner
        elif len(part) > 1 and word in ("..", "+"):
            raise NotationError(f"{word} inside brackets that aren't closed")
        elif word == "..":
            if before is not None:
                raise NotationError("two Remaining Lengths in one packet")
            before, part = part[0], [b""]
        elif word == "+":
            whole += part[0] if before is None else before + varint(len(part[0])) + part[0]
            before, part = None, [b""]
        else:
            part[-1] += spell(word, names)
    return whole
