"""Puts a chart together from parts under each other, so that a page which is printed can end between two of them.

A browser never breaks a picture, and moves one that has no room to the next page. Each part is a picture of its own.
"""
from __future__ import annotations

from typing import NamedTuple

PART, LONG_PART = 150, 300  # pixels that a part has at least: a page of many logs has room for fewer parts
BELOW = 3  # pixels under the top of a row that belong to the part above it: its last time ends there
SEAM = 1  # pixels by which a part begins earlier, so that no seam is seen
SIDES = 20  # from where on the two ends are drawn
OUTLINED = ("void", "undecided")  # connections whose bands have edges


class Row(NamedTuple):
    """An event, or a line for several: its element up to its place, the place of its arrow, and the rest."""

    top: int
    before: str
    line: int
    after: str


class Band(NamedTuple):
    """What a connection covers."""

    fate: str
    first: int
    last: int


class Link(NamedTuple):
    """A line from faults to another event: to the later one that shows one of them, or to that which they conflict with."""

    ends: list[int]  # where the faults are
    target: int  # where the other event is
    x: int
    is_ignored: bool
    is_cause: bool
    place: str  # the name of what a fault conflicts with in the page; this and the title are empty where there is no room
    title: str

    @property
    def first(self) -> int:
        return min(self.target, *self.ends)

    @property
    def last(self) -> int:
        return max(self.target, *self.ends)


def in_parts(rows: list[Row], bands: list[Band], links: list[Link], heads: str, height: int, least: int) -> str:
    """A whole chart, in parts of at least so many pixels. The heads stand above its first row."""
    cuts = cuts_of(rows, height, least)
    words = []
    for first, last in zip(cuts, cuts[1:]):
        own = [row for row in rows if first - BELOW <= row.top < last - BELOW]
        begin = -SEAM if first else SIDES
        shapes = "".join(shape(band, first, last) for band in bands)
        words.append(f"<svg class=part height={last - first}>{shapes}{'' if first else heads}"
                     f"{lifelines(begin, last - first)}{drawn(own, first)}{paths(links, first, last)}</svg>")
    return "".join(words)


def cuts_of(rows: list[Row], height: int, least: int) -> list[int]:
    """Where a chart begins, where its parts meet, and where it ends. The last part may have half of the least."""
    cuts = [0]
    for row in rows:
        place = row.top + BELOW
        if place - cuts[-1] >= least and 2 * (height - place) >= least:
            cuts.append(place)
    return [*cuts, height]


def drawn(rows: list[Row], first: int) -> str:
    """Rows, in what begins at a place of the chart."""
    return "".join(f"{row.before} y={row.line - first}{row.after}" for row in rows)


def shape(band: Band, first: int, last: int) -> str:
    """What there is of a band between two places. Its sides are those of the chart, so only its ends have edges."""
    top, bottom = max(band.first, first - SEAM if first else 0), min(band.last, last)
    if bottom <= top + SEAM:
        return ""
    ends = (place - first for place in (band.first, band.last) if first <= place <= last)
    edges = "".join(f"<line class=edge y1={end} x2=100% y2={end} />" for end in ends)
    return (f"<rect class={band.fate} y={top - first} width=100% height={bottom - top} />"
            f"{edges if band.fate in OUTLINED else ''}")


def paths(links: list[Link], first: int, last: int) -> str:
    """What there is of some links between two places."""
    words = [path(link, first, last) for link in links if link.last >= first and link.first < last]
    return f"<svg class=d x=100%>{''.join(words)}</svg>" if words else ""


def path(link: Link, first: int, last: int) -> str:
    """What there is of a link between two places: a line beside the chart with one to each fault, and an arrow."""
    kinds = [*(["i"] if link.is_ignored else []), *(["b"] if link.is_cause else [])]
    ends = [end - first for end in link.ends if first <= end < last]
    target = link.target - first
    is_there = first <= link.target < last
    if is_there and not link.title and len(ends) == len(link.ends) == 1:  # in few bytes
        return f'<path{named([*kinds, "to"], link)} d="M3 {ends[0]}H{link.x}V{target}H5"/>'
    top, bottom = max(link.first, first) - first, min(link.last, last) - first
    lines = f'<path d="M{link.x} {top}V{bottom}{"".join(f"M3 {end}H{link.x}" for end in ends)}"/>'
    arrow = f'<path class=to d="M{link.x} {target}H5"/>' if is_there else ""
    role = (" role=img" if is_there else " aria-hidden=true") if link.title else ""
    title = f"<title>{link.title}</title>" if link.title else ""
    return f"<g{named(kinds, link)}{role}>{title}{lines}{arrow}</g>"


def named(kinds: list[str], link: Link) -> str:
    """The classes of what is drawn of a link, and which event it leads to, so that it can be lit."""
    words = " ".join(kinds)
    classes = (f' class="{words}"' if len(kinds) > 1 else f" class={words}") if kinds else ""
    return classes + (f" data-t={link.place}" if link.place else "")


def lifelines(first: int, last: int) -> str:
    """The two ends, from one place to another."""
    return f"<line class=l y1={first} y2={last} /><line class=l x1=100% x2=100% y1={first} y2={last} />"
