"""The front of a survey's page: a matrix of software by statements, and the kinds of faults."""
from __future__ import annotations

from exercising.table_file import BROKEN, KEPT, UNTESTED
from judging.markup import attribute, counted, escaped
from judging.matrix import shade, short
from surveying.findings import FOREIGN_SIGN, PROVOKED, Cell, Kind, Surveyed, every_code, is_further, of_its_own
from surveying.software import BROKER, CLIENT

HEADS = {BROKER: "Brokers", CLIENT: "Clients"}
PROVOKED_WORDS = "only after a fault of the other end"
ON_REQUEST = "judged on request"
HOW = (
    ("x", "7", "broken: so many faults"),
    ("p", "1", f"broken, but {PROVOKED_WORDS}"),
    ("g3", "40", "tested so often, and kept; the darker, the more"),
    ("v", "", "not tested: it didn't come about"),
    ("o", "", "out of reach: it doesn't bind such an end, or only one that sends other packets could break it"),
)


def front(surveyed: list[Surveyed], kinds: list[Kind], sentences: dict[str, str], numbers: dict[str, int]) -> str:
    """The matrix, and under it the kinds of faults. `numbers` has those of the logs on the page, by names of kinds."""
    codes = every_code(surveyed)
    rows = "".join(group(HEADS[end], [one for one in surveyed if one.software.end == end and one.runs], codes)
                   for end in HEADS)
    heads = "".join(head_of(code, sentences) for code in codes)
    how = "".join(f"<span><i class={kind}>{sign}</i>{words}</span>" for kind, sign, words in HOW)
    further = [code for code in codes if is_further(code)]
    how += f"<span><em>{' '.join(further)}</em> {ON_REQUEST}</span>" if further else ""
    left = "".join(f"<p class=remark>{escaped(f'{one.software.name}: {one.why}')}</p>" for one in surveyed if one.why)
    return (
        '<section class="tested survey"><h2 id="survey">What each keeps</h2>'
        f'<div class=matrix tabindex=0 role=region aria-label="Software by statements"><table><thead><tr>'
        f"<th scope=col>Statement{heads}<tbody>{rows}</table></div>"
        f'<div class="matrix how">{how}</div>{left}'
        f"{table_of_kinds(kinds, sentences, numbers)}</section>"
    )


def head_of(code: str, sentences: dict[str, str]) -> str:
    """The head of a column; that of a further statement says what it is."""
    says, kind = sentences.get(code, ""), ""
    if is_further(code):
        says, kind = f"{says} ({ON_REQUEST})".lstrip(), " class=further"
    return f"<th scope=col{kind}{title(says)}><span>{code}</span>"


def group(head: str, surveyed: list[Surveyed], codes: list[str]) -> str:
    """The rows of the brokers, or of the clients."""
    if not surveyed:
        return ""
    return f"<tr><th colspan={len(codes) + 1} class=group>{head}" + "".join(line(one, codes) for one in surveyed)


def line(one: Surveyed, codes: list[str]) -> str:
    cells = "".join(cell_of(code, one.cell(code)) for code in codes)
    return f'<tr><th scope=row title="{attribute(one.title)}">{escaped(one.software.name)}{cells}'


def cell_of(code: str, cell: Cell) -> str:
    """What a statement came to in a software."""
    faults, places = counted(cell.faults, "fault"), counted(cell.places, "place")
    kind, says, sign = {
        BROKEN: ("x", f"{faults} at {places}", short(cell.faults)),
        PROVOKED: ("p", f"{faults}, {PROVOKED_WORDS}", short(cell.faults)),
        KEPT: (f"g{shade(max(1, cell.places))}", f"kept at {places}", short(cell.places)),
        UNTESTED: ("v", f"not tested: {cell.why}", ""),
    }.get(cell.fate, ("o", FOREIGN_SIGN, ""))
    return f"<td class={kind}{title(f'{code}: {says}')}>{sign}"


def title(text: str) -> str:
    return f' title="{attribute(text)}"' if text else ""


def table_of_kinds(kinds: list[Kind], sentences: dict[str, str], numbers: dict[str, int]) -> str:
    """A row for each kind of fault, which leads to the chart of a log that shows it."""
    own = of_its_own(kinds)
    others = [kind for kind in kinds if kind not in own]
    tables = [(f"{counted(len(own), 'kind')} of faults", "kinds", "Faults", own),
              ("Broken only after a fault of the other end", "answers", "Times", others)]
    return "".join(f'<h2 id="{place}">{title}</h2>{table(count, those, sentences, numbers)}'
                   for title, place, count, those in tables if those)


def table(count: str, kinds: list[Kind], sentences: dict[str, str], numbers: dict[str, int]) -> str:
    rows = []
    for kind in kinds:
        software, number = kind.software, numbers.get(kind.name)
        link = f'<a class=code href="#l{number}">{kind.code}</a>' if number else f"<span class=code>{kind.code}</span>"
        rows.append(f"<tr><th scope=row>{link}<td>{escaped(software.software.name)}"
                    f"<td class=num data-u={count.lower()}>{kind.faults:,}"
                    f"<td class=num data-u=runs>{len(kind.runs)} of {len(software.runs)}"
                    f"<td>{escaped(sentences.get(kind.code, ''))}"
                    f"{f' <em>({ON_REQUEST})</em>' if is_further(kind.code) else ''}")
    heads = "".join(f"<th scope=col{' class=num' if name in (count, 'Runs') else ''}>{name}"
                    for name in ("Statement", "Software", count, "Runs", "What it says"))
    return f'<table class="codes"><thead><tr>{heads}<tbody>{"".join(rows)}</table>'
