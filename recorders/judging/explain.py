"""What `mqjudge explain` says of a statement, in its parts."""
from __future__ import annotations

from dataclasses import dataclass, field

ENDS = ("client", "server")


@dataclass
class Explanation:
    """An explanation: its sentence, and its paragraphs without the words that they begin with."""

    code: str
    citation: str = ""
    sentence: str = ""
    parts: dict[str, str] = field(default_factory=dict)  # by `Why`, `Judged`, `In a client`, `See` ..

    def advice(self, end: str) -> str:
        """What usually breaks it in an end, and what to change."""
        return next((text for name, text in self.parts.items() if name.startswith("In ") and f"a {end}" in name), "")

    @property
    def advices(self) -> list[tuple[str, str]]:
        return [(name, text) for name, text in self.parts.items() if name.startswith("In ")]

    @property
    def text(self) -> str:
        """All of it, a paragraph a line."""
        return "\n\n".join([self.sentence, *(f"{name}: {text}" for name, text in self.parts.items())])


def read_explanation(code: str, text: str) -> Explanation:
    """Reads what `explain CODE` prints: a line with code and citation, the sentence, and paragraphs."""
    first, _, rest = text.partition("\n")
    explanation = Explanation(code, first.split()[-1] if first.split()[:1] == [code] else "")
    if not explanation.citation:
        return explanation
    sentence, *paragraphs = rest.strip().split("\n\n")
    explanation.sentence = joined(sentence)
    for paragraph in paragraphs:
        name, _, words = joined(paragraph).partition(": ")
        explanation.parts[name] = words
    return explanation


def joined(text: str) -> str:
    return " ".join(text.split())
