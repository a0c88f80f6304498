"""The list of all that an import or an export lost or changed."""

from __future__ import annotations

from collections.abc import Iterator

LOSSES_HEADER = ("what", "count", "example")


class Losses:
    """Counts what was lost or changed, each kind with its first example."""

    def __init__(self) -> None:
        self._counts: dict[str, int] = {}
        self._examples: dict[str, str] = {}

    def note(self, what: str, example: str, count: int = 1) -> None:
        """Count something; a count of 0 is not listed."""
        if count > 0:
            self._counts[what] = self._counts.get(what, 0) + count
            self._examples.setdefault(what, example)

    def count(self, what: str) -> int:
        """How often something was noted."""
        return self._counts.get(what, 0)

    def rows(self) -> Iterator[tuple[str, int, str]]:
        """The rows of import.csv, in the order in which they first came."""
        for what, count in self._counts.items():
            yield what, count, self._examples[what]

    def summary(self) -> str:
        """A line for each row."""
        lines = []
        for what, count, example in self.rows():
            lines.append(f"{count:>9,}  {what}" + (f" (as {example})" if example else ""))
        return "\n".join(lines)

    def report(self, head: str) -> str:
        """A first line, and below it what was lost or changed, if anything was."""
        return f"{head}\nlost or changed:\n{self.summary()}" if self._counts else head
