"""What the program of bench/scale printed for trees of several sizes."""
from __future__ import annotations

import dataclasses
import pathlib

LEVELS = ["root", "region", "member", "ms"]
CLASSES = ["small", "large"]
NAMES = {
    "root": "root",
    "region": "regions",
    "member": "members' nodes",
    "ms": "Map-Servers",
    "small": "small",
    "large": "large",
}
DAY = 86_400


@dataclasses.dataclass(frozen=True)
class Result:
    """The values of a run, by what they are and whose."""

    values: dict[tuple[str, str], int]

    def of(self, what: str, which: str) -> int:
        return self.values[what, which]

    def sum(self, what: str) -> int:
        """A value of all classes."""
        return sum(self.of(what, name) for name in CLASSES)

    @property
    def sites(self) -> int:
        return self.of("sites", "all")

    @property
    def seconds(self) -> int:
        """How long was measured, in virtual seconds."""
        return self.of("measured s", "all")

    def a_day(self, name: str, what: str) -> float:
        """How often something came in a day, for one resolver of a class."""
        return self.of(what, name) / max(1, self.of("resolvers", name)) * DAY / self.seconds

    def share(self, name: str, what: str) -> float:
        """The share of a class's lookups."""
        return self.of(what, name) / max(1, self.of("lookups", name))


def read(path: pathlib.Path) -> Result:
    rows = [line.split("\t") for line in path.read_text().splitlines()]
    return Result({(row[0], row[1]): int(row[2]) for row in rows})


def read_all(folder: pathlib.Path) -> list[Result]:
    """All runs of a folder, by size."""
    return sorted((read(path) for path in folder.glob("*.tsv")), key=lambda result: result.sites)
