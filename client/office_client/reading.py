"""Files of records: master files, and tables (CSV, RFC 4180) of name and address, or of name, type and data."""

import csv
import io
import re

from . import data, names
from .data import Record
from .master import File, Records
from .tables import TYPES
from .telling import Bad

LARGEST = 64 << 20  # octets of a file
TTL = 3600  # of a row that has none
SEPARATORS = ",;\t"
ADDRESS = re.compile(r"[0-9]+(?:\.[0-9]+){3}|[0-9A-Fa-f]*:[0-9A-Fa-f:.]*")
HEADINGS = "name", "host", "hostname", "owner"  # how a row of headings begins


def kind_of(cell: str) -> str | None:
    """The type that the second cell of a row says, as a type or by an address."""
    if ADDRESS.fullmatch(cell):
        return "AAAA" if ":" in cell else "A"
    return cell.upper() if cell.upper() in TYPES else None


def separator_of(text: str) -> str:
    """What is between the cells, by the first row."""
    first = next((line for line in text.split("\n") if line.strip() and not line.startswith("#")), "")
    return next((one for one in SEPARATORS if kind_of(first.split(one)[1].strip() if one in first else "")), max(SEPARATORS, key=first.count))


class Table(Records):
    """The records of a table. A row without a name has that of the row before it."""

    def __init__(self, origin: str, text: str) -> None:
        super().__init__(origin)
        rows = csv.reader(io.StringIO(text, newline=""), delimiter=separator_of(text), strict=True)
        try:
            for cells in rows:
                self.line += 1
                self.read([cell.strip() for cell in cells])
                self.line = rows.line_num
        except (Bad, csv.Error) as error:
            raise Bad(f"line {self.line if isinstance(error, Bad) else rows.line_num}: {error}") from None

    def read(self, cells: list[str]) -> None:
        """Reads a row."""
        if not any(cells) or cells[0].startswith("#"):
            return
        name, second, *rest = [*cells, ""]
        kind = kind_of(second)
        if kind is None and self.owner is None and name.lower() in HEADINGS:
            return
        if kind is None:
            raise Bad(f"{names.shown(second)} is neither an address nor a type that the office keeps: {' '.join(TYPES)}")
        text, ttl, *more = [*([second] if ADDRESS.fullmatch(second) else []), *rest, "", ""]
        if any(more):
            raise Bad(f"{names.shown(next(filter(None, more)))} is after the TTL")
        self.owner = names.read(name, self.zone).name if name else self.owner
        if self.owner is None:
            raise Bad("no row before it has a name")
        self.put(Record(self.owner, data.ttl_of(ttl) if ttl else TTL, kind, data.read(kind, data.cell_items(kind, text), self.target)))

    def target(self, text: str) -> str:
        """A name in data."""
        reading = names.read(text, self.zone)
        if reading.other is not None:
            self.readings.append((reading, f"line {self.line}: "))
        return reading.name


def read(path: str, origin: str) -> Records:
    """Reads a file, or standard input for `-`."""
    with open(0 if path == "-" else path, "rb") as file:
        octets = file.read(LARGEST + 1)
    if len(octets) > LARGEST:
        raise Bad(f"{path} has more than {LARGEST} octets")
    text = octets.decode("latin-1")
    try:
        return Table(origin, text.removeprefix("\xef\xbb\xbf")) if path.lower().endswith(".csv") else File(origin, text)
    except Bad as error:
        raise Bad(f"{path}: {error}; nothing was sent") from None
