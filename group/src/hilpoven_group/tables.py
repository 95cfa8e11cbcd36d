"""What an office publishes: tables whose rows are only added, with their columns behind whose row it is and which, and
things of which the last version counts."""
from dataclasses import dataclass


@dataclass(frozen=True)
class Table:
    """A table of rows that are only added; `mark` is its letter in `heads`."""

    mark: str
    name: str
    columns: str

    @property
    def names(self) -> list[str]:
        """The names of its columns."""
        return self.columns.split()


@dataclass(frozen=True)
class Versions:
    """A table of versions: by which columns it names a thing, and what it says of one, with the SQL that is said of a
    thing that isn't there any more."""

    name: str
    keys: str
    values: str
    types: str
    gone: tuple[object, ...]


TABLES = {
    table.mark: table
    for table in (
        Table("a", "materials", "material measure"),
        Table("l", "lots", "lot_id came owner lot material ord number"),
        Table(
            "m",
            "moves",
            "lot_id batch_id came mkey kind lot_owner lot sublot target material ord number segment amount day",
        ),
        Table("v", "voids", "mkey"),
        Table("r", "results", "lot_id lot test number value day"),
        Table("n", "notes", "note kind value"),
    )
}
NOTES = "n"  # which come from the journal, and the others from FILE
VERSIONS = {
    versions.name: versions
    for versions in (
        Versions("states", "lot_id", "disposition", "bigint smallint", (-1,)),
        Versions("facts", "file mkey", "party supplier_lot document", "smallint text text text text", ("", "", "")),
        Versions("links", "src lot_id batch_id", "stands", "bigint bigint bigint boolean", (False,)),
        Versions("standing", "file note", "fault", "smallint text text", ("gone",)),
    )
}
OF_ROWS = "gid, office, file, n"  # the first columns of each table of rows
