"""Columns of tables: what each is called, what is in it, of which SQL over the views or which attributes of a thing its
value is made, and how."""
import re
from collections.abc import Callable
from typing import Any, NamedTuple

from ..core.days import format_day
from ..core.table import Shown, Value, shown

FORM = re.compile(r"(?:(\w+)\.)?(\w+)(?:=([\w%]+))?(?::(\w+))?(?:@(\w+))?(\?(\w*))?")
NOTED = "noted_"  # what the names of columns begin with that have what the plant noted


def as_given(value: Value) -> Value:
    """A value as SQL gives it."""
    return value


class Column(NamedTuple):
    """A column: its name for programs, its head on paper, and what is in it: a `name`, a `number`, a `day`, a `word` of
    a disposition, or `text`. On paper it may be `beside` the column before it, or `beneath` it. Its SQL has an
    expression for each value that it is made of; in a table of things, these are their attributes, `item.source`. Of a
    group all columns stand in a table if one of them says something.
    """

    name: str
    title: str
    kind: str = "name"
    place: str = ""
    sql: tuple[str, ...] = ()
    value: Callable[..., Value] = as_given
    group: str = ""

    def as_text(self, value: Value) -> str:
        """A value as it is on paper."""
        if value is None or isinstance(value, str):
            return value or ""
        if isinstance(value, Shown):
            return value.text
        return format_day(value) if self.kind == "day" else f"{value:,}"


Sql = str | tuple[Any, ...]  # the SQL of a column, or its expressions with what makes its value of them behind


def columns(text: str, **sql: Sql) -> list[Column]:
    """Columns by their names, each with the table that it is of, `m.owner`, another head, `lot=of_lot`, a kind,
    `day:day`, a place, `measure@beside`, or its group, `unit?noted`; `?` alone is a group of one. The SQL of a column
    is its name, unless it is given."""
    listed = []
    for word in text.split():
        match = FORM.fullmatch(word)
        assert match, word
        table, name, title, kind, place, is_grouped, group = match.groups()
        of = sql.get(name, f"{table}.{name}" if table else name)
        *expressions, value = of if isinstance(of, tuple) else (of, as_given)
        head = (title or name).replace("_", " ")
        grouped = (group or name) if is_grouped else ""
        listed.append(Column(name, head, kind or "name", place or "", tuple(expressions), value, grouped))
    return listed


def measured(value: str, decimals: str = "decimals", sign: str = "''") -> Sql:
    """A value of a test, of which 702 with two decimals is 7.02."""
    return value, decimals, sign, shown
