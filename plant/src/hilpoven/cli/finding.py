"""`hilpoven find`: where a text stands, over all files of the office."""
from ..core.context import Context
from ..report import finding
from .output import give_table


def find(context: Context, text: str, form: str | None) -> None:
    """`hilpoven find`."""
    give_table(finding.COLUMNS, finding.find(context, text), form, "nothing has it")
