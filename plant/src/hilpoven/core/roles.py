"""Which role each subcommand belongs to. Those of no role change nothing, and every member may give them."""
from .context import Context

COMMANDS = {
    "record": (
        "order, cancel, open, do, close, receive, split, ship, scrap, result, actual, void, import, count import, "
        "use, link, note withdraw, note not-linked, note movement, note corrects, clean, note no-residue, correct, "
        "case open, case hold, case reply, case close"
    ),
    "quality": "release, reject, sign, hold, describe lot, drill start, drill end",
    "master_data": (
        "unit-add, material-add, material new, test-add, recipe-add, require, party add, "
        "describe owner, describe material, describe recipe, describe test, describe unit"
    ),
    "settlement": "settle",
    "keys": "owner-add, owner add, owner key, person add, person role, person password, person remove, " "person mail",
    "restore": "new, backup, restore, promote, register rebuild, carry-over",
}
OPERATORS = {"promote"}  # of operators alone where the settings don't tell their role: they end another machine's work
ROLES = {command: role for role, commands in COMMANDS.items() for command in commands.split(", ")}
# of a second role: whoever sees that a lot is bad stops it and recalls it, and quality alone lets it go
ALSO = {"hold": "record", **dict.fromkeys(["case open", "case hold", "case reply", "case close"], "quality")}


def require(context: Context, command: str, subject: str = "") -> None:
    """Fails for a member whose groups lack the role of a command, or of a subject of the same role."""
    roles, groups = [role for role in (ROLES.get(command), ALSO.get(command)) if role], set[str]()
    for role in roles:
        named: list[str] | None = getattr(context.settings.roles, role)
        if named is None and command not in OPERATORS:
            return
        groups.update(named or [])
    if roles:
        context.person.require_role(subject or command, " or ".join(roles), sorted(groups))
