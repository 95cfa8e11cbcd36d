"""A workbook is planned for an office, and rehearsed in a copy of its file, so that all that is wrong is known before
anything is given."""
from ...core import meanings, private_server, snapshot
from ...core.context import Context
from ...core.failure import FAULT, Failure
from ...core.grammar import OWNER_ADD
from ...core.office import Office
from ...model.nearest import NAMES
from ...care.keys import random_key
from ..making import Desk
from .definitions import plan_materials, plan_owners, plan_parties, plan_recipes
from .definitions import plan_requirements, plan_tests, plan_units
from .plan import Plan, Planner, Step
from .reading import Fault, Thing, Workbook
from .stock import plan_stock

OF_DEFINITIONS = (plan_owners, plan_units, plan_materials, plan_tests, plan_recipes, plan_requirements, plan_parties)


def plan_of(context: Context, desk: Desk, workbook: Workbook, are_meant: bool) -> Plan:
    """What a workbook has an office do, and all that is wrong with it."""
    planner = Planner(desk, workbook, context.settings.quality.test)
    planner.check_references()
    for plan_table in OF_DEFINITIONS:
        plan_table(planner)
    plan_stock(planner, context.settings.time_zone, are_meant)
    plan = planner.plan
    plan.faults += workbook.faults
    plan.faults = sorted({*plan.faults, *rehearsed(desk.office, planner)})
    return plan


def rehearsed(office: Office, planner: Planner) -> list[Fault]:
    """What `toll` refuses of the commands in a copy of the office's file. Those are left out of which a row is wrong
    already, and those that need what such a row would make."""
    wrong = {(fault.at, fault.row) for fault in planner.plan.faults}
    steps = [step for step in planner.plan.steps if (step.part.at, step.record.row) not in wrong]
    if not steps:
        return []
    added, faults = set[Thing](), list[Fault]()
    with snapshot.copied(office) as copy, private_server.opened(office.program, copy) as server:
        for step in steps:
            if all(planner.standing.has(subject) or subject in added for subject in step.needs):
                answer = server.ask(step.line.name, *words_in_copy(step))
                if answer.status == FAULT:
                    raise Failure(f"toll answered {answer.error.strip()} over a copy of {office.file}")
                if answer.status:
                    faults.append(fault_of(step, answer.output.strip()))
                else:
                    added.add(step.makes)
    return faults


def words_in_copy(step: Step) -> list[str]:
    """The words of a command as they are given to a copy, where an owner has any key."""
    return [*step.words, random_key().letters] if step.line.name == OWNER_ADD else step.words


def fault_of(step: Step, answer: str) -> Fault:
    """That `toll` refuses the command of a row, at the cell of the value that the refusal is about."""
    refusal = meanings.refusal_in(answer)
    means = f": {meanings.meaning('refusals', refusal)}" if refusal else ""
    return step.refused(f"{answer}{means}", NAMES.get(refusal, ("",))[0])
