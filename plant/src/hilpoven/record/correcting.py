"""What was typed wrongly is corrected: movements set the stock right, and a note says what was meant.

A movement may be of a closed batch, or a shipment that left. An actual of an open batch is voided and recorded again;
all else is set right by scraps and receipts, into the pile where a person counts it. All of it is tried over a copy
first. No recall loses a line: what was typed stays in `toll`, or a link stands for it.
"""
import hashlib
from collections import Counter
from collections.abc import Iterator, Sequence
from dataclasses import dataclass, field

from ..core import lock, roles, snapshot
from ..core.context import Context
from ..core.failure import REFUSED, WRONG_USE, Failure
from ..core.grammar import LINES, Line
from ..core.office import Answer
from ..model.genealogy import Genealogy
from ..model.kinds import CORRECTING, Why
from ..model.nearest import nearest
from ..model.notes import GETS, Corrected, CorrectionAsked, Corrects, Link, MovementFacts, Note, require_party
from ..model.register.standing import Status, statuses
from ..model.rows import OF_KEY, Lot, LotId, Move, batches_of, lots_of, read_moves, require_owner, sublots_of
from ..model.schema import INCOMING, Disposition, Kind
from . import asking, making
from .making import Desk
from .sheets.counting import new_lot

ACTUALS = (Kind.CONSUMED, Kind.PRODUCED)
BY_MISTAKE = "recorded by mistake"


@dataclass(frozen=True)
class Meant:
    """What was meant by a movement: what isn't given is as it was typed. `sublot` is where what is missing now is taken
    from, if it isn't that of the movement."""

    owner: str
    key: str
    amount: int | None = None
    lot: str | None = None
    party: str | None = None
    sublot: str | None = None
    reason: str = ""
    day: int | None = None


@dataclass(frozen=True)
class Step:
    """A line of `toll` that sets the stock right, and what is noted beside it."""

    line: Line
    words: list[str]
    notes: list[Note]

    @property
    def text(self) -> str:
        """The line as it is typed."""
        return " ".join([self.line.name, *self.words])


@dataclass(frozen=True)
class Done:
    """What came of a correction: each step with its answer, the note, and whether another person has to sign it."""

    steps: list[tuple[Step, Answer]] = field(default_factory=list)
    name: str = ""
    is_asked: bool = False


def correct(context: Context, meant: Meant) -> Done:
    """Corrects a movement, or notes what was meant where the settings want another person to sign that."""
    if not meant.reason.strip():
        raise Failure("--reason is empty", WRONG_USE)
    if (meant.amount, meant.lot, meant.party) == (None, None, None):
        raise Failure(
            "correct: nothing is given that was meant", WRONG_USE, "such as --amount N, --lot LOT, --to PARTY"
        )
    office, person = context.office(), context.person.login
    with lock.alone(office.file, office.wait), making.desk(context) as desk:
        plan = Plan(context, desk, meant)
        if context.settings.corrections.persons > 1:
            plan.tried()
            note = plan.asked()
            return Done(name=desk.standing(note) or desk.record(plan.words, note), is_asked=True)
        return plan.carry_out(person)


def sign(context: Context, owner: str, key: str, name: str) -> Done:
    """Carries out a correction that another person asked for, whose note is named."""
    roles.require(context, "sign", "correct --sign")
    office = context.office()
    with lock.alone(office.file, office.wait), making.desk(context) as desk:
        status = asked_for(desk, name)
        note = status.note
        if not isinstance(note, CorrectionAsked) or (note.owner, note.key) != (owner, key):
            raise Failure(f"{name} is no correction of {key} of {owner} that was asked for", REFUSED)
        asker = login_of(status)
        if context.person.login == asker:
            advice = "another person signs it; `persons = 1` below [corrections] in the settings needs none"
            raise Failure(f"{asker} asked for this correction", REFUSED, advice)
        meant = Meant(
            owner, key, note.amount_meant, note.lot, note.party or None, note.sublot or None, note.reason, note.day
        )
        return Plan(context, desk, meant).carry_out(asker, context.person.login, name)


def asked_for(desk: Desk, name: str) -> Status:
    """The note of a correction that is asked for and stands; fails if it is signed already."""
    known = statuses(desk.notes, CorrectionAsked)
    status = next((each for each in known if each.noted.name == name), None)
    if status is None or status.note is None:
        raise Failure(
            f"there is no correction {name}", REFUSED, nearest(name, [s.noted.name for s in known], "corrections")
        )
    if status.fault:
        raise Failure(f"note {name} doesn't stand: {status.fault}", REFUSED)
    for done in statuses(desk.notes, Corrected, fault=""):
        if isinstance(done.note, Corrected) and done.note.of == name:
            raise Failure(f"correction {name} is signed already, by {done.note.signer}", REFUSED)
    return status


def login_of(status: Status) -> str:
    """Whose login made a note: without whose rights it had."""
    return status.noted.who.partition(" as ")[0]


class Plan:
    """How a movement comes to what was meant by it, as the office is now."""

    def __init__(self, context: Context, desk: Desk, meant: Meant) -> None:
        self.context, self.desk, self.meant = context, desk, meant
        self.day = context.day(meant.day)
        self.move = self.read_move()
        self.before = self.move.lot
        self.lot = lots_of(desk.base, [self.before])[self.before]
        self.fixes = self.read_fixes()
        self.earlier = [note for note in desk.register.notes(Corrected) if (note.owner, note.key) == self.id]
        self.lot_before = self.earlier[-1].lot if self.earlier else self.before.name
        self.target = LotId(self.before.owner, meant.lot or self.lot_before)
        self.net = self.read_net()
        is_split = self.move.kind == Kind.SPLIT and self.earlier
        self.amount_before = self.earlier[-1].amount_meant if is_split else sum(self.net.values())
        self.amount = self.amount_before if meant.amount is None else meant.amount
        self.check()

    @property
    def id(self) -> tuple[str, str]:
        """The movement's owner and its key."""
        return self.meant.owner, self.meant.key

    @property
    def words(self) -> list[str]:
        """The command, as the journal has it."""
        meant = self.meant
        options = {"--amount": meant.amount, "--lot": meant.lot, "--to": meant.party, "--sublot": meant.sublot}
        given = [word for name, value in options.items() if value is not None for word in (name, str(value))]
        return ["correct", *self.id, *given, "--reason", meant.reason]

    @property
    def sign(self) -> int:
        """1 if the movement brought something into its lot, and -1 if it took something out."""
        return 1 if self.move.kind in INCOMING else -1

    def read_move(self) -> Move:
        """The movement; fails if it isn't there, is void, came over from an earlier file, or corrects another one."""
        desk, owner, key = self.desk, *self.id
        require_owner(desk.base, owner)
        move = next(iter(read_moves(desk.base, making.plant_moves(desk.base), self.id)), None)
        if move is None and any(read_moves(base, making.plant_moves(base), self.id) for base in desk.bases):
            why = f"{key} of {owner} is in an earlier file, which nothing changes"
            raise Failure(
                why, REFUSED, "a scrap or a receipt sets the stock right, and `hilpoven note corrects` says of what"
            )
        if move is None:
            advice = nearest(key, desk.names(making.KEYS, owner), f"movements of {owner}")
            raise Failure(f"there is no movement {key} of {owner} that stands", REFUSED, advice)
        if of := desk.register.corrects.get(self.id):
            why = f"{key} of {owner} is itself a correction of {of[1]} of {of[0]}"
            raise Failure(why, REFUSED, f"`hilpoven correct {of[0]} {of[1]} ..` says what was meant")
        return move

    def read_fixes(self) -> list[Move]:
        """The receipts and scraps that correct the movement already."""
        keys = [own for own, of in self.desk.register.corrects.items() if of == self.id]
        fixes = [move for own in keys for base in self.desk.bases for move in read_moves(base, OF_KEY, own)]
        return [fix for fix in fixes if fix.kind in (Kind.RECEIVE, Kind.SCRAP) and not fix.is_void]

    def read_net(self) -> Counter[LotId]:
        """How much of which lot the movement comes to with its corrections so far."""
        net = Counter({self.before: self.move.amount})
        for fix in self.fixes:
            net[self.root_of(fix.lot)] += fix.change * self.sign
        return Counter({lot: amount for lot, amount in net.items() if amount})

    def root_of(self, lot: LotId) -> LotId:
        """The lot of which a correction in a lot is: this one if it was typed or meant, or that in whose pile it is."""
        own = {self.before, self.target, *(LotId(self.before.owner, note.lot) for note in self.earlier)}
        return lot if lot in own else self.roots.get(lot, lot)

    def place_of(self, lot: LotId) -> str:
        """The sublot of the movement in a lot: the given one of the lot that was meant, that of an earlier correction
        of a lot that wasn't typed, or its own."""
        if self.meant.sublot and lot == self.target:
            return self.meant.sublot
        earlier = [fix.sublot for fix in self.fixes if self.root_of(fix.lot) == lot != self.before]
        return earlier[-1] if earlier else self.move.sublot

    @property
    def roots(self) -> dict[LotId, LotId]:
        """The lots that took what corrections found, each with the one in whose pile it lies."""
        roots: dict[LotId, LotId] = {}
        for link in self.desk.register.links:
            if link.why == Why.CORRECTION and isinstance(link.container, LotId):
                roots.setdefault(link.container, link.contained)
        return roots

    def check(self) -> None:
        """Fails if this can't have been meant."""
        meant, move = self.meant, self.move
        if meant.party is not None:
            if move.kind != Kind.SHIP:
                raise Failure(f"{move.key} of {move.owner} is no shipment, so it went to nobody", REFUSED)
            require_party(self.desk.parties, move.owner, meant.party, GETS)
        target = lots_of(self.desk.base, [self.target]).get(self.target)
        if self.target != self.before and move.kind == Kind.SPLIT:
            raise Failure(f"{move.key} of {move.owner} is a split: split the other lot, and this one back", REFUSED)
        if target is None and move.kind not in INCOMING:
            names = self.desk.names(making.LOTS, self.target.owner)
            advice = nearest(self.target.name, names, f"lots of {self.target.owner}")
            raise Failure(f"there is no lot {self.target}", REFUSED, advice)
        if target is not None and target.material != self.lot.material:
            why = f"lot {self.target} is of {target.material}, and {self.before} of {self.lot.material}"
            raise Failure(why, REFUSED, "a correction stays within a material: scrap the one, and receive the other")
        is_same = self.amount == self.amount_before and self.target.name == self.lot_before
        if is_same and meant.party in (None, self.party_before):
            text = f"{self.amount_before:,} of {self.lot_before}"
            raise Failure(f"{move.key} of {move.owner} is of {text} already: nothing is corrected", REFUSED)

    @property
    def party_before(self) -> str:
        """Who got the shipment, as it was noted."""
        facts = self.desk.register.facts.get(self.id)
        return facts.party if facts else ""

    # What sets the stock right

    def steps(self, is_voided: bool) -> list[Step]:
        """The lines that set the stock right."""
        if is_voided:
            return list(self.steps_of_void())
        if self.move.kind == Kind.SPLIT:
            return list(self.steps_of_split())
        return list(self.steps_of_stock())

    @property
    def can_void(self) -> bool:
        """Whether it is an actual of a batch that is open, and nothing corrects it yet."""
        batch = batches_of(self.desk.base, [self.move.batch] if self.move.batch else [])
        is_open = any(not each.is_closed for each in batch.values())
        return self.move.kind in ACTUALS and is_open and not self.fixes

    def key(self, number: int) -> str:
        """The key of a step: of what was meant, and of what was corrected before."""
        words = [*self.id, str(self.amount), *self.target, str(self.day), *sorted(fix.key for fix in self.fixes)]
        return f"{CORRECTING}-{hashlib.sha256(' '.join(words).encode()).hexdigest()[:7].upper()}-{number}"

    def corrects(self, owner: str, key: str) -> Corrects:
        """The note that a step corrects the movement."""
        return Corrects(owner, key, *self.id)

    def steps_of_void(self) -> Iterator[Step]:
        """The actual is voided, and recorded again as it was meant; links stand for what a recall had by it."""
        owner, key = self.id
        move, links = self.move, self.links_of_mistake() if self.target != self.before or not self.amount else []
        yield Step(LINES["void"], [owner, key], list(links))
        if self.amount:
            new, batch = self.key(1), move.batch
            assert batch
            words = [new, *map(str, batch), str(move.segment), move.kind.word, self.lot.material, *self.target]
            words += [self.meant.sublot or move.sublot, str(self.amount), str(move.day)]
            notes: list[Note] = [self.corrects(owner, new)]
            if move.kind == Kind.PRODUCED and self.target != self.before:
                notes += self.links_of_both()
            yield Step(LINES["actual"], words, notes)

    def links_of_mistake(self) -> Iterator[Link]:
        """What a recall had by a movement that is voided."""
        batch, genealogy = self.move.batch, Genealogy(self.desk.base)
        assert batch
        genealogy.read_batches(batch.owner)
        if self.move.kind == Kind.CONSUMED:
            yield from (
                self.contains(product, self.before, BY_MISTAKE) for product in genealogy.products(batch, self.before)
            )
        else:
            yield from (
                self.contains(self.before, source, BY_MISTAKE) for source in genealogy.sources(batch, self.before)
            )

    def links_of_meant(self) -> Iterator[Link]:
        """What a recall has of the lot that was meant, which no actual says."""
        batch, genealogy = self.move.batch, Genealogy(self.desk.base)
        if self.target == self.before or batch is None and self.move.kind != Kind.RECEIVE:
            return
        if self.move.kind in INCOMING:
            yield from self.links_of_both()
        elif batch:
            genealogy.read_batches(batch.owner)
            yield from (
                self.contains(product, self.target, "meant") for product in genealogy.products(batch, self.before)
            )

    def links_of_both(self) -> list[Link]:
        """That two lots contain some of each other: what went on was recorded of the one, and was the other one."""
        ends = ((self.target, self.before), (self.before, self.target))
        return [self.contains(into, of, "meant") for into, of in ends]

    def contains(self, lot: LotId, of: LotId, why: str) -> Link:
        """That a lot contains some of another one, because of a movement that was typed wrongly."""
        return Link(*lot, "", 0, *of, Why.MISRECORDED, None, self.reason(why))

    def reason(self, why: str) -> str:
        """Why a link is noted."""
        return f"{why}: {self.move.kind.word} {self.move.key} is corrected"

    def steps_of_split(self) -> Iterator[Step]:
        """More of it is moved, or some of it back."""
        owner, move = self.meant.owner, self.move
        change, ends = self.amount - self.amount_before, (move.sublot, move.target)
        if change:
            ends = ends if change > 0 else (move.target, move.sublot)
            key = self.key(1)
            words = [owner, key, move.lot.name, *ends, str(abs(change)), str(self.day)]
            yield Step(LINES["split"], words, [self.corrects(owner, key)])

    def steps_of_stock(self) -> Iterator[Step]:
        """What is too much is scrapped, and what is missing is received, of each lot."""
        wanted = Counter({self.target: self.amount} if self.amount else {})
        changes = {lot: (wanted[lot] - self.net[lot]) * self.sign for lot in {**self.net, **wanted}}
        links, number = list(self.links_of_meant()), 0
        for lot, change in sorted(changes.items(), key=lambda each: each[1]):
            for line, words, notes in self.scraps(lot, -change) if change < 0 else self.receipts(lot, change):
                number += 1
                key = self.key(number)
                own: list[Note] = [*notes, *links, self.corrects(lot.owner, key)]
                links = []
                yield Step(line, [lot.owner, key, *words], own)

    def scraps(self, lot: LotId, amount: int) -> Iterator[tuple[Line, list[str], list[Note]]]:
        """What is taken from a lot's pile: from the lots that took what corrections found there, and from the lot."""
        pile = [*self.lots_beside(lot), lot]
        held, left = sublots_of(self.desk.base, pile), amount
        sublot = self.sublot_of(lot, amount, {place: sum_of(held, pile, place) for _, place in held})
        for each in pile:
            part = min(left, held.get((each, sublot), 0))
            if part:
                left -= part
                yield LINES["scrap"], [each.name, sublot, str(part), str(self.day)], []

    def sublot_of(self, lot: LotId, amount: int, amounts: dict[str, int]) -> str:
        """Where what is too much of a lot lies; fails if nowhere lies so much."""
        own = self.place_of(lot)
        if self.meant.sublot and lot == self.target:
            chosen = [own]
        else:
            chosen = [own] if own in amounts else [name for name, held in amounts.items() if held >= amount]
        if len(chosen) == 1 and amounts.get(chosen[0], 0) >= amount:
            return chosen[0]
        held_text = ", ".join(f"{name} {held:,}" for name, held in sorted(amounts.items())) or "nothing"
        why = f"{amount:,} of {lot} have to go, and it isn't sure where they lie: {held_text}"
        raise Failure(why, REFUSED, "--sublot SUBLOT says where; what went on from there is corrected first")

    def lots_beside(self, lot: LotId) -> list[LotId]:
        """The lots in a lot's pile that took what corrections found there."""
        return [beside for beside, root in self.roots.items() if root == lot]

    def receipts(self, lot: LotId, amount: int) -> Iterator[tuple[Line, list[str], list[Note]]]:
        """What is received into a lot's pile: into the lot, if it takes it, or into a new one that is linked to it."""
        line, sublot = LINES["receive"], self.place_of(lot)
        own = lots_of(self.desk.base, [lot]).get(lot)
        for name, known in {lot: own, **lots_of(self.desk.base, self.lots_beside(lot))}.items():
            words = [self.lot.material, name.name, sublot, str(amount), str(self.day)]
            if self.takes(name, known, words):
                yield line, words, []
                return
        name = LotId(lot.owner, new_lot(self.desk, lot, self.key(9), set()))
        link = Link(lot.owner, name.name, "", 0, *lot, Why.CORRECTION, None, self.reason(BY_MISTAKE))
        yield line, [self.lot.material, name.name, sublot, str(amount), str(self.day)], [link]

    def takes(self, name: LotId, lot: Lot | None, words: Sequence[str]) -> bool:
        """Whether a lot, or a name that no lot has, takes a receipt."""
        if lot and (lot.disposition != Disposition.QUARANTINED or lot.origin != "receipts"):
            return False
        known = asking.known_earlier(self.desk.office, LINES["receive"], [name.owner, self.key(9), *words])
        return known is None

    # How it is done

    def tried(self) -> list[Step]:
        """The steps that `toll` accepts over a copy; fails if it accepts none of the ways."""
        failure: Failure | None = None
        for is_voided in (True, False) if self.can_void else (False,):
            steps = self.steps(is_voided)
            failure = self.fault_of(steps)
            if failure is None:
                return steps
        assert failure
        raise failure

    def fault_of(self, steps: Sequence[Step]) -> Failure | None:
        """Why steps can't be done, by what is answered over a copy of the office; `None` if they can."""
        for step in steps:
            if stopped := asking.stopped_by_quality(self.context, step.line, step.words, is_use=False):
                return Failure(stopped.error.strip().removeprefix("refused by hilpoven: "), REFUSED)
        if not steps:
            return None
        office = self.desk.office
        with snapshot.copied(office) as path:
            snapshot.settle(path)
            for step in steps:
                answer = office.ask([step.line.name, *step.words], path)
                if answer.output != "accepted\n":
                    why = (answer.output + answer.error).strip().partition("\n")[0]
                    return Failure(f"toll wouldn't do `{step.text}`: {why}; nothing is done", REFUSED)
        return None

    def asked(self) -> CorrectionAsked:
        """The note that this is asked for."""
        meant = self.meant
        names = meant.party or "", meant.sublot or ""
        return CorrectionAsked(*self.id, self.target.name, self.amount, self.day, meant.reason, *names)

    def carry_out(self, corrector: str, signer: str = "", of: str = "") -> Done:
        """Sets the stock right, and notes what was meant."""
        done: list[tuple[Step, Answer]] = []
        for step in self.tried():
            members = self.desk.all_members(step.notes)
            answer = asking.given(self.context, self.desk.office, step.line, step.words, **members)
            done.append((step, answer))
            if answer.output != "accepted\n":
                return Done(done)
        party, before = self.meant.party or "", self.party_before
        note = Corrected(
            *self.id,
            self.before.owner,
            self.lot_before,
            self.amount_before,
            self.target.name,
            self.amount,
            self.day,
            corrector,
            self.meant.reason,
            before if party else "",
            party,
            signer,
            of,
        )
        facts = [MovementFacts(*self.id, party=party)] if party else []
        with making.desk(self.context) as desk:
            return Done(done, desk.record(self.words, note, *facts))


def sum_of(held: dict[tuple[LotId, str], int], lots: Sequence[LotId], sublot: str) -> int:
    """What a sublot of this name holds of some lots."""
    return sum(held.get((lot, sublot), 0) for lot in lots)
