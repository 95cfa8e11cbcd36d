"""Sends a follower's pieces to a folder on another machine, while the follower goes on."""
import os
import time
from collections.abc import Callable, Iterator
from dataclasses import dataclass, field
from functools import cached_property
from itertools import islice

from ...core.failure import FAULT, REFUSED, Failure
from .. import persons
from . import chain, piece, state
from .remote import Job, ListedFile, Purpose, Remote, files_in
from .removal import Trouble
from .state import State

LOOK = 10.0  # seconds between two looks for a mark that the folder there was promoted
STATE = 5.0  # seconds between two sends of the state alone, which a new piece would have to wait for
MOST_NAMES = 2_000  # that are sent at a time
MOST_REMOVED = 20_000  # names at a time


@dataclass
class Sender:
    """What is to be sent and removed, and what rsync does now: pieces and looks by one job, snapshots, earlier files
    and removals by another, so that pieces don't wait for them."""

    remote: Remote
    folder: str
    file: str  # the office's
    timeline: int
    days: int  # for which snapshots and pieces stay
    tell: Callable[[str], None]
    unsent: dict[str, float] = field(default_factory=dict)  # pieces, and when each was made
    bulk: list[str] = field(default_factory=list)
    gone: dict[str, None] = field(default_factory=dict)  # names that are to be removed there
    job: Job | None = None
    bulk_job: Job | None = None
    begun: set[str] = field(default_factory=set)  # the chains of which a snapshot is there
    is_known: bool = False  # whether it is known what is there
    is_state_new: bool = False  # whether the follower's state or the office's persons are to be sent
    looked: float = 0.0
    state_sent: float = 0.0

    @cached_property
    def sending(self) -> Trouble:
        """What keeps pieces from coming there."""
        return Trouble(self.tell, f"{self.remote.to} gets pieces again")

    @cached_property
    def removing(self) -> Trouble:
        """What keeps old ones from being removed there."""
        return Trouble(self.tell, f"old pieces of {self.remote.to} are removed again")

    def add(self, name: str, at: float) -> None:
        """Has a piece that was made at a time sent, or a snapshot, behind the earlier files that it names."""
        if name.endswith(piece.ENDS[piece.SNAPSHOT]):
            self.bulk += [earlier for earlier in os.listdir(self.folder) if earlier.startswith(chain.EARLIER)] + [name]
        else:
            self.unsent[name] = at

    def remove(self, names: list[str]) -> None:
        """Has files removed there; those that aren't there yet aren't sent."""
        self.gone.update(dict.fromkeys(names))
        self.give_up(names)

    def give_up(self, names: list[str]) -> None:
        """Sends none of these files, or none again."""
        for name in names:
            self.unsent.pop(name, None)
        self.bulk = [name for name in self.bulk if name not in names]

    def step(self, state: State) -> None:
        """Notes what has ended, and begins what is next."""
        self.job, self.bulk_job = self.ended(self.job), self.ended(self.bulk_job)
        self.job = self.job or self.begin(self.next_job, self.sending)
        self.bulk_job = self.bulk_job or (self.begin(self.next_bulk_job, self.sending) if self.bulk else None)
        self.bulk_job = self.bulk_job or self.begin(self.next_removal, self.removing)
        state.to, state.unsent = self.remote.to, len(self.unsent) + len(set(self.bulk))
        state.unsent_since = self.unsent_since
        state.fault = state.fault or self.sending.fault or self.removing.fault

    def ended(self, job: Job | None) -> Job | None:
        """Notes how a job ended; the job, while it goes on."""
        ended = job.end() if job else None
        if job is None or ended is None:
            return job
        try:
            self.note(job, *ended)
        except OSError as error:
            self.sending.note(f"{error.filename or self.folder}: {error.strerror}")
        return None

    def begin(self, next_job: Callable[[], Job | None], trouble: Trouble) -> Job | None:
        """Begins what is next, unless it failed just before; `None` if that is nothing, or it can't be begun."""
        if trouble.is_resting:
            return None
        try:
            return next_job()
        except (Failure, OSError) as error:
            if isinstance(error, Failure) and error.exit_code != FAULT:
                raise
            why = error.message if isinstance(error, Failure) else error.strerror
            trouble.note(f"{self.remote.to}: {why}")
            return None

    @property
    def unsent_since(self) -> float:
        """When the first was made of what isn't there: of pieces, and of the snapshots of a chain that has none there,
        without which its pieces give nothing. It is 0 if all is there."""
        needed = [name for name in self.bulk if begun_by([name]) - self.begun]
        return min([*self.unsent.values(), *map(self.moment_of, needed)], default=0.0)

    def moment_of(self, name: str) -> float:
        """When a piece of the folder was made, in seconds since 1970; now if that can't be read."""
        return chain.moment_of(os.path.join(self.folder, name))

    def next_job(self) -> Job | None:
        """What is to be done next of looks and pieces; `None` if there is nothing."""
        if not self.is_known:
            return self.remote.names("promoted-*", "*.piece", "*.snapshot", f"{chain.EARLIER}*")
        if time.monotonic() - self.looked >= LOOK:
            return self.remote.names("promoted-*")
        if self.unsent or self.is_state_new and time.monotonic() - self.state_sent >= STATE:
            self.is_state_new, self.state_sent = False, time.monotonic()
            pieces = self.present(list(islice(self.unsent, MOST_NAMES)))
            has_persons = os.path.lexists(os.path.join(self.folder, persons.COPY))
            return self.remote.send(self.folder, [*pieces, state.NAME, *([persons.COPY] if has_persons else [])])
        return None

    def next_bulk_job(self) -> Job | None:
        """The sending of snapshots and earlier files, once it is known what is there; `None` if there are none."""
        names = self.present(list(dict.fromkeys(self.bulk))) if self.is_known else []
        return self.remote.send(self.folder, names) if names else None

    def next_removal(self) -> Job | None:
        """The removal of old ones, once all snapshots are there that stay; `None` if there are none."""
        if not self.is_known or self.bulk or not self.gone:
            return None
        return self.remote.remove(list(islice(self.gone, MOST_REMOVED)))

    def present(self, names: list[str]) -> list[str]:
        """Of names that are to be sent, those that are in the folder; others are told, and given up."""
        missing = [name for name in names if not os.path.lexists(os.path.join(self.folder, name))]
        for name in sorted(missing):
            self.tell(f"{name} is gone from {self.folder}, and isn't in {self.remote.to}")
        self.give_up(missing)
        return [name for name in names if name not in missing]

    def note(self, job: Job, listed: str, fault: str) -> None:
        """Notes how a job ended. A fault is told when it begins and ends."""
        trouble = self.removing if job.purpose is Purpose.REMOVE else self.sending
        trouble.note(f"{self.remote.to}: {fault}" if fault else "")
        if fault:
            return
        if job.purpose is Purpose.LOOK:
            self.note_files(files_in(listed))
        elif job.purpose is Purpose.REMOVE:
            for name in job.names:
                self.gone.pop(name, None)
        else:
            self.give_up(job.names)
            self.begun |= begun_by(job.names)

    def note_files(self, files: list[ListedFile]) -> None:
        """Notes what is there; fails if that is of a later timeline."""
        self.looked = time.monotonic()
        chain.require_own(self.file, self.timeline, self.remote.to, [file.name for file in files])
        if not self.is_known:
            self.compare(files)

    def compare(self, files: list[ListedFile]) -> None:
        """Has all that isn't there sent, and what is old and isn't here any more removed, as a removal that failed left
        it; fails if there are pieces of another follower."""
        here = {name for name in os.listdir(self.folder) if piece.name_of(name) or name.startswith(chain.EARLIER)}
        sent, old = {file.name for file in files}, list(self.old_there(files, here))
        self.require_no_other(here, sorted(sent.difference(old)))
        missing = sorted(here - sent)
        self.unsent = {name: self.moment_of(name) for name in missing if name.endswith(".piece")} | self.unsent
        self.bulk = [name for name in missing if name not in self.unsent]
        self.begun = begun_by(sent)
        self.is_known = True
        self.remove(old)

    def require_no_other(self, here: set[str], sent: list[str]) -> None:
        """Fails if there are pieces of another follower of the same timeline."""
        own = {of.name for of in chain.grouped(here)}
        for name in sent:
            if (of := piece.name_of(name)) and of.timeline == self.timeline and of.chain not in own:
                raise Failure(
                    f"{self.remote.to} has pieces of another follower, such as {name}",
                    REFUSED,
                    "name a folder of its own for each follower, or move the pieces there elsewhere",
                )

    def old_there(self, files: list[ListedFile], here: set[str]) -> Iterator[str]:
        """The names there that would have been removed here: those of a chain before its oldest snapshot, and chains to
        which nothing came, for more days than they stay."""
        oldest, own = time.time() - self.days * 86_400, {of.name: of for of in chain.grouped(here)}
        others = [(file, name) for file in files if file.name not in here and (name := piece.name_of(file.name))]
        young = {name.chain for file, name in others if file.at >= oldest}
        for file, name in others:
            of = own.get(name.chain)
            if file.at < oldest and (of.is_needless(name) if of else name.chain not in young):
                yield file.name


def begun_by(names: "list[str] | set[str]") -> set[str]:
    """The chains of which there are snapshots among files of these names."""
    return {name.chain for name in map(piece.name_of, names) if name and name.is_snapshot}
