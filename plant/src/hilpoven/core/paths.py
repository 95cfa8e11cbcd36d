"""Where output goes. Its folder is found once and then used as it was opened. No link is followed, nothing is written
over an office's files, and other files are replaced only if that is asked for."""
import contextlib
import os
import stat
from collections.abc import Iterator
from dataclasses import dataclass

from . import files, lock, rights
from .failure import FAULT, WRONG_USE, Failure

# How the names of an office's files and backups end.
OF_OFFICES = (
    *(".db", "-wal", "-shm", ".lock", ".sock", ".journal", ".register", ".register-journal"),
    *(".timeline", ".superseded", ".piece", ".snapshot"),
)
FOLDER = os.O_RDONLY | os.O_DIRECTORY | os.O_NOFOLLOW | os.O_CLOEXEC
SQLITE = b"SQLite format 3\0"


def up_from(path: str) -> Iterator[str]:
    """A folder and all above it."""
    yield path
    while path != "/":
        path = os.path.dirname(path)
        yield path


def private(folder: str) -> str:
    """A folder without links on its way; fails where another than this user and root may change what is in it, or what
    it is."""
    path = os.path.realpath(folder)
    if not os.path.isdir(path):
        raise Failure(f"{folder} is no folder", WRONG_USE)
    for each in up_from(path):
        state = os.stat(each)
        may_others = state.st_mode & 0o022 and not (each != path and state.st_mode & stat.S_ISVTX)
        if state.st_uid not in (0, os.geteuid()) or may_others:
            mine = rights.name_of(os.geteuid())
            raise Failure(
                f"others may change what is in {each}",
                FAULT,
                f"a folder of {mine}'s own is needed, such as by chmod 700 {path}",
            )
    return path


@dataclass(frozen=True)
class Target:
    """A file or a folder that is made: its folder, open and by its path, its name there, and whether it may replace a
    file."""

    path: str
    folder: int
    parent: str
    name: str
    replaces: bool = False

    def require_free(self) -> None:
        """Fails where nothing may be made of this name."""
        if self.name.endswith(OF_OFFICES):
            raise Failure(f"{self.path} has the name of a file of an office", WRONG_USE)
        try:
            state = os.stat(self.name, dir_fd=self.folder, follow_symlinks=False)
        except FileNotFoundError:
            return
        if not stat.S_ISREG(state.st_mode):
            raise Failure(f"{self.path} is there already, and is no file", WRONG_USE)
        if not self.replaces:
            raise Failure(f"{self.path} is there already", WRONG_USE, "--force replaces it, where the command has that")
        with open(os.open(self.name, os.O_RDONLY | os.O_NOFOLLOW | os.O_NONBLOCK, dir_fd=self.folder), "rb") as file:
            if file.read(len(SQLITE)) == SQLITE:
                raise Failure(f"{self.path} is a database", WRONG_USE)

    def give(self, content: str | bytes) -> None:
        """Writes a file, whole or not at all, with the rights of the one that it replaces."""

        def prepare(descriptor: int) -> None:
            self.require_free()
            with contextlib.suppress(FileNotFoundError):
                state = os.stat(self.name, dir_fd=self.folder, follow_symlinks=False)
                os.fchmod(descriptor, state.st_mode & 0o777)
                if os.geteuid() == 0:
                    os.fchown(descriptor, state.st_uid, state.st_gid)

        whole = content.encode() if isinstance(content, str) else content
        with self.writing():
            files.replace(f"{open_path(self.folder)}/{self.name}", whole, 0o666, prepare=prepare)

    def put(self, room: int, name: str) -> None:
        """Gives what was made in a room its name."""
        self.require_free()
        os.rename(name, self.name, src_dir_fd=room, dst_dir_fd=self.folder)

    @contextlib.contextmanager
    def room(self) -> Iterator[tuple[int, str]]:
        """A folder of this user's alone beside the target, open, and its path, that is removed at the end."""
        name = files.hidden_name()
        with self.writing():
            os.mkdir(name, 0o700, dir_fd=self.folder)
            room = os.open(name, FOLDER, dir_fd=self.folder)
            try:
                lock.take(room, wait=None)
                yield room, os.path.join(self.parent, name)
            finally:
                os.close(room)
                import shutil

                shutil.rmtree(name, ignore_errors=True, dir_fd=self.folder)

    @contextlib.contextmanager
    def writing(self) -> Iterator[None]:
        """Has a fault of the disk name the target."""
        try:
            yield
        except BrokenPipeError:
            raise
        except OSError as error:
            raise Failure(f"{self.path} can't be written: {error.strerror or error}") from error


def open_path(descriptor: int) -> str:
    """A path that leads to a folder that is open, whatever has its name now."""
    return f"/proc/self/fd/{descriptor}"


@contextlib.contextmanager
def target(path: str | os.PathLike[str], replaces: bool = False) -> Iterator[Target]:
    """What is to be made, its folder open; fails where it can't be made."""
    folder, name = os.path.split(os.path.abspath(path))
    parent = os.path.realpath(folder)
    try:
        descriptor = os.open(parent, FOLDER)
    except OSError as error:
        why = " is no folder" if isinstance(error, (FileNotFoundError, NotADirectoryError)) else f": {error.strerror}"
        raise Failure(f"{folder}{why}", WRONG_USE) from error
    try:
        new_target = Target(str(path), descriptor, parent, name, replaces)
        new_target.require_free()
        if not os.access(".", os.W_OK | os.X_OK, dir_fd=descriptor):
            advice = "standard output takes it: --tar for papers"
            raise Failure(f"{rights.name_of(os.geteuid())} can't write in {folder}", FAULT, advice)
        yield new_target
    finally:
        os.close(descriptor)
