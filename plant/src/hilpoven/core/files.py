"""Files: how one is read, copied, known by its bytes, replaced at one stroke and brought to the disk."""
import contextlib
import errno
import os
from collections.abc import Callable
from typing import IO

from .failure import Failure

HIDDEN = ".hilpoven."  # what the names of files and folders begin with that are made, and aren't whole yet
SAFE = os.O_NOFOLLOW | os.O_CLOEXEC | os.O_NONBLOCK  # no link is followed, and no pipe is waited for
READ, NEW = os.O_RDONLY | SAFE, os.O_WRONLY | os.O_CREAT | os.O_EXCL | SAFE
PART = 1 << 20  # bytes that are read or copied at a time


def sync(path: str) -> None:
    """Has a file, or the names in a folder, on the disk. A pipe that somebody put in its place isn't waited for."""
    descriptor = os.open(path, os.O_RDONLY | os.O_CLOEXEC | os.O_NONBLOCK)
    try:
        os.fsync(descriptor)
    except OSError as error:
        raise OSError(error.errno, error.strerror, path) from error
    finally:
        os.close(descriptor)


def hidden_name() -> str:
    """A name that nothing has, of something that is made."""
    return HIDDEN + os.urandom(8).hex()


def rename(source: str, target: str, is_new: bool = False) -> None:
    """Gives a file another name on the same disk, once its bytes are there; the name is there when this returns. A new
    one takes no other's name: this fails with FileExistsError then."""
    sync(source)
    if is_new:
        os.link(source, target)
        os.unlink(source)
    else:
        os.rename(source, target)
    sync(os.path.dirname(target) or ".")


def put_in_place(source: str, target: str) -> None:
    """The same; a fault of the disk is a failure that names the file."""
    try:
        rename(source, target)
    except OSError as error:
        raise Failure(f"{error.filename or target}: {error.strerror}") from error


def replace(
    path: str,
    content: bytes,
    mode: int = 0o600,
    is_new: bool = False,
    is_lasting: bool = True,
    temporary_name: str = "",
    prepare: Callable[[int], None] = lambda descriptor: None,
) -> None:
    """Puts a file of this content in a path's place at one stroke: whoever opens it has the old one or the new one, and
    also a machine that stops has one of them whole. A new one takes no other's name: this fails with FileExistsError.

    A file that needn't last waits for no disk, and after such a stop it may be empty.

    `mode` has the rights of a new file, of which the process's mask takes some; `prepare` gets the open file before it
    has its name, as for rights that no mask takes. `temporary_name` is the name that it has until then, where nobody
    else makes one in its folder, so that what a kill leaves is written over.
    """
    temporary = os.path.join(os.path.dirname(path), temporary_name or hidden_name())
    if temporary_name:
        with contextlib.suppress(FileNotFoundError):
            os.unlink(temporary)
    try:
        with open(os.open(temporary, NEW, mode), "wb") as file:
            file.write(content)
            file.flush()
            prepare(file.fileno())
        if is_lasting:
            rename(temporary, path, is_new)
        else:
            os.rename(temporary, path)
    finally:
        with contextlib.suppress(FileNotFoundError):
            os.unlink(temporary)


def copy(source: str, target: str) -> None:
    """Copies a file's bytes, within the disk where it can: none of them then goes through this process. No link is
    followed, and the copy is for this user alone."""
    with open(os.open(source, os.O_RDONLY | os.O_NOFOLLOW | os.O_CLOEXEC), "rb") as reader:
        try:
            flags = os.O_WRONLY | os.O_CREAT | os.O_TRUNC | os.O_NOFOLLOW | os.O_CLOEXEC
            with open(os.open(target, flags, 0o600), "wb") as writer:
                copy_bytes(reader, writer)
        except OSError as error:
            if error.errno == errno.EIO:
                raise
            raise Failure(f"{target} can't be written: {error.strerror}") from error


def copy_bytes(reader: IO[bytes], writer: IO[bytes]) -> None:
    """Copies all bytes of a file to another, which is empty."""
    left = os.fstat(reader.fileno()).st_size
    with contextlib.suppress(OSError):
        while left and (count := os.copy_file_range(reader.fileno(), writer.fileno(), left)):
            left -= count
    if left:
        import shutil

        reader.seek(0)
        writer.truncate(0)
        writer.seek(0)
        shutil.copyfileobj(reader, writer, PART)


def copy_in_place(source: str, target: str) -> None:
    """Copies a file to a name that the copy has once all of its bytes are on the disk."""
    copied = os.path.join(os.path.dirname(target), hidden_name())
    try:
        copy(source, copied)
        rename(copied, target)
    finally:
        remove(copied)


def hash_of(path: str) -> str:
    """The SHA-256 of a file."""
    import hashlib

    with open(path, "rb") as file:
        return hashlib.file_digest(file, "sha256").hexdigest()


def size_of(path: str) -> int:
    """Bytes of a file; 0 if it isn't there."""
    try:
        return os.stat(path).st_size
    except FileNotFoundError:
        return 0


def remove(path: str, *ends: str) -> None:
    """Removes a file, or those whose names have these ends behind it, as far as they are there."""
    for end in ends or ("",):
        with contextlib.suppress(FileNotFoundError):
            os.unlink(path + end)
