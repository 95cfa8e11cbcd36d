"""A file that is replaced is whole at each moment, on the disk when this is said, and for those alone who may read it."""
import fcntl
import os
import pathlib
import threading
import time
from dataclasses import dataclass

import pytest
from hilpoven.core import files, scratch
from hilpoven.core.typed import typed

OLD = time.time() - 2 * scratch.LEFT_SINCE


@pytest.fixture
def disk(monkeypatch) -> dict[int, object]:
    """What a machine that stops now would have: the bytes of each file and the names of each folder, by its inode, when they were synced last."""
    synced, real = dict[int, object](), os.fsync

    def fsync(descriptor: int) -> None:
        real(descriptor)
        path = f"/proc/self/fd/{descriptor}"
        synced[os.fstat(descriptor).st_ino] = pathlib.Path(path).read_bytes() if os.path.isfile(path) else set(os.listdir(path))

    monkeypatch.setattr(os, "fsync", fsync)
    return synced


def given(path: pathlib.Path, content: bytes) -> None:
    files.replace(str(path), content)


def put(path: pathlib.Path, content: bytes) -> None:
    path.with_name("made").write_bytes(content)
    files.put_in_place(str(path.with_name("made")), str(path))


def copied(path: pathlib.Path, content: bytes) -> None:
    path.with_name("source").write_bytes(content)
    files.copy_in_place(str(path.with_name("source")), str(path))


@pytest.mark.parametrize("way", [given, put, copied])
def test_a_file_and_its_name_are_on_the_disk_when_it_is_replaced(tmp_path, disk, monkeypatch, way):
    path, real = tmp_path / "file", os.rename
    path.write_bytes(b"old")

    def rename(source: str, target: str) -> None:
        assert disk.get(os.stat(source).st_ino) == b"new", "the bytes aren't on the disk before they have the name"
        real(source, target)
        disk.pop(tmp_path.stat().st_ino, None)

    monkeypatch.setattr(os, "rename", rename)
    way(path, b"new")
    assert path.read_bytes() == b"new" and path.name in disk.get(tmp_path.stat().st_ino, set()), "the name isn't on the disk"


@pytest.mark.parametrize("mode, mask, wanted", [(0o600, 0, 0o600), (0o666, 0o022, 0o644), (0o666, 0o077, 0o600)])
def test_a_new_file_has_the_rights_that_are_asked_for(tmp_path, mode, mask, wanted):
    before = os.umask(mask)
    try:
        files.replace(str(tmp_path / "file"), b"", mode)
    finally:
        os.umask(before)
    assert (tmp_path / "file").stat().st_mode & 0o777 == wanted


def test_a_copy_is_for_its_user_alone_and_follows_no_link(tmp_path):
    source, link = tmp_path / "source", tmp_path / "link"
    source.write_bytes(b"x" * 3_000_000)
    source.chmod(0o666)
    link.symlink_to(source)
    before = os.umask(0)
    try:
        files.copy(str(source), str(tmp_path / "copy"))
    finally:
        os.umask(before)
    assert (tmp_path / "copy").stat().st_mode & 0o777 == 0o600 and (tmp_path / "copy").read_bytes() == source.read_bytes()
    with pytest.raises(OSError):
        files.copy(str(link), str(tmp_path / "other"))
    with pytest.raises(files.Failure):
        files.copy(str(source), str(link))


def test_what_has_a_name_is_replaced_by_nothing_new(tmp_path):
    path = tmp_path / "file"
    path.write_bytes(b"another's")
    with pytest.raises(FileExistsError):
        files.replace(str(path), b"new", is_new=True)
    assert path.read_bytes() == b"another's" and os.listdir(tmp_path) == ["file"]


@pytest.mark.parametrize("temporary_name", ["", "file.made"])
def test_a_fault_leaves_the_old_one_and_nothing_beside_it(tmp_path, temporary_name):
    path = tmp_path / "file"
    path.write_bytes(b"old")

    def fail(_: int) -> None:
        raise OSError(28, "No space left on device")

    with pytest.raises(OSError):
        files.replace(str(path), b"new", temporary_name=temporary_name, prepare=fail)
    assert path.read_bytes() == b"old" and os.listdir(tmp_path) == ["file"]


def test_a_link_in_the_place_of_what_is_made_leads_nowhere(tmp_path):
    (tmp_path / "secret").write_bytes(b"secret")
    (tmp_path / "file.made").symlink_to(tmp_path / "secret")
    files.replace(str(tmp_path / "file"), b"new", temporary_name="file.made")
    assert (tmp_path / "secret").read_bytes() == b"secret" and not (tmp_path / "file").is_symlink()


def test_what_a_kill_left_goes_with_the_next_folder(tmp_path):
    file, young = tmp_path / f"{files.HIDDEN}0123", tmp_path / f"{files.HIDDEN}4567"
    file.write_bytes(b"half")
    young.write_bytes(b"half")
    os.utime(file, (OLD, OLD))
    with scratch.folder(str(tmp_path)) as room:
        assert not file.exists() and young.exists() and os.path.isdir(room)
    assert not os.path.exists(room)


def test_a_folder_that_another_holds_is_waited_for_or_told(tmp_path):
    descriptor = os.open(tmp_path, os.O_RDONLY)
    fcntl.flock(descriptor, fcntl.LOCK_EX)
    with pytest.raises(BlockingIOError), scratch.held(str(tmp_path)):
        pass
    timer, begun = threading.Timer(0.3, os.close, (descriptor,)), time.monotonic()
    timer.start()
    with scratch.held(str(tmp_path), None):
        assert time.monotonic() - begun >= 0.3
    timer.join()


@dataclass(frozen=True)
class Inner:
    """A value of two numbers."""

    pair: tuple[int, int]


@dataclass(frozen=True)
class Outer:
    """A value of each type that files have."""

    text: str
    is_set: bool
    inner: Inner | None
    at: float = 0.0
    names: dict[str, str] | None = None


def test_a_value_is_read_in_its_type():
    values = {"text": "a", "is_set": True, "inner": {"pair": [1, 2]}, "at": 3, "names": {"b": "c"}}
    assert typed(Outer, values) == Outer("a", True, Inner((1, 2)), 3.0, {"b": "c"})
    assert typed(Outer, {"text": "", "is_set": False, "inner": None}) == Outer("", False, None)


@pytest.mark.parametrize("change", [
    {"text": 1}, {"text": None}, {"is_set": 1}, {"inner": {"pair": [1]}}, {"inner": {"pair": [1, True]}}, {"inner": {}}, {"inner": [1, 2]}, {"at": "1"}, {"at": True},
    {"names": {"b": 1}}, {"names": []}, {"more": 1}])
def test_a_value_of_another_type_is_refused(change):
    with pytest.raises(TypeError):
        typed(Outer, {"text": "a", "is_set": True, "inner": None, **change})


def test_a_pipe_that_somebody_puts_in_its_place_holds_nothing_up(tmp_path):
    def swap(_: int) -> None:
        (tmp_path / "file.new").unlink()
        os.mkfifo(tmp_path / "file.new")

    with pytest.raises(OSError):
        files.replace(str(tmp_path / "file"), b"new", temporary_name="file.new", prepare=swap)
    assert os.listdir(tmp_path) == []
