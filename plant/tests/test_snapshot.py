"""A copy of an office's file and its log, while others write them."""
import os
import pathlib
import time

import pytest
from hilpoven.core import snapshot
from hilpoven.core.office import Office

HOUR = 3_600 * 10**9  # nanoseconds


@pytest.mark.parametrize("since, is_anew", ((HOUR, False), (-HOUR, True)))
def test_a_log_whose_time_may_hide_a_change_is_copied_again(tmp_path, monkeypatch, since, is_anew):
    """A log that was written just before the look has the same time when it is written again at once."""
    file, target = tmp_path / "office.db", tmp_path / "copy.db"
    log, then, moment = pathlib.Path(f"{file}-wal"), time.time_ns() - HOUR, time.time_ns() - since
    file.write_bytes(b"file")
    os.utime(file, ns=(then, then))
    log.write_bytes(b"before")
    os.utime(log, ns=(moment, moment))
    real = snapshot.copy_both

    def copy_both(source: str, copy: str) -> None:
        real(source, copy)
        log.write_bytes(b"behind")
        os.utime(log, ns=(moment, moment))

    monkeypatch.setattr(snapshot, "copy_both", copy_both)
    snapshot.copy(Office(str(file), "toll", 1.0), str(target))
    assert pathlib.Path(f"{target}-wal").read_bytes() == (b"behind" if is_anew else b"before")
