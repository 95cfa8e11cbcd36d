"""Mail to owners' people, by msmtp in sendmail's place and a real SMTP server of this machine: each its own owner's, in its
language, none twice, also where the command is killed."""
import email
import email.policy
import os
import pathlib
import re
import shutil
import signal
import subprocess
import sys
from collections.abc import Iterator
from email.message import EmailMessage
from typing import Any

import pytest
from conftest import HILPOVEN, OWNERS, PATIENCE, TOLL, Told, hilpoven
from hilpoven_persons import mailing, people
from hilpoven_persons.people import Often
from try_page.site import Office, eventually, free_port

controllers = pytest.importorskip("aiosmtpd.controller")
if not shutil.which("msmtp"):
    pytest.skip("msmtp is needed", allow_module_level=True)

REFUSED = "gone@carl.example"
LINES = """owner-add {0} {0}KEY1
material-add {0} SALT-OF-{0} kg
test-add {0} SALT-OF-{0} PH-OF-{0} 5 9
test-add {0} SALT-OF-{0} QA 1 1
receive {0} K1 SALT-OF-{0} GOOD-OF-{0} BAY 500 261101
receive {0} K2 SALT-OF-{0} BAD-OF-{0} BAY 500 261101
receive {0} K3 SALT-OF-{0} NEW-OF-{0} BAY 500 261101
result {0} GOOD-OF-{0} PH-OF-{0} 7 261101
result {0} GOOD-OF-{0} QA 1 261101
result {0} BAD-OF-{0} PH-OF-{0} 4 261101"""


class Letters:
    """What the SMTP server took: to whom, and the message."""

    def __init__(self) -> None:
        self.taken: list[tuple[str, EmailMessage]] = []

    async def handle_RCPT(self, _server: Any, _session: Any, envelope: Any, address: str, _options: list[str]) -> str:
        if address == REFUSED:
            return "550 no such person"
        envelope.rcpt_tos.append(address)
        return "250 OK"

    async def handle_DATA(self, _server: Any, _session: Any, envelope: Any) -> str:
        message = email.message_from_bytes(envelope.content, policy=email.policy.default)
        assert isinstance(message, EmailMessage)
        self.taken.append((envelope.rcpt_tos[0], message))
        return "250 OK"


class Post:
    """An office whose people get mail, with a real SMTP server."""

    def __init__(self, folder: pathlib.Path) -> None:
        os.umask(0o077)
        self.folder, self.letters = folder, Letters()
        self.office = Office(TOLL, folder, free_port())
        for owner in OWNERS:
            self.office.do(LINES.format(owner))
        self.smtp = controllers.Controller(self.letters, hostname="127.0.0.1", port=free_port())
        self.smtp.start()
        (folder / "msmtprc").write_text(f"account default\nhost 127.0.0.1\nport {self.smtp.port}\ntls off\n")
        self.sendmail = folder / "sendmail"
        self.sendmail.write_text(f'#!/bin/sh\nexec msmtp -C {folder}/msmtprc "$@"\n')
        self.sendmail.chmod(0o700)
        self.settings = folder / "hilpoven.toml"
        self.settle()

    def settle(self, sender: str = "office@plant.example", **others: str) -> None:
        """Writes the settings."""
        lines = {"sender": sender, "page": "https://toll.example.com/owner/", "sendmail": str(self.sendmail), **others}
        text = "\n".join(f'{name} = "{value}"' for name, value in lines.items())
        plant = '[plant]\nname = "Hilltop Süd"\ncontact = "+49 40 1"\n[quality]\ntest = "QA"\n'
        self.settings.write_text(f'toll = "{TOLL}"\ntime_zone = "UTC"\n{plant}[mail]\n{text}\n')

    def add(self, owner: str, name: str, *words: str) -> None:
        """Adds a person that gets mail."""
        done = hilpoven(self.office.db, "person", "add", owner, name, "--role", "reads", "--random", "--mail", f"{name}@{owner.lower()}.example", *words)
        assert done.status == 0, done

    def notify(self, hour: int = 12, day: str = "2026-11-28") -> Told:
        """What the command tells at an hour of a day."""
        begin = (
            f"import sys, datetime; sys.path[:0] = {[str(HILPOVEN.parent.parent / 'src'), str(pathlib.Path(mailing.__file__).parent.parent)]!r};"
            "from hilpoven.core import days;"
            f"days.now = lambda zone: datetime.datetime.fromisoformat('{day}T{hour:02}:00:00');"
            "days.today = lambda zone: days.now(zone).date();"
            "from hilpoven.core import context; context.today = days.today;"
            "from hilpoven.cli import main; main()"
        )
        words = [sys.executable, "-IBc", begin, "--db", self.office.db, "notify"]
        done = subprocess.run(words, capture_output=True, text=True, timeout=PATIENCE, env={**os.environ, "HILPOVEN_SETTINGS": str(self.settings)})
        return Told(done.returncode, done.stdout, done.stderr)

    def taken(self) -> dict[str, EmailMessage]:
        """What came since the last look, by its address; each got one at most."""
        taken, self.letters.taken = self.letters.taken, []
        assert len(dict(taken)) == len(taken), [address for address, _ in taken]
        return dict(taken)


@pytest.fixture
def post(tmp_path: pathlib.Path) -> Iterator[Post]:
    """An office with a post."""
    new = Post(tmp_path)
    try:
        yield new
    finally:
        new.smtp.stop()


def text_of(message: EmailMessage) -> str:
    """The text of a mail."""
    return str(message.get_content()).replace("\r\n", "\n")


def test_each_gets_what_waits_for_its_own_owner_in_its_language_once_a_day(post: Post) -> None:
    post.add("ACME", "anna")
    post.add("BOLT", "bernd", "--language", "de")
    post.add("CARL", "gone")
    post.add("CARL", "carl", "--often", "at-once")
    hold = hilpoven(post.office.db, "hold", "BOLT", "GOOD-OF-BOLT", "--reason", "Sack gerissen", HILPOVEN_SETTINGS=str(post.settings))
    assert hold.status == 0, hold
    early = post.notify(hour=5)  # too early for the day's mail
    assert early.out == "1 mail sent\n" and list(post.taken()) == ["carl@carl.example"]
    done = post.notify()
    assert done.status == 3 and "mail to gone isn't sent" in done.err and done.out == "2 mails sent\n"
    taken = post.taken()
    assert set(taken) == {"anna@acme.example", "bernd@bolt.example"}  # a bounce stops nobody
    anna, bernd = taken["anna@acme.example"], taken["bernd@bolt.example"]
    assert anna["subject"] == "ACME: 2 lots wait for you" and anna["auto-submitted"] == "auto-generated"
    assert re.search(r"To release:\n  GOOD-OF-ACME, SALT-OF-ACME\n", text_of(anna))
    assert "A test failed:\n  BAD-OF-ACME, SALT-OF-ACME: PH-OF-ACME is below its limit\n" in text_of(anna)
    assert "NEW-OF-ACME" not in text_of(anna) and "https://toll.example.com/owner/" in text_of(anna)
    assert "Hilltop Süd" in str(anna["from"]) and "<office@plant.example>" in str(anna["from"])
    assert bernd["subject"] == "BOLT: 2 Chargen warten auf Sie" and bernd["content-language"] == "de"
    assert "PH-OF-BOLT liegt unter der Grenze" in text_of(bernd) and "Hilltop Süd, +49 40 1" in text_of(bernd)
    assert re.search(r"Vom Werk gesperrt:\n  GOOD-OF-BOLT, SALT-OF-BOLT, seit \d\d\.\d\d\.20\d\d: Sack gerissen\n", text_of(bernd))
    for owner, mail in (("ACME", anna), ("BOLT", bernd)):
        assert not [other for other in OWNERS if other != owner and other in mail.as_string()]
        assert "KEY1" not in mail.as_string()
    assert post.notify(hour=18).status == 3 and not post.taken()  # nothing comes twice
    post.settle()
    assert post.notify(day="2026-11-29").status == 3 and set(post.taken()) == set(taken)  # each day, as long as it waits


def test_at_once_comes_what_is_new_and_never_again(post: Post) -> None:
    post.add("ACME", "anna", "--often", "at-once")
    assert post.notify(3).status == 0 and set(post.taken()) == {"anna@acme.example"}
    assert post.notify(4).out == "0 mails sent\n" and not post.taken()
    post.office.do("result ACME NEW-OF-ACME PH-OF-ACME 8 261102\nresult ACME NEW-OF-ACME QA 1 261102")
    post.notify(5)
    (mail,) = post.taken().values()
    assert mail["subject"] == "ACME: 1 lot waits for you" and "NEW-OF-ACME" in text_of(mail) and "GOOD-OF" not in text_of(mail)
    post.office.do("scrap ACME K9 NEW-OF-ACME BAY 500 261103")
    assert post.notify(6).out == "0 mails sent\n"
    assert hilpoven(post.office.db, "person", "remove", "anna").status == 0
    post.office.do("receive ACME K10 SALT-OF-ACME LATE BAY 5 261103\nresult ACME LATE PH-OF-ACME 8 261103\nresult ACME LATE QA 1 261103")
    assert post.notify(7).out == "0 mails sent\n" and not post.taken()


def test_a_kill_at_any_moment_sends_nothing_twice(post: Post) -> None:
    """The program in sendmail's place kills the command before, or after, it has sent the mail."""
    for name in ("anna", "arno", "asta"):
        post.add("ACME", name)
    script = post.sendmail.read_text()
    kill = "kill -9 $PPID; exit 1"
    for number, text in enumerate((script.replace("exec ", f"[ -e {post.folder}/killed ] || {{ touch {post.folder}/killed; {kill}; }}\nexec "),
                                   script.replace("exec ", "").rstrip() + f"\n[ -e {post.folder}/late ] || {{ touch {post.folder}/late; {kill}; }}\n")):
        day = f"2026-12-0{number + 1}"
        post.sendmail.write_text(text)
        assert post.notify(day=day).status == -signal.SIGKILL
        assert post.notify(day=day).status == 0 and post.notify(day=day).out == "0 mails sent\n"
        eventually(lambda: len(post.letters.taken) >= 2, 30)
        taken = post.taken()  # which fails where one came twice
        assert len(taken) == (2 if number == 0 else 3)


def test_a_sendmail_that_fails_is_asked_again(post: Post) -> None:
    post.add("ACME", "anna")
    post.settle(sendmail="/nowhere/sendmail")
    done = post.notify()
    assert done.status == 3 and "/nowhere/sendmail can't be run" in done.err
    post.settle()
    assert post.notify().out == "1 mail sent\n" and len(post.taken()) == 1


@pytest.mark.parametrize("sender", ["", "x", "-oX@y", "a@b c"])
def test_a_sender_is_an_address(post: Post, sender: str) -> None:
    post.settle(sender=sender)
    assert post.notify().status == 2 and not post.taken()


def test_what_was_mailed_is_the_office_s_user_s_alone_and_a_wrong_file_sends_nothing(post: Post) -> None:
    post.add("ACME", "anna")
    assert post.notify().status == 0 and len(post.taken()) == 1
    path = pathlib.Path(f"{post.office.db}.notified")
    assert path.stat().st_mode & 0o777 == 0o600
    for text in ("", "{", '{"form": 2, "told": {}}', '{"form": 1, "told": {"anna": 7}}'):
        path.write_text(text)
        assert post.notify(day="2026-12-05").status == 3 and not post.taken()


def test_where_mail_goes_is_changed_by_a_command(post: Post) -> None:
    post.add("ACME", "anna")

    def mail(*words: str) -> str:
        return hilpoven(post.office.db, "person", "mail", "anna", *words).out

    assert mail("a@acme.example", "--often", "at-once") == "anna gets mail at a@acme.example, at-once\n"
    assert mail("--often", "daily") == "anna gets mail at a@acme.example, daily\n"
    assert mail() == "anna gets no mail\n"
    person = people.read(f"{post.office.db}.persons")["anna"]
    assert (person.mail, person.often) == ("", Often.DAILY)
    assert hilpoven(post.office.db, "person", "mail", "anna", "a@b\nBcc: c@d").status == 2
