"""What holds the guessing of passwords up, before anybody is asked whether one is right."""
import hashlib
import ipaddress
import threading
import time
from collections.abc import Mapping
from dataclasses import dataclass, field

FREE = {"login and address": 3, "login": 10, "address": 30}  # wrong passwords without a delay
LONGEST = 300.0  # seconds
FORGOTTEN = 3_600.0  # seconds behind a delay
MOST = 20_000  # kept counts
NETWORK = 64  # bits of an IPv6 address that one client has all of


class Tries:
    """How often a password was wrong for a key, and until when another one isn't looked at."""

    def __init__(self) -> None:
        self.count, self.until = 0, 0.0


@dataclass
class Delays:
    """Wrong passwords by login and address. A login at one address has few that are free, a login from everywhere and
    an address with all its logins have more: many clerks share an address, and nobody is to keep another one out for
    long. A try that comes too early is answered at once, so that no thread sleeps."""

    tries: dict[str, Tries] = field(default_factory=dict)
    lock: threading.Lock = field(default_factory=threading.Lock)

    def begin(self, keys: Mapping[str, int]) -> float:
        """How many seconds these keys have to wait. Where they needn't, a wrong password is counted before anybody is
        asked: otherwise as many guesses as come at once would be free."""
        now = time.monotonic()
        with self.lock:
            if (left := max(self.tries[key].until - now if key in self.tries else 0.0 for key in keys)) > 0:
                return left
            self.forget(now)
            for key, free in keys.items():
                tries = self.tries.setdefault(key, Tries())
                tries.count += 1
                beyond = tries.count - free
                tries.until = now + min(LONGEST, 2.0 ** min(beyond, 20)) if beyond > 0 else now
        return 0.0

    def take_back(self, keys: Mapping[str, int]) -> None:
        """Uncounts a password that was right, and the wrong ones of this login at this address."""
        with self.lock:
            for place, (key, free) in enumerate(keys.items()):
                tries = self.tries.get(key)
                if tries is None:
                    continue
                tries.count = max(0, tries.count - 1) if place else 0
                if tries.count <= free:
                    tries.until = 0.0
                if not tries.count:
                    del self.tries[key]

    def forget(self, now: float) -> None:
        """Forgets what is long over, and the oldest counts where there are too many."""
        if len(self.tries) < MOST:
            return
        self.tries = {key: tries for key, tries in self.tries.items() if tries.until > now - FORGOTTEN}
        for key in sorted(self.tries, key=lambda key: self.tries[key].until)[: len(self.tries) - MOST // 2]:
            del self.tries[key]


def keys_of(login: str, address: str) -> dict[str, int]:
    """The keys of a try, of a fixed size however long its words are, each with how many wrong ones are free."""
    network = network_of(address)
    names = {"login and address": f"{network} {login}", "login": login, "address": network}
    digests = {
        kind: hashlib.sha256(f"{kind} {name}".encode(errors="replace")).hexdigest()[:32] for kind, name in names.items()
    }
    return {digests[kind]: free for kind, free in FREE.items()}


def network_of(address: str) -> str:
    """What counts as one client: an IPv4 address, or the network of an IPv6 address."""
    try:
        known = ipaddress.ip_address(address)
    except ValueError:
        return address
    if isinstance(known, ipaddress.IPv6Address):
        return str(known.ipv4_mapped or ipaddress.ip_network((known, NETWORK), strict=False))
    return str(known)
