"""Passwords of persons: how they are made, what they have to be, and how one is checked. None is kept."""
import base64
import hashlib
import hmac
import secrets

LETTERS = "abcdefghijkmnopqrstuvwxyzABCDEFGHJKLMNPQRSTUVWXYZ23456789"  # without those that look like another
MADE = 20  # letters of a password that is made
LEAST, MOST = 10, 128  # letters of one that a person chose
COST, BLOCK, LANES = 1 << 15, 8, 1  # of scrypt: 32 MB and some 0.1 seconds
MEMORY = 64 << 20  # bytes that scrypt may take
SALT, SIZE = 16, 32  # bytes
FORM = "scrypt"


def new_password() -> str:
    """A password that nobody guesses."""
    return "".join(secrets.choice(LETTERS) for _ in range(MADE))


def fault(password: str) -> str:
    """What is wrong with a password, which is never told itself; empty if nothing is."""
    if not password.isprintable():
        return "has something that can't be printed"
    if not LEAST <= len(password) <= MOST:
        return f"has {len(password)} letters; a person's has {LEAST} to {MOST}"
    return ""


def secret_of(password: str) -> str:
    """What a password is checked by."""
    salt = secrets.token_bytes(SALT)
    return "$".join([FORM, str(COST), str(BLOCK), str(LANES), as_text(salt), as_text(derived(password, salt))])


def is_right(password: str, secret: str) -> bool:
    """Whether a password is that of a secret; of one that is none, too, it takes as long to say no."""
    try:
        form, cost, block, lanes, salt, wanted = secret.split("$")
        numbers, known = (int(cost), int(block), int(lanes)), base64.b64decode(wanted, validate=True)
        if form != FORM or len(known) != SIZE:
            raise ValueError("another form")
        return hmac.compare_digest(derived(password, base64.b64decode(salt, validate=True), *numbers), known)
    except ValueError:
        derived(password, bytes(SALT))
        return False


def derived(password: str, salt: bytes, cost: int = COST, block: int = BLOCK, lanes: int = LANES) -> bytes:
    """What scrypt makes of a password."""
    words = password.encode(errors="replace")
    return hashlib.scrypt(words, salt=salt, n=cost, r=block, p=lanes, maxmem=MEMORY, dklen=SIZE)


def as_text(content: bytes) -> str:
    """Bytes as the file has them."""
    return base64.b64encode(content).decode()
