"""What ends a command of the plant, told in a line and an exit status."""
import re

REFUSED, WRONG_USE, FAULT = 1, 2, 3  # the statuses have the meanings that `toll` gives them
# Letters of Unicode's property Default_Ignorable_Code_Point that Python counts as printable, and the empty Braille
# pattern: nobody sees them.
INVISIBLE = re.compile(
    "[\u034f\u115f\u1160\u17b4\u17b5\u180b-\u180d\u180f\u2800\u3164\ufe00-\ufe0f\uffa0\U000e0100-\U000e01ef]"
)


def is_visible(text: str) -> bool:
    """Whether each letter of a text is seen as it stands: none is a control character, a byte that is no UTF-8, or a
    character that nobody sees or that changes the order of others."""
    return text.isprintable() and not INVISIBLE.search(text)


def printable(text: str) -> str:
    """A text in one line, whose letters that aren't visible are escaped, as Python writes them."""
    return text if is_visible(text) else "".join(letter if is_visible(letter) else escaped(letter) for letter in text)


def escaped(character: str) -> str:
    """A character as Python writes it; of a byte that was no UTF-8, that byte."""
    number = ord(character)
    return f"\\x{number - 0xDC00:02x}" if 0xDC80 <= number <= 0xDCFF else character.encode("unicode_escape").decode()


class Failure(Exception):
    """Why a command can't be done, what to do about it, the exit status, and the user whose rights it needs, if rights
    are what it lacks."""

    def __init__(self, why: str, status: int = FAULT, advice: str = "", needs: str = "") -> None:
        super().__init__(why)
        self.message, self.exit_code, self.advice, self.needs = why, status, advice, needs
