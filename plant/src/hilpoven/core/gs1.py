"""Numbers of GS1 for places, goods and pallets, each with its check digit, and codes of units: the form of each."""
import re
from collections.abc import Callable

from .forms import Form, listed

UNIT_LETTERS = re.compile("[A-Z0-9]{2,3}")


def check_digit(digits: str) -> str:
    """The check digit behind these digits: weights 3 and 1 in turn, from the last one on."""
    total = sum(int(digit) * (3, 1)[at % 2] for at, digit in enumerate(reversed(digits)))
    return str(-total % 10)


def number_fault(name: str, *sizes: int) -> Callable[[str], str]:
    """What is wrong with a number that has one of these sizes in digits, of which the last is a check."""

    def fault(word: str) -> str:
        if not (word.isascii() and word.isdecimal() and len(word) in sizes):
            return f"is no {name}, which has {listed(tuple(map(str, sizes)), 'or')} digits"
        right = check_digit(word[:-1])
        return "" if word[-1] == right else f"is no {name}: behind {word[:-1]} its check digit is {right}"

    return fault


def unit_fault(word: str) -> str:
    """What is wrong with a unit code."""
    return "" if UNIT_LETTERS.fullmatch(word) else "is no unit code, which is of 2 or 3 capitals or digits, such as KGM"


GLN = Form("13 digits, the last a check", number_fault("GLN", 13))  # a place or a company
GTIN = Form("8, 12, 13 or 14 digits, the last a check", number_fault("GTIN", 8, 12, 13, 14))  # goods
SSCC = Form("18 digits, the last a check", number_fault("SSCC", 18))  # a pallet or another logistic unit
UNIT_CODE = Form("a code of UN/ECE Recommendation 20, such as KGM", unit_fault)
