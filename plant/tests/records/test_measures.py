"""Values of tests as they are measured, and as `toll` has them."""
from decimal import Decimal

import pytest
from hilpoven.core.failure import Failure
from hilpoven.model import measures
from hypothesis import given, settings
from hypothesis import strategies as any_of

VALUES = any_of.integers(-1_000_000_000, 1_000_000_000)
DECIMALS = any_of.integers(0, 9)


@pytest.mark.parametrize("value, decimals, text", [
    (702, 2, "7.02"), (700, 2, "7.00"), (5, 2, "0.05"), (-5, 2, "-0.05"), (-702, 2, "-7.02"), (0, 2, "0.00"), (0, 0, "0"), (1180, 0, "1180"), (-5, 0, "-5"),
    (1_000_000_000, 9, "1.000000000"), (-1_000_000_000, 0, "-1000000000"), (1, 9, "0.000000001")])
def test_a_value_and_its_text(value, decimals, text):
    assert measures.as_measured(value, decimals) == text and measures.whole_of(text, decimals) == value


@settings(max_examples=300)
@given(VALUES, DECIMALS)
def test_every_value_comes_back_and_is_the_number_that_it_says(value, decimals):
    text = measures.as_measured(value, decimals)
    assert measures.whole_of(text, decimals) == value and Decimal(text).scaleb(decimals) == value
    assert measures.as_measured(value, decimals, ",").replace(",", "") == text and measures.value_of(measures.value_word(value)) == value


@pytest.mark.parametrize("text, decimals, value", [("7", 2, 700), ("7.0", 2, 700), ("M7.02", 2, -702), ("-0.00", 2, 0), ("007.02", 2, 702), ("M5", 0, -5), ("10000000", 2, 1_000_000_000)])
def test_other_ways_to_write_a_value(text, decimals, value):
    assert measures.whole_of(text, decimals) == value


@pytest.mark.parametrize("text, decimals, why", [
    ("7.021", 2, "`7.021` has 3 decimals, and the test has 2"), ("7.0", 0, "`7.0` has 1 decimal, and the test has none"), ("7,02", 2, "a comma; decimals stand behind a point"),
    ("10000000.01", 2, "out of what toll takes: -10,000,000.00 to 10,000,000.00"), ("-1000000001", 0, "out of what toll takes"), ("9" * 4000, 2, "out of what toll takes"),
    *((text, 2, "is no number, such as 7.02") for text in ["", " ", "7.", ".5", "+7", "--7", "M-7", "1e3", "7 ", "nan", "1,234.5", "7.02.1", "0x7", "٧.٠٢", "²", "7\n", "\x1b[2J", "\udcff", "<7", "7_0"])])
def test_what_is_no_value_is_told(text, decimals, why):
    with pytest.raises(Failure) as failure:
        measures.whole_of(text, decimals)
    assert failure.value.exit_code == 2 and (why in failure.value.message or text == "7.02.1" and "is no number" in failure.value.message)
    assert failure.value.message.isprintable() and len(failure.value.message) < 200
