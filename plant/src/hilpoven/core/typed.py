"""Values of JSON in their types, as dataclasses declare them."""
import functools
from dataclasses import is_dataclass
from types import UnionType
from typing import Any, get_args, get_origin, get_type_hints

hints_of = functools.cache(get_type_hints)


def typed(kind: Any, value: Any) -> Any:
    """A value in a type: a dataclass of an object that has its fields and no others, a tuple or a list of a list, a
    dictionary of an object, an optional value, a number with a point of any number, and else a value of that very
    type. Fails with TypeError if it is none."""
    if type(value) is kind:
        return value
    origin, of = get_origin(kind), get_args(kind)
    if origin is UnionType:
        return None if value is None else typed(of[0], value)
    if is_dataclass(kind) and isinstance(value, dict):
        return object_of(kind, value)
    if origin is tuple and isinstance(value, list) and len(value) == len(of):
        return tuple(map(typed, of, value))
    if origin is list and isinstance(value, list):
        return [typed(of[0], each) for each in value]
    if origin is dict and isinstance(value, dict):
        return {typed(of[0], name): typed(of[1], each) for name, each in value.items()}
    if kind is float and type(value) is int:
        return float(value)
    raise TypeError(f"{value!r} isn't of the type {getattr(kind, '__name__', kind)}")


def object_of(kind: Any, values: dict[str, Any]) -> Any:
    """A dataclass of the values of its fields; fails with TypeError where one is unknown or missing."""
    hints = hints_of(kind)
    if unknown := values.keys() - hints.keys():
        raise TypeError(f"{kind.__name__} has no {min(unknown)}")
    return kind(**{name: typed(hints[name], value) for name, value in values.items()})
