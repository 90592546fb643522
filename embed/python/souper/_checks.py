"""Checks of arguments, and docs of fields."""

from __future__ import annotations

from collections.abc import Callable
from typing import TypeVar

_T = TypeVar("_T")


def check_type(what: str, value: object, name: str, *types: type) -> None:
    if not isinstance(value, types):
        raise TypeError(f"{what} is {name}, not {type(value).__name__}")


def check_int(what: str, value: object) -> None:
    check_type(what, value, "an int", int)


def check_range(what: str, number: int, low: int, high: int) -> None:
    if not low <= number <= high:
        raise ValueError(f"{what} {number} is not in {low} to {high}")


def documented(**fields: str) -> Callable[[type[_T]], type[_T]]:
    """What `help` shows of the fields of a class with slots, or of a named tuple."""

    def give(cls: type[_T]) -> type[_T]:
        if issubclass(cls, tuple):
            for name, text in fields.items():
                getattr(cls, name).__doc__ = text
        else:
            setattr(cls, "__slots__", fields)
        return cls

    return give
