"""Results as JSON holds them."""

from dataclasses import fields, is_dataclass
from enum import Enum
from typing import Mapping, Sequence, Union

Json = Union[None, bool, int, float, str, Sequence["Json"], Mapping[str, "Json"]]


def json_fields(held: object) -> Mapping[str, Json]:
    """A dataclass by the names of its fields."""
    if not is_dataclass(held):
        raise TypeError(f"{type(held).__name__} has no fields")
    return {field.name: as_json(getattr(held, field.name)) for field in fields(held)}


def as_json(held: object) -> Json:
    """A dataclass by the names of its fields, an enum by its value, a tuple as a list."""
    if is_dataclass(held):
        return json_fields(held)
    if isinstance(held, Enum):
        return as_json(held.value)
    if isinstance(held, (list, tuple)):
        return [as_json(each) for each in held]
    if held is None or isinstance(held, (bool, int, float, str)):
        return held
    raise TypeError(f"{type(held).__name__} has no form in JSON")
