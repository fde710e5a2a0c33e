"""The facts as text of a page: JSON that cannot be read as markup."""
import json
from collections.abc import Sequence
from typing import Any

try:
    from orjson import dumps  # type: ignore[import]
except ImportError:
    dumps = None

ESCAPES = (("<", "\\u003c"), (">", "\\u003e"), ("&", "\\u0026"))
WRITER = json.JSONEncoder(separators=(",", ":"), ensure_ascii=True)


def encoded(value: Any) -> str:
    """JSON in ASCII without a character that has a meaning in HTML."""
    text = written(value)
    for letter, escape in ESCAPES:
        if letter in text:
            text = text.replace(letter, escape)
    return text


def plain(value: Any) -> str:
    """JSON of a value whose texts have only letters and digits."""
    if dumps:
        text: str = dumps(value).decode()
        return text
    return WRITER.encode(value)


def plain_texts(arrays: Sequence[Any]) -> list[str]:
    """JSON of flat arrays whose texts have only letters and digits."""
    return [f"[{text}]" for text in plain(arrays)[2:-2].split("],[")]


def written(value: Any) -> str:
    """JSON in ASCII; by orjson, which is faster, where it is installed and takes the value."""
    if dumps:
        try:
            text: str = dumps(value).decode()
        except TypeError:
            return WRITER.encode(value)
        if text.isascii():
            return text
    return WRITER.encode(value)
