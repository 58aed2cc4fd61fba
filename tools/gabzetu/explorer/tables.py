"""Tables of things that come often, so that a page keeps each of them once."""
from typing import Any, List, Union

from ..formats import anatomy


class Table:
    """Things by their places: each has one place, from 0."""

    def __init__(self) -> None:
        self.places = {}

    def place(self, thing: Union[str, tuple]) -> int:
        """Returns the place of a thing, which is added where it is new."""
        return self.places.setdefault(thing, len(self.places))

    def things(self) -> list:
        """Returns the things in the order of their places."""
        return list(self.places)


class Anatomies:
    """The sections of frames, with the texts and the layouts of fields that many of them share."""

    def __init__(self, texts: Table) -> None:
        self.texts, self.layouts = texts, Table()

    def place_all(self, sections: List[anatomy.Section]) -> List[list]:
        """Returns sections as the page gets them: kind, the place of the title, data in digits, the place of the
        layout."""
        return [
            [it.kind, self.texts.place(it.title), it.data.hex().upper(), self.layouts.place(it.fields)]
            for it in sections
        ]

    def sections(self, reader: Any, event: int, data: bytes) -> List[list]:
        """Returns the sections of a frame as the page gets them."""
        return self.place_all(anatomy.take_apart(reader, event, data))
