"""The images of a run's places. The run is gone over in parts, side by side: each has a chain of its own from place to place, and each but the first
goes at once to the last place before it. There the chain of the part before has to stand as it does, and that of the last has to end as the run."""
import os
import selectors
import tempfile
from typing import Iterator, NamedTuple, Optional, Sequence

from wadrelwy.sweep.kept import copied

from .chain import Chain

# all that is before a part is gone over once more for it, so more of them cost more of the processors, and save less
MOST, FEWEST_PLACES = 2, 2
# so many steps take about as long as an image: of places that are farther from each other, in the mean, parts cost more than they save
FAR = 2000000


class Begin(NamedTuple):
    """What begins at a place of a run: an image of the folder, how many steps it takes before it goes on there, and how many lines it touches."""
    place: int
    image: str
    extra: int
    lines: int


class Part:
    """Places of a run, one behind the other, and the chain that goes to them. `left` are those that have no image yet; the first may be the place
    `before` them, of which no image is kept: then `begun` is how the chain stood there."""

    def __init__(self, going: Chain, before: Optional[int], places: Sequence[int]) -> None:
        self.going, self.before, self.left = going, before, [*([] if before is None else [before]), *places]
        self.begun = going.stands

    def go(self) -> None:
        """Sets off for the next place."""
        self.going.begin(self.left[0])

    def come(self, folder: str, name: str) -> Optional[Begin]:
        """What begins at the next place, once the run to it is over; nothing at the place before them."""
        place, data = self.left.pop(0), self.going.image_there()
        if place == self.before:
            self.begun, self.first = self.going.stands, tempfile.NamedTemporaryFile(suffix=".elf")
            self.first.write(data)
            self.first.flush()
            self.going.path = self.first.name
            return None
        image = copied(folder, "images", f"{name}-{place}", ".elf", data)
        self.going.path = os.path.join(folder, image)
        return Begin(place, image, self.going.extra, self.going.lines)


def cut(going: Chain, places: Sequence[int], most: int) -> list[Part]:
    """The places in parts of one size, at most so many. `going` hasn't gone to any yet, nor have the chains of the other parts."""
    are_near = bool(places) and places[-1] <= FAR * len(places)
    count = max(1, min(most, MOST, len(places) // FEWEST_PLACES)) if are_near else 1
    bounds = [at * len(places) // count for at in range(count + 1)]
    return [Part(going.from_the_start() if low else going, places[low - 1] if low else None, places[low:high]) for low, high in zip(bounds, bounds[1:])]


def first_over(parts: Sequence[Part]) -> Part:
    """The first part whose run to its next place is over. One that notes something, as a program without proofs does at once, is waited for."""
    with selectors.DefaultSelector() as selector:
        for part in parts:
            selector.register(part.going.note, selectors.EVENT_READ, part)
        return selector.select()[0][0].data


def begins(parts: Sequence[Part], folder: str, name: str) -> Iterator[Begin]:
    """What begins at each place, as soon as its image is in the folder; by then the run to the next one is under way."""
    under_way = [part for part in parts if part.left]
    try:
        for part in under_way:
            part.go()
        while under_way:
            part = first_over(under_way)
            found = part.come(folder, name)
            if part.left:
                part.go()
            else:
                under_way.remove(part)
            if found:
                yield found
    finally:
        for part in parts:
            part.going.stop()
    check(parts)


def check(parts: Sequence[Part]) -> None:
    """Refuses a run that doesn't come from each place to the next as the whole one does."""
    for before, behind in zip(parts, parts[1:]):
        if before.going.stands != behind.begun:
            raise before.going.other_run()
    parts[-1].going.check_end()
