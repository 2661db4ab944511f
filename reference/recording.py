"""What the recorders share: a generator of numbers, and the look at stored files.

Nothing here depends on the day, the machine or the version of Python.
"""

from __future__ import annotations

from typing import TypeVar

T = TypeVar("T")


class Dice:
    """A small generator of numbers, so that each recording is the same."""

    def __init__(self, start: int) -> None:
        self.state = start

    def below(self, bound: int) -> int:
        self.state = (self.state * 6364136223846793005 + 1442695040888963407) % 2**64
        return (self.state >> 33) % bound

    def pick(self, things: list[T]) -> T:
        return things[self.below(len(things))]

    def weigh(self, things: dict[T, int]) -> T:
        """Pick a thing as often as its weight says."""
        left = self.below(sum(things.values()))
        for thing, weight in things.items():
            if left < weight:
                return thing
            left -= weight
        raise AssertionError("the weights end before their sum")

    def mix(self, things: list[T]) -> list[T]:
        """The same things in another order."""
        left, mixed = list(things), []
        while left:
            mixed.append(left.pop(self.below(len(left))))
        return mixed

    def text(self, length: int) -> bytes:
        return bytes(self.below(256) for _ in range(length))


def check_files(recorded: dict[str, str]) -> int:
    """Say of each file whether it holds what was recorded; 1 if one does not."""
    status = 0
    for name, expected in recorded.items():
        try:
            with open(name, "rb") as file:
                same = file.read() == expected.encode("ascii")
        except FileNotFoundError:
            same = False
        print(f"{name}: {'as recorded' if same else 'differs from what the model records'}")
        status = status if same else 1
    return status
