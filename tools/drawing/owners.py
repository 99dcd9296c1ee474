"""Whose each image of a swapchain is along a run. A report tells none of this: the machine makes its calls with the scenario's arguments."""
from __future__ import annotations

from dataclasses import dataclass, field
from typing import NamedTuple

from judging.replay import Replay
from machine.frames import IMAGES_OF_A_CHAIN, Chain
from reports.reading import Report
from scenarios.devices import DeviceText
from scenarios.reading import Scripts

OWNERS = {
    "acquired": "is acquired, and nobody's",
    "application": "is the application's, which waited for it",
    "compositor": "is the compositor's, until it is given back at the latest",
}


class Owned(NamedTuple):
    """An image is of an owner from a place on, or nobody's where that is empty."""

    place: int
    owner: str


@dataclass
class Owners:
    """A swapchain with the changes of owners of each of its images, and the places from which and to which it is live."""

    name: str
    start: int
    images: list[list[Owned]] = field(default_factory=list)
    end: int | None = None


class OwnersReplay(Replay):
    """A report on its way through the machine, and who owns the images behind each of its calls."""

    def __init__(self, scripts: Scripts, device: DeviceText, report: Report) -> None:
        self.chains: dict[int, Owners] = {}
        super().__init__(scripts, device, report)

    def make_getters(self) -> None:
        super().make_getters()
        place = self.machine.locked
        for handle, chain in self.machine.chains.items():
            if handle not in self.chains:
                images = 1 if chain.is_static else IMAGES_OF_A_CHAIN
                self.chains[handle] = Owners(self.name_of(handle), place, [[Owned(place, "")] for _ in range(images)])
            for image, owned in enumerate(self.chains[handle].images):
                owner = self.owner_of(chain, image)
                if owner != owned[-1].owner:
                    owned.append(Owned(place, owner))
        for handle, it in self.chains.items():
            if it.end is None and handle not in self.machine.chains:
                it.end = place

    def name_of(self, handle: int) -> str:
        """The name that a new swapchain was given, or its number."""
        made = (it.ops[it.made - 1] for it in self.scripts if it.made and it.answer.given == handle)
        return next((op.fields["as"] for op in made if op.name == "create_swapchain" and "as" in op.fields), str(len(self.chains) + 1))

    def owner_of(self, chain: Chain, image: int) -> str:
        if chain.has_waited and chain.acquired[0] == image:
            return "application"
        if self.machine.frames.is_used((chain.handle, image)):
            return "compositor"
        return "acquired" if image in chain.acquired else ""
