"""Swapchains with their images, and frames with their layers (OpenXR 1.0 chapter 10).

An image is named by the handle of its swapchain and its index there: no handle is given twice, so this tells apart what the
machine's places tell apart.
"""
from __future__ import annotations

from collections import deque
from collections.abc import Container
from dataclasses import dataclass, field
from typing import NamedTuple

from machine.answers import NO_HANDLE, Fields, due, each, live, refuse

MOST_CHAINS = 16
MOST_SIDE = 8192
MOST_LAYERS = 16
IMAGES_OF_A_CHAIN = 3
FORMATS = (1, 2, 3)
VIEWS = 2

# a wait for a frame is held back while more than these are pending, of all sessions, or begun by its own
MOST_FRAMES = 2

# the latest time that there is
MOST_TIME = 2**63 - 1

Image = tuple[int, int]


@dataclass
class Chain:
    """A live swapchain: the session that it is of, its images that are acquired, whether the first of them is waited for, the one released
    last, and the next."""

    session: int
    handle: int
    width: int
    height: int
    is_static: bool
    acquired: list[int] = field(default_factory=list)
    has_waited: bool = False
    last: int | None = None
    next: int = 0

    @property
    def may_acquire(self) -> bool:
        return self.next == 0 if self.is_static else len(self.acquired) < IMAGES_OF_A_CHAIN

    @property
    def may_wait(self) -> bool:
        return bool(self.acquired) and not self.has_waited

    @property
    def oldest(self) -> Image:
        """The image that was acquired first, where one is."""
        return self.handle, self.acquired[0]


class Layer(NamedTuple):
    """A projection with the images of its two views, or a quad with its one."""

    kind: str
    images: list[Image]


class Frame(NamedTuple):
    """A frame that was ended, counted from 1, and its images, each once."""

    number: int
    time: int
    layers: list[Layer]

    @property
    def images(self) -> list[Image]:
        return list(dict.fromkeys(image for layer in self.layers for image in layer.images))


@dataclass
class Frames:
    """The frames that are pending, the oldest first; the images of the frame that was taken last, and those of them that the
    compositor holds; how many frames were ended in the run; and the stamps of all images, which are 0 at first."""

    pending: deque[Frame] = field(default_factory=deque)
    taken: list[Image] = field(default_factory=list)
    held: deque[Image] = field(default_factory=deque)
    ended: int = 0
    stamps: dict[Image, int] = field(default_factory=dict)

    def is_used(self, image: Image) -> bool:
        """Whether the compositor holds an image, or a pending frame uses it."""
        return image in self.held or any(image in it.images for it in self.pending)

    @property
    def are_done(self) -> bool:
        """Whether the compositor has nothing to do."""
        return not self.pending and not self.held

    def has_place(self, live: dict[int, Chain]) -> bool:
        """Whether one more swapchain has a place, beside the live ones and those whose images are pending or taken last."""
        used = [*self.taken, *(image for it in self.pending for image in it.images)]
        return len({chain for chain, _ in used}.union(live)) < MOST_CHAINS

    def end(self, time: int, layers: list[Layer]) -> None:
        """A frame is pending from now on."""
        self.ended += 1
        self.pending.append(Frame(self.ended, time, layers))

    def take(self) -> str:
        """The compositor takes the frame that is pending longest, which is what a report prints."""
        frame = self.pending.popleft()
        self.taken = frame.images
        self.held.extend(self.taken)
        layers = [f" {it.kind}:{','.join(str(self.stamps.get(image, 0)) for image in it.images)}" for it in frame.layers]
        return f"frame {frame.number} time {frame.time} layers {len(layers)}{''.join(layers)}"


def is_within(part: list[int], most_x: int, most_y: int) -> bool:
    """Whether a sub-image has a pixel, and all of them are of an image of this size."""
    _, x, y, width, height = part
    return 0 <= x < x + width <= most_x and 0 <= y < y + height <= most_y


def image_shown(part: list[int], chains: dict[int, Chain]) -> Image:
    """The image that a sub-image is a part of, with at least a pixel: the one that its swapchain released last."""
    chain = live(chains, part[0])
    refuse(not is_within(part, chain.width, chain.height), "XR_ERROR_SWAPCHAIN_RECT_INVALID")
    return part[0], due(chain.last, "XR_ERROR_LAYER_INVALID")


def layers_of(time: int, blend: str, layers: list[Fields], spaces: Container[int], chains: dict[int, Chain]) -> list[Layer]:
    """The layers of a frame with this time and blend mode by their images, where these spaces and swapchains of its session are live."""
    refuse(time <= 0, "XR_ERROR_TIME_INVALID")
    refuse(blend != "opaque", "XR_ERROR_ENVIRONMENT_BLEND_MODE_UNSUPPORTED")
    refuse(len(layers) > MOST_LAYERS, "XR_ERROR_LAYER_LIMIT_EXCEEDED")
    return each(layers, lambda it: layer_of(it, spaces, chains))


def layer_of(layer: Fields, spaces: Container[int], chains: dict[int, Chain]) -> Layer:
    """A layer by its images."""
    kind = "projection" if "projection" in layer else "quad"
    parts: list[list[int]] = layer["views"] if kind == "projection" else [layer["image"]]
    refuse(layer[kind] not in spaces, NO_HANDLE)
    refuse(kind == "projection" and len(parts) != VIEWS, "XR_ERROR_VALIDATION_FAILURE")
    images = each(parts, lambda it: image_shown(it, chains))
    refuse(kind == "quad" and layer["pose"] == 0, "XR_ERROR_POSE_INVALID")
    return Layer(kind, images)
