"""Arguments that no machine takes, whatever comes before them."""
from __future__ import annotations

from collections.abc import Callable, Iterator
from typing import Any, NamedTuple

from machine.frames import FORMATS, MOST_SIDE, VIEWS, is_within
from machine.inputs import MOST_ATOMS, PATH, pick_of
from machine.machine import THE_SYSTEM, VERSION
from scenarios.devices import PROFILES
from scenarios.reading import Op
from shown import count, quoted, with_article

Path = tuple[Any, ...]

# what is wrong of arguments, by the code that answers it
OF_FIELDS = {
    "XR_ERROR_API_VERSION_UNSUPPORTED": "the version is {major}.{minor}, and it has to be 1.0",
    "XR_ERROR_FORM_FACTOR_UNSUPPORTED": "the form is {form}, and head alone has a system",
    "XR_ERROR_SYSTEM_INVALID": "the system is {system}, and get_system gives 1",
    "XR_ERROR_VIEW_CONFIGURATION_TYPE_UNSUPPORTED": "the view is {view}, and it has to be stereo",
    "XR_ERROR_TIME_INVALID": "the time is {time}, and it has to be above 0",
    "XR_ERROR_ENVIRONMENT_BLEND_MODE_UNSUPPORTED": "the blend mode is {blend}, and it has to be opaque",
    "XR_ERROR_SWAPCHAIN_FORMAT_UNSUPPORTED": "the format is {format}, and it has to be 1, 2 or 3",
    "XR_ERROR_PATH_COUNT_EXCEEDED": f"the text is new, and {MOST_ATOMS} atoms are known",
}
OF_SIZES = "it is {width} by {height}, and each has to be 1 to " + str(MOST_SIDE)
OF_OFFSET, OF_POSE, OF_TEXT = "the offset is 0", "the pose is 0", "{text} is no path"


class Never(NamedTuple):
    """A field of some ops with what is never taken of it, and the code that answers it, with its words where they aren't those of the code."""

    ops: tuple[str, ...]
    field: str
    is_wrong: Callable[[dict[str, Any]], bool]
    code: str
    words: str = ""


def is_number(value: object, least: float, most: float) -> bool:
    """Whether this is a number out of a range. What a name stands for isn't known."""
    return type(value) is int and not least <= value <= most


ALL_NEVER = (
    Never(("create_instance",), "major", lambda it: (it["major"], it["minor"]) != VERSION, "XR_ERROR_API_VERSION_UNSUPPORTED"),
    Never(("get_system",), "form", lambda it: it["form"] != "head", "XR_ERROR_FORM_FACTOR_UNSUPPORTED"),
    Never(("create_session",), "system", lambda it: is_number(it["system"], THE_SYSTEM, THE_SYSTEM), "XR_ERROR_SYSTEM_INVALID"),
    Never(("begin_session",), "view", lambda it: it["view"] != "stereo", "XR_ERROR_VIEW_CONFIGURATION_TYPE_UNSUPPORTED"),
    Never(("end_frame", "locate_space"), "time", lambda it: is_number(it["time"], 1, float("inf")), "XR_ERROR_TIME_INVALID"),
    Never(("end_frame",), "blend", lambda it: it["blend"] != "opaque", "XR_ERROR_ENVIRONMENT_BLEND_MODE_UNSUPPORTED"),
    Never(("create_reference_space", "create_action_space"), "offset", lambda it: it["offset"] == 0, "XR_ERROR_POSE_INVALID", OF_OFFSET),
    Never(("string_to_path",), "text", lambda it: not PATH.fullmatch(it["text"]), "XR_ERROR_PATH_FORMAT_INVALID", OF_TEXT),
    Never(("create_swapchain",), "format", lambda it: it["format"] not in FORMATS, "XR_ERROR_SWAPCHAIN_FORMAT_UNSUPPORTED"),
    Never(("create_swapchain",), "width", lambda it: is_number(it["width"], 1, MOST_SIDE), "XR_ERROR_VALIDATION_FAILURE", OF_SIZES),
    Never(("create_swapchain",), "height", lambda it: is_number(it["height"], 1, MOST_SIDE), "XR_ERROR_VALIDATION_FAILURE", OF_SIZES),
)
Made = Callable[[object], "Op | None"]


def never_taken(op: Op, made: Made) -> Iterator[tuple[Path, str]]:
    """Where an op's arguments are never taken, and why; `made` has the op that gave a name."""
    fields = {key: quoted(it) if key == "text" else it for key, it in op.fields.items()}
    for it in ALL_NEVER:
        if op.name in it.ops and it.is_wrong(op.fields):
            yield (it.field,), f"{(it.words or OF_FIELDS[it.code]).format_map(fields)}: {it.code}"
    if op.name == "end_frame":
        for number, layer in enumerate(op.fields["layers"]):
            yield from (((("layers", number, *path)), words) for path, words in of_layer(layer, made))
    if op.name == "suggest_bindings":
        yield from of_bindings(op, made)


def of_layer(layer: dict[str, Any], made: Made) -> Iterator[tuple[Path, str]]:
    """What is never taken of a layer."""
    if layer.get("pose") == 0:
        yield ("pose",), f"{OF_POSE}: XR_ERROR_POSE_INVALID"
    if "views" in layer and len(layer["views"]) != VIEWS:
        yield ("projection",), f"this has {count(len(layer['views']), 'view')}, and {VIEWS} are due: XR_ERROR_VALIDATION_FAILURE"
    parts = [(("views", at), it) for at, it in enumerate(layer["views"])] if "views" in layer else [(("image",), layer["image"])]
    for path, part in parts:
        chain = made(part[0])
        if chain and chain.name == "create_swapchain" and not is_within(part, chain.fields["width"], chain.fields["height"]):
            size = f"{chain.fields['width']} by {chain.fields['height']}"
            yield (*path, 1), f"this part goes beyond the {size} pixels of {quoted(part[0])}: XR_ERROR_SWAPCHAIN_RECT_INVALID"


def of_bindings(op: Op, made: Made) -> Iterator[tuple[Path, str]]:
    """Bindings whose path the profile lacks, or picks nothing of for the action's type."""
    def text_of(name: object) -> str | None:
        given = made(name)
        return given.fields["text"] if given and given.name == "string_to_path" else None

    profile = text_of(op.fields["profile"])
    if profile is None:
        return
    known = profile.removeprefix("/interaction_profiles/")
    if known not in PROFILES:
        yield ("profile",), f"{quoted(profile)} is the path of no profile that is known: XR_ERROR_PATH_UNSUPPORTED"
        return
    for at, (action, path) in enumerate(op.fields["bindings"]):
        given, text = made(action), text_of(path)
        if given and given.name == "create_action" and text is not None and not pick_of(known, given.fields["type"], text):
            kind = with_article(given.fields["type"])
            yield ("bindings", at, 1), f"{quoted(text)} picks nothing for {kind} action of {known}: XR_ERROR_PATH_UNSUPPORTED"
