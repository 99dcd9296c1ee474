"""The names in a report, and what its lines give by name: the values of calls, the words of the device's events, and frames."""
from __future__ import annotations

import re
from typing import Any

from calls import getters, ops_in_reports
from scenarios.devices import ORIGINS, PROFILES, USERS

Values = dict[str, Any]

OPS = tuple(ops_in_reports())

# the calls that aren't counted: each has the place of the call that published what it answers from
GETTERS = tuple(getters())

CODES = tuple(
    """XR_SUCCESS XR_TIMEOUT_EXPIRED XR_SESSION_LOSS_PENDING XR_EVENT_UNAVAILABLE XR_SESSION_NOT_FOCUSED XR_FRAME_DISCARDED
    XR_ERROR_VALIDATION_FAILURE XR_ERROR_OUT_OF_MEMORY XR_ERROR_API_VERSION_UNSUPPORTED XR_ERROR_LIMIT_REACHED
    XR_ERROR_SIZE_INSUFFICIENT XR_ERROR_HANDLE_INVALID XR_ERROR_SESSION_RUNNING XR_ERROR_SESSION_NOT_RUNNING
    XR_ERROR_SESSION_LOST XR_ERROR_SYSTEM_INVALID XR_ERROR_PATH_INVALID XR_ERROR_PATH_COUNT_EXCEEDED
    XR_ERROR_PATH_FORMAT_INVALID XR_ERROR_PATH_UNSUPPORTED XR_ERROR_LAYER_INVALID XR_ERROR_LAYER_LIMIT_EXCEEDED
    XR_ERROR_SWAPCHAIN_RECT_INVALID XR_ERROR_SWAPCHAIN_FORMAT_UNSUPPORTED XR_ERROR_ACTION_TYPE_MISMATCH
    XR_ERROR_SESSION_NOT_READY XR_ERROR_SESSION_NOT_STOPPING XR_ERROR_TIME_INVALID
    XR_ERROR_REFERENCE_SPACE_UNSUPPORTED XR_ERROR_FORM_FACTOR_UNSUPPORTED XR_ERROR_CALL_ORDER_INVALID
    XR_ERROR_POSE_INVALID XR_ERROR_VIEW_CONFIGURATION_TYPE_UNSUPPORTED XR_ERROR_ENVIRONMENT_BLEND_MODE_UNSUPPORTED
    XR_ERROR_NAME_DUPLICATED XR_ERROR_NAME_INVALID XR_ERROR_ACTIONSET_NOT_ATTACHED
    XR_ERROR_ACTIONSETS_ALREADY_ATTACHED XR_ERROR_LOCALIZED_NAME_DUPLICATED XR_ERROR_LOCALIZED_NAME_INVALID""".split()
)
MET = ("XR_SUCCESS", "XR_SESSION_LOSS_PENDING")

NUMBER = r"(?:0|[1-9]\d{0,18})"
SIGNED = rf"-?{NUMBER}"
MARK = r"(?:[1-9]|[1-5]\d|6[0-4])"
_STATES = "IDLE|READY|SYNCHRONIZED|VISIBLE|FOCUSED|STOPPING|LOSS_PENDING|EXITING"
_USERS, _PROFILES, _ORIGINS = "|".join(USERS), "|".join((*PROFILES, "none")), "|".join(ORIGINS)
_READ = rf"changed (?P<changed>[01]) time (?P<time>{SIGNED}) active (?P<active>[01])"

# the values of an op that succeeded, and the words behind the name of an event; each group is a value's name
OF_OP = {
    "get_system": rf"(?P<system>{NUMBER})",
    "string_to_path": rf"(?P<atom>{NUMBER})",
    "acquire_image": rf"(?P<image>{NUMBER})",
    "path_to_string": rf"(?P<size>{NUMBER})(?: (?P<text>[!-~]+))?",
    "poll_event": rf"state (?P<session>{NUMBER}) (?P<state>{_STATES})|events_lost (?P<events_lost>{NUMBER})",
    "locate_space": rf"(?P<missing>missing)|-(?P<base_offset>{NUMBER}) -(?P<base_sample>{NUMBER})"
    rf" \+(?P<sample>{NUMBER}) \+(?P<offset>{NUMBER})",
    "get_boolean": rf"value (?P<is_true>[01]) {_READ}",
    "get_float": rf"value (?P<value>{SIGNED}) {_READ}",
    "get_vector": rf"value (?P<x>{SIGNED}) (?P<y>{SIGNED}) {_READ}",
    "get_pose_active": r"active (?P<active>[01])",
    "wait_frame": rf"time (?P<time>{SIGNED}) period (?P<period>{NUMBER}) render (?P<render>[01])",
    "await": rf"(?:(?P<atom>{NUMBER}))?",
}
OF_EVENT = {
    "clock": rf"(?P<time>{NUMBER})",
    "grid": rf"(?P<base>{NUMBER}) (?P<period>{NUMBER})",
    "wish": "(?P<state>rest|ready|visible|focused)",
    "loss": "",
    "lost": "",
    "stage": "(?P<stage>on|off)",
    "profile": rf"(?P<user>{_USERS}) (?P<profile>{_PROFILES})",
    "input": rf"(?P<path>(?:{_USERS})/input/[a-z_]+/[a-z]+) (?P<value>{SIGNED})",
    "pose": rf"(?P<origin>{_ORIGINS}) (?P<time>{NUMBER}) (?P<pose>{NUMBER})",
    "mark": rf"(?P<mark>{MARK})",
    "await": rf"(?P<mark>{MARK})",
}
_TRUTHS = ("is_true", "changed", "active", "render", "missing")
_TEXTS = ("text", "state", "stage", "user", "profile", "path", "origin")
_FRAME = re.compile(rf"time (?P<time>{SIGNED}) layers (?P<layers>\d{{1,2}})(?P<shown>(?: [a-z]+:[\d,]+)*)")
_LAYER = re.compile(rf"projection:({NUMBER}),({NUMBER})|quad:({NUMBER})")


def named(pattern: str, text: str) -> Values | None:
    """The values of a text by their names, or nothing where it doesn't have them."""
    found = re.fullmatch(pattern, text)
    if not found:
        return None
    given = {name: it for name, it in found.groupdict().items() if it is not None}
    values = {name: it != "0" if name in _TRUTHS else it if name in _TEXTS else int(it) for name, it in given.items()}
    return {"value" if name == "is_true" else name: it for name, it in values.items()}


def of_call(op: str, code: str, text: str) -> Values | None:
    """What a call gave, or nothing where the format has no such values for it."""
    if code in MET:
        return named(OF_OP.get(op, ""), text)
    if (op, code) == ("path_to_string", "XR_ERROR_SIZE_INSUFFICIENT"):
        return named(rf"(?P<size>{NUMBER})", text)
    return None if text else {}


def of_event(name: str, text: str) -> Values | None:
    return named(OF_EVENT[name], text) if name in OF_EVENT else None


def of_frame(text: str) -> Values | None:
    """A frame's time, and its layers with the stamps of their images."""
    found = _FRAME.fullmatch(text)
    layers = [_LAYER.fullmatch(it) for it in found["shown"].split()] if found else []
    if not found or int(found["layers"]) != len(layers) or None in layers:
        return None
    shown = [{"kind": it[0].partition(":")[0], "stamps": [int(stamp) for stamp in it.groups() if stamp]} for it in layers if it]
    return {"time": int(found["time"]), "layers": shown}
