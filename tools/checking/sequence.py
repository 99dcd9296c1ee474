"""Calls that their own script makes before what they want, or behind what forbids them."""
from __future__ import annotations

from collections.abc import Callable, Iterator

from checking.things import Path, Thing, uses_of
from scenarios.reading import Op
from shown import quoted, with_article

# the types of the getters, and the fields by which ops say where a name may stand once
GETTERS = {"get_boolean": "boolean", "get_float": "float", "get_vector": "vector", "get_pose_active": "pose"}
NAMING = {"create_action_set": "instance", "create_action": "set"}
Named = Callable[[object], "Thing | None"]
Found = Iterator[tuple[Path, str]]


def out_of_order(op: Op, place: int, named: Named, attaches: bool) -> Found:
    """Where an op comes too early or too late in its script, and why. What goes from script to script isn't looked at. `attaches` says that a script
    attaches sets."""
    fields, who = op.fields, f"op {place} ({op.name})"
    chain, session, action = (named(fields.get(it)) for it in ("chain", "session", "action"))
    if chain and not chain.is_handed and op.name in ("wait_image", "paint", "release_image"):
        if op.name != "wait_image" and not chain.has_waited:
            yield ("chain",), f"no image of {quoted(fields['chain'])} is waited for here: XR_ERROR_CALL_ORDER_INVALID"
        chain.has_waited = op.name == "wait_image" or op.name == "paint" and chain.has_waited
    if session and not session.is_handed and not session.attached and (op.name in GETTERS or op.name == "sync_actions" and fields["active"]):
        behind = " before this op" * attaches
        yield ("session",), f"nothing is attached to {quoted(fields['session'])}{behind}: XR_ERROR_ACTIONSET_NOT_ATTACHED"
    kind = action.made.fields.get("type") if action and action.made else None
    if kind and kind != GETTERS.get(op.name, kind):
        yield ("action",), f"{quoted(fields['action'])} is {with_article(kind)} action: XR_ERROR_ACTION_TYPE_MISMATCH"
    yield from of_another(op, named)
    yield from taken_names(op, named)
    yield from too_late(op, named)
    if op.name == "attach_sets":
        for thing in (session, *map(named, fields["sets"])):
            if thing:
                thing.attached = thing.attached or who


def of_another(op: Op, named: Named) -> Found:
    """Spaces and swapchains that stand below another session than the call's."""
    one = named(op.fields.get("space"))
    own = {"locate_space": one.parent if one else None, "end_frame": named(op.fields.get("session"))}.get(op.name)
    for path, name, _ in uses_of(op) if own else ():
        thing = named(name)
        other = thing.parent if thing and thing.kind in ("space", "swapchain") else None
        are_new = own and other and all(it.made and it.made.name == "create_session" and not it.gone() for it in (own, other))
        if are_new and other is not own:
            yield path, f"{quoted(name)} is another session's: XR_ERROR_HANDLE_INVALID"


def names_of(op: Op) -> list[tuple[str, str]]:
    """The names that an op gives an action set or an action, each with its field."""
    return [(key, op.fields[key]) for key in ("name", "localized")] if op.name in NAMING else []


def taken_names(op: Op, named: Named) -> Found:
    """Names that another one beside it has."""
    parent = named(op.fields[NAMING[op.name]]) if op.name in NAMING else None
    for key, name in names_of(op) if parent else []:
        other = parent.beside.get((key, name)) if parent else None
        if other and not other.gone():
            yield (key,), f"another one has {quoted(name)} already: XR_ERROR_{'LOCALIZED_' * (key != 'name')}NAME_DUPLICATED"


def too_late(op: Op, named: Named) -> Found:
    """What is made or suggested of a set that was attached before."""
    if op.name == "create_action":
        uses = [(("set",), named(op.fields["set"]))]
    else:
        actions = ((("bindings", at, 0), named(it[0])) for at, it in enumerate(op.fields.get("bindings", ())))
        uses = [(path, it.parent if it else None) for path, it in actions]
    for path, found in uses:
        if found and found.attached:
            yield path, f"the set was attached by {found.attached} already: XR_ERROR_ACTIONSETS_ALREADY_ATTACHED"
