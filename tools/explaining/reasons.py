"""Why a call didn't succeed plainly, by its arguments and by the entries that made it so. A method of the name of a code tells it."""
from __future__ import annotations

from typing import Any

from checking.arguments import OF_FIELDS, OF_OFFSET, OF_POSE, OF_SIZES, OF_TEXT
from checking.things import WANTED
from explaining.entries import HANDLES, Kept, written
from machine import inputs
from machine.answers import Fields
from machine.frames import IMAGES_OF_A_CHAIN, MOST_CHAINS, MOST_LAYERS, VIEWS
from machine.history import Entry
from scenarios.devices import USERS
from scenarios.reading import Scripts
from shown import count, with_article

LISTS = ("layers", "bindings", "active", "sets", "subactions")
FORGOTTEN = ("begin_session", "forgotten"), ("end_session", "forgotten")


class Reasons(Kept):
    """A run, with its calls that didn't succeed plainly and why each was answered so."""

    def __init__(self, scripts: Scripts, events: list[str]) -> None:
        super().__init__(scripts, events)
        self.found: list[tuple[Entry, str]] = []

    def keep(self, entry: Entry) -> None:
        # what is told of are the entries before this one, but for the state
        why = self.why(entry) if isinstance(entry.actor, int) and not entry.is_plain else ""
        super().keep(entry)
        if why:
            self.found.append((entry, why))

    def why(self, entry: Entry) -> str:
        """Why a call was answered so."""
        code, items = entry.answer.code, entry.answer.items
        if code in OF_FIELDS:
            return OF_FIELDS[code].format_map(entry.fields)
        front = f"item {' view '.join(map(str, items))}: " if items else ""
        return front + getattr(self, code.partition("XR_")[2].removeprefix("ERROR_").lower())(entry, entry.fields)

    def part(self, entry: Entry, is_written: bool = False) -> Any:
        """The item of a list that refuses a call, by its values or as it is written; of a layer the view, where it is one's."""
        first, *more = entry.answer.items
        fields = entry.arguments if is_written else entry.fields
        found = next(fields[it] for it in LISTS if it in fields)[first - 1]
        return (found["views"][more[0] - 1] if "views" in found else found["image"]) if more else found

    # ---- handles, and the session

    def handle_invalid(self, entry: Entry, its: Fields) -> str:
        if entry.answer.items:
            name, handle = (self.part(entry, it) for it in (True, False))
            if isinstance(name, dict):
                name, handle = (it.get("projection", it.get("quad")) for it in (name, handle))
            kind = {"suggest_bindings": "action", "end_frame": "swapchain" if len(entry.answer.items) > 1 else "space"}.get(entry.name, "action set")
            return self.no_handle(entry, *(it[0] if isinstance(it, list) else it for it in (name, handle)), kind)
        live, keys = self.live(), [it for it in its if it in HANDLES]
        # where all are live, the base is the one that is of another session
        key = next((it for it in keys if live.get(its[it]) != WANTED[it]), "base")
        return self.no_handle(entry, entry.arguments[key], its[key], WANTED[key])

    def no_handle(self, entry: Entry, name: str | int, handle: int, kind: str) -> str:
        """What became of a handle that isn't live, or isn't of this kind."""
        front = f"{written(name)} is no live {kind}"
        if self.live().get(handle) == kind:
            return f"{front} of the session: it is another session's, {self.by('made', self.made.get(handle))}"
        if handle in self.gone:
            return f"{front}: {self.by('it was destroyed', self.gone[handle])}"
        if handle:
            return f"{front}: it is {with_article(self.kinds[handle])}, {self.by('made', self.made.get(handle))}"
        return f"{front}: {self.gave_none(name, entry, 'handle')}" if isinstance(name, str) else front

    def session_lost(self, entry: Entry, its: Fields) -> str:
        return self.by("the session was lost", self.lost.get(self.session_of(its).handle))

    def session_loss_pending(self, entry: Entry, its: Fields) -> str:
        return f"it succeeded, and {self.state_since(its)}"

    def session_running(self, entry: Entry, its: Fields) -> str:
        return self.by("the session runs already: it was begun", self.last.get(("begin_session", its["session"])))

    def session_not_running(self, entry: Entry, its: Fields) -> str:
        return "the session doesn't run" + self.story(its["session"], ("begin_session", "begun"), ("end_session", "ended"))

    def session_not_ready(self, entry: Entry, its: Fields) -> str:
        due = {"begin_session": "READY", "end_session": "STOPPING"}.get(entry.name, "FOCUSED")
        return f"{self.state_since(its)}, and {due} is due"

    session_not_stopping = session_not_focused = session_not_ready

    def limit_reached(self, entry: Entry, its: Fields) -> str:
        known = self.machine
        if entry.name == "create_instance":
            return self.by("an instance is live, made", self.made.get(known.instance))
        if entry.name == "create_swapchain":
            others = ", the others by frames that are pending or were taken last" * (len(known.chains) < MOST_CHAINS)
            return f"all {MOST_CHAINS} places are taken, {len(known.chains)} by live swapchains{others}"
        most = {"suggest_bindings": ("bindings", inputs.MOST_SUGGESTED), "sync_actions": ("active", inputs.MOST_SYNCED)}.get(entry.name)
        if most:
            return f"{len(its[most[0]])} are listed, and {most[1]} are the most"
        of_kinds = {"create_session": known.sessions, "create_action_set": known.sets, "create_action": known.actions}
        return f"{count(len(of_kinds.get(entry.name, known.spaces)), 'such handle')} are live, which are the most"

    # ---- the call order, frames and images

    def call_order_invalid(self, entry: Entry, its: Fields) -> str:
        chain, session, name = its.get("chain", 0), its.get("session", 0), written(entry.arguments.get("chain", 0))
        if entry.name == "begin_frame":
            return "no frame is waited for" + self.story(session, ("wait_frame", "waited for"), ("begin_frame", "begun"), *FORGOTTEN)
        if entry.name == "end_frame":
            return "no frame is begun" + self.story(session, ("begin_frame", "begun"), ("end_frame", "ended"), *FORGOTTEN)
        if entry.name in ("paint", "release_image"):
            return f"no image of {name} is waited for" + self.story(chain, ("wait_image", "waited for"), ("release_image", "released"))
        known = self.machine.chains[chain]
        if entry.name == "acquire_image":
            front = f"the only image of {name} was" if known.is_static else f"all {IMAGES_OF_A_CHAIN} images of {name} are"
            return self.by(f"{front} acquired{'' if known.is_static else ', the last'}", self.last.get(("acquire_image", chain)))
        if known.acquired:
            return self.by(f"an image of {name} is waited for already,", self.last.get(("wait_image", chain)))
        return f"no image of {name} is acquired" + self.story(chain, ("acquire_image", "acquired"), ("release_image", "released"))

    def frame_discarded(self, entry: Entry, its: Fields) -> str:
        return self.by("the frame before it wasn't ended, which was begun", self.last.get(("begin_frame", its["session"])))

    def timeout_expired(self, entry: Entry, its: Fields) -> str:
        frames, image = self.machine.frames, self.machine.chains[its["chain"]].oldest
        pending = [str(it.number) for it in frames.pending if image in it.images]
        who = f"frame {' and '.join(pending)}, which is pending" if pending else "the compositor, which has it on show"
        passed = self.machine.device.clock - its["since"]
        return f"image {image[1]} of {written(entry.arguments['chain'])} is used by {who}, and {passed} ns of {its['timeout']} have passed"

    def layer_limit_exceeded(self, entry: Entry, its: Fields) -> str:
        return f"{len(its['layers'])} layers are listed, and {MOST_LAYERS} are the most"

    def layer_invalid(self, entry: Entry, its: Fields) -> str:
        (chain, *_), (name, *_) = self.part(entry), self.part(entry, True)
        return f"{written(name)} shows no image" + self.story(chain, ("release_image", "released"), ("acquire_image", "acquired again"))

    def swapchain_rect_invalid(self, entry: Entry, its: Fields) -> str:
        chain, x, y, width, height = self.part(entry)
        known, name = self.machine.chains[chain], written(self.part(entry, True)[0])
        made = self.by("made", self.made.get(chain))
        return f"{width} by {height} pixels from {x}, {y} on aren't within the {known.width} by {known.height} of {name}, {made}"

    def pose_invalid(self, entry: Entry, its: Fields) -> str:
        return OF_POSE if entry.answer.items else OF_OFFSET

    def validation_failure(self, entry: Entry, its: Fields) -> str:
        if entry.name == "create_swapchain":
            return OF_SIZES.format_map(its)
        return f"it has {count(len(self.part(entry)['views']), 'view')}, and {VIEWS} are due" if entry.answer.items else "nothing is listed"

    def reference_space_unsupported(self, entry: Entry, its: Fields) -> str:
        return self.by("the device has no stage" + (", as told" if ("stage", 0) in self.last else ""), self.last.get(("stage", 0)))

    def event_unavailable(self, entry: Entry, its: Fields) -> str:
        last = self.last.get(("poll_event", its["instance"]))
        return self.by("no event waits; the last one was told", last) if last else "no event came"

    # ---- texts and names

    def path_format_invalid(self, entry: Entry, its: Fields) -> str:
        return OF_TEXT.format(text=written(its["text"])) if "text" in its else f"{written(its['name'])} has a character that no name has"

    def size_insufficient(self, entry: Entry, its: Fields) -> str:
        return f"the text takes {entry.answer.words} bytes, and the buffer has {its['capacity']}"

    def name_invalid(self, entry: Entry, its: Fields) -> str:
        size = len(its["name"].encode())
        return f"{written(its['name'])} has {count(size, 'byte')}, and 1 to {inputs.MOST_NAME} that aren't all periods are due"

    def localized_name_invalid(self, entry: Entry, its: Fields) -> str:
        return f"the localized name has {count(len(its['localized'].encode()), 'byte')}, and 1 to {inputs.MOST_LOCALIZED} are due"

    def name_duplicated(self, entry: Entry, its: Fields, key: str = "name") -> str:
        beside = self.machine.sets if entry.name == "create_action_set" else {
            handle: it for handle, it in self.machine.actions.items() if it.set.handle == its["set"]
        }
        handle = next(handle for handle, it in beside.items() if getattr(it, key) == its[key])
        return self.by(f"{written(its[key])} is the {key if key == 'name' else 'localized name'} of the one made", self.made.get(handle))

    def localized_name_duplicated(self, entry: Entry, its: Fields) -> str:
        return self.name_duplicated(entry, its, "localized")

    def path_invalid(self, entry: Entry, its: Fields) -> str:
        name, atom = self.atom_in(entry)
        if isinstance(name, str) and not atom:
            return f"{written(name)} is no atom: {self.gave_none(name, entry, 'atom')}"
        known = len(self.machine.atoms.texts)
        return f"{written(name)} is no atom: {f'the last one is {known}' if known else 'none is known'}"

    def atom_in(self, entry: Entry) -> tuple[str | int, int]:
        """The atom that a call is refused for, as it is written and by its value."""
        if not entry.answer.items:
            key = next(it for it in ("path", "profile", "sub") if it in entry.fields)
            return entry.arguments[key], entry.fields[key]
        name, atom = (self.part(entry, it) for it in (True, False))
        return (name[1], atom[1]) if isinstance(name, list) else (name, atom)

    def path_unsupported(self, entry: Entry, its: Fields) -> str:
        text = written(self.machine.atoms.text_of(self.atom_in(entry)[1]) or self.atom_in(entry)[1])
        if entry.name == "suggest_bindings":
            if not entry.answer.items:
                return f"{text} is the path of no profile that is known"
            kind = self.machine.actions[self.part(entry)[0]].kind
            return f"{text} picks nothing for {with_article(kind)} action of {self.machine.atoms.text_of(its['profile'])}"
        if entry.name == "create_action":
            return f"{text} stands there twice" if text.strip('"') in USERS else f"{text} is none of the user paths {', '.join(USERS)}"
        if entry.name == "sync_actions":
            return f"no live action of the set declares {text}"
        return self.by(f"{text} isn't declared by the action, made", self.made.get(its["action"]))

    # ---- what is attached

    def actionsets_already_attached(self, entry: Entry, its: Fields) -> str:
        if entry.name == "attach_sets":
            return self.by("the session's sets were attached", self.last.get(("attach_sets", its["session"])))
        found = its["set"] if "set" in its else self.machine.actions[self.part(entry)[0]].set.handle
        return self.by("its set was attached", self.last.get(("attach_sets", found)))

    def actionset_not_attached(self, entry: Entry, its: Fields) -> str:
        other = self.last.get(("attach_sets", its["session"]))
        return self.by("the session attached other sets", other) if other else "the session attached no sets"

    def action_type_mismatch(self, entry: Entry, its: Fields) -> str:
        known = self.machine.actions[its["action"]]
        return self.by(f"the action is {with_article(known.kind)} action, made", self.made.get(its["action"]))
