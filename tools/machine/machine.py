"""The machine of docs/MACHINE.md: what it keeps, and every call of its three actors, one at a time."""
from __future__ import annotations

from collections import deque
from collections.abc import Callable, Iterable
from typing import TypeVar

from machine.answers import (
    LOSS_PENDING, NO_HANDLE, NOT_FOCUSED, OUT_OF_MEMORY, SUCCESS, Answer, Fields, HeldBack, Refused, due, each, live, refuse
)
from machine.frames import FORMATS, IMAGES_OF_A_CHAIN, MOST_FRAMES, MOST_SIDE, MOST_TIME, Chain, Frames, Image, layers_of
from machine.inputs import (
    INACTIVE, MOST_ACTIONS, MOST_SETS, MOST_SUGGESTED, MOST_SYNCED, Action, ActionSet, Atoms, Column, Device, Suggestion,
    check_localized, check_name, column_of, pick_of, users_of
)
from machine.sessions import MOST_SESSIONS, Session, Space, settled
from reports.values import GETTERS
from scenarios.devices import PROFILES
from scenarios.reading import MOST_HANDLE_MARK

THE_SYSTEM = 1
VERSION = (1, 0)
ENDED = "ended"
MOST_EVENTS = 32
MOST_LOST = 2**64 - 1
MOST_SAMPLES = 16
MOST_SPACES = 64

# the calls that publish what getters answer from, and the codes by which they do
PUBLISHING = frozenset(
    "create_session destroy_session create_action destroy_action destroy_action_set destroy_instance attach_sets sync_actions".split()
)
PUBLISHED_BY = (SUCCESS, LOSS_PENDING, NOT_FOCUSED)

# what stands below a session
BelowT = TypeVar("BelowT", Space, Chain)


class State:
    """The state of a run of so many applications, and what the rules of calls have in common.

    At most one instance is live, so all that is live stands below it; sessions stand in the order of their creation. Handles are numbers
    from 1 here, in the order in which they are given; no report prints one."""

    def __init__(self, applications: int) -> None:
        self.present = applications
        self.handles = self.instance = self.sessions_created = self.locked = self.published = self.lost = 0
        self.atoms, self.frames, self.device = Atoms(), Frames(), Device()
        # the events that wait, and the newest samples of each origin, each a time and the pose from then on, the newest first
        self.events: deque[str] = deque(maxlen=MOST_EVENTS)
        self.samples: dict[str, list[tuple[int, int]]] = {}
        self.sessions: list[Session] = []
        self.sets: dict[int, ActionSet] = {}
        self.actions: dict[int, Action] = {}
        self.suggestions: dict[str, list[Suggestion]] = {}
        self.spaces: dict[int, Space] = {}
        self.chains: dict[int, Chain] = {}
        self.marks: dict[int, int] = {}

    def give(self) -> int:
        """A new handle."""
        self.handles += 1
        return self.handles

    def tell(self, events: list[str]) -> None:
        """Events come. A full queue drops the oldest one."""
        for it in events:
            self.lost = min(self.lost + (len(self.events) == MOST_EVENTS), MOST_LOST)
            self.events.append(it)

    def settle(self, events: Iterable[str] = ()) -> None:
        """All sessions settle, behind these events: one was created or destroyed, or a state, a flag or the wish changed."""
        self.tell([*events, *settled(self.sessions, self.device.wish)])

    # ---- a call's own handles

    def check_instance(self, instance: int) -> None:
        refuse(not self.instance or instance != self.instance, NO_HANDLE)

    def live_session(self, session: int) -> Session:
        return due(next((it for it in self.sessions if it.handle == session), None), NO_HANDLE)

    def usable_session(self, session: int) -> Session:
        """The session of a call, which isn't lost."""
        found = self.live_session(session)
        found.check_loss()
        return found

    def running_session(self, session: int) -> Session:
        """The session of a call on frames, which runs."""
        found = self.usable_session(session)
        refuse(not found.is_running, "XR_ERROR_SESSION_NOT_RUNNING")
        return found

    def session_above(self, found: Space | Chain) -> Session:
        """The session of what stands below one, which isn't lost."""
        return self.usable_session(found.session)

    def below(self, session: int, found: dict[int, BelowT]) -> dict[int, BelowT]:
        """What stands below a session of these."""
        return {handle: it for handle, it in found.items() if it.session == session}

    def chain_that(self, may: str, chain: int) -> tuple[Chain, Session]:
        """A swapchain whose turn it is for a call, as this property says, and its session."""
        found = live(self.chains, chain)
        session = self.session_above(found)
        refuse(not getattr(found, may), "XR_ERROR_CALL_ORDER_INVALID")
        return found, session

    # ---- what goes with a handle

    def drop_session(self, gone: Session) -> None:
        """A session goes, with all below it and with what actions show in it. Frames that are pending or taken stay."""
        self.sessions.remove(gone)
        for handle in self.below(gone.handle, self.spaces):
            del self.spaces[handle]
        for handle in self.below(gone.handle, self.chains):
            del self.chains[handle]

    def drop_actions(self, gone: list[int]) -> None:
        """These actions go, with what is suggested for them and what they show."""
        for handle in gone:
            del self.actions[handle]
        for session in self.sessions:
            session.columns = {at: it for at, it in session.columns.items() if at[0] in self.actions}
        for profile, kept in self.suggestions.items():
            self.suggestions[profile] = [it for it in kept if it.action.handle in self.actions]


def getter(kind: str, told: str) -> Callable[[ApplicationCalls, int, int, int], Answer]:
    """A getter of actions of a type, which is told so by when it was read, its truth, its numbers, and whether it is active."""

    def get(self: ApplicationCalls, session: int, action: int, sub: int) -> Answer:
        found, it = self.column_read(session, action, sub, kind)
        read = f"changed {it.has_changed:d} time {it.time} active {it.is_active:d}"
        return found.answer(told.format(read, it.x != 0, it.x, it.y, it.is_active))

    return get


class ApplicationCalls(State):
    """The calls of applications. A method of the name of a call makes it, by the values of its fields; one that gives nothing is a success."""

    # ---- instances, their systems, paths and events (OpenXR 1.0 chapters 2, 4 to 6)

    def create_instance(self, major: int, minor: int) -> Answer:
        refuse((major, minor) != VERSION, "XR_ERROR_API_VERSION_UNSUPPORTED")
        refuse(self.instance != 0, "XR_ERROR_LIMIT_REACHED")
        self.instance = self.give()
        return Answer(given=self.instance)

    def destroy_instance(self, instance: int) -> None:
        """The instance goes with all that lives, its atoms, its suggestions and its events."""
        self.check_instance(instance)
        self.instance = 0
        for it in [*self.sessions]:
            self.drop_session(it)
        for kept in (self.sets, self.actions, self.suggestions, self.events):
            kept.clear()
        self.atoms, self.lost = Atoms(), 0

    def get_system(self, instance: int, form: str) -> Answer:
        self.check_instance(instance)
        refuse(form != "head", "XR_ERROR_FORM_FACTOR_UNSUPPORTED")
        return Answer(words=str(THE_SYSTEM), given=THE_SYSTEM)

    def string_to_path(self, instance: int, text: str, is_short: bool = False) -> Answer:
        self.check_instance(instance)
        atom = self.atoms.atom_of(text, is_short)
        return Answer(words=str(atom), given=atom)

    def path_to_string(self, instance: int, path: int, capacity: int) -> Answer:
        self.check_instance(instance)
        text = self.atoms.known(path)
        size = len(text) + 1
        if 0 < capacity < size:
            raise Refused("XR_ERROR_SIZE_INSUFFICIENT", str(size))
        return Answer(words=f"{size} {text}" if capacity else str(size))

    def poll_event(self, instance: int) -> Answer:
        """What a poll tells: how many events were lost since that was last told, where some were, or else the oldest one."""
        self.check_instance(instance)
        refuse(not self.lost and not self.events, "XR_EVENT_UNAVAILABLE")
        told = f"events_lost {self.lost}" if self.lost else self.events.popleft()
        self.lost = 0
        return Answer(words=told)

    # ---- sessions (chapter 9)

    def create_session(self, instance: int, system: int) -> Answer:
        self.check_instance(instance)
        refuse(system != THE_SYSTEM, "XR_ERROR_SYSTEM_INVALID")
        refuse(len(self.sessions) == MOST_SESSIONS, "XR_ERROR_LIMIT_REACHED")
        self.sessions_created += 1
        new = Session(self.give(), self.sessions_created)
        self.sessions.append(new)
        self.settle(new.enter("IDLE"))
        return Answer(given=new.handle)

    def destroy_session(self, session: int) -> None:
        self.drop_session(self.live_session(session))
        self.settle()

    def begin_session(self, session: int, view: str) -> Answer:
        found = self.usable_session(session)
        refuse(found.is_running, "XR_ERROR_SESSION_RUNNING")
        refuse(found.state != "READY", "XR_ERROR_SESSION_NOT_READY")
        refuse(view != "stereo", "XR_ERROR_VIEW_CONFIGURATION_TYPE_UNSUPPORTED")
        found.set_running(True)
        self.settle()
        return found.answer()

    def end_session(self, session: int) -> Answer:
        found = self.running_session(session)
        refuse(found.state != "STOPPING", "XR_ERROR_SESSION_NOT_STOPPING")
        found.set_running(False)
        self.settle(found.enter("IDLE"))
        return found.answer()

    def request_exit_session(self, session: int) -> Answer:
        found = self.running_session(session)
        found.is_asked_to_exit = True
        self.settle()
        return found.answer()

    # ---- spaces (chapter 7)

    def create_reference_space(self, session: int, kind: str, offset: int) -> Answer:
        found = self.usable_session(session)
        refuse(kind == "stage" and not self.device.has_stage, "XR_ERROR_REFERENCE_SPACE_UNSUPPORTED")
        return self.with_space(found, Space(session, offset, kind))

    def create_action_space(self, session: int, action: int, sub: int, offset: int) -> Answer:
        self.live_session(session)
        of = live(self.actions, action)
        found = self.usable_session(session)
        refuse(of.kind != "pose", "XR_ERROR_ACTION_TYPE_MISMATCH")
        return self.with_space(found, Space(session, offset, action=action, user=column_of(self.atoms, of, sub)))

    def with_space(self, session: Session, space: Space) -> Answer:
        """A new space, which no session has without an offset, and none beside 64 others of whatever session."""
        refuse(space.offset == 0, "XR_ERROR_POSE_INVALID")
        refuse(len(self.spaces) == MOST_SPACES, "XR_ERROR_LIMIT_REACHED")
        handle = self.give()
        self.spaces[handle] = space
        return session.answer(given=handle)

    def destroy_space(self, space: int) -> None:
        due(self.spaces.pop(space, None), NO_HANDLE)

    def locate_space(self, space: int, base: int, time: int) -> Answer:
        one = live(self.spaces, space)
        other = live(self.below(one.session, self.spaces), base)
        session = self.session_above(one)
        refuse(time <= 0, "XR_ERROR_TIME_INVALID")
        sample, base_sample = (self.pose_at(session, it, time) for it in (one, other))
        is_known = sample is not None and base_sample is not None
        return session.answer(f"-{other.offset} -{base_sample} +{sample} +{one.offset}" if is_known else "missing")

    def pose_at(self, session: Session, space: Space, time: int) -> int | None:
        """The pose of what a session's space moves with at a time, where it is known: of nothing, where its action is gone or its column is
        inactive there."""
        origin = space.kind or session.columns.get((space.action, space.user), INACTIVE).origin
        return next((pose for since, pose in self.samples.get(origin or "", []) if since <= time), None)

    # ---- action sets and actions, and what is suggested for them (chapter 11)

    def create_action_set(self, instance: int, name: str, localized: str, priority: int) -> Answer:
        self.check_instance(instance)
        check_name(name, [it.name for it in self.sets.values()])
        check_localized(localized, [it.localized for it in self.sets.values()])
        refuse(len(self.sets) == MOST_SETS, "XR_ERROR_LIMIT_REACHED")
        handle = self.give()
        self.sets[handle] = ActionSet(handle, name, localized, priority)
        return Answer(given=handle)

    def destroy_action_set(self, set: int) -> None:
        """A set goes with its actions, and is attached to no session any more."""
        due(self.sets.pop(set, None), NO_HANDLE)
        self.drop_actions([it.handle for it in self.actions.values() if it.set.handle == set])
        for session in self.sessions:
            if session.attached is not None:
                session.attached.discard(set)

    def create_action(self, set: int, name: str, type: str, subactions: list[int], localized: str) -> Answer:
        of = live(self.sets, set)
        refuse(of.is_sealed, "XR_ERROR_ACTIONSETS_ALREADY_ATTACHED")
        beside = [it for it in self.actions.values() if it.set is of]
        check_name(name, [it.name for it in beside])
        users = users_of(self.atoms, subactions)
        check_localized(localized, [it.localized for it in beside])
        refuse(len(self.actions) == MOST_ACTIONS, "XR_ERROR_LIMIT_REACHED")
        handle = self.give()
        self.actions[handle] = Action(handle, of, name, type, users, localized)
        return Answer(given=handle)

    def destroy_action(self, action: int) -> None:
        live(self.actions, action)
        self.drop_actions([action])

    def suggest_bindings(self, instance: int, profile: int, bindings: list[list[int]], is_short: bool = False) -> None:
        self.check_instance(instance)
        known = self.atoms.known(profile).removeprefix("/interaction_profiles/")
        refuse(known not in PROFILES, "XR_ERROR_PATH_UNSUPPORTED")
        refuse(not bindings, "XR_ERROR_VALIDATION_FAILURE")
        refuse(len(bindings) > MOST_SUGGESTED, "XR_ERROR_LIMIT_REACHED")
        found = each(bindings, lambda it: self.suggestion(known, *it))
        refuse(is_short, OUT_OF_MEMORY)
        self.suggestions[known] = found

    def suggestion(self, profile: str, action: int, path: int) -> Suggestion:
        """What a binding suggests."""
        found = live(self.actions, action)
        refuse(found.set.is_sealed, "XR_ERROR_ACTIONSETS_ALREADY_ATTACHED")
        return Suggestion(found, due(pick_of(profile, found.kind, self.atoms.known(path)), "XR_ERROR_PATH_UNSUPPORTED"))

    def attach_sets(self, session: int, sets: list[int]) -> Answer:
        found = self.usable_session(session)
        refuse(found.attached is not None, "XR_ERROR_ACTIONSETS_ALREADY_ATTACHED")
        refuse(not sets, "XR_ERROR_VALIDATION_FAILURE")
        for it in each(sets, lambda handle: live(self.sets, handle)):
            it.is_sealed = True
        found.attached = {*sets}
        return found.answer()

    # ---- syncs, and the getters, which answer from what was published last: the state gives the same

    def sync_actions(self, session: int, active: list[list[int]]) -> Answer:
        found = self.usable_session(session)
        refuse(len(active) > MOST_SYNCED, "XR_ERROR_LIMIT_REACHED")
        listed = {*each(active, lambda it: (it[0], self.user_listed(found, *it)))}
        if found.state != "FOCUSED":
            found.columns = {}
            return Answer(NOT_FOCUSED)
        found.columns = self.device.sync(self.actions.values(), found.columns, self.suggestions, listed)
        return found.answer()

    def user_listed(self, session: Session, handle: int, sub: int) -> str | None:
        """For which user path an item of a sync lists its set, where it isn't all of them."""
        live(self.sets, handle)
        refuse(handle not in (session.attached or ()), "XR_ERROR_ACTIONSET_NOT_ATTACHED")
        if sub == 0:
            return None
        user = self.atoms.known(sub)
        declared = [it for it in self.actions.values() if it.set.handle == handle and user in it.users]
        refuse(not declared, "XR_ERROR_PATH_UNSUPPORTED")
        return user

    get_boolean = getter("boolean", "value {1:d} {0}")
    get_float = getter("float", "value {2} {0}")
    get_vector = getter("vector", "value {2} {3} {0}")
    get_pose_active = getter("pose", "active {4:d}")

    def column_read(self, session: int, action: int, sub: int, kind: str) -> tuple[Session, Column]:
        """The column that a getter of actions of a type reads."""
        found, of = self.live_session(session), live(self.actions, action)
        found.check_loss()
        refuse(of.set.handle not in (found.attached or ()), "XR_ERROR_ACTIONSET_NOT_ATTACHED")
        refuse(of.kind != kind, "XR_ERROR_ACTION_TYPE_MISMATCH")
        return found, found.columns.get((action, column_of(self.atoms, of, sub)), INACTIVE)

    # ---- swapchains and their images (chapter 10)

    def create_swapchain(self, session: int, format: int, width: int, height: int, static: bool) -> Answer:
        found = self.usable_session(session)
        refuse(format not in FORMATS, "XR_ERROR_SWAPCHAIN_FORMAT_UNSUPPORTED")
        refuse(not (1 <= width <= MOST_SIDE and 1 <= height <= MOST_SIDE), "XR_ERROR_VALIDATION_FAILURE")
        refuse(not self.frames.has_place(self.chains), "XR_ERROR_LIMIT_REACHED")
        handle = self.give()
        self.chains[handle] = Chain(session, handle, width, height, static)
        return found.answer(given=handle)

    def destroy_swapchain(self, chain: int) -> None:
        due(self.chains.pop(chain, None), NO_HANDLE)

    def acquire_image(self, chain: int) -> Answer:
        found, session = self.chain_that("may_acquire", chain)
        image = found.next
        found.acquired.append(image)
        # it isn't the one released last any more
        found.last = None if found.last == image else found.last
        found.next = 1 if found.is_static else (image + 1) % IMAGES_OF_A_CHAIN
        return session.answer(str(image))

    def wait_image(self, chain: int, timeout: int, since: int) -> Answer:
        """The time runs on the device's clock, from what that showed after the caller's last locked call. The longest timeout is never up."""
        found, session = self.chain_that("may_wait", chain)
        if self.frames.is_used(found.oldest):
            refuse(timeout < MOST_TIME and timeout <= self.device.clock - since, "XR_TIMEOUT_EXPIRED")
            raise HeldBack
        found.has_waited = True
        return session.answer()

    def paint(self, chain: int, stamp: int) -> Answer:
        found, session = self.chain_that("has_waited", chain)
        self.frames.stamps[found.oldest] = stamp
        return session.answer()

    def release_image(self, chain: int) -> Answer:
        found, session = self.chain_that("has_waited", chain)
        found.last, found.has_waited = found.acquired.pop(0), False
        return session.answer()

    def image_waited_for(self, chain: int) -> Image | None:
        """The image that `wait_image` asks for, where it may."""
        found = self.chains.get(chain)
        return found.oldest if found and found.may_wait else None

    # ---- frames (chapter 10)

    def wait_frame(self, session: int) -> Answer:
        found, device = self.running_session(session), self.device
        if found.has_waited or len(self.frames.pending) + found.has_begun > MOST_FRAMES:
            raise HeldBack
        # the least time of the grid that is later than the one predicted last, and than the clock
        since = max(found.predicted, device.clock)
        time = device.base if since < device.base else since + device.period - (since - device.base) % device.period
        found.predicted, found.has_waited = min(time, MOST_TIME), True
        renders = found.state in ("VISIBLE", "FOCUSED")
        return found.answer(f"time {found.predicted} period {device.period} render {renders:d}", found.predicted)

    def begin_frame(self, session: int) -> Answer:
        found = self.running_session(session)
        refuse(not found.has_waited, "XR_ERROR_CALL_ORDER_INVALID")
        is_other_discarded = found.has_begun
        found.has_waited, found.has_begun = False, True
        return Answer("XR_FRAME_DISCARDED") if is_other_discarded else found.answer()

    def end_frame(self, session: int, time: int, blend: str, layers: list[Fields]) -> Answer:
        found = self.running_session(session)
        refuse(not found.has_begun, "XR_ERROR_CALL_ORDER_INVALID")
        self.frames.end(time, layers_of(time, blend, layers, self.below(session, self.spaces), self.below(session, self.chains)))
        found.has_begun = False
        if found.state == "READY":
            self.settle(found.enter("SYNCHRONIZED"))
        return found.answer()

    # ---- marks, and leaving: this project's own

    def mark(self, mark: int, value: int = 0) -> None:
        self.marks[mark] = value

    def await_mark(self, mark: int) -> Answer:
        if mark not in self.marks:
            raise HeldBack
        value = self.marks[mark]
        return Answer(words=str(value) if mark > MOST_HANDLE_MARK else "", given=value)

    def leave(self) -> None:
        self.present -= 1


class DeviceCalls(State):
    """What the device tells."""

    def tell_event(self, event: str) -> None:
        """An event of the device, by its line."""
        name, *words = event.split(" ")
        device = self.device
        if name == "clock":
            device.clock = max(device.clock, int(words[0]))
        elif name == "grid":
            device.base, device.period = map(int, words)
        elif name == "wish":
            device.wish = words[0]
            self.settle()
        elif name == "stage":
            device.has_stage = words == ["on"]
        elif name == "profile":
            device.connect(*words)
        elif name == "input":
            user, _, entry = words[0].partition("/input/")
            device.show(user, entry, int(words[1]))
        elif name == "pose":
            kept, time = self.samples.setdefault(words[0], []), int(words[1])
            if not kept or kept[0][0] < time:
                kept.insert(0, (time, int(words[2])))
                del kept[MOST_SAMPLES:]
        elif name == "mark":
            self.marks[int(words[0])] = 0
        elif name == "await":
            if int(words[0]) not in self.marks:
                raise HeldBack
        else:
            self.tell_loss(is_pending=name == "loss")
        self.locked += 1

    def tell_loss(self, is_pending: bool) -> None:
        """A loss of all sessions is pending, or has come: by `lost`, or by what ends the device early, a fault or a garbled line."""
        self.published = self.locked + 1
        if is_pending:
            self.settle([event for it in self.sessions for event in it.lose()])
            return
        for it in self.sessions:
            it.is_lost = True


class Machine(ApplicationCalls, DeviceCalls):
    """All calls, with the count of the locked ones and the place of the call that published last. A call that is held back raises
    HeldBack and changes nothing."""

    def make(self, op: str, fields: Fields) -> Answer:
        """A call of an application."""
        try:
            answer: Answer = getattr(self, "await_mark" if op == "await" else op)(**fields) or Answer()
        except Refused as e:
            answer = e.answer
        if op not in GETTERS:
            self.locked += 1
            if op in PUBLISHING and answer.code in PUBLISHED_BY:
                self.published = self.locked
        return answer

    def ask_for_frame(self) -> str:
        """The compositor's `next_frame`, which it makes once it has given back all images: the frame that is pending longest, as a report
        prints it, or that none will come."""
        refuse(len(self.frames.held) > 0, "XR_ERROR_CALL_ORDER_INVALID")
        if not self.frames.pending and self.present:
            raise HeldBack
        self.locked += 1
        return self.frames.take() if self.frames.pending else ENDED

    def image_done(self) -> None:
        """The first image that the compositor holds is given back, which isn't counted."""
        refuse(not self.frames.held, "XR_ERROR_CALL_ORDER_INVALID")
        self.frames.held.popleft()

    def place_of(self, op: str) -> int:
        """The place in the reply to an application's call, once it was made."""
        return self.published if op in GETTERS else self.locked
