#!/usr/bin/env python3
"""Writes client.json and client.device into a folder, or else beside itself: the calls of a usual first client, from its instance to its exit.

It makes its actions and suggests bindings, comes to a session with a swapchain for each eye, and goes through frames in each of which it polls,
syncs, locates the head and the hands, and paints both eyes. Then it asks to exit, follows the session's states to the end, and destroys what it
made.
"""
from __future__ import annotations

import sys
from pathlib import Path

HERE = Path(__file__).resolve().parent
sys.path.insert(0, str(HERE.parent / "tools"))
sys.dont_write_bytecode = True

from scenarios.writing import Device, Scenario, Script  # noqa: E402

FRAMES, LAST = 9, 3
WIDTH, HEIGHT = 1440, 1584
HANDS = "/user/hand/left", "/user/hand/right"
PROFILES = {"khr/simple_controller": "select/click", "oculus/touch_controller": "trigger/value"}


class Client:
    """The application with what it made."""

    def __init__(self, app: Script) -> None:
        self.app, self.frames = app, 0
        self.instance = app.create_instance(1, 0)
        self.system = app.get_system(self.instance, "head")
        self.describe_input()
        self.session = app.create_session(self.instance, self.system)
        app.attach_sets(self.session, [self.set])
        self.room = app.create_reference_space(self.session, "local", 1)
        self.head = app.create_reference_space(self.session, "view", 1)
        self.grips = [app.create_action_space(self.session, self.hand, it, 1) for it in self.hands]
        self.eyes = [app.create_swapchain(self.session, 1, WIDTH, HEIGHT, False) for _ in range(2)]

    def path(self, text: str) -> str:
        return self.app.string_to_path(self.instance, text)

    def describe_input(self) -> None:
        """A set with a click, a pull and the hands, for each of two controllers."""
        app = self.app
        self.hands = [self.path(it) for it in HANDS]
        self.set = app.create_action_set(self.instance, "play", "Playing", 0)
        self.grab = app.create_action(self.set, "grab", "boolean", self.hands, "Grab")
        self.pull = app.create_action(self.set, "pull", "float", self.hands, "Pull")
        self.hand = app.create_action(self.set, "hand", "pose", self.hands, "Hand")
        self.buzz = app.create_action(self.set, "buzz", "vibration", self.hands, "Buzz")
        for profile, entry in PROFILES.items():
            known = self.path(f"/interaction_profiles/{profile}")
            inputs = [(self.grab, f"input/{entry}"), (self.pull, f"input/{entry}"), (self.hand, "input/grip/pose"), (self.buzz, "output/haptic")]
            bindings = [[action, self.path(f"{hand}/{it}")] for action, it in inputs for hand in HANDS]
            app.suggest_bindings(self.instance, known, bindings)

    def poll(self, times: int) -> None:
        for _ in range(times):
            self.app.poll_event(self.instance)

    def frame(self) -> None:
        """A frame, with what the application looks at and paints in it."""
        app, self.frames = self.app, self.frames + 1
        self.poll(1)
        time = app.wait_frame(self.session)
        app.begin_frame(self.session)
        app.sync_actions(self.session, [[self.set, 0]])
        for hand in self.hands:
            app.get_boolean(self.session, self.grab, hand)
            app.get_float(self.session, self.pull, hand)
            app.get_pose_active(self.session, self.hand, hand)
        for space in (self.head, *self.grips):
            app.locate_space(space, self.room, time)
        for number, eye in enumerate(self.eyes):
            app.acquire_image(eye)
            app.wait_image(eye, "inf")
            app.paint(eye, 10 * self.frames + number)
            app.release_image(eye)
        views = [[eye, 0, 0, WIDTH, HEIGHT] for eye in self.eyes]
        app.end_frame(self.session, time, "opaque", [{"projection": self.room, "views": views}])

    def leave(self) -> None:
        """Destroys what was made, the last first."""
        app = self.app
        for eye in self.eyes:
            app.destroy_swapchain(eye)
        for space in (*self.grips, self.head, self.room):
            app.destroy_space(space)
        app.destroy_session(self.session)
        app.destroy_action_set(self.set)
        app.destroy_instance(self.instance)


def main(folder: Path) -> None:
    scenario, device = Scenario(), Device()
    app = scenario.script()
    client = Client(app)
    device.tell("# a headset with two controllers; it is put on once there is a session")
    device.grid(0, 11111111)
    for number, hand in enumerate(HANDS, 1):
        device.profile(hand, "oculus/touch_controller").pose(f"{hand}/input/grip/pose", 0, 20 + number)
    device.pose("local", 0, 5).pose("view", 0, 7)
    app.mark(1)
    device.await_mark(1).wish("focused").mark(2)
    app.await_mark(2)
    client.poll(2)
    app.begin_session(client.session, "stereo")
    device.tell("# a trigger is pulled while frames go, and the head moves")
    for number in range(1, FRAMES + 1):
        client.frame()
        if number == LAST:
            app.mark(3)
            device.await_mark(3).clock(30000000).input(f"{HANDS[1]}/input/trigger/value", 30000).pose("view", 40000000, 8).mark(4)
            app.await_mark(4)
    app.request_exit_session(client.session)
    client.poll(3)
    client.frame()
    app.end_session(client.session)
    client.poll(3)
    client.leave()
    scenario.write(str(folder / "client.json"))
    device.write(str(folder / "client.device"))


if __name__ == "__main__":
    main(Path(sys.argv[1]) if len(sys.argv) > 1 else HERE)
