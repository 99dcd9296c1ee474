"""Which runs end, and which hang, whatever the order of calls, as it may be on threads."""
from __future__ import annotations

from collections.abc import Iterable

from scenarios.reading import Op, Scripts

# A run hangs where all that haven't ended wait, and nothing can change that any more. What may be waited for:
#
# - The compositor waits while no frame is pending. It gives back all images that it holds, takes each frame that is pending, and
#   is told the end once all scripts have left. So it hangs only where a script does.
# - `wait_image` waits while a frame that is pending uses the image, or the compositor holds it. The compositor takes all pending
#   frames and gives all images back, so this ends.
# - `wait_frame` waits while the pending frames of all sessions and the begun one of its own are more than two, which ends likewise;
#   and while a frame of its session is waited for that isn't begun. Say that behind each `wait_frame` its script has a `begin_frame`
#   of the same session before it waits for a mark or a frame again. Whose wait for a session's frame succeeded last then comes to its
#   begin, as nothing but an image can hold it up. That begin finds the frame waited for, and begins it; or it finds none, the session
#   gone, lost, or in another running period, and in each of these nothing is waited for, or a wait is refused. And the waits of a run
#   are so many and no more.
# - An `await` waits for its mark, and a mark that is set stays set. So which awaits end doesn't depend on the order: one order in
#   which all come to their ends, as the round robin, shows it of all; and where frames come, one that is stuck does so too.


def begins(wait: Op, behind: Iterable[Op]) -> bool:
    """Whether a wait for a frame has its begin before its script waits again."""
    session = wait.fields["session"]
    for it in behind:
        if it.name == "begin_frame" and it.fields["session"] == session:
            return True
        if it.name in ("await", "wait_frame") or it.fields.get("as", 0) == session:
            return False
    return False


def frames_come(scripts: Scripts) -> bool:
    """Whether each wait for a frame ends whatever the order. One that is alone has none before it that isn't begun."""
    waits = [begins(it, ops[at:]) for ops in scripts for at, it in enumerate(ops, 1) if it.name == "wait_frame"]
    return len(waits) == 1 or all(waits)


def cannot_hang(scripts: Scripts, is_stuck: bool) -> bool:
    """Whether each wait for a frame ends, and each for a mark: nobody is stuck in the order of the round robin."""
    return frames_come(scripts) and not is_stuck
