"""The loop of a run that is followed: futures, tasks, timers, cancels, timeouts and groups.

docs/MACHINE.md tells the rules, and `crates/model_loop` defines them. What happens is told to `notes`, which draws it.
"""

import heapq
from collections import deque

from .values import Exc, Raised, depth, weight

MOST_TIME = 2**63 - 1
LONGEST_WAIT = 86400000
CANCELLED = ("cancelled",)


def exception(kind, text=""):
    return Exc(kind, text)


class Future:
    """Plain, a task's, or one that stands for several, its `members`; `outcome` is None while it is pending, else ("value", v),
    ("failed", e) or ("cancelled",). `asked`: a cancel came to it, and to one of its members."""

    def __init__(self, task=None, members=None):
        self.task, self.members, self.outcome, self.callbacks, self.asked = task, members, None, [], False

    def passes(self):
        """What it waits for while it is pending."""
        if self.outcome is not None:
            return []
        if self.members is not None:
            return self.members
        return [self.task.waiter] if self.task and self.task.waiter else []


class Task:
    def __init__(self, number, coroutine, generator):
        self.number, self.coroutine, self.generator = number, coroutine, generator
        self.future = Future(self)
        self.waiter, self.must_cancel, self.count = None, False, 0
        self.standing = None
        self.frames = [(coroutine, 0)]
        self.line = 0


class Handle:
    """An action with its words; `by` is the number of the handle that ran as it was appended, -1 for the outside."""

    __slots__ = ("action", "dead", "by", "when")

    def __init__(self, action, by, when=0):
        self.action, self.dead, self.by, self.when = action, False, by, when


class Timeout:
    def __init__(self, number, task, stored):
        self.number, self.task, self.stored = number, task, stored
        self.state, self.handle = "active", None


class Group:
    def __init__(self, number, parent):
        self.number, self.parent = number, parent
        self.exiting = self.aborting = self.requested = self.ended = False
        self.made = 0
        self.children, self.errors, self.body, self.kept, self.exit_future = [], [], None, None, None


class Loop:
    def __init__(self, profile, notes):
        self.profile, self.notes = profile, notes
        self.time, self.pending, self.timers, self.scheduled = 0, deque(), [], 0
        self.tasks, self.timeouts, self.groups, self.live = [], [], [], 0
        # the number of the handle that runs, as the trace's lines count
        self.running = -1

    # ---- handles and timers
    def soon(self, *action):
        handle = Handle(action, self.running)
        self.pending.append(handle)
        return handle

    def later(self, when, *action):
        handle = Handle(action, self.running, when)
        self.scheduled += 1
        heapq.heappush(self.timers, (when, self.scheduled, handle))
        return handle

    def deadline(self, delay):
        return min(max(self.time + delay, 0), MOST_TIME)

    def earliest(self):
        while self.timers and self.timers[0][2].dead:
            heapq.heappop(self.timers)
        return self.timers[0][0] if self.timers else None

    def due(self):
        while self.earliest() is not None and self.timers[0][0] <= self.time:
            self.pending.append(heapq.heappop(self.timers)[2])

    def wait(self):
        if self.pending:
            return 0
        earliest = self.earliest()
        return None if earliest is None else min(max(earliest - self.time, 0), LONGEST_WAIT)

    # ---- futures
    def settle(self, future, *outcome):
        if future.outcome is None:
            future.outcome = outcome
            for action in future.callbacks:
                self.soon(*action)
            future.callbacks = []

    def register(self, future, *action):
        if future.outcome is None:
            future.callbacks.append(action)
        else:
            self.soon(*action)

    # ---- tasks
    def spawn(self, coroutine, generator):
        task = Task(len(self.tasks), coroutine, generator)
        self.tasks.append(task)
        self.live += 1
        self.soon("step", task)
        return task

    def finish(self, task, outcome):
        self.live -= 1
        if outcome[0] == "value" and task.must_cancel:
            outcome, task.must_cancel = CANCELLED, False
        elif outcome[0] == "failed" and outcome[1].kind == "CancelledError":
            outcome = CANCELLED
        task.generator = None
        self.settle(task.future, *outcome)
        self.notes.ended(task, outcome)

    def cycle(self, task, future):
        """Whether an await leads back to the task."""
        if future is task.future:
            return "itself"
        seen, ways = set(), [future]
        while ways:
            one = ways.pop()
            if id(one) not in seen:
                seen.add(id(one))
                ways += one.passes()
            if one is task.future:
                return "a task that waits for it"
        return None

    def suspend(self, task, future):
        found = self.cycle(task, future)
        if found:
            self.soon("cycle", task, f"Task cannot await {'on ' if found == 'itself' else ''}{found}")
            return
        task.waiter = future
        self.register(future, "wakeup", task)
        if task.must_cancel and self.cancel(future, ("wait", task)):
            task.must_cancel = False

    # ---- cancels: `by` says who asks, as ("task", task), ("timeout", timeout), ("group", group) or ("end",)
    def cancel(self, future, by):
        reached = []
        answer = self.cancels(future, [], reached)
        self.notes.cancelled(by, future, reached, answer)
        return answer

    def cancels(self, future, seen, reached):
        if future.outcome is not None:
            return False
        task = future.task
        if future.members is not None:
            answers = [self.cancels(member, seen, reached) for member in future.members]
            future.asked = future.asked or any(answers)
            return any(answers)
        if task is None:
            self.settle(future, *CANCELLED)
            return True
        if task in seen:
            return True
        seen.append(task)
        reached.append(task)
        task.count = min(task.count + 1, MOST_TIME)
        if task.waiter is None or not self.cancels(task.waiter, seen, reached):
            task.must_cancel = True
        return True

    def uncancel(self, task):
        if task.count:
            task.count -= 1
            task.must_cancel = task.must_cancel and (self.profile < 2 or task.count > 0)
        return task.count

    # ---- timeouts
    def enter_timeout(self, task, delay):
        timeout = Timeout(len(self.timeouts), task, task.count)
        self.timeouts.append(timeout)
        self.schedule(timeout, None if delay is None else self.deadline(delay))
        return timeout

    def schedule(self, timeout, when):
        self.give_up(timeout)
        if when is not None:
            place = (self.soon,) if when <= self.time else (self.later, when)
            timeout.handle = place[0](*place[1:], "timeout", timeout)
        self.notes.scheduled(timeout, when)

    def give_up(self, timeout):
        if timeout.handle:
            timeout.handle.dead = True
        timeout.handle = None

    def fire(self, timeout):
        timeout.state, timeout.handle = "expiring", None
        self.cancel(timeout.task.future, ("timeout", timeout))

    def exit_timeout(self, timeout, raised):
        """Whether TimeoutError is raised."""
        self.give_up(timeout)
        if timeout.state != "expiring":
            timeout.state = "finished"
            return False
        timeout.state = "expired"
        count = self.uncancel(timeout.task)
        return count <= timeout.stored and raised is not None and raised.kind == "CancelledError"

    # ---- groups
    def enter_group(self, parent):
        group = Group(len(self.groups), parent)
        self.groups.append(group)
        return group

    def refusal(self, group):
        if group.exiting and not group.children:
            return "TaskGroup is finished"
        return "TaskGroup is shutting down" if group.aborting else None

    def create(self, group, coroutine, generator):
        task = self.spawn(coroutine, generator)
        group.children.append(task)
        group.made += 1
        self.register(task.future, "groupdone", group, task)
        return task

    def abort(self, group):
        group.aborting = True
        for task in list(group.children):
            if task.future.outcome is None:
                self.cancel(task.future, ("group", group))

    def child_done(self, group, task):
        group.children.remove(task)
        if not group.children and group.exit_future:
            self.settle(group.exit_future, "value", None)
        if task.future.outcome[0] == "failed":
            group.errors.append(task.future.outcome[1])
            if not group.aborting and not group.requested:
                self.abort(group)
                group.requested = True
                self.cancel(group.parent.future, ("group", group))

    def begin_exit(self, group, raised):
        """What the exit comes to: ("waits", future), ("passes",) or ("raises", exception)."""
        group.exiting, group.body = True, raised
        group.kept = raised if raised is not None and raised.kind == "CancelledError" else None
        if self.profile < 2:
            self.take_back(group)
        if raised is not None and not group.aborting:
            self.abort(group)
        return self.wait_or_end(group)

    def take_back(self, group):
        if group.requested and self.uncancel(group.parent) == 0:
            group.kept = None

    def exit_woken(self, group, thrown):
        group.exit_future = None
        if thrown is not None and not group.aborting:
            group.kept = thrown
            self.abort(group)
        return self.wait_or_end(group)

    def wait_or_end(self, group):
        if group.children:
            group.exit_future = Future()
            return ("waits", group.exit_future)
        if self.profile >= 2:
            self.take_back(group)
        group.ended = True
        if group.kept is not None and not group.errors:
            return ("raises", group.kept)
        if group.body is not None and group.body.kind != "CancelledError":
            group.errors.append(group.body)
        if not group.errors:
            return ("passes",)
        whole = Exc("ExceptionGroup", "unhandled errors in a TaskGroup", b"", tuple(group.errors))
        bearable = depth(whole) <= 64 and weight(whole) <= 1048576
        return ("raises", whole if bearable else whole._replace(members=()))


def input_of(outcome):
    """What an await of something done gives: it answers the value, or raises."""
    if outcome[0] == "value":
        return outcome[1]
    raise Raised(outcome[1] if outcome[0] == "failed" else exception("CancelledError"))


def passed(value, thrown):
    if thrown is not None:
        raise Raised(thrown)
    return value


class Waits(Exception):
    """The request ends the step: on a future, or None for the next step. `standing` makes of what comes what the request gives."""

    def __init__(self, future, why, standing=None):
        super().__init__(why)
        self.future, self.why, self.standing = future, why, standing
