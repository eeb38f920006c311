"""What a server's log has to be by all that its clients were told: each accepted write tells its revision, so the writes are
one list, however many clients wrote at once. All that was shown of the log is judged by it: objects, lists, streams. By a code
of its own, which shares nothing with the server's."""
import bisect
import collections
import itertools
import typing

from replies import Amiss, same

# the labels by which is listed and watched: all objects, and those of one
ALL, ONE = "", "a"


class State(typing.NamedTuple):
    """What stands under a name: a label, and a number of its own, which no other state has."""
    app: str
    number: int

    def note(self):
        """A text of the object that the number determines."""
        return f"{self.number}:" + "n" * (self.number * 7919 % 200)

    def object(self, name, at=0):
        """The object, to be put in the place of that of a revision, or of any."""
        metadata = {"labels": {"app": self.app}, "name": name} | ({"resourceVersion": str(at)} if at else {})
        return {"metadata": metadata, "note": self.note()}


class Change(typing.NamedTuple):
    """A change that is asked for: `op` is create, replace or remove; `at` the revision that is replaced, 0 for any."""
    op: str
    name: str
    state: State | None = None
    at: int = 0


class Row(typing.NamedTuple):
    """An object as it is shown."""
    name: str
    at: int
    state: State


def row_of(value):
    metadata = value["metadata"]
    state = State(metadata["labels"]["app"], int(value["note"].partition(":")[0]))
    same("an object's note", value["note"], state.note())
    return Row(metadata["name"], int(metadata["resourceVersion"]), state)


def selects(label, row):
    return row is not None and label in (ALL, row.state.app)


def event_of(label, at, before, after):
    """What a watch by a label is told of a change: a type and a row; None for nothing."""
    if selects(label, after):
        return "MODIFIED" if selects(label, before) else "ADDED", after
    return ("DELETED", before._replace(at=at)) if selects(label, before) else None


class Shown:
    """How many rows a list of a label has, and a sum of them, which two sets of rows share only if they are one."""

    def __init__(self, rows=()):
        self.count = self.sum = 0
        for row in rows:
            self.move(None, row)

    def move(self, before, after):
        for row, sign in ((before, -1), (after, 1)):
            if row:
                self.count, self.sum = self.count + sign, self.sum + sign * hash(row)

    def both(self):
        return self.count, self.sum


class History:
    """The log. The writes of some names have replies that nobody reads."""

    def __init__(self):
        self.last, self.commits = 1, {}
        self.rows, self.lists, self.streams = [], [], []
        self.unread = collections.defaultdict(set)

    def accept(self, at, changes):
        """A write, or a transaction, that was accepted at this revision."""
        if at < 2 or at in self.commits:
            raise Amiss(f"a write at revision {at}, which another one has")
        self.commits[at] = sorted(changes, key=lambda it: it.name)
        self.last = max(self.last, at)

    def leave_unread(self, change):
        """A write whose reply nobody reads, of a name that only such writes have."""
        self.unread[change.name].add(change.state)

    def known(self, rows):
        """The rows without those of unread writes, whose states have to be some that were asked for."""
        for it in rows:
            if it.name in self.unread and it.state not in self.unread[it.name]:
                raise Amiss(f"an object that nobody asked for: {it}")
        return [it for it in rows if it.name not in self.unread]

    def show_row(self, row):
        self.rows.append(row)

    def show_list(self, at, label, rows):
        same("a list's order", [it.name for it in rows], sorted({it.name for it in rows}))
        self.lists.append((at, label, Shown(self.known(rows)).both()))

    def show_stream(self, start, label, events):
        """What a watch from this revision was told, up to where its client left."""
        self.known(row for _, row in events)
        self.streams.append((start, label, [it for it in events if it[1].name not in self.unread]))

    def judge(self):
        """Compares all that was shown with the log. Answers what stands under each name at its end."""
        live, told, shown = {}, {ALL: [], ONE: []}, {ALL: Shown(), ONE: Shown()}
        lists = collections.deque(sorted(self.lists))
        for at in sorted(self.commits):
            self.judge_lists(lists, at, shown)
            for change in self.commits[at]:
                before = live.pop(change.name, None)
                same(f"whether there is what {change} at {at} is of", bool(before), change.op != "create")
                if change.at:
                    same(f"what {change} at {at} replaces", before.at, change.at)
                after = change.state and Row(change.name, at, change.state)
                if after:
                    live[change.name] = after
                for label in told:
                    shown[label].move(*(it if selects(label, it) else None for it in (before, after)))
                    if event := event_of(label, at, before, after):
                        told[label].append(event)
        self.judge_lists(lists, 1 << 63, shown)
        for row in self.rows:
            same(f"that {row} was written", (row.name, row.state) in [it[1:3] for it in self.commits.get(row.at, [])], True)
        for start, label, events in self.streams:
            begin = bisect.bisect_right(told[label], start, key=lambda event: event[1].at)
            for number, (event, wanted) in enumerate(itertools.zip_longest(events, told[label][begin:begin + len(events)])):
                same(f"event {number} of a watch from {start} by {label!r}", event, wanted)
        return live

    def judge_lists(self, lists, before, shown):
        """Those at a revision below this one, which come first."""
        while lists and lists[0][0] < before:
            at, label, both = lists.popleft()
            same(f"how many rows a list at {at} by {label!r} has, and their sum", both, shown[label].both())
