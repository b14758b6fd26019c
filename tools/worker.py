"""The order in which one worker runs the tasks of a plan.

Which of the ready tasks is started is the table's own choice: it starts the one that became ready last, so that a chunk is read soon
after it is made, and at first the first in the plan's order. A table of cases needs the order only to say which call is the first that
fails, and what is stored by then.
"""


class Task:
    """A task: its operation, its number there, and the keys that it reads and writes. One of a view waits for whole operations."""

    def __init__(self, op, number, reads, writes, waits_for=None):
        self.op, self.number, self.reads, self.writes, self.waits_for = op, number, reads, writes, waits_for


def in_turn(tasks, found=()):
    """Returns the tasks of a plan, which are given in its order, in the order in which one worker runs them where no call fails. Those
    whose places are among the found ones are done at first."""
    maker = {key: at for at, task in enumerate(tasks) for key in task.writes}
    of_op = {}
    for at, task in enumerate(tasks):
        of_op.setdefault(task.op, []).append(at)
    done, ready, waiting, order = set(found), [], {}, []

    def blocker(task):
        """Returns what keeps a task waiting: the last undone task that makes what it reads, or the first undone operation of a view."""
        if task.waits_for is not None:
            return next((("operation", op) for op in task.waits_for if not done.issuperset(of_op[op])), None)
        undone = [maker[key] for key in task.reads if key in maker and maker[key] not in done]
        return ("task", undone[-1]) if undone else None

    def settle(at):
        thing = blocker(tasks[at])
        if thing is None:
            ready.append(at)
        else:
            waiting.setdefault(thing, []).insert(0, at)

    for at in reversed(range(len(tasks))):
        if at not in done:
            settle(at)
    while ready:
        at = ready.pop()
        done.add(at)
        order.append(tasks[at])
        for thing in [("task", at)] + ([("operation", tasks[at].op)] if done.issuperset(of_op[tasks[at].op]) else []):
            woken = waiting.pop(thing, [])
            for other in woken:
                settle(other)
    assert len(order) == len(tasks) - len(set(found))
    return order


def calls_of(tasks):
    """Returns the calls for chunks that a run makes where none fails: key, how many keys are stored by then, and whose they are."""
    calls, stored = [], 2
    for task in in_turn(tasks):
        calls += [(key, stored, (task.op, task.number)) for key in task.reads]
        for key in task.writes:
            calls.append((key, stored, (task.op, task.number)))
            stored += 1
    return calls


def in_order_stored(leaves, tasks):
    """Returns what a run leaves, the two texts first and then the chunks in the order in which one worker stores them."""
    chunks = dict((key, [key, value]) for key, value in leaves[2:])
    return leaves[:2] + [chunks[key] for task in in_turn(tasks) for key in task.writes]
