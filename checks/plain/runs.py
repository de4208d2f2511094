"""Runs a script: its permutations one after the other, with what is launched, held back, cancelled and printed."""
from bounds import accepts
from course import Database
from history import History, Snapshot
from values import Refusal

CANCELLED = ("57014", "statement cancelled")


class Failed(Exception):
    """A setup, or the control session's teardown, has failed; so the run ends."""


def error_line(refusal):
    return f"ERROR:  {refusal.code} {refusal.text}\n"


class Task:
    """A step that was launched. It ends once, and its end is told once."""

    def __init__(self, use, number):
        self.use, self.number = use, number
        self.out, self.refusal = [], None
        self.has_ended = self.is_told = False


class Permutation:
    def __init__(self, script, uses, write, watches, has_trail=False):
        self.script, self.uses, self.write, self.watches, self.has_trail = script, uses, write, watches, has_trail
        names = ["control"] + [session.name for session in script.sessions]
        self.history = History(names)
        self.database = Database(self.history, self.cancel_wait_of)
        self.running = {}        # the block of a session that waits: its task, its generator
        self.ended = []          # the tasks that have ended, in this order
        self.cut = []            # the sessions whose waits a statement has cancelled, until these have gone on
        self.tasks = []
        self.watched = 0
        self.waits = self.errors = 0     # launches that are reported as waiting, and lines of errors

    # ---- blocks

    def at_once(self, session, text):
        """Runs a block of a setup or a teardown, which does not wait. The answer is its refusal."""
        out, block = [], None
        block = self.database.block(session, text, out)
        try:
            next(block)
            block.throw(Refusal(*CANCELLED))
        except StopIteration as end:
            self.write("".join(out))
            self.watch()
            return end.value
        raise AssertionError("a block goes on behind its refusal")

    def go_on(self, task, step):
        """One event of a block: up to its next wait, or to its end."""
        session = task.use.step.session
        try:
            step()
        except StopIteration as end:
            self.running.pop(session, None)
            task.has_ended, task.refusal = True, end.value
            self.ended.append(task)
        self.watch()

    def cancel(self, session):
        task, block = self.running[session]
        self.go_on(task, lambda: block.throw(Refusal(*CANCELLED)))
        return task

    def cancel_wait_of(self, session):
        """pg_cancel_backend: the wait is over at once, and the statement that waited fails when nobody acts."""
        for wait in [wait for wait in self.history.waits if wait.session == session]:
            self.history.end_wait(wait)
            self.cut.append(session)

    # ---- reports

    def is_held(self, task):
        if task.use.star and task.number == len(self.tasks):
            return True
        return any(
            other is not task and not other.is_told and other.use.step.name in task.use.others for other in self.tasks
        )

    def tell(self, task, line):
        task.is_told = True
        self.write(f"step {task.use.step.name}: {line}\n" + "".join(task.out))
        if task.refusal:
            self.errors += 1
            self.write(error_line(task.refusal))

    def report(self, task):
        if task.has_ended and not self.is_held(task):
            self.tell(task, "<... completed>")

    def settle(self):
        """What comes while nobody acts: whose wait a statement has cancelled, then ends that are not held back any more,
        then the oldest wait that can go on."""
        while True:
            if self.cut:
                self.report(self.cancel(self.cut.pop(0)))
                continue
            free = [task for task in self.ended if not task.is_told and not self.is_held(task)]
            if free:
                self.tell(free[0], "<... completed>")
                continue
            wait = self.history.ready()
            if wait is None:
                return
            task, block = self.running[wait.session]
            self.go_on(task, lambda: next(block))
            self.report(task)

    def launch(self, use):
        session = use.step.session
        while True:
            self.settle()
            untold = [task for task in self.ended if not task.is_told and task.use.step.session == session]
            if session in self.running:
                self.cancel(session)
            elif untold:
                self.tell(untold[0], "<... completed>")
            else:
                break
        task = Task(use, len(self.tasks) + 1)
        self.tasks.append(task)
        block = self.database.block(session, use.step.text, task.out, self.has_trail)
        self.running[session] = (task, block)
        self.go_on(task, lambda: next(block))
        if task.has_ended and not self.is_held(task):
            self.tell(task, use.step.text)
        else:
            self.waits += 1
            self.write(f"step {use.step.name}: {use.step.text} <waiting ...>\n")

    # ---- the whole

    def setup(self, session, text, name):
        refusal = self.at_once(session, text)
        if refusal:
            raise Failed(f"setup of {name} failed: {refusal.code} {refusal.text}\n")

    def begin(self):
        script = self.script
        for text in script.setups:
            self.setup(0, text, "control")
        for number, session in enumerate(script.sessions, 1):
            if session.setup is not None:
                self.setup(number, session.setup, session.name)

    def run(self):
        script = self.script
        self.write("\nstarting permutation: " + " ".join(use.step.name for use in self.uses) + "\n")
        self.begin()
        for use in self.uses:
            self.launch(use)
        self.settle()
        while self.history.waits:
            self.cancel(self.history.waits[0].session)
            self.settle()
        for task in self.ended:
            if not task.is_told:
                self.tell(task, "<... completed>")
        for number, session in enumerate(script.sessions, 1):
            if session.teardown is not None:
                refusal = self.at_once(number, session.teardown)
                if refusal:
                    self.errors += 1
                    self.write(f"teardown of {session.name}: {error_line(refusal)}")
        for session in range(len(script.sessions) + 1):
            self.database.finish(session, False)
        if script.teardown is not None:
            refusal = self.at_once(0, script.teardown)
            if refusal:
                raise Failed(f"teardown of control failed: {refusal.code} {refusal.text}\n")

    # ---- what has to hold after each event

    def watch(self):
        """In each session's trees each row that is seen lies in a leaf that accepts it, and passes the CHECKs that are kept."""
        history = self.history
        if not self.watches or self.watched == history.changes:
            return
        self.watched = history.changes
        # (sessions without an open transaction are shown the same)
        viewers = list(history.open) + [next(iter({*range(len(history.names) + 1)} - {*history.open}))]
        for session in viewers:
            held = history.held.get(session)
            snapshots = [Snapshot(history.now, history.open.get(session), 2**31)]
            if held:
                snapshots.append(Snapshot(held.place, held.tx, 2**31))
            for table in history.tables:
                if table.level is not None and history.is_present(table, session):
                    if history.entry_of(table, session) is None:
                        for snapshot in snapshots:
                            self.look(session, history.tree(table, session), [], snapshot)
                if table.level is None and history.is_present(table, session):
                    for snapshot in snapshots:
                        self.look_at_checks(session, table, snapshot)

    def look_at_checks(self, session, table, snapshot):
        for _, level, bound in self.history.checks(table, session):
            for version in self.history.seen(table, snapshot):
                if not bound.accepts(level.key(version.values)):
                    raise AssertionError(f"{table.name} has a row that a kept CHECK refuses: {version.values}")

    def look(self, session, tree, above, snapshot):
        if tree.table.level is None:
            for version in self.history.seen(tree.table, snapshot):
                for level, bounds, bound in above:
                    if not accepts(bounds, bound, level.key(version.values)):
                        raise AssertionError(f"{tree.table.name} has a row that it does not accept: {version.values}")
        for child, bound in zip(tree.children, tree.bounds):
            self.look(session, child, above + [(tree.table.level, tree.bounds, bound)], snapshot)


def run_script(script, watches=False, has_trail=False):
    """What a script prints, what it writes of errors, and the status."""
    out = [f"Parsed test spec with {len(script.sessions)} sessions\n"]
    try:
        for uses in script.permutations:
            Permutation(script, uses, out.append, watches, has_trail).run()
    except Failed as failed:
        return "".join(out), str(failed), 1
    return "".join(out), "", 0


def summary(script, seed):
    """The counts of the run of a script that a seed has made."""
    steps = waits = errors = rows = reads = 0
    for uses in script.permutations:
        run = Permutation(script, uses, lambda text: None, False)
        run.run()
        steps, waits, errors = steps + len(run.tasks), waits + run.waits, errors + run.errors
        rows, reads = rows + run.database.rows, reads + run.database.reads
    return f"seed {seed}\nsteps {steps}\nwaits {waits}\nerrors {errors}\nrows {rows}\nreads {reads}\n"
