"""The list of all that has happened in a permutation, and what the definitions of PostgreSQL's manual (13.2, 13.3,
5.11) say of it: what snapshots see, which tables and partitions are there for whom, who holds and waits for what.

Everything is looked up in lists of events that only grow; nothing is ever changed in its place.
"""
from collections import defaultdict

import bounds
from values import Refusal

MODES = {
    "ACCESS SHARE": 1, "ROW SHARE": 2, "ROW EXCLUSIVE": 3, "SHARE UPDATE EXCLUSIVE": 4, "SHARE": 5,
    "SHARE ROW EXCLUSIVE": 6, "EXCLUSIVE": 7, "ACCESS EXCLUSIVE": 8,
}
AS, RS, RE, SUE, S, SRE, E, AE = range(1, 9)
CONFLICTS = {
    AS: {AE}, RS: {E, AE}, RE: {S, SRE, E, AE}, SUE: {SUE, S, SRE, E, AE}, S: {RE, SUE, SRE, E, AE},
    SRE: {RE, SUE, S, SRE, E, AE}, E: {RS, RE, SUE, S, SRE, E, AE}, AE: {AS, RS, RE, SUE, S, SRE, E, AE},
}


class Snapshot:
    """A place in the list of events, a transaction, and the number of a command in it."""

    def __init__(self, place, tx, cmd):
        self.place, self.tx, self.cmd = place, tx, cmd


class Version:
    """A row version. `ends` are the events that end it: (transaction, command, how, what became of it)."""

    def __init__(self, number, table, values, tx, cmd):
        self.number, self.table, self.values, self.tx, self.cmd, self.ends = number, table, values, tx, cmd, []


class Table:
    """A table, with the events that drop it. `level` is None where it is not partitioned."""

    def __init__(self, number, name, columns, level, tx):
        self.number, self.name, self.columns, self.level, self.tx, self.ends = number, name, columns, level, tx, []
        self.versions = []
        self.checks = []                    # the CHECKs that were kept: (transaction, level, bound)


class Entry:
    """That a table is a partition of another one, with the events that end it, and those that mark it pending."""

    def __init__(self, parent, child, bound, tx):
        self.parent, self.child, self.bound, self.tx, self.ends = parent, child, bound, tx, []
        self.marks = []                     # (transaction, command)


class Tree:
    """A table with the trees below it, in plain order, and their bounds."""

    def __init__(self, table, bounds, children):
        self.table, self.bounds, self.children = table, bounds, children

    def below(self):
        """The trees below, each before those below it."""
        for child in self.children:
            yield child
            yield from child.below()

    def leaves(self):
        if self.table.level is None:
            yield self.table
        for child in self.children:
            yield from child.leaves()


class Wait:
    """A wait of a session: for a lock, for transactions, or for snapshots that are held."""

    def __init__(self, session, table=None, mode=None, txs=(), snapshots=()):
        self.session, self.table, self.mode, self.txs, self.snapshots = session, table, mode, txs, snapshots


class History:
    def __init__(self, names):
        self.names = names                  # of the sessions, the control session first
        self.now = 0                        # the place: how many events there were
        self.changes = 0                    # how many of them change what somebody may see
        self.owners = []                    # the session of each transaction
        self.fates = {}                     # of a transaction that has ended: its place, and whether it was committed
        self.open = {}                      # the open transaction of a session
        self.tables, self.entries, self.versions = [], [], []
        self.entries_of = defaultdict(list)
        self.held_locks = defaultdict(list)  # the locks that each session has got since it last gave up all
        self.waits = []                     # the waits that are not over, the oldest first
        self.held = {}                      # the snapshot that a session holds

    # ---- transactions and snapshots

    def begin(self, session):
        self.owners.append(session)
        self.open[session] = len(self.owners) - 1
        self.now += 1

    def end(self, session, is_committed):
        """Ends the transaction of a session: its locks and its snapshot are given up."""
        self.fates[self.open.pop(session)] = (self.now, is_committed)
        self.changed()
        self.held_locks[session] = []
        self.held.pop(session, None)

    def changed(self):
        self.now += 1
        self.changes += 1

    def is_running(self, tx):
        return tx not in self.fates

    def is_committed(self, tx):
        return tx in self.fates and self.fates[tx][1]

    def is_aborted(self, tx):
        return tx in self.fates and not self.fates[tx][1]

    def sees(self, snapshot, tx, cmd):
        if tx in self.fates and self.fates[tx][1] and self.fates[tx][0] < snapshot.place:
            return True
        return tx == snapshot.tx and cmd < snapshot.cmd

    def counts(self, tx, session):
        """Whether what a transaction made or ended is so for a session: it is committed, or the session's own."""
        return self.is_committed(tx) or tx == self.open.get(session)

    def is_present(self, thing, session):
        return self.counts(thing.tx, session) and not any(self.counts(tx, session) for tx in thing.ends)

    # ---- rows

    def end_of(self, version):
        """The last event that ended a version and was not undone."""
        for end in reversed(version.ends):
            if not self.is_aborted(end[0]):
                return end
        return None

    def is_seen(self, version, snapshot):
        if not self.sees(snapshot, version.tx, version.cmd):
            return False
        end = self.end_of(version)
        return end is None or not self.sees(snapshot, end[0], end[1])

    def seen(self, table, snapshot):
        return [version for version in table.versions if self.is_seen(version, snapshot)]

    def put(self, table, values, tx, cmd):
        version = Version(len(self.versions), table, values, tx, cmd)
        self.versions.append(version)
        table.versions.append(version)
        self.changed()
        return version

    def end_version(self, version, tx, cmd, how, other=None):
        version.ends.append((tx, cmd, how, other))
        self.changed()

    # ---- tables

    def resolve(self, name, session):
        for table in reversed(self.tables):
            if table.name == name and self.is_present(table, session):
                return table
        raise Refusal("42P01", f"no table {name}")

    def is_there(self, name, session):
        return any(table.name == name and self.is_present(table, session) for table in self.tables)

    def makers(self, name, session):
        """The other sessions' open transactions that have made a table of a name."""
        return [
            table.tx for table in self.tables
            if table.name == name and self.is_running(table.tx) and self.owners[table.tx] != session
        ]

    def add_table(self, name, columns, level, tx):
        self.tables.append(Table(len(self.tables), name, columns, level, tx))
        self.now += 1
        return self.tables[-1]

    def add_entry(self, parent, child, bound, tx):
        entry = Entry(parent, child, bound, tx)
        self.entries.append(entry)
        self.entries_of[parent].append(entry)
        self.changed()

    def end_thing(self, thing, tx):
        """Ends an entry, or drops a table."""
        thing.ends.append(tx)
        self.changed()

    def children(self, table, session):
        """The entries that are present below a table, in plain order."""
        found = [entry for entry in self.entries_of[table] if self.is_present(entry, session)]
        return sorted(found, key=lambda entry: entry.bound.order())

    def tree(self, table, session, snapshot=None):
        """The tree that a statement reads under its snapshot, or that with all pending partitions."""
        entries = [
            entry for entry in self.children(table, session)
            if snapshot is None or not any(self.sees(snapshot, tx, cmd) for tx, cmd in entry.marks)
        ]
        children = [self.tree(entry.child, session, snapshot) for entry in entries]
        return Tree(table, [entry.bound for entry in entries], children)

    def mark(self, entry, tx, cmd):
        entry.marks.append((tx, cmd))
        self.changed()

    def mark_of(self, entry, session):
        """The transaction that has marked an entry pending."""
        for tx, _ in reversed(entry.marks):
            if self.counts(tx, session):
                return tx
        return None

    def pending_of(self, table, session):
        """The entry below a table that is pending."""
        for entry in self.children(table, session):
            if self.mark_of(entry, session) is not None:
                return entry
        return None

    def keep_check(self, table, level, bound, tx):
        table.checks.append((tx, level, bound))
        self.changed()

    def checks(self, table, session):
        """The CHECKs that rows of a table have to pass, from the table upwards: whose they are, and what they are."""
        tables = [table] + [entry.parent for entry, _ in self.path(table, session)]
        return [(one, level, bound) for one in tables for tx, level, bound in one.checks if self.counts(tx, session)]

    def entry_of(self, table, session):
        """The entry by which a table is a partition."""
        for entry in self.entries:
            if entry.child is table and self.is_present(entry, session):
                return entry
        return None

    def path(self, table, session):
        """For the table and those above it: its entry, and the bounds of its siblings with its own."""
        found = []
        while True:
            entry = self.entry_of(table, session)
            if entry is None:
                return found
            found.append((entry, [other.bound for other in self.children(entry.parent, session)]))
            table = entry.parent

    def default_of(self, table, session):
        for entry in self.children(table, session):
            if isinstance(entry.bound, bounds.Default):
                return entry.child
        return None

    # ---- locks and waits

    def causes(self, wait):
        """The sessions for which a session waits."""
        found = {self.owners[tx] for tx in wait.txs if self.is_running(tx)}
        found |= {session for session, snapshot in wait.snapshots if self.held.get(session) is snapshot}
        if wait.table is not None:
            found |= {
                session for session, locks in self.held_locks.items()
                if any(table is wait.table and mode in CONFLICTS[wait.mode] for table, mode in locks)
            }
            own = [mode for table, mode in self.held_locks[wait.session] if table is wait.table]
            for earlier in self.waits:
                if earlier is wait:
                    break
                if earlier.table is wait.table and earlier.mode in CONFLICTS[wait.mode]:
                    if not any(mode in CONFLICTS[earlier.mode] for mode in own):
                        found.add(earlier.session)
        return found - {wait.session}

    def cycle(self, wait):
        """The shortest cycle that a wait would close, of several the least one."""
        after = {other.session: sorted(self.causes(other)) for other in self.waits}
        paths = [[session] for session in sorted(self.causes(wait))]
        seen = set()
        while paths:
            for path in paths:
                if wait.session in after.get(path[-1], []):
                    return [wait.session] + path
            seen |= {path[-1] for path in paths}
            longer = {}
            for path in paths:
                for session in after.get(path[-1], []):
                    if session not in seen:
                        longer.setdefault(session, path + [session])
            paths = sorted(longer.values())
        return None

    def begin_wait(self, wait):
        cycle = self.cycle(wait)
        if cycle:
            raise Refusal("40P01", "deadlock of " + ", ".join(self.names[session] for session in cycle))
        self.waits.append(wait)
        self.now += 1

    def end_wait(self, wait):
        self.waits.remove(wait)
        self.now += 1

    def ready(self):
        for wait in self.waits:
            if not self.causes(wait):
                return wait
        return None

    def holders(self, table):
        """The sessions that hold a lock on a table."""
        return [session for session, locks in self.held_locks.items() if any(held is table for held, _ in locks)]

    def has_lock(self, session, table, mode):
        return any(held is table and its == mode for held, its in self.held_locks[session])

    def got(self, session, table, mode):
        self.held_locks[session].append((table, mode))
        self.now += 1
