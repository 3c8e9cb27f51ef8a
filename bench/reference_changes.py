"""The commands that change a table, by docs/BEHAVIOUR.md: `create`, `write` and `compact`, as the calls that they make
of a folder, in their order, over whatever files stand there and whatever others do between the calls. Part of the
second program: reference_files.py has the folders, and what the files hold.
"""

import itertools

from reference_compact import Choice, asked_in, first_told, log_of, merged, pieces
from reference_files import (
    GREATEST_ID,
    GREATEST_SEQUENCE,
    Lookup,
    View,
    data_file,
    entry,
    file_of,
    folder_of,
    group_of,
    group_runs,
    id_of,
    in_groups,
    list_file,
    manifest_file,
    meta_of,
    print_json,
    read_schema,
    read_snapshot,
    schema_file,
    snapshot_ids,
    stored_run,
)
from reference_table import Refused, by_key, read_batch, read_draft

TRIES = 11
MOST_LIVE = 10000
GREATEST = 2**63 - 1


class Session:
    """One command: its files bear its session, and the newest snapshot of its first try."""

    def __init__(self, folder, session, time):
        self.folder, self.session, self.time = folder, session, time
        self.marker = bytes.fromhex(session.replace("-", ""))
        self.base, self.counter = None, itertools.count()

    def name(self, word, end=""):
        return f"{word}-{self.session}-0-{self.base}-{next(self.counter)}{end}"

    def create(self, path, data):
        if not self.folder.create(path, data):
            raise Refused(f"E20 session used {path}")

    def judge_names(self):
        """Refuses where another command wrote under this one's name."""
        used = [name for name in self.folder.list("manifest") if f"-{self.session}-0-" in name]
        if used:
            raise Refused(f"E20 session used manifest/{min(used, key=str.encode)}")

    def add_changes(self, schema, group, rows):
        """Creates the changelog file of rows of a group, each with its kind."""
        return self.add_data(schema, group, [(at, kind, row) for at, (kind, row) in enumerate(rows)], 0, "changelog")

    def add_data(self, schema, group, run, level, word="data"):
        """Creates the data file of a run of a group, or the file of changes that have numbers."""
        name = self.name(word, ".avro")
        data = data_file(schema, run, self.marker)
        self.create(f"{folder_of(schema, group)}/{name}", data)
        return file_of(schema, group, name, data, run, level)

    def add_manifest(self, schema, entries):
        name = self.name("manifest")
        data = manifest_file(entries, self.marker)
        self.create(f"manifest/{name}", data)
        return meta_of(schema, name, data, entries)

    def add_list(self, schema, metas):
        name = self.name("manifest-list")
        self.create(f"manifest/{name}", list_file(schema, metas, self.marker))
        return name


def create(folder, data, session, time):
    schema, comment = read_draft(data)
    Session(folder, session, time).create(f"snapshot/ORIGIN-{session}-0", b"")
    is_done, _ = folder.swap("schema/schema-0", None, schema_file(schema, session, time, comment))
    if not is_done:
        raise Refused("E8 table exists")
    return "created\n"


def write(folder, data, session, time, user=None, ident=None):
    schema = read_schema(folder)
    rows = read_batch(schema, data)
    if not rows:
        return "nothing to commit\n"
    made = Session(folder, session, time)
    made.judge_names()
    groups = in_groups(schema, rows, lambda row: group_of(schema, row[1]))
    return commit(made, schema, Append(groups, user, GREATEST if ident is None else ident))


def compact(folder, full, session, time):
    schema = read_schema(folder)
    view = newest_view(folder, schema)
    asked = asked_in(schema, full, int(view.properties["appends"]), int(view.properties["full"]))
    chosen = {}
    for group, found in group_runs(schema, view.live).items():
        sizes = [(run[0]["level"], sum(file["size"] for file in run)) for run in found]
        choice = Choice(schema, sizes).of(asked)
        if choice is not None:
            chosen[group] = found, *choice
    if not chosen:
        return "nothing to compact\n"
    made = Session(folder, session, time)
    made.judge_names()
    change = Compaction(view.properties["appends"] if asked == "all" else None)
    for group, (found, count, level) in chosen.items():
        rows = [view.run_rows(run) for run in found[:count]]
        log = log_in(view, found, rows)
        change.take(group, found[:count], pieces(merged(schema, rows[::-1], count == len(found))), level, log)
    return commit(made, schema, change, view)


def log_in(view, found, rows):
    """What a compaction tells that takes the newest of the runs, of which the rows are given."""
    schema, left = view.schema, found[len(rows) :]
    is_told = schema.producer == "lookup" or schema.producer == "full-compaction" and not left
    if not is_told:
        return []
    lookup = Lookup(view, left)
    taken = list(zip((run[0]["level"] for run in found), rows))[::-1]
    newer = [of_run for level, of_run in taken if level < first_told(schema)]
    older = [of_run for level, of_run in taken if level >= first_told(schema)]
    return log_of(schema, newer, older, lookup.rows)


class Append:
    """Rows by group, which become one run of each at level 0, by a user or by the session itself."""

    kind, appends, full, removed = "APPEND", 1, None, ()

    def __init__(self, groups, user, ident):
        self.groups, self.user, self.ident = groups, user, ident
        self.made = len(groups)

    def is_done(self, view):
        """Whether the newest commit of the user that is found has this identifier or a greater one."""
        found, older = view.found, view.known[:-1]
        if self.user is None:
            return False
        while found is not None and found["commitUser"] != self.user and older:
            found = read_snapshot(view.folder, older[-1])
            older = older[:-1]
        return found is not None and found["commitUser"] == self.user and found["commitIdentifier"] >= self.ident

    def judge(self, view):
        if any(first_number(view, group) + len(rows) - 1 > GREATEST_SEQUENCE for group, rows in self.groups.items()):
            raise Refused(f"E21 limit sequence {GREATEST_SEQUENCE}")

    def judge_files(self, view):
        """An append takes no file away."""

    def added(self, made, schema, view):
        """Creates the data files."""
        return [
            made.add_data(schema, group, stored_run(schema, rows, first_number(view, group)), 0)
            for group, rows in self.groups.items()
        ]

    def told(self, made, schema):
        """Creates the changelog files, which have all rows by rising key, each as it came."""
        if schema.producer != "input":
            return []
        return [
            made.add_changes(schema, group, [row for of_key in by_key(schema, rows) for row in of_key])
            for group, rows in self.groups.items()
        ]


def first_number(view, group):
    return max((file["newest"] for file in view.live if file["group"] == group), default=-1) + 1


class Compaction:
    """Files that go, by group the rows of those that come in their place, and what is told of each group, each with its
    kind. The files are made in the first try alone."""

    kind, appends, user, ident = "COMPACT", 0, None, GREATEST

    def __init__(self, full):
        self.full, self.removed, self.files, self.logs = full, [], [], []
        self.made, self.created, self.changes = 0, None, None

    def take(self, group, found, files, level, log):
        """Takes the runs of a group, what they become at that level, and what is told."""
        self.removed += [file for run in found for file in run]
        self.files += [(group, run, level) for run in files]
        self.logs += [(group, log)] if log else []
        self.made = len(self.files)

    def is_done(self, view):
        """A compaction looks for no user."""

    def judge(self, view):
        """It has the numbers of the rows that it replaces."""

    def judge_files(self, view):
        live = {id_of(file) for file in view.live}
        for file in self.removed:
            if id_of(file) not in live:
                raise Refused(f"E15 taken {file['name']}")

    def added(self, made, schema, view):
        if self.created is None:
            self.created = [made.add_data(schema, group, run, level) for group, run, level in self.files]
        return self.created

    def told(self, made, schema):
        if self.changes is None:
            self.changes = [made.add_changes(schema, group, log) for group, log in self.logs]
        return self.changes


def newest_view(folder, schema):
    """The newest snapshot, with its live files."""
    known = snapshot_ids(folder)
    view = View(folder, schema, max(known, default=0))
    view.known, view.live = known, view.live_files()
    return view


def commit(made, schema, change, view=None):
    """Has a change become the next snapshot, in at most eleven tries; the first one may have its view already."""
    lost = []
    while len(lost) < TRIES:
        if view is None:
            view = newest_view(made.folder, schema)
            group_runs(schema, view.live)
        made.base = view.number if made.base is None else made.base
        if change.is_done(view):
            return "already\n"
        judge_commit(made.base, view, change)
        snapshot = files_of(made, schema, change, view)
        number = view.number + 1
        before = f"snapshot-{view.number}" if view.number else schema.origin or "snapshot-0"
        if made.folder.publish(f"snapshot/snapshot-{number}", f"snapshot/{before}", snapshot):
            return f"snapshot {number}\n"
        lost.append(str(number))
        view = None
    raise Refused(f"E14 contended {' '.join(lost)}")


def judge_commit(base, view, change):
    """Refuses a commit that the newest snapshot stands against."""
    fence = int(view.properties["fence"])
    if base <= fence:
        raise Refused(f"E16 fenced base {base} fence {fence}")
    change.judge_files(view)
    if len(view.live) - len(change.removed) + change.made > MOST_LIVE:
        raise Refused(f"E21 limit live-files {MOST_LIVE}")
    change.judge(view)
    if view.number >= GREATEST_ID:
        raise Refused(f"E21 limit snapshot-id {GREATEST_ID}")


def files_of(made, schema, change, view):
    """Creates the files of a try, and gives its snapshot."""
    added, told = change.added(made, schema, view), change.told(made, schema)
    metas = view.metas
    if len(metas) >= int(schema.options.get("manifest.merge-min-count", "30")):
        metas = [made.add_manifest(schema, [entry(schema, True, file) for file in view.live])] if view.live else []
    entries = [entry(schema, False, file) for file in change.removed] + [entry(schema, True, file) for file in added]
    delta = [made.add_manifest(schema, entries)]
    changes = [made.add_manifest(schema, [entry(schema, True, file) for file in told])] if told else []
    delta = made.add_list(schema, delta)
    changelog = made.add_list(schema, changes) if changes else None
    counts = [sum(file["rows"] for file in files) for files in (view.live, added, change.removed)]
    appends = int(view.properties["appends"]) + change.appends
    value = {
        "baseManifestList": made.add_list(schema, metas),
        "changelogManifestList": changelog,
        "changelogRecordCount": sum(file["rows"] for file in told),
        "commitIdentifier": change.ident,
        "commitKind": change.kind,
        "commitUser": change.user or f"{made.session}-0",
        "deltaManifestList": delta,
        "deltaRecordCount": max(counts[1] - counts[2], -(2**63)),
        "id": view.number + 1,
        "properties": {
            "appends": str(appends),
            "base": str(made.base),
            "fence": view.properties["fence"],
            "full": view.properties["full"] if change.full is None else change.full,
        },
        "schemaId": schema.id,
        "timeMillis": made.time,
        "totalRecordCount": counts[0] + counts[1] - counts[2],
        "version": 3,
        "watermark": (view.found or {}).get("watermark"),
    }
    return print_json(value).encode()
