"""What a compaction takes, what becomes of it and what it tells, by docs/BEHAVIOUR.md: part of the second program,
which reads and writes the files of it in reference_files.py.
"""

from reference_table import ADDING, worth

LARGEST = 2**64 - 1
MOST_IN_FILE = 65536


def asked_in(schema, full, appends, last):
    """How much is asked of a view whose snapshot counts so many appends, and so many up to the last one in full."""
    commits = schema.options.get("full-compaction.delta-commits")
    if full or commits is not None and appends - last >= int(commits):
        return "all"
    return "level 0" if schema.options.get("changelog-producer") == "lookup" else "by size"


def top_of(schema):
    """The highest level."""
    trigger = schema.options.get("num-sorted-run.compaction-trigger", "5")
    return int(schema.options.get("num-levels", int(trigger) + 1)) - 1


def first_told(schema):
    """The lowest level whose rows were told, by the table's producer: what is told of others is told upon these."""
    return {"lookup": 1, "full-compaction": top_of(schema)}.get(schema.producer, 0)


class Choice:
    """How many runs of a group go, the newest ones, and to which level; of each run its level and its size."""

    def __init__(self, schema, runs):
        trigger = schema.options.get("num-sorted-run.compaction-trigger", "5")
        self.trigger = int(trigger)
        self.amplification = int(schema.options.get("compaction.max-size-amplification-percent", "200"))
        self.ratio = int(schema.options.get("compaction.size-ratio", "1"))
        self.top = top_of(schema)
        self.levels = [level for level, _ in runs]
        self.sizes = [min(size, LARGEST) for _, size in runs]

    def of(self, asked):
        """The choice where so much is asked; none else."""
        count = len(self.levels)
        if asked == "all":
            return None if not count or self.levels == [self.top] else (count, self.top)
        if count and count >= self.trigger:
            if 100 * sum(self.sizes[:-1]) > self.amplification * self.sizes[-1]:
                return count, self.top
            taken = self.stretched(1)
            if taken > 1:
                return self.closed(taken)
        if count > self.trigger:
            return self.closed(self.stretched(count - self.trigger + 1))
        if asked == "level 0" and 0 in self.levels:
            return self.closed(self.levels.count(0))
        return None

    def stretched(self, taken):
        """So many runs, and each next one that isn't large beside those before it."""
        while taken < len(self.sizes) and sum(self.sizes[:taken]) * (100 + self.ratio) >= 100 * self.sizes[taken]:
            taken += 1
        return taken

    def closed(self, taken):
        """So many runs, or more, with the level that lies between them and the others."""
        if taken < len(self.levels) and self.levels[taken] >= 2:
            return taken, self.levels[taken] - 1
        if taken < len(self.levels):
            taken = min(self.levels.count(0) + 1, len(self.levels))
        return taken, self.top if taken == len(self.levels) else self.levels[taken - 1]


def stored_row(schema, of_key):
    """The kind and the row that the rows of a key are stored as, each with its kind and the oldest first."""
    if schema.engine in ("partial-update", "aggregation"):
        return "+I", worth(schema, of_key)
    return of_key[-1] if schema.engine == "deduplicate" else of_key[0]


def rows_by_key(schema, found):
    """The rows of each key in runs, those of the oldest first."""
    rows = {}
    for run in found:
        for number, kind, row in run:
            rows.setdefault(schema.key(row), []).append((number, kind, row))
    return rows


def merged(schema, found, is_whole):
    """The run that runs become, the oldest first: of each key one row with the greatest number. Where all runs of the
    group went, a row that deletes has nothing left to delete."""
    rows, run = rows_by_key(schema, found), []
    for key in sorted(rows):
        kind, row = stored_row(schema, [(kind, row) for _, kind, row in rows[key]])
        if not is_whole or schema.engine != "deduplicate" or kind in ADDING:
            run.append((max(number for number, _, _ in rows[key]), kind, row))
    return run


def pieces(run):
    """The rows of each file of a run."""
    return [run[at : at + MOST_IN_FILE] for at in range(0, len(run), MOST_IN_FILE)]


def log_of(schema, newer, older, look):
    """What runs that are told now say of their keys, by rising key, upon the older ones: of these some are at hand, and
    the rows of a key in the others are looked up. Of both the oldest run comes first."""
    now, before, told = rows_by_key(schema, newer), rows_by_key(schema, older), []
    for key in sorted(now):
        known = look(key) + before.get(key, [])
        told += told_of(schema, shown_of(schema, known), shown_of(schema, known + now[key]))
    return told


def shown_of(schema, rows):
    """The row that stored rows of a key show; none where they show none."""
    return worth(schema, [(kind, row) for _, kind, row in rows]) if rows else None


def told_of(schema, old, new):
    """What is told of a key that showed one row and shows another, or none."""
    leaves_out = schema.engine == "first-row" or schema.options.get("changelog-producer.row-deduplicate") == "true"
    if old is None or new is None:
        return [("-D", old)] * (old is not None) + [("+I", new)] * (new is not None)
    return [] if leaves_out and old == new else [("-U", old), ("+U", new)]
