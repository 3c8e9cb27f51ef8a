"""What the commands answer, by docs/FORMATS.md and docs/BEHAVIOUR.md: of words alone, of a folder, and of a table that
nobody else writes. What a table is worth is in reference_table.py, what its files hold in reference_files.py, and what
the commands do to them in reference_changes.py, reference_following.py and reference_expire.py.
"""

import re

import reference_changes
import reference_expire
import reference_files
import reference_following
from reference_compact import told_of
from reference_table import Refused, by_key, printable, read_batch, read_draft, scanned, worth

GREATEST = 2**63 - 1
OPTIONS = {
    "compact": ("--full",),
    "consumers": ("--drop",),
    "create": (),
    "expire": ("--min", "--max", "--millis"),
    "follow": ("--from", "--consumer", "--full"),
    "scan": ("--snapshot",),
    "snapshots": (),
    "write": ("--user", "--ident"),
}
FLAGS = ("--full",)  # the options that take no text
NAMES = ("--user", "--consumer", "--drop")  # those that take a name
NUMBERS = {"--from": (1, GREATEST), "--min": (1, 2**31 - 1), "--max": (1, 2**31 - 1)}  # others take any from 0 on


def leave_out(command, option=None):
    """Has the words of a command give none, or those with an option, for a program that hasn't it yet."""
    if option is None:
        OPTIONS.pop(command, None)
    elif command in OPTIONS:
        OPTIONS[command] = tuple(known for known in OPTIONS[command] if known != option)


def is_value(option, text):
    """Whether an option takes a text, or none."""
    if option in FLAGS:
        return text is None
    if option in NAMES:
        return re.fullmatch("[A-Za-z0-9._-]{1,64}", text) is not None
    least, greatest = NUMBERS.get(option, (0, GREATEST))
    return re.fullmatch("0|[1-9][0-9]*", text) is not None and least <= int(text) <= greatest


def read_words(words):
    """The command that words give, and its options."""
    refused = Refused("E2 words " + printable(words[0] if words else ""))
    if not words or words[0] not in OPTIONS:
        raise refused
    found, left = {}, list(words[1:])
    while left:
        option, is_one_word, value = left.pop(0).partition("=")
        if option in FLAGS and not is_one_word:
            value = None
        elif not is_one_word:
            if not left or left[0].startswith("-"):
                raise refused
            value = left.pop(0)
        if option not in OPTIONS[words[0]] or option in found or not is_value(option, value):
            raise refused
        found[option] = value
    if int(found.get("--min", 1)) > int(found.get("--max", GREATEST)):
        raise refused
    return words[0], found


def judge_limits(data):
    """Refuses an input that isn't there, and one at the first byte that exceeds a limit."""
    if data is None:
        raise Refused("E3 source")
    exceeded, rows, at = [(268435456, 2, "batch-bytes 268435456")] if len(data) > 268435456 else [], 0, 0
    for line in data.split(b"\n"):
        blanks = len(line) - len(line.lstrip(b" \t\r"))
        rows += blanks < len(line)
        if len(line) > 1048576:
            exceeded.append((at + 1048576, 0, "line 1048576"))
        if rows == 100001 and blanks < len(line):
            exceeded.append((at + blanks, 1, "batch-rows 100000"))
        at += len(line) + 1
    if exceeded:
        raise Refused(f"E21 limit {min(exceeded)[2]}")


def answer(folder, words, data, session, time):
    """What a command prints of a folder, which it may change; it is refused else."""
    shown = []
    execute(folder, words, data, session, time, shown.append)
    return "".join(shown)


def execute(folder, words, data, session, time, show):
    """Shows what a command prints of a folder, which it may change; it is refused else. Only `follow` shows more than
    once, and makes other calls after it did."""
    if words[:1] == ["follow"]:
        _, options = read_words(words)
        asked = options.get("--from")
        number = None if asked is None else int(asked)
        reference_following.follow(folder, number, "--full" in options, show, options.get("--consumer"))
    else:
        show(answer_at_once(folder, words, data, session, time))


def answer_at_once(folder, words, data, session, time):
    """What a command prints that does so once, at its end."""
    command, options = read_words(words)
    if command in ("create", "write"):
        judge_limits(data)
    if command == "create":
        return reference_changes.create(folder, data, session, time)
    if command == "write":
        ident = options.get("--ident")
        number = None if ident is None else int(ident)
        return reference_changes.write(folder, data, session, time, options.get("--user"), number)
    if command == "compact":
        return reference_changes.compact(folder, "--full" in options, session, time)
    if command == "scan":
        asked = options.get("--snapshot")
        return reference_files.scan(folder, None if asked is None else int(asked))
    if command == "expire":
        asked = [int(options[word]) if word in options else None for word in ("--min", "--max", "--millis")]
        return reference_expire.expire(folder, asked, time)
    if command == "snapshots":
        return reference_files.list_snapshots(folder)
    if "--drop" in options:
        return reference_following.drop_consumer(folder, options["--drop"])
    return reference_following.list_consumers(folder)


class Table:
    """What the commands answer of one folder, one after another, by what was done to it; and its files."""

    def __init__(self):
        self.schema = None
        self.commits = []  # of each its user and its identifier
        self.rows = []  # of each commit the rows that it took
        self.passed = [0]  # of each snapshot, from 0 on, how many commits had their rows passed on
        self.times = {}  # of each snapshot that is there
        self.consumers = {}  # of each its number, and whether it is new
        self.floor = 0  # the greatest one that was announced
        self.folder = reference_files.Memory()
        self.changes = {}  # the files that the last command made or changed, and those that it took away

    def answer(self, words, data, session, time):
        """What a command prints; it is refused else. What it did to the files is in `changes`."""
        self.changes = {}
        command, options = read_words(words)
        if command == "create" and self.schema is not None:
            judge_limits(data)
            read_draft(data)
            raise Refused("E8 table exists")
        before = dict(self.folder.files)
        try:
            printed = answer(self.folder, words, data, session, time)
        except Refused as refused:
            self.take_refusal(command, options, refused.status)
            raise
        finally:
            self.changes = changes(before, self.folder.files)
        return self.take(command, options, data, session, time, printed)

    def take(self, command, options, data, session, time, printed):
        """Does a command, and gives what it prints, by what was done; the files say that it prints this."""
        if command == "create":
            self.schema, _ = read_draft(data)
        elif command == "write":
            self.write(data, session, time, options.get("--user"), int(options.get("--ident", GREATEST)), printed)
        elif command == "compact" and printed.startswith("snapshot "):
            passed = len(self.commits) if self.passes_on() else self.passed[-1]
            self.add(f"{session}-0", GREATEST, time, [], passed)
        elif command == "scan":
            return self.scan(options.get("--snapshot"))
        elif command == "follow":
            return self.follow_as(options.get("--consumer"), options.get("--from"), "--full" in options)
        elif command == "expire":
            return self.expire(options, time)
        elif command == "consumers":
            return self.drop(options["--drop"]) if "--drop" in options else self.list_consumers()
        return printed

    def take_refusal(self, command, options, status):
        """A consumer stays new below a floor, and is settled where its starting table is gone."""
        name = options.get("--consumer")
        if command != "follow" or name is None or status not in (13, 17):
            return
        start = self.start(options.get("--from"))
        if self.is_settled(name) or (status == 17) != (start < self.floor):
            raise AssertionError(f"{name} is refused with {status}, from {start} on, with the floor {self.floor}")
        self.consumers[name] = start, status == 17

    def write(self, data, session, time, user, ident, printed):
        """Takes the rows of a batch; that the files say the same is for it to see."""
        rows = read_batch(self.schema, data)
        there = self.commits[min(self.times, default=1) - 1 :]
        earlier = [known for of, known in there if user is not None and of == user]
        if not rows or earlier and earlier[-1] >= ident:
            wanted = "already\n" if rows else "nothing to commit\n"
        else:
            passed = len(self.commits) + 1 if self.schema.producer in ("none", "input") else self.passed[-1]
            self.add(user or f"{session}-0", ident, time, rows, passed)
            wanted = f"snapshot {len(self.commits)}\n"
        if printed != wanted:
            raise AssertionError(f"the files say {printed!r} in the place of {wanted!r}")

    def add(self, user, ident, time, rows, passed):
        """Adds a commit, and how many of all have their rows passed on with it."""
        self.commits.append((user, ident))
        self.rows.append(rows)
        self.passed.append(passed)
        self.times[len(self.commits)] = time

    def passes_on(self):
        """Whether the compaction that made the newest files passes on all rows before it: with look-ups each does, with
        full compactions one that left no other run."""
        if self.schema.producer == "full-compaction":
            schema = reference_files.read_schema(self.folder)
            view = reference_changes.newest_view(self.folder, schema)
            return all(len(found) <= 1 for found in reference_files.group_runs(schema, view.live).values())
        return True

    def scan(self, asked):
        return scanned(self.schema, self.rows_to(len(self.commits) if asked is None else int(asked)))

    def rows_to(self, number):
        return [row for rows in self.rows[:number] for row in rows]

    def start(self, asked):
        return len(self.commits) + 1 if asked is None else int(asked)

    def is_settled(self, name):
        return name in self.consumers and not self.consumers[name][1]

    def follow_as(self, name, asked, is_full):
        """The frames that a consumer has not had, or those of nobody; a consumer that isn't settled begins."""
        start = self.start(asked)
        if self.is_settled(name):
            start, is_full = self.consumers[name][0], False
        if name is not None:
            self.consumers[name] = max(start, len(self.commits) + 1), False
        return self.follow(start, is_full)

    def follow(self, start, is_full):
        """The frames from a number on; those that aren't there have no line, as in the files."""
        passed = self.rows_to(self.passed[start - 1])
        shown = f'{{"table":{start - 1}}}\n{scanned(self.schema, passed)}' if is_full else ""
        for number in range(start, len(self.commits) + 1):
            shown += reference_following.framed(number, self.change(number))
        return shown

    def change(self, number):
        """What a snapshot tells, by the rows that were passed on before it and with it."""
        if self.schema.producer == "input":
            return [row for of_key in by_key(self.schema, self.rows[number - 1]) for row in of_key]
        before, after = self.passed[number - 1], self.passed[number]
        told = []
        for of_key in by_key(self.schema, [row for rows in self.rows[before:after] for row in rows]):
            key = self.schema.key(of_key[0][1])
            known = [row for row in self.rows_to(before) if self.schema.key(row[1]) == key]
            old = worth(self.schema, known) if known else None
            told += told_of(self.schema, old, worth(self.schema, known + of_key))
        return told

    def list_consumers(self):
        lines = (f"{name} {number}{' new' if is_new else ''}\n" for name, (number, is_new) in self.consumers.items())
        return "".join(sorted(lines, key=lambda line: line.split(" ")[0]))

    def drop(self, name):
        return "no consumer\n" if self.consumers.pop(name, None) is None else "dropped\n"

    def expire(self, options, time):
        """All snapshots go below the end; a consumer keeps those from its number on."""
        if not self.times:
            return "kept 0 0\n"
        asked = [int(options[word]) if word in options else None for word in ("--min", "--max", "--millis")]
        least = min((number for number, _ in self.consumers.values()), default=None)
        first, keep = min(self.times), reference_expire.keep_of(self.schema, asked)
        end = reference_expire.end_of(first, self.times, keep, time, least)
        self.floor = max(self.floor, end) if end > first else self.floor
        self.times = {number: known for number, known in self.times.items() if number >= end}
        return f"kept {end} {len(self.commits)}\n"


def changes(before, after):
    """The files that came or were changed, and nothing of each that went."""
    new = {path: held for path, held in after.items() if before.get(path) != held}
    return new | {path: None for path in before if path not in after}
