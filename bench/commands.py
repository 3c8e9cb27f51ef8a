#!/usr/bin/env python3
"""Random drafts, words, rows and options, and what the program answers to them, beside what a second program does that
was written from the documents (reference_*.py). Compactions, consumers and expiries come where the program knows their
commands, and tables of each producer that it makes. It promises, of each command on a table that nobody else writes:
  - its status, what it prints and what it says are those of the second program;
  - the files that it makes, changes and takes away are those that the second program does, byte by byte, and no others;
  - the second program reads of the files what the commands' rows are worth.
It ends with 1 where a promise broke. The gate never runs it. docs/DEVELOPING.md has what it printed.

usage: bench/commands.py [--program PROGRAM] [--count TABLES] [--seed SEED]
"""

import json
import re
import time

import reference_files
from reference_commands import Table, changes, leave_out
from reference_table import KINDS, TYPES, Refused
from trials import DRAFT, Tally, fault_of, knows, random_of, read_arguments, run, tree, work_folder

SESSION = "[0-9a-f]{8}(?:-[0-9a-f]{4}){3}-[0-9a-f]{12}"
NO_SESSION = "00000000-0000-0000-0000-000000000000"
TEXTS = ["", "a", "ab", "abcdefg", "abcdefgh", "é", "\u20ac\U0001d11e", 'q"\\', "\n\t\x01\x7f", "x" * 300]
DATES = ["0001-01-01", "9999-12-31", "1970-01-01", "2024-02-29", "1969-12-31"]
BAD_DATES = ["2023-02-29", "0000-01-01", "1970-1-1", "", "1970-01-01x"]
ENGINES = ["deduplicate", "deduplicate", "first-row", "partial-update", "aggregation"]
PRODUCERS = {
    "deduplicate": ["input", "lookup", "full-compaction"],
    "first-row": ["lookup"],
    "partial-update": ["lookup", "full-compaction"],
    "aggregation": ["lookup", "full-compaction"],
}
FUNCTIONS = {
    "integer": ["sum", "max", "min", "last_value", "first_value", "first_non_null_value"],
    "STRING": ["listagg", "max", "min", "last_value", "last_non_null_value", "first_value"],
    "BOOLEAN": ["bool_and", "bool_or", "last_value", "first_value", "first_non_null_value"],
    "BYTES": ["last_value", "first_value", "last_non_null_value"],
    "other": ["max", "min", "last_value", "first_non_null_value"],
}
OTHER_OPTIONS = {
    "bucket": ["1", "0", "01", "2", "256", "257", "99999999999999999999", "-1"],
    "file.format": ["avro", "orc", ""],
    "changelog-producer": ["none", "input", "lookup", "full-compaction", "NONE"],
    "manifest.merge-min-count": ["2", "3", "1000", "1", "1001", "x"],
    "snapshot.time-retained": ["1 h", "01h", "9007199254740992 ms", "9007199254740993 ms", "1  h", "3600 s", "1"],
    "snapshot.num-retained.min": ["1", "10", "2147483648"],
    "snapshot.num-retained.max": ["9", "10", "2147483647", "0"],
    "num-levels": ["2", "6", "101", "102"],
    "num-sorted-run.compaction-trigger": ["1", "5", "0"],
    "compaction.size-ratio": ["1", "1000000", "1000001"],
    "full-compaction.delta-commits": ["1", "0"],
    "deletion-vectors.enabled": ["false", "true"],
    "manifest.format": ["avro", "orc"],
    "sequence.field": ["v"],
    "fields.default-aggregate-function": ["sum"],
    "a key of its own": ["", "any\ntext"],
}
ODD_NAMES = ["", "1a", "_KEY_a", "_VALUE_KIND", "_SEQUENCE_NUMBER", "a" * 64, "a" * 65, "é", "a b", "a\n"]
SIZES = {
    "num-sorted-run.compaction-trigger": ["1", "2", "2", "3", "5"],
    "compaction.max-size-amplification-percent": ["0", "50", "200", "1000000"],
    "compaction.size-ratio": ["0", "1", "100", "1000000"],
    "full-compaction.delta-commits": ["1", "2", "3"],
}
WORDS = (("compact",), ("expire",), ("consumers",), ("consumers", "--drop"), ("follow",), ("follow", "--consumer"))
OFTEN = {"write": 9, "follow": 6, "scan": 4, "compact": 4, "expire": 4, "consumers": 3, "snapshots": 2, "create": 1}
ODD_WORDS = ["create", "scan", "--snapshot", "--snapshot=1", "-1", "", "é", "a\nb", "write", "--user=", "--ident"]
ODD_WORDS += ["01", "compact", "--full", "--full=", "--full=1", "follow", "--from", "--from=0", "0", "consumers"]
ODD_WORDS += ["--drop", "--consumer", "--consumer=", "--drop=a/b", "expire", "--min=2", "--max", "--max=1"]


def maybe(random, chance):
    return random.random() < chance


def draw_type(random):
    return random.choice(TYPES) + (" NOT NULL" if maybe(random, 0.15) else "")


def draw_draft(random):
    """A draft that is mostly good, as a value."""
    names = random.sample(["id", "k", "v", "w", "x_1", "_y", "Z", "g", "h"], random.randint(2, 6))
    fields = [{"name": name, "type": draw_type(random)} for name in names]
    primary = random.sample(names, min(len(names), random.choice([1, 1, 2, 2, 3])))
    engine = random.choice(ENGINES)
    options = {} if engine == "deduplicate" else {"merge-engine": engine}
    producers = PRODUCERS[engine]
    if producers and maybe(random, 0.6):
        options["changelog-producer"] = random.choice(producers)
    if maybe(random, 0.2):
        options["changelog-producer.row-deduplicate"] = random.choice(["true", "false"])
    if engine in ("partial-update", "aggregation"):
        for field in fields:
            field["type"] = field["type"].removesuffix(" NOT NULL")
    others = [field for field in fields if field["name"] not in primary]
    if engine == "aggregation":
        options |= draw_functions(random, others)
    elif engine == "partial-update" and len(others) > 1 and maybe(random, 0.7):
        lead, *grouped = random.sample(others, random.randint(2, len(others)))
        options[f"fields.{lead['name']}.sequence-group"] = ",".join(field["name"] for field in grouped)
    if engine != "aggregation" and maybe(random, 0.3):
        options["ignore-delete"] = random.choice(["true", "false"])
    if maybe(random, 0.5):
        options["manifest.merge-min-count"] = random.choice(["2", "3", "4"])
    options |= {key: random.choice(texts) for key, texts in SIZES.items() if maybe(random, 0.3)}
    if maybe(random, 0.4):
        options["bucket"] = random.choice(["1", "2", "3", "4", "7", "256"])
    if maybe(random, 0.3):
        options["num-levels"] = str(int(options.get("num-sorted-run.compaction-trigger", "5")) + random.randint(1, 2))
    draft = {"fields": fields, "primaryKeys": primary, "options": options}
    if len(primary) > 1 and maybe(random, 0.6):
        draft["partitionKeys"] = random.sample(primary, random.randint(1, len(primary) - 1))
    if maybe(random, 0.2):
        draft["comment"] = random.choice(TEXTS)
    return draft


def draw_functions(random, fields):
    """Functions of columns, with what goes with them."""
    options = {}
    for field in fields:
        kind = "integer" if field["type"].endswith("INT") else field["type"]
        function = random.choice(FUNCTIONS.get(kind, FUNCTIONS["other"]))
        if maybe(random, 0.8):
            options[f"fields.{field['name']}.aggregate-function"] = function
        if maybe(random, 0.6) and function not in ("last_value", "first_value"):
            options[f"fields.{field['name']}.ignore-retract"] = "true"
        if function == "listagg" and maybe(random, 0.5):
            options[f"fields.{field['name']}.list-agg-delimiter"] = random.choice(["; ", "", "\n"])
    return options


def spoil_draft(random, draft):
    """Puts a fault, or something odd, into a draft."""
    way = random.randrange(7)
    field = random.choice(draft["fields"])
    if way < 3:
        key = random.choice(list(OTHER_OPTIONS))
        draft["options"][key] = random.choice(OTHER_OPTIONS[key])
    elif way == 3:
        field["type"] = random.choice(["FLOAT", "INT\n", "TIMESTAMP(6)", "INT  NOT NULL", "bigint", "ARRAY<INT>"])
    elif way == 4:
        field["name"] = random.choice([*ODD_NAMES, draft["fields"][0]["name"]])
    elif way == 5:
        part = random.choice(["primaryKeys", "partitionKeys"])
        draft[part] = random.choice([[], ["none"], [field["name"]], [field["name"]] * 2, "id", None, [1]])
    else:
        column = random.choice(["none", field["name"]])
        kind = random.choice(["aggregate-function", "ignore-retract", "sequence-group", "list-agg-delimiter"])
        draft["options"][f"fields.{column}.{kind}"] = random.choice(["sum", "true", "v", "v,w", "", "first_value"])


def draft_input(random):
    """The input of a `create`."""
    draft = draw_draft(random)
    if maybe(random, 0.5):
        for _ in range(random.randint(1, 3)):
            spoil_draft(random, draft)
    data = json.dumps(draft, ensure_ascii=maybe(random, 0.5), separators=random.choice([(",", ":"), (", ", " : ")]))
    if maybe(random, 0.05):
        data = json.dumps(draft, indent=1)
    if maybe(random, 0.05):
        data = data[: random.randrange(len(data))]
    return data.encode() + random.choice([b"", b"\n", b"\n\n \r\n", b"\nx"] if maybe(random, 0.2) else [b"\n"])


def draw_item(random, kind, nullable):
    """A value of a type, as a JSON text."""
    if nullable and maybe(random, 0.25):
        return "null"
    bits = {"TINYINT": 8, "SMALLINT": 16, "INT": 32}.get(kind, 64)
    if kind.endswith("INT") or kind == "TIMESTAMP(3)":
        near = [random.randint(-3, 3), 2 ** (bits - 1) - 1, -(2 ** (bits - 1)), random.randrange(-9, 9)]
        return str(random.choice(near))
    values = {
        "BOOLEAN": [True, False],
        "STRING": TEXTS,
        "BYTES": ["", "00", "ab", "AB", "00112233445566", "0011223344556677", "ff" * 30],
        "DATE": DATES,
    }
    return json.dumps(random.choice(values[kind]), ensure_ascii=maybe(random, 0.5))


def spoil_item(random):
    """A JSON text, or none, that hardly is an item of the column."""
    odd = ["-0", "1.0", "1e2", "1e400", "9223372036854775808", "18446744073709551616", "[]", "{}", "null", "tru", "NaN"]
    texts = ['"abc"', '"0g"', '"\\ud800"', '"\\ud83d\\ude00"', "1" * 400, "128", "32768", "2147483648"]
    return random.choice([*odd, *texts, *(json.dumps(date) for date in BAD_DATES)])


def row_line(random, schema):
    """A line of the input of a `write`."""
    if maybe(random, 0.03):
        return random.choice([b"", b" \t\r", b"x", b"[]", b'["+I"]', b'["+i",1,1]', b"{}", b"\xff", b"[" * 200, b"[1]"])
    adding = maybe(random, 0.75)
    kind = random.choice(["+I", "+U"]) if adding else random.choice(KINDS)
    items = [json.dumps(kind), *(draw_item(random, kind, nullable) for _, kind, nullable in schema.columns)]
    if maybe(random, 0.02):
        items[random.randrange(1, len(items))] = spoil_item(random)
    return random.choice([",", " , "]).join(items).join("[]").encode()


def write_input(random, schema):
    lines = [row_line(random, schema) for _ in range(random.choice([0, 1, 1, 2, 5, 20]))]
    return b"\n".join(lines) + random.choice([b"", b"\n"])


def draw_words(random):
    """Words of a command, mostly good ones."""
    if maybe(random, 0.1):
        return random.choices(ODD_WORDS, k=random.randrange(4))
    word = random.choices(list(OFTEN), OFTEN.values())[0]
    words = [word]
    if word in ("compact", "follow") and maybe(random, 0.4):
        words.append("--full")
    if word == "follow" and maybe(random, 0.8):
        words += random.choice([["--from", str(random.randrange(1, 9))], [f"--from={random.randrange(4)}"]])
    if word == "follow" and maybe(random, 0.6):
        words += random.choice([["--consumer", "c"], ["--consumer=d"], ["--consumer", "-"], ["--consumer=-"]])
    if word == "consumers" and maybe(random, 0.4):
        words += random.choice([["--drop", "c"], ["--drop=d"], ["--drop=-"]])
    if word == "expire":
        words += draw_expiry(random)
    if word == "scan" and maybe(random, 0.5):
        words += random.choice([["--snapshot", str(random.randrange(6))], [f"--snapshot={random.randrange(6)}"]])
    if word == "write" and maybe(random, 0.4):
        words += random.choice([["--user", "me"], ["--user=a.b-c_D"]])
    if word == "write" and maybe(random, 0.4):
        words += ["--ident", str(random.choice([0, 1, 2, 3, 2**63 - 1, 2**63]))]
    return words


def draw_expiry(random):
    """What an expiry is asked to keep. Whatever is asked, no snapshot is as old as to the millisecond."""
    words = ["--min", str(random.choice([1, 1, 1, 2, 3, 2**31 - 1]))] if maybe(random, 0.9) else []
    words += [f"--max={random.choice([1, 1, 2, 3, 2**31 - 1])}"] if maybe(random, 0.8) else []
    return words + (["--millis", str(random.choice([0, 3600000, 2**63 - 1]))] if maybe(random, 0.5) else [])


def found_in(files):
    """The session that made these files, and the time in them."""
    files = {path: data for path, data in files.items() if data is not None}
    texts = [data.decode() for path, data in files.items() if path.startswith(("schema/", "snapshot/"))]
    session = re.search(f"(?:ORIGIN|data|manifest)-({SESSION})-0", " ".join(files))
    millis = re.search('"timeMillis":(-?[0-9]+)', " ".join(texts))
    return session[1] if session else NO_SESSION, int(millis[1]) if millis else 0


class Trial:
    """One folder, and the commands on it."""

    def __init__(self, tally, program, folder, random):
        self.tally, self.program, self.folder, self.random = tally, program, folder, random
        self.table = Table()
        self.files = {}

    def changes(self):
        """What came, changed and went of the files since this was asked before."""
        found = tree(self.folder) if self.folder.exists() else {}
        shown = {path.decode(): data for path, (_, data) in found.items() if not path.startswith(b".")}
        before, self.files = self.files, {path: data for path, data in shown.items() if data is not None}
        return changes(before, self.files)

    def command(self, words, data):
        """Runs a command with both programs, and compares their answers."""
        begun = int(time.time() * 1000)
        ended = run([self.program, self.folder, *words], data)
        files = self.changes()
        session, millis = found_in(files)
        try:
            printed = self.table.answer(words, data, session, millis or begun)
            wanted = (0, printed.encode(), b"")
        except Refused as refused:
            wanted = (refused.status, b"", f"{refused}\n".encode())
        files_are = files == self.table.changes
        if wanted[0] == 8:
            files_are = all(path.startswith("snapshot/ORIGIN-") for path in files)
        self.tally.add("commands")
        self.tally.add("refusals", int(ended.status != 0))
        where = f"table {self.folder.name}, {words}, {data[:200]!r}"
        if fault_of(ended, words) or tuple(ended) != wanted:
            self.tally.breaks(where, f"{ended} in the place of {wanted}")
        elif not files_are:
            wanted = sorted(self.table.changes)
            self.tally.breaks(where, f"it changed {sorted(files)}, and the second program {wanted}")
            return False
        elif millis and not begun <= millis <= time.time() * 1000:
            self.tally.breaks(where, f"the time {millis} isn't now")
        return ended.status == tuple(wanted)[0]

    def input_of(self, words):
        if words[:1] == ["write"] and self.table.schema:
            return write_input(self.random, self.table.schema)
        return draft_input(self.random)

    def run(self):
        """Makes a table, and runs commands on it while both programs agree."""
        while self.table.schema is None:
            data = DRAFT if maybe(self.random, 0.05) else draft_input(self.random)
            if not self.command(["create"], data):
                return
        for _ in range(self.random.randint(3, 48)):
            words = draw_words(self.random)
            if not self.command(words, self.input_of(words)):
                return
        self.read_back()

    def read_back(self):
        """Has the second program read the files."""
        read = reference_files.scan(reference_files.Folder(self.folder))
        self.tally.add("rows read back", read.count("\n"))
        if read != self.table.scan(None):
            self.tally.breaks(f"table {self.folder.name}", "the files are worth another table")


def main():
    found = read_arguments(__doc__, 1000)
    tally = Tally()
    with work_folder() as work:
        for words in WORDS:
            if not knows(found.program, work, *words, *["c"][: len(words) - 1]):
                leave_out(*words)
        for number in range(found.count):
            Trial(tally, found.program, work / str(number), random_of(found.seed, number)).run()
            tally.add("tables")
    tally.end()


if __name__ == "__main__":
    main()
