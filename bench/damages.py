#!/usr/bin/env python3
"""Damages small tables at random, and runs commands on them: files are cut, grown, emptied, removed, given other bytes
or other values, or replaced by another file, a link, a pipe or a folder; folders are replaced likewise; and names that
aren't the table's come into folders; FOLDER itself is spelt in several ways, and may be no folder. It promises, of each
command on such a folder:
  - it ends within ten seconds, with 0 or a refusal's status, and a refusal is one line on standard error;
  - `scan`, `snapshots` and, where the program knows them, `follow` and `consumers` print, and say, what a second
    program does that was written from the documents (reference_files.py), and change nothing;
  - `follow --consumer`, `consumers --drop` and `expire`, where the program knows them, print and say what the second
    program does, and change, make and take away the files that it does and no others, but where the store fails;
  - a refused `create`, `write` or `compact` changes no file, but that files of its own may be left, which no snapshot
    names; `write` and `compact`, where the program knows that, print and say what the second program does, but where
    the store fails; a write that ends with 0 shows in the next `scan`, and a compaction leaves that as it was;
  - nothing outside the folder is changed or printed, and, of a sample under strace, no path outside of it is opened.
It ends with 1 where a promise broke. The gate never runs it. It wants strace. docs/DEVELOPING.md has what it printed.

usage: bench/damages.py [--program PROGRAM] [--count DAMAGED_TABLES] [--seed SEED]
"""

import json
import os
import re
import shutil
import stat
import time

import reference_avro
import reference_commands
import reference_files
from reference_table import Refused
from trials import (
    DRAFT,
    Tally,
    copy,
    fault_of,
    knows,
    knows_consumers,
    random_of,
    read_arguments,
    run,
    tree,
    work_folder,
)

SAMPLE = 20  # each so many commands one runs under strace
SECRET = b'["+I",666,"a secret of somebody else"]'
KNOWN = ("/dev/urandom", "/dev/random")
OWN_FILE = rb"(data|manifest|manifest-list|ORIGIN)-[0-9a-f-]{36}-0[0-9a-z.-]*"
SEAL = rb"\.sealed-(manifest|snapshot|schema)-[\d-]+"
LEFT = re.compile(rb"\.new/(0|[1-9]\d*)|" + SEAL)
INNER = re.compile(rb"\.lock|\.new(/\d+)?|" + SEAL)
OWN = re.compile(rb"\.lock|\.new(/\d+)?|" + SEAL + rb"|(bucket-0|manifest|snapshot|schema)(/" + OWN_FILE + rb")?")
TABLES = {
    "deduplicate": (
        {},
        ['["+I",1,"a"]\n["+I",2,"b"]', '["-D",1,null]\n["+I",3,"a longer text"]', '["+U",4,null]', '["+I",2,"c"]'],
    ),
    "first-row": ({"merge-engine": "first-row"}, ['["+I",1,"a"]', '["+I",1,"b"]\n["+I",5,"x"]']),
    "aggregation": (
        {"merge-engine": "aggregation", "fields.v.aggregate-function": "listagg", "manifest.merge-min-count": "2"},
        ['["+I",1,"a"]', '["+I",1,"b"]\n["+I",2,null]', '["+I",2,"z"]'],
    ),
    "partial-update": (
        {"merge-engine": "partial-update", "manifest.merge-min-count": "3"},
        ['["+I",1,"a"]', '["+I",1,null]'],
    ),
}
FOLLOWED = (
    {"changelog-producer": "input"},
    ['["+I",1,"a"]\n["+I",2,"b"]', '["-U",1,"a"]\n["+U",1,"c"]\n["+I",3,null]', '["-D",2,"b"]', '["+I",2,"x"]'],
)
NAMES = [b"\xff\xfe", b".x", b"...", b"a\nb", b"\x01", b"x" * 255, b"snapshot-01", b"snapshot-0", b"schema--1", b"x y"]
NAMES += [b"snapshot-9007199254740992", b"manifest-", "é€".encode(), b"-", b"5", b"EARLIEST", b"bucket-1", b"tmp=1"]
TEXTS = ["", ".", "..", ".x", "../outside/file", "/etc/passwd", "a/b", "x" * 300, "a\nb", "\0", "é", "snapshot-1"]
TEXTS += ["x.avro", "0", "-1", "01", "5", "APPEND", "INT", "avro"]
NUMBERS = [0, 1, -1, 2, 3, 5, 2**31, 2**53 - 1, 2**53, 2**62, 2**63 - 1, 2**63, 2**64]


def maybe(random, chance):
    return random.random() < chance


def files_in(folder):
    """The files in a folder."""
    return sorted(path for path in folder.rglob("*") if stat.S_ISREG(path.lstat().st_mode))


def folders_in(folder):
    return sorted(path for path in folder.rglob("*") if stat.S_ISDIR(path.lstat().st_mode))


# Damages of a file's bytes.


def cut(random, data):
    return data[: random.randrange(len(data) + 1)]


def grow(random, data):
    return data + random.choice([b"\0", b"\n", b"x", random.randbytes(random.randint(1, 40)), data[-20:]])


def flip(random, data):
    out = bytearray(data)
    for _ in range(random.choice([1, 1, 2, 8])):
        if out:
            at = random.randrange(len(out))
            out[at] = random.choice([out[at] ^ 1 << random.randrange(8), random.randrange(256)])
    return bytes(out)


def splice(random, data):
    """Bytes are taken out, or stand twice."""
    begin, end = sorted(random.choices(range(len(data) + 1), k=2))
    return data[:begin] + data[end:] if maybe(random, 0.5) else data[:end] + data[begin:]


def other_value(random, value):
    """Another value, mostly of the same kind."""
    if maybe(random, 0.1):
        return random.choice([None, True, [], {}, "1", 1, 1.5])
    return random.choice(TEXTS if isinstance(value, str) else NUMBERS)


def place_in(random, value):
    """A place in a JSON value: the object or the list that has it, and its key there."""
    while True:
        key = random.choice(sorted(value) if isinstance(value, dict) else range(len(value)))
        if not isinstance(value[key], (dict, list)) or not value[key] or maybe(random, 0.2):
            return value, key
        value = value[key]


def change_json(random, data):
    """Another value at one place of a JSON object."""
    try:
        value = json.loads(data)
        holder, key = place_in(random, value)
    except (ValueError, TypeError, IndexError):
        return flip(random, data)
    way = random.randrange(4)
    if way == 0:
        del holder[key]
    elif way == 1 and isinstance(holder, dict):
        holder[random.choice(TEXTS)] = holder[key]
    else:
        holder[key] = other_value(random, holder[key])
    return json.dumps(value, ensure_ascii=maybe(random, 0.5)).encode()


def change_record(random, data):
    """Other values in the records of an Avro file."""
    try:
        blocks = reference_avro.Blocks(data)
        kind, records = blocks.kind, [record for _, block in blocks for record in block()]
        for _ in range(random.choice([1, 1, 2])):
            way = random.randrange(5)
            if way == 0 and records:
                records.append(random.choice(records))
            elif way == 1 and records:
                records.remove(random.choice(records))
            elif records:
                change_field(random, random.choice(records))
        return reference_avro.written(kind, records, blocks.marker)
    except (reference_avro.Bad, Refused, TypeError, AttributeError, OverflowError, IndexError):
        return flip(random, data)


def change_field(random, record):
    """Another value in a field of a record."""
    name = random.choice(sorted(record))
    if isinstance(record[name], dict):
        change_field(random, record[name])
    elif isinstance(record[name], bytes):
        record[name] = random.choice([flip, cut, grow])(random, record[name])
    elif isinstance(record[name], str):
        record[name] = random.choice([*TEXTS, record[name] + "x", "x/../" + record[name]])
    elif isinstance(record[name], int):
        record[name] = random.choice([record[name] + 1, record[name] - 1, 0, 1, 2, 5, 2**31 - 1, 2**62, 2**62 - 1])


# Damages of what stands at a path.


INSTEAD = ["link", "link", "link to nothing", "own link", "pipe", "folder", "full folder", "none", "file"]


class Damage:
    """One damaged copy of a table, and a folder outside that links lead to."""

    def __init__(self, folder, outside, random):
        self.folder, self.outside, self.random = folder, outside, random

    def replace(self, path, is_folder):
        """Puts something else in the place of a file or a folder."""
        held = None if is_folder else path.read_bytes()
        shutil.rmtree(path) if is_folder else path.unlink()
        how = self.random.choice(INSTEAD)
        if how == "link":
            path.symlink_to(self.outside / ("folder" if is_folder else "file"))
        elif how == "link to nothing":
            path.symlink_to(self.random.choice(["nothing", path.name, "/nothing/at/all", "../" * 5]))
        elif how == "own link":
            path.symlink_to(self.random.choice(files_in(self.folder) or [self.folder]))
        elif how == "pipe":
            os.mkfifo(path)
        elif how in ("folder", "full folder"):
            path.mkdir()
            if how == "full folder":
                (path / self.random.choice(["file", ".file", "snapshot-7"])).write_bytes(held or b"x")
        elif how == "file":
            path.write_bytes(self.random.choice([b"", b"x", self.random.choice(files_in(self.outside)).read_bytes()]))
        return how

    def damage_file(self):
        """Damages one file; tells how."""
        path = self.random.choice(files_in(self.folder))
        if maybe(self.random, 0.3):
            return f"{path.relative_to(self.folder)}: {self.replace(path, False)}"
        data = path.read_bytes()
        parts = path.relative_to(self.folder).parts
        own = change_json if parts[0] in ("snapshot", "schema", "consumer") else change_record
        way = self.random.choice([cut, grow, flip, flip, splice, own, own, own])
        path.write_bytes(way(self.random, data))
        return f"{path.relative_to(self.folder)}: {way.__name__}"

    def swap_files(self):
        """Puts another file of the table in the place of one."""
        one, other = self.random.choices(files_in(self.folder), k=2)
        one.write_bytes(other.read_bytes())
        return f"{one.relative_to(self.folder)} has the bytes of {other.relative_to(self.folder)}"

    def damage_folder(self):
        path = self.random.choice(folders_in(self.folder))
        return f"{path.relative_to(self.folder)}: {self.replace(path, True)}"

    def add_name(self):
        """Puts something under a name that may not be the table's."""
        folder = self.random.choice([self.folder, *folders_in(self.folder)])
        name = self.random.choice(NAMES)
        path = os.path.join(os.fsencode(folder), name)
        how = self.random.choice(["file", "file", "link", "pipe", "folder", "full folder"])
        if os.path.lexists(path):
            return "nothing"
        if how == "file":
            with open(path, "wb") as file:
                file.write(self.random.choice([b"", b"x", self.random.choice(files_in(self.folder)).read_bytes()]))
        elif how == "link":
            os.symlink(self.outside / self.random.choice(["file", "folder", "nothing"]), path)
        elif how == "pipe":
            os.mkfifo(path)
        else:
            os.mkdir(path)
            if how == "full folder":
                with open(os.path.join(path, self.random.choice(NAMES[-3:] + NAMES[:4])), "wb"):
                    pass
        return f"{folder.relative_to(self.folder)}/{name}: {how}"

    def do(self):
        """One damage, or two; tells how."""
        ways = [self.damage_file] * 6 + [self.swap_files, self.damage_folder, self.add_name, self.add_name]
        done = [self.random.choice(ways)()]
        if maybe(self.random, 0.25) and files_in(self.folder) and folders_in(self.folder):
            done.append(self.random.choice(ways)())
        return "; ".join(done)


# Trials.


def expected(read):
    """What the second program prints, or says, of a folder."""
    try:
        return 0, read().encode(errors="surrogatepass"), b""
    except Refused as refused:
        return refused.status, b"", said_of(refused)


def expected_of(folder, words, data=b"", time=0):
    """What the second program prints, and says, of a command on a folder."""
    shown, session = [], "00000000-0000-0000-0000-000000000000"
    try:
        reference_commands.execute(folder, words, data, session, time, shown.append)
        status, said = 0, b""
    except Refused as refused:
        status, said = refused.status, said_of(refused)
    return status, "".join(shown).encode(errors="surrogatepass"), said


def said_of(refused):
    """The line of a refusal. What of it is no UTF-8 is that of a consumer's file."""
    return f"{refused}\n".encode(errors="surrogateescape" if refused.status == 18 else "replace")


class Trial:
    """Commands on one damaged table."""

    def __init__(self, tally, program, folder, spelling, outside, how, known):
        self.tally, self.program, self.how, self.known = tally, program, how, known
        self.folder, self.spelling, self.outside = folder, spelling, outside
        self.before_outside = tree(outside)

    def breaks(self, words, what):
        self.tally.breaks(f"{self.how}, {words}", what)

    def command(self, *words, data=b""):
        """Runs a command, now and then under strace, and judges how it ended."""
        traced, trace = [], self.folder.parent / "trace"
        self.tally.add("commands")
        if self.tally.counts["commands"] % SAMPLE == 0:
            traced = ["strace", "-f", "-qq", "-y", "-o", trace, "-e", "trace=%file"]
            self.tally.add("commands under strace")
        ended = run([*traced, self.program, self.spelling, *words], data)
        self.tally.add("refusals", int(ended.status != 0))
        if fault_of(ended, words):
            self.breaks(words, fault_of(ended, words))
        if SECRET in ended.out + ended.err or tree(self.outside) != self.before_outside:
            self.breaks(words, "something outside of the folder was read, or changed")
        if traced:
            self.judge_trace(words, trace.read_text(errors="replace"))
        return ended

    def judge_trace(self, words, trace):
        """Each path that is opened once the folder was is below it, or the folder around it, or a known one."""
        inside = os.fspath(self.folder)
        opened = re.findall(r"(?m)^\d+ +open\w*\(.* = \d+<(.*)>$", trace)
        while opened and opened[0] != inside:
            opened.pop(0)  # what is opened to begin the program
        for path in opened:
            if path not in (inside, os.path.dirname(inside), *KNOWN) and not path.startswith(f"{inside}/"):
                self.breaks(words, f"it opened {path}")
        self.tally.add("paths seen", len(opened))

    def read(self, *words, wanted):
        """A command that only reads, beside the second program."""
        before = tree(self.folder)
        ended = self.command(*words)
        expects = wanted()
        if tuple(ended) != expects:
            self.breaks(words, f"{ended} in the place of {expects}")
        if tree(self.folder) != before:
            self.breaks(words, "a command that only reads changed the folder")

    def change(self, *words, data):
        """A command that changes the table; what was there stays."""
        before = tree(self.folder)
        ended = self.command(*words, data=data)
        after = tree(self.folder)
        gone = [path for path, held in before.items() if after.get(path) != held and not self.is_left(path, held)]
        if gone:
            self.breaks(words, f"these were changed or went: {gone}")
        came = [path for path in after if path not in before and not OWN.fullmatch(path)]
        if came and ended.status != 0:
            self.breaks(words, f"it was refused, and these came: {came}")
        return ended

    def is_left(self, path, held):
        """Whether something may be what a killed writer left, or a seal that counts no more."""
        return held[0] == stat.S_IFREG and LEFT.fullmatch(path)

    def run(self):
        folder = reference_files.Folder(self.folder)
        for asked in (None, 0, 1, 2, 9):
            words = [] if asked is None else ["--snapshot", str(asked)]
            self.read("scan", *words, wanted=lambda at=asked: expected(lambda: reference_files.scan(folder, at)))
        self.read("snapshots", wanted=lambda: expected(lambda: reference_files.list_snapshots(folder)))
        for words in ([], ["--from", "1"], ["--from", "1", "--full"], ["--from", "4", "--full"], ["--from", "9"]):
            if "follow" in self.known:
                self.read("follow", *words, wanted=lambda asked=words: expected_of(folder, ["follow", *asked]))
        if "consumers" in self.known:
            self.read("consumers", wanted=lambda: expected_of(folder, ["consumers"]))
        if "--consumer" in self.known:
            for words in (["--consumer", "c"], ["--consumer", "d", "--from", "2", "--full"], ["--consumer=e"]):
                self.change_files(folder, ["follow", *words])
        if "--drop" in self.known:
            self.change_files(folder, ["consumers", "--drop", "c"])
        self.change("create", data=DRAFT)
        if self.change_beside(folder, ["write"], b'["+I",77,"new"]').status == 0:
            self.tally.add("writes")
            self.judge_scan(folder, b'["+I",77,')
        if "compact" in self.known:
            before = expected(lambda: reference_files.scan(folder))
            if self.change_beside(folder, ["compact", "--full"], b"").out.startswith(b"snapshot "):
                self.tally.add("compactions")
                if self.judge_scan(folder, b"") != before:
                    self.breaks("scan after a compaction", f"it isn't {before} any more")
        if "expire" in self.known:
            before = expected(lambda: reference_files.scan(folder))
            self.change_files(folder, ["expire", "--min", "1", "--max", "2"])
            if self.judge_scan(folder, b"") != before:
                self.breaks("scan after an expiry", f"it isn't {before} any more")

    def change_files(self, folder, words):
        """A command that may change each file, beside the second program, which does so in memory."""
        copied, before = reference_files.Memory(folder), tree(self.folder)
        wanted = expected_of(copied, words, time=int(time.time() * 1000))
        ended = self.command(*words)
        after = tree(self.folder)
        if ended.status == 5:
            return
        if tuple(ended) != wanted:
            self.breaks(words, f"{ended} in the place of {wanted}")
        files = {path.encode(): (stat.S_IFREG, data) for path, data in copied.files.items()}
        files |= {path.encode(): None for path in copied.gone}
        for path in sorted(before.keys() | after.keys() | files.keys()):
            is_folder = after.get(path, before.get(path, (0, None)))[0] == stat.S_IFDIR
            if not is_folder and not INNER.fullmatch(path) and after.get(path) != files.get(path, before.get(path)):
                self.breaks(words, f"{path} has {after.get(path)}, not {files.get(path, before.get(path))}")
        self.tally.add("changes of files compared", len(files))

    def change_beside(self, folder, words, data):
        """A command that changes the table, beside the second program."""
        wanted = expected_of(reference_files.Memory(folder), words, data)
        ended = self.change(*words, data=data)
        if ended.status != 5 and tuple(ended) != wanted:
            self.breaks(words, f"{ended} in the place of {wanted}")
        return ended

    def judge_scan(self, folder, row):
        """A row that was written is in the table, unless the table can't be read; gives what is printed."""
        wanted = expected(lambda: reference_files.scan(folder))
        scanned = self.command("scan")
        if tuple(scanned) != wanted or scanned.status == 0 and row not in scanned.out:
            self.breaks("scan after a change", f"{scanned} in the place of {wanted}, with {row!r}")
        return wanted


def make_tables(program, work, known):
    """The tables that are damaged; one of them was compacted, and one tells its input, where the program knows how."""
    tables = TABLES | ({"input": FOLLOWED} if "follow" in known else {})
    for name, (options, batches) in tables.items():
        draft = json.loads(DRAFT) | {"options": options}
        run([program, work / name, "create"], json.dumps(draft).encode())
        for lines in batches:
            if run([program, work / name, "write"], lines.encode()).status:
                raise SystemExit(f"no table {name} can be made")
    if "consumers" in known:
        for folder in ("consumer", "floor"):
            (work / "input" / folder).mkdir()
        (work / "input/consumer/consumer-c").write_bytes(b'{"nextSnapshot":3}')
        (work / "input/consumer/consumer-d").write_bytes(b'{"nextSnapshot":2,"state":"new"}')
        (work / "input/floor/floor-2").write_bytes(b"")
    if "compact" not in known:
        return list(tables)
    folder = copy(work / "deduplicate", work / "compacted")
    run([program, folder, "compact", "--full"])
    run([program, folder, "write"], b'["+I",1,"once more"]\n["-D",3,null]')
    return [*tables, "compacted"]


def make_outside(table, outside):
    """What links lead to: a file with a row, and a folder with the files of a table and others."""
    shutil.rmtree(outside, ignore_errors=True)
    shutil.copytree(table, outside / "folder")
    (outside / "file").write_bytes(SECRET)
    (outside / "folder" / "0").write_bytes(SECRET)
    for folder in ("schema", "snapshot", "manifest"):
        for path in files_in(table / folder):
            shutil.copy(path, outside / "folder")


def try_no_folders(tally, program, work):
    """What is no folder, and can be made none, is refused, and stays as it is."""
    (work / "none").mkdir()
    (work / "none/file").write_bytes(b"x")
    (work / "none/link").symlink_to("nothing")
    (work / "none/link to a file").symlink_to("file")
    os.mkfifo(work / "none/pipe")
    before = tree(work / "none")
    for name in ("file", "link", "link to a file", "pipe", "nothing/table", "file/table", ""):
        for words in (["create"], ["write"], ["scan"], ["snapshots"], ["no", "command"]):
            ended = run([program, work / "none" / name if name else "", *words], DRAFT)
            if tuple(ended) != (5, b"", b"E5 store .\n") or tree(work / "none") != before:
                tally.breaks(f"FOLDER {name!r}, {words}", f"{ended}")


def main():
    found = read_arguments(__doc__, 1000)
    tally = Tally()
    with work_folder() as work:
        try_no_folders(tally, found.program, work)
        known = [word for word in ("compact", "follow", "consumers", "expire") if knows(found.program, work, word)]
        known += ["--consumer"] if knows_consumers(found.program, work) else []
        known += ["--drop"] if knows(found.program, work, "consumers", "--drop", "c") else []
        tables = make_tables(found.program, work, known)
        (work / "link").symlink_to("damaged")
        for number in range(found.count):
            random = random_of(found.seed, number)
            table = work / random.choice(tables)
            make_outside(table, work / "outside")
            folder = copy(table, work / "damaged")
            how = f"table {number} ({Damage(folder, work / 'outside', random).do()})"
            spelling = random.choice([folder, f"{folder}/", f"{folder}//.", work / "link", f"{work}/link/"])
            Trial(tally, found.program, folder, spelling, work / "outside", how, known).run()
            tally.add("damaged tables")
    tally.end()


if __name__ == "__main__":
    main()
