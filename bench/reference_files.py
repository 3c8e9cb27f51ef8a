"""The files of a table, by docs/FORMATS.md: read as `scan`, `follow` and `snapshots` read them, and written as
`create`, `write` and `compact` do. A program that knows no line of the crates; what a table's rows are worth is in
reference_table.py, the calls of the commands that change a table are in reference_changes.py, and those of following it
in reference_following.py.
"""

import datetime
import os
import re
import stat

from reference_avro import FIRST_DAY, LAST_DAY, Bad, Blocks, binary, bucket_of, read_binary, written
from reference_compact import stored_row
from reference_table import (
    ADDING,
    BITS,
    KINDS,
    Refused,
    Schema,
    by_key,
    folder_text,
    is_texts,
    order,
    print_json,
    printable,
    read_batch,
    read_columns,
    read_json,
    scanned,
    unsupported,
)

GREATEST_ID = 2**53 - 1
GREATEST_SEQUENCE = 2**62 - 1
GREATEST_SIZE = 2**48
FIRST = datetime.date(1970, 1, 1)


def damaged(path, offset=0):
    return Refused(f"E11 damaged {printable(path)} {offset}")


# The folder.


def is_name(name):
    return 1 <= len(name) <= 255 and not name.startswith(b".") and b"\0" not in name


class Folder:
    """A table's folder. Nothing inside it is followed."""

    def __init__(self, folder):
        self.folder = os.fsencode(folder)

    def kind(self, path, of):
        """What stands at a path in the file system: a file, a folder or nothing; anything else is a fault."""
        try:
            mode = os.lstat(path).st_mode
        except (FileNotFoundError, NotADirectoryError):
            return None
        if not stat.S_ISREG(mode) and not stat.S_ISDIR(mode):
            raise Refused(f"E5 store {printable(of)}")
        return "file" if stat.S_ISREG(mode) else "folder"

    def way(self, folder, of):
        """A folder of the store in the file system, or nothing where it isn't there."""
        reached = self.folder
        for part in folder.encode().split(b"/") if folder else []:
            reached = os.path.join(reached, part)
            if self.kind(reached, of) != "folder":
                return None
        return reached

    def read(self, path):
        """The bytes at a path; nothing where no file is."""
        parts = path.encode().split(b"/")
        if not all(is_name(part) for part in parts):
            return None
        folder = self.way("/".join(path.split("/")[:-1]), path)
        if folder is None or self.kind(os.path.join(folder, parts[-1]), path) != "file":
            return None
        with open(os.path.join(folder, parts[-1]), "rb") as file:
            return file.read()

    def list(self, folder):
        """The names of the files and of the folders with a file in a folder that has files."""
        if self.kind(os.path.join(self.folder, b".lock"), folder) == "folder":
            raise Refused(f"E5 store {folder}")
        way = self.way(folder, folder)
        names = [] if way is None else [name for name in os.listdir(way) if is_name(name) and is_utf8(name)]
        for name in names:
            path = os.path.join(way, name)
            if self.kind(path, folder) == "folder" and not holds_file(path):
                raise Refused(f"E5 store {folder}")
        return [name.decode() for name in names]


class Memory:
    """A folder in memory, over one that is read alone, if any: what is put comes beside its files, or in the place of
    one, and of what is taken away is known that it is gone."""

    def __init__(self, below=None):
        self.files, self.below, self.gone = {}, below, set()

    def read(self, path):
        found = self.files.get(path)
        return self.below.read(path) if found is None and self.below and path not in self.gone else found

    def list(self, folder):
        names = {path[len(folder) + 1 :].split("/")[0] for path in self.files if path.startswith(f"{folder}/")}
        below = self.below.list(folder) if self.below else []
        return sorted(names | {name for name in below if f"{folder}/{name}" not in self.gone})

    def is_there(self, path):
        return Memory.read(self, path) is not None

    def create(self, path, data):
        """Puts a file where nothing is; tells whether it did."""
        is_free = not self.is_there(path)
        if is_free:
            self.files[path] = data
        return is_free

    def swap(self, path, expected, data):
        """Puts a file in the place of what is expected, perhaps nothing; tells whether it did, and what it found."""
        found = Memory.read(self, path)
        if found == expected:
            self.files[path] = data
        return found == expected, found

    def publish(self, path, after, data):
        """Puts a file where nothing is, and the one before it stands; tells whether it did."""
        return self.is_there(after) and self.create(path, data)

    def remove(self, path):
        """Takes a file away; tells whether it was there."""
        was_there = self.is_there(path)
        self.files.pop(path, None)
        if self.below:
            self.gone.add(path)
        return was_there


def is_utf8(name):
    try:
        return bool(name.decode())
    except UnicodeDecodeError:
        return False


def holds_file(folder):
    """Whether anything but folders stands below a folder, under a name that is shown."""
    for name in os.listdir(folder):
        path = os.path.join(folder, name)
        if is_name(name) and is_utf8(name):
            if not stat.S_ISDIR(os.lstat(path).st_mode) or holds_file(path):
                return True
    return False


def ids(names, word):
    """The numbers of the names of that form."""
    found = (re.fullmatch(re.escape(word) + "(0|[1-9][0-9]*)", name) for name in names)
    return sorted(int(match[1]) for match in found if match and int(match[1]) <= GREATEST_ID)


# JSON files.


def is_integer(value, low, high):
    return type(value) is int and low <= value < high


def is_text(value):
    return isinstance(value, str)


def schema_form(value, number):
    """Whether a JSON value is the object of a schema file with that id."""
    if not isinstance(value, dict) or value.get("id") != number or not is_integer(value["id"], 0, 2**64):
        return False
    fields, options = value.get("fields"), value.get("options")
    return (
        isinstance(fields, list)
        and all(isinstance(field, dict) for field in fields)
        and all(is_integer(field.get("id"), 0, 2**32) for field in fields)
        and all(is_text(field.get("name")) and is_text(field.get("type")) for field in fields)
        and isinstance(options, dict)
        and is_texts(list(options.values()))
        and is_texts(value.get("partitionKeys"))
        and is_texts(value.get("primaryKeys"))
        and is_integer(value.get("highestFieldId"), 0, 2**32)
        and is_integer(value.get("timeMillis"), -(2**63), 2**63)
        and isinstance(value.get("comment"), (str, type(None)))
        and is_text(value.get("origin", ""))
    )


def read_schema(folder):
    """The table's schema, with its id and its origin."""
    known = ids(folder.list("schema"), "schema-")
    if not known:
        raise Refused("E9 no table")
    path = f"schema/schema-{known[-1]}"
    try:
        value = read_json(folder.read(path))
    except (ValueError, AttributeError) as error:
        raise damaged(path) from error
    if not schema_form(value, known[-1]):
        raise damaged(path)
    schema = Schema(read_columns(value["fields"]), value["primaryKeys"], value["partitionKeys"], value["options"])
    schema.ids = [field["id"] for field in value["fields"]], value["highestFieldId"]
    schema.judge()
    schema.id, schema.origin = known[-1], value.get("origin")
    if schema.origin is None and not snapshot_ids(folder):
        raise unsupported("origin", "")
    return schema


SNAPSHOT = {
    "baseManifestList": is_text,
    "deltaManifestList": is_text,
    "commitUser": is_text,
    "commitKind": lambda value: value in ("APPEND", "COMPACT", "OVERWRITE", "ANALYZE"),
    "changelogManifestList": lambda value: value is None or is_text(value),
    "id": lambda value: is_integer(value, 0, 2**64),
    "schemaId": lambda value: is_integer(value, 0, 2**64),
    "commitIdentifier": lambda value: is_integer(value, -(2**63), 2**63),
    "timeMillis": lambda value: is_integer(value, -(2**63), 2**63),
    "totalRecordCount": lambda value: is_integer(value, -(2**63), 2**63),
    "deltaRecordCount": lambda value: is_integer(value, -(2**63), 2**63),
    "changelogRecordCount": lambda value: value is None or is_integer(value, -(2**63), 2**63),
    "watermark": lambda value: value is None or is_integer(value, -(2**63), 2**63),
    "properties": lambda value: value is None or isinstance(value, dict) and is_texts(list(value.values())),
}


def snapshot_ids(folder):
    """The numbers of the snapshots that are there, rising. A name of snapshot 0 is none."""
    return [number for number in ids(folder.list("snapshot"), "snapshot-") if number]


def read_snapshot(folder, number):
    """A snapshot's object, in which it is known to read; nothing where it is absent."""
    path = f"snapshot/snapshot-{number}"
    data = folder.read(path)
    if data is None:
        return None
    try:
        value = read_json(data)
    except ValueError as error:
        raise damaged(path) from error
    if not isinstance(value, dict) or not all(fits(value.get(name)) for name, fits in SNAPSHOT.items()):
        raise damaged(path)
    if value["id"] != number or not fit_properties(value.get("properties") or {}, number):
        raise damaged(path)
    return value


def fit_properties(properties, number):
    """Whether the four properties of this program are numbers in their bounds."""
    values = {"base": str(number - 1), "fence": "-1", "appends": "0", "full": "0"} | properties
    texts = [values[name] for name in ("base", "fence", "appends", "full")]
    if not all(re.fullmatch("0|-?[1-9][0-9]*", text) for text in texts):
        return False
    base, fence, appends, full = (int(text) for text in texts)
    return 0 <= base < number and -1 <= fence < number and 0 <= full <= appends <= number


def list_snapshots(folder):
    """What `snapshots` prints."""
    read_schema(folder)
    lines = ""
    for number in snapshot_ids(folder):
        found = read_snapshot(folder, number)
        if found is None:
            raise Refused(f"E13 expired {number}")
        names = ("id", "commitKind", "commitUser", "commitIdentifier", "timeMillis", "totalRecordCount")
        lines += print_json([found[name] for name in names]) + "\n"
    return lines


# Avro records.


def record_fields(kind):
    """The fields of a record, or of its union with null; none of any other type."""
    if kind[0] == "union" and len(kind[1]) == 2 and "null" in kind[1]:
        kind = kind[1][1 - kind[1].index("null")]
    return dict(kind[1]) if kind[0] == "record" else {}


def may_stand(kind, wanted, in_union=False):
    """Whether a field's type may stand where that one is wanted."""
    if in_union and kind[0] == "union" and len(kind[1]) == 2 and "null" in kind[1]:
        kind = kind[1][1 - kind[1].index("null")]
    return kind == wanted or (kind, wanted) == ("int", "long")


def read_records(path, data, needed, read):
    """The records of a file, each as it is read with its type; a first fault is refused with its block's offset."""
    return [record for block in read_blocks(path, data, needed, read) for record in block]


def read_blocks(path, data, needed, read):
    """The same, one block after another, each when it is asked for."""
    try:
        blocks = Blocks(data)
    except Bad as error:
        raise damaged(path) from error
    for fields_of, names in needed:
        if not set(names) <= set(fields_of(blocks.kind)):
            raise damaged(path)
    for offset, block in blocks:
        try:
            yield [read(blocks.kind, datum) for datum in block()]
        except Bad as error:
            raise damaged(path, offset) from error


def value_of(fields, record, name, wanted, bounds=None):
    """A record's field, whose type and value have to fit."""
    if not may_stand(fields[name], wanted) or bounds and not bounds[0] <= record[name] <= bounds[1]:
        raise Bad
    return record[name]


LIST_FIELDS = {
    "_FILE_NAME": ("string", None),
    "_FILE_SIZE": ("long", (0, GREATEST_SIZE)),
    "_NUM_ADDED_FILES": ("long", (0, GREATEST_SIZE)),
    "_NUM_DELETED_FILES": ("long", (0, GREATEST_SIZE)),
    "_SCHEMA_ID": ("long", (0, GREATEST_ID)),
}


def read_meta(kind, record):
    """What a record of a list tells of a manifest."""
    if record is None:
        raise Bad
    fields = record_fields(kind)
    for name, (wanted, bounds) in LIST_FIELDS.items():
        value_of(fields, record, name, wanted, bounds)
    return {name: record[name] for name in LIST_FIELDS}


def read_list(path, data):
    return read_records(path, data, [(record_fields, LIST_FIELDS)], read_meta)


ENTRY_FIELDS = ("_KIND", "_PARTITION", "_TOTAL_BUCKETS", "_BUCKET", "_FILE")
SIZES = (("_SCHEMA_ID", GREATEST_ID), ("_FILE_SIZE", GREATEST_SIZE), ("_ROW_COUNT", GREATEST_SIZE))
KEYS = ("_MIN_KEY", "_MAX_KEY")
SEQUENCES = ("_MIN_SEQUENCE_NUMBER", "_MAX_SEQUENCE_NUMBER")
FILE_FIELDS = ("_FILE_NAME", *(name for name, _ in SIZES), *KEYS, *SEQUENCES, "_LEVEL", "_CREATION_TIME")


def file_fields(kind):
    return record_fields(record_fields(kind)["_FILE"])


def read_manifest(path, schema, data):
    """The entries of a manifest: of each whether it adds a file, and that file."""
    needed = [(record_fields, ENTRY_FIELDS), (file_fields, FILE_FIELDS)]
    return read_records(path, data, needed, lambda kind, record: read_entry(schema, kind, record))


def read_entry(schema, kind, record):
    if record is None:
        raise Bad
    fields = record_fields(kind)
    adds = value_of(fields, record, "_KIND", "int", (0, 1)) == 0
    kinds = [kind for _, kind, _ in schema.partition_columns()]
    partition = read_binary(kinds, value_of(fields, record, "_PARTITION", "bytes"))
    if value_of(fields, record, "_TOTAL_BUCKETS", "int") != schema.buckets:
        raise unsupported("_TOTAL_BUCKETS", str(record["_TOTAL_BUCKETS"]))
    bucket = value_of(fields, record, "_BUCKET", "int", (0, schema.buckets - 1))
    if record["_FILE"] is None:
        raise Bad
    group = tuple(shown(*found) for found in zip(kinds, partition)), bucket
    return adds, read_file_meta(schema, group, file_fields(kind), record["_FILE"])


def read_file_meta(schema, group, fields, record):
    """What an entry tells of a file of a group."""
    name = value_of(fields, record, "_FILE_NAME", "string")
    if not name.endswith(".avro"):
        raise unsupported("file", name)
    for field, most in SIZES:
        value_of(fields, record, field, "long", (0, most))
    kinds = [kind for _, kind, _ in schema.key_columns()]
    least, greatest = (read_binary(kinds, value_of(fields, record, field, "bytes")) for field in KEYS)
    for field in SEQUENCES:
        value_of(fields, record, field, "long", (0, GREATEST_SEQUENCE))
    level = value_of(fields, record, "_LEVEL", "int", (0, 2**31 - 1))
    if fields["_CREATION_TIME"] != "null" and not may_stand(fields["_CREATION_TIME"], "long", True):
        raise Bad
    orders = [key_in(schema, group, key) for key in (least, greatest)]
    return {
        "group": group,
        "name": name,
        "level": level,
        "schema": record["_SCHEMA_ID"],
        "size": record["_FILE_SIZE"],
        "rows": record["_ROW_COUNT"],
        "keys": (least, greatest),
        "least": orders[0],
        "greatest": orders[1],
        "oldest": record["_MIN_SEQUENCE_NUMBER"],
        "newest": record["_MAX_SEQUENCE_NUMBER"],
        "time": record["_CREATION_TIME"],
    }


# Groups: a partition's printed values, and a bucket.


def group_of(schema, row):
    """The group of a row."""
    own = [(kind, row[schema.names.index(name)]) for name, kind, _ in schema.key_columns()]
    bucket = bucket_of([kind for kind, _ in own], [stored(*found) for found in own], schema.buckets)
    return tuple(row[schema.names.index(name)] for name in schema.partition), bucket


def by_group(schema, group):
    """What the order of groups compares."""
    kinds = [kind for _, kind, _ in schema.partition_columns()]
    return [order(*found) for found in zip(kinds, group[0])], group[1]


def in_groups(schema, items, of):
    """Items by rising group, those of each in their order."""
    found = {}
    for item in items:
        found.setdefault(of(item), []).append(item)
    return {group: found[group] for group in sorted(found, key=lambda group: by_group(schema, group))}


def key_in(schema, group, key):
    """The key that a group and a key's stored values beside it make, in the order of keys."""
    values = dict(zip(schema.partition, group[0]))
    return schema.key_of(values | {name: shown(kind, value) for (name, kind, _), value in zip(schema.key_columns(), key)})


def folder_of(schema, group):
    """The path of a group's folder."""
    parts = [f"{name}={escaped(value)}/" for name, value in zip(schema.partition, group[0])]
    return "".join(parts) + f"bucket-{group[1]}"


def escaped(value):
    """The text of a partition's value in a folder's name."""
    return "".join(chr(b) if re.match(rb"[A-Za-z0-9._-]", bytes([b])) else f"%{b:02X}" for b in folder_text(value))


def path_of(schema, file):
    """The path of a data file or a changelog file."""
    return f"{folder_of(schema, file['group'])}/{file['name']}"


# Data files.


def avro_type(kind):
    types = {"BOOLEAN": "boolean", "BIGINT": "long", "TIMESTAMP(3)": "long", "STRING": "string", "BYTES": "bytes"}
    return types.get(kind, "int")


def shown(kind, value):
    """A stored value as it is printed."""
    if kind == "DATE" and value is not None:
        return (FIRST + datetime.timedelta(value)).isoformat()
    return value.hex() if kind == "BYTES" and value is not None else value


def stored(kind, value):
    """A printed value as it is stored."""
    if kind == "DATE" and value is not None:
        return (datetime.date.fromisoformat(value) - FIRST).days
    return bytes.fromhex(value) if kind == "BYTES" and value is not None else value


def column_value(fields, record, name, kind, nullable):
    """The value of a column in a record, as it is printed."""
    value = record[name]
    if not may_stand(fields[name], avro_type(kind), True) or value is None and not nullable:
        raise Bad
    if value is not None and kind in BITS and not -(2 ** (BITS[kind] - 1)) <= value < 2 ** (BITS[kind] - 1):
        raise Bad
    if value is not None and kind == "DATE" and not FIRST_DAY <= value <= LAST_DAY:
        raise Bad
    return shown(kind, value)


class RunReader:
    """Reads the rows of a run's files, one after another, each with its number and its kind: their keys rise. Those of
    a changelog file don't fall, its numbers mean nothing, and it has each kind."""

    def __init__(self, schema, of_changes=False):
        self.schema, self.of_changes = schema, of_changes
        self.last = None

    def read(self, path, data):
        return [row for block in self.blocks(path, data) for row in block]

    def blocks(self, path, data):
        """The rows of a file, one block after another."""
        names = [f"_KEY_{name}" for name, _, _ in self.schema.key_columns()]
        needed = [*names, "_SEQUENCE_NUMBER", "_VALUE_KIND", *self.schema.names]
        return read_blocks(path, data, [(record_fields, needed)], self.read_row)

    def read_row(self, kind, record):
        if record is None:
            raise Bad
        fields, schema = record_fields(kind), self.schema
        value_of(fields, record, "_SEQUENCE_NUMBER", "long", None if self.of_changes else (0, GREATEST_SEQUENCE))
        of_row = KINDS[value_of(fields, record, "_VALUE_KIND", "int", (0, 3))]
        row = [column_value(fields, record, *column) for column in schema.columns]
        for name, of_column, nullable in schema.key_columns():
            if column_value(fields, record, f"_KEY_{name}", of_column, nullable) != row[schema.names.index(name)]:
                raise Bad
        if schema.engine != "deduplicate" and of_row not in ADDING and not self.of_changes:
            raise unsupported("_VALUE_KIND", of_row)
        key = schema.key(row)
        if self.last is not None and (key < self.last or key == self.last and not self.of_changes):
            raise Bad
        self.last = key
        kept = of_row if self.of_changes or schema.engine in ("deduplicate", "first-row") else "+I"
        return record["_SEQUENCE_NUMBER"], kept, row


# A table at a snapshot.


def scan(folder, asked=None):
    """What `scan` prints of the table in a folder."""
    return table_at(folder, read_schema(folder), asked)


def newest_of(folder):
    return max(snapshot_ids(folder), default=0)


def table_at(folder, schema, asked, least=0):
    """The lines of a table at a snapshot, as far as its runs from that level on have them."""
    newest = newest_of(folder)
    number = newest if asked is None else asked
    if number > newest:
        raise Refused(f"E12 snapshot {number} latest {newest}")
    view, rows = View(folder, schema, number), []
    for found in group_runs(schema, view.live_files()).values():
        of_group = []
        for run in found:
            if run[0]["level"] >= least:
                of_group = [(kind, row) for _, kind, row in view.run_rows(run)] + of_group
        rows += of_group
    return scanned(schema, rows)


class View:
    """A snapshot, and the reading of what it names."""

    def __init__(self, folder, schema, number):
        self.folder, self.schema, self.number = folder, schema, number
        self.found = None
        if number:
            self.found = read_snapshot(folder, number)
        elif folder.read(f"snapshot/{schema.origin or 'snapshot-0'}") is None:
            raise Refused("E13 expired 0")
        if number and self.found is None:
            raise Refused(f"E13 expired {number}")
        if number and self.found["schemaId"] != schema.id:
            raise damaged(f"schema/schema-{self.found['schemaId']}")
        self.properties = {"fence": "-1", "appends": "0", "full": "0"} | ((self.found or {}).get("properties") or {})
        self.metas, self.told = [], []

    def read(self, path):
        """The bytes at a path that the snapshot names."""
        data = self.folder.read(path)
        if data is None and read_snapshot(self.folder, self.number) is None:
            raise Refused(f"E13 expired {self.number}")
        if data is None:
            raise damaged(path)
        return data

    def live_files(self):
        """The files that are live after the entries of the snapshot's manifests, in their order."""
        lists = [self.found[name] for name in ("baseManifestList", "deltaManifestList")] if self.found else []
        paths = [f"manifest/{name}" for name in lists]
        self.metas = [meta for path in paths for meta in read_list(path, self.read(path))]
        live = {}
        for path in [f"manifest/{meta['_FILE_NAME']}" for meta in self.metas]:
            for adds, file in read_manifest(path, self.schema, self.read(path)):
                known = id_of(file)
                if adds == (known in live):
                    raise damaged(path)
                live[known] = file
                if not adds:
                    del live[known]
        return list(live.values())

    def run_rows(self, run):
        """The rows of a run's files."""
        return self.rows_of(run, RunReader(self.schema))

    def rows_of(self, files, reader):
        """The rows of files, by that reader."""
        rows = []
        for file in files:
            path = path_of(self.schema, file)
            data = self.read(path)
            self.judge_schema(file)
            rows += reader.read(path, data)
        return rows

    def judge_schema(self, file):
        if file["schema"] != self.schema.id:
            raise damaged(f"schema/schema-{file['schema']}")

    def changes(self):
        """The rows of the snapshot's changelog, each with its kind."""
        found = [self.rows_of([file], RunReader(self.schema, True)) for file in self.changelog_files()]
        rows = [(kind, row) for rows in found for _, kind, row in rows]
        return sorted(rows, key=lambda row: self.schema.key(row[1]))

    def changelog_files(self):
        """The files of the snapshot's changelog, in the order of their entries."""
        name, files = self.found.get("changelogManifestList"), []
        self.told = [] if name is None else read_list(f"manifest/{name}", self.read(f"manifest/{name}"))
        for path in [f"manifest/{meta['_FILE_NAME']}" for meta in self.told]:
            for adds, file in read_manifest(path, self.schema, self.read(path)):
                if not adds or file["level"]:
                    raise damaged(path)
                files.append(file)
        return files


class Lookup:
    """Runs in which the rows of keys are looked up, the newest first. Their files are read and not judged: only those
    are that may have a key, as far as up to its place."""

    def __init__(self, view, found):
        self.view = view
        files = [file for run in found for file in run]
        self.files = [LookedFile(view, file, view.read(path_of(view.schema, file))) for file in files]

    def rows(self, key):
        """The rows that the runs have of a key, those of the oldest first."""
        found = [row for file in self.files if file.may_have(key) for row in file.look(key)]
        return found[::-1]


class LookedFile:
    """A file with the blocks that were read of it, of each its last key and the rows of its keys."""

    def __init__(self, view, file, data):
        self.view, self.file = view, file
        self.known, self.left = [], self.blocks(data)

    def may_have(self, key):
        return self.file["least"] <= key <= self.file["greatest"]

    def blocks(self, data):
        """Reads a block when it is asked for. The order of keys is judged in each block alone."""
        schema = self.view.schema
        self.view.judge_schema(self.file)
        reader = RunReader(schema)
        for block in reader.blocks(path_of(schema, self.file), data):
            reader.last = None
            yield [schema.key(row) for _, _, row in block[-1:]], {schema.key(row[2]): row for row in block}

    def look(self, key):
        """The rows of a key. No block is read behind the first one whose last key isn't below it."""
        for last, rows in self.known:
            if last >= [key]:
                return [rows[key]] if key in rows else []
        for last, rows in self.left:
            self.known.append((last, rows))
            if last >= [key]:
                return [rows[key]] if key in rows else []
        return []


def id_of(file):
    """What a live file is known by."""
    return file["group"], file["name"], file["level"]


def group_runs(schema, live):
    """The runs of each group that has live files, by rising group."""
    return {group: runs(schema, files) for group, files in in_groups(schema, live, lambda file: file["group"]).items()}


def runs(schema, live):
    """Live files of a group as runs, the newest first: each file of level 0, and each level above."""
    lowest = [file for file in live if file["level"] == 0]
    found = [[file] for file in sorted(lowest, key=lambda file: (-file["newest"], file["name"].encode()))]
    for level in sorted({file["level"] for file in live} - {0}):
        run = sorted((f for f in live if f["level"] == level), key=lambda file: (file["least"], file["name"].encode()))
        for at, file in enumerate(run):
            if any(share_keys(file, other) for other in run[:at]):
                raise damaged(path_of(schema, file))
        found.append(run)
    return found


def share_keys(file, other):
    """Whether the key ranges of two files meet. One whose least key is above its greatest has no keys."""
    return max(file["least"], other["least"]) <= min(file["greatest"], other["greatest"])


# What a commit writes.

STATISTICS = [
    ("_MIN_VALUES", "bytes"),
    ("_MAX_VALUES", "bytes"),
    ("_NULL_COUNTS", ("union", ["null", ("array", ("union", ["null", "long"]))])),
]
LIST = [
    ("_VERSION", "int"),
    ("_FILE_NAME", "string"),
    ("_FILE_SIZE", "long"),
    ("_NUM_ADDED_FILES", "long"),
    ("_NUM_DELETED_FILES", "long"),
    ("_PARTITION_STATS", ("record", STATISTICS)),
    ("_SCHEMA_ID", "long"),
]
FILE = [
    ("_FILE_NAME", "string"),
    ("_FILE_SIZE", "long"),
    ("_ROW_COUNT", "long"),
    ("_MIN_KEY", "bytes"),
    ("_MAX_KEY", "bytes"),
    ("_KEY_STATS", ("record", STATISTICS)),
    ("_VALUE_STATS", ("record", STATISTICS)),
    ("_MIN_SEQUENCE_NUMBER", "long"),
    ("_MAX_SEQUENCE_NUMBER", "long"),
    ("_SCHEMA_ID", "long"),
    ("_LEVEL", "int"),
    ("_CREATION_TIME", ("union", ["null", "long"])),
]
MANIFEST = [
    ("_VERSION", "int"),
    ("_KIND", "int"),
    ("_PARTITION", "bytes"),
    ("_BUCKET", "int"),
    ("_TOTAL_BUCKETS", "int"),
    ("_FILE", ("record", FILE)),
]


def no_statistics(count):
    """Statistics of so many columns, of which nothing is known."""
    nulls = binary(["INT"] * count, [None] * count)
    return {"_MIN_VALUES": nulls, "_MAX_VALUES": nulls, "_NULL_COUNTS": None}


def stored_run(schema, rows, first):
    """The stored rows of a batch by rising key, each with its number and its kind; the rows are numbered from that."""
    numbers = {}
    for at, (_, row) in enumerate(rows, first):
        numbers[schema.key(row)] = at
    run = []
    for of_key in by_key(schema, rows):
        kind, row = stored_row(schema, of_key)
        run.append((numbers[schema.key(row)], kind, row))
    return run


def data_file(schema, run, marker):
    """The data file of a run."""
    keys = schema.key_columns()
    fields = [(f"_KEY_{name}", avro_type(kind)) for name, kind, _ in keys]
    fields += [("_SEQUENCE_NUMBER", "long"), ("_VALUE_KIND", "int")]
    for name, kind, nullable in schema.columns:
        fields.append((name, ("union", ["null", avro_type(kind)]) if nullable else avro_type(kind)))
    records = []
    for number, kind, row in run:
        values = {name: stored(of, value) for (name, of, _), value in zip(schema.columns, row)}
        own = {"_SEQUENCE_NUMBER": number, "_VALUE_KIND": KINDS.index(kind)}
        records.append({f"_KEY_{name}": values[name] for name, _, _ in keys} | own | values)
    return written(("record", fields), records, marker)


def schema_file(schema, session, time, comment=None):
    """The file of a schema that a `create` makes."""
    fields = [
        {"id": at, "name": name, "type": kind + ("" if nullable else " NOT NULL")}
        for at, (name, kind, nullable) in enumerate(schema.columns)
    ]
    value = {
        "comment": comment,
        "fields": fields,
        "highestFieldId": len(fields) - 1,
        "id": 0,
        "options": written_options(schema.options),
        "origin": f"ORIGIN-{session}-0",
        "partitionKeys": schema.partition,
        "primaryKeys": schema.primary,
        "timeMillis": time,
        "version": 3,
    }
    return print_json(value).encode()


def file_of(schema, group, name, data, run, level):
    """What an entry tells of a new data file of a group that has the rows of a run."""
    rows = [run[0][2], run[-1][2]]
    kinds = [(key, kind) for key, kind, _ in schema.key_columns()]
    keys = [[stored(kind, row[schema.names.index(key)]) for key, kind in kinds] for row in rows]
    orders = [schema.key(row) for row in rows]
    return {
        "group": group,
        "name": name,
        "level": level,
        "schema": schema.id,
        "size": len(data),
        "rows": len(run),
        "keys": tuple(keys),
        "least": orders[0],
        "greatest": orders[1],
        "oldest": min(number for number, _, _ in run),
        "newest": max(number for number, _, _ in run),
        "time": None,
    }


def entry(schema, adds, file):
    """The record of an entry that adds a file, or takes it away."""
    kinds = [kind for _, kind, _ in schema.key_columns()]
    record = {
        "_FILE_NAME": file["name"],
        "_FILE_SIZE": file["size"],
        "_ROW_COUNT": file["rows"],
        "_MIN_KEY": binary(kinds, file["keys"][0]),
        "_MAX_KEY": binary(kinds, file["keys"][1]),
        "_KEY_STATS": no_statistics(len(kinds)),
        "_VALUE_STATS": no_statistics(len(schema.columns)),
        "_MIN_SEQUENCE_NUMBER": file["oldest"],
        "_MAX_SEQUENCE_NUMBER": file["newest"],
        "_SCHEMA_ID": file["schema"],
        "_LEVEL": file["level"],
        "_CREATION_TIME": file["time"],
    }
    columns = [kind for _, kind, _ in schema.partition_columns()]
    partition = binary(columns, [stored(*found) for found in zip(columns, file["group"][0])])
    own = {"_VERSION": 2, "_KIND": int(not adds), "_PARTITION": partition, "_BUCKET": file["group"][1]}
    return own | {"_TOTAL_BUCKETS": schema.buckets, "_FILE": record}


def manifest_file(entries, marker):
    return written(("record", MANIFEST), entries, marker)


def list_file(schema, metas, marker):
    own = {"_VERSION": 2, "_PARTITION_STATS": no_statistics(len(schema.partition))}
    return written(("record", LIST), [own | meta for meta in metas], marker)


def meta_of(schema, name, data, entries):
    """What a record of a list tells of a new manifest."""
    deleted = sum(entry["_KIND"] for entry in entries)
    return {
        "_FILE_NAME": name,
        "_FILE_SIZE": len(data),
        "_NUM_ADDED_FILES": len(entries) - deleted,
        "_NUM_DELETED_FILES": deleted,
        "_SCHEMA_ID": schema.id,
    }


DEFAULTS = {
    "merge-engine": "deduplicate",
    "ignore-delete": "false",
    "changelog-producer": "none",
    "changelog-producer.row-deduplicate": "false",
    "num-sorted-run.compaction-trigger": "5",
    "compaction.max-size-amplification-percent": "200",
    "compaction.size-ratio": "1",
    "manifest.merge-min-count": "30",
    "snapshot.num-retained.min": "10",
    "snapshot.num-retained.max": "2147483647",
}


def written_options(options):
    """A table's options as they are written: without those that have their defaults."""
    out = {key: text for key, text in options.items() if DEFAULTS.get(key) != text}
    found = re.fullmatch("([0-9]+) ?(ms|s|min|h|d)", out.pop("snapshot.time-retained", "1h"))
    millis = int(found[1]) * {"ms": 1, "s": 1000, "min": 60000, "h": 3600000, "d": 86400000}[found[2]]
    if millis != 3600000:
        out["snapshot.time-retained"] = f"{millis} ms"
    if out.get("num-levels") == str(int(options.get("num-sorted-run.compaction-trigger", "5")) + 1):
        del out["num-levels"]
    return out
