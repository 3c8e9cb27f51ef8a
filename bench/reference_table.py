"""What a table is, by docs/FORMATS.md and docs/BEHAVIOUR.md and without a file: part of a second program, with which
the scripts here compare the answers of the first. It judges drafts and rows, and says what the rows of a key are worth
by each engine. It was written from the documents, knows no line of the crates, and is slow and plain.
"""

import datetime
import json
import re

KINDS = ["+I", "-U", "+U", "-D"]
ADDING = ("+I", "+U")
BITS = {"TINYINT": 8, "SMALLINT": 16, "INT": 32, "BIGINT": 64, "TIMESTAMP(3)": 64}
INTEGERS = ("TINYINT", "SMALLINT", "INT", "BIGINT")
TYPES = (*BITS, "BOOLEAN", "STRING", "BYTES", "DATE")
DEEPEST = 127
OF_COLUMN = re.compile(r"fields\.(.*)\.(aggregate-function|list-agg-delimiter|ignore-retract|sequence-group)", re.S)


class Refused(Exception):
    """A refusal. Its text is the line that is said."""

    @property
    def status(self):
        return int(str(self).split(" ")[0][1:])


class NoInteger:
    """A number that is no integer of 64 bits."""


def no_constant(text):
    raise ValueError(text)


def read_number(text):
    """A JSON number: an integer of 64 bits, with a sign or without, or NoInteger."""
    if abs(float(text)) == float("inf"):
        raise ValueError(text)
    if text == "-0" or not text.lstrip("-").isdigit() or len(text) > 20:
        return NoInteger()
    number = int(text)
    return number if -(2**63) <= number < 2**64 else NoInteger()


def depth(value):
    """How deep arrays and objects are nested in a value."""
    deepest, level = 0, [value]
    while level := [v for v in level if isinstance(v, (list, dict))]:
        deepest += 1
        level = [item for v in level for item in (v.values() if isinstance(v, dict) else v)]
    return deepest


def read_json(data):
    """The value of a JSON text; ValueError where the bytes are none. A lone surrogate is none."""
    try:
        value = json.loads(
            data.decode(), parse_int=read_number, parse_float=read_number, parse_constant=no_constant
        )
        json.dumps(value, ensure_ascii=False, default=str).encode()
    except RecursionError as error:
        raise ValueError("too deep") from error
    if depth(value) > DEEPEST:
        raise ValueError("too deep")
    return value


def print_json(value):
    """Compact JSON with its keys in order."""
    return json.dumps(value, ensure_ascii=False, separators=(",", ":"), sort_keys=True)


def printable(text):
    """A text as a refusal has it: on one line."""
    return "".join(f"\\u{ord(c):04x}" if ord(c) < 32 or ord(c) == 127 else c for c in text)


def unsupported(what, text):
    return Refused(f"E10 unsupported {printable(what)} {printable(text)}")


# Options.


def between(low, high):
    return lambda text: re.fullmatch("0|[1-9][0-9]*", text) is not None and low <= int(text) <= high


def is_retained_time(text):
    """Whether a text is a time for which snapshots are kept: at most 2^53 milliseconds."""
    found = re.fullmatch("([0-9]+) ?(ms|s|min|h|d)", text)
    each = {"ms": 1, "s": 1000, "min": 60000, "h": 3600000, "d": 86400000}
    return found is not None and int(found[1]) * each[found[2]] <= 2**53


AGGREGATES = {
    "sum": INTEGERS,
    "max": tuple(t for t in TYPES if t not in ("BOOLEAN", "BYTES")),
    "min": tuple(t for t in TYPES if t not in ("BOOLEAN", "BYTES")),
    "last_value": TYPES,
    "last_non_null_value": TYPES,
    "first_value": TYPES,
    "first_non_null_value": TYPES,
    "listagg": ("STRING",),
    "bool_and": ("BOOLEAN",),
    "bool_or": ("BOOLEAN",),
}
TEXTS = {
    "file.format": ("avro",).__contains__,
    "merge-engine": ("deduplicate", "partial-update", "aggregation", "first-row").__contains__,
    "ignore-delete": ("true", "false").__contains__,
    "changelog-producer": ("none", "input", "lookup", "full-compaction").__contains__,
    "changelog-producer.row-deduplicate": ("true", "false").__contains__,
    "full-compaction.delta-commits": between(1, 1000000),
    "num-sorted-run.compaction-trigger": between(1, 100),
    "num-levels": between(2, 101),
    "compaction.max-size-amplification-percent": between(0, 1000000),
    "compaction.size-ratio": between(0, 1000000),
    "manifest.merge-min-count": between(2, 1000),
    "snapshot.time-retained": is_retained_time,
    "snapshot.num-retained.min": between(1, 2147483647),
    "snapshot.num-retained.max": between(1, 2147483647),
    "deletion-vectors.enabled": ("false",).__contains__,
    "manifest.format": ("avro",).__contains__,
    "changelog-file.format": ("avro",).__contains__,
}
NEVER = (
    "bucket-key",
    "rowkind.field",
    "fields.default-aggregate-function",
    "sequence.field",
    "sequence.field.sort-order",
    "partial-update.remove-record-on-delete",
    "partial-update.remove-record-on-sequence-group",
    "aggregation.remove-record-on-delete",
)
TEXTS_OF_COLUMN = {
    "aggregate-function": AGGREGATES.__contains__,
    "list-agg-delimiter": lambda text: True,
    "ignore-retract": ("true", "false").__contains__,
    "sequence-group": lambda text: True,
}


def is_taken(key, text):
    """Whether an option takes a text. One that isn't known takes each."""
    if key in NEVER:
        return False
    of_column = OF_COLUMN.fullmatch(key)
    if of_column:
        return TEXTS_OF_COLUMN[of_column[2]](text) and not (of_column[2] == "sequence-group" and "," in of_column[1])
    return TEXTS.get(key, lambda text: True)(text)


def judge_options(options):
    """Refuses the first option, in the order of their keys' bytes, that doesn't take its text."""
    for key in sorted({"bucket", "file.format", *options}, key=str.encode):
        text = options.get(key, {"bucket": "-1", "file.format": ""}.get(key))
        if key == "bucket" and re.fullmatch("[1-9][0-9]*", text):
            if len(text) > 3 or int(text) > 256:
                raise Refused("E21 limit buckets 256")
        elif key == "bucket" or not is_taken(key, text):
            raise unsupported(key, text)


class Schema:
    """A table's columns, key and options."""

    def __init__(self, columns, primary, partition, options):
        self.columns = columns  # of each its name, its type, and whether it may be null
        self.names = [name for name, _, _ in columns]
        self.primary = primary
        self.partition = partition
        self.options = options
        self.engine = options.get("merge-engine", "deduplicate")
        self.producer = options.get("changelog-producer", "none")
        self.ignores_delete = options.get("ignore-delete") == "true"

    def of_columns(self, kind):
        """The options of that kind that stand, by column."""
        found = ((OF_COLUMN.fullmatch(key), text) for key, text in self.options.items())
        of_kind = {match[1]: text for match, text in found if match and match[2] == kind}
        return dict(sorted(of_kind.items(), key=lambda item: item[0].encode()))

    def groups(self):
        return {lead: names.split(",") for lead, names in self.of_columns("sequence-group").items()}

    def function(self, name):
        return self.of_columns("aggregate-function").get(name, "last_non_null_value")

    def ignores_retract(self, name):
        return self.of_columns("ignore-retract").get(name) == "true"

    def delimiter(self, name):
        return self.of_columns("list-agg-delimiter").get(name, ",")

    @property
    def buckets(self):
        return int(self.options["bucket"])

    def key_columns(self):
        """The columns of the key that aren't the partition's."""
        return [self.columns[self.names.index(name)] for name in self.primary if name not in self.partition]

    def partition_columns(self):
        return [self.columns[self.names.index(name)] for name in self.partition]

    def key(self, row):
        """The key of a row, in the order of keys."""
        return self.key_of({name: row[self.names.index(name)] for name in self.primary})

    def key_of(self, values):
        """The same of values by column."""
        kinds = {name: kind for name, kind, _ in self.columns}
        return tuple(order(kinds[name], values[name]) for name in self.primary)

    def judge(self):
        """Refuses the first fault of a schema that has its form."""
        judge_options(self.options)
        judge_pairs(self)
        for number, holds in enumerate(RULES, 1):
            if not holds(self):
                raise Refused(f"E22 schema rule {number}")


def judge_pairs(schema):
    """Refuses the first pair of options that don't go together."""
    producer = schema.options.get("changelog-producer")
    pairs = [
        ("changelog-producer", producer == "input" and schema.engine != "deduplicate"),
        ("changelog-producer", producer == "full-compaction" and schema.engine == "first-row"),
        ("ignore-delete", schema.ignores_delete and schema.engine == "aggregation"),
    ]
    if schema.engine == "partial-update":
        pairs += [(f"fields.{name}.aggregate-function", True) for name in schema.of_columns("aggregate-function")]
    ends = ("last_value", "first_value")
    pairs += [
        (f"fields.{name}.ignore-retract", schema.ignores_retract(name) and schema.function(name) in ends)
        for name in schema.of_columns("ignore-retract")
    ]
    for key, is_refused in pairs:
        if is_refused:
            raise unsupported(key, schema.options[key])


def has_names(schema):
    own = ("_SEQUENCE_NUMBER", "_VALUE_KIND")
    return all(
        re.fullmatch("[A-Za-z_][A-Za-z0-9_]{0,63}", name) and not name.startswith("_KEY_") and name not in own
        for name in schema.names
    )


def are_different(names):
    return len(set(names)) == len(names)


def has_key(schema):
    known = {name: may_be_null for name, _, may_be_null in schema.columns}
    names = schema.primary
    return bool(names) and are_different(names) and all(known.get(name, True) is False for name in names)


def has_partition(schema):
    names = schema.partition
    return are_different(names) and set(names) <= set(schema.primary) and set(schema.primary) != set(names)


def has_ids(schema):
    ids, highest = getattr(schema, "ids", ([], 0))
    return are_different(ids) and all(number <= highest for number in ids)


def names_columns(schema):
    outside = set(schema.names) - set(schema.primary)
    if schema.engine == "aggregation":
        kinds = ("aggregate-function", "list-agg-delimiter", "ignore-retract")
        return all(name in outside for kind in kinds for name in schema.of_columns(kind))
    if schema.engine != "partial-update":
        return True
    groups = schema.groups()
    listed = [name for names in groups.values() for name in set(names)]
    return {*groups, *listed} <= outside and are_different(listed) and not set(groups) & set(listed)


def fits_functions(schema):
    return schema.engine != "aggregation" or all(
        kind in AGGREGATES[schema.function(name)] for name, kind, _ in schema.columns if name not in schema.primary
    )


def may_be_null(schema):
    return schema.engine not in ("partial-update", "aggregation") or all(
        nullable or name in schema.primary for name, _, nullable in schema.columns
    )


def retains(schema):
    least = int(schema.options.get("snapshot.num-retained.min", "10"))
    return int(schema.options.get("snapshot.num-retained.max", "2147483647")) >= least


RULES = [
    has_names,
    lambda schema: are_different(schema.names),
    has_key,
    has_partition,
    has_ids,
    names_columns,
    fits_functions,
    may_be_null,
    retains,
]


# Drafts.


def is_texts(value):
    return isinstance(value, list) and all(isinstance(text, str) for text in value)


def is_field(value):
    return isinstance(value, dict) and isinstance(value.get("name"), str) and isinstance(value.get("type"), str)


def is_draft(value):
    """Whether a JSON value has the form of a draft."""
    if not isinstance(value, dict) or not isinstance(value.get("fields"), list):
        return False
    options = value.get("options", {})
    return (
        all(is_field(field) for field in value["fields"])
        and is_texts(value.get("primaryKeys"))
        and is_texts(value.get("partitionKeys", []))
        and isinstance(options, dict)
        and all(isinstance(text, str) for text in options.values())
        and isinstance(value.get("comment", ""), (str, type(None)))
    )


def read_type(text):
    """The type that a text names, and whether the column may be null."""
    name = text.removesuffix(" NOT NULL")
    if name not in TYPES:
        raise unsupported("type", text)
    return name, name == text


def read_columns(fields):
    if len(fields) > 64:
        raise Refused("E21 limit columns 64")
    return [(field["name"], *read_type(field["type"])) for field in fields]


def is_blank(line):
    return not line.strip(b" \t\r")


def read_draft(data):
    """The schema of the input of a `create`, and its comment."""
    lines = data.split(b"\n")
    try:
        value = read_json(b"" if is_blank(lines[0]) else lines[0])
    except ValueError as error:
        raise Refused("E6 line 1 json") from error
    if not is_draft(value):
        raise Refused("E6 line 1 draft")
    for number, line in enumerate(lines[1:], 2):
        if not is_blank(line):
            raise Refused(f"E6 line {number} draft")
    primary = value["primaryKeys"]
    columns = [(name, kind, null and name not in primary) for name, kind, null in read_columns(value["fields"])]
    options = {"bucket": "1", "file.format": "avro", **value.get("options", {})}
    schema = Schema(columns, primary, value.get("partitionKeys", []), options)
    schema.judge()
    return schema, value.get("comment")


# Rows.


def day(text):
    """The day of a text from 1970-01-01; ValueError where it is none."""
    if not re.fullmatch("[0-9]{4}-[0-9]{2}-[0-9]{2}", text):
        raise ValueError(text)
    return (datetime.date.fromisoformat(text) - datetime.date(1970, 1, 1)).days


def is_day(text):
    try:
        return day(text) is not None
    except ValueError:
        return False


def order(kind, value):
    """What the order of keys compares of a value as it is printed."""
    if kind == "DATE":
        return day(value)
    if kind == "BYTES":
        return bytes.fromhex(value)
    return value.encode() if kind == "STRING" else value


def item_fault(column, item):
    """What is wrong with an item of a row, if anything."""
    _, kind, nullable = column
    if item is None:
        return None if nullable else "null"
    wanted = int if kind in BITS else bool if kind == "BOOLEAN" else str
    if type(item) is not wanted:
        return "type"
    if kind in BITS:
        return None if -(2 ** (BITS[kind] - 1)) <= item < 2 ** (BITS[kind] - 1) else "range"
    if kind == "BYTES":
        return None if re.fullmatch("([0-9A-Fa-f]{2})*", item) else "range"
    return "range" if kind == "DATE" and not is_day(item) else None


def read_row(schema, number, line):
    """The kind and the values, as they are printed, of a line."""
    try:
        value = read_json(line)
    except ValueError as error:
        raise Refused(f"E6 line {number} json") from error
    if not isinstance(value, list):
        raise Refused(f"E6 line {number} array")
    if not value or value[0] not in KINDS:
        raise Refused(f"E6 line {number} kind")
    if len(value) != len(schema.columns) + 1:
        raise Refused(f"E6 line {number} count")
    for column, item in zip(schema.columns, value[1:]):
        fault = item_fault(column, item)
        if fault:
            raise Refused(f"E6 line {number} {fault} {column[0]}")
    row = [item.lower() if kind == "BYTES" and item else item for (_, kind, _), item in zip(schema.columns, value[1:])]
    return value[0], row


def folder_text(value):
    """The text of a printed value of a partition, before it is escaped."""
    return str(value).lower().encode() if isinstance(value, (bool, int)) else value.encode()


def refusing_column(schema, kind):
    """The column because of which the engine refuses a row of a kind; `*` for the row as a whole."""
    if kind in ADDING or schema.engine == "deduplicate":
        return None
    if schema.engine == "first-row" or schema.engine == "partial-update" and not schema.groups():
        return "*"
    if schema.engine == "partial-update":
        return None
    for name in schema.names:
        takes = schema.function(name) in ("sum", "last_value") or schema.ignores_retract(name)
        if name not in schema.primary and not takes:
            return name
    return None


def read_batch(schema, data):
    """The rows that the table takes of an input, each with its kind."""
    rows = []
    for number, line in enumerate(data.split(b"\n"), 1):
        if is_blank(line):
            continue
        kind, row = read_row(schema, number, line)
        if kind not in ADDING and schema.ignores_delete:
            continue
        column = refusing_column(schema, kind)
        if column:
            raise Refused(f"E7 retraction line {number} column {column}")
        if any(len(folder_text(row[schema.names.index(name)])) > 60 for name in schema.partition):
            raise Refused("E21 limit partition 60")
        rows.append((kind, row))
    return rows


# What rows are worth.


def cut_down(number, bits):
    """A number's lowest bits, as a number with a sign."""
    return (number + 2 ** (bits - 1)) % 2**bits - 2 ** (bits - 1)


def summed(kind, cells):
    values = [value if how in ADDING else -value for how, value in cells if value is not None]
    return cut_down(sum(values), BITS[kind]) if values else None


def folded(schema, column, cells):
    """What a column's function makes of its cells, each with its row's kind."""
    name, kind, _ = column
    function = schema.function(name)
    if schema.ignores_retract(name):
        cells = [cell for cell in cells if cell[0] in ADDING]
    if not cells:
        return None
    known = [value for _, value in cells if value is not None]
    if function == "sum":
        return summed(kind, cells)
    if function in ("first_value", "last_value"):
        how, value = cells[0 if function == "first_value" else -1]
        return value if how in ADDING else None
    if not known:
        return None
    if function in ("max", "min"):
        return {"max": max, "min": min}[function](known, key=lambda value: order(kind, value))
    if function == "listagg":
        return schema.delimiter(name).join(known)
    folds = {"bool_and": all, "bool_or": any, "first_non_null_value": lambda v: v[0]}
    return folds.get(function, lambda v: v[-1])(known)


def grouped(schema, lead, name, rows):
    """What a sequence group's leading row has in a column."""
    at = schema.names.index(lead)
    kind = schema.columns[at][1]
    led = [row for row in rows if row[1][at] is not None]
    if not led:
        return None
    greatest = max(order(kind, row[1][at]) for row in led)
    how, row = [row for row in led if order(kind, row[1][at]) == greatest][-1]
    return row[schema.names.index(name)] if how in ADDING or name == lead else None


def updated(schema, name, rows):
    """What a column has after partial updates."""
    for lead, names in schema.groups().items():
        if name == lead or name in names:
            return grouped(schema, lead, name, rows)
    at = schema.names.index(name)
    values = [row[at] for kind, row in rows if kind in ADDING and row[at] is not None]
    return values[-1] if values else None


def worth(schema, rows):
    """The row that shows of the rows of one key, each with its kind; none where none shows."""
    if schema.engine == "deduplicate":
        return rows[-1][1] if rows[-1][0] in ADDING else None
    if schema.engine == "first-row":
        return rows[0][1]
    shown = []
    for at, column in enumerate(schema.columns):
        if column[0] in schema.primary:
            shown.append(rows[0][1][at])
        elif schema.engine == "aggregation":
            shown.append(folded(schema, column, [(kind, row[at]) for kind, row in rows]))
        else:
            shown.append(updated(schema, column[0], rows))
    return shown


def by_key(schema, rows):
    """The rows of each key, by rising key."""
    found = {}
    for kind, row in rows:
        found.setdefault(schema.key(row), []).append((kind, row))
    return [found[key] for key in sorted(found)]


def scanned(schema, rows):
    """What `scan` prints of a table's rows."""
    shown = (worth(schema, of_key) for of_key in by_key(schema, rows))
    return "".join(print_json(["+I", *row]) + "\n" for row in shown if row is not None)
