"""Following a table, by docs/FORMATS.md and docs/BEHAVIOUR.md: `follow` and `consumers`, as the calls that they make of
a folder, in their order, over whatever files stand there and whatever others do between the calls. Part of the second
program: reference_files.py has the folders, and what the files hold.
"""

from reference_compact import first_told
from reference_files import View, damaged, ids, is_integer, newest_of, read_schema, table_at
from reference_table import Refused, print_json, printable, read_json


def follow(folder, asked, is_full, show, name=None):
    """Shows what `follow` prints, the table and each frame at once: with the calls for the one before the next."""
    schema = read_schema(folder)
    if schema.producer == "none":
        raise Refused("E19 no changelog none")
    own = None if name is None else Consumer(folder, name)
    if own is not None and not own.is_new:
        start = own.next
    else:
        start = first_frame(folder, asked)
        if own is not None:
            own.register(start)
        if is_full:
            show(f'{{"table":{start - 1}}}\n' + table_at(folder, schema, start - 1, first_told(schema)))
    for number in range(start, newest_of(folder) + 1):
        show(framed(number, View(folder, schema, number).changes()))
        if own is not None:
            own.swap(number + 1)


def first_frame(folder, asked):
    """The snapshot of the first frame: the one that is asked for, or the one after the newest."""
    newest = newest_of(folder)
    start = newest + 1 if asked is None else asked
    if start > newest + 1:
        raise Refused(f"E12 snapshot {start} latest {newest}")
    return start


def framed(number, rows):
    """The frame of a snapshot, whose changelog has these rows."""
    return f'{{"snapshot":{number}}}\n' + "".join(print_json([kind, *row]) + "\n" for kind, row in rows)


class Consumer:
    """A consumer's file, and what was read or written there last. Where nothing was, it is new."""

    def __init__(self, folder, name):
        self.folder, self.path = folder, path_of(name)
        self.held = folder.read(self.path)
        self.next, self.is_new = (None, True) if self.held is None else read_consumer(self.path, self.held)

    def register(self, start):
        """Makes it new, and then known, where no floor exceeds its start."""
        self.swap(start, True)
        floor = max(ids(self.folder.list("floor"), "floor-"), default=0)
        if start < floor:
            raise Refused(f"E17 below floor next {start} floor {floor}")
        self.swap(start)

    def swap(self, number, is_new=False):
        """Puts that number in the place of what was read or written last, and is refused where it isn't there."""
        data = consumer_file(number, is_new)
        is_done, found = self.folder.swap(self.path, self.held, data)
        if not is_done:
            text = "absent" if found is None else printable(found.decode(errors="surrogateescape"))
            raise Refused(f"E18 consumer {text}")
        self.held = data


def path_of(name):
    return f"consumer/consumer-{name}"


def consumer_file(number, is_new=False):
    return print_json({"nextSnapshot": number} | ({"state": "new"} if is_new else {})).encode()


def read_consumer(path, data):
    """The number of a consumer, and whether it is new."""
    try:
        value = read_json(data)
    except ValueError as error:
        raise damaged(path) from error
    if not isinstance(value, dict) or not is_integer(value.get("nextSnapshot"), 1, 2**64):
        raise damaged(path)
    if value.get("state", "new") != "new":
        raise damaged(path)
    return value["nextSnapshot"], "state" in value


def consumers_in(folder):
    """The consumers that are there, by rising name, each with its number and whether it is new. One whose file is gone
    when it is read is none."""
    found = []
    for listed in sorted(folder.list("consumer"), key=str.encode):
        name = listed.removeprefix("consumer-")
        held = folder.read(path_of(name)) if name != listed else None
        if held is not None:
            found.append((name, *read_consumer(path_of(name), held)))
    return found


def list_consumers(folder):
    """What `consumers` prints."""
    read_schema(folder)
    return "".join(f"{name} {number}{' new' if is_new else ''}\n" for name, number, is_new in consumers_in(folder))


def drop_consumer(folder, name):
    """What `consumers --drop` prints of a name, whose file it removes."""
    read_schema(folder)
    return "dropped\n" if folder.remove(path_of(name)) else "no consumer\n"
