"""The expiry of a table's snapshots, by docs/FORMATS.md and docs/BEHAVIOUR.md: `expire`, as the calls that it makes of
a folder, in their order, over whatever files stand there and whatever others do between the calls. Part of the second
program: reference_files.py has the folders, and what the files hold.
"""

import re

from reference_files import View, group_runs, ids, path_of, read_schema, read_snapshot, snapshot_ids
from reference_following import consumers_in
from reference_table import Refused

UNITS = {"ms": 1, "s": 1000, "min": 60000, "h": 3600000, "d": 86400000}


def expire(folder, asked, time):
    """What `expire` prints, which is asked to keep so many at least, so many at most, and those of so many
    milliseconds; where one isn't asked for the table's options say it."""
    schema = read_schema(folder)
    known = snapshot_ids(folder)
    if not known:
        return "kept 0 0\n"
    floors = ids(folder.list("floor"), "floor-")
    least = least_of(folder)
    times = {number: time_of(folder, number) for number in known}
    first, last = first_of(known), known[-1]
    announced = end_of(first, times, keep_of(schema, asked), time, least)
    if announced == first:
        return f"kept {first} {last}\n"
    folder.create(f"floor/floor-{announced}", b"")
    least = least_of(folder)
    end = max(first, announced if least is None else min(announced, least))
    if end > first:
        refuse_tags(folder)
        removed = removed_in(folder, schema, range(first, end + 1))
        for path in [*removed, *(f"floor/floor-{floor}" for floor in floors if floor < announced)]:
            folder.remove(path)
    return f"kept {end} {last}\n"


def refuse_tags(folder):
    """Refuses with the least tag, if one is there: what a tag needs may not go."""
    tags = sorted((name for name in folder.list("tag") if name.startswith("tag-")), key=str.encode)
    if tags:
        raise Refused(f"E10 unsupported tag {tags[0].removeprefix('tag-')}")


def least_of(folder):
    """The least number of the consumers that are there, whether they are new or not."""
    return min((number for _, number, _ in consumers_in(folder)), default=None)


def time_of(folder, number):
    found = read_snapshot(folder, number)
    if found is None:
        raise Refused(f"E13 expired {number}")
    return found["timeMillis"]


def first_of(known):
    """The snapshot from which on all are there."""
    return min(number for at, number in enumerate(known) if known[-1] - number == len(known) - 1 - at)


def keep_of(schema, asked):
    """How many are kept at least and at most, and of how many milliseconds."""
    options = schema.options
    number, unit = re.fullmatch("([0-9]+) ?([a-z]+)", options.get("snapshot.time-retained", "1h")).groups()
    of_table = (
        int(options.get("snapshot.num-retained.min", "10")),
        int(options.get("snapshot.num-retained.max", "2147483647")),
        int(number) * UNITS[unit],
    )
    return [own if given is None else given for given, own in zip(asked, of_table)]


def end_of(first, times, keep, time, least):
    """The least snapshot that is kept: the first recent one from the least that the greatest number keeps on, but none
    that a consumer or the least number keeps goes, and none comes back."""
    last, (fewest, most, millis) = max(times), keep
    low, high = max(first, last - most + 1), last - fewest + 1
    if least is not None:
        high = min(high, least)
    if low >= high:
        return max(first, high)
    return next((number for number in range(low, high) if times[number] >= time - millis), high)


def removed_in(folder, schema, numbers):
    """The paths that go with all but the last of these snapshots, in their order: the origin, their files, and what
    they name and the last one doesn't."""
    *gone, kept = (named_by(folder, schema, number) for number in numbers)
    origin = [] if schema.origin is None else [f"snapshot/{schema.origin}"]
    named = sorted(set().union(*gone) - kept, key=str.encode)
    return [*origin, *(f"snapshot/snapshot-{number}" for number in numbers[:-1]), *named]


def named_by(folder, schema, number):
    """The paths that a snapshot names."""
    view = View(folder, schema, number)
    live = view.live_files()
    group_runs(schema, live)
    told = view.changelog_files()
    lists = [view.found.get(f"{word}ManifestList") for word in ("base", "delta", "changelog")]
    manifests = [meta["_FILE_NAME"] for meta in view.metas + view.told]
    files = {path_of(schema, file) for file in live + told}
    return files | {f"manifest/{name}" for name in [*lists, *manifests] if name is not None}
