#!/usr/bin/env python3
"""Runs the cases of crates/pm_cases_commands with the second program (reference_*.py), which was written from the
documents, and compares its answers with those that stand there. It promises that they are equal, in each case up to the
first line that it doesn't follow, where a later read of the input than the first fails, or words give `generate`, which
the second program doesn't execute. It makes each call of a command, in the order that the documents tell, has calls
fail and others act between them as the case says, and gives a text to the sink between the same two calls. It ends with
1 where two answers differ. The gate never runs it. docs/DEVELOPING.md has what it printed.

usage: bench/check_cases.py [CASES ANSWERS]     the cases and the answers of other files than those of the crate
"""

import json
import pathlib
import re
import sys

import reference_commands
import reference_files
from reference_table import Refused
from trials import TOP, Tally

CASES = TOP / "crates/pm_cases_commands"
# What the program whose cases these are doesn't know yet, each as its words.
NOT_BUILT = ()
WITH_INPUT = ("create", "write")


class NotFollowed(Exception):
    """A line that this script doesn't follow."""


class Calls(reference_files.Memory):
    """A folder in memory. Its calls are counted, those of a plan fail, and others act between them."""

    def __init__(self):
        super().__init__()
        self.plan, self.calls = {}, 0  # of the case's calls, from 1
        self.deeds, self.made, self.is_theirs = [], 0, False  # of the command's calls, from 1

    def begin(self):
        """A command begins."""
        self.made = 0

    def call(self, path, put=None, cut_to=None):
        """Makes the next call, which puts something, if it does: of one that fails as much as is planned."""
        if self.is_theirs:
            return put() if put else None
        self.calls += 1
        self.made += 1
        self.do_deeds()
        effect = self.plan.get(self.calls, "")
        if effect == "":
            return put() if put else None
        if effect == "whole" and put:
            put()
        elif effect.startswith("part ") and cut_to:
            cut_to(bytes.fromhex(effect[5:]))
        raise Refused(f"E5 store {path}")

    def do_deeds(self):
        """Does what others do now."""
        now = [deed for at, deed in self.deeds if at == self.made]
        self.deeds = [(at, deed) for at, deed in self.deeds if at != self.made]
        self.is_theirs = True
        for deed in now:
            deed()
        self.is_theirs = False

    def read(self, path):
        self.call(path)
        return super().read(path)

    def list(self, folder):
        self.call(folder)
        return super().list(folder)

    def create(self, path, data):
        put = super().create
        return self.call(path, lambda: put(path, data), lambda part: put(path, part))

    def swap(self, path, expected, data):
        put = super().swap
        return self.call(path, lambda: put(path, expected, data))

    def publish(self, path, after, data):
        put = super().create
        return self.call(path, lambda: after in self.files and put(path, data))

    def remove(self, path):
        take = super().remove
        return self.call(path, lambda: take(path))


KINDS = {"+I", "-U", "+U", "-D"}


def part_of(names, part, is_digits):
    """The bytes that a part of a line stands for: a name, a text or digits, JSON, or a list of texts."""
    if isinstance(part, str):
        if part in names:
            return names[part]
        if is_digits:
            return part[1:].encode() if part.startswith("'") else bytes.fromhex(part)
        return part.encode()
    if isinstance(part, dict) or part and isinstance(part[0], str) and part[0] in KINDS:
        return json.dumps(part, ensure_ascii=False, separators=(",", ":"), sort_keys=True).encode()
    found = []
    for item in part:
        if isinstance(item, str):
            found.append(part_of(names, item, is_digits))
            last = item.removeprefix("'") if is_digits else item
        elif isinstance(item, int):
            found[-1] *= item
        else:
            numbers = range(*item) if item[0] <= item[1] else range(*item[::-1])[::-1]
            found[-1] = b"".join(last.replace("#", str(at)).encode() for at in numbers)
    return b"".join(found)


def in_full(names, line):
    """A line whose parts are bytes, so that a `run` has its input and an `edit` is a `put`."""
    kind = line[0]
    if kind == "put":
        return ["put", line[1], part_of(names, line[2], True)]
    if kind == "edit":
        return ["put", line[1], names[line[2]].replace(line[3].encode(), line[4].encode(), 1)]
    if kind == "run":
        options = line[5] if len(line) > 5 else {}
        data = b"".join(part_of(names, part, False) + b"\n" for part in line[4])
        return ["run", *line[1:4], data[:-1] if "open" in options else data, options]
    if kind == "before":
        return ["before", line[1], in_full(names, line[2])]
    return line


def cut(line, most):
    """A line, where a command runs once for so many lines of its input."""
    if line[0] != "run":
        return [line]
    texts = re.findall(rb"[^\n]*\n|[^\n]+", line[4])
    pieces = [b"".join(texts[at : at + most]) for at in range(0, len(texts), most)] or [b""]
    return [["run", line[1] + at, *line[2:4], piece, line[5]] for at, piece in enumerate(pieces)]


def lines_in_full(text):
    """The lines of a case file in full: without names and notes, and `again` as the lines that it stands for."""
    names, own, is_new = {}, [], True
    for line in map(json.loads, text.rstrip("\n").split("\n")):
        if line[0] == "case":
            is_new = True
            yield line
        elif line[0] == "name":
            names[line[1]] = part_of(names, line[2], True)
        elif line[0] == "again":
            for kept in own:
                yield from cut(kept, line[1])
        elif line[0] != "note":
            own = [] if is_new else own
            is_new = False
            own.append(in_full(names, line))
            yield own[-1]


def checksum(data):
    found = 0
    for byte in data:
        found = (31 * found + byte) % 2**32
    return found


class Sink:
    """What a command prints goes here: so many bytes are taken, and the writes of these numbers fail."""

    def __init__(self, options):
        self.room, self.fails = options.get("room"), options.get("sink", [])
        self.taken, self.writes = b"", 0

    def show(self, text):
        """Takes a text, of which what a write left is offered once more; it is refused where one takes nothing."""
        left = text.encode()
        while left:
            self.writes += 1
            room = len(left) if self.room is None else self.room - len(self.taken)
            if self.writes in self.fails or not room:
                raise Refused(f"E4 sink{' ' + text.strip() if text.startswith('snapshot ') else ''}")
            self.taken, left = self.taken + left[:room], left[room:]


class Case:
    """One case: its folder, the answers that are left of it, and the files that earlier ones ended with, by name."""

    def __init__(self, answers, ended):
        self.folder, self.answers, self.ended = Calls(), answers, ended

    def follow(self, line):
        """Does a line; gives what it has to print and what it prints."""
        if line[0] == "run":
            return self.run(*line[1:])
        if line[0] == "before":
            self.folder.deeds.append((line[1], lambda: self.act(line[2])))
        elif line[0] == "as" and line[1] in self.ended:
            self.folder.files |= self.ended[line[1]]
        elif line[0] == "store":
            self.folder.plan = dict(line[1])
        elif line[0] == "files":
            return self.list_files(line[1:] == ["sum"])
        elif line[0] == "list":
            return self.told(sorted(reference_files.Memory.list(self.folder, line[1]), key=str.encode))
        elif line[0] == "calls":
            return self.told([f"{self.folder.made} calls"])
        elif not self.act(line):
            raise NotFollowed
        return [], []

    def told(self, found):
        return self.answers[: len(found)], found

    def act(self, line):
        """Does what a command or others do, between calls too; tells whether it is known."""
        if line[0] == "put":
            self.folder.files[line[1]] = line[2]
        elif line[0] == "take":
            self.folder.files.pop(line[1], None)
        elif line[0] == "run":
            self.answer(*line[1:5], Sink({}))
        else:
            return False
        return True

    def run(self, number, now, words, data, options):
        self.folder.begin()
        fails = options.get("source", []) if words[:1] and words[0] in WITH_INPUT else []
        if fails and 1 not in fails:
            raise NotFollowed
        if words[:1] == ["generate"] and self.answers[:1] != ["E2 words generate"]:
            raise NotFollowed
        sink = Sink(options)
        said, status = self.answer(number, now, words, None if fails else data, sink)
        self.folder.deeds = []
        taken = sink.taken.decode(errors="replace")
        if "sum" in options:
            taken = f"{len(sink.taken)} {checksum(sink.taken)}\n"
        return self.told(f"{taken}{said}-- {status}".split("\n"))

    def answer(self, number, now, words, data, sink):
        """What a command says, and its status."""
        session = f"00000000-0000-0000-0000-{number:012x}"
        try:
            reference_commands.execute(self.folder, words, data, session, now, sink.show)
            return "", 0
        except Refused as refused:
            return f"{refused}\n".encode(errors="surrogateescape").decode(errors="replace"), refused.status

    def list_files(self, is_sum):
        files = sorted(self.folder.files.items(), key=lambda item: item[0].encode())
        found = [f"{path} {len(data)} {checksum(data)}" for path, data in files]
        if is_sum:
            text = "".join(line + "\n" for line in found)
            found = [f"{len(files)} files {checksum(text.encode())}"]
        return self.told(found)


def main():
    tally, case, name, at, ended = Tally(), None, "", 0, {}
    cases, answers = sys.argv[1:] or (CASES / "stdin", CASES / "stdout")
    for words in NOT_BUILT if not sys.argv[1:] else ():
        reference_commands.leave_out(*words)
    answers = pathlib.Path(answers).read_text().split("\n")
    for line in lines_in_full(pathlib.Path(cases).read_text()):
        if line[0] == "case":
            if case:
                ended[name] = case.folder.files
            name = line[1]
            at = answers.index(f"== {name}", at) + 1
            case = Case(answers[at:], ended)
            tally.add("cases")
        elif case is None:
            tally.add("lines left out")
        else:
            try:
                wanted, found = case.follow(line)
                case.answers = case.answers[len(found) :]
                tally.add(f"lines {line[0]}")
            except NotFollowed:
                case = None
                tally.add("lines left out")
                continue
            if wanted != found:
                tally.breaks(f"{name}, {str(line)[:300]}", f"{found[:5]} in the place of {wanted[:5]}")
                case = None
    tally.end()


if __name__ == "__main__":
    main()
