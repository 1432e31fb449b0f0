#!/usr/bin/env python3
"""The values in a value change dump (IEEE 1364) of one-bit wires, compared with those in other files.

    values.py names DUMP                  the wires' full names, in order
    values.py last DUMP                   the last time written
    values.py sheet DUMP SHEET            with what `sheet` made of the dump
    values.py dumps DUMP OTHER            with another dump, by the wires' names
    values.py samples SHEET SAMPLES COUNT a sheet with sigrok-cli's CSV of so many samples
    values.py rows DUMP TRACE OUTPUT      orders and lamps with the output rows of `replay`
    values.py sensors DUMP TRACE OUTPUT   voted values with the trace, while its channels agree

Prints one line that ends in `ok`, or in the first difference; the exit status is 0 only for `ok`.
The reader takes any legal dump of one-bit wires, in any layout, and shares nothing with `sheet`.
"""
import csv
import sys

SKIPPED = ("$date", "$version", "$comment")
BLOCKS = ("$dumpvars", "$dumpall", "$dumpon", "$dumpoff")
SECONDS = {"s": 0, "ms": -3, "us": -6, "ns": -9, "ps": -12, "fs": -15}


class Bad(Exception):
    """What is wrong, in plain words."""


class Dump:
    """names: full names in order; unit: of time, in fs; times: as written, rising; rows: values at each.
    What stands before the first time counts as at it; a wire without a value yet is x."""

    def __init__(self, path, closed=True):
        with open(path, encoding="ascii") as file:
            self.words = iter(file.read().split())
        self.closed = closed  # must $dumpvars have its $end?
        self.names, self.unit, self.times, self.rows = [], None, [], []
        self.wires = {}  # code: the places of the names that bear it
        self.define()
        self.change()

    def until_end(self):
        found = []
        for word in self.words:
            if word == "$end":
                return found
            found.append(word)
        raise Bad("a section has no $end")

    def define(self):
        scopes = []
        for word in self.words:
            if word in SKIPPED:
                self.until_end()
                continue
            found = self.until_end() if word.startswith("$") else None
            if word == "$timescale":
                text = "".join(found)
                number = text.rstrip("munpfs")
                unit = text[len(number):]
                if number not in ("1", "10", "100") or unit not in SECONDS:
                    raise Bad(f"timescale {text!r}")
                self.unit = int(number) * 10 ** (15 + SECONDS[unit])
            elif word == "$scope" and len(found) == 2:
                scopes.append(found[1])
            elif word == "$upscope" and not found and scopes:
                scopes.pop()
            elif word == "$var" and len(found) in (4, 5) and found[1] == "1":
                name = ".".join(scopes + found[3:4])
                if name in self.names:
                    raise Bad(f"{name} is declared twice")
                self.wires.setdefault(found[2], []).append(len(self.names))
                self.names.append(name)
            elif word == "$enddefinitions" and not found:
                if self.unit is None:
                    raise Bad("no timescale")
                return
            else:
                raise Bad(f"among the definitions: {word} {' '.join(found or [])}")
        raise Bad("no $enddefinitions")

    def change(self):
        now = ["x"] * len(self.names)
        inside = False
        for word in self.words:
            if word == "$comment":
                self.until_end()
            elif word in BLOCKS and not inside:
                inside = True
            elif word == "$end" and inside:
                inside = False
            elif word[0] == "#" and word[1:].isdigit():
                time = int(word[1:])
                if self.times and time < self.times[-1]:
                    raise Bad(f"time {time} after {self.times[-1]}")
                if self.times and time > self.times[-1]:
                    self.rows.append(tuple(now))
                if time not in self.times[-1:]:
                    self.times.append(time)
            else:
                value, code = word[0], word[1:]
                if value in "bB":
                    value, code = code, next(self.words, "")
                if value not in tuple("01xXzZ") or code not in self.wires:
                    raise Bad(f"among the changes: {word}")
                for place in self.wires[code]:
                    now[place] = value.lower()
        if inside and self.closed:
            raise Bad("a section has no $end")
        if not self.times:
            raise Bad("no time")
        self.rows.append(tuple(now))

    def at(self, times):
        """The rows at these rising times, each the last one written then; None before the first."""
        place = -1
        for time in times:
            while place + 1 < len(self.times) and self.times[place + 1] <= time:
                place += 1
            yield self.rows[place] if place >= 0 else None


def counted(what, number):
    return f"{number:,} {what}{'' if number == 1 else 's'}"


def compared(times, values):
    return f"{counted('time', times)}, {counted('value', values)}"


def differ(time, names, here, there):
    """The first wire at which two rows are not the same."""
    for name, one, other in zip(names, here, there):
        if one != other:
            raise Bad(f"at time {time} {name} is {one} and {other}")


def short(names):
    return [name.rsplit(".", 1)[-1] for name in names]


def read_sheet(path):
    with open(path, newline="", encoding="ascii") as file:
        text = file.read()
    if not text.endswith("\r\n") or text.count("\n") != text.count("\r\n"):
        raise Bad("the sheet has a row that does not end in CRLF")
    rows = list(csv.reader(text.split("\r\n")[:-1]))
    if not rows[0] or rows[0][0] != "time":
        raise Bad("the sheet's header does not begin with time")
    for number, row in enumerate(rows, 1):
        if len(row) != len(rows[0]):
            raise Bad(f"the sheet's line {number} has {len(row)} fields")
    return rows[0][1:], [int(row[0]) for row in rows[1:]], [tuple(row[1:]) for row in rows[1:]]


def sheet(dump_path, sheet_path):
    dump = Dump(dump_path)
    names, times, rows = read_sheet(sheet_path)
    if names != short(dump.names):
        raise Bad(f"the sheet's wires are {', '.join(names)}")
    for mine, theirs, here, there in zip(dump.times, times, dump.rows, rows):
        if mine != theirs:
            raise Bad(f"time {mine} of the dump is {theirs} in the sheet")
        differ(mine, names, here, there)
    if len(times) != len(dump.times):
        raise Bad(f"the dump has {counted('time', len(dump.times))}, the sheet {len(times):,}")
    return compared(len(times), len(times) * len(names))


def dumps(path, other_path):
    """fst2vcd and GTKWave write the $end of $dumpvars only where a later time follows."""
    dump, other = Dump(path), Dump(other_path, closed=False)
    if sorted(dump.names) != sorted(other.names):
        raise Bad(f"the other's wires are {', '.join(other.names)}")
    if dump.unit != other.unit:
        raise Bad(f"a unit of time is {dump.unit} fs and {other.unit} fs")
    if dump.times[-1] != other.times[-1]:
        raise Bad(f"the last time is {dump.times[-1]} and {other.times[-1]}")
    places = [other.names.index(name) for name in dump.names]
    times = sorted(set(dump.times) | set(other.times))
    for time, here, there in zip(times, dump.at(times), other.at(times)):
        if here is None or there is None:
            raise Bad(f"time {time} is before the first time of one of them")
        differ(time, dump.names, here, [there[place] for place in places])
    return compared(len(times), len(times) * len(dump.names))


def samples(sheet_path, samples_path, count):
    """One sample for each ms from 0, at a rate of 1000; their number is given."""
    names, times, rows = read_sheet(sheet_path)
    count = int(count)
    with open(samples_path, encoding="ascii") as file:
        lines = (line.rstrip("\n") for line in file if not line.startswith(";"))
        rate = next(lines, "")
        if rate != "META samplerate: 1000":
            raise Bad(f"not a rate of 1000 samples a second but {rate!r}")
        theirs = next(lines, "").split(",")
        if sorted(theirs) != sorted(names):
            raise Bad(f"its channels are {', '.join(theirs)}")
        places = [names.index(name) for name in theirs]
        texts = [",".join(row[place] for place in places) for row in rows]
        place, time = 0, -1
        for time, line in enumerate(lines):
            if place + 1 < len(times) and times[place + 1] == time:
                place += 1
            if line != texts[place]:
                there = line.split(",")
                differ(time, theirs, texts[place].split(","), there)
                raise Bad(f"at time {time} its line is {line}")
    if time + 1 != count:
        raise Bad(f"{counted('sample', time + 1)}, not {count:,}")
    return compared(count, count * len(names))


def read_csv(path):
    with open(path, newline="", encoding="latin-1") as file:
        lines = file.read().split("\r\n")
    return [line.split(",") for line in (lines[:-1] if lines[-1] == "" else lines)]


def joined(dump, trace_path, output_path):
    """The output's header and the trace's; then time, label, output row, trace row and whether it was accepted,
    for each row up to the end of the reading. Time runs with the stamps of accepted rows, modulo 2^32, in ms."""
    if dump.unit != 10**12:
        raise Bad(f"a unit of time is {dump.unit} fs, not 1 ms")
    trace, output = read_csv(trace_path), read_csv(output_path)
    answers = output[1:-1] if output[-1][1] in ("5", "6", "7") else output[1:]
    if len(answers) == len(output) - 1 and len(output) != len(trace):
        raise Bad(f"the trace has {len(trace) - 1:,} rows and the output {len(output) - 1:,}")
    found, time, last = [], 0, None
    for given, answer in zip(trace[1:], answers):
        if answer[0] != given[0]:
            raise Bad(f"row {given[0]} of the trace is answered as {answer[0]}")
        if answer[1] == "0":
            stamp = int(given[1])
            time += 0 if last is None else (stamp - last) % 2**32
            last = stamp
        found.append((time, given[0], answer, given, answer[1] == "0"))
    if not found:
        raise Bad("the trace has no row that was answered")
    return output[0], trace[0], found


def rows(path, trace_path, output_path):
    dump = Dump(path)
    header, _, found = joined(dump, trace_path, output_path)
    names = [name for name in header if name in short(dump.names)]
    if len(names) != 8:
        raise Bad(f"the output's header has {', '.join(names)} of the wires")
    wires = [short(dump.names).index(name) for name in names]
    fields = [header.index(name) for name in names]
    for (time, label, answer, _, _), now in zip(found, dump.at([one[0] for one in found])):
        differ(f"{time}, row {label},", names, [now[wire] for wire in wires], [answer[field] for field in fields])
    times = {one[0] for one in found}
    for time in dump.times:
        if time not in times:
            raise Bad(f"time {time} of the dump is the time of no accepted row")
    accepted = sum(one[4] for one in found)
    return (f"{counted('accepted row', accepted)} and {len(found) - accepted:,} refused, "
            f"{counted('value', len(found) * len(names))}, rows to {found[-1][0]:,} ms")


def sensors(path, trace_path, output_path):
    """A sensor whose three channels agreed in every accepted row so far has no channel struck: its value is theirs.
    Row 0 only starts the controller."""
    dump = Dump(path)
    _, header, found = joined(dump, trace_path, output_path)
    names = header[2:]
    wires = [short(dump.names).index(name) for name in names]
    agreeing = [True] * len(names)
    values = 0
    found = [one for one in found[1:] if one[4]]
    for (time, label, _, given, _), now in zip(found, dump.at([one[0] for one in found])):
        for place, triple in enumerate(given[2:]):
            agreeing[place] = agreeing[place] and triple in ("000", "111")
            if agreeing[place]:
                values += 1
                if now[wires[place]] != triple[0]:
                    raise Bad(f"at time {time}, row {label}, {names[place]} is {now[wires[place]]} and {triple}")
    return f"{counted('accepted row', len(found))}, {counted('value', values)} of {len(found) * len(names):,}"


def main(task, *paths):
    if task == "names":
        print("\n".join(Dump(*paths).names))
    elif task == "last":
        print(Dump(*paths).times[-1])
    else:
        tasks = {"sheet": sheet, "dumps": dumps, "samples": samples, "rows": rows, "sensors": sensors}
        print(f"{tasks[task](*paths)}: ok")


if __name__ == "__main__":
    if len(sys.argv) < 3:
        sys.exit(__doc__)
    try:
        main(*sys.argv[1:])
    except (Bad, OSError, ValueError, IndexError) as fault:
        print(f"DIFFERS: {fault}")
        sys.exit(1)
