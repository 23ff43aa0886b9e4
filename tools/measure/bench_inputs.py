#!/usr/bin/env python3
"""The files over which tools/measure/bench counts: the same bytes on each machine, for any number of rows."""

from hashlib import sha256
from itertools import cycle


def id_of(number):
    """A clip's ID as a CSV field: most plain, some with a space, or quoted, or of bytes that can't be typed."""
    for divisor, rest, text in ((100, 99, "0x{:016x}"), (50, 17, '"C,{}"'), (25, 3, "C {}"), (1, 0, "CLIP{:04d}")):
        if number % divisor == rest:
            return text.format(number + 0xF000000000000000 * (divisor == 100))
    return None


def time_of(frames):
    """The label of a frame at 25 frames a second."""
    seconds = frames // 25
    return f"{seconds // 3600:02d}:{seconds // 60 % 60:02d}:{seconds % 60:02d}:{frames % 25:02d}"


def any_of(number, limit):
    """A number below the limit, in no order that can be seen."""
    return number * 7919 % 104729 % limit


def lists(rows):
    """A catalogue in no order, and lists of its clips: whole ones, and parts of a single frame."""
    lengths = [1 + any_of(number, 3000) for number in range(rows)]
    played = [any_of(number + 7, rows) for number in range(rows)]
    return {
        "catalogue.csv": [f"{id_of(number)},{time_of(lengths[number])}" for number in sorted(range(rows), key=lambda it: any_of(it, 104729))],
        "list.csv": [id_of(number) for number in played],
        "frames.csv": [f"{id_of(number)},{time_of(0)},{time_of(1)}" for number in played],
    }


# What a command and an answer are damaged into: other messages, bursts that are cut, bytes that begin nothing.
DAMAGED = "04 0404 05 0501 058004 02 0202 02021001 02021001ee 04020210 00 9c 0200 03".split()

# What befalls an exchange in plain mode, and events between two exchanges; {} is damage.
MISHAPS = (
    "tick lose-down timeout", "tick down lose-up timeout", "tick down-copy down up", "tick down up-copy up",
    "tick down-copy down-copy lose-down timeout", "tick alter-down={} down up", "tick down-copy alter-down={} down up",
    "tick down alter-up={} up", "tick down alter-up={} up timeout", "round", "round=3", "timeout", "ready", "end",
    "take", "frame", "frame=30",
)

# How many events a line of this name stands for, for each 1 of its number.
EVENTS_OF = {"round": 3, "good": 6, "frame": 1}


def script(rows):
    """Good rounds, a mishap after some of them: ten events for each row of the list that it plays."""
    lines, left, damaged = [], rows * 10, cycle(DAMAGED)
    for mishap in cycle(MISHAPS):
        for entry in ["good=3", "good=4", "good=6", *mishap.format(next(damaged)).split()]:
            name, _, number = entry.partition("=")
            left -= EVENTS_OF[name] * int(number or 1) if name in EVENTS_OF else 1
            if left < 0:
                return lines
            lines.append(entry.replace("=", " "))
    return lines


# What bursts are made of, in digits, with the lines that show it; and what ends one, the number of bytes up to there being {}.
MESSAGES = (
    ("04", "ack"), ("05ff", "nak ff"), ("02021001ef", "unit 0 type 1 code 01 data -"),
    ("020a2f24434c495030303031c4", "unit 15 type 2 code 24 data 434c495030303031"),
    ("0242900a" + "5a" * 64 + "e6", f"unit 0 type 9 code 0a data {'5a' * 64}"),
)
ENDS = (("", "clean"),) * 5 + (("ff", "fault bad-start {}"), ("0201", "fault bad-count {} count 1"), ("02021001ee", "fault bad-sum {}"), ("020210", "cut 3"), ("0241900a5a5a5a", "cut 7"))


def vectors(rows):
    """Bursts of up to four messages, half of which end badly; one of a thousand is longer than what is read of a burst."""
    lines = []
    for number in range(rows):
        made = [MESSAGES[any_of(5 * number + k, len(MESSAGES))] for k in range(any_of(number, 5))]
        last, how = ENDS[any_of(number + 3, len(ENDS))]
        digits = "".join(part for part, _ in made) + last
        told = [line for _, line in made] + [how.format(len(digits) // 2)]
        if number % 1000 == 500:
            digits, told = "02021001ef" * 820, [MESSAGES[2][1]] * 819 + ["fault long 4097"]
        lines.append(f"{digits.upper() if number % 2 else digits},{'; '.join(told)}")
    return lines


def framed(kind, code, data=b""):
    """A message of these to unit 0, in digits."""
    body = bytes([kind << 4, code]) + data
    return (bytes([2, len(body)]) + body + bytes([-sum(body) % 256])).hex()


def journal(rows):
    """Of a run of plain clips, to the check of the last one: ten exchanges for each event, all answered. Its events, its rows, one each ten
    milliseconds, and the rows of a capture of its line."""
    events = [f"CLIP{number % 10000:04d}" for number in range(rows)]
    digest = sha256("".join(f"{number},{event}\n" for number, event in enumerate(events)).encode()).hexdigest()
    port, ack = b"\x01", ("ack", "04")
    waits = [(("status 01", framed(3, 0x05, port)), (f"state {state:02x}", framed(3, 0x85, bytes([1, state])))) for state in (2, 2, 2, 2, 2, 0x80)]
    exchanges = [(("open 01 01", framed(3, 0x01, b"\x01\x01")), ("granted", framed(3, 0x81, port))), (("select 01", framed(2, 0x22, port)), ack)]
    for event in events:
        clip = event.encode()
        exchanges += [
            ((f"exists {event}", framed(3, 0x16, clip)), ("present", framed(3, 0x96, port))),
            ((f"cue {event}", framed(2, 0x24, clip)), ack),
            *waits,
            (("play", framed(1, 0x01)), ack),
            (("active", framed(3, 0x07)), (f"active {event}", framed(3, 0x87, b"\x01" + clip))),
        ]
    told = [("list", digest, "plain,0,1,10")] + [row for sent, heard in exchanges for row in (("sent", *sent), ("heard", *heard))]
    moments = (f"2026-11-25T{ms // 3600000:02d}:{ms // 60000 % 60:02d}:{ms // 1000 % 60:02d}.{ms % 1000:03d}Z" for ms in range(0, 86400000, 10))
    return events, [f"{moment},{','.join(row)}" for moment, row in zip(moments, told)], [row for sent, heard in exchanges for row in (f",down,{sent[1]}", f",up,{heard[1]}")]


def write_inputs(folder, rows):
    """Writes them all into a folder, each line with its end."""
    files = {**lists(rows), "script.txt": script(rows), "bursts.csv": vectors(rows)}
    files["whole.csv"], files["journal.csv"], files["capture.csv"] = journal(rows)
    folder.mkdir()
    for name, lines in files.items():
        (folder / name).write_bytes("".join(f"{line}\n" for line in lines).encode())
