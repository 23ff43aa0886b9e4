#!/usr/bin/env python3
"""Servers that each break one thing of the port's table in docs/PROTOCOL.md, and one that breaks none:
tools/tests/wrong_servers.py KIND CATALOGUE [--unit U] [--port P] [--cue-frames F] [--silence MS] [--real-time]. It prints 'listening
ADDR', serves one connection at that, and ends; what goes to air is told on standard error. KINDS has the kinds."""

import contextlib
import csv
import socket
import sys
import time

sys.dont_write_bytecode = True
from table_server import ACK, COMMANDS, Port, frames_of, id_of, serve, time_code

KINDS = {"right": Port}


def wrong(name, **methods):
    """One that has these methods, or these attributes, in place of those of Port."""
    KINDS[name] = type(name, (Port,), methods)


def but(self, slot, value, answer):
    """What was answered, with the port's slot emptied, or as it was."""
    setattr(self, slot, value)
    return answer


def play_anything(self, data):
    self.cued = self.cued or next((clip, frames_of(length)) for clip, length in self.lengths.items())
    self.frames_to_cue = 0
    return Port.play(self, data)


def play_last(self, data):
    self.cued = self.cued or self.last
    return Port.play(self, data)


def answer_late(self, message):
    self.count += 1
    time.sleep(0.2 * (self.count % 40 == 0))
    return Port.answer(self, message)


def hang_up(self, message):
    self.count += 1
    if self.count == 12:
        raise EOFError
    return Port.answer(self, message)


# PLAY airs something also where no cue is done: what is being cued, else the first clip; or what was aired last, until a STOP.
wrong("airs-uncued", play=play_anything)
wrong("airs-twice", last=None, play=play_last, air=lambda self, item: but(self, "last", item, Port.air(self, item)), stop=lambda self, data: but(self, "last", None, Port.stop(self, data)))
# The state byte is that of before the last message. Each fortieth answer is late by two tenths of a second; instead of the twelfth the connection is closed.
wrong("state-lags", shown=0x01, state=lambda self: self.shown, answer=lambda self, message: (lambda before, answer: but(self, "shown", before, answer))(Port.state(self), Port.answer(self, message)))
wrong("late", count=0, answer=answer_late)
wrong("hangs-up", count=0, answer=hang_up)
# A cue doesn't replace one that is there, and is answered all the same; or it ends what plays.
wrong("keeps-first-cue", take_cue=lambda self, item: ACK if self.cued else Port.take_cue(self, item))
wrong("cue-cuts-clip", take_cue=lambda self, item: but(self, "playing", None, Port.take_cue(self, item)))
# Once a STATUS is answered, nothing is cued; what is being cued is shown as done.
wrong("status-drops-cue", status=lambda self, data: but(self, "cued", None, Port.status(self, data)))
wrong("says-done-early", state=lambda self: Port.state(self) & ~0x02 | (0x80 if self.cued else 0))
# STOP leaves what is cued, or what plays, and CLOSE what is cued.
wrong("stop-keeps-cue", stop=lambda self, data: but(self, "playing", None, ACK))
wrong("stop-keeps-clip", stop=lambda self, data: but(self, "cued", None, ACK))
wrong("close-keeps-cue", close=lambda self, data: but(self, "cued", self.cued, Port.close(self, data)))
# ACK comes where NAK 01h is due. Messages to other units count, and messages with a wrong checksum.
wrong("never-refuses", refuse=lambda self: ACK)
wrong("any-unit", is_own=lambda self, unit: True)
wrong("any-sum", is_sum_right=lambda self, summed: True)
# A message that ends before its checksum counts.
wrong("no-sum", answer_end=lambda self, has_fault, rest: self.answer(rest + b"\0") if not has_fault and len(rest) > 3 and len(rest) == rest[1] + 2 else Port.answer_end(self, has_fault, rest))
# Bytes FFh before a message are passed over. A framed message that is no command counts as PLAY, where it has no data.
wrong("skips-junk", readable=lambda self, rest: rest.lstrip(b"\xff"))
wrong("unknown-plays", command=lambda self, kind, code: COMMANDS.get((kind, code), ("play", 0)))
# Nothing is answered; or junk comes at each silence, which the other end so never hears.
wrong("mute", answer=lambda self, message: b"", answer_end=lambda self, has_fault, rest: b"")
wrong("babbles", answer_end=lambda self, has_fault, rest: b"\xff" * 64)


def main(kind, catalogue, *words):
    given = {"--unit": 0, "--port": 1, "--cue-frames": 1, "--silence": 20}
    given.update((it, int(value)) for it, value in zip(words, words[1:]) if it in given)
    *numbers, silence = given.values()
    with open(catalogue, encoding="ascii", newline="") as rows:
        lengths = {id_of(row[0]): time_code(row[1]) for row in csv.reader(rows) if row}
    with socket.create_server(("127.0.0.1", 0)) as listener:
        print(f"listening 127.0.0.1:{listener.getsockname()[1]}", flush=True)
        line = listener.accept()[0]
    with contextlib.suppress(EOFError, ConnectionError), line:
        line.setsockopt(socket.IPPROTO_TCP, socket.TCP_NODELAY, 1)
        serve(line, KINDS[kind](lengths, *numbers), silence / 1000, "--real-time" in words)


if __name__ == "__main__":
    main(*sys.argv[1:])
