#!/usr/bin/env python3
"""A server of the port's table in docs/PROTOCOL.md, at 25 frames a second, written from that page alone; tools/tests/wrong_servers.py
starts it, and others made of it."""

import re
import select
import sys
import time

RATE = 25
MOST_BYTES = 4096
ACK, REFUSED, FAULTY, CUT = b"\x04", b"\x05\x01", b"\x05\x04", b"\x05\x80"

# Of each command: the upper half of CMD-1 and CMD-2, and how many bytes its data has.
COMMANDS = {
    (1, 0x00): ("stop", 0), (1, 0x01): ("play", 0), (2, 0x21): ("close", 1), (2, 0x22): ("select", 1), (2, 0x24): ("cue", 8),
    (2, 0x25): ("cue_data", 16), (3, 0x01): ("open", 2), (3, 0x05): ("status", 1), (3, 0x07): ("active", 0),
    (3, 0x14): ("size", 8), (3, 0x16): ("exists", 8),
}  # fmt: skip
NO_COMMAND = ("none", -1)
OF_A_SELECTED_PORT = ("cue", "cue_data", "play", "stop", "status", "active")


def id_of(text):
    return bytes.fromhex(text[2:]) if re.fullmatch("0x[0-9a-f]{16}", text) else text.encode("ascii").ljust(8)


def time_code(text):
    """The four bytes of hh:mm:ss:ff."""
    return bytes(int(field, 16) for field in reversed(text.split(":")))


def frames_of(label):
    """The number of the frame that has this label, four bytes; None where no frame has it."""
    fields = [10 * (byte >> 4) + (byte & 15) for byte in label]
    is_lawful = all(field < limit for field, limit in zip(fields, (RATE, 60, 60, 24)))
    if not is_lawful or any(byte & 15 > 9 for byte in label):
        return None
    return fields[0] + RATE * (fields[1] + 60 * (fields[2] + 60 * fields[3]))


class Port:
    # Each nothing, or a clip's ID and how many frames of it play.
    cued = playing = None
    is_open = is_selected = False
    # Until the cue is done, and until the clip has ended.
    frames_to_cue = frames_to_play = 0

    def __init__(self, lengths, unit, number, cue_frames):
        self.lengths, self.unit, self.number, self.cue_frames = lengths, unit, number, cue_frames

    def frame(self):
        self.frames_to_cue = max(0, self.frames_to_cue - 1)
        self.frames_to_play = max(0, self.frames_to_play - 1)
        if not self.frames_to_play:
            self.playing = None

    def answer(self, message):
        if message[0] != 2 or not self.is_own(message[2] & 15):
            return b""
        name, length = self.command(message[2] >> 4, message[3])
        data = message[4:-1]
        if len(data) != length or name in OF_A_SELECTED_PORT and not self.is_selected:
            return self.refuse()
        return getattr(self, name)(data) or self.refuse()

    def is_own(self, unit):
        return unit == self.unit

    def readable(self, rest):
        """The bytes that are read, of these, which begin where a message should."""
        return rest

    def is_sum_right(self, summed):
        return sum(summed) % 256 == 0

    def command(self, kind, code):
        return COMMANDS.get((kind, code), NO_COMMAND)

    def refuse(self):
        return REFUSED

    def answer_end(self, has_fault, rest):
        """The answer to a burst's end, of which these bytes are no whole message."""
        return FAULTY if has_fault else CUT if rest else b""

    def reply(self, code, data):
        body = bytes([0x30 + self.unit, code]) + data
        return bytes([2, len(body)]) + body + bytes([-sum(body) % 256])

    # What a command is answered, by its data; a refusal if that is nothing.

    def open(self, data):
        self.is_open |= data[0] == self.number
        return self.reply(0x81, bytes([data[0] == self.number]))

    def close(self, data):
        if data[0] == self.number:
            self.is_open = self.is_selected = False
            self.cued = self.playing = None
            return ACK

    def select(self, data):
        if data[0] == self.number and self.is_open:
            self.is_selected = True
            return ACK

    def cue(self, data):
        if data in self.lengths:
            return self.take_cue((data, frames_of(self.lengths[data])))

    def cue_data(self, data):
        start, duration = frames_of(data[8:12]), frames_of(data[12:])
        if start is not None and duration and start + duration <= frames_of(self.lengths.get(data[:8], bytes(4))):
            return self.take_cue((data[:8], duration))

    def take_cue(self, item):
        self.cued, self.frames_to_cue = item, self.cue_frames
        return ACK

    def play(self, _):
        if self.cued and not self.frames_to_cue:
            self.air(self.cued)
            self.cued = None
        return ACK

    def air(self, item):
        self.playing, self.frames_to_play = item, item[1]
        print("aired", item[0].decode("latin-1"), file=sys.stderr, flush=True)

    def stop(self, _):
        self.cued = self.playing = None
        return ACK

    def status(self, data):
        return self.reply(0x85, bytes([1, self.state()]) if data[0] & 1 else b"\0")

    def state(self):
        cued = 0 if not self.cued else 0x02 if self.frames_to_cue else 0x80
        return cued | (0x04 if self.playing else 0) or 0x01

    def active(self, _):
        return self.reply(0x87, b"\1" + self.playing[0] if self.playing else b"\0")

    def size(self, data):
        if data in self.lengths:
            return self.reply(0x94, self.lengths[data])

    def exists(self, data):
        return self.reply(0x96, bytes([data in self.lengths]))


def length_of_first(rest):
    """How many bytes the first message has, more than are there where it isn't whole, and 0 where there can be none."""
    if rest[:1] in (b"", b"\x04"):
        return 1
    if rest[:1] == b"\x05":
        return 2
    if rest[:1] != b"\x02":
        return 0
    return 2 if len(rest) == 1 else rest[1] + 3 if rest[1] > 1 else 0


class Burst:
    """What came since a silence: whole messages are answered as they come, and the end by the next silence."""

    def __init__(self, port):
        self.port, self.rest, self.count, self.has_fault = port, b"", 0, False

    def take(self, piece):
        answers = b""
        self.rest += piece[: max(0, MOST_BYTES - self.count)]
        self.count += len(piece)
        while not self.has_fault:
            self.rest = self.port.readable(self.rest)
            length = length_of_first(self.rest)
            message = self.rest[:length]
            if len(message) < length:
                break
            if length == 0 or length > 2 and not self.port.is_sum_right(message[2:]):
                self.has_fault = True
            else:
                answers += self.port.answer(message)
                self.rest = self.rest[length:]
        self.has_fault |= self.count > MOST_BYTES
        return answers

    def end(self):
        return self.port.answer_end(self.has_fault, self.rest)


def serve(line, port, silence, is_real_time):
    """Serves a connection until its other end closes it. Frames pass at silences of so many seconds, or by the clock."""
    burst, begun, frames = Burst(port), time.monotonic(), 0
    while True:
        has_come = select.select([line], [], [], silence)[0]
        while is_real_time and time.monotonic() >= begun + (frames + 1) / RATE:
            port.frame()
            frames += 1
        if not has_come:
            line.sendall(burst.end())
            burst = Burst(port)
            if not is_real_time:
                port.frame()
        elif piece := line.recv(MOST_BYTES):
            line.sendall(burst.take(piece))
        else:
            return
