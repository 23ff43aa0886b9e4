#!/usr/bin/env python3
"""What stands in place of a server or of a run, or between both: peer.py WHAT WORD.. What listens prints 'listening ADDR' first; bytes are
in hexadecimal digits."""
import contextlib
import csv
import random
import select
import socket
import struct
import sys
import time


def listening(most=8, port=0):
    door = socket.create_server(("127.0.0.1", port), backlog=most)
    print("listening %s:%d" % door.getsockname(), flush=True)
    return door


def connected(address):
    line = socket.create_connection(address.split(":"))
    line.setsockopt(socket.IPPROTO_TCP, socket.TCP_NODELAY, 1)
    return line


def server(how, *answers):
    """A run's commands get these answers, one after another, ANSWER~MS so many milliseconds late, PIECE+PIECE in pieces; after the last one it closes, or resets at
    the next command, or babbles from that on, or drips a byte each ten milliseconds, or is mute. It prints each command that it reads."""
    line, _ = listening().accept()
    for answer in answers:
        if not (command := line.recv(512)):
            return
        print(command.hex(), flush=True)
        for piece in answer.split("+"):
            digits, _, late = piece.partition("~")
            time.sleep(int(late or 0) / 1000)
            line.sendall(bytes.fromhex(digits))
    if how == "closes":
        return
    line.recv(512, socket.MSG_PEEK)
    if how == "resets":
        return
    while how in ("babbles", "drips"):
        line.sendall(b"\x03" * 512 if how == "babbles" else b"\x55")
        time.sleep(0.01 * (how == "drips"))
    while command := line.recv(512):
        print(command.hex(), flush=True)


def client(address, *words):
    """Connects and sends these bytes, BYTES*N so many times; at ~MS it waits so many milliseconds, at . it closes its side, and at ! it resets
    the line. It prints what is answered until the server closes."""
    line, answers = connected(address), b""
    for word in words:
        if word == "!":
            line.setsockopt(socket.SOL_SOCKET, socket.SO_LINGER, struct.pack("ii", 1, 0))
            return
        if word == ".":
            line.shutdown(socket.SHUT_WR)
        elif word[:1] == "~":
            time.sleep(int(word[1:]) / 1000)
        else:
            digits, _, times = word.partition("*")
            line.sendall(bytes.fromhex(digits) * int(times or 1))
    with contextlib.suppress(ConnectionResetError):
        while piece := line.recv(4096):
            answers += piece
    print(answers.hex())


class Between:
    """Carries commands to the server, and its answers to a run, after which the next one may come. plain: as they are, at the TCP port N, or one that the system
    chooses; severs: the Nth PLAY goes on, and both lines are closed, which it prints, and those after it are plain (at PORT, if it is named); cued: but first it cues
    CLIP0001; deafens: the count byte of the Nth command is damaged, and what comes after it is plain; split: each byte comes alone, and late by N milliseconds at one place after the other; twice: each answer comes twice; late: each
    comes once the Nth command after it does; ahead: an ACK comes before each; trickle: a byte of junk comes every N milliseconds too; mute:
    such bytes come, and no answer; junk: bytes without end, and no answer; acks: an ACK comes every N milliseconds, and no answer; babble: from the
    Nth command on, when it prints so, a byte comes every 60 milliseconds, and no answer; until: the command of number N and all after it are
    lost, which it prints; torn: by dice of the seed N three of ten are lost, and the others come in order, but late by 36 to 78 milliseconds,
    and most torn in two by a pause of 8 to 64."""

    def __init__(self, address, how, much="0", port="0"):
        self.address, self.how, self.much, self.count, self.held = address, how, int(much), 0, []
        self.wait = {"junk": 0.001, "trickle": self.much / 1000, "mute": self.much / 1000, "acks": self.much / 1000}.get(how)
        self.dice = random.Random(self.much)
        line = self.cued() if how == "cued" else None
        door = listening(port=self.much if how == "plain" else int(port))
        while True:
            run, _ = door.accept()
            run.setsockopt(socket.IPPROTO_TCP, socket.TCP_NODELAY, 1)
            with contextlib.suppress(OSError), run, line or connected(address) as line:
                self.carry(run, line)
            if how not in ("plain", "severs", "deafens"):
                return
            line = None

    def cued(self):
        line = connected(self.address)
        for command in ("020430010101cd", "0203202201bd", "020a2024434c495030303031d3"):
            line.sendall(bytes.fromhex(command))
            line.recv(512)
        return line

    def carry(self, run, line):
        # (what comes later, each with its time)
        later = [(time.monotonic() + self.wait, {"junk": b"\x55" * 64, "acks": b"\x04"}.get(self.how, b"\x55"))] if self.wait else []
        while True:
            ready, _, _ = select.select([run, line], [], [], max(0, later[0][0] - time.monotonic()) if later else None)
            while later and later[0][0] <= time.monotonic():
                _, piece = later.pop(0)
                run.sendall(piece)
                if self.wait:
                    later.append((time.monotonic() + self.wait, piece))
            for end in ready:
                if not (piece := end.recv(4096)):
                    return
                if end is line:
                    self.answer(run, piece, later)
                    continue
                if self.how == "late" and len(self.held) >= self.much:
                    run.sendall(self.held.pop(0))
                self.count += self.how == "until"
                if self.how == "until" and self.count >= self.much:
                    print("lost", piece.hex(), flush=True)
                    continue
                if self.how == "babble":
                    self.much -= 1
                    if self.much == 0:
                        print("babbles", flush=True)
                        self.wait, later = 0.06, [(0, b"\xff")]
                self.count += self.how == "deafens"
                if self.how == "deafens" and self.count == self.much:
                    self.how, piece = "plain", piece[:1] + b"\xff" + piece[2:]
                line.sendall(piece)
                self.count += self.how == "severs" and piece == bytes.fromhex("02021001ef")
                if self.how == "severs" and self.count == self.much:
                    print("severed", flush=True)
                    self.how = "plain"
                    return

    def answer(self, run, answer, later):
        if self.how == "late":
            self.held.append(answer)
        elif self.how == "split":
            for at, byte in enumerate(answer):
                time.sleep(self.much / 1000 if at == self.count % len(answer) else 0.001)
                run.sendall(bytes([byte]))
            self.count += 1
        elif self.how == "torn":
            if self.dice.random() >= 0.3:
                due = max(time.monotonic() + self.dice.uniform(0.036, 0.078), later[-1][0] if later else 0)
                at = self.dice.randrange(1, len(answer)) if len(answer) > 1 and self.dice.random() < 0.8 else len(answer)
                later += [(due, answer[:at]), (due + self.dice.uniform(0.008, 0.064), answer[at:])][: 1 + (at < len(answer))]
        elif self.how not in ("mute", "junk", "acks") and not (self.how == "babble" and self.wait):
            run.sendall({"twice": answer + answer, "ahead": b"\x04" + answer}.get(self.how, answer))


def shuts():
    """Takes one connection after another, which it says, and closes each at once."""
    door = listening()
    while True:
        door.accept()[0].close()
        print("closed", flush=True)


def full():
    """Listens, and its queue is full, so that the system waits for long with a connection to it."""
    held, door = [], listening(0)
    for _ in range(8):
        held.append(socket.socket())
        held[-1].setblocking(False)
        held[-1].connect_ex(door.getsockname())
    time.sleep(60)


def replays(address, how):
    """Sends a server what the journal on standard input says was sent, so that it is where it was then. A command whose answer the journal has is sent
    again until the server gives that: it says how far a clip has come. The last one, if it has no answer yet, is sent only if HOW is 'sent'."""
    text, line = sys.stdin.read(), connected(address)
    rows = [(row[1], bytes.fromhex(row[3])) for row in csv.reader(text[: text.rfind("\n") + 1].splitlines()) if row[1] in ("sent", "heard", "silence")]
    line.settimeout(1)
    for (word, command), answer in zip(rows, [*rows[1:], None]):
        if word != "sent" or answer is None and how != "sent":
            continue
        for _ in range(200):
            line.sendall(command)
            heard = line.recv(512)
            if answer is None or answer[0] != "heard" or heard == answer[1]:
                break
            time.sleep(0.02)
        else:
            sys.exit(f"{heard.hex()} for {answer[1].hex()}")


if __name__ == "__main__":
    if sys.argv[1] == "replays":
        sys.exit(replays(*sys.argv[2:]))
    with contextlib.suppress(OSError):
        {"server": server, "client": client, "between": Between, "shuts": shuts, "full": full}[sys.argv[1]](*sys.argv[2:])
