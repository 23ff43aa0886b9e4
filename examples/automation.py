#!/usr/bin/env python3
"""An automation over TCP: automation.py HOST:PORT PLAYLIST [CAPTURE]. It plays the list through a server's port, prints what aired and how
it ended, and writes what went over the line as a capture, which `vdcp judge PLAYLIST CAPTURE` reads."""

import csv
import socket
import sys
import time

import vdcp

SILENCE = 0.2  # seconds: longer than the server takes to answer
POLL = 0.02  # between two questions for the state


def events_of(playlist):
    with open(playlist, encoding="ascii", newline="") as rows:
        return [row[0] if not any(row[1:]) else tuple(row) for row in csv.reader(rows) if row]


def answer(line, reader, log):
    """The first message that comes, or None after a silence or a fault. Then the burst's end."""
    message = None
    while message is None:
        try:
            piece = line.recv(4096)
        except TimeoutError:
            break
        if not piece:
            sys.exit("automation: the server has closed the line")
        log("up", piece)
        got = list(reader.feed(piece))
        message = next((it for it in got if isinstance(it, vdcp.Message)), None)
        if any(isinstance(it, vdcp.Fault) for it in got):
            break
    reader.silence()
    return message


def main(address, playlist, capture="/dev/null"):
    host, _, port = address.partition(":")
    controller, reader = vdcp.Controller(events_of(playlist)), vdcp.Reader()
    with socket.create_connection((host, int(port))) as line, open(capture, "w", encoding="ascii") as log_file:
        line.settimeout(SILENCE)

        def log(way, data):
            print(f"{time.monotonic():.3f},{way},{data.hex()}", file=log_file)

        while (command := controller.tick()) is not None:
            log("down", bytes(command))
            line.sendall(bytes(command))
            message = answer(line, reader, log)
            if message is None:
                log("up", b"")
                controller.timeout()
            else:
                controller.hear(message)
            if command.word == vdcp.STATUS:
                time.sleep(POLL)
    print(f"reported {controller.settled}\noutcome {controller.outcome.name.lower()}")


if __name__ == "__main__":
    main(*sys.argv[1:])
