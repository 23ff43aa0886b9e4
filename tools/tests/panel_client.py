#!/usr/bin/env python3
"""panel_client.py ADDR state|until PATTERN|oddities|holds_on|flood|keeps TOKEN|greedy SECONDS|METHOD PATH FIELD..: asks a panel by bytes of its own.
Of a request by METHOD it prints the status; its host is ADDR unless it has a field Host, and that is left out if it's empty."""
import contextlib
import re
import resource
import socket
import sys
import threading
import time

NAME = sys.argv[1]
HOST, PORT = NAME.split(":")
OPEN = min(resource.getrlimit(resource.RLIMIT_NOFILE)[1], 4096)


def connect():
    return socket.create_connection((HOST, int(PORT)), timeout=20)


def request(line, *fields):
    fields = fields if any(it.startswith("Host:") for it in fields) else (f"Host: {NAME}", *fields)
    return "\r\n".join([f"{line} HTTP/1.1", *(it for it in fields if it != "Host:"), "", ""]).encode()


def ask(data, step=1 << 16, until_closed=False):
    """The head and the body of what comes for these bytes, sent step by step: of one answer, or of all until the panel closes the connection."""
    answer = b""
    with connect() as line, contextlib.suppress(ConnectionError):
        for at in range(0, len(data), step):
            line.sendall(data[at : at + step])
            time.sleep(0.001)
        while until_closed or not is_whole(answer):
            if not (more := line.recv(65536)):
                break
            answer += more
    head, _, body = answer.decode().partition("\r\n\r\n")
    return head, body


def is_whole(answer):
    head, _, body = answer.partition(b"\r\n\r\n")
    size = re.search(rb"(?i)\r\ncontent-length: (\d+)", head)
    return size and len(body) >= int(size[1])


def get(path, *fields):
    return ask(request(f"GET {path}", *fields, "Connection: close"))


def code(answer):
    return answer[0].split()[1]


def oddities():
    """What isn't said by METHOD, PATH and FIELDs, and what fields the page has."""
    no_body = ask(request("HEAD /", "Connection: close"), until_closed=True)
    several = ask(request("GET /") + request("GET /state") + request("GET /none", "Connection: close"), until_closed=True)
    print("head of the page", code(no_body), "a body" if no_body[1] else "no body")
    print("long head", code(get("/", "X: " + "x" * 9000)))
    print("long body", code(ask(request("POST /", "Content-Length: 300") + b"x" * 300)))
    print("no request", code(ask(b"\x02\x04\x30\x01\r\n\r\n")))
    print("pipelined", *re.findall(r"HTTP/1.1 (\d+)", "".join(several)))
    print("byte by byte", code(ask(request("GET /state", "Connection: close"), 1)))
    print(*sorted(re.findall(r"(?mi)^((?:x-|cache|content-sec|cross|referrer)\S+: .*?)\r?$", get("/")[0])), sep="\n")


def is_closed(line):
    line.settimeout(0.05)
    try:
        return line.recv(65536) == b""
    except TimeoutError:
        return False
    except ConnectionError:
        return True


def holds_on():
    begun = time.monotonic()
    slow, mute = connect(), connect()
    slow.sendall(b"GET /state HTTP/1.1\r\nHost: ")
    with contextlib.suppress(ConnectionError):
        while time.monotonic() - begun < 14:
            time.sleep(0.25)
            slow.sendall(b"x")
    if not 9.5 < time.monotonic() - begun < 12:
        sys.exit(f"half a request was given up after {time.monotonic() - begun} seconds")
    if not is_closed(mute):
        sys.exit("a connection without a request is open after ten seconds")
    first = connect()
    time.sleep(0.2)
    lines = [connect() for _ in range(8)]
    time.sleep(0.5)
    if not is_closed(first) or any(map(is_closed, lines)):
        sys.exit("a ninth connection didn't replace the oldest, and it alone")
    if code(get("/state")) != "200":
        sys.exit("nobody is answered then")


def floods(most, seconds):
    """Connects and asks so often, for so long at most, and reads nothing; the last connections stay open."""
    resource.setrlimit(resource.RLIMIT_NOFILE, (OPEN, OPEN))
    end, lines = time.monotonic() + seconds, []
    for _ in range(most):
        if time.monotonic() > end:
            break
        with contextlib.suppress(OSError):
            line = socket.socket()
            line.setblocking(False)
            line.connect_ex((HOST, int(PORT)))
            lines.append(line)
            line.send(request("GET /state"))
        if len(lines) > OPEN - 100:
            lines.pop(0).close()
    return lines


def flood():
    """After a flood the page is answered before anyone is given up. (A system whose queue is full has a connection try again after 1, 3, 7 seconds.)"""
    lines, begun = floods(3000, 5), time.monotonic()
    if code(get("/state")) != "200" or time.monotonic() - begun > 9:
        sys.exit(f"after a flood an answer came after {time.monotonic() - begun} seconds")
    print(len(lines), "connections were open still")


def keeps(token):
    """A connection that has shown the token is answered on and on while others flood."""
    line = connect()
    flooding = threading.Thread(target=floods, args=(3000, 5))
    for turn in range(12):
        if turn == 3:
            flooding.start()
        answer, begun = b"", time.monotonic()
        line.sendall(request("GET /state", f"X-Panel-Token: {token}"))
        while not is_whole(answer):
            if not (more := line.recv(65536)):
                sys.exit("it was closed")
            answer += more
        if time.monotonic() - begun > 5:
            sys.exit(f"it waited for {time.monotonic() - begun} seconds")
        time.sleep(0.4)
    flooding.join()


def greedy(seconds):
    """Some ask as fast as they can; others ask, and never read."""
    end, answered = time.monotonic() + float(seconds), 0
    deaf = [connect() for _ in range(2)]
    while time.monotonic() < end:
        for place, line in enumerate(deaf):
            line.setblocking(False)
            try:
                line.send(request("GET /") * 20)
            except BlockingIOError:
                pass
            except OSError:
                deaf[place] = connect()
        with contextlib.suppress(OSError, IndexError):
            answered += code(get("/state")) == "200"
    if answered < 2 * float(seconds):
        sys.exit(f"only {answered} answers in {seconds} seconds")


def state():
    print(get("/state")[1])


def until(pattern):
    while not re.search(pattern, get("/state")[1]):
        time.sleep(0.01)


if __name__ == "__main__":
    what, *words = sys.argv[2:]
    if what.isupper():
        print(code(ask(request(f"{what} {words[0]}", *words[1:], "Connection: close"))))
    else:
        globals()[what](*words)
