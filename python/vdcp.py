"""The Video Disk Communications Protocol, one playout channel of it: both ends, without any input or output of their own.

A server's port, over the bytes that came and those to send:

>>> port = Port({"CLIP0001": "00:00:10:00"})
>>> reader = Reader()
>>> for message in reader.feed(bytes.fromhex("0204300101 01cd")):
...     answer, aired = port.answer(message)
...     answer.hex(), aired
('02033081014e', None)
>>> port.silence(reader.silence())
b''

An automation, which is told what came for each command:

>>> controller = Controller(["CLIP0001", ("CLIP0002", "00:00:02:00", "00:00:03:00")])
>>> str(controller.tick())
'open 01 01'
>>> controller.hear(Message.of_bytes(bytes.fromhex("02033081014e")))
>>> str(controller.tick())
'select 01'
>>> controller.timeout(), controller.outcome, controller.settled
(None, None, 0)

A judge of what an automation sent, and what came for it:

>>> judge = Judge(["CLIP0001"])
>>> judge.allows(Command(PLAY))
False
"""

import ctypes
import enum
import os
import typing

__all__ = ["Airing", "Command", "Controller", "Ended", "Error", "Fault", "Judge", "Message", "Outcome", "Port", "Reader", "Reply", "Word"]

_BYTE, _WORD, _LONG = ctypes.c_uint8, ctypes.c_uint32, ctypes.c_uint64


def _library() -> ctypes.CDLL:
    here = os.path.dirname(os.path.abspath(__file__))
    # (in the tree the newer one of that which was built there and that which came with it)
    of_tree = [it for it in (f"{here}/../out/libvdcp.so", f"{here}/../prebuilt/linux-x86_64/libvdcp.so") if os.path.exists(it)]
    places = [os.environ.get("VDCP_LIBRARY"), *sorted(of_tree, key=os.path.getmtime)[-1:], "/usr/lib/x86_64-linux-gnu/vdcp/libvdcp.so"]
    return ctypes.CDLL(next((it for it in places if it and os.path.exists(it)), "libvdcp.so"))


class Error(ValueError):
    """A call that can't be done; nothing has changed."""

    TEXTS = {100: "no such state", 101: "no message", 102: "no command or reply", 103: "a number out of its range", 104: "no room", 105: "clips out of order", 106: "a pointer is NULL"}

    def __init__(self, code: int):
        super().__init__(self.TEXTS.get(code, f"code {code}"))
        self.code = code


class Word(enum.IntEnum):
    """The commands."""

    OPEN = 1
    CLOSE = 2
    SELECT = 3
    PLAY_CUE = 4
    CUE_DATA = 5
    PLAY = 6
    STOP = 7
    STATUS = 8
    ACTIVE_ID = 9
    ID_REQUEST = 10
    ID_SIZE = 11


OPEN, CLOSE, SELECT, PLAY_CUE, CUE_DATA, PLAY, STOP, STATUS, ACTIVE_ID, ID_REQUEST, ID_SIZE = Word


class Answer(enum.IntEnum):
    """The replies."""

    ACK = 1
    NAK = 2
    OPENED = 3
    STATE = 4
    ACTIVE = 5
    PRESENT = 6
    SIZE = 7


class Ended(enum.IntEnum):
    """How a burst ended: after a whole message or with no byte, inside a message, after a fault."""

    CLEAN = 0
    CUT = 1
    AFTER_FAULT = 2


class FaultKind(enum.IntEnum):
    BAD_START = 2
    BAD_COUNT = 3
    BAD_SUM = 4
    LONG = 5


class Outcome(enum.IntEnum):
    """How a controller ended."""

    DONE = 1
    STOPPED = 2
    LOST = 3
    DENIED = 4
    MISSING = 5
    REFUSED = 6
    FOREIGN = 7
    STRANGE = 8


RATES = {24: 0, 25: 1, 30: 2, "30d": 3}
MODES = {False: 1, True: 2}


class Fault(typing.NamedTuple):
    """What is wrong with a burst, and the place of the byte that shows it, from 1."""

    kind: FaultKind
    place: int


def id_bytes(text: typing.Union[str, bytes]) -> bytes:
    """The eight bytes of an ID: eight bytes, or a text that is padded with spaces.

    >>> id_bytes("NEWS")
    b'NEWS    '
    """
    it = text if isinstance(text, bytes) else text.encode("ascii").ljust(8)
    if len(it) != 8:
        raise Error(103)
    return it


def id_text(it: bytes) -> str:
    """The text of eight bytes, without the spaces at its end."""
    return it.decode("latin-1").rstrip(" ")


def time_bytes(text: str) -> bytes:
    """The packed BCD of HH:MM:SS:FF.

    >>> time_bytes("01:02:03:04").hex()
    '04030201'
    """
    fields = text.split(":")
    if len(fields) != 4 or not all(len(it) == 2 and it.isascii() and it.isdigit() for it in fields):
        raise Error(103)
    return bytes(int(it, 16) for it in reversed(fields))


class Message(ctypes.Structure):
    """A message: an ACK (kind 1), a NAK (2) with its code, or a framed one (3)."""

    _fields_ = [("kind", _BYTE), ("sort", _BYTE), ("unit", _BYTE), ("code", _BYTE), ("count", _WORD), ("_data", _BYTE * 256)]

    @property
    def data(self) -> bytes:
        return bytes(self._data[: self.count]) if self.kind == 3 else b""

    def __bytes__(self) -> bytes:
        return _written(_vdcp.vdcp_message_bytes, 258, self)

    @classmethod
    def of_bytes(cls, it: bytes) -> "Message":
        """The one message that these bytes are."""
        reader = Reader()
        got = list(reader.feed(it))
        if len(got) != 1 or not isinstance(got[0], cls) or reader.silence() != Ended.CLEAN:
            raise Error(101)
        return got[0]


class _Airing(ctypes.Structure):
    _fields_ = [("id", _BYTE * 8), ("start", _BYTE * 4), ("duration", _BYTE * 4), ("what", _WORD), ("left", _WORD)]


class Airing(typing.NamedTuple):
    """What airs: a clip's ID and, of a part, its start and duration in packed BCD."""

    id: str
    part: typing.Optional[typing.Tuple[bytes, bytes]]

    @classmethod
    def _of(cls, it: _Airing) -> "typing.Optional[Airing]":
        if it.what == 0:
            return None
        return cls(id_text(bytes(it.id)), (bytes(it.start), bytes(it.duration)) if it.what == 2 else None)


class Command(ctypes.Structure):
    """A command: its word, and what that carries.

    >>> bytes(Command(PLAY)).hex(), str(Command.cue("CLIP0001"))
    ('02021001ef', 'cue CLIP0001')
    """

    _fields_ = [("word", _BYTE), ("byte", _BYTE), ("lock", _BYTE), ("unused", _BYTE), ("id", _BYTE * 8), ("start", _BYTE * 4), ("duration", _BYTE * 4)]

    @classmethod
    def cue(cls, clip: typing.Union[str, bytes]) -> "Command":
        return cls(PLAY_CUE, 0, 0, 0, (_BYTE * 8)(*id_bytes(clip)))

    @classmethod
    def of_message(cls, message: Message) -> "Command":
        it = cls()
        _do(_vdcp.vdcp_command_of_message, message, it)
        return it

    @classmethod
    def of_text(cls, text: str) -> "Command":
        """The command whose text `str` gives so.

        >>> str(Command.of_text("cue CLIP0001"))
        'cue CLIP0001'
        >>> Command.of_text("cue")
        Traceback (most recent call last):
        ...
        vdcp.Error: no command or reply
        """
        it, data = cls(), text.encode()
        _do(_vdcp.vdcp_command_of_text, data, len(data), it)
        return it

    def to_bytes(self, unit: int = 0) -> bytes:
        return _written(_vdcp.vdcp_command_bytes, 21, self, unit)

    def __bytes__(self) -> bytes:
        return self.to_bytes()

    def __str__(self) -> str:
        return _written(_vdcp.vdcp_command_text, 64, self).decode("ascii")


class Reply(ctypes.Structure):
    """A reply, as its fields.

    >>> str(Reply.of_message(Message.of_bytes(bytes.fromhex("02033081014e"))))
    'granted'
    """

    _fields_ = [("word", _BYTE), ("yes", _BYTE), ("byte", _BYTE), ("state", _BYTE), ("id", _BYTE * 8), ("time", _BYTE * 4)]

    @classmethod
    def of_message(cls, message: Message) -> "Reply":
        it = cls()
        _do(_vdcp.vdcp_reply_of_message, message, it)
        return it

    def to_bytes(self, unit: int = 0) -> bytes:
        return _written(_vdcp.vdcp_reply_bytes, 21, self, unit)

    def __str__(self) -> str:
        return _written(_vdcp.vdcp_reply_text, 64, self).decode("ascii")


class Reader(ctypes.Structure):
    """Reads bursts that come in whatever pieces.

    >>> list(Reader().feed(bytes([4, 9])))[1]
    Fault(kind=<FaultKind.BAD_START: 2>, place=2)
    """

    _fields_ = [("taken", ctypes.c_uint16), ("held", ctypes.c_uint16), ("bytes", _BYTE * 258)]

    def feed(self, piece: bytes) -> typing.Iterator[typing.Union[Message, Fault]]:
        """The messages that a piece completes, and the fault, if it shows one."""
        while piece:
            taken, message = ctypes.c_size_t(), Message()
            code = _did(_vdcp.vdcp_reader_feed(self, piece, len(piece), taken, message))
            piece = piece[taken.value :]
            if code == 1:
                yield message
            elif code:
                yield Fault(FaultKind(code), message.count)

    def silence(self) -> Ended:
        """The burst ends here."""
        return Ended(_did(_vdcp.vdcp_reader_silence(self)))


class _Clip(ctypes.Structure):
    _fields_ = [("id", _BYTE * 8), ("length", _BYTE * 4)]


class _Server(ctypes.Structure):
    _fields_ = [
        ("unit", _BYTE), ("number", _BYTE), ("access", _BYTE), ("rate", _BYTE), ("cue_frames", _WORD), ("cued", _Airing), ("playing", _Airing),
    ]  # fmt: skip


class Port:
    """A server's port, which has these clips with their lengths."""

    def __init__(self, clips: typing.Mapping[str, str], unit: int = 0, number: int = 1, cue_frames: int = 1, rate: typing.Union[int, str] = 25):
        table = sorted((id_bytes(clip), time_bytes(length)) for clip, length in clips.items())
        rows = [_Clip((_BYTE * 8)(*clip), (_BYTE * 4)(*length)) for clip, length in table]
        self._clips, self._server = (_Clip * len(rows))(*rows), _Server()
        _do(_vdcp.vdcp_server_new, self._server, *self._lent(), unit, number, cue_frames, RATES[rate])

    def answer(self, message: Message) -> typing.Tuple[bytes, typing.Optional[Airing]]:
        """The answer to a message, and what goes to air by it."""
        aired = _Airing()
        return _written(_vdcp.vdcp_server_answer, 21, self._server, *self._lent(), message, last=aired), Airing._of(aired)

    def answer_burst(self, burst: bytes) -> typing.Tuple[bytes, typing.Optional[Airing]]:
        """The answers to a whole burst, its end included, and what goes to air on the way."""
        aired, room = _Airing(), 3 * min(len(burst), 4096) + 2
        return _written(_vdcp.vdcp_server_answer_burst, room, self._server, *self._lent(), burst, len(burst), last=aired), Airing._of(aired)

    def silence(self, ended: Ended) -> bytes:
        """What goes out at a silence, of which the reader said how the burst ended."""
        return _written(_vdcp.vdcp_silence_answer, 2, ended)

    def frame(self) -> typing.Tuple[bool, bool]:
        """A frame passes: whether it was the last of the cue, and of the clip."""
        cued, ended = _BYTE(), _BYTE()
        _do(_vdcp.vdcp_server_frame, self._server, *self._lent(), cued, ended)
        return bool(cued.value), bool(ended.value)

    @property
    def state(self) -> int:
        """The state byte."""
        it = _BYTE()
        _do(_vdcp.vdcp_server_state, self._server, *self._lent(), it)
        return it.value

    def _lent(self) -> tuple:
        return self._clips, len(self._clips)


class _Item(ctypes.Structure):
    _fields_ = [("id", _BYTE * 8), ("start", _BYTE * 4), ("duration", _BYTE * 4), ("has_part", _WORD)]


_Event = typing.Union[str, typing.Tuple[str, str, str]]


def _items(events: typing.Iterable[_Event]) -> ctypes.Array:
    rows = []
    for it in events:
        clip, *part = (it,) if isinstance(it, str) else it
        start, duration = map(time_bytes, part) if part else (bytes(4), bytes(4))
        rows.append(_Item((_BYTE * 8)(*id_bytes(clip)), (_BYTE * 4)(*start), (_BYTE * 4)(*duration), bool(part)))
    return (_Item * len(rows))(*rows)


class _Controller(ctypes.Structure):
    _fields_ = [
        ("mode", _BYTE), ("port", _BYTE), ("standing", _BYTE), ("phase", _BYTE), ("take", _BYTE), ("stop", _BYTE), ("unused", ctypes.c_uint16),
        ("limit", _WORD), ("unanswered", _WORD), ("tries", _WORD), ("unused2", _WORD), ("event", _LONG), ("settled", _LONG),
    ]  # fmt: skip


class Controller:
    """An automation's controller of a list: IDs, or parts of clips (ID, start, duration)."""

    def __init__(self, events: typing.Iterable[_Event], port: int = 1, limit: int = 3, confirming: bool = False):
        self._list, self._it = _items(events), _Controller()
        _do(_vdcp.vdcp_controller_new, self._it, MODES[confirming], port, limit)

    def tick(self) -> typing.Optional[Command]:
        """The next command to send, which awaits its answer then; None if there is nothing to send."""
        command = Command()
        return command if _did(_vdcp.vdcp_controller_tick(self._it, *self._lent(), command)) else None

    def hear(self, message: Message, unit: int = 0) -> None:
        """This came for the command to the unit."""
        _do(_vdcp.vdcp_controller_hear, self._it, *self._lent(), message, unit)

    def timeout(self) -> None:
        """Nothing came in time."""
        _do(_vdcp.vdcp_controller_timeout, self._it, *self._lent())

    def take(self) -> None:
        """The operator wants the next event though the last one still plays."""
        _do(_vdcp.vdcp_controller_take, self._it, *self._lent())

    def stop(self) -> None:
        """The operator wants to stop."""
        _do(_vdcp.vdcp_controller_stop, self._it, *self._lent())

    @property
    def awaiting(self) -> bool:
        return self._it.standing == 2

    @property
    def outcome(self) -> typing.Optional[Outcome]:
        """How it ended; None while it goes on."""
        return Outcome(self._it.phase) if self._it.standing == 3 else None

    @property
    def event(self) -> int:
        """The event of the phase or of the outcome, from 0."""
        return self._it.event

    @property
    def settled(self) -> int:
        """How many events it takes for aired: the first of the list."""
        return self._it.settled

    def _lent(self) -> tuple:
        return self._list, len(self._list)


class _Judging(ctypes.Structure):
    _fields_ = [(it, _BYTE) for it in ("mode", "has_open_play", "may_have_aired", "stopped", "closed", "granted", "last_cue", "unused")] + [("settled", _LONG)]


class Judge:
    """Holds an automation's exchanges against the rule book."""

    def __init__(self, events: typing.Iterable[_Event], confirming: bool = False):
        self._list, self._it = _items(events), _Judging()
        _do(_vdcp.vdcp_judging_new, self._it, MODES[confirming])

    def allows(self, command: Command) -> bool:
        """Whether the command may follow the exchanges so far."""
        it = _BYTE()
        _do(_vdcp.vdcp_judging_allows, self._it, self._list, len(self._list), command, it)
        return bool(it.value)

    def add(self, command: Command, message: typing.Optional[Message], unit: int = 0) -> None:
        """The command was sent, and this message ended its exchange, or nothing came."""
        if message is None:
            _do(_vdcp.vdcp_judging_add_silence, self._it, self._list, len(self._list), command)
        else:
            _do(_vdcp.vdcp_judging_add, self._it, self._list, len(self._list), command, message, unit)

    @property
    def settled(self) -> int:
        return self._it.settled


def _did(code: int) -> int:
    if code >= 100:
        raise Error(code)
    return code


def _do(function, *arguments) -> None:
    _did(function(*arguments))


def _written(function, room: int, *arguments, last=None) -> bytes:
    out, written = (_BYTE * room)(), ctypes.c_size_t()
    _do(function, *arguments, out, room, written, *[last] * (last is not None))
    return bytes(out[: written.value])


_vdcp = _library()
_OUT = [ctypes.POINTER(_BYTE), ctypes.c_size_t, ctypes.POINTER(ctypes.c_size_t)]
_LENT = {it: [ctypes.POINTER(it), ctypes.c_size_t] for it in (_Clip, _Item)}
_CALLS = {
    "message_bytes": [Message, *_OUT],
    "reader_feed": [Reader, ctypes.c_char_p, ctypes.c_size_t, ctypes.c_size_t, Message],
    "reader_silence": [Reader],
    "command_bytes": [Command, _BYTE, *_OUT],
    "command_of_message": [Message, Command],
    "command_text": [Command, *_OUT],
    "command_of_text": [ctypes.c_char_p, ctypes.c_size_t, Command],
    "reply_bytes": [Reply, _BYTE, *_OUT],
    "reply_of_message": [Message, Reply],
    "reply_text": [Reply, *_OUT],
    "server_new": [_Server, *_LENT[_Clip], _BYTE, _BYTE, _WORD, _BYTE],
    "server_answer": [_Server, *_LENT[_Clip], Message, *_OUT, _Airing],
    "server_answer_burst": [_Server, *_LENT[_Clip], ctypes.c_char_p, ctypes.c_size_t, *_OUT, _Airing],
    "silence_answer": [_BYTE, *_OUT],
    "server_frame": [_Server, *_LENT[_Clip], ctypes.POINTER(_BYTE), ctypes.POINTER(_BYTE)],
    "server_state": [_Server, *_LENT[_Clip], ctypes.POINTER(_BYTE)],
    "controller_new": [_Controller, _BYTE, _BYTE, _WORD],
    "controller_tick": [_Controller, *_LENT[_Item], Command],
    "controller_hear": [_Controller, *_LENT[_Item], Message, _BYTE],
    "controller_timeout": [_Controller, *_LENT[_Item]],
    "controller_take": [_Controller, *_LENT[_Item]],
    "controller_stop": [_Controller, *_LENT[_Item]],
    "judging_new": [_Judging, _BYTE],
    "judging_allows": [_Judging, *_LENT[_Item], Command, ctypes.POINTER(_BYTE)],
    "judging_add": [_Judging, *_LENT[_Item], Command, Message, _BYTE],
    "judging_add_silence": [_Judging, *_LENT[_Item], Command],
}
for _name, _types in _CALLS.items():
    _call = getattr(_vdcp, f"vdcp_{_name}")
    _call.restype = ctypes.c_int32
    _call.argtypes = [ctypes.POINTER(it) if issubclass(it, ctypes.Structure) else it for it in _types]
_vdcp.vdcp_reader_feed.argtypes[3] = ctypes.POINTER(ctypes.c_size_t)
_vdcp.vdcp_reader_feed.argtypes = [*_vdcp.vdcp_reader_feed.argtypes[:3], ctypes.POINTER(ctypes.c_size_t), ctypes.POINTER(Message)]
