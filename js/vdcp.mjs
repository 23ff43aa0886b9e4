/* The Video Disk Communications Protocol, one playout channel of it: both ends, without any input or output of their own.
 *
 *     import { load, Port, Reader } from './vdcp.mjs';
 *     await load();
 *     const port = new Port([{ id: 'CLIP0001', length: '00:00:10:00' }]);
 *     const reader = new Reader();
 *     for (const message of reader.feed(Uint8Array.of(0x02, 0x04, 0x30, 0x01, 0x01, 0x01, 0xcd))) port.answer(message).bytes; // 02033081014e
 *
 * What computes is the WebAssembly module vdcp.wasm, the library for C of include/vdcp.h. Each object here holds the bytes of its struct;
 * a call lends them to the module and takes back what it left. docs/JS.md says more, vdcp.d.ts has the types.
 */

let wasm = null;
let base = 0;
let memory = new Uint8Array();

/* Loads the module, from its bytes or its address: beside this folder, if neither is given. Every other call needs it. */
export async function load(source = new URL('../prebuilt/vdcp.wasm', import.meta.url)) {
  if (!is64()) throw new Error('vdcp: 64-bit memories are missing; Chromium has them from 133, Firefox from 134, Node from 24');
  const bytes = source instanceof URL || typeof source === 'string' ? await bytesAt(source) : source;
  const { instance } = await WebAssembly.instantiate(bytes, {});
  wasm = instance.exports;
  base = (Number(wasm.__heap_base.value) + 15) & ~15;
}

/* Whether this machine has 64-bit memories. */
export function is64() {
  // (a module with such a memory, of one page)
  return typeof WebAssembly === 'object' && WebAssembly.validate(Uint8Array.of(0, 0x61, 0x73, 0x6d, 1, 0, 0, 0, 5, 3, 1, 4, 1));
}

async function bytesAt(place) {
  const url = new URL(place, import.meta.url);
  if (url.protocol === 'file:' && typeof process === 'object') return (await import('node:fs/promises')).readFile(url);
  const answer = await fetch(url);
  if (!answer.ok) throw new Error(`vdcp: ${url}: ${answer.status}`);
  return answer.arrayBuffer();
}

const TEXTS = {
  100: 'no such state', 101: 'no message', 102: 'no command or reply', 103: 'a number out of its range',
  104: 'no room', 105: 'clips out of order', 106: 'a pointer is NULL',
};

/* A call that can't be done; nothing has changed. */
export class VdcpError extends Error {
  constructor(code) {
    super(TEXTS[code] ?? `code ${code}`);
    this.name = 'VdcpError';
    this.code = code;
  }
}

const BAD_COMMAND = 102;
const BAD_VALUE = 103;

/* What is lent to a call: bytes, and whether the call may change them. */
class Lent {
  constructor(bytes, changes) {
    this.bytes = bytes;
    this.changes = changes;
    this.place = 0;
  }
}
const lent = bytes => new Lent(bytes, false);
const changed = bytes => new Lent(bytes, true);

/* Calls an export: bytes are lent by their place above the module's own, a BigInt is a length. */
function call(name, ...given) {
  if (!wasm) throw new Error('vdcp: await load() comes first');
  const end = given.reduce((place, it) => (it instanceof Lent ? after(place, it) : place), base);
  const missing = end - wasm.memory.buffer.byteLength;
  if (missing > 0) wasm.memory.grow(BigInt(Math.ceil(missing / 65536)));
  if (memory.buffer !== wasm.memory.buffer) memory = new Uint8Array(wasm.memory.buffer);
  let place = base;
  const words = given.map(it => {
    if (!(it instanceof Lent)) return it;
    memory.set(it.bytes, place);
    it.place = place;
    place = after(place, it);
    return BigInt(it.place);
  });
  const code = wasm[`vdcp_${name}`](...words);
  if (code >= 100) throw new VdcpError(code);
  for (const it of given) if (it instanceof Lent && it.changes) it.bytes.set(memory.subarray(it.place, it.place + it.bytes.length));
  return code;
}

/* The first place after what is lent here. */
const after = (place, { bytes }) => (place + bytes.length + 15) & ~15;

/* Calls an export that writes at most this many bytes, and gives these. */
function written(name, room, ...given) {
  const out = new Uint8Array(room);
  const count = new Uint8Array(8);
  const last = given.length && given.at(-1) instanceof Airing ? [given.pop().lent] : [];
  call(name, ...given, changed(out), BigInt(room), changed(count), ...last);
  return out.slice(0, numbers(count).getUint32(0, true));
}

const numbers = bytes => new DataView(bytes.buffer, bytes.byteOffset, bytes.byteLength);
const ascii = bytes => String.fromCharCode(...bytes);

function within(number, most) {
  if (!Number.isInteger(number) || number < 0 || number > most) throw new VdcpError(BAD_VALUE);
  return number;
}

/* ---- IDs and times. */

/* The eight bytes of an ID, of its text: 'NEWS' or '0x4142434420202001'. */
export function idBytes(text) {
  return new Command(commandOf(`cue ${text}`)).id;
}

/* The text of eight bytes. */
export function idText(bytes) {
  return Command.cue(bytes).toString().slice(4);
}

const eight = id => {
  const bytes = typeof id === 'string' ? idBytes(id) : id;
  if (!(bytes instanceof Uint8Array) || bytes.length !== 8) throw new VdcpError(BAD_VALUE);
  return bytes;
};

/* The packed BCD of 'HH:MM:SS:FF', at drop frame 'HH:MM:SS;FF'. */
export function timeBytes(text) {
  const fields = /^(\d\d):(\d\d):(\d\d)[:;](\d\d)$/.exec(text);
  if (!fields) throw new VdcpError(BAD_VALUE);
  return Uint8Array.from(fields.slice(1).reverse(), it => parseInt(it, 16));
}

/* The text of four bytes: at drop frame its last sign is ';'. */
export function timeText(bytes, isDrop = false) {
  const [frames, seconds, minutes, hours] = Array.from(bytes, it => it.toString(16).padStart(2, '0'));
  return `${hours}:${minutes}:${seconds}${isDrop ? ';' : ':'}${frames}`;
}

/* ---- Messages. */

const KINDS = ['', 'ack', 'nak', 'framed'];

export class Message {
  #it;

  constructor(bytes) {
    this.#it = bytes;
  }

  /* The one message that these bytes are. */
  static ofBytes(bytes) {
    const reader = new Reader();
    const got = reader.feed(bytes);
    if (got.length !== 1 || !(got[0] instanceof Message) || reader.silence() !== 'clean') throw new VdcpError(101);
    return got[0];
  }

  static ack() {
    return Message.ofBytes(Uint8Array.of(0x04));
  }

  static nak(byte) {
    return Message.ofBytes(Uint8Array.of(0x05, within(byte, 255)));
  }

  get kind() {
    return KINDS[this.#it[0]];
  }

  /* Of a framed message. */
  get sort() {
    return this.#it[1];
  }

  get unit() {
    return this.#it[2];
  }

  /* The command code, of a NAK the error byte. */
  get code() {
    return this.#it[3];
  }

  get data() {
    return this.kind === 'framed' ? this.#it.slice(8, 8 + numbers(this.#it).getUint32(4, true)) : new Uint8Array();
  }

  toBytes() {
    return written('message_bytes', 258, lent(this.#it));
  }

  get struct() {
    return this.#it.slice();
  }
}

const FAULTS = { 2: 'bad-start', 3: 'bad-count', 4: 'bad-sum', 5: 'long' };

/* What is wrong with a burst, and the place of the byte that shows it, from 1. */
export class Fault {
  constructor(kind, place) {
    this.kind = kind;
    this.place = place;
  }
}

const ENDED = ['clean', 'cut', 'after-fault'];

/* The reader of a burst, which comes in whatever pieces. */
export class Reader {
  #it = new Uint8Array(262);

  /* The messages that these bytes complete, and a fault. */
  feed(piece) {
    const got = [];
    let rest = Uint8Array.from(piece);
    for (;;) {
      const taken = new Uint8Array(8);
      const message = new Uint8Array(264);
      const code = call('reader_feed', changed(this.#it), lent(rest), BigInt(rest.length), changed(taken), changed(message));
      if (code === 0) return got;
      rest = rest.subarray(numbers(taken).getUint32(0, true));
      got.push(code === 1 ? new Message(message) : new Fault(FAULTS[code], numbers(message).getUint32(4, true)));
    }
  }

  /* The burst ends here. How: 'clean', inside a message ('cut') or 'after-fault'. */
  silence() {
    return ENDED[call('reader_silence', changed(this.#it))];
  }

  /* How many bytes it holds, since they begin a message. */
  get held() {
    return numbers(this.#it).getUint16(2, true);
  }

  copy() {
    const it = new Reader();
    it.#it.set(this.#it);
    return it;
  }
}

/* ---- Commands and replies. */

export const WORDS = ['', 'open', 'close', 'select', 'cue', 'cue-data', 'play', 'stop', 'status', 'active', 'exists', 'size'];

function commandOf(text) {
  const bytes = new TextEncoder().encode(text);
  const it = new Uint8Array(20);
  call('command_of_text', lent(bytes), BigInt(bytes.length), changed(it));
  return it;
}

export class Command {
  #it;

  constructor(bytes) {
    this.#it = bytes;
  }

  /* The command of this text, as 'cue CLIP0001' or 'play'. */
  static ofText(text) {
    return new Command(commandOf(text));
  }

  static ofMessage(message) {
    const it = new Uint8Array(20);
    call('command_of_message', lent(message.struct), changed(it));
    return new Command(it);
  }

  /* PLAY CUE of a clip. */
  static cue(clip) {
    const it = new Uint8Array(20);
    it[0] = 4;
    it.set(eight(clip), 4);
    return new Command(it);
  }

  /* Its first word. */
  get word() {
    return WORDS[this.#it[0]];
  }

  get id() {
    return this.#it.slice(4, 12);
  }

  toBytes(unit = 0) {
    return written('command_bytes', 21, lent(this.#it), within(unit, 255));
  }

  toString() {
    return ascii(written('command_text', 64, lent(this.#it)));
  }

  get struct() {
    return this.#it.slice();
  }
}

const ANSWERS = ['', 'ack', 'nak', 'opened', 'state', 'active', 'present', 'size'];

export class Reply {
  #it;

  constructor(bytes) {
    this.#it = bytes;
  }

  static ofMessage(message) {
    const it = new Uint8Array(16);
    call('reply_of_message', lent(message.struct), changed(it));
    return new Reply(it);
  }

  get word() {
    return ANSWERS[this.#it[0]];
  }

  /* The port was granted, there is a state byte, a clip plays, the clip is there. */
  get yes() {
    return this.#it[1] === 1;
  }

  /* The error byte, or the bitmap. */
  get byte() {
    return this.#it[2];
  }

  get state() {
    return this.#it[3];
  }

  get id() {
    return this.#it.slice(4, 12);
  }

  get time() {
    return this.#it.slice(12, 16);
  }

  toBytes(unit = 0) {
    return written('reply_bytes', 21, lent(this.#it), within(unit, 255));
  }

  toString() {
    return ascii(written('reply_text', 64, lent(this.#it)));
  }
}

/* The command or the reply that a message carries; null if it carries neither. */
export function meaning(message) {
  for (const read of [Command.ofMessage, Reply.ofMessage]) {
    try {
      return read(message);
    } catch (error) {
      if (error.code !== BAD_COMMAND) throw error;
    }
  }
  return null;
}

/* ---- The server's port. */

/* What airs, or is cued. */
class Airing {
  #it;

  constructor(bytes = new Uint8Array(24)) {
    this.#it = bytes;
  }

  get lent() {
    return changed(this.#it);
  }

  /* The item, with the frames left; null if it is none. */
  get item() {
    const what = numbers(this.#it).getUint32(16, true);
    if (what === 0) return null;
    const item = { id: idText(this.#it.slice(0, 8)), left: numbers(this.#it).getUint32(20, true) };
    return what === 2 ? { ...item, start: this.#it.slice(8, 12), duration: this.#it.slice(12, 16) } : item;
  }
}

const RATES = { 24: 0, 25: 1, 30: 2, '30df': 3 };
const ACCESS = ['closed', 'open', 'selected'];
const CUED = 8;
const PLAYING = 32;
const LEFT = 20;

function clipRows(clips) {
  const rows = Array.from(clips, ({ id, length }) => Uint8Array.of(...eight(id), ...timeBytes(length)));
  rows.sort((a, b) => {
    const k = a.findIndex((byte, at) => byte !== b[at]);
    return k === -1 || k >= 8 ? 0 : a[k] - b[k];
  });
  return flat(rows, 12);
}

function flat(rows, size) {
  const all = new Uint8Array(rows.length * size);
  rows.forEach((row, k) => all.set(row, k * size));
  return all;
}

/* A server's port, over a table of clips. */
export class Port {
  #clips;
  #it = new Uint8Array(56);

  constructor(clips, { unit = 0, number = 1, cueFrames = 1, rate = 25 } = {}) {
    this.#clips = clips instanceof Uint8Array ? clips : clipRows(clips);
    call('server_new', changed(this.#it), ...this.#table, within(unit, 255), within(number, 255), within(cueFrames, 1000), RATES[rate] ?? 255);
  }

  /* The answer to a message, and what goes to air by it. */
  answer(message) {
    const aired = new Airing();
    const bytes = written('server_answer', 21, changed(this.#it), ...this.#table, lent(message.struct), aired);
    return { bytes, aired: aired.item };
  }

  /* The answers to a whole burst, its end included, and what goes to air by it. */
  answerBurst(burst) {
    const aired = new Airing();
    const room = 3 * Math.min(burst.length, 4096) + 2;
    const bytes = written('server_answer_burst', room, changed(this.#it), ...this.#table, lent(burst), BigInt(burst.length), aired);
    return { bytes, aired: aired.item };
  }

  /* What goes out at a silence, of which the reader said how the burst ended. */
  silence(ended) {
    return written('silence_answer', 2, ENDED.indexOf(ended) & 255);
  }

  /* A frame passes: whether it was the last of the cue, and of the clip. */
  frame() {
    const cued = new Uint8Array(1);
    const ended = new Uint8Array(1);
    call('server_frame', changed(this.#it), ...this.#table, changed(cued), changed(ended));
    return { cued: cued[0] === 1, ended: ended[0] === 1 };
  }

  /* The last frame of the cue passes, if one is under way, and none of the clip. */
  finishCue() {
    this.#finish(CUED, PLAYING);
  }

  /* The last frame of the clip passes, if one plays, and none of the cue. */
  finishClip() {
    this.#finish(PLAYING, CUED);
  }

  /* The server is restarted: its port is closed and empty. */
  restart() {
    const { unit, number, rate } = this;
    call('server_new', changed(this.#it), ...this.#table, unit, number, numbers(this.#it).getUint32(4, true), rate);
  }

  get unit() {
    return this.#it[0];
  }

  get number() {
    return this.#it[1];
  }

  get rate() {
    return this.#it[3];
  }

  /* 'closed', 'open' or 'selected'. */
  get access() {
    return ACCESS[this.#it[2]];
  }

  /* What airs next, and the frames until its cue is done; or null. */
  get cued() {
    return new Airing(this.#it.slice(CUED, CUED + 24)).item;
  }

  /* What is on the air, and its frames left; or null. */
  get playing() {
    return new Airing(this.#it.slice(PLAYING, PLAYING + 24)).item;
  }

  /* The state byte. */
  get state() {
    const it = new Uint8Array(1);
    call('server_state', lent(this.#it), ...this.#table, changed(it));
    return it[0];
  }

  copy() {
    const it = new Port(this.#clips);
    it.#it.set(this.#it);
    return it;
  }

  get #table() {
    return [lent(this.#clips), BigInt(this.#clips.length / 12)];
  }

  /* A frame passes at one slot, the last of what is there, while the other slot waits. */
  #finish(slot, other) {
    const waits = this.#it.slice(other, other + 24);
    const left = numbers(this.#it).getUint32(slot + LEFT, true);
    if (left === 0) return;
    this.#it.fill(0, other, other + 24);
    numbers(this.#it).setUint32(slot + LEFT, 1, true);
    this.frame();
    this.#it.set(waits, other);
  }
}

/* ---- The automation's controller. */

function eventRows(events) {
  return flat(Array.from(events, eventRow), 20);
}

function eventRow(event) {
  const { id, start, duration } = typeof event === 'string' ? { id: event } : event;
  const row = new Uint8Array(20);
  row.set(eight(id));
  if (start !== undefined) {
    row.set(typeof start === 'string' ? timeBytes(start) : start, 8);
    row.set(typeof duration === 'string' ? timeBytes(duration) : duration, 12);
    row[16] = 1;
  }
  return row;
}

const modeOf = confirming => (confirming ? 2 : 1);
const PHASES = ['', 'open', 'select', 'seen', 'exists', 'cue', 'wait', 'play', 'probe', 'check', 'drain', 'close', 'halt', 'halt-close'];
const OUTCOMES = ['', 'done', 'stopped', 'lost', 'denied', 'missing', 'refused', 'foreign', 'strange'];

/* An automation's controller of a list: IDs, or parts of clips ({ id, start, duration }). */
export class Controller {
  #list;
  #it = new Uint8Array(40);

  constructor(events, { port = 1, limit = 3, confirming = false } = {}) {
    this.#list = events instanceof Uint8Array ? events : eventRows(events);
    call('controller_new', changed(this.#it), modeOf(confirming), within(port, 255), within(limit, 1000));
  }

  /* The next command to send, which awaits its answer then; null if there is nothing to send. */
  tick() {
    const it = new Uint8Array(20);
    return call('controller_tick', changed(this.#it), ...this.#table, changed(it)) === 1 ? new Command(it) : null;
  }

  /* This came for the command to the unit. */
  hear(message, unit = 0) {
    call('controller_hear', changed(this.#it), ...this.#table, lent(message.struct), within(unit, 255));
  }

  /* Nothing came in time. */
  timeout() {
    call('controller_timeout', changed(this.#it), ...this.#table);
  }

  /* The operator wants the next event though the last one still plays. */
  take() {
    call('controller_take', changed(this.#it), ...this.#table);
  }

  /* The operator wants to stop. */
  stop() {
    call('controller_stop', changed(this.#it), ...this.#table);
  }

  /* The wishes of take and stop are forgotten, as by a restart. */
  forget() {
    this.#it[4] = this.#it[5] = 0;
  }

  get confirming() {
    return this.#it[0] === 2;
  }

  get awaiting() {
    return this.#it[2] === 2;
  }

  /* The phase, as docs/PROTOCOL.md has them; null once it has ended. */
  get phase() {
    return this.#it[2] === 3 ? null : PHASES[this.#it[3]];
  }

  /* How it ended; null while it goes on. */
  get outcome() {
    return this.#it[2] === 3 ? OUTCOMES[this.#it[3]] : null;
  }

  /* Whether the operator's wishes hold. */
  get wishes() {
    return { take: this.#it[4] === 1, stop: this.#it[5] === 1 };
  }

  get limit() {
    return numbers(this.#it).getUint32(8, true);
  }

  /* Unanswered exchanges in a row, so far. */
  get unanswered() {
    return numbers(this.#it).getUint32(12, true);
  }

  /* The event of the phase or of the outcome, from 0. */
  get event() {
    return Number(numbers(this.#it).getBigUint64(24, true));
  }

  /* How many events it takes for aired: the first of the list. */
  get settled() {
    return Number(numbers(this.#it).getBigUint64(32, true));
  }

  copy() {
    const it = new Controller(this.#list);
    it.#it.set(this.#it);
    return it;
  }

  get #table() {
    return [lent(this.#list), BigInt(this.#list.length / 20)];
  }
}

/* Holds an automation's exchanges against the rule book. */
export class Judge {
  #list;
  #it = new Uint8Array(16);

  constructor(events, { confirming = false } = {}) {
    this.#list = events instanceof Uint8Array ? events : eventRows(events);
    call('judging_new', changed(this.#it), modeOf(confirming));
  }

  /* Whether the command may follow the exchanges so far. */
  allows(command) {
    const it = new Uint8Array(1);
    call('judging_allows', lent(this.#it), ...this.#table, lent(command.struct), changed(it));
    return it[0] === 1;
  }

  /* The command was sent, and this message ended its exchange; or null, nothing came. */
  add(command, message, unit = 0) {
    if (message) call('judging_add', changed(this.#it), ...this.#table, lent(command.struct), lent(message.struct), within(unit, 255));
    else call('judging_add_silence', changed(this.#it), ...this.#table, lent(command.struct));
  }

  /* How many events the exchanges show to be aired. */
  get settled() {
    return Number(numbers(this.#it).getBigUint64(8, true));
  }

  copy() {
    const it = new Judge(this.#list);
    it.#it.set(this.#it);
    return it;
  }

  get #table() {
    return [lent(this.#list), BigInt(this.#list.length / 20)];
  }
}
