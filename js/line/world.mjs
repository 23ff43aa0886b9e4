/* A controller, a port and the line between them: what each event does, by docs/PROTOCOL.md, The line, and docs/FORMATS.md, Scripts. Both
 * ends, the reading, the words and the judge are the library's; here bursts are moved. */
import { Controller, Judge, Message, Port, Reader, Reply, idBytes, idText, meaning, timeText } from '../vdcp.mjs';
import { hexOf } from './script.mjs';

const MOST_BYTES = 1024;

/* Rows that only grow: copies share them. */
class Rows {
  constructor(all = [], count = 0) {
    this.all = all;
    this.count = count;
  }

  push(row) {
    if (this.all.length > this.count) this.all = this.all.slice(0, this.count);
    this.all.push(row);
    this.count++;
  }

  copy() {
    return new Rows(this.all, this.count);
  }

  get rows() {
    return this.all.slice(0, this.count);
  }
}

/* A burst's messages, the bytes that these have, and how it ends. */
export function read(burst) {
  const reader = new Reader();
  const got = reader.feed(burst);
  const messages = got.filter(it => it instanceof Message);
  const fault = got.find(it => !(it instanceof Message)) ?? null;
  const held = reader.held;
  const ended = reader.silence();
  return { messages, fault, ended, held, whole: messages.reduce((sum, it) => sum + it.toBytes().length, 0) };
}

/* A message as vdcp shows it: 'unit 0 type 1 code 01 data - = play'. */
export function messageText(message) {
  if (message.kind === 'ack') return 'ack';
  const code = hexOf([message.code]);
  if (message.kind === 'nak') return `nak ${code}`;
  const carried = meaning(message);
  return `unit ${message.unit} type ${message.sort} code ${code} data ${hexOf(message.data) || '-'}${carried ? ` = ${carried}` : ''}`;
}

/* The lines of a burst's reading, without 'clean'. */
export function readingOf(burst) {
  const { messages, fault, ended, held } = read(burst);
  const lines = messages.map(messageText);
  if (fault) lines.push(`fault ${fault.kind} ${fault.place}${fault.kind === 'bad-count' ? ` count ${burst[fault.place - 1]}` : ''}`);
  else if (ended === 'cut') lines.push(`cut ${held}`);
  return lines;
}

/* In a few words what a burst says. */
export function wordsOf(burst) {
  const { messages } = read(burst);
  if (!messages.length) return 'unreadable';
  return messages.map(it => (it.kind === 'framed' ? String(meaning(it) ?? 'other') : messageText(it))).join('; ');
}

const first = burst => new Reader().feed(burst).find(it => it instanceof Message) ?? null;

/* The reply that a controller at this unit hears in a message; null if it is none. */
function replyOf(message, unit) {
  if (message.kind === 'framed' && message.unit !== unit) return null;
  try {
    return Reply.ofMessage(message);
  } catch {
    return null;
  }
}

/* Whether the messages of the bytes are the first ones of another burst's. */
function isBeginning(bytes, other) {
  const { whole } = read(bytes);
  return whole <= other.length && bytes.subarray(0, whole).every((byte, k) => byte === other[k]);
}

const same = (a, b) => a.length === b.length && a.every((byte, k) => byte === b[k]);

/* Whether two items are one: the clip, and the part of it or the whole. */
export function sameItem(a, b) {
  return same(a.id, b.id) && Boolean(a.start) === Boolean(b.start) && (!a.start || (same(a.start, b.start) && same(a.duration, b.duration)));
}

export function itemText({ id, start, duration }) {
  return start ? `${idText(id)} ${timeText(start)} ${timeText(duration)}` : idText(id);
}

/* Which premise of docs/PROOFS.md an event of no such line leaves. */
export const PREMISES = {
  order: 'Order: what comes at all comes in the order in which it was sent.',
  damage: 'Damage shows: damaged bytes never read as a message that was not sent.',
  one: 'One controller: nobody else sends commands to the port.',
  forged: 'No forged answer: nobody but the port answers; in plain mode no noise looks like an ACK.',
};
export const LEAVES = {
  'break-order-down': 'order', 'break-order-up': 'order', 'break-alter-down': 'damage', 'break-alter-up': 'damage',
  'break-send': 'one', 'break-answer': 'forged',
};

let ids = 0;
const burstOf = (bytes, from) => ({ bytes, from, key: ++ids });

export class World {
  /* (of no setup it is one to be filled) */
  constructor(setup) {
    if (!setup) return;
    const { list, clips, confirming = false, late = true, limit = 3, unit = 0, number = 1 } = setup;
    this.list = list;
    this.late = late;
    this.unit = unit;
    this.controller = new Controller(list, { port: number, limit, confirming });
    this.port = new Port(clips, { unit, number });
    this.judge = new Judge(list, { confirming });
    this.down = [];
    this.up = [];
    this.aired = new Rows();
    this.log = new Rows();
    this.told = new Rows();
    this.awaited = null;
    this.allowed = true;
    this.left = null;
    this.events = 0;
    this.did = null;
  }

  copy() {
    const it = Object.assign(new World(null), this);
    for (const part of ['controller', 'port', 'judge', 'aired', 'log', 'told']) it[part] = this[part].copy();
    it.down = this.down.slice();
    it.up = this.up.slice();
    return it;
  }

  /* The event happens; one that can't changes nothing. `did` says what it did, or is null. */
  step(event) {
    this.events++;
    this.did = null;
    const { down, up } = this;
    switch (event.word) {
      case 'tick': return this.#tick();
      case 'down': return this.#deliver(true);
      case 'down-copy': return this.#deliver(false);
      case 'up': return this.#hear(true);
      case 'up-copy': return this.#hear(false);
      case 'lose-down': return this.#lose(down, 'down', event.place ?? 1);
      case 'lose-up': return this.#lose(up, 'up', event.place ?? 1);
      case 'alter-down': return this.canAlter('down', event.bytes) && this.#alter(down, 'down', event.bytes);
      case 'alter-up': return this.canAlter('up', event.bytes) && this.#alter(up, 'up', event.bytes);
      case 'junk-down': return !read(event.bytes).messages.length && this.#add(down, 'down', event.bytes, 'noise');
      case 'junk-up': return this.#isJunkUp(event.bytes) && this.#add(up, 'up', event.bytes, 'noise');
      case 'timeout': return this.canTimeOut && this.#timeOut();
      case 'ready': return this.#clock(() => this.port.finishCue());
      case 'end': return this.#clock(() => this.port.finishClip());
      case 'frame': return this.#clock(() => this.port.frame());
      case 'take': return this.#wish('take');
      case 'stop': return this.#wish('stop');
      case 'server-anew': return this.#restart();
      case 'automation-anew': return this.#resume();
      case 'stray-ack': return this.#stray(Message.ack());
      case 'stray-nak': return this.#stray(Message.nak(event.bytes[0]));
      default: return this.#break(event);
    }
  }

  /* Whether damage may make these bytes of the oldest burst of a way. */
  canAlter(way, bytes) {
    const was = this[way][0]?.bytes ?? null;
    if (this.late && !was) return false;
    if (isBeginning(bytes, was ?? new Uint8Array()) && (this.late || bytes.length <= MOST_BYTES)) return true;
    if (way === 'down') return false;
    if (this.late) return this.#isJunkUp(bytes);
    return this.controller.confirming && bytes.length <= MOST_BYTES && ['ack', 'nak'].includes(first(bytes)?.kind);
  }

  /* Whether a time-out can come now. */
  get canTimeOut() {
    return this.late || (!this.down.length && !this.up.length);
  }

  /* How it ended, in the words of vdcp. */
  get outcome() {
    const { outcome, event } = this.controller;
    if (outcome === null) return 'open';
    return ['missing', 'refused', 'foreign', 'strange'].includes(outcome) ? `${outcome} ${event}` : outcome;
  }

  /* What vdcp sim prints. */
  text(trace) {
    const lines = trace ? this.log.rows.map((it, k) => `${k + 1} ${it}`) : [];
    this.aired.rows.forEach((it, k) => lines.push(`aired ${k} ${itemText(it)}`));
    lines.push(`reported ${this.controller.settled}`, `exchanges ${this.log.count}`, `outcome ${this.outcome}`);
    return lines.map(line => `${line}\n`).join('');
  }

  /* What is wrong with what went to air, or with what is reported of it; null if the headline holds. */
  get fault() {
    const { list, aired } = this;
    const reported = this.controller.settled;
    for (let k = 0; k < aired.count; k++) {
      const item = aired.all[k];
      if (k < list.length && sameItem(item, list[k])) continue;
      const before = aired.all.slice(0, k).some(it => sameItem(it, item));
      const due = k < list.length ? `${itemText(list[k])} was due` : 'the list was through';
      return `${itemText(item)} went to air ${before ? 'again' : 'out of turn'} as number ${k + 1}: ${due}.`;
    }
    if (reported > aired.count) return `Event ${reported - 1}, ${itemText(list[reported - 1])}, is reported as aired, and never was.`;
    if (aired.count > reported + 1) return `${aired.count} went to air, and only ${reported} are reported: more than one is missing from the list.`;
    if (!this.allowed) return 'A command went out that the rule book does not allow.';
    if (this.judge.settled !== reported) return 'The judge counts other events as aired.';
    return null;
  }

  #tick() {
    const command = this.controller.tick();
    if (!command) return;
    this.allowed &&= this.judge.allows(command);
    this.awaited = command;
    const bytes = command.toBytes(this.unit);
    if (!this.late) {
      this.down = [];
      this.up = [];
    }
    this.down.push(burstOf(bytes, 'automation'));
    this.#tell('automation', '->', bytes);
    this.did = { what: 'sent', command };
  }

  #deliver(leaves) {
    const [burst] = this.down;
    if (!burst) return;
    const { bytes, aired } = this.port.answerBurst(burst.bytes);
    if (leaves) this.down.shift();
    this.#tell('server', '<-', burst.bytes);
    if (bytes.length) this.#tell('server', '->', bytes);
    this.did = { what: leaves ? 'delivered' : 'copied', burst: burst.bytes, answer: bytes, aired: null };
    if (aired) this.#air(aired);
    // (the line of one burst each way loses the answer to a copy)
    if (!this.late && leaves) this.up = [];
    if (bytes.length && (this.late || leaves)) this.up.push(burstOf(bytes, 'server'));
  }

  #air({ id, start, duration }) {
    const item = { id: idBytes(id), ...(start && { start, duration }) };
    this.did.aired = item;
    this.told.push({ who: 'server', says: `aired ${this.aired.count} ${itemText(item)}` });
    this.aired.push(item);
  }

  #hear(leaves) {
    const [burst] = this.up;
    if (!burst) return;
    if (leaves) this.up.shift();
    this.#tell('automation', '<-', burst.bytes);
    const message = first(burst.bytes);
    this.did = { what: leaves ? 'heard' : 'heard twice', burst: burst.bytes, counts: false };
    if (message) this.#come(message);
  }

  /* A message comes to the controller, or with null nothing in time; the exchange that it ends is noted. */
  #come(message) {
    const { controller, awaited } = this;
    if (!controller.awaiting) return;
    const before = controller.settled;
    if (message) controller.hear(message, this.unit);
    else controller.timeout();
    if (this.did) this.did.settled = controller.settled - before;
    if (controller.awaiting) return;
    if (this.did) this.did.counts = true;
    const heard = message ? String(replyOf(message, this.unit) ?? 'other') : 'silence';
    this.log.push(`${awaited} -> ${heard}`);
    this.judge.add(awaited, message, this.unit);
    this.awaited = null;
  }

  #lose(queue, way, place) {
    const [burst] = queue.splice(place - 1, 1);
    if (!burst) return;
    this.#note(`${way} lost`, burst.bytes);
    this.did = { what: 'lost', way, burst: burst.bytes };
  }

  #alter(queue, way, bytes) {
    const was = queue[0];
    queue[0] = { ...burstOf(bytes, 'line'), key: was?.key ?? ++ids, hurt: true };
    this.#note(`${way} damaged`, bytes);
    this.did = { what: 'damaged', way, burst: was?.bytes ?? new Uint8Array(), now: bytes };
  }

  #add(queue, way, bytes, what) {
    queue.push({ ...burstOf(bytes, 'line'), hurt: true });
    this.#note(`${way} ${what}`, bytes);
    this.did = { what, way, burst: bytes };
  }

  #timeOut() {
    if (!this.controller.awaiting) return;
    const late = this.down.length + this.up.length;
    this.did = { what: 'timed out', awaited: this.awaited, late };
    this.told.push({ who: 'automation', says: 'time-out' });
    this.#come(null);
  }

  #clock(passes) {
    const before = [this.port.cued, this.port.playing];
    passes();
    const [cued, playing] = [this.port.cued, this.port.playing];
    if (before[0]?.left && !cued?.left) this.did = { what: 'cued', item: cued.id };
    if (before[1] && !playing) this.did = { what: 'ended', item: before[1].id };
    if (!this.did && (cued || playing)) this.did = { what: 'frame' };
  }

  #wish(what) {
    if (this.controller.outcome) return;
    this.controller[what]();
    this.told.push({ who: 'automation', says: `the operator: ${what}` });
    this.did = { what: 'wish', wish: what, holds: this.controller.wishes[what] };
  }

  #restart() {
    if (!this.late) return;
    this.port.restart();
    this.told.push({ who: 'server', says: 'restarted: closed and empty' });
    this.did = { what: 'server anew' };
  }

  #resume() {
    if (!this.late) return;
    this.told.push({ who: 'automation', says: 'killed, and goes on from its journal' });
    this.did = { what: 'automation anew' };
    this.#come(null);
    this.controller.forget();
  }

  #stray(message) {
    if (!this.controller.confirming) return;
    const bytes = message.toBytes();
    this.did = { what: 'stray', burst: bytes, counts: false };
    this.#tell('automation', '<-', bytes);
    this.#come(message);
  }

  #isJunkUp(bytes) {
    const message = first(bytes);
    const reply = message && replyOf(message, this.unit);
    return !reply || reply.word === 'nak' || (reply.word === 'ack' && this.controller.confirming);
  }

  /* What no line of the premises does. */
  #break({ word, bytes }) {
    const way = word.endsWith('-down') ? 'down' : 'up';
    const before = this.did;
    if (word.startsWith('break-order')) {
      const queue = this[way];
      if (!this.late || queue.length < 2) return;
      [queue[0], queue[1]] = [queue[1], queue[0]];
      this.#note(`${way} out of order`, queue[0].bytes);
      this.did = { what: 'reordered', way };
    } else if (word.startsWith('break-alter')) {
      if (!this[way].length || this.canAlter(way, bytes)) return;
      this.#alter(this[way], way, bytes);
    } else if (word === 'break-send') {
      if (!this.late) this.down = [];
      this.#add(this.down, 'down', bytes, 'sent by another');
    } else {
      if (!this.late) this.up = [];
      this.#add(this.up, 'up', bytes, 'forged');
    }
    if (this.did !== before) this.left ??= LEAVES[word];
  }

  #tell(who, arrow, burst) {
    this.told.push({ who, says: arrow, burst });
  }

  #note(what, burst) {
    this.told.push({ who: 'line', says: what, burst });
  }
}

/* The lines of a row of the log, as --log has them at both ends. */
export function linesOf({ who, says, burst }) {
  if (!burst) return [says];
  const lines = readingOf(burst);
  return who === 'line' ? [`${says} ${lines.join('; ') || 'nothing'}`] : lines.map(line => `${says} ${line}`);
}

/* The event that comes next if nothing disturbs the line; null if the automation has ended. */
export function natural(world) {
  const { controller, port } = world;
  if (world.up.length) return { word: 'up' };
  if (world.down.length) return { word: 'down' };
  if (controller.awaiting) return { word: 'timeout' };
  if (controller.outcome) return null;
  if (controller.phase === 'wait' && port.cued?.left) return { word: 'ready' };
  if (['wait', 'drain'].includes(controller.phase) && port.playing && !(controller.wishes.take || controller.wishes.stop)) return { word: 'end' };
  return { word: 'tick' };
}
