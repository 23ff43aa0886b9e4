/* Scripts, of either line: reading and writing them, playlists and catalogues. docs/FORMATS.md has the forms. */
import { idBytes, timeBytes } from '../vdcp.mjs';

const MOST_EVENTS = 100000;
const MOST_LINE = 65536;

/* Why a file is refused, in the words of vdcp: 'line 3: word'. */
export class Refusal extends Error {}

const ALONE = ['tick', 'down', 'up', 'down-copy', 'up-copy', 'lose-down', 'lose-up', 'timeout', 'ready', 'end', 'take', 'stop', 'stray-ack'];
const WITH_BYTES = ['alter-down', 'alter-up'];
const LATE_ALONE = ['server-anew', 'automation-anew'];
const LATE_BYTES = ['junk-down', 'junk-up'];
const ROUND = ['tick', 'down', 'up'];
const REPEATED = { frame: ['frame'], round: ROUND, good: ['timeout', 'ready', 'end', ...ROUND] };

/* What no line of the premises does: vdcp sim refuses these words. */
export const BREAKS = ['break-order-down', 'break-order-up'];
export const BREAKS_BYTES = ['break-alter-down', 'break-alter-up', 'break-send', 'break-answer'];

/* The events of a script. */
export function readScript(text, late) {
  const events = [];
  const lines = text.split('\n');
  if (lines.at(-1) === '') lines.pop();
  const long = lines.findIndex(line => line.length > MOST_LINE || (line.length > MOST_LINE / 4 && new TextEncoder().encode(line).length > MOST_LINE));
  if (long !== -1) throw new Refusal(`line ${long + 1}: long`);
  lines.forEach((line, k) => {
    const ends = k < lines.length - 1 || text.endsWith('\n');
    readLine(ends && line.endsWith('\r') ? line.slice(0, -1) : line, k + 1, late, events);
  });
  return events;
}

function readLine(text, number, late, events) {
  if (text === '' || text.startsWith('#')) return;
  const refuse = fault => {
    throw new Refusal(`line ${number}: ${fault}`);
  };
  const at = text.indexOf(' ');
  const [word, argument] = at === -1 ? [text, null] : [text.slice(0, at), text.slice(at + 1)];
  if (argument?.includes(' ')) refuse('word');
  const count = () => {
    if (argument === null) return 1;
    if (!/^[1-9]\d*$/.test(argument) || Number(argument) > 10000) refuse('number');
    return Number(argument);
  };
  const bytes = () => {
    if (argument === null) refuse('word');
    const hex = /^([0-9a-fA-F]{2})+$/.test(argument) && argument.length <= 2048;
    return hex ? bytesOf(argument) : refuse('hex');
  };
  const add = event => {
    if (events.length >= MOST_EVENTS) throw new Refusal('too many');
    events.push(event);
  };
  if (late && argument !== null && (word === 'lose-down' || word === 'lose-up')) add({ word, place: count() });
  else if ((late && LATE_BYTES.includes(word)) || WITH_BYTES.includes(word) || BREAKS_BYTES.includes(word)) add({ word, bytes: bytes() });
  else if (Object.hasOwn(REPEATED, word)) {
    for (let n = count(); n > 0; n--) REPEATED[word].forEach(it => add({ word: it }));
  } else if (word === 'stray-nak') {
    if (argument === null) refuse('word');
    add(/^[0-9a-f]{2}$/.test(argument) ? { word, bytes: bytesOf(argument) } : refuse('hex'));
  } else if (argument === null && (ALONE.includes(word) || BREAKS.includes(word) || (late && LATE_ALONE.includes(word)))) add({ word });
  else refuse('word');
}

export const bytesOf = hex => Uint8Array.from(hex.match(/../g) ?? [], it => parseInt(it, 16));
export const hexOf = bytes => Array.from(bytes, it => it.toString(16).padStart(2, '0')).join('');

/* The line of an event. */
export function lineOf({ word, bytes, place }) {
  return bytes ? `${word} ${hexOf(bytes)}` : place > 1 ? `${word} ${place}` : word;
}

/* The script of these events: frames, rounds and good rounds are one line each. */
export function writeScript(events) {
  const lines = events.map(lineOf);
  const said = [];
  for (let k = 0; k < lines.length;) {
    const repeated = ['good', 'round', 'frame'].find(it => REPEATED[it].every((word, n) => lines[k + n] === word));
    if (!repeated) {
      said.push(lines[k++]);
      continue;
    }
    let count = 0;
    for (; count < 10000 && REPEATED[repeated].every((word, n) => lines[k + n] === word); count++) k += REPEATED[repeated].length;
    said.push(count === 1 ? repeated : `${repeated} ${count}`);
  }
  return said.map(line => `${line}\n`).join('');
}

/* ---- Lists and catalogues, at 25 frames a second. */

const RATE = 25;

/* The fields of each row of a CSV file. */
function rowsOf(text) {
  const rows = [];
  let row = [''];
  let quoted = false;
  const end = () => {
    if (row.length > 1 || row[0] !== '') rows.push(row);
    row = [''];
  };
  for (let k = text.startsWith('\ufeff') ? 1 : 0; k < text.length; k++) {
    const sign = text[k];
    if (quoted && sign === '"' && text[k + 1] === '"') row[row.length - 1] += text[++k];
    else if (sign === '"' && (quoted || row.at(-1) === '')) quoted = !quoted;
    else if (quoted) row[row.length - 1] += sign;
    else if (sign === ',') row.push('');
    else if (sign === '\n') end();
    else if (sign !== '\r' || text[k + 1] !== '\n') row[row.length - 1] += sign;
  }
  end();
  return rows;
}

/* How many frames a time has. */
function framesOf(text, refuse) {
  if (!/^\d\d:\d\d:\d\d:\d\d$/.test(text)) refuse('time');
  const [hours, minutes, seconds, frames] = text.split(':').map(Number);
  if (hours > 23 || minutes > 59 || seconds > 59 || frames >= RATE) refuse('time');
  return ((hours * 60 + minutes) * 60 + seconds) * RATE + frames;
}

function idOf(text, refuse) {
  try {
    return idBytes(text);
  } catch {
    return refuse('id');
  }
}

const refuses = row => fault => {
  throw new Refusal(`row ${row + 1}: ${fault}`);
};

export function readList(text) {
  const rows = rowsOf(text);
  return rows.map(([id, start, duration], k) => {
    const refuse = refuses(k);
    if (rows[k].length !== rows[0].length || (rows[k].length !== 1 && rows[k].length !== 3)) refuse('columns');
    const item = { id: idOf(id, refuse), name: id };
    if (!start && !duration) return item;
    framesOf(start ?? '', refuse);
    if (framesOf(duration ?? '', refuse) === 0) refuse('time');
    return { ...item, start: timeBytes(start), duration: timeBytes(duration) };
  });
}

export function readCatalogue(text) {
  const ids = new Set();
  return rowsOf(text).map(([id, length, ...more], k) => {
    const refuse = refuses(k);
    if (length === undefined || more.length) refuse('columns');
    const clip = { id: idOf(id, refuse), length };
    if (framesOf(length, refuse) === 0) refuse('time');
    if (ids.has(hexOf(clip.id))) refuse('twice');
    ids.add(hexOf(clip.id));
    return clip;
  });
}
