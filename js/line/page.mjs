/* The page: it shows a world, and gives it the events of the visitor, of a script or of the dice. */
import { Command, is64, load } from '../vdcp.mjs';
import { SCENES } from './scenes.mjs';
import { Refusal, bytesOf, hexOf, readCatalogue, readList, readScript, writeScript } from './script.mjs';
import { LEAVES, PREMISES, World, itemText, linesOf, natural, readingOf, sameItem, wordsOf } from './world.mjs';

const at = id => document.getElementById(id);
const show = (id, text) => {
  if (at(id).textContent !== text) at(id).textContent = text;
};
const isStill = () => matchMedia('(prefers-reduced-motion: reduce)').matches;

/* An element of these classes, with this text and these children. */
function element(tag, classes, text, ...children) {
  const it = document.createElement(tag);
  if (classes) it.className = classes;
  if (text) it.textContent = text;
  it.append(...children);
  return it;
}

/* ---- What happened up to now, and the events that are left of a script. */

const MARK = 64;

class Session {
  constructor(setup, events = []) {
    this.setup = setup;
    this.events = events;
    this.marks = [new World(setup)];
    this.world = this.marks[0].copy();
    this.at = 0;
  }

  /* The next event of the script, or the one that was stepped back over. */
  forward() {
    if (this.at === this.events.length) return false;
    this.world.step(this.events[this.at++]);
    if (this.at % MARK === 0) this.marks[this.at / MARK] ??= this.world.copy();
    return true;
  }

  /* This event happens here, and what was left is dropped. */
  happen(event) {
    this.events.length = this.at;
    this.marks.length = Math.floor(this.at / MARK) + 1;
    this.events.push(event);
    this.forward();
  }

  goTo(place) {
    const mark = Math.floor(place / MARK);
    this.world = this.marks[mark].copy();
    this.at = mark * MARK;
    while (this.at < place) this.forward();
  }

  get done() {
    return this.events.slice(0, this.at);
  }

  get left() {
    return this.events.length - this.at;
  }
}

/* ---- Dice. */

/* Numbers below 1 that a seed gives (xorshift). */
function diceOf(seed) {
  let x = (seed >>> 0) || 1;
  return () => {
    x ^= x << 13;
    x ^= x >>> 17;
    x ^= x << 5;
    return (x >>> 0) / 2 ** 32;
  };
}

/* The event that dice throw: mostly what comes next undisturbed. All of them are within the premises. */
function thrown(world, roll, chance = 0.35) {
  if (roll() >= chance) return natural(world);
  const ways = ['down', 'up'].filter(way => world[way].length);
  const way = ways[Math.floor(roll() * ways.length)];
  const kinds = way ? ['lose', 'copy', 'cut', 'hurt', 'wait'] : ['wait', 'wait', 'frame', 'clock'];
  if (world.late && roll() < 0.08) return { word: roll() < 0.5 ? 'server-anew' : 'automation-anew' };
  if (world.controller.confirming && roll() < 0.1) return { word: 'stray-ack' };
  const bytes = way && world[way][0].bytes;
  switch (kinds[Math.floor(roll() * kinds.length)]) {
    case 'lose': return { word: `lose-${way}` };
    case 'copy': return { word: `${way}-copy` };
    case 'cut': return bytes.length > 1 ? { word: `alter-${way}`, bytes: bytes.slice(0, 1 + Math.floor(roll() * (bytes.length - 1))) } : { word: `lose-${way}` };
    case 'hurt': {
      const hurt = bytes.slice();
      hurt[Math.floor(roll() * hurt.length)] ^= 1 << Math.floor(roll() * 8);
      return world.canAlter(way, hurt) ? { word: `alter-${way}`, bytes: hurt } : { word: `lose-${way}` };
    }
    case 'wait': return world.canTimeOut && world.controller.awaiting ? { word: 'timeout' } : natural(world);
    case 'frame': return { word: 'frame' };
    default: return { word: roll() < 0.5 ? 'ready' : 'end' };
  }
}

/* ---- In words. */

const DOES = {
  open: () => 'asks for the port', select: () => 'selects the port', seen: () => 'asks whether the port is selected', exists: it => `asks whether the server has ${it}`,
  cue: it => `has ${it} cued`, wait: it => `waits until ${it} is ready`, play: it => `plays ${it}`, probe: it => `finds out whether ${it} aired`,
  check: () => 'asks what is on the air', drain: () => 'waits until the last clip has ended', close: () => 'closes the port', halt: () => 'stops what airs', 'halt-close': () => 'closes the port',
};
const ENDS = {
  done: 'The list is through: all of it aired, and all of it is reported.', stopped: 'The operator has stopped it.', lost: 'Too many exchanges in a row had no answer, so it gives up. What it reported stays true.',
  denied: 'The port was not granted.', missing: 'The server does not have the next clip.', refused: 'The server refused the next event.', foreign: 'Another clip is on the air.', strange: 'A state came that does not fit.',
};
const NEXT = {
  open: () => 'Next it asks for the port.', select: () => 'Next it selects the port.', seen: () => 'Next it asks whether the port is selected.',
  exists: it => `Next it asks whether the server has ${it}.`, cue: it => `Next it has ${it} cued.`,
  wait: it => `It asks for the state until ${it} is ready and nothing else airs.`, play: it => `${it} is ready: next it sends PLAY.`,
  probe: it => `Did PLAY get lost, or only its answer? The automation cannot know, so it does not repeat PLAY. It asks for the state: if the cue is gone, ${it} aired; if it is still there, PLAY never came.`,
  check: it => `${it} is reported as aired. Next it asks what is on the air.`, drain: () => 'All is reported. It waits until the last clip has ended.',
  close: () => 'Next it closes the port.', halt: () => 'Next it stops what airs.', 'halt-close': () => 'Next it closes the port.',
};
const DAMAGED = 'unreadable';

function eventOf(world) {
  const item = world.list[world.controller.event];
  return item ? itemText(item).split(' ')[0] : 'nothing';
}

const GLOSSES = {
  open: 'may I have the port?', close: 'I am through', select: 'I mean this port', cue: 'make this clip ready', 'cue-data': 'make this part ready', play: 'put it on the air', stop: 'stop all',
  status: 'what is your state?', active: 'what is on the air?', exists: 'do you have this clip?', size: 'how long is this clip?', ack: 'yes', nak: 'no', granted: 'you have it', denied: 'you may not',
  present: 'I have it', absent: 'I do not have it', 'active none': 'nothing is on the air', 'state 01': 'nothing is cued, nothing airs', 'state 02': 'the cue is not ready yet', 'state 04': 'a clip airs, nothing is cued',
  'state 06': 'a clip airs, the cue is not ready yet', 'state 80': 'a cue is ready, nothing airs', 'state 84': 'a clip airs, a cue is ready',
};

/* The same in plain words. */
function glossOf(words) {
  const [word] = words.split(' ');
  return GLOSSES[words] ?? (word === 'active' && words !== word ? 'this is on the air' : GLOSSES[word]) ?? '';
}

/* What the last event did. */
function didText({ did, events }) {
  if (!events) return 'A new channel: the port is closed, and nothing is on the way.';
  if (!did) return 'Nothing happened: that cannot happen now.';
  const whom = did.way === 'up' ? 'the automation' : 'the server';
  const words = did.burst && wordsOf(did.burst);
  switch (did.what) {
    case 'sent': return `The automation sends “${did.command}”.`;
    case 'delivered':
    case 'copied': {
      const airs = did.aired ? ` It puts ${itemText(did.aired)} on the air.` : '';
      const answers = did.answer.length ? ` It answers “${wordsOf(did.answer)}”.` : ' It answers nothing.';
      return `The server gets ${did.what === 'copied' ? 'a copy of ' : ''}“${words}”.${airs}${answers}`;
    }
    case 'heard':
    case 'heard twice': return `The automation hears “${words}”${did.what === 'heard' ? '' : ', and it comes once more'}.${did.counts ? '' : ' That does not end its wait.'}`;
    case 'lost': return `“${words}” is lost on its way to ${whom}.`;
    case 'damaged': {
      const now = wordsOf(did.now);
      return `“${words}” is damaged on its way to ${whom}: ${now === DAMAGED ? 'it cannot be read now' : `it reads as “${now}” now`}.`;
    }
    case 'noise': return `Noise comes in on the way to ${whom}.`;
    case 'timed out': return `Nothing came in time for “${did.awaited}”.${did.late ? ' What is on the way may still come.' : ''}`;
    case 'cued': return `The server has ${did.item} ready.`;
    case 'ended': return `${did.item} has ended.`;
    case 'frame': return 'A frame passes.';
    case 'wish': return did.wish === 'take' ? 'The operator wants the next event at once.' : did.holds ? 'The operator wants to stop.' : 'Too late to stop: it closes already.';
    case 'server anew': return 'The server was restarted: its port is closed and empty.';
    case 'automation anew': return 'The automation was killed, and goes on from its journal.';
    case 'stray': return `Noise looks like “${words}” to the automation.${did.counts ? '' : ' In confirm mode it trusts no receipt.'}`;
    case 'reordered': return `Two bursts changed places on the way to ${whom}.`;
    case 'sent by another': return `Another automation sends “${words}”.`;
    default: return `An answer is forged: “${words}”.`;
  }
}

/* What the automation does next, and why. */
function nextText(world) {
  const { controller, awaited, aired } = world;
  if (controller.outcome) return ENDS[controller.outcome];
  const item = eventOf(world);
  if (!controller.awaiting) return NEXT[controller.phase](item);
  if (controller.phase === 'play') return `${aired.count > controller.settled ? `${item} is on the air. The automation does not know it` : 'The automation does not know whether it airs'}: it awaits the answer.`;
  if (controller.phase === 'probe') return `It asks instead of repeating: if the cue is gone, ${item} aired; if it is still there, PLAY never came.`;
  return `It awaits the answer to “${awaited}”.`;
}

const PREMISE = premise => PREMISES[premise];

function verdictOf(world) {
  const { fault, left, aired, controller } = world;
  const counts = `${aired.count} aired, ${controller.settled} reported`;
  const premise = left ? ` A premise was left. ${PREMISE(left)}` : '';
  if (fault) return { sign: '✗', kind: 'bad', text: `The promise is broken: ${counts}.`, why: fault + premise };
  const holds = aired.count === controller.settled
    ? 'What aired is the beginning of the list, in order, each event once; the report has all of it.'
    : 'What aired is the beginning of the list, in order, each event once; the report lacks the last one, of which the automation cannot know yet.';
  if (left) return { sign: '!', kind: 'left', text: `Not promised any more, but so far true: ${counts}.`, why: premise.trim() };
  return { sign: '✓', kind: 'good', text: `The promise holds: ${counts}.`, why: aired.count ? holds : 'Nothing has gone to air yet, and nothing is reported.' };
}

/* ---- What is shown, as plain data. */

function burstView({ bytes, from, key, hurt }) {
  const words = wordsOf(bytes);
  return { key, words, gloss: glossOf(words), bytes: hexOf(bytes), hurt: Boolean(hurt), from };
}

function viewOf(world) {
  const { controller, port, list, aired, late, down, up } = world;
  const slot = it => (it ? { item: it.id, left: it.left } : null);
  const ended = controller.outcome !== null;
  const order = late && 'needs two on the way';
  return {
    did: didText(world), next: nextText(world), verdict: verdictOf(world), gone: goneOf(world.did),
    does: ended ? `has ended: ${world.outcome}` : DOES[controller.phase](eventOf(world)), phase: controller.phase,
    awaits: controller.awaiting ? `the answer to “${world.awaited}”` : 'nothing',
    unanswered: `${controller.unanswered} of ${controller.limit}${controller.wishes.take ? '; take is wished' : ''}${controller.wishes.stop ? '; stop is wished' : ''}`,
    list: list.map((it, k) => ({ text: itemText(it), reported: k < controller.settled, now: !ended && k === controller.event && k >= controller.settled })),
    access: port.access, playing: slot(port.playing), cued: slot(port.cued),
    aired: aired.rows.map((it, k) => ({ text: itemText(it), fits: k < list.length && sameItem(it, list[k]), reported: k < controller.settled })),
    down: down.map(burstView), up: up.map(burstView), told: world.told.count,
    can: {
      down: down.length > 0, 'down-copy': down.length > 0, 'lose-down': down.length > 0, 'cut-down': down.length > 0 && down[0].bytes.length > 1, 'alter-down': down.length > 0 || !late,
      up: up.length > 0, 'up-copy': up.length > 0, 'lose-up': up.length > 0, 'cut-up': up.length > 0 && up[0].bytes.length > 1, 'alter-up': up.length > 0 || !late,
      tick: !controller.awaiting && !ended, timeout: controller.awaiting && world.canTimeOut, 'stray-ack': !ended,
      ready: Boolean(port.cued?.left), end: Boolean(port.playing), frame: Boolean(port.cued?.left || port.playing),
      take: !ended, stop: !ended, 'automation-anew': late && !ended, 'server-anew': late,
      'break-send': true, 'break-answer': true, 'break-order-up': Boolean(order) && up.length > 1, 'break-order-down': Boolean(order) && down.length > 1,
      'break-alter-up': up.length > 0, 'break-alter-down': down.length > 0,
    },
  };
}

/* Where to a card goes that is gone. */
function goneOf(did) {
  if (!did) return 'fades';
  return { delivered: 'arrives', heard: 'arrives', lost: 'falls' }[did.what] ?? 'fades';
}

/* ---- Drawing. */

const chosen = { down: 1, up: 1 };

function drawRows(id, rows, none) {
  at(id).replaceChildren(...(rows.length ? rows : [element('li', 'none', none)]));
}

function rowOf({ mark, text, note, classes }) {
  return element('li', classes, '', element('span', 'mark', mark), element('span', '', text), element('small', '', note));
}

function drawSlot(id, slot) {
  show(id, slot ? `${slot.item}${id === 'cued' ? (slot.left ? `, being cued: ${frames(slot.left)}` : ', ready') : `, ${frames(slot.left)} left`}` : 'nothing');
}

const frames = count => `${count} frame${count === 1 ? '' : 's'}`;

function drawCards(way, bursts, gone) {
  const box = at(way);
  const old = new Map([...box.children].map(it => [it.dataset.key, it]));
  const there = way === 'down' ? 1 : -1;
  const cards = bursts.map((burst, k) => {
    const card = old.get(String(burst.key)) ?? cardOf(way, burst, there);
    old.delete(String(burst.key));
    card.className = `card${burst.hurt ? ' hurt' : ''}${k + 1 === chosen[way] ? ' chosen' : ''}`;
    card.querySelector('strong').textContent = burst.words;
    card.querySelector('.gloss').textContent = burst.gloss;
    card.querySelector('.bytes').textContent = burst.bytes;
    card.querySelector('.tag').textContent = burst.hurt ? (burst.from === 'line' ? '⚡ not as it was sent' : '⚡') : '';
    card.setAttribute('aria-label', `${burst.words}, place ${k + 1} on the way to ${way === 'down' ? 'the server' : 'the automation'}${burst.hurt ? ', not as it was sent' : ''}`);
    card.setAttribute('aria-pressed', String(k + 1 === chosen[way]));
    return card;
  });
  for (const card of old.values()) leave(card, gone, there);
  box.replaceChildren(...cards);
}

function cardOf(way, burst, there) {
  const card = element('button', 'card', '', element('strong'), element('span', 'gloss'), element('span', 'bytes'), element('span', 'tag'));
  card.type = 'button';
  card.dataset.key = burst.key;
  card.dataset.way = way;
  if (!isStill()) card.animate([{ transform: `translateX(${-there * 9}rem)`, opacity: 0 }, { transform: 'none', opacity: 1 }], { duration: 350, easing: 'ease-out' });
  return card;
}

/* A card that is gone is seen to go. */
function leave(card, gone, there) {
  if (isStill()) return;
  const from = card.getBoundingClientRect();
  const ghost = card.cloneNode(true);
  ghost.setAttribute('aria-hidden', 'true');
  ghost.inert = true;
  Object.assign(ghost.style, { position: 'fixed', left: `${from.left}px`, top: `${from.top}px`, width: `${from.width}px`, zIndex: 3, pointerEvents: 'none' });
  document.body.append(ghost);
  const to = { arrives: `translateX(${there * 12}rem)`, falls: 'translateY(7rem) rotate(12deg)', fades: 'scale(.8)' }[gone];
  ghost.animate([{ transform: 'none', opacity: 1 }, { transform: to, opacity: 0 }], { duration: 450, easing: 'ease-in' }).finished.finally(() => ghost.remove());
}

const LAST_ROWS = 200;

const loggedOf = rows => rows.map(row => ({ who: row.who, lines: linesOf(row) }));

function drawLog(rows) {
  const box = at('log-box');
  at('log').replaceChildren(...rows.flatMap(({ who, lines }) => lines.map(text => {
    const cells = ['automation', 'line', 'server'].map(it => element('td', '', it === who ? text : ''));
    return element('tr', '', '', ...cells);
  })));
  box.scrollTop = box.scrollHeight;
}

function draw(view, rows) {
  show('caption-did', view.did);
  show('caption-next', view.next);
  at('verdict').className = view.verdict.kind;
  show('verdict-sign', view.verdict.sign);
  show('verdict-text', view.verdict.text);
  show('verdict-why', view.verdict.why);
  show('phase', view.does);
  show('awaits', view.awaits);
  show('unanswered', view.unanswered);
  drawRows('asrun', view.list.map(it => rowOf({
    mark: it.reported ? '✓' : it.now ? '▸' : '', text: it.text, note: it.reported ? 'reported' : it.now ? 'its turn' : '', classes: it.reported ? 'new' : it.now ? 'now' : '',
  })), 'an empty list');
  show('access', view.access);
  show('air-sign', view.playing ? '● on air' : '');
  drawSlot('playing', view.playing);
  drawSlot('cued', view.cued);
  drawRows('aired', view.aired.map((it, k) => rowOf({
    mark: it.fits ? String(k + 1) : '✗', text: it.text, note: it.fits ? (it.reported ? 'reported' : 'not reported yet') : 'not its turn', classes: it.fits ? 'new' : 'wrong',
  })), 'nothing yet');
  for (const way of ['down', 'up']) {
    chosen[way] = Math.max(1, Math.min(chosen[way], view[way].length));
    drawCards(way, view[way], view.gone);
  }
  for (const button of document.querySelectorAll('[data-do]')) button.disabled = !view.can?.[button.dataset.do];
  drawLog(rows);
}

/* ---- The visitor. */

let session = null;
let scene = null;
let timer = null;
let roll = null;
let recorded = null;

function redraw() {
  if (recorded) {
    const { views, told } = CARRIED.recorded;
    const view = { ...views[recorded.at], can: {} };
    draw(view, told.slice(0, view.told).slice(-LAST_ROWS));
    show('place', `event ${recorded.at} of ${views.length - 1}`);
    at('back').disabled = recorded.at === 0;
    at('forward').disabled = recorded.at === views.length - 1;
    return;
  }
  const { world } = session;
  draw(viewOf(world), loggedOf(world.told.rows.slice(-LAST_ROWS)));
  const over = session.left === 0 && !natural(world);
  show('place', session.left ? `event ${session.at} of ${session.events.length}` : `event ${session.at}`);
  at('back').disabled = session.at === 0;
  at('forward').disabled = over;
  at('play').disabled = over && !timer;
  show('done', writeScript(session.done.slice(-2000)));
  show('command', commandText());
  if (scene) show('scene-text', session.at >= scene.ends && session.done.length === scene.ends ? scene.end : session.at <= scene.begin ? scene.text : at('scene-text').textContent);
}

function commandText() {
  const { late, limit, confirming } = session.setup;
  if (session.world.left) return 'No line of the premises does this, so vdcp sim refuses the words that begin with “break-”.';
  if (late) return 'This page alone plays scripts of a line that may be late; those of one burst each way vdcp sim plays, too.';
  const words = ['vdcp sim PLAYLIST CATALOGUE SCRIPT', confirming && '--confirm', limit !== 3 && `--limit ${limit}`].filter(Boolean).join(' ');
  return `${words} says the same.`;
}

function pause() {
  clearTimeout(timer);
  timer = null;
  show('play', '▶ Watch');
}

/* What happens is brought into view, on a small screen too. */
function look() {
  const { top, bottom } = at('caption').getBoundingClientRect();
  if (top < 0 || bottom > innerHeight * 0.8) at('caption').scrollIntoView({ block: 'start', behavior: isStill() ? 'auto' : 'smooth' });
}

const eventsASecond = () => 0.25 * 200 ** (Number(at('speed').value) / 100);

function watch() {
  show('play', '⏸ Pause');
  timer = setTimeout(() => {
    const left = session?.left;
    if (!forward() || left === 1) pause();
    else watch();
    if (!recorded) redraw();
  }, 1000 / eventsASecond());
}

/* The next event: that of the script, or of the dice, or what comes undisturbed. */
function forward() {
  if (recorded) {
    if (recorded.at === CARRIED.recorded.views.length - 1) return false;
    recorded.at++;
    redraw();
    return true;
  }
  if (session.left) session.forward();
  else {
    const event = roll && natural(session.world) ? thrown(session.world, roll) : natural(session.world);
    if (!event) return false;
    session.happen(event);
  }
  redraw();
  return true;
}

function back() {
  pause();
  if (recorded) recorded.at = Math.max(0, recorded.at - 1);
  else if (session.at) session.goTo(session.at - 1);
  redraw();
}

function happen(event) {
  pause();
  session.happen(event);
  redraw();
}

/* What the button or the key of this name does. */
async function does(name) {
  if (document.querySelector(`[data-do="${name}"]`)?.disabled) return;
  const { world } = session;
  const way = name.endsWith('-down') ? 'down' : 'up';
  if (name === 'lose-down' || name === 'lose-up') happen({ word: name, ...(world.late && chosen[way] > 1 && { place: chosen[way] }) });
  else if (name.startsWith('cut-')) cut(way);
  else if (name.startsWith('alter-') || name.startsWith('break-') || (name === 'stray-ack' && !world.controller.confirming)) await ask(name, way);
  else happen({ word: name });
}

/* Half of the oldest burst is cut off. */
function cut(way) {
  const { bytes } = session.world[way][0];
  happen({ word: `alter-${way}`, bytes: bytes.slice(0, Math.ceil(bytes.length / 2)) });
}

const hexByte = text => /^([0-9a-f]{2}\s*){1,1024}$/i.test(text.trim()) && bytesOf(text.replace(/\s/g, ''));
const commandBytes = text => hexOf(Command.ofText(text).toBytes());

/* What one may send, forge or make of a burst, ready made. */
function readyMade(name, way) {
  const { world } = session;
  if (name === 'break-send') {
    const cue = world.list.length ? [[`cue ${itemText(world.list[0]).split(' ')[0]}`]] : [];
    return [['play'], ...cue, ['stop']].map(([text]) => [text, commandBytes(text)]);
  }
  if (name === 'break-answer' || name === 'stray-ack') return [['ack', '04'], ['nak 01', '0501'], ['state 04', PLAYS]];
  const bytes = world[way][0]?.bytes ?? Uint8Array.of(0xff);
  if (name.startsWith('break-')) return way === 'down' ? [['play', commandBytes('play')], ['stop', commandBytes('stop')]] : [['state 04', PLAYS]];
  const wrong = bytes.slice();
  wrong[wrong.length - 1] ^= 0x01;
  return [['a wrong last byte', hexOf(wrong)], ['junk', 'ff']];
}

/* The answer to STATUS that a clip plays and nothing is cued. */
const PLAYS = '02043085010446';

const TITLES = {
  'alter-down': 'Damage the command', 'alter-up': 'Damage the answer', 'break-send': 'Another automation sends', 'break-answer': 'Forge an answer', 'stray-ack': 'Noise looks like an ACK',
  'break-order-up': 'Swap two answers', 'break-order-down': 'Swap two commands', 'break-alter-up': 'Damage an answer unseen', 'break-alter-down': 'Damage a command unseen',
};

/* The event that the dialog is about, with the bytes that stand in it; null if they are none. */
function eventAsked(name, way) {
  if (name.startsWith('break-order')) return { word: name };
  const bytes = hexByte(at('ask-bytes').value);
  if (!bytes) return null;
  if (name === 'break-send' || name === 'break-answer') return { word: name, bytes };
  if (name === 'stray-ack') return { word: 'break-answer', bytes };
  return { word: `${session.world.canAlter(way, bytes) ? 'alter' : 'break-alter'}-${way}`, bytes };
}

/* Asks for bytes, and says before which premise is left. */
async function ask(name, way) {
  pause();
  const dialog = at('ask');
  const hasBytes = !name.startsWith('break-order');
  show('ask-title', TITLES[name]);
  at('ask-bytes').hidden = at('ask-label').hidden = !hasBytes;
  const ready = hasBytes ? readyMade(name, way) : [];
  at('ask-bytes').value = name.startsWith('alter') ? hexOf(session.world[way][0]?.bytes ?? Uint8Array.of(0xff)) : (ready[0]?.[1] ?? '');
  at('ask-ready').replaceChildren(...ready.map(([text, hex]) => {
    const button = element('button', '', text);
    button.type = 'button';
    button.onclick = () => {
      at('ask-bytes').value = hex;
      judge();
    };
    return button;
  }));
  const judge = () => {
    const event = eventAsked(name, way);
    const premise = event && LEAVES[event.word];
    dialog.className = premise ? 'excluded' : '';
    show('ask-text', premise ? `This leaves a premise. ${PREMISE(premise)} From here on nothing is promised, and vdcp sim has no word for it.` : 'The line can do this.');
    show('ask-reading', !event ? 'These are no bytes in hexadecimal digits.' : event.bytes ? `It reads as: ${readingOf(event.bytes).join('; ') || 'nothing'}` : '');
    show('ask-yes', premise ? 'Leave the premise and do it' : 'Do it');
    at('ask-yes').disabled = !event;
  };
  at('ask-bytes').oninput = judge;
  judge();
  dialog.returnValue = '';
  dialog.showModal();
  await new Promise(resolve => dialog.addEventListener('close', resolve, { once: true }));
  const event = eventAsked(name, way);
  if (dialog.returnValue === 'yes' && event) happen(event);
}

/* ---- Scenes, scripts and settings. */

function setupNow() {
  const list = readList(at('list').value);
  const limit = Number(at('limit').value);
  if (!Number.isInteger(limit) || limit < 1 || limit > 1000) throw new Refusal('the limit is 1 to 1000');
  return { list, clips: readCatalogue(at('catalogue').value), confirming: at('mode').value === 'confirm', late: at('late').value === 'late', limit };
}

/* Begins anew with the settings, and with the events of a script. */
function begin(text = '', first = 0) {
  pause();
  const setup = setupNow();
  session = new Session(setup, readScript(text, setup.late));
  session.goTo(Math.min(first, session.events.length));
  chosen.down = chosen.up = 1;
}

function openScene(it) {
  at('mode').value = it.confirming ? 'confirm' : 'plain';
  at('late').value = 'late';
  at('limit').value = 3;
  at('list').value = CARRIED.examples['playlist.csv'];
  at('catalogue').value = CARRIED.examples['catalogue.csv'];
  begin(it.script ?? CARRIED.examples[it.example], it.begin);
  scene = { ...it, ends: session.events.length };
  show('scene-title', it.title);
  show('scene-text', it.text);
  for (const button of at('scenes').children) button.setAttribute('aria-pressed', String(button.dataset.name === it.name));
  show('refused', '');
  redraw();
}

function leaveScene(title, text) {
  scene = null;
  show('scene-title', title);
  show('scene-text', text);
  for (const button of at('scenes').children) button.setAttribute('aria-pressed', 'false');
}

/* Plays a text as a script from the beginning; a refused one leaves all as it is. */
function playScript(text) {
  try {
    begin(text);
  } catch (error) {
    if (!(error instanceof Refusal)) throw error;
    show('refused', `vdcp: SCRIPT: ${error.message}`);
    return false;
  }
  show('refused', '');
  leaveScene('Your script', `It has ${session.events.length} events. Watch them, or step on.`);
  redraw();
  return true;
}

/* A new run for the visitor's own hand. */
function beginAnew() {
  try {
    begin();
  } catch (error) {
    if (!(error instanceof Refusal)) throw error;
    show('settings-fault', error.message);
    return;
  }
  show('settings-fault', '');
  leaveScene('Your own run', 'Do what you like to the line. “Step on” does what comes next if nothing disturbs it.');
  redraw();
}

/* Opens what the address names: a scene, or a script with its settings. */
function openAddress() {
  const words = new URLSearchParams(location.hash.slice(1));
  const named = SCENES.find(it => it.name === words.get('scene'));
  if (named || !words.has('script')) return openScene(named ?? SCENES[0]);
  openScene(SCENES[0]);
  at('mode').value = words.get('mode') === 'confirm' ? 'confirm' : 'plain';
  at('late').value = words.get('line') === 'once' ? 'once' : 'late';
  if (/^\d+$/.test(words.get('limit') ?? '')) at('limit').value = words.get('limit');
  if (words.has('list')) at('list').value = words.get('list');
  if (words.has('catalogue')) at('catalogue').value = words.get('catalogue');
  at('script').value = words.get('script').replaceAll(',', '\n');
  if (playScript(at('script').value)) {
    session.goTo(Math.min(Number(words.get('at')) || 0, session.events.length));
    redraw();
  }
}

function addressOf() {
  const { confirming, late, limit } = session.setup;
  const words = new URLSearchParams({ script: writeScript(session.done).trimEnd().replaceAll('\n', ',') });
  if (confirming) words.set('mode', 'confirm');
  if (!late) words.set('line', 'once');
  if (limit !== 3) words.set('limit', limit);
  if (at('list').value !== CARRIED.examples['playlist.csv']) words.set('list', at('list').value);
  if (at('catalogue').value !== CARRIED.examples['catalogue.csv']) words.set('catalogue', at('catalogue').value);
  return `${location.href.split('#')[0]}#${words}`;
}

async function copyText(text) {
  try {
    await navigator.clipboard.writeText(text);
    show('copied', 'copied');
  } catch {
    show('copied', 'the browser does not let the page copy: mark the text');
    getSelection().selectAllChildren(at('done'));
  }
}

const KEYS = {
  d: 'down', D: 'down-copy', u: 'up', U: 'up-copy', l: 'lose-down', y: 'lose-up', c: 'cut-down', v: 'cut-up', b: 'alter-down', n: 'alter-up', m: 'tick', o: 'timeout',
  q: 'ready', w: 'end', f: 'frame', t: 'take', s: 'stop', r: 'server-anew', k: 'automation-anew', a: 'stray-ack',
};

function onKey(event) {
  if (event.ctrlKey || event.altKey || event.metaKey || at('ask').open || event.target.closest('input, textarea, select')) return;
  const { key } = event;
  if (key === 'ArrowLeft') back();
  else if (key === 'ArrowRight') {
    pause();
    forward();
  } else if (key === 'p') at('play').click();
  else if (recorded) return;
  else if (key === 'g') {
    const next = natural(session.world);
    if (next) happen(next);
  } else if (key === 'e') at('dice').click();
  else if (KEYS[key]) does(KEYS[key]);
  else return;
  event.preventDefault();
}

/* A card follows the finger: at its end of the line it is delivered, off its lane it is lost. */
function drags(way) {
  const box = at(way);
  let from = null;
  const place = card => [...box.children].indexOf(card) + 1;
  box.addEventListener('pointerdown', event => {
    const card = event.target.closest('.card');
    if (!card || recorded) return;
    from = { x: event.clientX, y: event.clientY, card };
    card.setPointerCapture(event.pointerId);
  });
  box.addEventListener('pointermove', event => {
    if (from) from.card.style.transform = `translate(${event.clientX - from.x}px, ${event.clientY - from.y}px)`;
  });
  const end = event => {
    if (!from) return;
    const { card, x, y } = from;
    const [dx, dy] = [(event.clientX - x) * (way === 'down' ? 1 : -1), Math.abs(event.clientY - y)];
    from = null;
    card.style.transform = '';
    chosen[way] = place(card);
    if (event.type === 'pointercancel') return;
    if (dy > 60) does(`lose-${way}`);
    else if (dx > 60 && chosen[way] === 1) does(way);
    else redraw();
  };
  box.addEventListener('pointerup', end);
  box.addEventListener('pointercancel', end);
  box.addEventListener('click', event => {
    const card = event.target.closest('.card');
    if (card && !recorded) {
      chosen[way] = place(card);
      redraw();
    }
  });
}

function listen() {
  at('play').onclick = () => {
    look();
    if (timer) pause();
    else watch();
  };
  at('back').onclick = () => {
    look();
    back();
  };
  at('forward').onclick = () => {
    look();
    pause();
    forward();
  };
  at('speed').oninput = () => at('speed').setAttribute('aria-valuetext', `${eventsASecond().toFixed(1)} events a second`);
  document.addEventListener('keydown', onKey);
  if (recorded) return;
  at('dice').onclick = () => {
    roll = roll ? null : diceOf(crypto.getRandomValues(new Uint32Array(1))[0]);
    at('dice').setAttribute('aria-pressed', String(Boolean(roll)));
    if (roll) {
      session.events.length = session.at;
      if (!natural(session.world)) beginAnew();
      else leaveScene('Dice', 'They lose, copy, cut, damage and delay what is sent, and restart both ends. Watch the promise.');
      redraw();
    }
  };
  for (const button of document.querySelectorAll('[data-do]')) button.onclick = () => does(button.dataset.do);
  at('load').onclick = () => playScript(at('script').value);
  at('examples').onchange = () => {
    const name = at('examples').value;
    if (!name) return;
    at('late').value = name === 'late.txt' ? 'late' : 'once';
    at('mode').value = 'plain';
    at('script').value = CARRIED.examples[name];
    playScript(at('script').value);
  };
  at('copy').onclick = () => copyText(writeScript(session.done));
  at('link').onclick = () => copyText(addressOf());
  at('anew').onclick = beginAnew;
  drags('down');
  drags('up');
  addEventListener('hashchange', openAddress);
}

function fill() {
  at('scenes').replaceChildren(...SCENES.map(it => {
    const button = element('button', '', it.title);
    button.dataset.name = it.name;
    button.disabled = Boolean(recorded);
    button.onclick = () => openScene(it);
    return button;
  }));
  at('examples').replaceChildren(element('option', '', 'one of examples/'), ...Object.keys(CARRIED.examples).filter(it => it.endsWith('.txt')).map(it => element('option', '', it)));
  at('examples').firstChild.value = '';
}

/* A browser without 64-bit memories shows what was recorded of the first scene. */
function playRecorded() {
  recorded = { at: 0 };
  at('no-memories').hidden = false;
  show('no-memories', 'This browser has no 64-bit memories, which the proved code needs (Chromium has them from 133, Firefox from 134). So this is a recorded run: you can watch it and step through it, but change nothing.');
  fill();
  show('scene-title', SCENES[0].title);
  show('scene-text', SCENES[0].text);
  for (const id of ['dice', 'load', 'copy', 'link', 'anew', 'examples']) at(id).disabled = true;
  listen();
  redraw();
}

/* What tests and the curious call: the page's own engine, without its pictures. */
const line = {
  /* What vdcp sim prints of a script, or its fault. */
  sim(text, { list, catalogue, trace = true, ...more }) {
    try {
      const world = new World({ list: readList(list), clips: readCatalogue(catalogue), ...more });
      for (const event of readScript(text, world.late)) {
        world.step(event);
        if (world.fault) return `broken: ${world.fault}`;
      }
      return world.text(trace);
    } catch (error) {
      if (!(error instanceof Refusal)) throw error;
      return error.message;
    }
  },
  /* Plays a list with dice: how it ended, its script, and what broke. */
  dice(seed, { list, catalogue, most = 3000, ...more }) {
    const world = new World({ list: readList(list), clips: readCatalogue(catalogue), ...more });
    const next = diceOf(seed);
    const events = [];
    while (natural(world) && events.length < most) {
      const event = thrown(world, next);
      events.push(event);
      world.step(event);
      if (world.fault || world.left) return { broken: world.fault ?? world.left, script: writeScript(events) };
    }
    return { broken: null, script: writeScript(events), text: world.text(true), outcome: world.outcome };
  },
  /* The first scene, event by event, as a browser without 64-bit memories shows it. */
  record() {
    const it = new Session({ list: readList(CARRIED.examples['playlist.csv']), clips: readCatalogue(CARRIED.examples['catalogue.csv']) }, readScript(SCENES[0].script, true));
    it.goTo(SCENES[0].begin);
    const first = it.world.down.concat(it.world.up)[0].key - 1;
    const viewNow = () => {
      const { can, ...view } = viewOf(it.world);
      for (const burst of [...view.down, ...view.up]) burst.key -= first;
      return view;
    };
    const views = [viewNow()];
    while (it.forward()) views.push(viewNow());
    return { views, told: loggedOf(it.world.told.rows) };
  },
};

if (!is64() || new URLSearchParams(location.hash.slice(1)).has('recorded')) playRecorded();
else {
  await load(Uint8Array.from(atob(CARRIED.module), it => it.charCodeAt(0)));
  globalThis.line = line;
  fill();
  listen();
  openAddress();
}
