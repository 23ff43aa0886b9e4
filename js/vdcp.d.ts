/** The types of vdcp.mjs. docs/JS.md has examples, include/vdcp.h each call with its ranges. */

/** Loads the module, from its bytes or its address: beside this folder, if neither is given. Every other call needs it. Throws an Error if 64-bit memories are missing. */
export function load(source?: URL | string | BufferSource): Promise<void>;

/** Whether this machine has 64-bit memories. */
export function is64(): boolean;

/** A call that can't be done; nothing has changed. */
export class VdcpError extends Error {
  /** The code of include/vdcp.h, 100 to 106. */
  readonly code: number;
  constructor(code: number);
}

/** The eight bytes of an ID, of its text: `NEWS`, or `0x4142434420202001` if it has no plain one. */
export function idBytes(text: string): Uint8Array;
/** The text of eight bytes. */
export function idText(bytes: Uint8Array): string;
/** The packed BCD of `HH:MM:SS:FF`, at drop frame `HH:MM:SS;FF`. */
export function timeBytes(text: string): Uint8Array;
/** The text of four bytes. */
export function timeText(bytes: Uint8Array, isDrop?: boolean): string;

/** An ID: its text or its eight bytes. */
export type Id = string | Uint8Array;
/** A time: its text or its four bytes. */
export type Time = string | Uint8Array;

/** A message. */
export class Message {
  /** The one message that these bytes are. */
  static ofBytes(bytes: ArrayLike<number>): Message;
  static ack(): Message;
  /** NAK with an error byte, 0 to 255. */
  static nak(byte: number): Message;
  readonly kind: 'ack' | 'nak' | 'framed';
  /** Of a framed message the command type, 0 to 15. */
  readonly sort: number;
  /** Of a framed message the unit address, 0 to 15. */
  readonly unit: number;
  /** The command code, of a NAK the error byte. */
  readonly code: number;
  /** At most 253 bytes; none of ACK and NAK. */
  readonly data: Uint8Array;
  toBytes(): Uint8Array;
  /** A copy of its struct. */
  readonly struct: Uint8Array;
}

/** What is wrong with a burst. */
export class Fault {
  readonly kind: 'bad-start' | 'bad-count' | 'bad-sum' | 'long';
  /** The byte that shows it, from 1. */
  readonly place: number;
  constructor(kind: Fault['kind'], place: number);
}

/** How a burst ended: after a whole message or with no byte, inside a message, after a fault. */
export type Ended = 'clean' | 'cut' | 'after-fault';

/** The reader of a burst, which comes in whatever pieces. */
export class Reader {
  /** The messages that these bytes complete, and a fault, after which the rest of the burst is dropped. */
  feed(piece: ArrayLike<number>): (Message | Fault)[];
  /** The burst ends here; the reader is at the start of the next one. */
  silence(): Ended;
  /** How many bytes it holds, since they begin a message. */
  readonly held: number;
  copy(): Reader;
}

export const WORDS: readonly string[];

/** A command. */
export class Command {
  /** The command of this text, as `cue CLIP0001`; docs/PROTOCOL.md has them. */
  static ofText(text: string): Command;
  static ofMessage(message: Message): Command;
  static cue(clip: Id): Command;
  /** Its first word, as `cue-data`. */
  readonly word: string;
  /** The clip that it names. */
  readonly id: Uint8Array;
  /** The bytes that carry it to a unit, 0 to 15. */
  toBytes(unit?: number): Uint8Array;
  toString(): string;
  /** A copy of its struct. */
  readonly struct: Uint8Array;
  constructor(struct: Uint8Array);
}

/** A reply, as its fields. */
export class Reply {
  static ofMessage(message: Message): Reply;
  readonly word: 'ack' | 'nak' | 'opened' | 'state' | 'active' | 'present' | 'size';
  /** The port was granted, there is a state byte, a clip plays, the clip is there. */
  readonly yes: boolean;
  /** The error byte, or the bitmap. */
  readonly byte: number;
  readonly state: number;
  /** The clip that plays. */
  readonly id: Uint8Array;
  /** The clip's length, in packed BCD. */
  readonly time: Uint8Array;
  toBytes(unit?: number): Uint8Array;
  toString(): string;
  constructor(struct: Uint8Array);
}

/** The command or the reply that a message carries; null if it carries neither. */
export function meaning(message: Message): Command | Reply | null;

/** What airs or is cued: the clip's ID, of a part its start and duration in packed BCD, and the frames left. */
export interface Airing {
  id: string;
  left: number;
  start?: Uint8Array;
  duration?: Uint8Array;
}

/** A clip of a server, with its length. */
export interface Clip {
  id: Id;
  length: string;
}

export interface PortSettings {
  /** The unit address, 0 to 15; 0 if it is left out. */
  unit?: number;
  /** The port's number, 0 to 255; 1 if it is left out. */
  number?: number;
  /** How many frames a cue takes, 1 to 1,000; 1 if it is left out. */
  cueFrames?: number;
  /** Frames a second; 25 if it is left out. */
  rate?: 24 | 25 | 30 | '30df';
}

/** A server's port, over a table of clips, of which each ID stands once. */
export class Port {
  constructor(clips: Iterable<Clip>, settings?: PortSettings);
  /** The answer to a message, and what goes to air by it. */
  answer(message: Message): { bytes: Uint8Array; aired: Airing | null };
  /** The answers to a whole burst, its end included, and what goes to air by it. */
  answerBurst(burst: Uint8Array): { bytes: Uint8Array; aired: Airing | null };
  /** What goes out at a silence, of which the reader said how the burst ended. */
  silence(ended: Ended): Uint8Array;
  /** A frame passes: whether it was the last of the cue, and of the clip. */
  frame(): { cued: boolean; ended: boolean };
  /** The last frame of the cue passes, if one is under way, and none of the clip. */
  finishCue(): void;
  /** The last frame of the clip passes, if one plays, and none of the cue. */
  finishClip(): void;
  /** The server is restarted: its port is closed and empty. */
  restart(): void;
  readonly unit: number;
  readonly number: number;
  readonly rate: number;
  readonly access: 'closed' | 'open' | 'selected';
  /** What airs next, and the frames until its cue is done. */
  readonly cued: Airing | null;
  /** What is on the air, and its frames left. */
  readonly playing: Airing | null;
  /** The state byte. */
  readonly state: number;
  copy(): Port;
}

/** An event of a list: a clip's ID, or a clip or a part of one. */
export type Event = string | { id: Id; start?: Time; duration?: Time };

export type Phase = 'open' | 'select' | 'seen' | 'exists' | 'cue' | 'wait' | 'play' | 'probe' | 'check' | 'drain' | 'close' | 'halt' | 'halt-close';
export type Outcome = 'done' | 'stopped' | 'lost' | 'denied' | 'missing' | 'refused' | 'foreign' | 'strange';

export interface ControllerSettings {
  /** The port's number, 0 to 255; 1 if it is left out. */
  port?: number;
  /** Unanswered exchanges in a row up to `lost`, 1 to 1,000; 3 if it is left out. */
  limit?: number;
  /** It trusts no receipt. */
  confirming?: boolean;
}

/** An automation's controller of a list. Its events count from 0. */
export class Controller {
  constructor(events: Iterable<Event>, settings?: ControllerSettings);
  /** The next command to send, which awaits its answer then; null if there is nothing to send. */
  tick(): Command | null;
  /** This came for the command to the unit. */
  hear(message: Message, unit?: number): void;
  /** Nothing came in time. */
  timeout(): void;
  /** The operator wants the next event though the last one still plays. */
  take(): void;
  /** The operator wants to stop. */
  stop(): void;
  /** The wishes of take and stop are forgotten, as by a restart. */
  forget(): void;
  readonly confirming: boolean;
  readonly awaiting: boolean;
  /** Null once it has ended. */
  readonly phase: Phase | null;
  /** Null while it goes on. */
  readonly outcome: Outcome | null;
  readonly wishes: { take: boolean; stop: boolean };
  readonly limit: number;
  /** Unanswered exchanges in a row, so far. */
  readonly unanswered: number;
  /** The event of the phase or of the outcome; 0 if it names none. */
  readonly event: number;
  /** How many events it takes for aired: the first of the list. */
  readonly settled: number;
  copy(): Controller;
}

/** Holds an automation's exchanges against the rule book. */
export class Judge {
  constructor(events: Iterable<Event>, settings?: { confirming?: boolean });
  /** Whether the command may follow the exchanges so far. */
  allows(command: Command): boolean;
  /** The command was sent, and this message ended its exchange; or null, nothing came. */
  add(command: Command, message: Message | null, unit?: number): void;
  /** How many events the exchanges show to be aired. */
  readonly settled: number;
  copy(): Judge;
}
