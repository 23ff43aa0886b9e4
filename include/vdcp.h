/* The Video Disk Communications Protocol, one playout channel of it: both ends as plain C.
 *
 * Nothing here takes memory, keeps a pointer, waits or reads a clock. Each struct is yours: copy it, keep it in a file, lend it to a
 * call. Lists and clips are lent for one call. No call has a state of its own, so any thread may call with structs of its own.
 *
 * A server, over whatever line (examples/server.c has the whole program):
 *
 *     vdcp_reader reader = {0};
 *     vdcp_server port;
 *     vdcp_server_new(&port, clips, count, 0, 1, 25, VDCP_25); // clips by ascending ID; unit 0, port 1, a cue takes 25 frames
 *     while ((n = read(line, piece, sizeof piece)) > 0)
 *         for (size_t at = 0, taken; (got = vdcp_reader_feed(&reader, piece + at, n - at, &taken, &message)) != VDCP_MORE; at += taken)
 *             if (got == VDCP_MESSAGE && !vdcp_server_answer(&port, clips, count, &message, out, sizeof out, &written, &aired)) {
 *                 write(line, out, written);
 *                 if (aired.what) play(&aired);
 *             }
 *     // at each silence:  vdcp_silence_answer(vdcp_reader_silence(&reader), out, sizeof out, &written); write(line, out, written);
 *     // at each frame:    vdcp_server_frame(&port, clips, count, &cued, &ended);
 *
 * An automation:
 *
 *     vdcp_controller_new(&controller, VDCP_PLAIN, 1, 3);    // port 1; lost after 3 unanswered exchanges
 *     while (vdcp_controller_tick(&controller, list, count, &command) == VDCP_GIVEN) {
 *         vdcp_command_bytes(&command, 0, out, sizeof out, &written);
 *         write(line, out, written);
 *         while (controller.standing == VDCP_AWAITING)
 *             if (a message came, as above) vdcp_controller_hear(&controller, list, count, &message, 0);
 *             else                          vdcp_controller_timeout(&controller, list, count);
 *     }
 *     // controller.phase says how it ended, controller.settled how many events aired
 *
 * A judge of commands that others send:
 *
 *     vdcp_judging_new(&judging, VDCP_PLAIN);
 *     vdcp_judging_allows(&judging, list, count, &command, &allowed);         // may it be sent now?
 *     vdcp_judging_add(&judging, list, count, &command, &message, 0);         // it was sent, and this came; or
 *     vdcp_judging_add_silence(&judging, list, count, &command);              // nothing came
 *
 * Rules for the caller. A pointer is valid or NULL. What two pointers of a call point to doesn't overlap, except where both are only
 * read. All else is answered: a call that can't be done gives a code of 100 or more, and leaves each struct and each room as it was (a
 * count that it writes is 0, but at VDCP_NULL as it was). Bytes of any values may be in a struct.
 */
#ifndef VDCP_H
#define VDCP_H

#include <stddef.h>
#include <stdint.h>

#ifdef __cplusplus
extern "C" {
#endif

#if defined(__GNUC__)
#define VDCP_CALL __attribute__((warn_unused_result))
#else
#define VDCP_CALL
#endif

/* What a call answers. From 100 on nothing was done. */
enum {
    VDCP_OK = 0,
    VDCP_BAD_STATE = 100,   /* no call has made this struct, or not over this list or these clips */
    VDCP_BAD_MESSAGE = 101, /* the struct is no message */
    VDCP_BAD_COMMAND = 102, /* no command, or no reply, of this profile */
    VDCP_BAD_VALUE = 103,   /* a number is out of its range */
    VDCP_SHORT_ROOM = 104,  /* the room is too small */
    VDCP_BAD_TABLE = 105,   /* the IDs of the clips don't ascend */
    VDCP_NULL = 106         /* a pointer is NULL, and not that of an array of no elements */
};

/* ---- Messages. */

enum { VDCP_ACK = 1, VDCP_NAK = 2, VDCP_FRAMED = 3 };

typedef struct {
    uint8_t kind;      /* VDCP_ACK, VDCP_NAK or VDCP_FRAMED */
    uint8_t sort;      /* framed: the command type, 0 to 15 */
    uint8_t unit;      /* framed: the unit address, 0 to 15 */
    uint8_t code;      /* framed: the command code; of a NAK the error byte */
    uint32_t count;    /* framed: how many bytes of data, 253 at most; of a fault its place in the burst, from 1 */
    uint8_t data[256]; /* the first `count` of these */
} vdcp_message;

/* Writes the bytes that spell a message: 1 to 258. VDCP_BAD_MESSAGE, VDCP_SHORT_ROOM. */
int32_t vdcp_message_bytes(const vdcp_message *message, uint8_t *out, size_t room, size_t *written) VDCP_CALL;

/* ---- The reader of a burst, which comes in whatever pieces. All zero ({0}) it is at the start of a burst. */

typedef struct {
    uint16_t taken;     /* how many bytes of the burst it took; 65,535 after a fault */
    uint16_t held;      /* how many of them it holds, since they begin a message */
    uint8_t bytes[258]; /* the first `held` of these */
} vdcp_reader;

/* What a reader got. After a fault it takes the rest of the burst and reads none of it. */
enum {
    VDCP_MORE = 0,      /* all bytes are taken: feed more, or tell of the silence */
    VDCP_MESSAGE = 1,   /* a message */
    VDCP_BAD_START = 2, /* fault: a message begins with another byte than 02h, 04h or 05h */
    VDCP_BAD_COUNT = 3, /* fault: a byte count of 0 or 1 */
    VDCP_BAD_SUM = 4,   /* fault: a wrong checksum */
    VDCP_LONG = 5       /* fault: more than 4,096 bytes in a burst */
};

/* Takes bytes until one message or one fault has ended, or else all; `taken` gets how many. Feed those after them next. A message goes to
 * `message`, a fault's place to its `count`. VDCP_BAD_STATE. */
int32_t vdcp_reader_feed(vdcp_reader *reader, const uint8_t *piece, size_t length, size_t *taken, vdcp_message *message) VDCP_CALL;

/* How a burst ended. */
enum {
    VDCP_CLEAN = 0,      /* after a whole message, or with no byte */
    VDCP_CUT = 1,        /* inside a message */
    VDCP_AFTER_FAULT = 2 /* after a fault */
};

/* The burst ends here, and the reader is at the start of the next one. VDCP_BAD_STATE. */
int32_t vdcp_reader_silence(vdcp_reader *reader);

/* ---- Commands and replies. An ID is eight bytes; a time four of packed BCD: frames, seconds, minutes, hours. */

enum {
    VDCP_OPEN = 1,        /* OPEN PORT: byte, lock */
    VDCP_CLOSE = 2,       /* CLOSE PORT: byte */
    VDCP_SELECT = 3,      /* SELECT PORT: byte */
    VDCP_PLAY_CUE = 4,    /* PLAY CUE: id */
    VDCP_CUE_DATA = 5,    /* CUE WITH DATA: id, start, duration */
    VDCP_PLAY = 6,        /* PLAY */
    VDCP_STOP = 7,        /* STOP */
    VDCP_STATUS = 8,      /* PORT STATUS REQUEST: byte */
    VDCP_ACTIVE_ID = 9,   /* ACTIVE ID REQUEST */
    VDCP_ID_REQUEST = 10, /* ID REQUEST: id */
    VDCP_ID_SIZE = 11     /* ID SIZE REQUEST: id */
};

typedef struct {
    uint8_t word;  /* one of these; it says which of the others count */
    uint8_t byte;  /* the port's number, or the bitmap */
    uint8_t lock;  /* the lock byte */
    uint8_t unused;
    uint8_t id[8];
    uint8_t start[4];
    uint8_t duration[4];
} vdcp_command;

/* Writes the bytes that carry a command to a unit, 0 to 15: 21 at most. VDCP_BAD_COMMAND, VDCP_BAD_VALUE, VDCP_SHORT_ROOM. */
int32_t vdcp_command_bytes(const vdcp_command *command, uint8_t unit, uint8_t *out, size_t room, size_t *written) VDCP_CALL;

/* Reads the command that a message carries; the message names the unit. VDCP_BAD_MESSAGE, VDCP_BAD_COMMAND. */
int32_t vdcp_command_of_message(const vdcp_message *message, vdcp_command *command) VDCP_CALL;

/* Writes the text of a command, as "cue CLIP0001", with no NUL: 64 bytes at most. VDCP_BAD_COMMAND, VDCP_SHORT_ROOM. */
int32_t vdcp_command_text(const vdcp_command *command, uint8_t *out, size_t room, size_t *written) VDCP_CALL;

/* Reads the command whose text these bytes are, as vdcp_command_text writes it, and no other text. VDCP_BAD_COMMAND. */
int32_t vdcp_command_of_text(const uint8_t *text, size_t length, vdcp_command *command) VDCP_CALL;

enum {
    VDCP_ACKED = 1,   /* ACK */
    VDCP_NAKED = 2,   /* NAK: byte */
    VDCP_OPENED = 3,  /* to OPEN PORT: yes */
    VDCP_STATE = 4,   /* to PORT STATUS REQUEST: byte; if yes is 1, state */
    VDCP_ACTIVE = 5,  /* to ACTIVE ID REQUEST: yes; if it is 1, id */
    VDCP_PRESENT = 6, /* to ID REQUEST: yes */
    VDCP_SIZE = 7     /* to ID SIZE REQUEST: time */
};

typedef struct {
    uint8_t word;    /* one of these */
    uint8_t yes;     /* 1: the port was granted, a state byte follows, a clip plays, the clip is there; else 0 */
    uint8_t byte;    /* the error byte, or the bitmap */
    uint8_t state;   /* the state byte */
    uint8_t id[8];   /* the clip that plays */
    uint8_t time[4]; /* the clip's length */
} vdcp_reply;

/* The same for replies. */
int32_t vdcp_reply_bytes(const vdcp_reply *reply, uint8_t unit, uint8_t *out, size_t room, size_t *written) VDCP_CALL;
int32_t vdcp_reply_of_message(const vdcp_message *message, vdcp_reply *reply) VDCP_CALL;
int32_t vdcp_reply_text(const vdcp_reply *reply, uint8_t *out, size_t room, size_t *written) VDCP_CALL;

/* ---- The server's port. Its clips are lent to each call: a table of rows whose IDs ascend, as memcmp orders them, each but once. A clip
 * is looked for by halves, so a row that is out of order may not be found. A row whose length is no time at the port's rate doesn't count.
 * The table may gain and lose rows between two calls, but for what is cued and what plays. */

enum { VDCP_24 = 0, VDCP_25 = 1, VDCP_30 = 2, VDCP_30_DROP = 3 }; /* frames a second */

typedef struct {
    uint8_t id[8];
    uint8_t length[4];
} vdcp_clip;

enum { VDCP_NOTHING = 0, VDCP_CLIP = 1, VDCP_PART = 2 };

typedef struct {
    uint8_t id[8];
    uint8_t start[4];    /* of a part */
    uint8_t duration[4]; /* of a part */
    uint32_t what;       /* VDCP_NOTHING, VDCP_CLIP (a whole one) or VDCP_PART */
    uint32_t left;       /* the frames left: until the cue is done, or until the clip ends */
} vdcp_airing;

enum { VDCP_CLOSED = 0, VDCP_OPENED_PORT = 1, VDCP_SELECTED = 2 };

typedef struct {
    uint8_t unit;        /* the unit address, 0 to 15 */
    uint8_t number;      /* the port's number */
    uint8_t access;      /* VDCP_CLOSED, VDCP_OPENED_PORT or VDCP_SELECTED */
    uint8_t rate;        /* VDCP_24 .. VDCP_30_DROP */
    uint32_t cue_frames; /* the frames that a cue takes, 1 to 1,000 */
    vdcp_airing cued;    /* what airs next */
    vdcp_airing playing; /* what is on the air */
} vdcp_server;

/* A new port, closed and empty, over a table, of which it says whether the IDs ascend. VDCP_BAD_VALUE, VDCP_BAD_TABLE. */
int32_t vdcp_server_new(vdcp_server *server, const vdcp_clip *clips, size_t count, uint8_t unit, uint8_t number, uint32_t cue_frames,
                        uint8_t rate) VDCP_CALL;

/* Answers a message: `out` gets the answer's bytes, 21 at most (so much room it has to have), or none; `aired` what goes to air by it, or
 * VDCP_NOTHING. VDCP_BAD_STATE, VDCP_BAD_MESSAGE, VDCP_SHORT_ROOM. */
int32_t vdcp_server_answer(vdcp_server *server, const vdcp_clip *clips, size_t count, const vdcp_message *message, uint8_t *out,
                           size_t room, size_t *written, vdcp_airing *aired) VDCP_CALL;

/* Answers a whole burst, its end included. Room: three bytes for each of the burst, 4,096 at most, and two more. A burst airs one item at
 * most. VDCP_BAD_STATE, VDCP_SHORT_ROOM. */
int32_t vdcp_server_answer_burst(vdcp_server *server, const vdcp_clip *clips, size_t count, const uint8_t *burst, size_t length,
                                 uint8_t *out, size_t room, size_t *written, vdcp_airing *aired) VDCP_CALL;

/* The bytes that go out at a silence, of which vdcp_reader_silence said how the burst ended: none, or a NAK of two. VDCP_BAD_VALUE,
 * VDCP_SHORT_ROOM. */
int32_t vdcp_silence_answer(uint8_t ended, uint8_t *out, size_t room, size_t *written) VDCP_CALL;

/* A frame passes. `cued` gets 1 if it was the last of the cue, which is done then, else 0; `ended` the same of the clip. VDCP_BAD_STATE. */
int32_t vdcp_server_frame(vdcp_server *server, const vdcp_clip *clips, size_t count, uint8_t *cued, uint8_t *ended) VDCP_CALL;

/* The state byte: bit 0 both slots are empty, bit 1 cueing, bit 2 playing, bit 7 the cue is done. VDCP_BAD_STATE. */
int32_t vdcp_server_state(const vdcp_server *server, const vdcp_clip *clips, size_t count, uint8_t *state) VDCP_CALL;

/* ---- The automation's controller. Its list is lent to each call: the same one each time. Events count from 0. */

typedef struct {
    uint8_t id[8];
    uint8_t start[4];
    uint8_t duration[4];
    uint32_t has_part; /* 0: the whole clip */
} vdcp_item;

enum { VDCP_PLAIN = 1, VDCP_CONFIRMING = 2 };
enum { VDCP_READY = 1, VDCP_AWAITING = 2, VDCP_ENDED = 3 };
enum {
    VDCP_DONE = 1,    /* every event is settled, and the port was closed */
    VDCP_STOPPED = 2, /* the operator stopped it */
    VDCP_LOST = 3,    /* `limit` exchanges in a row had no answer */
    VDCP_DENIED = 4,  /* the port wasn't granted */
    VDCP_MISSING = 5, /* the server hasn't the clip of `event` */
    VDCP_REFUSED = 6, /* `event` was refused, or its cue was lost too often */
    VDCP_FOREIGN = 7, /* another clip plays than that of `event` */
    VDCP_STRANGE = 8  /* a status doesn't fit at `event` */
};

typedef struct {
    uint8_t mode;     /* VDCP_PLAIN or VDCP_CONFIRMING */
    uint8_t port;     /* the port's number */
    uint8_t standing; /* VDCP_READY to send, VDCP_AWAITING an answer, or VDCP_ENDED */
    uint8_t phase;    /* its phase; if it has ended, how: VDCP_DONE and so on */
    uint8_t take;     /* 1 while the wish of vdcp_controller_take holds */
    uint8_t stop;     /* the same of vdcp_controller_stop */
    uint16_t unused;
    uint32_t limit;      /* unanswered exchanges in a row up to VDCP_LOST, 1 to 1,000 */
    uint32_t unanswered; /* in a row, so far */
    uint32_t tries;      /* how often the event's cue was lost */
    uint32_t unused2;
    uint64_t event;   /* that of the phase, or of the outcome; 0 if it names none */
    uint64_t settled; /* how many events it takes for aired: the first of the list */
} vdcp_controller;

/* A new controller for the port of this number. VDCP_BAD_VALUE. */
int32_t vdcp_controller_new(vdcp_controller *controller, uint8_t mode, uint8_t port, uint32_t limit) VDCP_CALL;

enum { VDCP_NONE = 0, VDCP_GIVEN = 1 };

/* VDCP_GIVEN: the next command, which awaits its answer now: send it. VDCP_NONE: there is nothing to send. VDCP_BAD_STATE. */
int32_t vdcp_controller_tick(vdcp_controller *controller, const vdcp_item *list, size_t count, vdcp_command *command) VDCP_CALL;

/* This message came, and `unit` is the one that was asked. VDCP_BAD_STATE, VDCP_BAD_MESSAGE. */
int32_t vdcp_controller_hear(vdcp_controller *controller, const vdcp_item *list, size_t count, const vdcp_message *message,
                             uint8_t unit) VDCP_CALL;

/* Nothing came in time. VDCP_BAD_STATE. */
int32_t vdcp_controller_timeout(vdcp_controller *controller, const vdcp_item *list, size_t count) VDCP_CALL;

/* The operator wants the next event though the last one still plays. VDCP_BAD_STATE. */
int32_t vdcp_controller_take(vdcp_controller *controller, const vdcp_item *list, size_t count) VDCP_CALL;

/* The operator wants to stop: STOP goes out next, and then CLOSE. VDCP_BAD_STATE. */
int32_t vdcp_controller_stop(vdcp_controller *controller, const vdcp_item *list, size_t count) VDCP_CALL;

/* ---- The judge of an automation that plays a list, whosever it is. */

typedef struct {
    uint8_t mode; /* VDCP_PLAIN or VDCP_CONFIRMING */
    uint8_t has_open_play;
    uint8_t may_have_aired;
    uint8_t stopped;
    uint8_t closed;
    uint8_t granted;
    uint8_t last_cue;
    uint8_t unused;
    uint64_t settled; /* how many events the exchanges show to be aired */
} vdcp_judging;

/* A new judge, which knows of no exchange. VDCP_BAD_VALUE. */
int32_t vdcp_judging_new(vdcp_judging *judging, uint8_t mode) VDCP_CALL;

/* `allowed` gets 1 if the rule book lets the command follow the exchanges so far, else 0. VDCP_BAD_STATE, VDCP_BAD_COMMAND. */
int32_t vdcp_judging_allows(const vdcp_judging *judging, const vdcp_item *list, size_t count, const vdcp_command *command,
                            uint8_t *allowed) VDCP_CALL;

/* The command was sent to `unit`, and this message ended its exchange. VDCP_BAD_STATE, VDCP_BAD_COMMAND, VDCP_BAD_MESSAGE. */
int32_t vdcp_judging_add(vdcp_judging *judging, const vdcp_item *list, size_t count, const vdcp_command *command,
                         const vdcp_message *message, uint8_t unit) VDCP_CALL;

/* The command was sent, and nothing came in time. VDCP_BAD_STATE, VDCP_BAD_COMMAND. */
int32_t vdcp_judging_add_silence(vdcp_judging *judging, const vdcp_item *list, size_t count, const vdcp_command *command) VDCP_CALL;

#ifdef __cplusplus
}
#endif

#endif
