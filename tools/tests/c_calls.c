/* A channel in memory, in both modes, and calls with structs and messages of any bytes: each that is refused leaves all as it was. As the
 * entry of a fuzzer it takes the bytes from there; as a program, from a generator: c_calls ROUNDS. */
#include <stdio.h>
#include <stdlib.h>
#include <string.h>
#include "vdcp.h"

static void fail(int line) {
    fprintf(stderr, "c_calls.c:%d\n", line);
    abort();
}
#define HOLDS(it) ((it) ? (void)0 : fail(__LINE__))

enum { EVENTS = 2, CLIPS = 3 };

/* An item or a clip: an ID, and a time of so many seconds. */
#define MADE(type, name, time, set) \
    static type name(const char *id, uint8_t seconds) { \
        type it; \
        memset(&it, 0, sizeof it); \
        memcpy(it.id, id, 8); \
        it.time[1] = seconds; \
        set; \
        return it; \
    }
MADE(vdcp_item, item_of, duration, it.has_part = seconds > 0)
MADE(vdcp_clip, clip_of, length, (void)0)

/* Plays the list through a port, over bytes that a reader takes one by one. */
static void play(uint8_t mode) {
    static vdcp_reader down, up;
    static vdcp_controller controller;
    static vdcp_server port;
    static vdcp_message message;
    static vdcp_command command;
    static vdcp_airing aired;
    static vdcp_judging judging;
    const vdcp_item list[EVENTS] = {item_of("CLIP0001", 0), item_of("CLIP0002", 0x03)};
    const vdcp_clip clips[CLIPS] = {clip_of("CLIP0001", 0x02), clip_of("CLIP0002", 0x05), clip_of("CLIP0003", 0x01)};
    uint8_t bytes[21], answer[21], state, cued, ended, allowed;
    size_t size, written, taken, count = 0;
    HOLDS(!vdcp_controller_new(&controller, mode, 1, 3) && !vdcp_server_new(&port, clips, CLIPS, 0, 1, 2, VDCP_25) && !vdcp_judging_new(&judging, mode));
    while (vdcp_controller_tick(&controller, list, EVENTS, &command) == VDCP_GIVEN) {
        int heard = 0;
        HOLDS(!vdcp_judging_allows(&judging, list, EVENTS, &command, &allowed) && allowed == 1);
        HOLDS(!vdcp_command_bytes(&command, 0, bytes, sizeof bytes, &size));
        for (size_t k = 0; k + 1 < size; k++)
            HOLDS(vdcp_reader_feed(&down, bytes + k, 1, &taken, &message) == VDCP_MORE && taken == 1);
        HOLDS(vdcp_reader_feed(&down, bytes + size - 1, 1, &taken, &message) == VDCP_MESSAGE);
        HOLDS(vdcp_reader_silence(&down) == VDCP_CLEAN);
        HOLDS(!vdcp_server_answer(&port, clips, CLIPS, &message, answer, sizeof answer, &written, &aired));
        if (aired.what) HOLDS(!memcmp(aired.id, list[count].id, 8) && aired.what == (list[count].has_part ? VDCP_PART : VDCP_CLIP)), count++;
        HOLDS(written && vdcp_reader_feed(&up, answer, written, &taken, &message) == VDCP_MESSAGE && taken == written);
        HOLDS(vdcp_reader_silence(&up) == VDCP_CLEAN);
        HOLDS(!vdcp_controller_hear(&controller, list, EVENTS, &message, 0));
        heard = controller.standing != VDCP_AWAITING;
        if (heard) HOLDS(!vdcp_judging_add(&judging, list, EVENTS, &command, &message, 0));
        else HOLDS(!vdcp_controller_timeout(&controller, list, EVENTS) && !vdcp_judging_add_silence(&judging, list, EVENTS, &command));
        HOLDS(!vdcp_server_frame(&port, clips, CLIPS, &cued, &ended) && !vdcp_server_state(&port, clips, CLIPS, &state));
    }
    HOLDS(controller.standing == VDCP_ENDED && controller.phase == VDCP_DONE && controller.settled == EVENTS && count == EVENTS);
    HOLDS(judging.settled == EVENTS);
}

/* Where the bytes come from. */
static const uint8_t *from;
static size_t left;
static void any(void *to, size_t size) {
    size_t n = size < left ? size : left;
    memset(to, 0, size);
    memcpy(to, from, n);
    from += n, left -= n;
}

/* Sets code by the call. If that is a refusal, nothing has changed. */
static uint8_t old[2048];
#define TRY(it, call) (HOLDS(sizeof(it) <= sizeof old), memcpy(old, &(it), sizeof(it)), code = (call), HOLDS(code < 100 || !memcmp(&(it), old, sizeof(it))))

/* One call of each kind, with any structs. What is read again is what was written. */
static void call(void) {
    static vdcp_reader reader;
    static vdcp_message message, read;
    static vdcp_server port;
    static vdcp_controller controller;
    static vdcp_judging judging;
    static vdcp_command command;
    static vdcp_reply reply;
    static vdcp_airing aired;
    static vdcp_item list[EVENTS];
    static vdcp_clip clips[CLIPS];
    static uint8_t out[1024], piece[300];
    uint8_t kind = 0, byte = 0, room = 0, flag = 0, other = 0;
    size_t written = 0, taken = 0, length = 0, events, count;
    int32_t code = 0;
    any(&kind, 1), any(&byte, 1), any(&room, 1);
    length = room % sizeof piece, events = byte % (EVENTS + 1), count = byte % (CLIPS + 1);
    switch (kind % 12) {
    case 0:
        any(&reader, 7u + byte), any(piece, sizeof piece);
        TRY(reader, vdcp_reader_feed(&reader, piece, length, &taken, &message));
        if (code < 100) HOLDS(vdcp_reader_silence(&reader) < 100 && !reader.taken && !reader.held);
        break;
    case 1:
        any(&message, sizeof message), memset(&reader, 0, sizeof reader);
        if (vdcp_message_bytes(&message, out, length, &written)) break;
        HOLDS(vdcp_reader_feed(&reader, out, written, &taken, &read) == VDCP_MESSAGE && taken == written && read.kind == message.kind);
        HOLDS(message.kind != VDCP_FRAMED || !memcmp(read.data, message.data, message.count));
        break;
    case 2:
        any(&command, sizeof command), any(&reply, sizeof reply);
        code = vdcp_command_bytes(&command, byte % 20, out, length, &written) | vdcp_command_text(&command, out, 64, &written);
        code = vdcp_reply_bytes(&reply, byte % 20, out, length, &written) | vdcp_reply_text(&reply, out, 64, &written);
        break;
    case 3:
        any(&message, sizeof message);
        TRY(command, vdcp_command_of_message(&message, &command));
        TRY(reply, vdcp_reply_of_message(&message, &reply));
        break;
    case 4:
        any(&port, sizeof port), any(clips, sizeof clips), any(&message, sizeof message);
        TRY(port, vdcp_server_answer(&port, clips, count, &message, out, length, &written, &aired));
        break;
    case 5:
        any(&port, sizeof port), any(clips, sizeof clips), any(piece, sizeof piece);
        TRY(port, vdcp_server_answer_burst(&port, clips, count, piece, length, out, sizeof out, &written, &aired));
        break;
    case 6:
        any(&port, sizeof port), any(clips, sizeof clips);
        TRY(port, vdcp_server_frame(&port, clips, count, &flag, &other));
        HOLDS(vdcp_server_state(&port, clips, count, &flag) == (code ? VDCP_BAD_STATE : VDCP_OK));
        code = vdcp_silence_answer(byte, out, length, &written);
        break;
    case 7:
        any(&controller, sizeof controller), any(list, sizeof list);
        TRY(controller, vdcp_controller_tick(&controller, list, events, &command));
        break;
    case 8:
        any(&controller, sizeof controller), any(list, sizeof list), any(&message, sizeof message);
        TRY(controller, vdcp_controller_hear(&controller, list, events, &message, room));
        code = vdcp_controller_timeout(&controller, list, events);
        break;
    case 9:
        any(&controller, sizeof controller), any(list, sizeof list);
        TRY(controller, vdcp_controller_take(&controller, list, events));
        HOLDS(vdcp_controller_stop(&controller, list, events) == code);
        break;
    case 10:
        any(&command, sizeof command), any(&flag, 1);
        command.word = byte % 11 + 1;
        HOLDS(!vdcp_command_text(&command, piece, 64, &length));
        if (flag) piece[room % length] = flag;
        TRY(command, vdcp_command_of_text(piece, length, &command));
        HOLDS(code ? flag && code == VDCP_BAD_COMMAND : !vdcp_command_text(&command, out, 64, &written) && written == length && !memcmp(piece, out, length));
        any(piece, sizeof piece);
        TRY(command, vdcp_command_of_text(piece, room % sizeof piece, &command));
        break;
    default:
        any(&judging, sizeof judging), any(list, sizeof list), any(&command, sizeof command), any(&message, sizeof message);
        code = vdcp_judging_allows(&judging, list, events, &command, &flag);
        TRY(judging, room & 1 ? vdcp_judging_add(&judging, list, events, &command, &message, room / 2) : vdcp_judging_add_silence(&judging, list, events, &command));
    }
}

#ifdef FUZZING
#ifdef __cplusplus
extern "C"
#endif
int LLVMFuzzerTestOneInput(const uint8_t *data, size_t size);
int LLVMFuzzerTestOneInput(const uint8_t *data, size_t size) {
    if (!size) play(VDCP_PLAIN), play(VDCP_CONFIRMING);
    from = data, left = size;
    while (left) call();
    return 0;
}
#else
/* Most bytes are such as a struct may have, so that many of the calls are done. */
int main(int argc, char **argv) {
    static const uint8_t likely[] = {0, 0, 0, 0, 1, 1, 2, 2, 3, 4, 5, 8, 16, 'C', ' ', 0x25};
    static uint8_t bytes[1024];
    uint64_t seed = 88172645463325252u;
    long rounds = argc > 1 ? atol(argv[1]) : 1000;
    play(VDCP_PLAIN);
    play(VDCP_CONFIRMING);
    for (long round = 0; round < rounds; round++) {
        for (size_t k = 0; k < sizeof bytes; k++) {
            seed ^= seed << 13, seed ^= seed >> 7, seed ^= seed << 17;
            bytes[k] = (seed >> 40) % 8 ? likely[(seed >> 32) % sizeof likely] : (uint8_t)(seed >> 24);
        }
        bytes[0] = (uint8_t)round;
        from = bytes, left = sizeof bytes;
        call();
    }
    return 0;
}
#endif
