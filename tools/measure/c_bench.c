/* What the library for C costs, in ns: the reader a byte, the port an answer, and the controller an exchange. Each is the least of ROUNDS
 * runs: c_bench [ROUNDS [ROW]], for a count of instructions by a tool. The status is 1 if a call didn't do what it should. */
#define _POSIX_C_SOURCE 200809L
#include <stdio.h>
#include <stdlib.h>
#include <string.h>
#include <time.h>
#include "vdcp.h"

static double now(void) {
    struct timespec t;
    clock_gettime(CLOCK_MONOTONIC, &t);
    return (double)t.tv_sec * 1e9 + (double)t.tv_nsec;
}

static uint64_t seed = 88172645463325252u;
static unsigned any(void) {
    seed ^= seed << 13, seed ^= seed >> 7, seed ^= seed << 17;
    return (unsigned)(seed >> 32);
}

static size_t frame(uint8_t *o, unsigned data) {
    unsigned sum = 0;
    size_t n = 0;
    o[n++] = 2, o[n++] = (uint8_t)(data + 2), o[n++] = (uint8_t)any(), o[n++] = (uint8_t)any();
    for (unsigned k = 0; k < data; k++) o[n++] = (uint8_t)any();
    for (size_t k = 2; k < n; k++) sum += o[k];
    o[n++] = (uint8_t)(0u - sum);
    return n;
}

/* Bursts of all kinds of messages, some damaged or cut. */
static uint8_t bytes[1 << 20];
static size_t ends[1 << 19], bursts;
static void make(void) {
    size_t n = 0;
    for (bursts = 0; n + 6000 < sizeof bytes; ends[bursts++] = n) {
        size_t begun = n;
        for (unsigned k = 1 + any() % 6; k; k--) {
            unsigned kind = any() % 8;
            if (kind < 2) bytes[n++] = 4;
            else if (kind < 3) bytes[n++] = 5, bytes[n++] = (uint8_t)any();
            else n += frame(bytes + n, any() % 20);
        }
        if (any() % 16 == 0) bytes[begun + any() % (n - begun)] ^= (uint8_t)(1u << any() % 8);
        if (any() % 16 == 0 && n - begun > 1) n--;
    }
}

/* Reads all bursts, in pieces of so many bytes at most. */
static double reading(size_t most) {
    static vdcp_reader reader;
    static vdcp_message message;
    size_t at = 0, taken = 0;
    double begun = now();
    for (size_t b = 0; b < bursts; b++) {
        while (at < ends[b]) {
            size_t n = ends[b] - at < most ? ends[b] - at : most;
            const uint8_t *p = bytes + at;
            for (at += n; n; p += taken, n -= taken)
                if (vdcp_reader_feed(&reader, p, n, &taken, &message) == VDCP_NULL) return -1;
        }
        if (vdcp_reader_silence(&reader) == VDCP_NULL) return -1;
    }
    return (now() - begun) / (double)at;
}

static vdcp_clip clips[10000];
static vdcp_item list[1];

/* Cues and statuses at a port of so many clips, of which the last is asked for and cued. */
static double exchanges(size_t count) {
    static vdcp_server port;
    static vdcp_message asked[] = {{3, 3, 0, 0x01, 2, {1, 1}}, {3, 2, 0, 0x22, 1, {1}}, {3, 2, 0, 0x24, 8, {0}}, {3, 3, 0, 0x05, 1, {1}}};
    static vdcp_airing aired;
    uint8_t out[21];
    size_t written;
    unsigned turns = 2 * (count > 1000 ? 200 : 2000);
    int32_t code = vdcp_server_new(&port, clips, count, 0, 1, 1, VDCP_25);
    double begun = now();
    memcpy(asked[2].data, clips[count - 1].id, 8);
    for (unsigned k = 0; k < turns + 2; k++) {
        if (k == 2) begun = now();
        code |= vdcp_server_answer(&port, clips, count, &asked[k < 2 ? k : 2 + k % 2], out, sizeof out, &written, &aired);
    }
    return code || out[0] != 2 ? -1 : (now() - begun) / turns;
}

static double turns_of_controller(size_t turns) {
    static vdcp_controller controller;
    static vdcp_message answers[] = {{3, 3, 0, 0x81, 1, {1}}, {1, 0, 0, 0, 0, {0}}, {3, 3, 0, 0x96, 1, {1}}, {1, 0, 0, 0, 0, {0}}, {3, 3, 0, 0x85, 2, {1, 2}}};
    static vdcp_command command;
    int32_t code = vdcp_controller_new(&controller, VDCP_PLAIN, 1, 3);
    double begun = now();
    for (size_t k = 0; k < turns + 4; k++) {
        if (k == 4) begun = now();
        code |= vdcp_controller_tick(&controller, list, 1, &command) != VDCP_GIVEN;
        code |= vdcp_controller_hear(&controller, list, 1, &answers[k < 4 ? k : 4], 0);
    }
    return code || command.word != VDCP_STATUS ? -1 : (now() - begun) / (double)turns;
}

int main(int argc, char **argv) {
    static const struct { const char *name; double (*run)(size_t); size_t of; } rows[] = {
        {"reader, a byte of bursts", reading, 1 << 20}, {"byte by byte", reading, 1}, {"port, 10 clips, an answer", exchanges, 10},
        {"port, 10000 clips, an answer", exchanges, 10000}, {"controller, an exchange", turns_of_controller, 20000},
    };
    int rounds = argc > 1 ? atoi(argv[1]) : 20, failed = 0;
    for (size_t k = 0; k < 10000; k++) {
        char id[9];
        snprintf(id, sizeof id, "CLIP%04u", (unsigned)k);
        memcpy(clips[k].id, id, 8);
        clips[k].length[1] = 0x10;
    }
    memcpy(list[0].id, "CLIP0001", 8);
    make();
    for (size_t i = 0; i < sizeof rows / sizeof *rows; i++) {
        double least = 1e300, t;
        if (argc > 2 && strcmp(argv[2], rows[i].name)) continue;
        for (int k = 0; k < rounds; k++)
            if ((t = rows[i].run(rows[i].of)) < least) least = t;
        failed |= least < 0;
        printf("| %s | %.*f |\n", rows[i].name, rows[i].run == reading ? 2 : 0, least);
    }
    return failed;
}
