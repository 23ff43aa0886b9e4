/* One VDCP port over TCP: server TCPPORT CATALOGUE, where the catalogue has a row ID,HH:MM:SS:FF for each clip. It takes one connection,
 * and prints what airs, which a station's server would play. Frames pass by the clock, 25 a second. */
#define _POSIX_C_SOURCE 200809L
#include <arpa/inet.h>
#include <poll.h>
#include <stdio.h>
#include <stdlib.h>
#include <string.h>
#include <sys/socket.h>
#include <time.h>
#include <unistd.h>
#include <vdcp.h>

enum { MOST_CLIPS = 10000, SILENCE = 20 }; /* a silence of 20 ms ends a burst */

static vdcp_clip clips[MOST_CLIPS];

static long milliseconds(void) {
    struct timespec time;
    clock_gettime(CLOCK_MONOTONIC, &time);
    return (long)time.tv_sec * 1000 + time.tv_nsec / 1000000;
}

static int compare(const void *a, const void *b) { return memcmp(a, b, 8); }

/* A row's ID is padded with spaces, and may stand in quotes; the length's fields go in reverse, as packed BCD. */
static size_t read_clips(const char *name) {
    char line[256];
    size_t count = 0;
    FILE *file = fopen(name, "r");
    while (file && count < MOST_CLIPS && fgets(line, sizeof line, file)) {
        char *time = strrchr(line, ','), *id = line;
        if (!time || strlen(time) < 12) continue;
        *time++ = 0;
        if (*id == '"' && time - 2 > id) time[-2] = 0, id++;
        memset(clips[count].id, ' ', 8);
        memcpy(clips[count].id, id, strlen(id) < 8 ? strlen(id) : 8);
        for (int k = 0; k < 4; k++) clips[count].length[3 - k] = (uint8_t)((time[3 * k] - '0') * 16 + time[3 * k + 1] - '0');
        count++;
    }
    if (file) fclose(file);
    return qsort(clips, count, sizeof *clips, compare), count;
}

static int connection(uint16_t port) {
    static struct sockaddr_in address;
    socklen_t size = sizeof address;
    int listener = socket(AF_INET, SOCK_STREAM, 0), line;
    address.sin_family = AF_INET;
    address.sin_port = htons(port);
    address.sin_addr.s_addr = htonl(INADDR_LOOPBACK);
    if (bind(listener, (struct sockaddr *)&address, size) || listen(listener, 1)) return -1;
    if (getsockname(listener, (struct sockaddr *)&address, &size)) return -1;
    printf("listening 127.0.0.1:%d\n", ntohs(address.sin_port));
    fflush(stdout);
    line = accept(listener, NULL, NULL);
    close(listener);
    return line;
}

static int send_all(int line, const uint8_t *bytes, size_t count) {
    for (ssize_t sent; count; bytes += sent, count -= (size_t)sent)
        if ((sent = write(line, bytes, count)) <= 0) return 0;
    return 1;
}

int main(int argc, char **argv) {
    static vdcp_reader reader;
    static vdcp_server port;
    static vdcp_message message;
    static vdcp_airing aired;
    uint8_t piece[512], out[21], cued, ended;
    size_t written, count = argc == 3 ? read_clips(argv[2]) : 0;
    int line = count ? connection((uint16_t)atoi(argv[1])) : -1, got;
    long heard = milliseconds(), frame = heard;
    if (line < 0 || vdcp_server_new(&port, clips, count, 0, 1, 1, VDCP_25)) return fprintf(stderr, "usage: server TCPPORT CATALOGUE\n"), 1;
    for (;;) {
        struct pollfd waiting = {line, POLLIN, 0};
        int ready = poll(&waiting, 1, 5);
        for (long now = milliseconds(); frame + 40 <= now; frame += 40)
            if (vdcp_server_frame(&port, clips, count, &cued, &ended)) return 1;
        if (ready > 0) {
            ssize_t n = read(line, piece, sizeof piece);
            if (n <= 0) break;
            heard = milliseconds();
            for (size_t at = 0, taken; at < (size_t)n; at += taken) {
                got = vdcp_reader_feed(&reader, piece + at, (size_t)n - at, &taken, &message);
                if (got >= VDCP_BAD_STATE) return 1;
                if (got != VDCP_MESSAGE) continue;
                if (vdcp_server_answer(&port, clips, count, &message, out, sizeof out, &written, &aired)) return 1;
                if (aired.what) printf("aired %.8s\n", (const char *)aired.id), fflush(stdout);
                if (!send_all(line, out, written)) return 0;
            }
        } else if (milliseconds() >= heard + SILENCE) {
            if (vdcp_silence_answer((uint8_t)vdcp_reader_silence(&reader), out, sizeof out, &written)) return 1;
            if (!send_all(line, out, written)) return 0;
            heard = milliseconds();
        }
    }
    return 0;
}
