/* A centre of SMPP 3.4 that takes everything at once: it answers a login, messages and enquiries, and closes the connection behind so
 * many messages. With `reports` it sends a receipt (delivered) behind the answer to each, and closes behind the answers to these. It prints how many
 * microseconds passed from the login to the last answer, how often it had more than one message without an answer in one read, and how many
 * receipts were answered; also where the other side closes first, and then its status is 6.
 *
 *   centre PORT COUNT [reports]
 */
#include <arpa/inet.h>
#include <netinet/tcp.h>
#include <stdint.h>
#include <stdio.h>
#include <stdlib.h>
#include <string.h>
#include <sys/socket.h>
#include <time.h>
#include <unistd.h>

static double now(void) {
    struct timespec t;
    clock_gettime(CLOCK_MONOTONIC, &t);
    return t.tv_sec * 1e6 + t.tv_nsec / 1e3;
}

static uint32_t word(const unsigned char *at) {
    return (uint32_t)at[0] << 24 | (uint32_t)at[1] << 16 | (uint32_t)at[2] << 8 | at[3];
}

static void put(unsigned char *at, uint32_t word) {
    at[0] = word >> 24;
    at[1] = word >> 16;
    at[2] = word >> 8;
    at[3] = word;
}

static long taken, answered;

/* Puts the answer to a frame last, and says how long it is. */
static size_t answer(const unsigned char *frame, unsigned char *into) {
    uint32_t id = word(frame + 4);
    size_t len = 16;
    put(into + 4, id | 0x80000000u);
    put(into + 8, 0);
    put(into + 12, word(frame + 12));
    if (id == 9) into[len++] = 0; /* bind_transceiver: an empty system_id */
    if (id == 4) len += sprintf((char *)into + len, "%lx", taken) + 1;
    put(into, len);
    return len;
}

/* Puts a receipt on the last message last (deliver_sm, esm_class 4), and says how long it is. */
static size_t receipt(unsigned char *into) {
    static const unsigned char front[] = "\0\0\0" "0123456" "\0\0\0" "123" "\0\4\0\0\0\0\0\0\0\0";
    size_t len = 16 + sizeof front - 1;
    size_t text = sprintf((char *)into + len + 1, "id:%lx stat:DELIVRD", taken);
    memcpy(into + 16, front, sizeof front - 1);
    into[len] = text;
    len += 1 + text;
    put(into, len);
    put(into + 4, 5);
    put(into + 8, 0);
    put(into + 12, 1000 + taken);
    return len;
}

/* Puts all last that is said to a frame, and says how long it is. */
static size_t reply(const unsigned char *frame, unsigned char *into, int reports) {
    uint32_t id = word(frame + 4);
    if (id == 0x80000005u) answered++;
    if (id & 0x80000000u) return 0;
    if (id == 4) taken++;
    size_t len = answer(frame, into);
    return id == 4 && reports ? len + receipt(into + len) : len;
}

int main(int argc, char **argv) {
    if (argc != 3 && argc != 4) return 2;
    long count = atol(argv[2]), several = 0;
    int reports = argc == 4;
    int on = 1, listener = socket(AF_INET, SOCK_STREAM, 0);
    struct sockaddr_in name = {.sin_family = AF_INET, .sin_port = htons(atoi(argv[1])), .sin_addr.s_addr = htonl(INADDR_LOOPBACK)};
    setsockopt(listener, SOL_SOCKET, SO_REUSEADDR, &on, sizeof on);
    if (bind(listener, (struct sockaddr *)&name, sizeof name) || listen(listener, 1)) return 6;
    int link = accept(listener, 0, 0), status = 0;
    if (link < 0) return 6;
    setsockopt(link, IPPROTO_TCP, TCP_NODELAY, &on, sizeof on);
    static unsigned char heard[1 << 17], said[1 << 17];
    size_t kept = 0;
    double start = 0;
    while (!status && (taken < count || (reports && answered < count))) {
        ssize_t more = read(link, heard + kept, sizeof heard - kept);
        if (more <= 0) { status = 6; break; }
        if (!start) start = now();
        kept += more;
        size_t at = 0, len = 0;
        long before = taken;
        while (kept - at >= 16 && kept - at >= word(heard + at) && len + 256 < sizeof said) {
            len += reply(heard + at, said + len, reports);
            at += word(heard + at);
        }
        several += taken > before + 1;
        memmove(heard, heard + at, kept -= at);
        for (size_t gone = 0; gone < len && !status;) {
            ssize_t wrote = send(link, said + gone, len - gone, MSG_NOSIGNAL);
            if (wrote <= 0) status = 6;
            gone += wrote;
        }
    }
    printf("%.0f %ld %ld\n", start ? now() - start : 0, several, answered);
    return status;
}
