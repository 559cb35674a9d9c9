/* Times what a disk allows for a commit: two writes with a sync behind each, as often as COUNT says, at the end of one file.
 *
 *   commit FILE COUNT OCTETS      prints the microseconds of one
 */
#include <fcntl.h>
#include <stdio.h>
#include <stdlib.h>
#include <string.h>
#include <time.h>
#include <unistd.h>

static double now(void) {
    struct timespec t;
    clock_gettime(CLOCK_MONOTONIC, &t);
    return t.tv_sec * 1e6 + t.tv_nsec / 1e3;
}

int main(int argc, char **argv) {
    if (argc != 4) return 2;
    long count = atol(argv[2]), octets = atol(argv[3]);
    char *body = calloc(1, octets), gate = 1;
    int file = open(argv[1], O_RDWR | O_CREAT | O_TRUNC, 0600);
    if (file < 0 || !body || count < 1) return 5;
    off_t end = 0;
    if (write(file, body, octets) != octets || fsync(file)) return 5;
    double start = now();
    for (long i = 0; i < count; i++) {
        if (lseek(file, end + 1, SEEK_SET) < 0 || write(file, body, octets) != octets || fsync(file)) return 5;
        if (lseek(file, end, SEEK_SET) < 0 || write(file, &gate, 1) != 1 || fsync(file)) return 5;
        end += octets;
    }
    printf("%.0f\n", (now() - start) / count);
    return 0;
}
