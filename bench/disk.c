/* The disk's parts of crates/bench_parts as a plain C program, for bench/parts: read FILE TIMES, append FILE N,
 * journal FILE N. */
#include <fcntl.h>
#include <stdint.h>
#include <stdio.h>
#include <stdlib.h>
#include <string.h>
#include <sys/stat.h>
#include <unistd.h>

static uint64_t mixed(uint64_t sum, uint64_t n) { return sum * 31 + n; }

static void stop(const char *why) {
    perror(why);
    exit(1);
}

/* Reads the file in pieces of 4,096 bytes, so many times, and takes in the ends of each. */
static uint64_t scanned(const char *name, unsigned long times) {
    static unsigned char piece[4096];
    uint64_t sum = 0;
    int file = open(name, O_RDWR | O_CLOEXEC);
    if (file < 0) stop("open");
    for (unsigned long it = 0; it < times; it++) {
        for (off_t at = 0;; at += sizeof piece) {
            if (lseek(file, at, SEEK_SET) < 0) stop("lseek");
            ssize_t count = read(file, piece, sizeof piece);
            if (count < 0) stop("read");
            if (count == 0) break;
            sum = mixed(sum, (uint64_t)count);
            sum = mixed(sum, piece[0]);
            sum = mixed(sum, piece[count - 1]);
        }
    }
    return sum;
}

static void put(int file, off_t at, const void *bytes, size_t len) {
    if (lseek(file, at, SEEK_SET) < 0) stop("lseek");
    if (write(file, bytes, len) != (ssize_t)len) stop("write");
    if (fdatasync(file) < 0) stop("fdatasync");
}

/* Appends so many records of 30 bytes, each with a byte that follows it once it is durable. Gives the length. */
static uint64_t appended(const char *name, unsigned long count) {
    unsigned char record[30];
    struct stat is;
    int file = open(name, O_RDWR | O_CREAT | O_CLOEXEC, 0666);
    if (file < 0 || fstat(file, &is) < 0) stop("open");
    off_t at = is.st_size;
    for (uint32_t n = 0; n < count; n++) {
        memset(record, 76, sizeof record);
        for (int i = 0; i < 4; i++) record[i] = (unsigned char)(n >> (24 - 8 * i));
        put(file, at, record, sizeof record);
        put(file, at + 30, "\1", 1);
        at += 31;
    }
    return (uint64_t)at;
}

/* Puts the lowest bytes of a number, so many, the highest first. Gives where they end. */
static unsigned char *put_number(unsigned char *at, uint32_t n, int bytes) {
    for (int i = bytes - 1; i >= 0; i--) *at++ = (unsigned char)(n >> 8 * i);
    return at;
}

/* The body of a record of the 16 columns of an upload, eight rows each, and a closed gate after it. */
static void put_body(unsigned char body[904], uint32_t seq) {
    unsigned char *at = put_number(body, 1, 2);
    at = put_number(at, seq, 4);
    at = put_number(at, 16, 1);
    for (uint32_t n = 16 * seq; n < 16 * seq + 16; n++) {
        at = put_number(at, n / 65536, 2);
        at = put_number(at, n / 4096 % 16, 4);
        at = put_number(at, n % 4096, 2);
        for (int row = 0; row < 8; row++) {
            at = put_number(at, n * 2654435761u, 4);
            at = put_number(at, n % 65536, 2);
        }
    }
    *at = 0;
}

/* Opens an empty journal and appends so many records to it. Gives a number of the columns and the records. */
static uint64_t journaled(const char *name, unsigned long count) {
    unsigned char head[18], body[904];
    int file = open(name, O_RDWR | O_CLOEXEC);
    if (file < 0 || fdatasync(file) < 0) stop("open");
    if (read(file, head, sizeof head) != sizeof head) stop("read");
    if (head[0] != 1 || memcmp(head + 1, "LGB1", 4) != 0 || head[17] != 0) exit(1);
    off_t gate = 17;
    for (uint32_t n = 0; n < count; n++) {
        put_body(body, n);
        put(file, gate + 1, body, sizeof body);
        put(file, gate, "\1", 1);
        gate += sizeof body;
    }
    return mixed(mixed(0, 16 * count), count);
}

int main(int argc, char **argv) {
    if (argc != 4) return 1;
    unsigned long n = strtoul(argv[3], NULL, 10);
    uint64_t sum;
    if (strcmp(argv[1], "read") == 0) sum = scanned(argv[2], n);
    else if (strcmp(argv[1], "append") == 0) sum = appended(argv[2], n);
    else if (strcmp(argv[1], "journal") == 0) sum = journaled(argv[2], n);
    else return 1;
    printf("%llu\n", (unsigned long long)sum);
    return 0;
}
