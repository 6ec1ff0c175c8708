/* A C program that makes the calls of a one-shot get and of a one-shot put, for bench/peers.sh: what those calls and the checksum cost
 * by themselves. It trusts its words and looks at nothing that they may have wrong.
 *
 *     peer get ENTRY <anything          writes the blob of the entry
 *     peer put ENTRY TEMP LOCK <BLOB    puts the blob as a new entry: TEMP is written and renamed, under the lock of LOCK
 *
 * The driver has the id d, the GPU g and no flags. Compiled with -DTABLES it prints peer_tables.h, the tables of the checksum. */
#include <fcntl.h>
#include <stdint.h>
#include <stdio.h>
#include <stdlib.h>
#include <string.h>
#include <sys/file.h>
#include <sys/stat.h>
#include <unistd.h>

enum { MAX_BLOB = 16777216, FRONT = 14, HEAD = FRONT + 12, FIRST_ROOM = 8192 };

#ifdef TABLES

int main(void)
{
    static uint32_t table[8][256];
    for (uint32_t byte = 0; byte < 256; byte++) {
        uint32_t sum = byte;
        for (int bit = 0; bit < 8; bit++)
            sum = sum & 1 ? sum >> 1 ^ 0xedb88320 : sum >> 1;
        table[0][byte] = sum;
    }
    for (int place = 1; place < 8; place++)
        for (int byte = 0; byte < 256; byte++)
            table[place][byte] = table[place - 1][byte] >> 8 ^ table[0][table[place - 1][byte] & 0xff];
    puts("static const uint32_t table[8][256] = {");
    for (int place = 0; place < 8; place++) {
        putchar('{');
        for (int byte = 0; byte < 256; byte++)
            printf("0x%08x,", table[place][byte]);
        puts("},");
    }
    puts("};");
    return 0;
}

#else

#include "peer_tables.h"

static const unsigned char front[FRONT] = {1, 'd', 0, 'g', 0, 8};

static void need(int holds, const char *what)
{
    if (!holds) {
        perror(what);
        exit(1);
    }
}

static uint32_t sum_of(const unsigned char *bytes, size_t len)
{
    uint32_t sum = 0xffffffff;
    for (; len >= 8; len -= 8, bytes += 8) {
        uint64_t word;
        memcpy(&word, bytes, 8);
        word ^= sum;
        sum = table[7][word & 0xff] ^ table[6][word >> 8 & 0xff] ^ table[5][word >> 16 & 0xff] ^ table[4][word >> 24 & 0xff]
            ^ table[3][word >> 32 & 0xff] ^ table[2][word >> 40 & 0xff] ^ table[1][word >> 48 & 0xff] ^ table[0][word >> 56];
    }
    for (; len > 0; len--, bytes++)
        sum = table[0][(sum ^ *bytes) & 0xff] ^ sum >> 8;
    return ~sum;
}

static uint32_t number_at(const unsigned char *bytes)
{
    uint32_t number;
    memcpy(&number, bytes, 4);
    return number;
}

static int get(const char *entry)
{
    int file = open(entry, O_RDWR | O_CLOEXEC);
    need(file >= 0, entry);
    struct stat status;
    need(fstat(file, &status) == 0, "fstat");
    size_t len = status.st_size;
    unsigned char *item = malloc(len);
    need(item != NULL, "malloc");
    need(pread(file, item, len, 0) == (ssize_t)len, "pread");
    need(close(file) == 0, "close");
    need(len >= HEAD && memcmp(item, front, FRONT) == 0 && number_at(item + FRONT) == 0, "front");
    size_t size = len - HEAD;
    need(number_at(item + FRONT + 8) == size && size <= MAX_BLOB, "size");
    need(number_at(item + FRONT + 4) == sum_of(item + HEAD, size), "sum");
    need(write(1, item + HEAD, size) == (ssize_t)size, "write");
    free(item);
    return 0;
}

/* The standard input, behind room for the head of an item; the room for the blob doubles, up to one byte more than the longest. */
static unsigned char *source(size_t *size)
{
    size_t room = FIRST_ROOM, filled = 0;
    unsigned char *item = malloc(HEAD + room);
    need(item != NULL, "malloc");
    for (;;) {
        ssize_t got = read(0, item + HEAD + filled, room - filled);
        need(got >= 0, "read");
        if (got == 0)
            break;
        filled += got;
        need(filled <= MAX_BLOB, "too large");
        if (filled == room) {
            room = room < MAX_BLOB / 2 ? 2 * room : MAX_BLOB + 1;
            item = realloc(item, HEAD + room);
            need(item != NULL, "realloc");
        }
    }
    *size = filled;
    return item;
}

static int put(const char *entry, const char *temp, const char *lock)
{
    size_t size;
    unsigned char *item = source(&size);
    uint32_t numbers[3] = {0, sum_of(item + HEAD, size), size};
    memcpy(item, front, FRONT);
    memcpy(item + FRONT, numbers, sizeof numbers);

    need(open(entry, O_RDWR | O_CLOEXEC) < 0, "no entry");
    int locked = open(lock, O_RDWR | O_CREAT | O_CLOEXEC, 0600);
    need(locked >= 0, lock);
    need(flock(locked, LOCK_EX | LOCK_NB) == 0, "flock");
    need(open(entry, O_RDWR | O_CLOEXEC) < 0, "no entry");
    int file = open(temp, O_RDWR | O_CREAT | O_CLOEXEC, 0600);
    need(file >= 0, temp);
    struct stat status;
    need(fstat(file, &status) == 0 && status.st_size == 0, "fstat");
    need(pwrite(file, item, HEAD + size, 0) == (ssize_t)(HEAD + size), "pwrite");
    need(rename(temp, entry) == 0, "rename");
    need(close(file) == 0, "close");
    need(close(locked) == 0, "close");
    need(write(1, "stored\n", 7) == 7, "write");
    free(item);
    return 0;
}

int main(int count, char **words)
{
    int held = open("/dev/null", O_RDONLY | O_CLOEXEC);
    need(held >= 0 && close(held) == 0, "/dev/null");
    lseek(0, 0, SEEK_CUR);
    if (count == 3 && strcmp(words[1], "get") == 0)
        return get(words[2]);
    if (count == 5 && strcmp(words[1], "put") == 0)
        return put(words[2], words[3], words[4]);
    return 2;
}

#endif
