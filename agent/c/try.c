/*
 * Tries the two functions of the library from C. Each value is held against one that stands here, derived by hand
 * from docs/FORMAT.md. A try that fails is printed with its line and name. The last line counts; exit status 1 if any
 * failed. Each buffer is as long as is said and no longer, so that valgrind sees what is touched beyond it.
 */
#include "qadhmuleh_agent.h"

#include <stdbool.h>
#include <stdio.h>
#include <stdlib.h>
#include <string.h>

/* What a buffer holds before a call. */
#define OLD 0xa5

static int tries, failures;

#define TRY(name, holds) tried((holds), name, __LINE__)

static void tried(bool holds, const char *name, int line)
{
    tries++;
    if (!holds) {
        failures++;
        printf("try.c, line %d: failed: %s\n", line, name);
    }
}

/* A buffer of just so many bytes, all of them OLD. */
static uint8_t *buffer(size_t bytes)
{
    uint8_t *all = malloc(bytes > 0 ? bytes : 1);
    if (all == NULL) {
        puts("try.c: no memory");
        exit(2);
    }
    memset(all, OLD, bytes > 0 ? bytes : 1);
    return all;
}

/* The words of a list, as the arguments of a function: where they stand, and how many. */
#define LIST(...) (const uint32_t[]){__VA_ARGS__}, sizeof((const uint32_t[]){__VA_ARGS__}) / 4

/* A buffer of just these words. */
static uint8_t *bytes_of(const uint32_t *words, size_t many)
{
    uint8_t *all = buffer(4 * many);
    for (size_t i = 0; i < many; i++)
        for (int k = 0; k < 4; k++)
            all[4 * i + (size_t)k] = (uint8_t)(words[i] >> 8 * k & 255);
    return all;
}

/* Whether bytes are these words. */
static bool are(const uint8_t *bytes, const uint32_t *words, size_t many)
{
    for (size_t i = 0; i < many; i++)
        for (int k = 0; k < 4; k++)
            if (bytes[4 * i + (size_t)k] != (words[i] >> 8 * k & 255))
                return false;
    return true;
}

/* Whether no byte was written. */
static bool old(const uint8_t *bytes, size_t many)
{
    for (size_t i = 0; i < many; i++)
        if (bytes[i] != OLD)
            return false;
    return true;
}

/* The list of no words. */
#define NONE NULL, 0

#define ROW_WORDS 11

/* 10.7.3.9, 10.7.3.10, 10.8.0.1 and 10.7.0.0. */
#define SERVER 168231689u
#define NEIGHBOUR 168231690u
#define OUTSIDE 168296449u
#define STUDIO 168230912u

/* The rows of examples/tenant.policy (docs/FORMAT.md, "A file, word by word"). */
#define RESERVED 0, 0, SERVER, 0, 0, 0, 0, 32, 0, 3, 40000
#define DENIED 0, 0, STUDIO, 0, 0, 0, 0, 16, 0, 2, 0
#define TENANT RESERVED, DENIED, RESERVED
#define TO_SERVER 0, 0, SERVER, 6, 0, 0

/* An unconstrained row with don't care. */
#define ZEROS 0, 0, 0, 0, 0, 0, 0, 0, 0, 0, 0

/* A call of the scan, and what it must do: the number that it returns, and the four words of its answer. */
static void scanned_bytes(const char *name, int line, const uint8_t *table, size_t table_bytes, const uint8_t *packet,
                          size_t packet_bytes, uint32_t number, const uint32_t *words)
{
    uint8_t *answer = buffer(16);
    uint32_t got = agent_scan(table, table_bytes, packet, packet_bytes, answer, 16);
    tried(got == number && are(answer, words, 4), name, line);
    free(answer);
}

static void scanned(const char *name, int line, const uint32_t *rows, size_t row_words, const uint32_t *values,
                    size_t packet_words, uint32_t number, const uint32_t *words)
{
    uint8_t *table = bytes_of(rows, row_words), *packet = bytes_of(values, packet_words);
    scanned_bytes(name, line, table, 4 * row_words, packet, 4 * packet_words, number, words);
    tried(are(table, rows, row_words) && are(packet, values, packet_words), name, line);
    free(table);
    free(packet);
}

#define ANSWER(place, a, b, c) (const uint32_t[]){place, a, b, c}
#define SCANNED(name, table, packet, number, answer) scanned(name, __LINE__, table, packet, number, answer)

/* The tenant's table, byte for byte. */
static void try_bytes(void)
{
    static const uint8_t table[132] = {
        0, 0, 0, 0, 0, 0, 0, 0, 9, 3, 7, 10, 0, 0, 0, 0, 0, 0, 0, 0, 0, 0,
        0, 0, 0, 0, 0, 0, 32, 0, 0, 0, 0, 0, 0, 0, 3, 0, 0, 0, 0x40, 0x9c, 0, 0,
        0, 0, 0, 0, 0, 0, 0, 0, 0, 0, 7, 10, 0, 0, 0, 0, 0, 0, 0, 0, 0, 0,
        0, 0, 0, 0, 0, 0, 16, 0, 0, 0, 0, 0, 0, 0, 2, 0, 0, 0, 0, 0, 0, 0,
        0, 0, 0, 0, 0, 0, 0, 0, 9, 3, 7, 10, 0, 0, 0, 0, 0, 0, 0, 0, 0, 0,
        0, 0, 0, 0, 0, 0, 32, 0, 0, 0, 0, 0, 0, 0, 3, 0, 0, 0, 0x40, 0x9c, 0, 0};
    static const uint8_t packet[24] = {0, 0, 0, 0, 0, 0, 0, 0, 9, 3, 7, 10, 6, 0, 0, 0};
    static const uint8_t decided[16] = {0, 0, 0, 0, 3, 0, 0, 0, 0x40, 0x9c, 0, 0, 1, 0, 0, 0};
    static const uint8_t numbered[16] = {0, 0, 0, 0, 3};
    static const uint8_t forced[12] = {0, 0, 0, 0, 1, 0, 0, 0, 2};
    static const uint8_t levels[12] = {3, 0, 0, 0, 2, 0, 0, 0, 1};
    uint8_t answer[16], priorities[12], chain[12];
    TRY("the tenant in bytes, scanned", agent_scan(table, 132, packet, 24, answer, 16) == 0);
    TRY("the tenant in bytes, the scan's answer", memcmp(answer, decided, 16) == 0);
    TRY("the tenant in bytes, numbered", agent_number(table, 132, priorities, 12, chain, 12, answer, 16) == 0);
    TRY("the tenant in bytes, the numbering's answer", memcmp(answer, numbered, 16) == 0);
    TRY("the tenant in bytes, priorities", memcmp(priorities, levels, 12) == 0);
    TRY("the tenant in bytes, chain", memcmp(chain, forced, 12) == 0);
}

static void try_scan(void)
{
    SCANNED("the server", LIST(TENANT), LIST(TO_SERVER), 0, ANSWER(0, 3, 40000, 1));
    SCANNED("its neighbour", LIST(TENANT), LIST(0, 0, NEIGHBOUR, 6, 0, 0), 0, ANSWER(0, 2, 0, 2));
    SCANNED("outside", LIST(TENANT), LIST(0, 0, OUTSIDE, 6, 0, 0), 0, ANSWER(0, 0, 0, 3));
    SCANNED("a row that says don't care", LIST(ZEROS, DENIED), LIST(TO_SERVER), 0, ANSWER(0, 0, 0, 1));
    SCANNED("the largest values", LIST(TENANT), LIST(65535, UINT32_MAX, UINT32_MAX, 255, 65535, 65535), 0,
            ANSWER(0, 0, 0, 3));

    /* Rows that constrain one value each, met and not met. */
    SCANNED("in-port, met", LIST(7, 0, 0, 0, 0, 0, 0, 0, 1, 1, 0), LIST(7, 0, 0, 6, 0, 0), 0, ANSWER(0, 1, 0, 1));
    SCANNED("in-port, not met", LIST(7, 0, 0, 0, 0, 0, 0, 0, 1, 1, 0), LIST(8, 0, 0, 6, 0, 0), 0, ANSWER(0, 0, 0, 1));
    SCANNED("in-port 0, not met", LIST(0, 0, 0, 0, 0, 0, 0, 0, 1, 1, 0), LIST(8, 0, 0, 6, 0, 0), 0,
            ANSWER(0, 0, 0, 1));
    SCANNED("source, met", LIST(0, STUDIO, 0, 0, 0, 0, 16, 0, 0, 1, 0), LIST(7, SERVER, 0, 6, 0, 0), 0,
            ANSWER(0, 1, 0, 1));
    SCANNED("source, not met", LIST(0, STUDIO, 0, 0, 0, 0, 16, 0, 0, 1, 0), LIST(7, OUTSIDE, SERVER, 6, 0, 0), 0,
            ANSWER(0, 0, 0, 1));
    SCANNED("protocol, met", LIST(0, 0, 0, 1, 0, 0, 0, 0, 2, 1, 0), LIST(7, 0, 0, 1, 0, 0), 0, ANSWER(0, 1, 0, 1));
    SCANNED("protocol, not met", LIST(0, 0, 0, 1, 0, 0, 0, 0, 2, 1, 0), LIST(7, 0, 0, 6, 0, 0), 0,
            ANSWER(0, 0, 0, 1));
    SCANNED("source port 0 by TCP", LIST(0, 0, 0, 0, 0, 0, 0, 0, 4, 2, 0), LIST(0, 0, 0, 6, 0, 0), 0,
            ANSWER(0, 2, 0, 1));
    SCANNED("source port 0 by UDP", LIST(0, 0, 0, 0, 0, 0, 0, 0, 4, 2, 0), LIST(0, 0, 0, 17, 0, 0), 0,
            ANSWER(0, 2, 0, 1));
    SCANNED("source port 0 by a ping", LIST(0, 0, 0, 0, 0, 0, 0, 0, 4, 2, 0), LIST(0, 0, 0, 1, 0, 0), 0,
            ANSWER(0, 0, 0, 1));
    SCANNED("source port, met", LIST(0, 0, 0, 17, 53, 0, 0, 0, 6, 2, 0), LIST(0, 0, 0, 17, 53, 0), 0,
            ANSWER(0, 2, 0, 1));
    SCANNED("source port, not met", LIST(0, 0, 0, 17, 53, 0, 0, 0, 6, 2, 0), LIST(0, 0, 0, 17, 0, 53), 0,
            ANSWER(0, 0, 0, 1));
    SCANNED("destination port, met", LIST(0, 0, 0, 17, 0, 53, 0, 0, 10, 2, 0), LIST(0, 0, 0, 17, 0, 53), 0,
            ANSWER(0, 2, 0, 1));
    SCANNED("destination port, not met", LIST(0, 0, 0, 17, 0, 53, 0, 0, 10, 2, 0), LIST(0, 0, 0, 17, 53, 0), 0,
            ANSWER(0, 0, 0, 1));
    SCANNED("the largest rate, all constrained",
            LIST(65535, UINT32_MAX, UINT32_MAX, 17, 65535, 65535, 32, 32, 15, 3, 100000000),
            LIST(65535, UINT32_MAX, UINT32_MAX, 17, 65535, 65535), 0, ANSWER(0, 3, 100000000, 1));

    /* No rows, with and without a pointer. */
    uint8_t *packet = bytes_of(LIST(TO_SERVER)), *none = buffer(0);
    scanned_bytes("no rows, a null pointer", __LINE__, NULL, 0, packet, 24, 0, ANSWER(0, 0, 0, 0));
    scanned_bytes("no rows, a pointer", __LINE__, none, 0, packet, 24, 0, ANSWER(0, 0, 0, 0));
    free(none);
    free(packet);

    /* Table and packet are only read, and may be the same memory: a packet of zeros, in a row of zeros. */
    uint8_t *zeros = bytes_of(LIST(ZEROS));
    scanned_bytes("a packet inside the table", __LINE__, zeros, 44, zeros, 24, 0, ANSWER(0, 0, 0, 1));
    free(zeros);
}

static void try_wrong_packets(void)
{
    const uint32_t *none = ANSWER(0, 0, 0, 0);
    uint8_t *table = bytes_of(LIST(TENANT)), *packet = bytes_of(LIST(0, 0, SERVER, 6, 0, 0, 0));
    scanned_bytes("a packet of 24 bytes", __LINE__, table, 132, packet, 24, 0, ANSWER(0, 3, 40000, 1));
    scanned_bytes("a packet of 28 bytes", __LINE__, table, 132, packet, 28, 11, none);
    scanned_bytes("a packet of 20 bytes", __LINE__, table, 132, packet, 20, 11, none);
    scanned_bytes("a packet of 0 bytes", __LINE__, table, 132, packet, 0, 11, none);
    scanned_bytes("a packet of 0 bytes, a null pointer", __LINE__, table, 132, NULL, 0, 11, none);
    free(table);
    free(packet);
    SCANNED("in-port 65536", LIST(TENANT), LIST(65536, 0, SERVER, 6, 0, 0), 11, none);
    SCANNED("in-port 4294967295", LIST(TENANT), LIST(UINT32_MAX, 0, SERVER, 6, 0, 0), 11, none);
    SCANNED("protocol 256", LIST(TENANT), LIST(0, 0, SERVER, 256, 0, 0), 11, none);
    SCANNED("source port 65536", LIST(TENANT), LIST(0, 0, SERVER, 6, 65536, 0), 11, none);
    SCANNED("destination port 65536", LIST(TENANT), LIST(0, 0, SERVER, 6, 0, 65536), 11, none);
    SCANNED("a wrong packet and no rows", NONE, LIST(0, 0, SERVER, 256, 0, 0), 11, none);
    SCANNED("11 before 15", LIST(RESERVED, 0), LIST(0, 0, SERVER, 256, 0, 0), 11, none);
    SCANNED("11 before 16", LIST(RESERVED, 0, 0, 0, 0, 0, 0, 0, 0, 0, 9, 9), LIST(0, 0, SERVER, 256, 0, 0), 11, none);
}

/* Rows that are wrong, each in one way. */
static const struct {
    const char *name;
    uint32_t words[ROW_WORDS];
} wrong_rows[] = {
    {"in-port 65536", {65536, 0, 0, 0, 0, 0, 0, 0, 1, 1, 0}},
    {"in-port without its flag", {5, 0, 0, 0, 0, 0, 0, 0, 0, 1, 0}},
    {"source beyond its prefix", {0, SERVER, 0, 0, 0, 0, 31, 0, 0, 1, 0}},
    {"source with length 0", {0, 2147483648u, 0, 0, 0, 0, 0, 0, 0, 1, 0}},
    {"destination beyond its prefix", {0, 0, SERVER, 0, 0, 0, 0, 31, 0, 1, 0}},
    {"destination with length 0", {0, 0, 2147483648u, 0, 0, 0, 0, 0, 0, 1, 0}},
    {"protocol 256", {0, 0, 0, 256, 0, 0, 0, 0, 2, 1, 0}},
    {"protocol without its flag", {0, 0, 0, 6, 0, 0, 0, 0, 0, 1, 0}},
    {"source port 65536", {0, 0, 0, 0, 65536, 0, 0, 0, 4, 1, 0}},
    {"source port without its flag", {0, 0, 0, 0, 80, 0, 0, 0, 0, 1, 0}},
    {"destination port 65536", {0, 0, 0, 0, 0, 65536, 0, 0, 8, 1, 0}},
    {"destination port without its flag", {0, 0, 0, 0, 0, 80, 0, 0, 0, 1, 0}},
    {"source length 33", {0, 0, 0, 0, 0, 0, 33, 0, 0, 1, 0}},
    {"destination length 33", {0, 0, 0, 0, 0, 0, 0, 33, 0, 1, 0}},
    {"flags 16, the empty match", {0, 0, 0, 0, 0, 0, 0, 0, 16, 1, 0}},
    {"flags 16 and another word", {0, 0, 0, 0, 0, 0, 1, 0, 16, 1, 0}},
    {"flags 17", {0, 0, 0, 0, 0, 0, 0, 0, 17, 1, 0}},
    {"flags 256", {0, 0, 0, 0, 0, 0, 0, 0, 256, 1, 0}},
    {"flags 4294967280", {0, 0, 0, 0, 0, 0, 0, 0, 4294967280u, 1, 0}},
    {"source port of a ping", {0, 0, 0, 1, 0, 0, 0, 0, 6, 1, 0}},
    {"destination port of a ping", {0, 0, 0, 1, 0, 5, 0, 0, 10, 1, 0}},
    {"don't care with a rate", {0, 0, 0, 0, 0, 0, 0, 0, 0, 0, 5}},
    {"allow with a rate", {0, 0, 0, 0, 0, 0, 0, 0, 0, 1, 5}},
    {"deny with a rate", {0, 0, 0, 0, 0, 0, 0, 0, 0, 2, 5}},
    {"a reservation of 0", {0, 0, 0, 0, 0, 0, 0, 0, 0, 3, 0}},
    {"a reservation of 100000001", {0, 0, 0, 0, 0, 0, 0, 0, 0, 3, 100000001}},
    {"kind 4", {0, 0, 0, 0, 0, 0, 0, 0, 0, 4, 0}},
};

/* Numbers a table, with two words more in each buffer than it has rows, and holds all bytes to what must be. */
static void numbered(const char *name, int line, const uint32_t *rows, size_t row_words, uint32_t number,
                     const uint32_t *words, const uint32_t *levels, size_t level_count, const uint32_t *places,
                     size_t place_count)
{
    size_t bytes = 4 * (row_words / ROW_WORDS + 2);
    uint8_t *table = bytes_of(rows, row_words), *priorities = buffer(bytes), *chain = buffer(bytes);
    uint8_t *answer = buffer(16);
    uint32_t got = agent_number(table, 4 * row_words, priorities, bytes, chain, bytes, answer, 16);
    tried(got == number && are(answer, words, 4), name, line);
    tried(are(priorities, levels, level_count) && old(priorities + 4 * level_count, bytes - 4 * level_count), name,
          line);
    tried(are(chain, places, place_count) && old(chain + 4 * place_count, bytes - 4 * place_count), name, line);
    tried(are(table, rows, row_words), name, line);
    free(table);
    free(priorities);
    free(chain);
    free(answer);
}

#define NUMBERED(name, table, count, priorities, chain) \
    numbered(name, __LINE__, table, 0, ANSWER(0, count, 0, 0), priorities, chain)

/* Each wrong row as the first, the middle and the last of three, and before or behind another. */
static void try_wrong_rows(void)
{
    static const uint32_t right[ROW_WORDS] = {RESERVED};
    for (size_t i = 0; i < sizeof wrong_rows / sizeof *wrong_rows; i++) {
        uint32_t rows[3 * ROW_WORDS];
        for (uint32_t place = 0; place < 3; place++) {
            for (uint32_t k = 0; k < 3; k++)
                memcpy(rows + ROW_WORDS * k, k == place ? wrong_rows[i].words : right, sizeof right);
            scanned(wrong_rows[i].name, __LINE__, rows, 33, LIST(TO_SERVER), 16, ANSWER(place, 0, 0, 0));
            numbered(wrong_rows[i].name, __LINE__, rows, 33, 16, ANSWER(place, 0, 0, 0), NONE, NONE);
        }
        memcpy(rows + ROW_WORDS, wrong_rows[i].words, sizeof right);
        scanned(wrong_rows[i].name, __LINE__, rows, 33, LIST(TO_SERVER), 16, ANSWER(1, 0, 0, 0));
        numbered(wrong_rows[i].name, __LINE__, rows, 33, 16, ANSWER(1, 0, 0, 0), NONE, NONE);
    }
}

static void try_wrong_tables(void)
{
    const uint32_t *none = ANSWER(0, 0, 0, 0);
    SCANNED("a table of 4 bytes", LIST(0), LIST(TO_SERVER), 15, none);
    SCANNED("a table of 40 bytes", LIST(0, 0, 0, 0, 0, 0, 0, 0, 0, 0), LIST(TO_SERVER), 15, none);
    SCANNED("a table of 48 bytes", LIST(ZEROS, 0), LIST(TO_SERVER), 15, none);
    SCANNED("15 before 16", LIST(0, 0, 0, 0, 0, 0, 0, 0, 0, 9, 9, 0), LIST(TO_SERVER), 15, none);
    numbered("a table of 40 bytes, numbered", __LINE__, LIST(0, 0, 0, 0, 0, 0, 0, 0, 0, 0), 15, none, NONE, NONE);
    numbered("15 before 16, numbered", __LINE__, LIST(0, 0, 0, 0, 0, 0, 0, 0, 0, 9, 9, 0), 15, none, NONE, NONE);

    /* 4,096 rows and more. Row i denies 0.0.0.0 + i to the scan; each row of zeros overlaps all others. */
    static uint32_t rows[4097 * ROW_WORDS];
    numbered("4097 rows, numbered", __LINE__, rows, 4097 * ROW_WORDS, 15, none, NONE, NONE);
    numbered("4096 rows and a word, numbered", __LINE__, rows, 4096 * ROW_WORDS + 1, 15, none, NONE, NONE);
    static uint32_t down[4096], up[4096];
    for (uint32_t i = 0; i < 4096; i++) {
        down[i] = 4096 - i;
        up[i] = i;
    }
    numbered("4096 rows that overlap, numbered", __LINE__, rows, 4096 * ROW_WORDS, 0, ANSWER(0, 4096, 0, 0), down,
             4096, up, 4096);
    for (uint32_t i = 0; i < 4097; i++) {
        rows[ROW_WORDS * i + 2] = i;
        rows[ROW_WORDS * i + 7] = 32;
        rows[ROW_WORDS * i + 9] = 2;
    }
    scanned("4096 rows, the last is met", __LINE__, rows, 4096 * ROW_WORDS, LIST(0, 0, 4095, 6, 0, 0), 0,
            ANSWER(0, 2, 0, 4096));
    scanned("4096 rows, none is met", __LINE__, rows, 4096 * ROW_WORDS, LIST(TO_SERVER), 0, ANSWER(0, 0, 0, 4096));
    scanned("4097 rows", __LINE__, rows, 4097 * ROW_WORDS, LIST(0, 0, 0, 6, 0, 0), 15, none);
    scanned("4096 rows and a word", __LINE__, rows, 4096 * ROW_WORDS + 1, LIST(0, 0, 0, 6, 0, 0), 15, none);
    rows[4095 * ROW_WORDS + 9] = 9;
    scanned("4096 rows, the last is wrong", __LINE__, rows, 4096 * ROW_WORDS, LIST(0, 0, 0, 6, 0, 0), 16,
            ANSWER(4095, 0, 0, 0));
    numbered("4096 rows, the last is wrong, numbered", __LINE__, rows, 4096 * ROW_WORDS, 16, ANSWER(4095, 0, 0, 0),
             NONE, NONE);
}

static void try_number(void)
{
    NUMBERED("the tenant", LIST(TENANT), 3, LIST(3, 2, 1), LIST(0, 1, 2));
    NUMBERED("one row", LIST(DENIED), 1, LIST(1), LIST(0));
    NUMBERED("no rows", NONE, 0, NONE, NONE);

    /* Rows that differ in one value that both constrain do not overlap. */
    NUMBERED("two in-ports", LIST(1, 0, 0, 0, 0, 0, 0, 0, 1, 1, 0, 2, 0, 0, 0, 0, 0, 0, 0, 1, 2, 0), 1, LIST(1, 1),
             LIST(0));
    NUMBERED("two protocols", LIST(0, 0, 0, 6, 0, 0, 0, 0, 2, 1, 0, 0, 0, 0, 17, 0, 0, 0, 0, 2, 2, 0), 1, LIST(1, 1),
             LIST(0));
    NUMBERED("two source ports", LIST(0, 0, 0, 0, 5, 0, 0, 0, 4, 1, 0, 0, 0, 0, 0, 6, 0, 0, 0, 4, 2, 0), 1,
             LIST(1, 1), LIST(0));
    NUMBERED("two destination ports", LIST(0, 0, 0, 0, 0, 5, 0, 0, 8, 1, 0, 0, 0, 0, 0, 0, 6, 0, 0, 8, 2, 0), 1,
             LIST(1, 1), LIST(0));
    NUMBERED("two ports", LIST(0, 0, 0, 0, 5, 0, 0, 0, 4, 1, 0, 0, 0, 0, 0, 0, 6, 0, 0, 8, 2, 0), 2, LIST(2, 1),
             LIST(0, 1));
    NUMBERED("two sources", LIST(0, SERVER, 0, 0, 0, 0, 32, 0, 0, 1, 0, 0, NEIGHBOUR, 0, 0, 0, 0, 32, 0, 0, 2, 0), 1,
             LIST(1, 1), LIST(0));
    NUMBERED("a source in another", LIST(0, STUDIO, 0, 0, 0, 0, 16, 0, 0, 1, 0, 0, SERVER, 0, 0, 0, 0, 32, 0, 0, 2, 0),
             2, LIST(2, 1), LIST(0, 1));
    NUMBERED("a source around another",
             LIST(0, SERVER, 0, 0, 0, 0, 32, 0, 0, 1, 0, 0, STUDIO, 0, 0, 0, 0, 16, 0, 0, 2, 0), 2, LIST(2, 1),
             LIST(0, 1));
    NUMBERED("two destinations", LIST(RESERVED, 0, 0, NEIGHBOUR, 0, 0, 0, 0, 32, 0, 1, 0), 1, LIST(1, 1), LIST(0));

    /* A ping and a port: no packet meets both. */
    NUMBERED("rows that do not overlap", LIST(0, 0, 0, 1, 0, 0, 0, 0, 2, 1, 0, 0, 0, 0, 0, 0, 5, 0, 0, 8, 2, 0), 1,
             LIST(1, 1), LIST(0));

    /* In-ports 1 and 2, then 2 again, of level 1: the chain steps back to the row that overlaps, not to the first. */
    NUMBERED("a row that shares a level",
             LIST(1, 0, 0, 0, 0, 0, 0, 0, 1, 1, 0, 2, 0, 0, 0, 0, 0, 0, 0, 1, 1, 0, 2, 0, 0, 0, 0, 0, 0, 0, 1, 2, 0), 2,
             LIST(2, 2, 1), LIST(1, 2));

    /* Two servers and then all: the chain steps back to the first of two that would do. */
    NUMBERED("a row that overlaps two", LIST(RESERVED, 0, 0, NEIGHBOUR, 0, 0, 0, 0, 32, 0, 1, 0, ZEROS), 2,
             LIST(2, 2, 1), LIST(0, 2));

    /* The rows of examples/between.policy: levels 0 1 0 2 3. */
    NUMBERED("a denial between",
             LIST(1, 0, STUDIO, 0, 0, 0, 0, 16, 1, 2, 0, 1, 0, 0, 0, 0, 0, 0, 0, 1, 1, 0,
                  2, 0, STUDIO, 0, 0, 0, 0, 16, 1, 2, 0, DENIED, 2, 0, 0, 0, 0, 0, 0, 0, 1, 1, 0),
             4, LIST(4, 3, 4, 2, 1), LIST(0, 1, 3, 4));
}

/* A call of the numbering with buffers of any length, and what it must do: its number, its answer, and all bytes of
 * both buffers. */
static void numbered_within(const char *name, int line, const uint8_t *table, size_t table_bytes, size_t priority_bytes,
                            size_t chain_bytes, uint32_t number, const uint32_t *words, size_t levels)
{
    uint8_t *priorities = buffer(priority_bytes), *chain = buffer(chain_bytes), *answer = buffer(16);
    uint32_t got = agent_number(table, table_bytes, priorities, priority_bytes, chain, chain_bytes, answer, 16);
    tried(got == number && are(answer, words, 4), name, line);
    tried(are(priorities, (const uint32_t[]){3, 2, 1}, levels), name, line);
    tried(are(chain, (const uint32_t[]){0, 1, 2}, levels), name, line);
    tried(old(priorities + 4 * levels, priority_bytes - 4 * levels), name, line);
    tried(old(chain + 4 * levels, chain_bytes - 4 * levels), name, line);
    free(priorities);
    free(chain);
    free(answer);
}

static void try_buffers(void)
{
    const uint32_t *none = ANSWER(0, 0, 0, 0), *three = ANSWER(0, 3, 0, 0);
    uint8_t *table = bytes_of(LIST(TENANT)), *wrong = bytes_of(LIST(RESERVED, 0, 0, 0, 0, 0, 0, 0, 0, 0, 9, 9));
    numbered_within("buffers just long enough", __LINE__, table, 132, 12, 12, 0, three, 3);
    numbered_within("a longer priority buffer", __LINE__, table, 132, 16, 12, 0, three, 3);
    numbered_within("a longer chain buffer", __LINE__, table, 132, 12, 16, 0, three, 3);
    numbered_within("buffers beyond every table", __LINE__, table, 132, 200000, 180232, 0, three, 3);
    numbered_within("a priority buffer of 8 bytes", __LINE__, table, 132, 8, 200000, 17, none, 0);
    numbered_within("a chain buffer of 8 bytes", __LINE__, table, 132, 200000, 8, 17, none, 0);
    numbered_within("two buffers of 8 bytes", __LINE__, table, 132, 8, 8, 17, none, 0);
    numbered_within("buffers of 0 bytes", __LINE__, table, 132, 0, 0, 17, none, 0);
    numbered_within("no rows, longer buffers", __LINE__, table, 0, 16, 12, 0, none, 0);
    numbered_within("15 before 17", __LINE__, table, 128, 8, 8, 15, none, 0);
    numbered_within("16 before 17", __LINE__, wrong, 88, 4, 4, 16, ANSWER(1, 0, 0, 0), 0);

    uint8_t *answer = buffer(16);
    TRY("no rows, null pointers", agent_number(NULL, 0, NULL, 0, NULL, 0, answer, 16) == 0 && are(answer, none, 4));
    memset(answer, OLD, 16);
    TRY("rows, null buffers", agent_number(table, 132, NULL, 0, NULL, 0, answer, 16) == 17 && are(answer, none, 4));
    free(table);
    free(wrong);
    free(answer);
}

/* A table whose rows are right, and one of which the second row is wrong. */
static const uint32_t both_tables[2][3 * ROW_WORDS] = {
    {TENANT},
    {RESERVED, 0, 0, 0, 0, 0, 0, 0, 0, 0, 9, 9, RESERVED},
};

/* Calls with a wrong length: 21, and no byte is written, whatever else is wrong. */
static void unscanned(const char *name, int line, size_t table_bytes, size_t packet_bytes, size_t answer_bytes)
{
    for (int i = 0; i < 2; i++) {
        uint8_t *table = bytes_of(both_tables[i], 33), *packet = bytes_of(LIST(TO_SERVER, 0));
        uint8_t *answer = buffer(answer_bytes);
        tried(agent_scan(table, table_bytes, packet, packet_bytes, answer, answer_bytes) == 21, name, line);
        tried(old(answer, answer_bytes), name, line);
        tried(are(table, both_tables[i], 33) && are(packet, LIST(TO_SERVER, 0)), name, line);
        free(table);
        free(packet);
        free(answer);
    }
}

static void unnumbered(const char *name, int line, size_t table_bytes, size_t priority_bytes, size_t chain_bytes,
                       size_t answer_bytes)
{
    for (int i = 0; i < 2; i++) {
        uint8_t *table = bytes_of(both_tables[i], 33), *answer = buffer(answer_bytes);
        uint8_t *priorities = buffer(priority_bytes), *chain = buffer(chain_bytes);
        uint32_t got = agent_number(table, table_bytes, priorities, priority_bytes, chain, chain_bytes, answer,
                                    answer_bytes);
        tried(got == 21, name, line);
        tried(old(answer, answer_bytes), name, line);
        tried(old(priorities, priority_bytes) && old(chain, chain_bytes), name, line);
        tried(are(table, both_tables[i], 33), name, line);
        free(table);
        free(priorities);
        free(chain);
        free(answer);
    }
}

static void try_wrong_lengths(void)
{
    static const size_t answers[] = {0, 4, 12, 15, 17, 20, 32};
    for (size_t i = 0; i < sizeof answers / sizeof *answers; i++) {
        unscanned("an answer not of 16 bytes", __LINE__, 132, 24, answers[i]);
        unscanned("an answer not of 16 bytes, and 11", __LINE__, 132, 20, answers[i]);
        unscanned("an answer not of 16 bytes, and 15", __LINE__, 128, 24, answers[i]);
        unnumbered("an answer not of 16 bytes, numbered", __LINE__, 132, 12, 12, answers[i]);
        unnumbered("an answer not of 16 bytes, and 15, numbered", __LINE__, 128, 12, 12, answers[i]);
        unnumbered("an answer not of 16 bytes, and 17", __LINE__, 132, 8, 8, answers[i]);
    }
    for (size_t more = 1; more < 4; more++) {
        unscanned("a table not of whole words", __LINE__, 128 + more, 24, 16);
        unscanned("a table not of whole words, and 11", __LINE__, 128 + more, 20, 16);
        unscanned("less than a word of a table", __LINE__, more, 24, 16);
        unscanned("a packet not of whole words", __LINE__, 132, 20 + more, 16);
        unscanned("a packet not of whole words, longer", __LINE__, 132, 24 + more, 16);
        unscanned("less than a word of a packet", __LINE__, 132, more, 16);
        unscanned("a packet not of whole words, and 15", __LINE__, 128, 24 + more, 16);
        unnumbered("a table not of whole words, numbered", __LINE__, 128 + more, 12, 12, 16);
        unnumbered("less than a word of a table, numbered", __LINE__, more, 12, 12, 16);
        unnumbered("a table not of whole words, and 17", __LINE__, 128 + more, 8, 8, 16);
        unnumbered("priorities not of whole words", __LINE__, 132, 12 + more, 12, 16);
        unnumbered("priorities not of whole words, and 17", __LINE__, 132, 8 + more, 12, 16);
        unnumbered("priorities not of whole words, and 15", __LINE__, 128, 12 + more, 12, 16);
        unnumbered("a chain not of whole words", __LINE__, 132, 12, 12 + more, 16);
        unnumbered("a chain not of whole words, and 17", __LINE__, 132, 12, 8 + more, 16);
        unnumbered("a chain not of whole words, and 15", __LINE__, 128, 12, 12 + more, 16);
    }
    uint8_t *table = bytes_of(LIST(TENANT)), *packet = bytes_of(LIST(TO_SERVER));
    TRY("a null answer of 0 bytes", agent_scan(table, 132, packet, 24, NULL, 0) == 21);
    TRY("a null answer of 0 bytes, numbered", agent_number(NULL, 0, NULL, 0, NULL, 0, NULL, 0) == 21);
    free(table);
    free(packet);
}

/* All buffers at each distance from a multiple of 4, so also at odd addresses. */
static void try_addresses(void)
{
    for (size_t by = 0; by < 4; by++) {
        uint8_t *table = buffer(132 + by), *packet = buffer(24 + by), *answer = buffer(16 + by);
        uint8_t *priorities = buffer(12 + by), *chain = buffer(12 + by);
        uint8_t *rows = bytes_of(LIST(TENANT)), *values = bytes_of(LIST(0, 0, NEIGHBOUR, 6, 0, 0));
        memcpy(table + by, rows, 132);
        memcpy(packet + by, values, 24);
        TRY("an address, scanned", agent_scan(table + by, 132, packet + by, 24, answer + by, 16) == 0);
        TRY("an address, the scan's answer", old(answer, by) && are(answer + by, LIST(0, 2, 0, 2)));
        TRY("an address, numbered",
            agent_number(table + by, 132, priorities + by, 12, chain + by, 12, answer + by, 16) == 0);
        TRY("an address, the numbering's answer", old(answer, by) && are(answer + by, LIST(0, 3, 0, 0)));
        TRY("an address, priorities", old(priorities, by) && are(priorities + by, LIST(3, 2, 1)));
        TRY("an address, chain", old(chain, by) && are(chain + by, LIST(0, 1, 2)));
        free(table);
        free(packet);
        free(answer);
        free(priorities);
        free(chain);
        free(rows);
        free(values);
    }
}

/* The header's own functions and numbers. */
static void try_header(void)
{
    uint8_t *bytes = buffer(12);
    agent_put_word(bytes, 1, 0x04030201);
    TRY("agent_put_word", bytes[4] == 1 && bytes[5] == 2 && bytes[6] == 3 && bytes[7] == 4);
    TRY("agent_put_word, the rest", old(bytes, 4) && old(bytes + 8, 4));
    TRY("agent_word", agent_word(bytes, 1) == 0x04030201 && agent_word(bytes, 2) == 0xa5a5a5a5);
    free(bytes);
    TRY("lengths", AGENT_WORD_BYTES == 4 && AGENT_PACKET_BYTES == 24 && AGENT_ROW_BYTES == 44
            && AGENT_ANSWER_BYTES == 16 && AGENT_MOST_ROWS == 4096 && AGENT_MOST_BUFFER_BYTES == 16384);
    TRY("numbers", AGENT_DONE == 0 && AGENT_WRONG_PACKET == 11 && AGENT_WRONG_TABLE == 15 && AGENT_WRONG_ROW == 16
            && AGENT_SHORT_BUFFER == 17 && AGENT_WRONG_LENGTH == 21);
    static const uint32_t numbers[] = {0, 11, 15, 16, 17, 21, 14};
    for (int i = 0; i < 7; i++)
        for (int k = 0; k < i; k++)
            TRY("agent_refusal", strcmp(agent_refusal(numbers[i]), agent_refusal(numbers[k])) != 0);
}

int main(void)
{
    try_bytes();
    try_scan();
    try_wrong_packets();
    try_wrong_rows();
    try_wrong_tables();
    try_number();
    try_buffers();
    try_wrong_lengths();
    try_addresses();
    try_header();
    printf("%d tries, %d failed\n", tries, failures);
    return failures > 0;
}
