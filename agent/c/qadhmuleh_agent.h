/*
 * qadhmuleh_agent.h: the scan of a switch's table for a packet, and the numbering of its rows. For C11 and C++11.
 *
 * Tables, packets and buffers are bytes: words of 32 bits, of each word the lowest byte first (little-endian), on
 * every machine. What the words mean, and every answer that a call can give: docs/FORMAT.md; its section "The agent's
 * calls" is that of this header. Words, rows and places are counted from 0.
 *
 * Both functions are proved, for every content and length of what is lent: the answer is the one that docs/FORMAT.md
 * states, that of the same function over the words that the bytes are; nothing else is written; nothing undefined is
 * done; and the call returns. What a proof cannot see, and no call checks, the caller must see to:
 *
 *   - Each pointer is good for as many bytes as its length says: table and packet for reading, priorities, chain and
 *     answer for writing. With length 0 any pointer will do, a null pointer too.
 *   - A buffer that a call writes (priorities, chain, answer) overlaps no other buffer of that call. Table and packet
 *     are only read, and may overlap.
 *   - While a call runs, no other thread writes what it reads, or touches what it writes.
 *
 * No more is asked. No pointer must be aligned: the table is read where it lies, in a packet buffer or a mapped file.
 * A call takes no memory but next to no stack, and keeps nothing for the next: any number of threads may call at once,
 * over the same table too.
 */
#ifndef QADHMULEH_AGENT_H
#define QADHMULEH_AGENT_H

#include <stddef.h>
#include <stdint.h>

#ifdef __cplusplus
extern "C" {
#endif

#define AGENT_WORD_BYTES 4
#define AGENT_PACKET_BYTES 24
#define AGENT_ROW_BYTES 44
#define AGENT_ANSWER_BYTES 16
#define AGENT_MOST_ROWS 4096

/* A priority buffer and a chain buffer of so many bytes are long enough for every table. */
#define AGENT_MOST_BUFFER_BYTES (AGENT_WORD_BYTES * AGENT_MOST_ROWS)

/* What a call returns: 0, or the number of a refusal. Where several are right, the first in the call's order. */
enum agent_status {
    AGENT_DONE = 0,

    /* Scan. The packet is not of 24 bytes, or a value is beyond its range: in-port and ports 0..65535, protocol
     * 0..255. One number for all of these, and its place is 0. The cure: six words, each value in a word of its own. */
    AGENT_WRONG_PACKET = 11,

    /* Both. The table is not whole rows of 44 bytes, or has more than 4,096 of them. Its place is 0. The cure: lend
     * just the rows that the compile counted; where they are too many, take the hidden ones out first. */
    AGENT_WRONG_TABLE = 15,

    /* Both. A row is wrong: a wrong match, one that no packet can meet, or a wrong action. Its place is the first such
     * row; every row is tested, also behind the one that decides. The cure: the table as the compile wrote it, in
     * little-endian words, from its first byte. */
    AGENT_WRONG_ROW = 16,

    /* Numbering. The priority buffer or the chain buffer has fewer words than the table has rows. Its place is 0. The
     * cure: 4 bytes for each row in both of them, or AGENT_MOST_BUFFER_BYTES. */
    AGENT_SHORT_BUFFER = 17,

    /* Both, before all others. A length is not a multiple of 4, or that of the answer is not 16. Nothing is written,
     * not even the answer, so there is no place. The cure: lengths in bytes, not in words or rows. */
    AGENT_WRONG_LENGTH = 21
};

/* The words of an answer. A refusal other than 21 has its place, and 0 in the other three. */
enum agent_answer_word {
    AGENT_ANSWER_PLACE = 0,      /* both: the place of a refusal; 0 where there is none */
    AGENT_ANSWER_KIND = 1,       /* scan: the action's kind */
    AGENT_ANSWER_RATE = 2,       /* scan: its rate, in kbit/s; 0 where it reserves nothing */
    AGENT_ANSWER_TRIED = 3,      /* scan: how many rows were tried */
    AGENT_ANSWER_PRIORITIES = 1  /* numbering: how many priorities there are; words 2 and 3 are 0 */
};

/* The kinds of an action. Their rate is 0, but for the last: 1..100000000 kbit/s. */
enum agent_kind { AGENT_DONT_CARE = 0, AGENT_ALLOW = 1, AGENT_DENY = 2, AGENT_RESERVE = 3 };

/* The words of a packet, and of a row, which begins with the same six. */
enum agent_packet_word {
    AGENT_IN_PORT = 0,
    AGENT_SOURCE = 1,
    AGENT_DESTINATION = 2,
    AGENT_PROTOCOL = 3,
    AGENT_SOURCE_PORT = 4,
    AGENT_DESTINATION_PORT = 5
};
enum agent_row_word {
    AGENT_ROW_SOURCE_LENGTH = 6,       /* the prefix length of the source, 0..32 */
    AGENT_ROW_DESTINATION_LENGTH = 7,  /* that of the destination */
    AGENT_ROW_FLAGS = 8,               /* which of the other four values are constrained, a sum of agent_flag */
    AGENT_ROW_KIND = 9,
    AGENT_ROW_RATE = 10
};
enum agent_flag {
    AGENT_FLAG_IN_PORT = 1,
    AGENT_FLAG_PROTOCOL = 2,
    AGENT_FLAG_SOURCE_PORT = 4,
    AGENT_FLAG_DESTINATION_PORT = 8
};

/*
 * Scans a table for a packet: the action of the first row that the packet meets.
 *
 *   table, table_bytes    rows of 44 bytes, 4,096 at most. No bytes are a table of no rows
 *   packet, packet_bytes  24 bytes
 *   answer, answer_bytes  16 bytes, all of which are written unless 21 is returned
 *
 * Returns 0, and the answer is 0, the action's kind, its rate, and how many rows were tried. The row that decided is
 * the last that was tried, at place tried - 1. Where no row is met, the kind is AGENT_DONT_CARE and all rows were
 * tried. Or returns the number of a refusal, tested in the order 21, 11, 15, 16; the answer is then its place and
 * three zeros, or, with 21, as it was.
 */
uint32_t agent_scan(const uint8_t *table, size_t table_bytes,
                    const uint8_t *packet, size_t packet_bytes,
                    uint8_t *answer, size_t answer_bytes);

/*
 * Numbers the rows of a table with the fewest priorities, so that a switch that obeys the matching row of highest
 * priority does what the scan does.
 *
 *   table, table_bytes          as above
 *   priorities, priority_bytes  at least one word for each row
 *   chain, chain_bytes          at least one word for each row
 *   answer, answer_bytes        16 bytes, all of which are written unless 21 is returned
 *
 * Returns 0, and the answer is 0, the number L of priorities, 0, 0. Word i of priorities is that of row i, 1..L, and
 * the first L words of chain are the places of rows of which each overlaps the next: fewer priorities than L cannot
 * do. All words behind these stay as they were. Or returns the number of a refusal, tested in the order 21, 15, 16,
 * 17; the answer is then its place and three zeros, or, with 21, as it was, and both buffers stay as they were.
 */
uint32_t agent_number(const uint8_t *table, size_t table_bytes,
                      uint8_t *priorities, size_t priority_bytes,
                      uint8_t *chain, size_t chain_bytes,
                      uint8_t *answer, size_t answer_bytes);

#ifdef __cplusplus
}
#endif

/* Word number `word` of some bytes, on every machine. */
static inline uint32_t agent_word(const uint8_t *bytes, size_t word)
{
    const uint8_t *at = bytes + AGENT_WORD_BYTES * word;
    return (uint32_t)at[0] | (uint32_t)at[1] << 8 | (uint32_t)at[2] << 16 | (uint32_t)at[3] << 24;
}

/* Stores a value as that word. */
static inline void agent_put_word(uint8_t *bytes, size_t word, uint32_t value)
{
    uint8_t *at = bytes + AGENT_WORD_BYTES * word;
    at[0] = (uint8_t)(value & 0xff);
    at[1] = (uint8_t)(value >> 8 & 0xff);
    at[2] = (uint8_t)(value >> 16 & 0xff);
    at[3] = (uint8_t)(value >> 24 & 0xff);
}

/* What a number that a call returned says, and the likely cure, as a text that stays valid. */
static inline const char *agent_refusal(uint32_t number)
{
    switch (number) {
    case AGENT_DONE:
        return "no refusal";
    case AGENT_WRONG_PACKET:
        return "a packet is six words, of which in-port and ports are up to 65535, the protocol up to 255; "
               "put each value into a word of its own";
    case AGENT_WRONG_TABLE:
        return "a table is whole rows of 11 words, and 4096 of them at most; lend just the rows that the compile "
               "counted, without the hidden ones if they are too many";
    case AGENT_WRONG_ROW:
        return "the row has a wrong match, one that no packet can meet, or a wrong action; lend the table as the "
               "compile wrote it, of each word the lowest byte first";
    case AGENT_SHORT_BUFFER:
        return "the priority buffer or the chain buffer is too short; give each 4 bytes for each row, or 16384";
    case AGENT_WRONG_LENGTH:
        return "a length is not a multiple of 4, or that of the answer is not 16; give lengths in bytes";
    default:
        return "a number that docs/FORMAT.md does not give to these calls; are header and library of one version?";
    }
}

#endif
