/*
 * agent TABLE PACKETS: prints the rows of a table with their priorities, and for each packet what a switch does with
 * it.
 *
 * Both files are texts of decimal words, as policies are: words are parted by blanks or newlines, and '#' starts a
 * comment that ends with its line. A row is 11 words, a packet six (docs/FORMAT.md).
 *
 * Exit status: 0 all was answered; 1 the table or a packet is refused; 2 no answer (a wrong call, a file that cannot
 * be read, a wrong word, no memory, an output that cannot be written).
 */
#include "qadhmuleh_agent.h"

#include <errno.h>
#include <inttypes.h>
#include <stdbool.h>
#include <stdio.h>
#include <stdlib.h>
#include <string.h>

enum status { ANSWERED = 0, REFUSED = 1, FAILED = 2 };

#define ROW_WORDS (AGENT_ROW_BYTES / AGENT_WORD_BYTES)
#define PACKET_WORDS (AGENT_PACKET_BYTES / AGENT_WORD_BYTES)

/* The words of a file as bytes, and the line that each stands in. */
struct words {
    const char *file;
    uint8_t *bytes;
    size_t *lines;
    size_t count;
};

/* Says why there is no answer, with the system's reason where there is one, and ends the program. */
static _Noreturn void fail(const char *what, const char *which, int reason)
{
    fflush(stdout);
    if (reason != 0)
        fprintf(stderr, "agent: %s%s: %s\n", what, which, strerror(reason));
    else
        fprintf(stderr, "agent: %s%s\n", what, which);
    exit(FAILED);
}

/* Memory for so many things of a size, all zero. */
static void *memory(size_t count, size_t size)
{
    void *all = calloc(count > 0 ? count : 1, size);
    if (all == NULL)
        fail("no memory", "", 0);
    return all;
}

/* A whole file, and its size. */
static unsigned char *read_file(const char *name, size_t *size)
{
    errno = 0;
    FILE *file = fopen(name, "rb");
    if (file == NULL)
        fail("cannot read ", name, errno);
    size_t room = 4096, used = 0, got;
    unsigned char *text = memory(room, 1);
    while ((got = fread(text + used, 1, room - used, file)) > 0) {
        used += got;
        if (used == room) {
            unsigned char *more = room <= SIZE_MAX / 2 ? realloc(text, 2 * room) : NULL;
            if (more == NULL)
                fail("no memory", "", 0);
            text = more;
            room *= 2;
        }
    }
    if (ferror(file))
        fail("cannot read ", name, errno);
    fclose(file);
    *size = used;
    return text;
}

/* Whether a byte ends a word: a blank, or the start of a comment. */
static bool ends_word(unsigned char byte)
{
    return byte == ' ' || byte == '\t' || byte == '\r' || byte == '\n' || byte == '#';
}

/* A file's text, a place in it, and the line of that place. */
struct text {
    const char *file;
    unsigned char *bytes;
    size_t size, at, line;
};

/* Goes on to the next word, over blanks and comments. Whether there is one. */
static bool find_word(struct text *text)
{
    bool comment = false;
    for (; text->at < text->size; text->at++) {
        unsigned char byte = text->bytes[text->at];
        if (byte == '\n') {
            text->line++;
            comment = false;
        } else if (byte == '#') {
            comment = true;
        } else if (!comment && !ends_word(byte)) {
            return true;
        }
    }
    return false;
}

/* Says that the text from a place on is no word, and ends the program. What cannot be printed of it becomes '?'. */
static _Noreturn void wrong_word(const struct text *text, size_t from)
{
    fprintf(stderr, "agent: not a decimal number up to %" PRIu32 ": ", UINT32_MAX);
    for (size_t i = from; i < text->at; i++)
        fputc(text->bytes[i] > ' ' && text->bytes[i] < 127 ? text->bytes[i] : '?', stderr);
    fprintf(stderr, ", line %zu of %s\n", text->line, text->file);
    exit(FAILED);
}

/* The word that stands at the place, which goes behind it. */
static uint32_t take_word(struct text *text)
{
    size_t from = text->at;
    uint64_t value = 0;
    for (; text->at < text->size && !ends_word(text->bytes[text->at]); text->at++) {
        unsigned char byte = text->bytes[text->at];
        /* Beyond the largest word, and behind what is no digit, it stays beyond. */
        bool right = value <= UINT32_MAX && byte >= '0' && byte <= '9';
        value = right ? 10 * value + (uint64_t)(byte - '0') : UINT64_MAX;
    }
    if (value > UINT32_MAX)
        wrong_word(text, from);
    return (uint32_t)value;
}

/* The words of a file. */
static struct words read_words(const char *file)
{
    struct text text = {file, NULL, 0, 0, 1};
    text.bytes = read_file(file, &text.size);
    /* Between two words stands a blank at least. */
    size_t most = text.size / 2 + 1;
    struct words words = {file, memory(most, AGENT_WORD_BYTES), memory(most, sizeof *words.lines), 0};
    while (find_word(&text)) {
        words.lines[words.count] = text.line;
        agent_put_word(words.bytes, words.count, take_word(&text));
        words.count++;
    }
    free(text.bytes);
    return words;
}

static void free_words(struct words words)
{
    free(words.bytes);
    free(words.lines);
}

static void print_address(uint32_t address)
{
    printf("%" PRIu32 ".%" PRIu32 ".%" PRIu32 ".%" PRIu32,
           address >> 24, address >> 16 & 255, address >> 8 & 255, address & 255);
}

/* A value that may be constrained, and the blank before it. */
static void print_value(bool constrained, uint32_t value)
{
    if (constrained)
        printf(" %" PRIu32, value);
    else
        printf(" *");
}

/* The line of a row, as a listing has it. */
static void print_row(const uint8_t *row, uint32_t priority)
{
    uint32_t flags = agent_word(row, AGENT_ROW_FLAGS);
    printf("%" PRIu32, priority);
    print_value(flags & AGENT_FLAG_IN_PORT, agent_word(row, AGENT_IN_PORT));
    putchar(' ');
    print_address(agent_word(row, AGENT_SOURCE));
    printf("/%" PRIu32 " ", agent_word(row, AGENT_ROW_SOURCE_LENGTH));
    print_address(agent_word(row, AGENT_DESTINATION));
    printf("/%" PRIu32, agent_word(row, AGENT_ROW_DESTINATION_LENGTH));
    print_value(flags & AGENT_FLAG_PROTOCOL, agent_word(row, AGENT_PROTOCOL));
    print_value(flags & AGENT_FLAG_SOURCE_PORT, agent_word(row, AGENT_SOURCE_PORT));
    print_value(flags & AGENT_FLAG_DESTINATION_PORT, agent_word(row, AGENT_DESTINATION_PORT));
    switch (agent_word(row, AGENT_ROW_KIND)) {
    case AGENT_ALLOW:
        puts(" allow");
        break;
    case AGENT_DENY:
        puts(" deny");
        break;
    case AGENT_RESERVE:
        printf(" gmb %" PRIu32 "\n", agent_word(row, AGENT_ROW_RATE));
        break;
    default:
        puts(" none");
    }
}

/* What a switch does with a packet, and which row says so. */
static void print_decision(size_t number, const uint8_t *packet, const struct words *table, const uint8_t *answer)
{
    size_t rows = table->count / ROW_WORDS;
    uint32_t kind = agent_word(answer, AGENT_ANSWER_KIND);
    uint32_t tried = agent_word(answer, AGENT_ANSWER_TRIED);
    printf("packet %zu (%" PRIu32 " ", number, agent_word(packet, AGENT_IN_PORT));
    print_address(agent_word(packet, AGENT_SOURCE));
    putchar(' ');
    print_address(agent_word(packet, AGENT_DESTINATION));
    printf(" %" PRIu32 " %" PRIu32 " %" PRIu32 "): ", agent_word(packet, AGENT_PROTOCOL),
           agent_word(packet, AGENT_SOURCE_PORT), agent_word(packet, AGENT_DESTINATION_PORT));
    switch (kind) {
    case AGENT_ALLOW:
        printf("allow");
        break;
    case AGENT_DENY:
        printf("deny");
        break;
    case AGENT_RESERVE:
        printf("reserve %" PRIu32 " kbit/s", agent_word(answer, AGENT_ANSWER_RATE));
        break;
    default:
        printf("nothing said");
    }
    /* Where nothing is said after the last row, that row may say don't care itself, or not be met. */
    if (kind != AGENT_DONT_CARE || tried < rows)
        printf(", by row %" PRIu32, tried - 1);
    else if (rows > 0 && agent_word(table->bytes + AGENT_ROW_BYTES * (rows - 1), AGENT_ROW_KIND) == AGENT_DONT_CARE)
        printf(", by row %" PRIu32 " or by none", tried - 1);
    else
        printf(", by no row");
    printf("; rows tried: %" PRIu32 "\n", tried);
}

/* Some words as they stand in their file. */
static void print_words(const struct words *words, size_t from, size_t many)
{
    printf("line %zu of %s,", words->lines[from], words->file);
    for (size_t i = 0; i < many; i++)
        printf(" %" PRIu32, agent_word(words->bytes, from + i));
}

/* Prints the first words of a list in one line. */
static void print_list(const char *name, const uint8_t *list, uint32_t many)
{
    printf("%s", name);
    for (uint32_t i = 0; i < many; i++)
        printf(" %" PRIu32, agent_word(list, i));
    putchar('\n');
}

/* Prints why a table is refused, and where. */
static void print_wrong_table(const struct words *table, uint32_t number, uint32_t place)
{
    printf("refused %" PRIu32 " %" PRIu32 "\n", number, place);
    if (number == AGENT_WRONG_ROW) {
        printf("row %" PRIu32 ", ", place);
        print_words(table, ROW_WORDS * (size_t)place, ROW_WORDS);
    } else {
        printf("%s, %zu words", table->file, table->count);
    }
    printf(": %s\n", agent_refusal(number));
}

/* Prints a table with its priorities and the chain that forces them, or its refusal. */
static enum status show_table(const struct words *table)
{
    size_t rows = table->count / ROW_WORDS, bytes = AGENT_WORD_BYTES * rows;
    uint8_t *priorities = memory(rows, AGENT_WORD_BYTES), *chain = memory(rows, AGENT_WORD_BYTES);
    uint8_t answer[AGENT_ANSWER_BYTES];
    uint32_t number = agent_number(table->bytes, AGENT_WORD_BYTES * table->count, priorities, bytes, chain, bytes,
                                   answer, sizeof answer);
    if (number == AGENT_DONE) {
        uint32_t levels = agent_word(answer, AGENT_ANSWER_PRIORITIES);
        printf("rows %zu priorities %" PRIu32 "\n", rows, levels);
        for (size_t i = 0; i < rows; i++)
            print_row(table->bytes + AGENT_ROW_BYTES * i, agent_word(priorities, i));
        print_list("chain", chain, levels);
    } else {
        print_wrong_table(table, number, agent_word(answer, AGENT_ANSWER_PLACE));
    }
    free(priorities);
    free(chain);
    return number == AGENT_DONE ? ANSWERED : REFUSED;
}

/* Prints for each packet what a switch does with it, up to the first that is refused. */
static enum status show_packets(const struct words *table, const struct words *packets)
{
    for (size_t from = 0; from < packets->count; from += PACKET_WORDS) {
        /* The last may be too short; that is for the scan to say. */
        size_t left = packets->count - from, many = left < PACKET_WORDS ? left : PACKET_WORDS;
        const uint8_t *packet = packets->bytes + AGENT_WORD_BYTES * from;
        uint8_t answer[AGENT_ANSWER_BYTES];
        uint32_t number = agent_scan(table->bytes, AGENT_WORD_BYTES * table->count, packet, AGENT_WORD_BYTES * many,
                                     answer, sizeof answer);
        if (number != AGENT_DONE) {
            printf("refused %" PRIu32 " %" PRIu32 "\n", number, agent_word(answer, AGENT_ANSWER_PLACE));
            printf("packet %zu, ", from / PACKET_WORDS);
            print_words(packets, from, many);
            printf(": %s\n", agent_refusal(number));
            return REFUSED;
        }
        print_decision(from / PACKET_WORDS, packet, table, answer);
    }
    return ANSWERED;
}

int main(int argc, char **argv)
{
    if (argc != 3)
        fail("usage: agent TABLE PACKETS", "", 0);
    struct words table = read_words(argv[1]), packets = read_words(argv[2]);
    enum status status = show_table(&table);
    if (status == ANSWERED)
        status = show_packets(&table, &packets);
    free_words(table);
    free_words(packets);
    errno = 0;
    if (fflush(stdout) != 0 || ferror(stdout))
        fail("cannot write standard output", "", errno);
    return (int)status;
}
