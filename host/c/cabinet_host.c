/* A sample host: keeps one cabinet by the rules of a file, and obeys commands from standard input.
 *
 *     cabinet_host RULES.eb3
 *
 * There are two terms and two memories. The engine reads the current pair and writes the other, and
 * after a move the two are exchanged by their index: nothing is copied, and a refused move leaves
 * the state as it was. Every move that is asked for is recorded with its card reader; at the end
 * the engine runs the whole list again, to fill the table of each reader's refusals. A controller
 * needs the buffers and the functions under "the engine"; the rest, with input.c, reads commands
 * and prints.
 */
#define _POSIX_C_SOURCE 200112L

#include "eb3.h"
#include "input.h"

#include <errno.h>
#include <inttypes.h>
#include <pthread.h>
#include <stdbool.h>
#include <stdio.h>
#include <string.h>

/* The engine's stack, and room for the functions here and in the C library. */
#define HOST_STACK_BYTES 131072
#define STACK_BYTES (EB3_STACK_BYTES + HOST_STACK_BYTES)

/* The program's exit statuses. */
enum status {
    STATUS_DONE = 0,
    STATUS_USAGE = 1,   /* called with wrong arguments */
    STATUS_FILE = 2,    /* the rule file cannot be read, or is too long */
    STATUS_REFUSED = 3, /* the engine refuses the rule set */
    STATUS_BROKEN = 4   /* no thread with such a stack, or nothing can be printed */
};

/* The largest that any rule set needs; for one rule set the sizes from eb3_admit are enough.
 * The buffer for the rules has one byte more, so that a file that is too long is noticed. */
static uint8_t rules[EB3_MAX_RULES_BYTES + 1];
static uint8_t terms[2][EB3_MAX_TERM_BYTES];
static uint8_t memories[2][EB3_MAX_MEMORY_BYTES];

/* The moves asked for, as eb3_run takes them: two words each, a move's number and its reader. When
 * the list is full, the session ends. */
#define MOST_ASKED 4096
static uint8_t asked[MOST_ASKED * 2 * sizeof(uint16_t)];
static uint8_t table[EB3_TABLE_BYTES];

struct cabinet {
    const char *path;
    size_t rules_len;
    size_t term_len; /* of the current term, in bytes */
    uint32_t cells;
    unsigned current; /* 0 or 1: which term and memory are the state; the others are free */
    unsigned reader;  /* at which moves are asked for now */
    size_t asked_len; /* of the moves asked for, in bytes */
    int status;
};

/* ---- the engine, called on the buffers ---- */

/* All but `count` write into the free pair; `settle` then makes that pair the state. */
static eb3_started start(const struct cabinet *cabinet)
{
    unsigned next = 1 - cabinet->current;
    return eb3_start(rules, cabinet->rules_len, terms[next], sizeof terms[next],
                     memories[next], sizeof memories[next]);
}

static eb3_counted count(const struct cabinet *cabinet)
{
    unsigned now = cabinet->current;
    return eb3_count(rules, cabinet->rules_len, terms[now], cabinet->term_len,
                     memories[now], sizeof memories[now]);
}

static eb3_moved move(const struct cabinet *cabinet, uint64_t number)
{
    unsigned now = cabinet->current, next = 1 - now;
    return eb3_move(rules, cabinet->rules_len, terms[now], cabinet->term_len,
                    memories[now], sizeof memories[now], number,
                    terms[next], sizeof terms[next], memories[next], sizeof memories[next]);
}

static eb3_moved present(const struct cabinet *cabinet, const uint8_t *event, size_t event_len)
{
    unsigned now = cabinet->current, next = 1 - now;
    return eb3_present(rules, cabinet->rules_len, terms[now], cabinet->term_len,
                       memories[now], sizeof memories[now], event, event_len,
                       terms[next], sizeof terms[next], memories[next], sizeof memories[next]);
}

static void settle(struct cabinet *cabinet, uint32_t size)
{
    cabinet->current = 1 - cabinet->current;
    cabinet->term_len = EB3_TERM_BYTES(size);
}

/* Runs the whole session again, from the start. The result is written to the free pair, and the
 * current pair is used as scratch, so no move can be made afterwards. */
static eb3_ran run(const struct cabinet *cabinet)
{
    unsigned now = cabinet->current, next = 1 - now;
    return eb3_run(rules, cabinet->rules_len, asked, cabinet->asked_len, table, sizeof table,
                   terms[next], sizeof terms[next], memories[next], sizeof memories[next],
                   terms[now], sizeof terms[now], memories[now], sizeof memories[now]);
}

/* Appends a number and the current reader to the list of moves asked for. No term has a move 65535,
 * so that number stands for every larger one, and for a refused event. */
static void note(struct cabinet *cabinet, uint64_t number)
{
    uint64_t word = number < UINT16_MAX ? number : UINT16_MAX;
    cabinet->asked_len = put_word(asked, cabinet->asked_len, word);
    cabinet->asked_len = put_word(asked, cabinet->asked_len, cabinet->reader);
}

/* The number of the move that eb3_present made, for the list of a run: the first with its action.
 * This makes the moves in turn, that one last, so the free pair holds what eb3_present left. */
static uint64_t number_of(const struct cabinet *cabinet, eb3_moved made)
{
    if (made.refusal != EB3_DONE)
        return UINT16_MAX;
    for (uint64_t number = 0;; number++) {
        eb3_moved other = move(cabinet, number);
        if (other.refusal != EB3_DONE
            || (other.visible == made.visible && other.label == made.label
                && other.first == made.first && other.second == made.second))
            return number;
    }
}

/* ---- printing ---- */

static const char *refusal_in_words(uint32_t refusal)
{
    static const char *const words[] = {
        "done",
        "length: it is not 1 to 64 whole blocks",
        "block: a block's number or sum is wrong",
        "edition: it is of another edition, or its number of blocks is wrong",
        "form: a count, size, code or constant is out of range, or the rules end wrongly",
        "reference: a number or mask bit is not defined, or not allowed there",
        "kind: an argument's domain or constant does not fit",
        "size: its terms could grow past 8192 words",
        "breadth: it could offer more than 65535 moves",
        "space: a buffer is too small",
        "term: the term kept here is none of this rule set",
        "stranger: this rule set has no such event",
        "not offered: there is no such move now",
        "reader: a reader is missing or not 1 to 32, or the table is too small"
    };
    return refusal < sizeof words / sizeof words[0] ? words[refusal] : "unknown";
}

static void print_refusal(FILE *out, uint32_t refusal)
{
    fprintf(out, "refused %" PRIu32 ", %s\n", refusal, refusal_in_words(refusal));
}

/* Prints a move's action, or its refusal. */
static void print_move(eb3_moved made)
{
    if (made.refusal != EB3_DONE) {
        print_refusal(stdout, made.refusal);
        return;
    }
    if (made.visible == 0)
        printf("internal");
    else
        printf("event %" PRIu32, made.label);
    if (made.arguments > 0)
        printf(" %" PRIu32, made.first);
    if (made.arguments > 1)
        printf(" %" PRIu32, made.second);
    printf("\n");
}

static void print_help(void)
{
    printf("list                     the moves there are now\n"
           "take N                   make move N\n"
           "present LABEL [ARG..]    make the first move that is this event\n"
           "present i                make the first internal move\n"
           "reader N                 ask at card reader N from now on, 1 to 32\n"
           "cells                    the memory, - where undefined\n"
           "quit                     end\n"
           "refusals\n");
    for (uint32_t refusal = EB3_REFUSED_LENGTH; refusal <= EB3_REFUSED_READER; refusal++)
        printf("%8" PRIu32 "  %s\n", refusal, refusal_in_words(refusal));
}

/* ---- commands ---- */

static void list_moves(const struct cabinet *cabinet)
{
    eb3_counted counted = count(cabinet);
    if (counted.refusal != EB3_DONE) {
        print_refusal(stdout, counted.refusal);
        return;
    }
    printf("moves %" PRIu32 "\n", counted.moves);
    for (uint32_t number = 0; number < counted.moves; number++) {
        printf("%8" PRIu32 "  ", number);
        print_move(move(cabinet, number)); /* without settle, the state stays as it is */
    }
}

static void print_cells(const struct cabinet *cabinet)
{
    const uint8_t *memory = memories[cabinet->current];
    printf("cells");
    for (uint32_t cell = 0; cell < cabinet->cells; cell++) {
        unsigned value = memory[2 * cell] + 256u * memory[2 * cell + 1];
        if (value == EB3_UNDEFINED)
            printf(" -");
        else
            printf(" %u", value);
    }
    printf("\n");
}

static uint32_t read_count(const uint8_t *bytes)
{
    return bytes[0] + 256u * bytes[1] + 65536u * bytes[2] + 16777216u * bytes[3];
}

/* Prints the counts of each reader at which a move was asked for. */
static void print_readers(const struct cabinet *cabinet)
{
    eb3_ran ran = run(cabinet);
    if (ran.refusal != EB3_DONE) {
        print_refusal(stdout, ran.refusal);
        return;
    }
    for (unsigned reader = 1; reader <= EB3_READERS; reader++) {
        const uint8_t *record = table + EB3_TABLE_BYTES / EB3_READERS * (reader - 1);
        uint32_t visible = read_count(record), internal = read_count(record + 4);
        uint32_t refused = read_count(record + 8);
        if (visible > 0 || internal > 0 || refused > 0)
            printf("reader %u: %" PRIu32 " visible, %" PRIu32 " internal, %" PRIu32 " refused\n",
                   reader, visible, internal, refused);
    }
}

static void conclude(struct cabinet *cabinet, uint64_t number, eb3_moved made)
{
    note(cabinet, number);
    if (made.refusal == EB3_DONE) {
        settle(cabinet, made.size);
        printf("made ");
    }
    print_move(made);
}

/* Returns whether the words are a command. */
static bool obey(struct cabinet *cabinet, char *const words[], size_t used)
{
    if (used == 1 && strcmp(words[0], "list") == 0) {
        list_moves(cabinet);
    } else if (used == 1 && strcmp(words[0], "cells") == 0) {
        print_cells(cabinet);
    } else if (used == 1 && strcmp(words[0], "help") == 0) {
        print_help();
    } else if (used == 2 && strcmp(words[0], "take") == 0) {
        uint64_t number;
        if (!read_number(words[1], UINT64_MAX, &number))
            return false;
        conclude(cabinet, number, move(cabinet, number));
    } else if (used >= 2 && used <= 4 && strcmp(words[0], "present") == 0) {
        uint8_t event[EB3_MAX_EVENT_BYTES];
        size_t length = read_event(words + 1, used - 1, event);
        if (length == 0)
            return false;
        eb3_moved made = present(cabinet, event, length);
        conclude(cabinet, number_of(cabinet, made), made);
    } else if (used == 2 && strcmp(words[0], "reader") == 0) {
        uint64_t reader;
        if (!read_number(words[1], EB3_READERS, &reader) || reader == 0)
            return false;
        cabinet->reader = (unsigned)reader;
        printf("reader %u\n", cabinet->reader);
    } else {
        return false;
    }
    return true;
}

/* ---- the session ---- */

static void converse(struct cabinet *cabinet)
{
    char line[LINE_BYTES];
    char *words[LINE_WORDS];
    while (cabinet->asked_len < sizeof asked && read_line(line)) {
        size_t used = split(line, words);
        if (used == 0)
            continue;
        if (used == 1 && strcmp(words[0], "quit") == 0)
            return;
        if (!obey(cabinet, words, used))
            printf("not a command; try help\n");
        fflush(stdout); /* the answer is seen before the next command, through a pipe too */
    }
}

static int open_cabinet(struct cabinet *cabinet)
{
    eb3_sizes sizes = eb3_admit(rules, cabinet->rules_len);
    eb3_started started = start(cabinet);
    /* Start refuses all that Admit refuses, so one test is enough. */
    if (started.refusal != EB3_DONE) {
        fprintf(stderr, "%s: ", cabinet->path);
        print_refusal(stderr, started.refusal);
        return STATUS_REFUSED;
    }
    settle(cabinet, started.size);
    cabinet->cells = sizes.cells;
    printf("%s: %" PRIu32 " cells, terms of at most %" PRIu32 " words, at most %" PRIu32 " moves\n",
           cabinet->path, sizes.cells, sizes.reach, sizes.breadth);
    fflush(stdout);
    return STATUS_DONE;
}

/* The work of the thread that has the engine's stack. */
static void *serve(void *argument)
{
    struct cabinet *cabinet = argument;
    cabinet->status = open_cabinet(cabinet);
    if (cabinet->status == STATUS_DONE) {
        converse(cabinet);
        print_readers(cabinet);
    }
    return NULL;
}

/* Runs the work in a thread with that stack and waits for its end; returns 0 or an error number. */
static int run_on_stack(void *(*work)(void *), void *argument)
{
    pthread_attr_t attributes;
    pthread_t thread;
    int error = pthread_attr_init(&attributes);
    if (error != 0)
        return error;
    error = pthread_attr_setstacksize(&attributes, STACK_BYTES);
    if (error == 0)
        error = pthread_create(&thread, &attributes, work, argument);
    if (error == 0)
        error = pthread_join(thread, NULL);
    pthread_attr_destroy(&attributes);
    return error;
}

static int complain(const char *path, const char *what)
{
    fprintf(stderr, "%s: %s\n", path, what);
    return STATUS_FILE;
}

static int read_rules(struct cabinet *cabinet)
{
    FILE *file = fopen(cabinet->path, "rb");
    if (file == NULL)
        return complain(cabinet->path, strerror(errno));
    cabinet->rules_len = fread(rules, 1, sizeof rules, file);
    bool failed = ferror(file) != 0;
    fclose(file);
    if (failed)
        return complain(cabinet->path, "cannot be read");
    if (cabinet->rules_len > EB3_MAX_RULES_BYTES)
        return complain(cabinet->path, "longer than 64 blocks");
    return STATUS_DONE;
}

int main(int argc, char **argv)
{
    struct cabinet cabinet = {.reader = 1};
    if (argc != 2) {
        fprintf(stderr, "usage: cabinet_host RULES.eb3\n");
        return STATUS_USAGE;
    }
    cabinet.path = argv[1];
    int status = read_rules(&cabinet);
    if (status != STATUS_DONE)
        return status;
    int error = run_on_stack(serve, &cabinet);
    if (error != 0) {
        fprintf(stderr, "no thread with a stack of %d bytes: %s\n", STACK_BYTES, strerror(error));
        return STATUS_BROKEN;
    }
    if (fflush(stdout) != 0 || ferror(stdout)) {
        fprintf(stderr, "the answers could not be printed\n");
        return STATUS_BROKEN;
    }
    return cabinet.status;
}
