/* eb3.h: the rule engine of a tool cabinet, as a C host calls it.
 *
 * A rule set is a file of 1 to 64 blocks of 512 bytes. It says which events may follow which, and
 * by attribute functions, with one cell for each element of a function's domain, who holds what.
 * A cabinet's state is a term (what may still happen) and a memory (the cells). The host keeps
 * both, as bytes, and lends them to each call:
 *
 *     eb3_admit      is this a rule set, and how much room does it need?
 *     eb3_start      writes the term and the memory of an untouched cabinet
 *     eb3_count      how many moves are there now?
 *     eb3_move       makes move number k: writes the next term and the next memory
 *     eb3_present    makes the first move that is a given event
 *     eb3_run        makes a whole list of moves from the start, and counts them by card reader
 *
 * What the host owes
 *   Slices      A slice is a pointer and its length in bytes. All its bytes are there, and nobody
 *               else writes them until the call returns. With length 0 any pointer will do, NULL
 *               too.
 *   Overlap     A slice that is written (its pointer is not const) overlaps no other slice of the
 *               call. Slices that are only read may overlap, or be the same.
 *   Alignment   None: a slice may begin at any address.
 *   Stack       EB3_STACK_BYTES free at the call.
 *   Terms       A given term comes with its exact length, EB3_TERM_BYTES(size), for the size that
 *               was returned when it was written; not with the length of the buffer it is in.
 *   Machine     Addresses of 64 bits (this header refuses to compile for others).
 *   Linking     The library calls memcpy and memset, and nothing else: no heap, no files.
 * Nothing else is asked: whatever the bytes and numbers are, the call returns, with the answer that
 * is specified below.
 *
 * What the host may count on
 *   State       No call keeps anything or trusts an earlier one: each reads the rule set again. So
 *               threads may call at the same time, each with slices of its own to write to, a table
 *               of its own too. To continue after a power cut a host needs the rules, the term, its
 *               size and the memory, and the table if its counts are to continue.
 *   Answers     `refusal` is EB3_DONE, or the number of a refusal: then the other fields are 0 and
 *               no slice was written, the table and the spare ones of eb3_run included.
 *   Room        Buffers of the sizes that eb3_admit reports are enough for every term and memory
 *               that moves lead to from the start: no move enlarges what a term needs. So a host
 *               that starts, and then moves between two pairs of such buffers in turn, gets no
 *               refusal but EB3_REFUSED_NOT_OFFERED, and ends with what eb3_run leaves (proved:
 *               docs/PROMISES.md).
 *   Bytes       Words and cells are 16 bits, counts in a table 32, the low byte first. Bytes after
 *               what an operation writes keep their values. An odd last byte is ignored and kept;
 *               only a given term or event is refused for having one.
 */
#ifndef EB3_H
#define EB3_H

#include <stddef.h>
#include <stdint.h>

#if UINTPTR_MAX < 0xffffffffffffffff
#error "eb3.h: the engine needs addresses of 64 bits"
#endif

#ifdef __cplusplus
extern "C" {
#endif

/* Stack for a call of any operation, in bytes (4 MiB); measurements are in docs/BENCHMARKS.md. */
#define EB3_STACK_BYTES 4194304

/* Sizes in bytes, from the numbers that eb3_admit reports: EB3_TERM_BYTES(reach) of a term buffer,
 * EB3_TERM_BYTES(size) of a term in it, EB3_MEMORY_BYTES(cells) of a memory. */
#define EB3_TERM_BYTES(words) (sizeof(uint16_t) * (words))
#define EB3_MEMORY_BYTES(cells) (sizeof(uint16_t) * (cells))

/* The most that any rule set needs, in bytes: 8,192 words of a term, 1,024 cells, 64 blocks. */
#define EB3_MAX_TERM_BYTES 16384
#define EB3_MAX_MEMORY_BYTES 2048
#define EB3_MAX_RULES_BYTES 32768

/* The word of a cell whose value is undefined; every other word is a number up to 65,534. */
#define EB3_UNDEFINED 65535

/* An event for eb3_present is the word EB3_EVENT_INTERNAL alone; or EB3_EVENT_ACTION, the label, and
 * for each of the label's parameters EB3_EVENT_CONSTANT and the element's number: up to six
 * words. */
#define EB3_EVENT_INTERNAL 20
#define EB3_EVENT_ACTION 21
#define EB3_EVENT_CONSTANT 1
#define EB3_MAX_EVENT_BYTES 12

/* Card readers have the numbers 1 to EB3_READERS. A table for eb3_run has a record of 12 bytes for
 * each, reader 1's first: three counts of 32 bits, of the reader's numbers that made an event, that
 * made an internal move, and that were refused, in this order. Those of reader r begin at the bytes
 * 12 * (r - 1), 12 * (r - 1) + 4 and 12 * (r - 1) + 8. */
#define EB3_READERS 32
#define EB3_TABLE_BYTES (12 * EB3_READERS)

/* Refusals. They are tested in the order 1 to 8, 10, 11, 9, 12, in eb3_run 13 after 9, and the
 * first that applies is returned; of 4, 5 and 6 the one at the first wrong word of the rules, and
 * at one word 4 before 5 before 6. The comment of each operation lists those it can return. */
enum eb3_refusal {
    EB3_DONE = 0,                 /* not refused */
    EB3_REFUSED_LENGTH = 1,       /* the rules are not 1 to 64 whole blocks */
    EB3_REFUSED_BLOCK = 2,        /* a block's number or sum is wrong */
    EB3_REFUSED_EDITION = 3,      /* word 0 is not 1, or word 1 is not the number of blocks */
    EB3_REFUSED_FORM = 4,         /* a count, size, code or constant out of range, or a wrong end */
    EB3_REFUSED_REFERENCE = 5,    /* a number or mask bit not defined, or not allowed there */
    EB3_REFUSED_KIND = 6,         /* an argument's domain or constant does not fit */
    EB3_REFUSED_SIZE = 7,         /* the reach is above 8,192 words */
    EB3_REFUSED_BREADTH = 8,      /* the breadth is above 65,535 moves */
    EB3_REFUSED_SPACE = 9,        /* a buffer is too small */
    EB3_REFUSED_TERM = 10,        /* not exactly one running term of the rules, within 7 and 8 */
    EB3_REFUSED_STRANGER = 11,    /* not exactly one event of the rules */
    EB3_REFUSED_NOT_OFFERED = 12, /* there is no such move now */
    EB3_REFUSED_READER = 13       /* a reader missing or not 1 to 32, or a table below 32 records */
};

typedef struct {
    uint32_t refusal;
    uint32_t cells;   /* cells of a memory: EB3_MEMORY_BYTES(cells) */
    uint32_t reach;   /* words that a term buffer needs: EB3_TERM_BYTES(reach) */
    uint32_t breadth; /* no term that moves lead to from the start has more moves */
    uint32_t size;    /* words of the start term */
} eb3_sizes;

typedef struct {
    uint32_t refusal;
    uint32_t size; /* words of the start term, as written */
} eb3_started;

typedef struct {
    uint32_t refusal;
    uint32_t moves; /* they are numbered from 0 */
} eb3_counted;

typedef struct {
    uint32_t refusal;
    uint32_t size;      /* words of the next term, as written */
    uint32_t visible;   /* 1: an event, given by the next fields; 0: internal, and they are 0 */
    uint32_t label;
    uint32_t arguments; /* how many of the next two are used: 0, 1 or 2; the others are 0 */
    uint32_t first;
    uint32_t second;
} eb3_moved;

typedef struct {
    uint32_t refusal;
    uint64_t size;     /* words of the last term: at most 8,192, in 64 bits as the counts are */
    uint64_t visible;  /* how many numbers made an event, */
    uint64_t internal; /* made an internal move, */
    uint64_t refused;  /* were refused: the sum of the three is how many numbers the list has */
} eb3_ran;

/* Admit. Reads the rules, writes nothing, returns their sizes. Refusals 1 to 8. */
eb3_sizes eb3_admit(const uint8_t *rules, size_t rules_len);

/* Start. Writes `size` words to the beginning of `term` and all cells to the beginning of `memory`.
 * The two must have room for the reported reach and cells, else refusal 9. Refusals 1 to 8, 9. */
eb3_started eb3_start(const uint8_t *rules, size_t rules_len,
                      uint8_t *term, size_t term_len,
                      uint8_t *memory, size_t memory_len);

/* Count. Writes nothing, returns how many moves the term has at this memory. The memory must have
 * all cells, else refusal 9; bytes after them are ignored. Refusals 1 to 8, 10, 9. */
eb3_counted eb3_count(const uint8_t *rules, size_t rules_len,
                      const uint8_t *term, size_t term_len,
                      const uint8_t *memory, size_t memory_len);

/* Move. Writes the term after move `number`, `size` words, to the beginning of `next_term`, and all
 * cells after the move to the beginning of `next_memory`; returns the move's action. An internal
 * move writes the cells as they were given. The given state is not changed: to list its moves, make
 * each in turn. The given memory and `next_memory` must have room for all cells, and `next_term`
 * for the given term's own reach (for a term that moves lead to from the start, the reported reach
 * is enough), else refusal 9. A number that is not below the count is refusal 12.
 * Refusals 1 to 8, 10, 9, 12. */
eb3_moved eb3_move(const uint8_t *rules, size_t rules_len,
                   const uint8_t *term, size_t term_len,
                   const uint8_t *memory, size_t memory_len,
                   uint64_t number,
                   uint8_t *next_term, size_t next_term_len,
                   uint8_t *next_memory, size_t next_memory_len);

/* Present. Makes the move with the smallest number whose action is the given event, as eb3_move
 * does. An event that the rules do not have is refusal 11, one that no move has now refusal 12.
 * Refusals 1 to 8, 10, 11, 9, 12. */
eb3_moved eb3_present(const uint8_t *rules, size_t rules_len,
                      const uint8_t *term, size_t term_len,
                      const uint8_t *memory, size_t memory_len,
                      const uint8_t *event, size_t event_len,
                      uint8_t *next_term, size_t next_term_len,
                      uint8_t *next_memory, size_t next_memory_len);

/* Run. `list` has two words for each move that is asked for, as many as you like: the move's
 * number and its card reader. The moves are made in order, from the start. A number that is not
 * below the count changes nothing and is counted in `refused`. Writes the last term to the
 * beginning of `term`, with zeros from its size up to the reported reach, and all cells to the
 * beginning of `memory`. Adds to each reader's record in `table` what was counted at that reader's
 * numbers; the table may hold anything before the call, and a count that passes 4,294,967,295
 * starts again at 0. Bytes after the records of all readers keep their values. `spare_term` and
 * `spare_memory` are scratch: their words may be anything afterwards. The two terms and the two
 * memories must have room for the reported reach and cells, else refusal 9. A number without a
 * reader or with one that is not 1 to EB3_READERS, anywhere in the list, or a table of fewer than
 * EB3_TABLE_BYTES is refusal 13, before any move is made. So a list of 4n or 4n + 1 bytes has n
 * numbers, and one of 4n + 2 or 4n + 3 bytes is refused. Refusals 1 to 8, 9, 13. */
eb3_ran eb3_run(const uint8_t *rules, size_t rules_len,
                const uint8_t *list, size_t list_len,
                uint8_t *table, size_t table_len,
                uint8_t *term, size_t term_len,
                uint8_t *memory, size_t memory_len,
                uint8_t *spare_term, size_t spare_term_len,
                uint8_t *spare_memory, size_t spare_memory_len);

#ifdef __cplusplus
}
#endif

#endif
