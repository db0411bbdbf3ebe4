/* input.h: commands from standard input: their lines, their words, and the numbers and events that
 * these name (the sample host; document 02, K1: which reader asks). */
#ifndef INPUT_H
#define INPUT_H

#include "eb3.h"

#include <stdbool.h>

/* The longest command, `present` with a label and two arguments, has four words; with room for a
 * fifth, a command that is too long is noticed. */
#define LINE_BYTES 128
#define LINE_WORDS 5

/* Reads one line, without its end; returns false if the input has ended. A line that is too long is
 * replaced by "?", so that no part of it is taken for a command. */
bool read_line(char line[LINE_BYTES]);

/* Splits a line into its words, at most LINE_WORDS; returns their number. */
size_t split(char *line, char *words[LINE_WORDS]);

/* Reads a number; returns false unless the word has only digits and the number is at most the
 * limit, which must be at least 9. */
bool read_number(const char *word, uint64_t limit, uint64_t *number);

/* Appends a word, the low byte first; returns the new length. */
size_t put_word(uint8_t *bytes, size_t length, uint64_t word);

/* Writes the event that one to three words name; returns its length in bytes, or 0 if they are not
 * numbers. */
size_t read_event(char *const words[], size_t used, uint8_t event[EB3_MAX_EVENT_BYTES]);

#endif
