/* Commands from standard input (the sample host; document 02, K1: which reader asks). input.h says
 * what each function returns. */
#include "input.h"

#include <stdio.h>
#include <string.h>

bool read_line(char line[LINE_BYTES])
{
    size_t length = 0;
    int c = getchar();
    if (c == EOF)
        return false;
    for (; c != EOF && c != '\n'; c = getchar())
        if (length < LINE_BYTES)
            line[length++] = c == '\0' ? '?' : (char)c;
    if (length == LINE_BYTES) {
        line[0] = '?';
        length = 1;
    }
    line[length] = '\0';
    return true;
}

size_t split(char *line, char *words[LINE_WORDS])
{
    static const char blanks[] = " \t\r";
    size_t used = 0;
    line += strspn(line, blanks);
    while (*line != '\0' && used < LINE_WORDS) {
        words[used++] = line;
        line += strcspn(line, blanks);
        if (*line != '\0')
            *line++ = '\0';
        line += strspn(line, blanks);
    }
    return used;
}

bool read_number(const char *word, uint64_t limit, uint64_t *number)
{
    uint64_t sum = 0;
    for (; *word != '\0'; word++) {
        if (*word < '0' || *word > '9')
            return false;
        uint64_t digit = (uint64_t)(*word - '0');
        if (sum > (limit - digit) / 10)
            return false;
        sum = sum * 10 + digit;
    }
    *number = sum;
    return true;
}

size_t put_word(uint8_t *bytes, size_t length, uint64_t word)
{
    bytes[length] = (uint8_t)(word & 0xFF);
    bytes[length + 1] = (uint8_t)(word >> 8 & 0xFF);
    return length + 2;
}

size_t read_event(char *const words[], size_t used, uint8_t event[EB3_MAX_EVENT_BYTES])
{
    if (used == 1 && strcmp(words[0], "i") == 0)
        return put_word(event, 0, EB3_EVENT_INTERNAL);
    size_t length = put_word(event, 0, EB3_EVENT_ACTION);
    for (size_t i = 0; i < used; i++) {
        uint64_t number;
        if (!read_number(words[i], UINT16_MAX, &number))
            return 0;
        if (i > 0)
            length = put_word(event, length, EB3_EVENT_CONSTANT);
        length = put_word(event, length, number);
    }
    return length;
}
