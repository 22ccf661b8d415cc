/*
 * Reads a text from standard input and prints its record, or the lines refused=, line= and column=.
 * Given `short`, work memory is one number short. Given `form`, the record's written form is printed
 * in its place, and given `cells` and a name, the cells of that taxon; where they are refused, the
 * line refused=. Given `limits`, the numbers that the header defines are printed. The status is 0, or 1 for a refusal; it is 2, and nothing is printed, where a call
 * has left a number wrong or has changed something beside one.
 */
#include <stdio.h>
#include <string.h>

#include "nexus.h"

#define LONGEST 4096

static uint8_t text[LONGEST];
static uint32_t work[NEXUS_WORK_NEEDED(LONGEST)];
static uint8_t record[16 * LONGEST];
static uint8_t form[16 * LONGEST];

/* What the byte at this place of some numbers holds before a call; it is another in each of a number. */
static uint8_t rubbish(size_t at) {
    return (uint8_t)(0xa5 + 29 * at);
}

/* Fills three numbers of so many bytes each, of which the one in the middle is lent. */
static void fill(void *three, size_t size) {
    uint8_t *bytes = (uint8_t *)three;
    size_t at;
    for (at = 0; at < 3 * size; at++) {
        bytes[at] = rubbish(at);
    }
}

/* Are the two beside the one in the middle as they were? */
static int kept(const void *three, size_t size) {
    const uint8_t *bytes = (const uint8_t *)three;
    size_t at;
    for (at = 0; at < size; at++) {
        if (bytes[at] != rubbish(at) || bytes[2 * size + at] != rubbish(2 * size + at)) {
            return 0;
        }
    }
    return 1;
}

/* Prints so many bytes. */
static int print(const uint8_t *bytes, size_t length) {
    return fwrite(bytes, 1, length, stdout) == length ? 0 : 3;
}

static int refused(uint32_t number) {
    printf("refused=%lu\n", (unsigned long)number);
    return 1;
}

static int print_form(size_t record_length) {
    uint32_t number[3];
    size_t length;
    fill(number, sizeof *number);
    length = nexus_write(record, record_length, form, sizeof form, &number[1]);
    if (!kept(number, sizeof *number) || (length == 0) != (number[1] != 0)) {
        return 2;
    }
    return length == 0 ? refused(number[1]) : print(form, length);
}

static int print_cells(size_t record_length, const char *name) {
    uint32_t number[3];
    size_t start[3], length;
    fill(number, sizeof *number);
    fill(start, sizeof *start);
    length = nexus_lookup(
        record, record_length, (const uint8_t *)name, strlen(name), &number[1], &start[1]);
    if (!kept(number, sizeof *number) || !kept(start, sizeof *start)) {
        return 2;
    }
    if (length == 0) {
        return start[1] != 0 ? 2 : refused(number[1]);
    }
    return number[1] != 0 ? 2 : print(record + start[1], length);
}

static int print_limits(void) {
    unsigned long limit = NEXUS_TEXT_LIMIT, stack = NEXUS_STACK_NEEDED;
    printf("%lu %lu %lu\n", limit, stack, (unsigned long)NEXUS_WORK_NEEDED(NEXUS_TEXT_LIMIT));
    return 0;
}

int main(int words, char **given) {
    uint32_t number[3];
    size_t line[3], column[3], record_length;
    size_t length = fread(text, 1, sizeof text, stdin);
    size_t room = NEXUS_WORK_NEEDED(length) - (words > 1 && strcmp(given[1], "short") == 0);
    if (words > 1 && strcmp(given[1], "limits") == 0) {
        return print_limits();
    }
    fill(number, sizeof *number);
    fill(line, sizeof *line);
    fill(column, sizeof *column);
    record_length = nexus_read(
        text, length, work, room, record, sizeof record, &number[1], &line[1], &column[1]);
    if (!kept(number, sizeof *number) || !kept(line, sizeof *line) || !kept(column, sizeof *column)) {
        return 2;
    }
    if (record_length == 0) {
        refused(number[1]);
        printf("line=%lu\ncolumn=%lu\n", (unsigned long)line[1], (unsigned long)column[1]);
        return 1;
    }
    if (number[1] != 0 || line[1] != 0 || column[1] != 0) {
        return 2;
    }
    if (words > 1 && strcmp(given[1], "form") == 0) {
        return print_form(record_length);
    }
    if (words > 2 && strcmp(given[1], "cells") == 0) {
        return print_cells(record_length, given[2]);
    }
    return print(record, record_length);
}
