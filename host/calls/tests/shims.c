/*
 * Read calls that stand in the place of nexus_read: one as it is, and two that set the right numbers
 * in a wrong way.
 */
#include <string.h>

#include "nexus.h"

#define PARAMETERS                                                                                 \
    const uint8_t *text, size_t text_length, uint32_t *work, size_t work_length, uint8_t *buffer,  \
        size_t buffer_length, uint32_t *number, size_t *line, size_t *column

size_t read_rightly(PARAMETERS);
size_t read_lower_halves(PARAMETERS);
size_t read_wide_number(PARAMETERS);

size_t read_rightly(PARAMETERS) {
    return nexus_read(
        text, text_length, work, work_length, buffer, buffer_length, number, line, column);
}

/* Of line and column the lower halves alone are set. */
size_t read_lower_halves(PARAMETERS) {
    size_t whole_line, whole_column;
    size_t length = nexus_read(
        text, text_length, work, work_length, buffer, buffer_length, number, &whole_line,
        &whole_column);
    uint32_t lower_line = (uint32_t)whole_line, lower_column = (uint32_t)whole_column;
    memcpy(line, &lower_line, sizeof lower_line);
    memcpy(column, &lower_column, sizeof lower_column);
    return length;
}

/* The number is set in 64 bits, over what lies behind it. */
size_t read_wide_number(PARAMETERS) {
    uint32_t narrow;
    size_t length = nexus_read(
        text, text_length, work, work_length, buffer, buffer_length, &narrow, line, column);
    uint64_t wide = narrow;
    memcpy(number, &wide, sizeof wide);
    return length;
}
