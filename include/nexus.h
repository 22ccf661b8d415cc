/*
 * The proved NEXUS reader, for C and C++.
 *
 * Link libnexus_c.a, which `tools/build` writes to target/staticlib. It is for x86-64.
 *
 * A call works in the memory that it is lent and on the stack of its thread, of which it needs at most
 * NEXUS_STACK_NEEDED bytes, and nowhere else. It allocates nothing and keeps nothing, so several
 * threads may call at once, each with memory of its own. Whatever the memory held before does not
 * matter. Of the caller it asks only that so much of the stack is free, that no pointer is NULL, even
 * where its length is 0, that each is aligned for its type, and that nothing that the call may write
 * overlaps anything else that it is lent.
 */
#ifndef NEXUS_H
#define NEXUS_H

#include <stddef.h>
#include <stdint.h>

#ifdef __cplusplus
extern "C" {
#endif

/* The longest text that is read, and the longest form that is written, in bytes. */
#define NEXUS_TEXT_LIMIT 1048576

/* How many bytes of stack a call needs at most: 256 KiB. nexus_write and nexus_lookup take most of it
 * for any record, nexus_read little. A thread that may have less must be given more. */
#define NEXUS_STACK_NEEDED 262144

/* How many numbers of work memory a text of so many bytes needs. */
#define NEXUS_WORK_NEEDED(text_length) (4 * (size_t)(text_length) + 64)

/*
 * Reads a NEXUS text, and writes its record to the start of the buffer.
 *
 * Answers the record's length in bytes, which is never 0, and leaves the rest of the buffer as it
 * was. Where the text is refused it answers 0 and leaves all of the buffer as it was; then *number
 * says why and *line and *column where. The numbers are those of document 01: in order 1 for a text
 * that is too long, 2 for short work memory, 3 for a text that is not UTF-8, 4 to 29 for a fault of
 * the text (docs/MESSAGES.md), and last 30 for a record that is longer than the buffer.
 */
size_t nexus_read(
    const uint8_t *text,  /* the text, in UTF-8; it need not end with 0 */
    size_t text_length,   /* how many bytes it has */
    uint32_t *work,       /* work memory; what it holds afterwards means nothing */
    size_t work_length,   /* how many numbers it has: NEXUS_WORK_NEEDED(text_length) or more */
    uint8_t *buffer,      /* the record's buffer */
    size_t buffer_length, /* how many bytes it has */
    uint32_t *number,     /* set to the refusal's number, 0 where there is none */
    size_t *line,         /* set to its line, from 1; 0 where it has no place */
    size_t *column        /* set to its column, from 1, in characters; 0 where it has no place */
);

/*
 * Writes the form of a record to the start of the buffer: a NEXUS text whose record is this one.
 *
 * Answers the form's length in bytes, which is never 0, and leaves the rest of the buffer as it was.
 * Where the record is refused it answers 0 and leaves all of the buffer as it was; then *number says
 * why: in order 31 for bytes that are no text's record or have a count above 1,048,576, 32 for a
 * form that is longer than NEXUS_TEXT_LIMIT, and 30 for one that is longer than the buffer.
 */
size_t nexus_write(
    const uint8_t *record, /* the record */
    size_t record_length,  /* how many bytes it has */
    uint8_t *buffer,       /* the form's buffer */
    size_t buffer_length,  /* how many bytes it has */
    uint32_t *number       /* set to the refusal's number, 0 where there is none */
);

/*
 * Finds the cells of the taxon with a name: the stretch of the record that stands behind `cells=`,
 * without the LF that ends the line. A name is given as it is, and not as the record escapes it; the
 * case of ASCII letters does not matter.
 *
 * Answers the stretch's length in bytes, which is never 0. Where the name is refused it answers 0;
 * then *number says why: in order 31 for bytes that are no text's record or have a count above
 * 1,048,576, and 33 for a name that no taxon has.
 */
size_t nexus_lookup(
    const uint8_t *record, /* the record */
    size_t record_length,  /* how many bytes it has */
    const uint8_t *name,   /* the name; it may be any bytes */
    size_t name_length,    /* how many bytes it has */
    uint32_t *number,      /* set to the refusal's number, 0 where there is none */
    size_t *start          /* set to where the stretch begins in the record; 0 where there is none */
);

#ifdef __cplusplus
}
#endif

#endif
