/*
 * Lumas: definitions compiled to tables, and messages read by them.
 *
 * Link crates/lumas/out/liblumas.a, which `tools/library` writes (x86-64 Linux, no other
 * library but C's memset). docs/FORMAT.md has the format. What each function promises here is
 * proved of its code, for any bytes: crates/lumas/src/lib.rt has the promises as equations.
 *
 * Every call ends with an answer, whatever bytes it is given. It reads and writes nothing but what
 * it was lent, allocates nothing, and keeps nothing between calls: the functions may be called from
 * any number of threads at once. A call takes less than 64 KiB of stack (measured, not proved;
 * examples/c/stack.c is run under a limit of 256 KiB with every test).
 *
 * What the caller sees to:
 * - A pointer is not null and is aligned for its type, also where its length is 0. It leads to as
 *   many elements as the length behind it says; a `value` or `start` leads to one.
 * - What is lent for writing (table in lumas_compile, rows in lumas_read, value, start) overlaps
 *   nothing else that the same call is lent, and no other thread touches it before the call returns.
 */
#ifndef LUMAS_H
#define LUMAS_H

#include <stdbool.h>
#include <stddef.h>
#include <stdint.h>

#ifdef __cplusplus
extern "C" {
#endif

/* A table is never longer: 256 records of at most 87 bytes. */
#define LUMAS_TABLE_MOST 22272

/*
 * The numbers of a row: parameter, parent row, start, end (the end is not included), index (which of
 * its list the value is, from 0). The root, voids and chosen alternatives have index 0.
 */
#define LUMAS_ROW_WIDTH 5
#define LUMAS_ROW_PARAMETER 0
#define LUMAS_ROW_PARENT 1
#define LUMAS_ROW_START 2
#define LUMAS_ROW_END 3
#define LUMAS_ROW_INDEX 4

/* The parent of the root's row. */
#define LUMAS_NO_ROW UINT32_C(4294967295)

/* A definition or a message was taken. */
#define LUMAS_OK 0

/*
 * Why a definition is refused, and the place that goes with it (an offset in the text, but for 11).
 * The lowest number that applies is given, at its smallest place.
 */
#define LUMAS_TEXT_TOO_LONG 1      /* over 65,535 bytes; place 65,535 */
#define LUMAS_TEXT_BAD_BYTE 2      /* bad byte, comment without end, or the ninth open brace; that byte */
#define LUMAS_TEXT_FORM 3          /* the tokens don't fit the forms; the first that can't go on, or the length */
#define LUMAS_TOO_MANY 4           /* more than 256 parameters; the 257th name */
#define LUMAS_BAD_NAME 5           /* form of a name, reference or tag broken; the run */
#define LUMAS_BAD_RANGE 6          /* range or cardinality broken or not allowed; the range run */
#define LUMAS_BAD_FIELD 7          /* untagged, plugin or void rule broken; the parameter's name */
#define LUMAS_NAME_TWICE 8         /* a name or a wire tag twice; the later one */
#define LUMAS_NO_TARGET 9          /* the root is no struct: its name; a reference to nothing: the reference */
#define LUMAS_ENDLESS 10           /* a struct or union with no finite value; its name */
#define LUMAS_TABLE_TOO_LONG 11    /* the table is longer than what was lent; the bytes needed */

/*
 * Why a message is refused, and the place that goes with it (an offset in the message, but for 20
 * and 29). First 20, 21, 22 in that order, then the leftmost of 23 to 28 and 30, then 29.
 */
#define LUMAS_BAD_TABLE 20         /* no definition compiles to this table; 0 */
#define LUMAS_MESSAGE_TOO_LONG 21  /* over 16,384 bytes; place 16,384 */
#define LUMAS_MESSAGE_BAD_BYTE 22  /* bad byte, a quote that begins no string, the 17th open brace; that byte */
#define LUMAS_NOT_ALLOWED 23       /* a token that is not allowed there; it, or the length */
#define LUMAS_BAD_VALUE 24         /* a word, string or brace without the form of the type's values; it */
#define LUMAS_BAD_COUNT 25         /* a list too short: the token after it; too long: the comma too many */
#define LUMAS_TAG_TWICE 26         /* a known tag again in one body; the second */
#define LUMAS_MISSING 27           /* a required field is absent; the closing brace, or the length */
#define LUMAS_NO_ALTERNATIVE 28    /* a word that names no alternative; it */
#define LUMAS_ROWS_DONT_FIT 29     /* the rows don't fit what was lent; the rows needed */
#define LUMAS_VALUE_OUTSIDE 30     /* right form, but the number, length, date or time is not allowed; it */

/*
 * Compiles a definition's text into the lent table.
 *
 * LUMAS_OK: *value is the table's length, the table stands first in what was lent, and the bytes
 * beyond it are as they were. Else one of 1 to 11: *value is its place, and every lent byte is as
 * it was. With LUMAS_TABLE_MOST bytes lent, 11 is never the answer.
 */
uint32_t lumas_compile(const uint8_t *text, size_t text_len,
                       uint8_t *table, size_t table_len,
                       size_t *value);

/* Whether some definition compiles to these bytes: exactly then lumas_read doesn't answer 20. */
bool lumas_table_ok(const uint8_t *table, size_t table_len);

/*
 * Reads a message by a table into the lent numbers, LUMAS_ROW_WIDTH for each row. rows_len counts
 * numbers, not rows and not bytes.
 *
 * LUMAS_OK: the message has a lawful reading, and never a second one. *value is how many rows it
 * has, they stand first in what was lent, in order of place and parents first, and the numbers
 * beyond them are as they were. Row 0 is the root's: 0, LUMAS_NO_ROW, 0, message_len, 0. Else one of
 * 20 to 30: *value is its place, and every lent number is as it was. With nothing lent a lawful
 * message answers 29 and how many rows it has.
 */
uint32_t lumas_read(const uint8_t *table, size_t table_len,
                    const uint8_t *message, size_t message_len,
                    uint32_t *rows, size_t rows_len,
                    size_t *value);

/*
 * A row's part of the message: returns how many bytes it has, and *start is where they start. The
 * part always lies in the message, whatever the numbers are. Where the whole row isn't among the
 * numbers, or its span ends before it starts or doesn't lie in the message, and where the part is
 * empty, both are 0.
 */
size_t lumas_row(const uint8_t *message, size_t message_len,
                 const uint32_t *rows, size_t rows_len,
                 size_t row, size_t *start);

#ifdef __cplusplus
}
#endif

#endif
