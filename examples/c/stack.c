/*
 * stack: the inputs that ask most of the stack, each with its answer worked out by hand. examples/test
 * runs it under `ulimit -s 256`, 256 KiB. Everything large is static here, so that the stack is the
 * library's.
 */
#include <stdio.h>
#include <string.h>

#include "lumas.h"

enum { MESSAGE_MOST = 16384, ROWS_MOST = 16384 };

static uint8_t text[65536], table[LUMAS_TABLE_MOST], message[MESSAGE_MOST + 1];
static uint32_t rows[LUMAS_ROW_WIDTH * ROWS_MOST];
static int failed;

static void check(const char *name, uint32_t number, size_t value, uint32_t want_number, size_t want_value)
{
    int is_right = number == want_number && value == want_value;
    failed |= !is_right;
    printf("%s: %lu %zu%s\n", name, (unsigned long)number, value, is_right ? "" : " WRONG");
}

/* Compiles the text and answers the table's length, 0 where it is refused. */
static size_t compile(const char *name, size_t length, uint32_t want_number, size_t want_value)
{
    size_t value;
    uint32_t number = lumas_compile(text, length, table, sizeof table, &value);
    check(name, number, value, want_number, want_value);
    return number == LUMAS_OK ? value : 0;
}

static size_t compile_string(const char *name, const char *definition, size_t want_length)
{
    memcpy(text, definition, strlen(definition));
    return compile(name, strlen(definition), LUMAS_OK, want_length);
}

static void read_message(const char *name, size_t table_length, size_t length, uint32_t want_number, size_t want_value)
{
    size_t value;
    uint32_t number = lumas_read(table, table_length, message, length, rows, LUMAS_ROW_WIDTH * ROWS_MOST, &value);
    check(name, number, value, want_number, want_value);
}

/* Puts a word some times, and answers the place behind. */
static size_t repeat(uint8_t *to, size_t at, const char *word, size_t times)
{
    for (size_t i = 0; i < times; i++, at += strlen(word))
        memcpy(to + at, word, strlen(word));
    return at;
}

/* The longest chain: `a=` 8,191 times, `7`, a blank. The first is the field's tag, the others choose. */
static size_t put_chain(void)
{
    return repeat(message, repeat(message, repeat(message, 0, "a=", 8191), "7", 1), " ", 1);
}

/* Structs in structs, with no field in the innermost. */
static size_t put_nest(size_t depth)
{
    return repeat(message, repeat(message, 0, "x={", depth), "}", depth);
}

/* A root with so many bool fields, each name of 63 bytes; that of field i stands at 76 + 70 * i. */
static size_t put_fields(unsigned fields)
{
    char field[80];
    size_t at = repeat(text, repeat(text, repeat(text, 0, "struct ", 1), "r", 63), "{", 1);
    for (unsigned i = 0; i < fields; i++) {
        sprintf(field, "bool n%062u; ", i);
        at = repeat(text, at, field, 1);
    }
    return repeat(text, at, "};", 1);
}

/* 128 structs, each with a field of the next one's type; the last has the field given. */
static size_t put_references(const char *last)
{
    char one[80];
    size_t at = 0;
    for (unsigned i = 0; i < 127; i++) {
        sprintf(one, "struct s%03u{s%03u x;};", i, i + 1);
        at = repeat(text, at, one, 1);
    }
    return repeat(text, repeat(text, repeat(text, at, "struct s127{", 1), last, 1), "};", 1);
}

int main(void)
{
    /* The root's row, the choice's, one for each of 8,190 deeper choices, and the int's. */
    size_t length = compile_string("union in itself", "struct r { u a; }; union u { int n as ?; u a; };", 5 * 25);
    read_message("chain of choices", length, put_chain(), LUMAS_OK, 1 + 1 + 8190 + 1);

    /* The root's row and one for each struct; the 17th brace stands behind 16 times `x={` and `x=`. */
    length = compile_string("struct in itself", "struct r { r x[0..1]; };", 2 * 25);
    read_message("sixteen structs", length, put_nest(16), LUMAS_OK, 17);
    read_message("seventeen structs", length, put_nest(17), LUMAS_MESSAGE_BAD_BYTE, 16 * 3 + 2);

    /* What no field has is passed over, without a row. */
    length = compile_string("empty struct", "struct r { };", 25);
    read_message("chain of unknown values", length, put_chain(), LUMAS_OK, 1);
    read_message("sixteen unknown braces", length, put_nest(16), LUMAS_OK, 1);

    /* 256 records of 87 bytes; the 257th name is that of field 255. */
    compile("256 parameters", put_fields(255), LUMAS_OK, 256 * 87);
    compile("257 parameters", put_fields(256), LUMAS_TOO_MANY, 76 + 70 * 255);

    /* Names of 4 bytes and of 1. A circle of required fields has no finite value, from the first name on. */
    compile("128 references", put_references(""), LUMAS_OK, 128 * 28 + 127 * 25);
    compile("a circle of 128", put_references("s000 x;"), LUMAS_ENDLESS, 7);
    return failed;
}
