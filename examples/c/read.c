/* read DEFINITION MESSAGE: compiles a definition, reads a message by it, and prints the rows. */
#include <stdio.h>
#include <string.h>

#include "lumas.h"

enum { TEXT_MOST = 65535, MESSAGE_MOST = 16384, ROWS_MOST = 64 };

/* A file's bytes, as many as fit. The rooms are a byte over the format's limits, so that what is longer is refused. */
static size_t load(const char *path, uint8_t *bytes, size_t room)
{
    FILE *file = fopen(path, "rb");
    if (!file) {
        perror(path);
        return 0;
    }
    size_t length = fread(bytes, 1, room, file);
    fclose(file);
    return length;
}

static void print_row(const uint8_t *message, size_t length, const uint32_t *rows, size_t numbers, size_t row)
{
    const uint32_t *r = rows + LUMAS_ROW_WIDTH * row;
    size_t start;
    size_t count = lumas_row(message, length, rows, numbers, row, &start);
    for (size_t k = 0; k < LUMAS_ROW_WIDTH; k++)
        printf(k == 0 ? "%lu" : " %lu", (unsigned long)r[k]);
    printf(": ");
    fwrite(message + start, 1, count, stdout);
    putchar('\n');
}

static void print_reading(const uint8_t *table, size_t table_length, const uint8_t *message, size_t length)
{
    static uint32_t rows[LUMAS_ROW_WIDTH * ROWS_MOST];
    size_t numbers = LUMAS_ROW_WIDTH * ROWS_MOST, value;
    uint32_t number = lumas_read(table, table_length, message, length, rows, numbers, &value);
    if (number != LUMAS_OK) {
        printf("message refused: %lu at %zu\n", (unsigned long)number, value);
        return;
    }
    printf("rows: %zu\n", value);
    for (size_t row = 0; row < value; row++)
        print_row(message, length, rows, numbers, row);
}

int main(int count, char **words)
{
    static uint8_t text[TEXT_MOST + 1], message[MESSAGE_MOST + 1], table[LUMAS_TABLE_MOST];
    static const char late[] = "17 d=812", endless[] = "struct a { a b; };";
    if (count != 3) {
        fputs("usage: read DEFINITION MESSAGE\n", stderr);
        return 2;
    }
    size_t text_length = load(words[1], text, sizeof text);
    size_t message_length = load(words[2], message, sizeof message);
    size_t value;
    uint32_t number = lumas_compile(text, text_length, table, sizeof table, &value);
    if (number != LUMAS_OK) {
        printf("definition refused: %lu at %zu\n", (unsigned long)number, value);
        return 1;
    }
    size_t table_length = value;
    printf("table: %zu bytes, %s\n", table_length, lumas_table_ok(table, table_length) ? "ok" : "not ok");
    print_reading(table, table_length, message, message_length);

    /* A required field is absent. */
    print_reading(table, table_length, (const uint8_t *)late, strlen(late));
    /* A definition that no message can meet; the table stays as it is. */
    number = lumas_compile((const uint8_t *)endless, strlen(endless), table, sizeof table, &value);
    printf("definition refused: %lu at %zu\n", (unsigned long)number, value);
    printf("table: %s\n", lumas_table_ok(table, table_length) ? "ok" : "not ok");
    return 0;
}
