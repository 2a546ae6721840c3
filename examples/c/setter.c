/*
 * Reads a sheet from standard input and prints the setter of the first field of its first node.
 *
 *     cc -Icrates/exports examples/c/setter.c target/staticlib/libexports.a -o setter
 *     ./setter < examples/is_free.sheet
 */
#include "kitlubas.h"

#include <stdio.h>
#include <stdlib.h>

/* One byte more than a sheet may have, so that a longer one is seen to be. */
static uint8_t sheet[65537];
static uint64_t sheet_index[1793];

static int refused(const char *what, uint64_t number)
{
    fprintf(stderr, "%s: refused %u\n", what, (unsigned)number);
    return EXIT_FAILURE;
}

int main(void)
{
    size_t sheet_len = fread(sheet, 1, sizeof sheet, stdin);
    size_t index_len = kitlubas_index_size(sheet_len);
    size_t line, column, module, module_len, fields, name, name_len, next, length;
    uint64_t id, kind, field[KITLUBAS_FIELD_SIZE];
    uint8_t *text;
    uint64_t number = kitlubas_index(sheet, sheet_len, sheet_index, index_len, &line, &column);

    if (number != 0) {
        fprintf(stderr, "the sheet: refused %u line %zu column %zu\n", (unsigned)number, line, column);
        return EXIT_FAILURE;
    }
    number = kitlubas_node(sheet, sheet_len, sheet_index, index_len, 0, &id, &module, &module_len, &fields);
    if (number != 0)
        return refused("the node", number);
    number = kitlubas_field(sheet, sheet_len, fields, field, KITLUBAS_FIELD_SIZE, &kind, &name, &name_len, &next);
    if (number != 0)
        return refused("the field", number);

    /* Without room the answer is 22 and the text's length, or another refusal. A setter has no leaf, and the level is 0. */
    number = kitlubas_text(sheet, sheet_len, sheet_index, index_len, 0, field, KITLUBAS_FIELD_SIZE, KITLUBAS_SETTER, 0, 0,
                           &length, NULL, 0);
    if (number != 22)
        return refused("the setter", number);
    text = malloc(length);
    if (text == NULL)
        return EXIT_FAILURE;
    kitlubas_text(sheet, sheet_len, sheet_index, index_len, 0, field, KITLUBAS_FIELD_SIZE, KITLUBAS_SETTER, 0, 0,
                  &length, text, length);
    fwrite(text, 1, length, stdout);
    free(text);
    return EXIT_SUCCESS;
}
