/* Reads a sheet from standard input and prints each field's name and verdict, by the constants of the header. */
#include "kitlubas.h"

#include <stdio.h>
#include <stdlib.h>

static uint8_t sheet[65536];
static uint64_t sheet_index[1793];

static const char *const words[] = {
    [KITLUBAS_AGREE] = "agree",
    [KITLUBAS_SIGN_FLIPPED] = "sign flipped",
    [KITLUBAS_COMBINED_WITH_DEFAULT] = "combined with the default",
    [KITLUBAS_NOT_BOTH_GENERATED] = "not both generated",
};

int main(void)
{
    size_t size = fread(sheet, 1, sizeof sheet, stdin);
    size_t numbers = kitlubas_index_size(size);
    size_t line, column, module, module_len, name, name_len, at;
    uint64_t id, kind, verdict, field[KITLUBAS_FIELD_SIZE];

    if (kitlubas_index(sheet, size, sheet_index, numbers, &line, &column) != 0)
        return EXIT_FAILURE;
    if (kitlubas_node(sheet, size, sheet_index, numbers, 0, &id, &module, &module_len, &at) != 0)
        return EXIT_FAILURE;
    while (kitlubas_field(sheet, size, at, field, KITLUBAS_FIELD_SIZE, &kind, &name, &name_len, &at) == 0) {
        uint64_t number = kitlubas_verdict(sheet, size, sheet_index, numbers, 0, field, KITLUBAS_FIELD_SIZE, &verdict);
        printf("%.*s: ", (int)name_len, (const char *)sheet + name);
        if (number == 0)
            puts(words[verdict]);
        else
            printf("refused %u, verdict %u\n", (unsigned)number, (unsigned)verdict);
    }
    return EXIT_SUCCESS;
}
