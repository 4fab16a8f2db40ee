/* What the examples share: a sheet comes from a file, and a refusal is printed and ends the program. */
#include <stdio.h>
#include <stdlib.h>
#include <string.h>

#include "yumbaqel.h"

static void print_refusal(struct yumbaqel_refusal told)
{
    static const char *const kinds[] = {"", " reach ", " segment ", " row "};
    printf("refused %u%s", (unsigned)told.number, kinds[told.kind]);
    if (told.kind != YUMBAQEL_NOTHING)
        printf("%u", (unsigned)told.place);
    printf("\n");
}

/* Ends the program where a call was refused. */
static void need(struct yumbaqel_refusal told)
{
    if (told.number == YUMBAQEL_ACCEPTED)
        return;
    print_refusal(told);
    exit(1);
}

/* Ends the program with a word to its caller. */
static void leave(const char *why)
{
    fprintf(stderr, "%s\n", why);
    exit(2);
}

/* Reads at most room bytes of a file ("-": standard input) and says how many there were. */
static size_t read_bytes(const char *name, uint8_t *bytes, size_t room)
{
    FILE *file = strcmp(name, "-") == 0 ? stdin : fopen(name, "rb");
    size_t length;
    if (file == NULL)
        leave("the sheet cannot be opened");
    length = fread(bytes, 1, room, file);
    fclose(file);
    return length;
}
