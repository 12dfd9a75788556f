/* A saw line's rules come and go between its lines. `example` runs them as a batch and prints what each line meets and each
   change that was refused first; `example script` prints the same calls as a script for the program line_reader. */
#include <inttypes.h>
#include <stdio.h>
#include <stdlib.h>

#include "line_batch.h"

#define BYTES(text) text, sizeof text - 1

struct call {
    char letter; /* of its record */
    uint8_t rule;
    uint16_t kind;
    const char *bytes; /* commands, or a line */
    size_t length;
};

static const struct call calls[] = {
    {'A', 0, 10, BYTES("C\0kR\0000\0009PJ")},             /* k[0-9]+ */
    {'A', 1, 11, BYTES("C\0kC\0004J")},                   /* k4 */
    {'A', 2, 12, BYTES("C\0kC\0eJC\0rJC\0fJC\0kC\0eJA")}, /* kerf|ke */
    {'L', 0, 0, BYTES("k4")},
    {'L', 0, 0, BYTES("k45")},
    {'L', 0, 0, BYTES("kerf")},
    {'L', 0, 0, BYTES("")},
    {'A', 1, 11, BYTES("E")}, /* refused: rule 1 is in force */
    {'D', 1, 0, NULL, 0},
    {'L', 0, 0, BYTES("k4")},
    {'A', 63, 4095, BYTES("R\0\0\0\377S")}, /* any bytes */
    {'A', 64, 0, BYTES("E")},               /* refused: no rule has this number */
    {'L', 0, 0, BYTES("k4\t\"mm\"")},
    {'L', 0, 0, BYTES("ke")},
};

enum { CALLS = sizeof calls / sizeof *calls };

static void fail(const char *what)
{
    fprintf(stderr, "example: %s\n", what);
    exit(1);
}

static void print_script(void)
{
    for (const struct call *c = calls; c < calls + CALLS; c++) {
        if (c->letter == 'D')
            printf("delete %u\n", (unsigned)c->rule);
        else {
            if (c->letter == 'A')
                printf("code %u %u ", (unsigned)c->rule, (unsigned)c->kind);
            else
                printf("readx ");
            for (size_t i = 0; i < c->length; i++)
                printf("%02x", (unsigned)(uint8_t)c->bytes[i]);
            printf("\n");
        }
    }
}

static void print_rules(uint64_t mask)
{
    const char *before = "";
    printf("rules=");
    for (int rule = 0; rule < 64; rule++)
        if (mask >> rule & 1) {
            printf("%s%d", before, rule);
            before = ",";
        }
    printf("%s\n", mask == 0 ? "-" : "");
}

int main(int argc, char **argv)
{
    if (argc > 1 && strcmp(argv[1], "script") == 0) {
        print_script();
        return 0;
    }
    uint8_t bytes[1024];
    struct line_batch batch = {bytes, 0, sizeof bytes};
    for (const struct call *c = calls; c < calls + CALLS; c++) {
        bool put = c->letter == 'A'   ? line_batch_add(&batch, c->rule, c->kind, c->bytes, c->length)
                   : c->letter == 'D' ? line_batch_delete(&batch, c->rule)
                                      : line_batch_line(&batch, c->bytes, c->length);
        if (!put)
            fail("the batch is full");
    }
    uint64_t masks[CALLS];
    struct line_batch_outcome outcome;
    if (line_batch_run(batch.bytes, batch.length, masks, CALLS, &outcome) != LINE_BATCH_RUN)
        fail("the batch was not run");
    for (size_t i = 0; i < outcome.lines; i++)
        print_rules(masks[i]);
    printf("refused=%zu first number=%" PRIu32 " layer=%" PRIu32 " place=%zu\n", outcome.refused,
           outcome.first.number, outcome.first.layer, outcome.first.place);

    /* a batch is checked before any of it is run */
    if (line_batch_run(batch.bytes, batch.length - 1, masks, CALLS, &outcome) != LINE_BATCH_MALFORMED)
        fail("a record without its end was run");
    printf("malformed at the last record: %s\n", outcome.place == batch.length - 5 ? "yes" : "no");
    if (line_batch_run(batch.bytes, batch.length, masks, 2, &outcome) != LINE_BATCH_NO_ROOM)
        fail("masks without room were written");
    printf("lines without room: %zu\n", outcome.lines);
    return 0;
}
