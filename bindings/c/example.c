/* Lowers the tree file on standard input to standard output, and says on standard error what it came to. */
#include "desk.h"

#include <stdio.h>
#include <stdlib.h>

/* Tables and an output of just the size that the figures ask for. */
struct memory {
    uint16_t *records, *scopes, *symbols;
    size_t records_length, scopes_length, symbols_length;
    uint8_t *output;
    size_t output_length;
};

static void *lend(size_t count, size_t size) {
    void *p = calloc(count ? count : 1, size);
    if (!p) {
        fputs("no memory\n", stderr);
        exit(2);
    }
    return p;
}

static struct memory memory_for(const desk_answer *figures) {
    struct memory m;
    m.records_length = figures->records * DESK_RECORD_ROW;
    m.scopes_length = figures->scopes * DESK_SCOPE_ROW;
    m.symbols_length = figures->symbols * DESK_SYMBOL_ROW;
    m.output_length = figures->bytes;
    m.records = lend(m.records_length, sizeof *m.records);
    m.scopes = lend(m.scopes_length, sizeof *m.scopes);
    m.symbols = lend(m.symbols_length, sizeof *m.symbols);
    m.output = lend(m.output_length, 1);
    return m;
}

static void release(struct memory *m) {
    free(m->records);
    free(m->scopes);
    free(m->symbols);
    free(m->output);
}

static int refused(const char *call, uint8_t number, const desk_answer *answer) {
    fprintf(stderr, "%s: refused %u at %llu\n", call, number, (unsigned long long)answer->place);
    return 1;
}

/* How often records name symbols, all rows together. */
static unsigned long count_mentions(const struct memory *m, const desk_walk *walk) {
    const uint16_t *counts = m->symbols + DESK_COUNTS_AT(m->symbols_length);
    unsigned long mentions = 0;
    size_t row;
    for (row = 1; row <= walk->symbols; row++)
        mentions += counts[row - 1];
    return mentions;
}

/* Makes the walk, and tells how many visits it takes and how often the lowered tree names symbols. */
static void walk_through(const uint8_t *file, size_t length, struct memory *m) {
    desk_walk walk;
    desk_answer answer;
    unsigned long visits = 0;
    uint8_t over = 0;
    uint8_t number = desk_start(file, length, m->records, m->records_length, m->scopes, m->scopes_length,
                                m->symbols, m->symbols_length, &walk, &answer);
    if (number) {
        refused("start", number, &answer);
        return;
    }
    while (!over) {
        over = desk_visit(m->records, m->records_length, m->scopes, m->scopes_length, m->symbols,
                          m->symbols_length, &walk);
        visits++;
    }
    fprintf(stderr, ", %lu visits, %lu mentions\n", visits, count_mentions(m, &walk));
}

static int lower(const uint8_t *file, size_t length, struct memory *m) {
    desk_answer answer;
    uint8_t number = desk_lower(file, length, m->records, m->records_length, m->scopes, m->scopes_length,
                                m->symbols, m->symbols_length, m->output, m->output_length, &answer);
    if (number)
        return refused("lower", number, &answer);
    return fwrite(m->output, 1, answer.bytes, stdout) == answer.bytes ? 0 : 2;
}

int main(void) {
    static uint8_t file[DESK_LONGEST_FILE + 1];
    size_t length = fread(file, 1, sizeof file, stdin);
    desk_answer answer;
    struct memory m;
    int status;
    uint8_t number = desk_check(file, length, &answer);
    if (number)
        return refused("check", number, &answer);
    number = desk_figures(file, length, &answer);
    if (number)
        return refused("figures", number, &answer);
    m = memory_for(&answer);
    fprintf(stderr, "%llu records, %llu scopes, %llu symbols, %llu contexts, %llu bytes",
            (unsigned long long)answer.records, (unsigned long long)answer.scopes,
            (unsigned long long)answer.symbols, (unsigned long long)answer.contexts,
            (unsigned long long)answer.bytes);
    walk_through(file, length, &m);
    status = lower(file, length, &m);
    release(&m);
    return status;
}
