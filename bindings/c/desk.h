/*
 * Lowering `using` and `await using` in tree files, for C. Link with libdesk.a, which `rt lib` writes in crates/desk/out.
 *
 * Every call is proved to end, to stay inside the memory that it is lent, and to keep the promise that stands above it, for every content of
 * that memory (crates/desk; the proofs are about the library's source, not about this header). What the caller owes:
 *   - a pointer and a length are a readable array of that many elements, and writable where the pointer is not const;
 *   - no pointer is null, also where the length is 0;
 *   - arrays that a call may write to do not overlap any other array of the same call.
 * There is no heap and no hidden state, so calls on different memory may run at the same time.
 */
#ifndef DESK_H
#define DESK_H

#include <stddef.h>
#include <stdint.h>

#ifdef __cplusplus
extern "C" {
#endif

/* How many numbers of 16 bits a row takes in a lent table. A length that is no multiple lends the whole rows in it. */
#define DESK_RECORD_ROW 7
#define DESK_SCOPE_ROW 3
#define DESK_SYMBOL_ROW 6

/*
 * A scope table of some length lends length / DESK_SCOPE_ROW rows. Two numbers of each row stand together, row after row from the front of the
 * table. The third stands in a column behind all the rows that are lent. desk_lower needs it while it writes, for the number that the scope gets
 * in the written file; desk_start leaves it 0, and desk_visit leaves it as it is.
 *
 * A symbol table of some length lends length / DESK_SYMBOL_ROW rows. Five numbers of each row stand together, row after row from the front of
 * the table. The sixth, how often records name that symbol, stands in a column behind all the rows that are lent: the count of row y, from 1
 * on, is the number at DESK_COUNTS_AT(length) + y - 1.
 */
#define DESK_COUNTS_AT(length) ((length) / DESK_SYMBOL_ROW * (DESK_SYMBOL_ROW - 1))

/* The longest file, in bytes. */
#define DESK_LONGEST_FILE 65535

/* What a call answers: 0, or the number of a refusal. A refusal's place is the offset of the field's first byte unless said. */
enum {
    DESK_FINE = 0,
    DESK_TOO_LONG = 1,       /* the file has over 65,535 bytes; place 65,535 */
    DESK_CUT = 2,            /* the file is cut, or empty */
    DESK_WRONG_TAG = 3,      /* a tag that is not allowed there */
    DESK_WRONG_LENGTH = 4,   /* a length that is not its tag's */
    DESK_WRONG_NUMBER = 5,   /* a number outside its rule, a scope row that no record names, or a symbol row with a wrong count */
    DESK_TOO_DEEP = 6,       /* deeper than 64 records, whatever the record is */
    DESK_BYTES_BEHIND = 7,   /* bytes behind the tree; place the first of them */
    DESK_INLINE_HELPER = 8,  /* inline mode, and something to lower; place 0 */
    DESK_SMALL_TABLE = 9,    /* too few rows; place 0 records, 1 scopes, 2 symbols, the first that is short */
    DESK_SMALL_OUTPUT = 10   /* the output is shorter than the file to write; place the output's length */
};

/* Set by every call that takes one. What a call does not tell is 0; after a refusal all but the place is 0. */
typedef struct desk_answer {
    uint64_t place;     /* of a refusal */
    uint64_t records;   /* records, scope rows and symbol rows of the lowered file */
    uint64_t scopes;
    uint64_t symbols;
    uint64_t contexts;  /* contexts that lowering makes */
    uint64_t bytes;     /* length of the lowered file */
} desk_answer;

/*
 * Where a walk stands. desk_start sets it and desk_visit changes it; a caller keeps it and may read it.
 * Record rows 1 to `visited` are the tree's rows already visited, in file order; rows `gap` + 1 to `end` are those still to visit.
 */
typedef struct desk_walk {
    uint16_t visited;
    uint16_t gap;
    uint16_t end;
    uint16_t inner;     /* the innermost open row, or 0 */
    uint16_t mode;
    uint16_t module;
    uint16_t scopes;    /* how many scope rows and symbol rows there are */
    uint16_t symbols;
    uint16_t read;      /* how many symbol rows were read */
    uint16_t helper;    /* the runtime helper's symbol row, or 0 */
    uint16_t contexts;  /* contexts made so far */
} desk_walk;

/*
 * Checks a tree file. Refusals 1 to 7, by the order of the checks.
 * Writes nothing but *answer, which tells the place.
 */
uint8_t desk_check(const uint8_t *file, size_t file_length, desk_answer *answer);

/*
 * What the lowered file will come to, from the source alone: so a caller knows how much memory to lend. Refusals 1 to 8.
 * Writes nothing but *answer, which tells the place, or the five figures.
 * If then one const with n initializers becomes a using or an await using, in a block, a function's body, a static block or a case, and the mode is not
 * inline: n + 14 record rows, 4 scope rows, 3 symbol rows and 9 * n + 173 bytes of output more than the figures say are enough for the changed file.
 */
uint8_t desk_figures(const uint8_t *file, size_t file_length, desk_answer *answer);

/*
 * Reads a tree file into the tables, before its first visit. Refusals 1 to 9.
 * Refused: the tables and *walk are as they were.
 * Accepted: the tables hold the tree just read, its scope rows and its symbol rows, and 0 everywhere else, whatever they held before.
 *   A record row is tag, three numbers, n, and two numbers of the walk's own. A scope row is parent and flags. A symbol row is name, flags,
 *   scope, made, and the scope as read; the column of counts has for each symbol row how often records name it.
 */
uint8_t desk_start(const uint8_t *file, size_t file_length,
                   uint16_t *records, size_t records_length,
                   uint16_t *scopes, size_t scopes_length,
                   uint16_t *symbols, size_t symbols_length,
                   desk_walk *walk, desk_answer *answer);

/*
 * Makes the next visit of a walk. The tables and *walk are to be what desk_start or the last desk_visit left; then the tables hold the tree
 * as rewritten by the visits made so far, and every count is that of this tree. In a module in runtime mode with a context, the call that
 * makes the last visit also puts the helper's import, a Module line of form 4 with one Specifier, as Program's first child: two records more,
 * and one mention of the helper. Later calls change nothing.
 * Answers 1 if no visit is left after this call, else 0.
 * With anything else in the tables or in *walk the call still ends and stays inside them; what it leaves is determined, but means nothing.
 */
uint8_t desk_visit(uint16_t *records, size_t records_length,
                   uint16_t *scopes, size_t scopes_length,
                   uint16_t *symbols, size_t symbols_length,
                   desk_walk *walk);

/*
 * Lowers a tree file. Refusals 1 to 10.
 * Refused: the tables and the output are as they were; *answer tells the place.
 * Accepted: the output begins with the lowered file, of answer->bytes bytes, and is as it was behind it; the tables are all 0, to their last
 *   number, whatever they held before; *answer tells the five figures.
 * The written file numbers its scopes in the order in which its tree names them, whatever numbers the source had: Program's is 1, and each record
 *   that names a scope names the next number. Scope rows stand in this order, and parents and the scopes of symbols follow. Symbol rows stay in
 *   theirs.
 * What this call wrote, if desk_check accepts it, comes out of a second call unchanged, with 0 contexts, if as much memory is lent as to the first.
 * (desk_check refuses it with 6 or 1 if it now has more than 64 levels or 65,535 bytes.)
 */
uint8_t desk_lower(const uint8_t *file, size_t file_length,
                   uint16_t *records, size_t records_length,
                   uint16_t *scopes, size_t scopes_length,
                   uint16_t *symbols, size_t symbols_length,
                   uint8_t *output, size_t output_length,
                   desk_answer *answer);

#ifdef __cplusplus
}
#endif

#endif
