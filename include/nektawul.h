/* Nektawul: the message store of a display, proved in Rattle. Link with libnektawul.a (x86-64 Linux; `bash bindings/build.sh` makes it).

   A message is an uint64_t. It is put in and a handle comes back; the handle shows the message until it is withdrawn, and after that it shows
   nothing, as long as generations are not set back, reset or run over and nothing is transferred or copied into the store. The store is three tables of equal length, up to 1,024 entries, and a header of 12 bytes, all of them the caller's. No call allocates,
   no call keeps a pointer, and the library has no data of its own. "Document 01" is the store's specification.

   PROVED. Whatever the tables, the header, the handle, the cursor, the journal, the state and the bytes of the file hold, every function of the
   library ends, touches nothing but what it is lent, and leaves exactly the answer and the words that document 01 gives: damaged stores, unequal
   tables, stale and invented handles and files of any bytes included. What is unfit is refused with a number. Of an audit's number of looks it is
   proved that it is at most the stack length + 2. The proof is of the Rattle source; that the compiler kept it, that the prototypes below are right,
   and the inline functions over a nektawul_store are tested.

   OUTSIDE THE PROOF, and the caller's to keep (the Rust crate in bindings/rust cannot break these):
   - no pointer is null or dangling; where a count is 0, pass a valid, aligned pointer all the same;
   - no count is larger than the buffer behind its pointer (count of elements, not of bytes);
   - every pointer is aligned for its type;
   - nothing that a call may change overlaps anything else that it is lent: table and table, table and header, rows, state, cursor or file, and
     the two stores of a copy or transfer;
   - a bool, also one in a cursor that is handed in or in a row of the journal, is 0 or 1;
   - while a call that may change a store runs, no other thread is in that store.

   The functions come first, as the library exports them; then the same calls over a nektawul_store, which a display loop will rather use. */
#ifndef NEKTAWUL_H
#define NEKTAWUL_H

#include <assert.h>
#include <stdbool.h>
#include <stddef.h>
#include <stdint.h>
#include <string.h>

#ifdef __cplusplus
extern "C" {
#endif

/* A handle. Index 0 names no place and generation 0 no message. */
typedef struct {
    uint16_t index;
    uint32_t generation;
} nektawul_ptr;

/* The store's numbers. The counts are: live messages, stack length, root of the free chain (0 is none). No answer depends on the two bytes between
   counts and generation. */
typedef struct {
    uint16_t counts[3];
    uint32_t generation;
} nektawul_header;

/* The next index to look at (0 is spent), and whether it counts down. */
typedef struct {
    uint16_t index;
    bool rev;
} nektawul_cursor;

/* One record of the journal: a moved message's old and new handle, and whether its removal overflowed. */
typedef struct {
    nektawul_ptr old_ptr, new_ptr;
    bool overflow;
} nektawul_row;

/* A sequence's state: the next command's number, from 1, and the header. */
typedef struct {
    uint16_t next;
    nektawul_header header;
} nektawul_state;

/* What the check of a sequence file gives: the refusal's number (0 is none) and the command at fault (0 where none is). */
typedef struct {
    uint8_t refusal;
    uint16_t fault;
} nektawul_checked;

/* An answer: the handle and the value that it shows, zeros where it shows none; where it is refused, the number and zeros. */
typedef struct {
    uint64_t value;
    uint8_t kind;
    uint8_t refusal;
    uint16_t index;
    uint32_t generation;
} nektawul_answer;

typedef struct {
    nektawul_answer answer;
    nektawul_header header;
} nektawul_compressed;

typedef struct {
    nektawul_answer answer;
    nektawul_header destination, source;
} nektawul_transferred;

static_assert(sizeof(size_t) == 8 && sizeof(bool) == 1, "the library is for x86-64");
static_assert(sizeof(nektawul_ptr) == 8 && offsetof(nektawul_ptr, generation) == 4, "layout of a handle");
static_assert(sizeof(nektawul_header) == 12 && offsetof(nektawul_header, generation) == 8, "layout of a header");
static_assert(sizeof(nektawul_cursor) == 4 && offsetof(nektawul_cursor, rev) == 2, "layout of a cursor");
static_assert(sizeof(nektawul_row) == 20 && offsetof(nektawul_row, new_ptr) == 8, "layout of a row");
static_assert(offsetof(nektawul_row, overflow) == 16, "layout of a row");
static_assert(sizeof(nektawul_state) == 16 && offsetof(nektawul_state, header) == 4, "layout of a state");
static_assert(sizeof(nektawul_checked) == 4 && offsetof(nektawul_checked, fault) == 2, "layout of a check");
static_assert(sizeof(nektawul_answer) == 16 && offsetof(nektawul_answer, kind) == 8, "layout of an answer");
static_assert(offsetof(nektawul_answer, refusal) == 9 && offsetof(nektawul_answer, index) == 10, "layout of an answer");
static_assert(offsetof(nektawul_answer, generation) == 12, "layout of an answer");
static_assert(sizeof(nektawul_compressed) == 32 && offsetof(nektawul_compressed, header) == 16, "layout of a compress");
static_assert(sizeof(nektawul_transferred) == 40 && offsetof(nektawul_transferred, source) == 28, "layout of a transfer");

/* The kinds of an answer; the last two are a step's alone. */
enum {
    NEKTAWUL_DONE = 0,
    NEKTAWUL_OVERFLOW = 1,    /* done, and the generation went from 4,294,967,295 to 2: from now on old handles may come again */
    NEKTAWUL_REFUSED = 2,
    NEKTAWUL_END = 3,         /* past the last command: nothing is changed */
    NEKTAWUL_TURNED_DOWN = 4, /* the step itself; index has the command at fault, or 0 */
};

/* Why a call was turned down, in checking order. */
enum {
    NEKTAWUL_TABLES_UNFIT = 1,        /* the three tables differ in length or exceed 1,024 entries */
    NEKTAWUL_HEADER_UNFIT = 2,        /* stack longer than the tables, len or root above it, or generation 0 */
    NEKTAWUL_ZERO_GIVEN = 3,          /* an index or generation argument is 0 */
    NEKTAWUL_UNSOUND = 4,             /* the store contradicts itself where the call needs it not to */
    NEKTAWUL_JOURNAL_SHORT = 5,       /* fewer rows than messages to be moved */
    NEKTAWUL_INVALID_PTR = 6,         /* no live message under this handle or index */
    NEKTAWUL_NOT_WITHIN_CAPACITY = 7, /* an insertion finds no free place */
    NEKTAWUL_ALLOC_ERROR = 8,         /* a reserve of more than 65,535 places */
    NEKTAWUL_BEYOND_MAX_CAPACITY = 9, /* more places wanted than the store has */
    NEKTAWUL_WRONG_LENGTH = 10,       /* sequence shorter than 8 bytes, not 8 + 16n long, or n above 4,095 */
    NEKTAWUL_WRONG_MARK = 11,         /* wrong mark, version or eighth byte */
    NEKTAWUL_WRONG_PLACES = 12,       /* another number of places than the tables', or a next number of 0 or above n + 1 */
    NEKTAWUL_WRONG_COMMAND = 13,      /* unknown command, unused field not zero, or compress flag above 1 */
};

/* The commands of a sequence file: the row of a tally is the code less 1. */
enum {
    NEKTAWUL_INSERT = 1,
    NEKTAWUL_REMOVE = 2,
    NEKTAWUL_INVALIDATE = 3,
    NEKTAWUL_GET = 4,
    NEKTAWUL_CLEAR = 5,
    NEKTAWUL_ORDER = 6,
    NEKTAWUL_COMPRESS = 7,
    NEKTAWUL_AUDIT = 8,
    NEKTAWUL_SETGEN = 9,
    NEKTAWUL_TAKEINX = 10,
};

enum {
    NEKTAWUL_MAX_PLACES = 1024,
    NEKTAWUL_MAX_COMMANDS = 4095,
    NEKTAWUL_MAX_FILE = 8 + 16 * NEKTAWUL_MAX_COMMANDS,
};

/* A table is two arguments, its pointer and its count of entries: tables that a call may change, and tables that it only reads. */
#define NEKTAWUL_TABLES \
    uint32_t *generations, size_t generations_count, uint16_t *links, size_t links_count, uint64_t *values, size_t values_count
#define NEKTAWUL_TABLES_READ \
    const uint32_t *generations, size_t generations_count, const uint16_t *links, size_t links_count, const uint64_t *values, size_t values_count

/* The calls. `counts` is a header's three counts and `current` its generation; where they are not const, they are the header after the call.
   What an answer shows is said with each call; a refused call leaves all as it was, but for 8 and 9 as said below. */

/* A new store: every word 0, generation 2. It has no refusal; tables that are unfit are zeroed too, and the calls then refuse them. */
void nektawul_new(uint16_t counts[3], uint32_t *current, NEKTAWUL_TABLES);

/* Puts a message at the root place or else at place m + 1: handle and value. The second refuses a full store by 9 and not by 7. */
nektawul_answer nektawul_insert_within_capacity(uint64_t value, uint16_t counts[3], uint32_t *current, NEKTAWUL_TABLES);
nektawul_answer nektawul_insert_reallocating(uint64_t value, uint16_t counts[3], uint32_t *current, NEKTAWUL_TABLES);

/* Withdraws a message, by its handle or by its index alone, and steps the generation: the handle taken and the value. */
nektawul_answer nektawul_remove(uint16_t index, uint32_t generation, uint16_t counts[3], uint32_t *current, NEKTAWUL_TABLES);
nektawul_answer nektawul_remove_inx(uint16_t index, uint16_t counts[3], uint32_t *current, NEKTAWUL_TABLES);

/* Steps the generation and gives the message a new handle: that handle. */
nektawul_answer nektawul_invalidate(uint16_t index, uint32_t generation, uint16_t counts[3], uint32_t *current, uint32_t *generations,
                                    size_t generations_count, const uint16_t *links, size_t links_count, const uint64_t *values,
                                    size_t values_count);

/* Shows a message: the handle given and the value. */
nektawul_answer nektawul_get(uint16_t index, uint32_t generation, const uint16_t counts[3], uint32_t current, NEKTAWUL_TABLES_READ);

/* Stores another value under a handle: nothing shown. */
nektawul_answer nektawul_put(uint64_t value, uint16_t index, uint32_t generation, const uint16_t counts[3], uint32_t current,
                             const uint32_t *generations, size_t generations_count, const uint16_t *links, size_t links_count,
                             uint64_t *values, size_t values_count);

/* Withdraws all messages: nothing shown. The generation steps if there was one. */
nektawul_answer nektawul_clear(uint16_t counts[3], uint32_t *current, NEKTAWUL_TABLES);

/* Order: free places at the end of the stack are given up, the others chained ascending: nothing shown. */
nektawul_answer nektawul_canonicalize_freelist(uint16_t counts[3], uint32_t *current, const uint32_t *generations, size_t generations_count,
                                               uint16_t *links, size_t links_count, uint64_t *values, size_t values_count);

/* Reserve: orders, then refuses more than 65,535 places by 8 and more than there are by 9 (both leave the store ordered): nothing shown. */
nektawul_answer nektawul_reallocate_min_capacity(size_t places, uint16_t counts[3], uint32_t *current, const uint32_t *generations,
                                                 size_t generations_count, uint16_t *links, size_t links_count, uint64_t *values,
                                                 size_t values_count);

/* The current generation, set or stepped: nothing shown. After one is set below the current one a withdrawn handle may be given out again. */
nektawul_answer nektawul_set_generation(uint32_t generation, uint16_t counts[3], uint32_t *current, NEKTAWUL_TABLES_READ);
nektawul_answer nektawul_inc_generation(uint16_t counts[3], uint32_t *current, NEKTAWUL_TABLES_READ);

/* Audit: the verdict as value, 0 sound, else 1 generation below 2, 2 len or m above capacity, 3 count, 4 root, 5 link zero, 6 link beyond m,
   7 chain meets a live place, 8 endless, 9 discontinuous. `looks` is the number of chain places looked at, at most counts[1] + 2. It
   does not test 2. */
nektawul_answer nektawul_check_invariants(uint16_t *looks, const uint16_t counts[3], uint32_t current, NEKTAWUL_TABLES_READ);

/* The lowest and the highest message: its handle, index 0 where there is none. */
nektawul_answer nektawul_find_first_inx_ptr(const uint16_t counts[3], uint32_t current, NEKTAWUL_TABLES_READ);
nektawul_answer nektawul_find_last_inx_ptr(const uint16_t counts[3], uint32_t current, NEKTAWUL_TABLES_READ);

/* Moves a cursor (its two words) on to the next message: its handle, index 0 at the end. */
nektawul_answer nektawul_advance(uint16_t *next, bool *rev, const uint16_t counts[3], uint32_t current, NEKTAWUL_TABLES_READ);

/* The same, and withdraws that message: its handle and value. At the end, index 0, all messages are withdrawn. */
nektawul_answer nektawul_drain(uint16_t *next, bool *rev, uint16_t counts[3], uint32_t *current, NEKTAWUL_TABLES);

/* Copy: the destination (d) takes the source's messages at the same places and under the same handles: nothing shown. 9 leaves it ordered. */
nektawul_answer nektawul_clone_from_with(uint16_t dcounts[3], uint32_t *dcurrent, const uint16_t scounts[3], uint32_t scurrent,
                                         uint32_t *dgenerations, size_t dgenerations_count, uint16_t *dlinks, size_t dlinks_count,
                                         uint64_t *dvalues, size_t dvalues_count, const uint32_t *sgenerations, size_t sgenerations_count,
                                         const uint16_t *slinks, size_t slinks_count, const uint64_t *svalues, size_t svalues_count);

/* Moves the messages down to the lowest places, all under one generation, and writes a row for each from the first row on. With reset that
   generation is 2, and handles given out before may come again. Nothing shown; the header after it comes back beside the answer. */
nektawul_compressed nektawul_compress_with(nektawul_header header, bool reset, NEKTAWUL_TABLES, nektawul_row *rows, size_t rows_count);

/* Moves the source's messages into the cleared destination, under the generation given, and writes a row for each: nothing shown, an overflow
   stands only in the rows. 9 leaves the destination ordered. */
nektawul_transferred nektawul_transfer_reallocating(nektawul_header destination, nektawul_header source, uint32_t generation,
                                                    uint32_t *dgenerations, size_t dgenerations_count, uint16_t *dlinks,
                                                    size_t dlinks_count, uint64_t *dvalues, size_t dvalues_count, uint32_t *sgenerations,
                                                    size_t sgenerations_count, uint16_t *slinks, size_t slinks_count, uint64_t *svalues,
                                                    size_t svalues_count, nektawul_row *rows, size_t rows_count);

/* Checks a whole sequence file, and that command `next` can come next: refusals 1 and 10 to 13. */
nektawul_checked nektawul_check(uint16_t next, const uint8_t *file, size_t file_count, NEKTAWUL_TABLES_READ);

/* How many places to lend to a sequence file: its own number, 1,024 where that is larger or not there. */
size_t nektawul_lent_places(const uint8_t *file, size_t file_count);

/* Performs the state's next command, after the check: the command's answer, or end, or turned down. A refused command still moves the state on. */
nektawul_answer nektawul_step(nektawul_state *state, const uint8_t *file, size_t file_count, NEKTAWUL_TABLES, nektawul_row *rows,
                              size_t rows_count);

/* Performs all commands from the state's next on, after one check: tally[code - 1] counts those done, overflowed and refused. */
void nektawul_run(nektawul_state *state, nektawul_checked *checked, uint32_t tally[10][3], const uint8_t *file, size_t file_count,
                  NEKTAWUL_TABLES, nektawul_row *rows, size_t rows_count);

/* The same calls over a store that keeps its header. Each is one call of the above. */
typedef struct {
    nektawul_header header;
    uint32_t *generations;
    uint16_t *links;
    uint64_t *values;
    size_t places;
} nektawul_store;

#define NEKTAWUL_LENT(s) (s)->generations, (s)->places, (s)->links, (s)->places, (s)->values, (s)->places
#define NEKTAWUL_HEADER(s) (s)->header.counts, &(s)->header.generation
#define NEKTAWUL_HEADER_READ(s) (s)->header.counts, (s)->header.generation

/* The handle that an answer shows. */
static inline nektawul_ptr nektawul_answer_ptr(nektawul_answer answer) {
    nektawul_ptr p;
    p.index = answer.index;
    p.generation = answer.generation;
    return p;
}

/* A refusal in words. */
static inline const char *nektawul_refusal_words(uint8_t refusal) {
    switch (refusal) {
    case NEKTAWUL_TABLES_UNFIT: return "the tables differ in length or have more than 1,024 entries";
    case NEKTAWUL_HEADER_UNFIT: return "the header does not fit the tables, or its generation is 0";
    case NEKTAWUL_ZERO_GIVEN: return "an index or a generation given is 0";
    case NEKTAWUL_UNSOUND: return "the store is unsound";
    case NEKTAWUL_JOURNAL_SHORT: return "the journal has fewer rows than messages to be moved";
    case NEKTAWUL_INVALID_PTR: return "no message is there under this handle";
    case NEKTAWUL_NOT_WITHIN_CAPACITY: return "no place is left";
    case NEKTAWUL_ALLOC_ERROR: return "more than 65,535 places are asked for";
    case NEKTAWUL_BEYOND_MAX_CAPACITY: return "the store has not so many places";
    case NEKTAWUL_WRONG_LENGTH: return "the sequence has a wrong length";
    case NEKTAWUL_WRONG_MARK: return "the sequence has a wrong mark, version or eighth byte";
    case NEKTAWUL_WRONG_PLACES: return "the sequence is for another number of places, or its next number is out of range";
    case NEKTAWUL_WRONG_COMMAND: return "the sequence has an unknown command or a field that is not permitted";
    default: return "not refused";
    }
}

/* Lays the tables out and makes a store of them. The header is zeroed first with the bytes between its numbers: they are carried along where a
   header is passed by value, and valgrind cannot tell that nothing depends on them. */
static inline void nektawul_store_new(nektawul_store *s, uint32_t *generations, uint16_t *links, uint64_t *values, size_t places) {
    memset(&s->header, 0, sizeof s->header);
    s->generations = generations;
    s->links = links;
    s->values = values;
    s->places = places;
    nektawul_new(NEKTAWUL_HEADER(s), NEKTAWUL_LENT(s));
}

static inline nektawul_answer nektawul_store_insert(nektawul_store *s, uint64_t value) {
    return nektawul_insert_within_capacity(value, NEKTAWUL_HEADER(s), NEKTAWUL_LENT(s));
}

static inline nektawul_answer nektawul_store_insert_reallocating(nektawul_store *s, uint64_t value) {
    return nektawul_insert_reallocating(value, NEKTAWUL_HEADER(s), NEKTAWUL_LENT(s));
}

static inline nektawul_answer nektawul_store_remove(nektawul_store *s, nektawul_ptr p) {
    return nektawul_remove(p.index, p.generation, NEKTAWUL_HEADER(s), NEKTAWUL_LENT(s));
}

static inline nektawul_answer nektawul_store_remove_inx(nektawul_store *s, uint16_t index) {
    return nektawul_remove_inx(index, NEKTAWUL_HEADER(s), NEKTAWUL_LENT(s));
}

static inline nektawul_answer nektawul_store_invalidate(nektawul_store *s, nektawul_ptr p) {
    return nektawul_invalidate(p.index, p.generation, NEKTAWUL_HEADER(s), NEKTAWUL_LENT(s));
}

static inline nektawul_answer nektawul_store_get(const nektawul_store *s, nektawul_ptr p) {
    return nektawul_get(p.index, p.generation, NEKTAWUL_HEADER_READ(s), NEKTAWUL_LENT(s));
}

static inline nektawul_answer nektawul_store_put(nektawul_store *s, nektawul_ptr p, uint64_t value) {
    return nektawul_put(value, p.index, p.generation, NEKTAWUL_HEADER_READ(s), NEKTAWUL_LENT(s));
}

static inline nektawul_answer nektawul_store_clear(nektawul_store *s) {
    return nektawul_clear(NEKTAWUL_HEADER(s), NEKTAWUL_LENT(s));
}

static inline nektawul_answer nektawul_store_canonicalize_freelist(nektawul_store *s) {
    return nektawul_canonicalize_freelist(NEKTAWUL_HEADER(s), NEKTAWUL_LENT(s));
}

static inline nektawul_answer nektawul_store_reallocate_min_capacity(nektawul_store *s, size_t places) {
    return nektawul_reallocate_min_capacity(places, NEKTAWUL_HEADER(s), NEKTAWUL_LENT(s));
}

static inline nektawul_answer nektawul_store_set_generation(nektawul_store *s, uint32_t generation) {
    return nektawul_set_generation(generation, NEKTAWUL_HEADER(s), NEKTAWUL_LENT(s));
}

static inline nektawul_answer nektawul_store_inc_generation(nektawul_store *s) {
    return nektawul_inc_generation(NEKTAWUL_HEADER(s), NEKTAWUL_LENT(s));
}

static inline nektawul_answer nektawul_store_check_invariants(const nektawul_store *s, uint16_t *looks) {
    return nektawul_check_invariants(looks, NEKTAWUL_HEADER_READ(s), NEKTAWUL_LENT(s));
}

static inline nektawul_answer nektawul_store_find_first_inx_ptr(const nektawul_store *s) {
    return nektawul_find_first_inx_ptr(NEKTAWUL_HEADER_READ(s), NEKTAWUL_LENT(s));
}

static inline nektawul_answer nektawul_store_find_last_inx_ptr(const nektawul_store *s) {
    return nektawul_find_last_inx_ptr(NEKTAWUL_HEADER_READ(s), NEKTAWUL_LENT(s));
}

static inline nektawul_answer nektawul_store_advance(const nektawul_store *s, nektawul_cursor *cursor) {
    return nektawul_advance(&cursor->index, &cursor->rev, NEKTAWUL_HEADER_READ(s), NEKTAWUL_LENT(s));
}

static inline nektawul_answer nektawul_store_drain(nektawul_store *s, nektawul_cursor *cursor) {
    return nektawul_drain(&cursor->index, &cursor->rev, NEKTAWUL_HEADER(s), NEKTAWUL_LENT(s));
}

/* `d` and `s` are two stores with tables of their own. */
static inline nektawul_answer nektawul_store_clone_from_with(nektawul_store *d, const nektawul_store *s) {
    return nektawul_clone_from_with(NEKTAWUL_HEADER(d), NEKTAWUL_HEADER_READ(s), NEKTAWUL_LENT(d), NEKTAWUL_LENT(s));
}

static inline nektawul_answer nektawul_store_compress_with(nektawul_store *s, bool reset, nektawul_row *rows, size_t rows_count) {
    nektawul_compressed done = nektawul_compress_with(s->header, reset, NEKTAWUL_LENT(s), rows, rows_count);
    s->header = done.header;
    return done.answer;
}

/* `d` and `s` are two stores with tables of their own. */
static inline nektawul_answer nektawul_store_transfer_reallocating(nektawul_store *d, nektawul_store *s, uint32_t generation,
                                                                   nektawul_row *rows, size_t rows_count) {
    nektawul_transferred done =
        nektawul_transfer_reallocating(d->header, s->header, generation, NEKTAWUL_LENT(d), NEKTAWUL_LENT(s), rows, rows_count);
    d->header = done.destination;
    s->header = done.source;
    return done.answer;
}

static inline nektawul_checked nektawul_store_check(const nektawul_store *s, uint16_t next, const uint8_t *file, size_t file_count) {
    return nektawul_check(next, file, file_count, NEKTAWUL_LENT(s));
}

/* The store's header counts: it is handed to the state before the step and taken from it after. So a loop sets `next` and no more. */
static inline nektawul_answer nektawul_store_step(nektawul_store *s, nektawul_state *state, const uint8_t *file, size_t file_count,
                                                  nektawul_row *rows, size_t rows_count) {
    nektawul_answer answer;
    state->header = s->header;
    answer = nektawul_step(state, file, file_count, NEKTAWUL_LENT(s), rows, rows_count);
    s->header = state->header;
    return answer;
}

/* As a step with the state. Done, or turned down with the number in `refusal` and the command at fault in `fault`. */
static inline nektawul_checked nektawul_store_run(nektawul_store *s, nektawul_state *state, uint32_t tally[10][3], const uint8_t *file,
                                                  size_t file_count, nektawul_row *rows, size_t rows_count) {
    nektawul_checked checked = {0, 0};
    state->header = s->header;
    nektawul_run(state, &checked, tally, file, file_count, NEKTAWUL_LENT(s), rows, rows_count);
    s->header = state->header;
    return checked;
}

#undef NEKTAWUL_TABLES
#undef NEKTAWUL_TABLES_READ
#undef NEKTAWUL_LENT
#undef NEKTAWUL_HEADER
#undef NEKTAWUL_HEADER_READ

#ifdef __cplusplus
}
#endif

#endif
