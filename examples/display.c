/* A worked display loop: the warnings of a motor cycle's display in a store of eight places. The loop keeps a handle for each warning and shows in
   every frame what its handles show. Then a sequence file, named as the argument, is played step by step and as a whole.

   `bash examples/run.sh` builds and runs it and compares what it prints with examples/display.txt. */
#include <stdio.h>
#include <string.h>

#include "nektawul.h"

/* A message is a number of the caller's: here which text is shown. */
enum { OIL, FUEL, FUEL_20, STAND, HOT, SERVICE, TYRE, LAMP, ICE, KEY, TEXTS };

static const char *const texts[TEXTS] = {
    [OIL] = "oil pressure low",
    [FUEL] = "fuel low",
    [FUEL_20] = "fuel for 20 km",
    [STAND] = "side stand down",
    [HOT] = "engine hot",
    [SERVICE] = "service due",
    [TYRE] = "tyre pressure low",
    [LAMP] = "lamp out",
    [ICE] = "ice on the road",
    [KEY] = "key not in reach",
};

enum { PLACES = 8 };

/* The display: its store, and the handle that it keeps for each warning (index 0 where it keeps none). */
typedef struct {
    nektawul_store store;
    nektawul_ptr kept[TEXTS];
} display;

static void heading(const char *text) {
    printf("\n== %s\n", text);
}

static bool is_kept(nektawul_ptr p) {
    return p.index != 0;
}

static bool same(nektawul_ptr p, nektawul_ptr q) {
    return p.index == q.index && p.generation == q.generation;
}

static const char *text_of(uint64_t message) {
    return message < TEXTS ? texts[message] : "?";
}

static void print_ptr(nektawul_ptr p) {
    printf("(%u,%u)", (unsigned)p.index, (unsigned)p.generation);
}

/* Tells whether a call was done; says so where it was not, or where the generation ran over. */
static bool is_done(const char *call, nektawul_answer answer) {
    if (answer.kind == NEKTAWUL_REFUSED) {
        printf("%s is refused by %u: %s\n", call, (unsigned)answer.refusal, nektawul_refusal_words(answer.refusal));
        return false;
    }
    printf("%s: %s\n", call, answer.kind == NEKTAWUL_OVERFLOW ? "done, and the generation ran over" : "done");
    return true;
}

/* Shows what a handle shows. */
static void show(const nektawul_store *s, const char *warning, nektawul_ptr p) {
    nektawul_answer answer = nektawul_store_get(s, p);
    printf("  ");
    print_ptr(p);
    printf(" kept for '%s' shows %s\n", warning, answer.kind == NEKTAWUL_DONE ? text_of(answer.value) : "nothing");
}

/* One frame of the loop. */
static void frame(const display *d) {
    printf("frame\n");
    for (size_t i = 0; i < TEXTS; i++) {
        if (is_kept(d->kept[i])) {
            show(&d->store, texts[i], d->kept[i]);
        }
    }
}

static void put_up(display *d, size_t warning) {
    nektawul_answer answer = nektawul_store_insert(&d->store, warning);
    printf("'%s' ", texts[warning]);
    if (is_done("put up", answer)) {
        d->kept[warning] = nektawul_answer_ptr(answer);
    }
}

/* Withdraws a warning. Its handle is kept, to see that it shows nothing any more. */
static void withdraw(display *d, size_t warning) {
    printf("'%s' ", texts[warning]);
    is_done("withdrawn", nektawul_store_remove(&d->store, d->kept[warning]));
}

static void messages_come_and_go(display *d) {
    heading("messages come and go");
    put_up(d, OIL);
    put_up(d, FUEL);
    frame(d);
    printf("'%s' ", texts[FUEL]);
    is_done("changed", nektawul_store_put(&d->store, d->kept[FUEL], FUEL_20));
    withdraw(d, OIL);
    frame(d);
    printf("A newer message takes the free place; the old handle still shows nothing.\n");
    put_up(d, STAND);
    frame(d);
}

/* A new handle for a message: whoever has the old one sees it no more. */
static void take_back(display *d) {
    nektawul_ptr old = d->kept[FUEL];
    heading("a handle is taken back");
    nektawul_answer answer = nektawul_store_invalidate(&d->store, old);
    if (is_done("invalidate", answer)) {
        d->kept[FUEL] = nektawul_answer_ptr(answer);
    }
    show(&d->store, texts[FUEL], old);
    show(&d->store, texts[FUEL], d->kept[FUEL]);
}

static void every_place_taken(display *d) {
    heading("every place taken");
    d->kept[OIL].index = 0;
    for (size_t warning = HOT; warning <= KEY; warning++) {
        put_up(d, warning);
    }
    put_up(d, OIL);
    is_done("insert_reallocating", nektawul_store_insert_reallocating(&d->store, OIL));
    is_done("reserve of 8 places", nektawul_store_reallocate_min_capacity(&d->store, PLACES));
    is_done("reserve of 9 places", nektawul_store_reallocate_min_capacity(&d->store, PLACES + 1));
    is_done("reserve of 65,536 places", nektawul_store_reallocate_min_capacity(&d->store, 65536));
}

/* From message to message. The index of a cursor's answer is 0 at the end, and of a refusal too. A walk down starts within the stack: from an
   index above it a cursor finds nothing. */
static void walk(const nektawul_store *s, uint16_t from, bool down) {
    nektawul_cursor cursor = {from, down};
    nektawul_answer answer = nektawul_store_advance(s, &cursor);
    printf("%s:", down ? "down" : "up");
    while (answer.index != 0) {
        printf(" ");
        print_ptr(nektawul_answer_ptr(answer));
        answer = nektawul_store_advance(s, &cursor);
    }
    printf("\n");
}

static void walks(display *d) {
    heading("a walk by cursor");
    withdraw(d, STAND);
    withdraw(d, LAMP);
    is_done("taken from place 8", nektawul_store_remove_inx(&d->store, 8));
    walk(&d->store, 1, false);
    walk(&d->store, d->store.header.counts[1], true);
    printf("first ");
    print_ptr(nektawul_answer_ptr(nektawul_store_find_first_inx_ptr(&d->store)));
    printf(", last ");
    print_ptr(nektawul_answer_ptr(nektawul_store_find_last_inx_ptr(&d->store)));
    printf("\n");
}

static void print_row(const nektawul_row *row) {
    printf("  row ");
    print_ptr(row->old_ptr);
    printf(" -> ");
    print_ptr(row->new_ptr);
    printf("%s\n", row->overflow ? ", ran over" : "");
}

/* The handle that the first rows of a journal give for p; none where p is in no row. */
static nektawul_ptr renewed(nektawul_ptr p, const nektawul_row *rows, size_t count) {
    nektawul_ptr none = {0, 0};
    for (size_t i = 0; i < count; i++) {
        if (same(p, rows[i].old_ptr)) {
            return rows[i].new_ptr;
        }
    }
    return none;
}

/* Handles that are in no row were stale before, and are dropped. */
static void renew_handles(display *d, const nektawul_row *rows, size_t count) {
    for (size_t i = 0; i < TEXTS; i++) {
        d->kept[i] = renewed(d->kept[i], rows, count);
    }
}

static void print_rows(const nektawul_row *rows, size_t count) {
    for (size_t i = 0; i < count; i++) {
        print_row(&rows[i]);
    }
}

static void compress(display *d) {
    static nektawul_row rows[PLACES];
    size_t moved = d->store.header.counts[0];
    heading("compress, and the handles renewed from the journal");
    is_done("compress with one row", nektawul_store_compress_with(&d->store, false, rows, 1));
    if (is_done("compress", nektawul_store_compress_with(&d->store, false, rows, PLACES))) {
        print_rows(rows, moved);
        renew_handles(d, rows, moved);
    }
    frame(d);
}

static void audit(const nektawul_store *s) {
    uint16_t looks = 0;
    nektawul_answer answer = nektawul_store_check_invariants(s, &looks);
    printf("audit: %s\n", answer.kind == NEKTAWUL_DONE && answer.value == 0 ? "sound" : "unsound");
}

/* Calls that a display may need once in a while. */
static void housekeeping(display *d) {
    heading("housekeeping");
    withdraw(d, FUEL);
    withdraw(d, SERVICE);
    audit(&d->store);
    is_done("order", nektawul_store_canonicalize_freelist(&d->store));
    audit(&d->store);
    is_done("generation stepped", nektawul_store_inc_generation(&d->store));
    is_done("clear", nektawul_store_clear(&d->store));
    frame(d);
}

/* Keeps a handle for the warning that it shows. */
static void keep(display *d, nektawul_ptr p) {
    nektawul_answer answer = nektawul_store_get(&d->store, p);
    if (answer.kind == NEKTAWUL_DONE && answer.value < TEXTS) {
        d->kept[answer.value] = p;
    }
}

/* Drops every handle kept and takes those of the messages that are up, by a walk. */
static void find_handles(display *d) {
    nektawul_cursor cursor = {1, false};
    nektawul_answer answer = nektawul_store_advance(&d->store, &cursor);
    memset(d->kept, 0, sizeof d->kept);
    while (answer.index != 0) {
        keep(d, nektawul_answer_ptr(answer));
        answer = nektawul_store_advance(&d->store, &cursor);
    }
}

/* The generation has 32 bits. From 4,294,967,295 it goes to 2, and then a handle given out long ago can be given out again, and would show the newer
   message. The call that steps it so answers overflow, and the loop then finds its handles anew. */
static void overflow(void) {
    static uint32_t generations[2];
    static uint16_t links[2];
    static uint64_t values[2];
    display d;
    heading("the generation runs over");
    memset(d.kept, 0, sizeof d.kept);
    nektawul_store_new(&d.store, generations, links, values, 2);
    put_up(&d, OIL);
    put_up(&d, HOT);
    nektawul_ptr old = d.kept[OIL];
    is_done("generation set to 4,294,967,295", nektawul_store_set_generation(&d.store, UINT32_MAX));
    nektawul_answer answer = nektawul_store_remove(&d.store, old);
    is_done("remove", answer);
    if (answer.kind == NEKTAWUL_OVERFLOW) {
        find_handles(&d);
    }
    put_up(&d, ICE);
    frame(&d);
    printf("A handle that was not dropped shows a newer message:\n");
    show(&d.store, texts[OIL], old);
}

/* What a store is drained of is gone from it; its end counts as a clear. */
static void drain(nektawul_store *s) {
    nektawul_cursor cursor = {1, false};
    nektawul_answer answer = nektawul_store_drain(s, &cursor);
    while (answer.index != 0) {
        printf("  drained ");
        print_ptr(nektawul_answer_ptr(answer));
        printf(" %s\n", text_of(answer.value));
        answer = nektawul_store_drain(s, &cursor);
    }
}

/* The messages of one display go to another, with new handles; a copy keeps the handles. */
static void two_stores(display *d) {
    static uint32_t generations[2][PLACES];
    static uint16_t links[2][PLACES];
    static uint64_t values[2][PLACES];
    static nektawul_row rows[PLACES];
    nektawul_store copy, other;
    heading("two stores");
    nektawul_store_new(&copy, generations[0], links[0], values[0], PLACES);
    nektawul_store_new(&other, generations[1], links[1], values[1], PLACES);
    put_up(d, TYRE);
    put_up(d, KEY);
    is_done("copy", nektawul_store_clone_from_with(&copy, &d->store));
    show(&copy, texts[KEY], d->kept[KEY]);
    size_t moved = d->store.header.counts[0];
    is_done("transfer", nektawul_store_transfer_reallocating(&other, &d->store, 100, rows, PLACES));
    print_rows(rows, moved);
    show(&d->store, texts[KEY], d->kept[KEY]);
    show(&other, texts[KEY], renewed(d->kept[KEY], rows, moved));
    audit(&d->store);
    audit(&other);
    drain(&other);
}

/* A sequence: its bytes, and the store that it is played on. */
typedef struct {
    uint8_t bytes[NEKTAWUL_MAX_FILE + 1];
    size_t count;
    nektawul_store store;
} sequence;

/* One byte more is read than the longest sequence has, so that a longer file is seen. */
static bool read_sequence(sequence *q, const char *path) {
    FILE *file = fopen(path, "rb");
    if (file == NULL) {
        return false;
    }
    q->count = fread(q->bytes, 1, sizeof q->bytes, file);
    return fclose(file) == 0;
}

static void lay_out(sequence *q) {
    static uint32_t generations[NEKTAWUL_MAX_PLACES];
    static uint16_t links[NEKTAWUL_MAX_PLACES];
    static uint64_t values[NEKTAWUL_MAX_PLACES];
    nektawul_store_new(&q->store, generations, links, values, nektawul_lent_places(q->bytes, q->count));
}

static const char *const words[10] = {
    "insert", "remove", "invalidate", "get", "clear", "order", "compress", "audit", "setgen", "takeinx",
};

/* A listing's line: command, answer, handle, value, and the header after it. */
static void print_line(const sequence *q, uint16_t number, nektawul_answer answer) {
    const uint16_t *counts = q->store.header.counts;
    printf("%s ", words[q->bytes[8 + 16 * (number - 1)] - 1]);
    if (answer.kind == NEKTAWUL_REFUSED) {
        printf("no%u", (unsigned)answer.refusal);
    } else {
        printf("%s", answer.kind == NEKTAWUL_OVERFLOW ? "over" : "ok");
    }
    printf(" %u %u %llu", (unsigned)answer.index, (unsigned)answer.generation, (unsigned long long)answer.value);
    printf(" %u %u %u %u\n", (unsigned)counts[0], (unsigned)counts[1], (unsigned)counts[2], (unsigned)q->store.header.generation);
}

static bool ran(nektawul_answer answer) {
    return answer.kind != NEKTAWUL_END && answer.kind != NEKTAWUL_TURNED_DOWN;
}

static nektawul_row journal[NEKTAWUL_MAX_PLACES];

/* Why a sequence is turned down, and its command at fault or 0. */
static void print_refusal(uint8_t refusal, uint16_t fault) {
    printf("refused %u %u: %s\n", (unsigned)refusal, (unsigned)fault, nektawul_refusal_words(refusal));
}

static void play_steps(sequence *q) {
    nektawul_state state;
    nektawul_answer answer;
    lay_out(q);
    state.next = 1;
    answer = nektawul_store_step(&q->store, &state, q->bytes, q->count, journal, NEKTAWUL_MAX_PLACES);
    while (ran(answer)) {
        print_line(q, (uint16_t)(state.next - 1), answer);
        answer = nektawul_store_step(&q->store, &state, q->bytes, q->count, journal, NEKTAWUL_MAX_PLACES);
    }
    if (answer.kind == NEKTAWUL_END) {
        printf("end, next command %u\n", (unsigned)state.next);
    } else {
        print_refusal(answer.refusal, answer.index);
    }
}

static void print_tally(uint32_t tally[10][3]) {
    for (size_t i = 0; i < 10; i++) {
        printf("  %-10s %u done %u overflow %u refused\n", words[i], (unsigned)tally[i][0], (unsigned)tally[i][1], (unsigned)tally[i][2]);
    }
}

static void play_whole(sequence *q) {
    uint32_t tally[10][3];
    nektawul_state state;
    lay_out(q);
    state.next = 1;
    nektawul_checked checked =
        nektawul_store_run(&q->store, &state, tally, q->bytes, q->count, journal, NEKTAWUL_MAX_PLACES);
    if (checked.refusal != 0) {
        print_refusal(checked.refusal, checked.fault);
        return;
    }
    printf("next command %u\n", (unsigned)state.next);
    print_tally(tally);
}

/* A damaged file is turned down before its first command. */
static void check_damaged(sequence *q) {
    lay_out(q);
    q->bytes[0] = 0;
    nektawul_checked checked = nektawul_store_check(&q->store, 1, q->bytes, q->count);
    print_refusal(checked.refusal, checked.fault);
}

static void play(const char *path) {
    static sequence q;
    if (!read_sequence(&q, path)) {
        printf("cannot read %s\n", path);
        return;
    }
    heading("a sequence, step by step");
    play_steps(&q);
    heading("the whole run, and its tally");
    play_whole(&q);
    heading("a damaged sequence");
    check_damaged(&q);
    play_steps(&q);
}

int main(int count, char **arguments) {
    static uint32_t generations[PLACES];
    static uint16_t links[PLACES];
    static uint64_t values[PLACES];
    display d;
    if (count != 2) {
        fprintf(stderr, "usage: display SEQUENCE\n");
        return 2;
    }
    memset(d.kept, 0, sizeof d.kept);
    nektawul_store_new(&d.store, generations, links, values, PLACES);
    messages_come_and_go(&d);
    take_back(&d);
    every_place_taken(&d);
    walks(&d);
    compress(&d);
    housekeeping(&d);
    overflow();
    two_stores(&d);
    play(arguments[1]);
    return 0;
}
