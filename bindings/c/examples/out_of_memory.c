/*
 * An engine that is alone finalizes some views while one request for memory is refused: the first one that the library makes, in another run
 * the second, and so on until a run makes so many no more. A call whose request is refused says so, or did without. Where it has failed the
 * engine returns SIMPLEX_FAILED, and another continues from what was stored; it contradicts no vote before, and finalizes the views. A vote
 * that was stored and not counted is lost, and its view is nullified once its time is over.
 *
 *     out_of_memory VIEWS
 */
#include "simplex.h"
#include <stdio.h>
#include <stdlib.h>
#include <string.h>

#define IS(what) do { if (!(what)) { fprintf(stderr, "%s:%d: not so: %s\n", __FILE__, __LINE__, #what); exit(1); } } while (0)
/* A call of the library, in which requests count. */
#define COUNTED(call) (is_counting = 1, call)

enum { MOST_VIEWS = 64 };
static const uint32_t LEADERS[1] = {0};
static const struct simplex_settings SETTINGS = {.members = 1, .signer = 0, .term_length = 1, .epoch = 1, .view_retention = 10,
    .leader_timeout = 1000, .certification_timeout = 2000, .timeout_retry = 500, .skip_timeout = 3000};
static const struct simplex_options OPTIONS = {.retry = 250, .on_its_way = 25, .long_record = 20};
static uint8_t journal[1 << 20];
static size_t journal_len;
static struct simplex_stored stored;
static int is_stored;
static int is_counting;
static long left, refused;
static uint64_t now;
/* What was voted to notarize and to finalize in each view. */
static struct simplex_proposal voted[4][MOST_VIEWS];

extern void *__libc_malloc(size_t);
extern void *__libc_realloc(void *, size_t);

static int is_refused(void) {
    if (!is_counting || left < 0 || left-- > 0) return 0;
    refused++;
    return 1;
}

void *malloc(size_t size) { return is_refused() ? 0 : __libc_malloc(size); }
void *realloc(void *at, size_t size) { return is_refused() ? 0 : __libc_realloc(at, size); }

/* An engine from what was stored, however often it is refused: there is one refusal in a run. */
static simplex_engine *begun(void) {
    simplex_engine *at = 0;
    for (int tried = 0;; tried++) {
        uint32_t status = is_stored ? COUNTED(simplex_engine_resume(&SETTINGS, LEADERS, 1, 0, 0, &OPTIONS, now, &stored, journal, journal_len, &at))
                                    : COUNTED(simplex_engine_start(&SETTINGS, LEADERS, 1, 0, 0, &OPTIONS, now, &at));
        is_counting = 0;
        if (!status) return at;
        IS(status == SIMPLEX_OUT_OF_MEMORY && !at && !tried);
    }
}

static size_t read_out(simplex_engine *at, uint8_t *to) {
    size_t len = 0;
    for (;;) {
        long before = refused;
        struct simplex_chunk chunk = COUNTED(simplex_engine_bytes(at, SIMPLEX_OF_OUTPUT, len));
        is_counting = 0;
        IS(!chunk.status && refused == before);
        if (!chunk.count) return len;
        memcpy(to + len, chunk.bytes, chunk.count);
        len += chunk.count;
    }
}

/* A vote contradicts none before it, and stands in the journal. */
static void votes(simplex_engine *at, const struct simplex_output *it) {
    uint8_t text[96];
    size_t len = read_out(at, text), from = 0;
    while (from + len <= journal_len && memcmp(journal + from, text, len)) from++;
    IS(len == it->bytes && from + len <= journal_len);
    if (it->subject.kind == SIMPLEX_NULLIFICATION) return;
    struct simplex_proposal *before = &voted[it->subject.kind][it->subject.proposal.round.view];
    IS(!before->round.view || !memcmp(before, &it->subject.proposal, sizeof *before));
    *before = it->subject.proposal;
}

/* The input that replies to an output; its kind is 0 where there is none. */
static struct simplex_input answer_to(const struct simplex_output *it) {
    struct simplex_input input = {.success = 1, .view = it->subject.proposal.round.view, .subject = it->subject};
    switch (it->kind) {
    case SIMPLEX_VOTE: input.kind = SIMPLEX_TELL_VOTE; break;
    case SIMPLEX_VERIFY: input.kind = SIMPLEX_TELL_VERIFIED; break;
    case SIMPLEX_CERTIFY: input.kind = SIMPLEX_TELL_CERTIFIED; break;
    case SIMPLEX_BUILD:
        input.kind = SIMPLEX_TELL_BUILT;
        input.context = it->context;
        input.subject.proposal.payload[0] = (uint8_t)it->context.round.view;
        break;
    default: break;
    }
    return input;
}

/* Carries an output out. Returns whether the engine has not failed. */
static int carries_out(simplex_engine *at, const struct simplex_output *it) {
    static const uint8_t signature[64] = {9};
    if (it->kind == SIMPLEX_STORE || it->kind == SIMPLEX_REPLACE) {
        journal_len = read_out(at, it->kind == SIMPLEX_STORE ? journal + journal_len : journal) + (it->kind == SIMPLEX_STORE ? journal_len : 0);
        stored = it->stored;
        is_stored = 1;
    }
    if (it->kind == SIMPLEX_VOTE) votes(at, it);
    if (it->kind == SIMPLEX_NOTHING) {
        uint64_t wake = simplex_engine_status(at).wake;
        IS(wake > now);
        now = wake;
    }
    struct simplex_input input = answer_to(it);
    for (int tried = 0; input.kind; tried++) {
        long before = refused;
        struct simplex_taken taken = COUNTED(simplex_engine_handle(at, &input, signature, sizeof signature, now));
        is_counting = 0;
        if (taken.status == SIMPLEX_OUT_OF_MEMORY) return 0;
        if (!taken.status) return 1;
        IS(taken.status == SIMPLEX_NOT_MADE && refused > before && !tried);
    }
    return 1;
}

/* Finalizes so many views, of which the request number is refused; whether one was. */
static int run(long number, uint64_t views) {
    journal_len = is_stored = now = 0;
    memset(voted, 0, sizeof voted);
    left = number;
    refused = 0;
    simplex_engine *at = begun();
    for (uint64_t last = 0; last < views;) {
        long before = refused;
        struct simplex_output it = COUNTED(simplex_engine_poll(at, now));
        is_counting = 0;
        if (it.kind == SIMPLEX_FINAL) last = it.subject.proposal.round.view;
        if (!it.status && carries_out(at, &it)) continue;
        IS(it.kind || (it.status == SIMPLEX_OUT_OF_MEMORY && refused > before));
        IS(simplex_engine_poll(at, now).status == SIMPLEX_FAILED && simplex_engine_status(at).status == SIMPLEX_FAILED);
        simplex_engine_free(at);
        at = begun();
    }
    simplex_engine_free(at);
    return refused > 0;
}

int main(int argc, char **argv) {
    uint64_t views = argc > 1 ? strtoul(argv[1], 0, 10) : 5;
    IS(views < MOST_VIEWS);
    long number = 0;
    while (run(number, views)) number++;
    printf("%ld requests refused\n", number);
    return 0;
}
