/*
 * Serves the resolver's lines of the repository's program viewstate (docs/PROGRAM.md) through simplex.h, and prints the program's replies. A
 * resolver starts here with its replay ended. It serves two lines more than the program: `served V`, the bytes that are served, and
 * `fetches`, how many are outstanding.
 *
 *     resolver resolver T < lines
 *
 *     cc -O2 -I../include resolver.c ../../libsimplex.a -o resolver
 */
#include "simplex.h"
#include <inttypes.h>
#include <stdio.h>
#include <stdlib.h>
#include <string.h>

#define EPOCH 1
#define MOST_VIEWS 4096

/* A certificate of this example: one byte that no one reads. */
static const uint8_t CERTIFICATE[1] = {1};

static const char *FAULTS[] = {"", "fault 1 OutOfMemory", "fault 2 Failed", "fault 3 ViewTooLarge", "fault 4 TimeOverflow", "not-allowed"};

static simplex_resolver *resolver;

static _Noreturn void ends(const char *what, uint32_t status) {
    fprintf(stderr, "%s: status %" PRIu32 "\n", what, status);
    exit(3);
}

static const char *flag(uint32_t it) { return it ? "true" : "false"; }

static void say_effect(const struct simplex_effect *it) {
    switch (it->kind) {
    case SIMPLEX_FETCH:
        printf("fetch %" PRIu64 " %" PRIu64 " %s", it->view, it->cause,
               it->reason == SIMPLEX_MISSING_NULLIFICATION ? "missing_nullification" : "certification_failed");
        break;
    case SIMPLEX_SETTLED:
        printf("settled %s %" PRIu64 " %" PRIu64, it->reason == SIMPLEX_NULLIFICATION ? "nullification" : "notarization", it->view, it->end);
        break;
    case SIMPLEX_FINALIZED: printf("finalized %" PRIu64, it->view); break;
    case SIMPLEX_RAISED: printf("raised %" PRIu64, it->view); break;
    default: ends("effect", it->kind);
    }
}

/* Passes a certificate of the view, or a verdict on its notarization. */
static void tell(uint32_t kind, uint64_t view, uint32_t success) {
    struct simplex_told told = {.kind = kind, .success = success, .proposal = {.round = {EPOCH, view}, .parent = view ? view - 1 : 0}};
    struct simplex_effects effects = simplex_resolver_told(resolver, &told, CERTIFICATE, sizeof CERTIFICATE);
    if (effects.status > SIMPLEX_NOT_ALLOWED) ends("told", effects.status);
    if (effects.status || !effects.count) {
        puts(effects.status ? FAULTS[effects.status] : "-");
        return;
    }
    for (uint64_t i = 0; i < effects.count; i++) {
        struct simplex_effect effect = simplex_resolver_effect(resolver, i);
        printf("%s", i ? "; " : "");
        say_effect(&effect);
    }
    puts("");
}

static void say_outstanding(void) {
    static uint64_t views[MOST_VIEWS];
    struct simplex_outstanding shown = simplex_outstanding_views(resolver, views, MOST_VIEWS);
    if (shown.status || shown.count > MOST_VIEWS) ends("outstanding", shown.status);
    printf("outstanding");
    for (uint64_t i = 0; i < shown.count; i++) printf(" %" PRIu64, views[i]);
    puts("");
}

/* How many bytes are served, and their FNV-1a hash. */
static void say_served(uint64_t view) {
    struct simplex_served served = simplex_resolver_produce(resolver, view);
    if (served.status) ends("served", served.status);
    if (!served.has) {
        puts("none");
        return;
    }
    uint64_t hash = 0xcbf29ce484222325, count = 0;
    for (struct simplex_chunk chunk; (chunk = simplex_resolver_bytes(resolver, count)).count; count += chunk.count)
        for (uint64_t i = 0; i < chunk.count; i++) hash = (hash ^ chunk.bytes[i]) * 0x100000001b3;
    printf("served %" PRIu64 ":%" PRIu64 "\n", count, hash);
}

static void reply(const char *word, uint64_t view, const char *rest) {
    struct simplex_settled known = simplex_resolver_settled(resolver, view);
    if (known.status) ends("settled", known.status);
    if (!strcmp(word, "replayed")) puts("-");
    else if (!strcmp(word, "notarization")) tell(SIMPLEX_TOLD_NOTARIZATION, view, 0);
    else if (!strcmp(word, "nullification")) tell(SIMPLEX_TOLD_NULLIFICATION, view, 0);
    else if (!strcmp(word, "finalization")) tell(SIMPLEX_TOLD_FINALIZATION, view, 0);
    else if (!strcmp(word, "certified")) tell(SIMPLEX_TOLD_VERDICT, view, !strcmp(rest, "true"));
    else if (!strcmp(word, "settled")) puts(flag(strcmp(rest, "notarization") ? known.nullification : known.notarization));
    else if (!strcmp(word, "key-settled")) puts(flag(known.nullification && known.notarization));
    else if (!strcmp(word, "uncertifiable")) puts(flag(known.uncertifiable));
    else if (!strcmp(word, "open")) puts(flag(known.is_open));
    else if (!strcmp(word, "fetches")) printf("%" PRIu64 "\n", known.fetches);
    else if (!strcmp(word, "outstanding")) say_outstanding();
    else if (!strcmp(word, "produce")) puts(simplex_resolver_produce(resolver, view).has ? "some" : "none");
    else if (!strcmp(word, "served")) say_served(view);
    else ends(word, SIMPLEX_NO_CALL);
}

int main(int argc, char **argv) {
    if (argc != 3 || strcmp(argv[1], "resolver")) return fputs("usage: resolver resolver T\n", stderr), 2;
    if (simplex_version() != SIMPLEX_VERSION) return fputs("another version\n", stderr), 2;
    uint32_t status = simplex_resolver_start((uint32_t)strtoul(argv[2], 0, 10), 0, 0, &resolver);
    if (status) ends("start", status);
    char line[220];
    while (fgets(line, sizeof line, stdin)) {
        char word[40] = "", rest[40] = "";
        uint64_t view = 0;
        sscanf(line, "%39s %" SCNu64 " %39s", word, &view, rest);
        reply(word, view, rest);
    }
    simplex_resolver_free(resolver);
    return 0;
}
