/*
 * Serves lines as bindings/rust/examples/engine_lines.rs does, and writes the same replies.
 *
 *     cc -std=c11 -Ibindings/c/include bindings/c/examples/engine_lines.c bindings/libsimplex.a -o engine_lines
 *     ./engine_lines N ME T OPTIMISTIC < LINES
 */
#include "simplex.h"
#include "simplex_status.h"

#include <inttypes.h>
#include <stdbool.h>
#include <stdio.h>
#include <stdlib.h>
#include <string.h>

enum { EPOCH = 1, MOST_NUMBERS = 8 };

struct bytes {
    uint8_t *at;
    size_t count;
};

/* An engine, how it is set up, and what it stored. */
struct lifetime {
    simplex_engine *engine;
    struct simplex_settings settings;
    uint32_t *leaders;
    struct bytes journal;
    struct simplex_stored stored;
    bool is_stored;
};

static const struct simplex_options OPTIONS = {250, 25, 40};
static const char *const VOTES[] = {"", "notarize", "nullify", "finalize"};
static const char *const CERTIFICATES[] = {"", "notarization", "nullification", "finalization"};
static const char *const FETCHES[] = {"", "notarization", "nullification", "", "decision"};

static void *or_end(void *it) {
    if (it) return it;
    fputs("engine_lines: out of memory\n", stderr);
    exit(1);
}

static void require(uint32_t status) {
    if (status == SIMPLEX_OK) return;
    fprintf(stderr, "engine_lines: %s\n", simplex_status_text(status));
    exit(1);
}

static void append(struct bytes *to, const uint8_t *from, size_t count) {
    if (!count) return;
    to->at = or_end(realloc(to->at, to->count + count));
    memcpy(to->at + to->count, from, count);
    to->count += count;
}

/* Reads all of an engine's bytes; the host frees them. */
static struct bytes bytes_of(simplex_engine *at, uint32_t which) {
    struct bytes all = {0};
    for (;;) {
        struct simplex_chunk chunk = simplex_engine_bytes(at, which, all.count);
        require(chunk.status);
        if (!chunk.count) return all;
        append(&all, chunk.bytes, (size_t)chunk.count);
    }
}

/* Prints how many bytes there are, and their FNV-1a hash. */
static void print_sum(const uint8_t *bytes, size_t count) {
    uint64_t hash = 0xcbf29ce484222325;
    for (size_t i = 0; i < count; i++) hash = (hash ^ bytes[i]) * 0x100000001b3;
    printf("%zu:%" PRIu64, count, hash);
}

static void print_bytes(simplex_engine *at, uint32_t which) {
    struct bytes all = bytes_of(at, which);
    print_sum(all.at, all.count);
    free(all.at);
}

static const char *flag(uint32_t it) { return it ? "true" : "false"; }

static void print_member(uint32_t member) {
    if (member == SIMPLEX_NOBODY) {
        printf(" -");
    } else {
        printf(" %" PRIu32, member);
    }
}

static void print_proposal(const struct simplex_proposal *it) {
    printf(" %" PRIu64 ".%" PRIu64 " %" PRIu64 " ", it->round.epoch, it->round.view, it->parent);
    print_sum(it->payload, sizeof it->payload);
}

static void print_context(const struct simplex_output *it) {
    const struct simplex_context *in = &it->context;
    printf(" %" PRIu64 ".%" PRIu64 " %" PRIu32 " %" PRIu64 " ", in->round.epoch, in->round.view, it->subject.member, in->parent);
    print_sum(in->payload, sizeof in->payload);
}

static void print_subject(const char *const *words, const struct simplex_subject *it) {
    printf(" %s", words[it->kind]);
    if (it->kind == SIMPLEX_NULLIFY) {
        printf(" %" PRIu64 ".%" PRIu64, it->proposal.round.epoch, it->proposal.round.view);
    } else {
        print_proposal(&it->proposal);
    }
}

static void print_vote(simplex_engine *at, const struct simplex_subject *it, uint32_t which) {
    print_subject(VOTES, it);
    printf(" %" PRIu32 " ", it->member);
    print_bytes(at, which);
}

/* Stores what an output stores, and prints it. */
static void store(struct lifetime *of, const char *word, const struct simplex_output *it) {
    struct bytes all = bytes_of(of->engine, SIMPLEX_OF_OUTPUT);
    const struct simplex_stored *beside = &it->stored;
    printf("%s ", word);
    print_sum(all.at, all.count);
    printf(" %" PRIu64 " %" PRIu64 " %" PRIu64 " %" PRIu64 " %s", beside->entries, beside->closed, beside->retention, beside->least_retention,
           flag(beside->is_pruned));
    if (it->kind == SIMPLEX_REPLACE) of->journal.count = 0;
    append(&of->journal, all.at, all.count);
    of->stored = *beside;
    of->is_stored = true;
    free(all.at);
}

static void print_output(struct lifetime *of, const struct simplex_output *it) {
    simplex_engine *at = of->engine;
    switch (it->kind) {
    case SIMPLEX_NOTHING: printf("nothing"); break;
    case SIMPLEX_STORE: store(of, "store", it); break;
    case SIMPLEX_REPLACE: store(of, "replace", it); break;
    case SIMPLEX_VOTE: printf("vote"), print_vote(at, &it->subject, SIMPLEX_OF_OUTPUT); break;
    case SIMPLEX_BROADCAST: printf("broadcast"), print_subject(CERTIFICATES, &it->subject), printf(" "), print_bytes(at, SIMPLEX_OF_OUTPUT); break;
    case SIMPLEX_VERIFY: printf("verify"), print_context(it), print_proposal(&it->subject.proposal); break;
    case SIMPLEX_BUILD: printf("build"), print_context(it); break;
    case SIMPLEX_STOP_BUILDING: printf("stop %" PRIu64, it->view); break;
    case SIMPLEX_CERTIFY: printf("certify"), print_proposal(&it->subject.proposal); break;
    case SIMPLEX_ASK: printf("fetch %s %" PRIu64, FETCHES[it->fetch], it->view), print_member(it->member); break;
    case SIMPLEX_FINAL: printf("finalized"), print_proposal(&it->subject.proposal); break;
    case SIMPLEX_EQUIVOCATED:
        printf("equivocated");
        print_vote(at, &it->subject, SIMPLEX_OF_OUTPUT);
        print_vote(at, &it->other, SIMPLEX_OTHER_OF_OUTPUT);
        break;
    case SIMPLEX_PROPOSED_TWICE: printf("twice %" PRIu64 " %" PRIu32, it->view, it->member); break;
    case SIMPLEX_FORGET: printf("forget %" PRIu64, it->view); break;
    default: fprintf(stderr, "engine_lines: an output of kind %" PRIu32 "\n", it->kind), exit(1);
    }
}

static void poll(struct lifetime *of, uint64_t now) {
    struct simplex_output output = simplex_engine_poll(of->engine, now);
    if (output.status) {
        printf("failed");
    } else {
        print_output(of, &output);
    }
}

static void resume(struct lifetime *of, uint64_t now) {
    simplex_engine *at = NULL;
    if (!of->is_stored) {
        printf("nothing is stored");
    } else if (simplex_engine_resume(&of->settings, of->leaders, of->settings.members, NULL, 0, &OPTIONS, now, &of->stored, of->journal.at,
                                     of->journal.count, &at)) {
        printf("refused");
    } else {
        simplex_engine_free(of->engine);
        of->engine = at;
        printf("resumed");
    }
}

/* Replies to a line that asks; returns whether it is one. */
static bool asked(struct lifetime *of, const char *word, const uint64_t *it) {
    simplex_engine *at = of->engine;
    if (!strcmp(word, "poll")) {
        poll(of, it[0]);
    } else if (!strcmp(word, "resume")) {
        resume(of, it[0]);
    } else if (!strcmp(word, "status")) {
        struct simplex_engine_status status = simplex_engine_status(at);
        printf("status %s %" PRIu64 " %" PRIu64 " %" PRIu64, flag(status.status), status.wake, status.ignored, status.fetches);
    } else if (!strcmp(word, "open")) {
        struct simplex_open open = simplex_engine_open(at, it[0]);
        if (!open.fetch) return printf("none"), true;
        printf("open %s %" PRIu64 " %" PRIu64 " %" PRIu64, FETCHES[open.fetch], open.view, open.count, open.moment);
    } else if (!strcmp(word, "view")) {
        struct simplex_view view = simplex_engine_view(at, it[0]);
        require(view.status);
        printf("view %" PRIu64 " %" PRIu64, view.current, view.last_finalized);
        print_member(view.leader);
        printf(" %s %s", flag(view.admits_vote), flag(view.admits_certificate));
    } else if (!strcmp(word, "withheld")) {
        struct simplex_withheld withheld = simplex_engine_withheld(at, (uint32_t)it[0], it[1]);
        require(withheld.status);
        printf("withheld %" PRIu32, withheld.reason);
    } else if (!strcmp(word, "shown")) {
        struct simplex_found found = simplex_engine_certificate(at, (uint32_t)it[0], it[1]);
        require(found.status);
        if (!found.has) return printf("none"), true;
        printf("shown "), print_bytes(at, SIMPLEX_SHOWN_OF_ENGINE);
    } else if (!strcmp(word, "served")) {
        struct simplex_served served = simplex_engine_serve(at, it[0]);
        require(served.status);
        if (!served.has) return printf("none"), true;
        printf("served "), print_bytes(at, SIMPLEX_SHOWN_OF_ENGINE);
    } else {
        return false;
    }
    return true;
}

/* Writes the payload that stands for a number: its bytes at the end. */
static void write_payload(uint8_t *to, uint64_t number) {
    memset(to, 0, 32);
    for (int i = 0; i < 8; i++) to[31 - i] = (uint8_t)(number >> (8 * i));
}

static struct simplex_subject subject(uint32_t kind, uint32_t member, const uint64_t *it) {
    struct simplex_subject made = {.kind = kind, .member = member, .proposal = {.round = {EPOCH, it[0]}, .parent = it[1]}};
    write_payload(made.proposal.payload, it[2]);
    return made;
}

/* Writes the input that a line stands for, and how many bytes of which number it has, eight times. */
static struct simplex_input input_of(const char *word, const uint64_t *it, uint64_t *size) {
    struct simplex_input made = {.view = it[0], .success = it[1] == 1};
    if (!strcmp(word, "proposal")) {
        made = (struct simplex_input){.kind = SIMPLEX_TELL_PROPOSAL, .subject = subject(0, (uint32_t)it[0], it + 1)};
    } else if (!strcmp(word, "vote")) {
        made = (struct simplex_input){.kind = SIMPLEX_TELL_VOTE, .subject = subject((uint32_t)it[0], (uint32_t)it[1], it + 2)};
        *size = it[5];
    } else if (!strcmp(word, "certificate")) {
        made = (struct simplex_input){.kind = SIMPLEX_TELL_CERTIFICATE, .subject = subject((uint32_t)it[0], SIMPLEX_NOBODY, it + 1)};
        *size = it[4];
    } else if (!strcmp(word, "built")) {
        const uint64_t built[] = {0, 0, it[4]};
        made = (struct simplex_input){.kind = SIMPLEX_TELL_BUILT, .context = {{EPOCH, it[0]}, it[1], {0}}, .subject = subject(0, (uint32_t)it[3], built)};
        write_payload(made.context.payload, it[2]);
    } else if (!strcmp(word, "given-up")) {
        made = (struct simplex_input){.kind = SIMPLEX_TELL_GIVEN_UP, .view = it[0], .reason = (uint32_t)it[1]};
    } else if (!strcmp(word, "verified") || !strcmp(word, "certified")) {
        made.kind = *word == 'v' ? SIMPLEX_TELL_VERIFIED : SIMPLEX_TELL_CERTIFIED;
    } else {
        fprintf(stderr, "engine_lines: not a line: %s\n", word);
        exit(1);
    }
    return made;
}

static void handle(struct lifetime *of, const char *word, const uint64_t *numbers, uint64_t now) {
    uint64_t size = 0;
    struct simplex_input input = input_of(word, numbers, &size);
    uint8_t *bytes = or_end(malloc(8 * size + 1));
    memset(bytes, (int)(size % 256), 8 * size);
    struct simplex_taken taken = simplex_engine_handle(of->engine, &input, bytes, 8 * size, now);
    free(bytes);
    printf("%s", taken.status ? "failed" : flag(taken.is_of_use));
}

static struct lifetime begin(char **words) {
    struct lifetime made = {.settings = {.members = (uint32_t)strtoul(words[1], NULL, 10), .signer = (uint32_t)strtoul(words[2], NULL, 10)}};
    struct simplex_settings *it = &made.settings;
    if (it->signer >= it->members) it->signer = SIMPLEX_NOBODY;
    it->term_length = (uint32_t)strtoul(words[3], NULL, 10);
    it->optimistic_views = strtoull(words[4], NULL, 10);
    it->epoch = EPOCH;
    it->view_retention = 10;
    it->leader_timeout = 1000;
    it->certification_timeout = 2000;
    it->timeout_retry = 500;
    it->skip_timeout = 3000;
    it->namespace_bytes[0] = 1;
    made.leaders = or_end(calloc(it->members + 1, sizeof *made.leaders));
    for (uint32_t i = 0; i < it->members; i++) made.leaders[i] = i;
    require(simplex_engine_start(it, made.leaders, it->members, NULL, 0, &OPTIONS, 0, &made.engine));
    return made;
}

int main(int count, char **words) {
    if (count != 5) {
        fputs("usage: engine_lines N ME T OPTIMISTIC\n", stderr);
        return 2;
    }
    struct lifetime lifetime = begin(words);
    char line[512];
    while (fgets(line, sizeof line, stdin)) {
        char *word = strtok(line, " \n"), *next;
        uint64_t numbers[MOST_NUMBERS] = {0};
        size_t read = 0;
        while (read < MOST_NUMBERS && (next = strtok(NULL, " \n"))) numbers[read++] = strtoull(next, NULL, 10);
        if (!asked(&lifetime, word ? word : "", numbers)) handle(&lifetime, word ? word : "", numbers, read ? numbers[read - 1] : 0);
        putchar('\n');
    }
    simplex_engine_free(lifetime.engine);
    free(lifetime.leaders);
    free(lifetime.journal.at);
    return fflush(stdout) ? 1 : 0;
}
