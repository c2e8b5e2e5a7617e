/*
 * Serves the lines of the repository's program viewstate (docs/PROGRAM.md) through simplex.h, and prints the program's replies.
 *
 *     script voter N ME T OPTIMISTIC [resume|compact] < lines
 *
 * With resume each `restart 0 NOW` is done as another process would: from the bytes that were stored. With compact the engine keeps a journal,
 * which grows after each line; each `prune` prunes the record too and puts what is left in place of the journal, and before each
 * `restart-pruned` the member continues from the journal. How many entries were removed is written after the last line, to standard error.
 *
 * It serves some lines more than the program, about what a member knows: `known V`, `withheld KIND V`, `shown KIND V` (a certificate),
 * `entries COUNT` and `scan CUT` (the journal without its last bytes).
 *
 *     cc -O2 -I../include script.c ../../libsimplex.a -o script
 */
#include "simplex.h"
#include <inttypes.h>
#include <stdio.h>
#include <stdlib.h>
#include <string.h>

#define EPOCH 1

/* A certificate of this example: one byte that no one reads. */
static const uint8_t CERTIFICATE[1] = {1};

static const char *FAULTS[] = {"", "fault 1 OutOfMemory", "fault 2 Failed", "fault 3 ViewTooLarge", "fault 4 TimeOverflow", "not-allowed"};
static const char *TIMEOUTS[] = {"Retry", "Inactivity", "LeaderNullify", "LeaderTimeout", "CertificationTimeout", "StallTimeout",
    "MissingProposal", "IgnoredProposal", "InvalidProposal", "FailedCertification"};
static const char *ABANDONED[] = {"ViewExit", "AncestrySuperseded", "AncestryInvalidated", "ParentNullify", "ViewNullify", "ResponseClosed",
    "IneligibleAtRecording"};
static const char *CERTIFICATES[] = {"none", "notarization", "nullification", "finalization"};
static const char *REFUSED[] = {"1 OutOfOrder", "2 OtherEpoch", "3 ZeroView", "4 ViewTooLarge", "5 ForeignSigner", "6 ParentNotBelow",
    "7 VerdictWithoutNotarization", "8 ContradictingVerdicts", "9 NullifyBesideFinalize", "10 ContradictingVotes",
    "11 FinalizeWithoutVerdict", "12 TimeOverflow", "14 RetentionGrown"};

static struct simplex_settings settings = {.term_length = 1, .epoch = EPOCH, .view_retention = 10, .leader_timeout = 1000,
    .certification_timeout = 2000, .timeout_retry = 500, .skip_timeout = 3000, .namespace_bytes = {1}};
static uint32_t leaders[1000];
static simplex_member *member;

static _Noreturn void ends(const char *what, uint32_t status) {
    fprintf(stderr, "%s: status %" PRIu32 "\n", what, status);
    exit(3);
}

/* The payload that stands for a number of the program: its bytes at the end. */
static void put_payload(uint8_t *payload, uint64_t number) {
    for (int i = 0; i < 8; i++) payload[31 - i] = (uint8_t)(number >> (8 * i));
}

static uint64_t number_of(const uint8_t *payload) {
    uint64_t number = 0;
    for (int i = 24; i < 32; i++) number = number << 8 | payload[i];
    return number;
}

/* All of the bytes that wait; the caller frees them. */
static uint8_t *bytes_of(uint32_t which, uint64_t count) {
    uint8_t *bytes = malloc(count + 1);
    if (!bytes) ends("memory", SIMPLEX_OUT_OF_MEMORY);
    for (uint64_t at = 0; at < count;) {
        struct simplex_chunk chunk = simplex_member_bytes(member, which, at);
        if (!chunk.count) ends("bytes", SIMPLEX_NO_CALL);
        memcpy(bytes + at, chunk.bytes, chunk.count);
        at += chunk.count;
    }
    return bytes;
}

static const char *flag(uint32_t it) { return it ? "true" : "false"; }

static void say_context(const char *word, const struct simplex_reply *r) {
    printf("%s %" PRIu64 " %" PRIu32 " %" PRIu64 " %" PRIu64, word, r->context.round.view, r->member, r->context.parent,
           number_of(r->context.payload));
}

static void say_proposal(const char *word, const struct simplex_proposal *p) {
    printf("%s %" PRIu64 " %" PRIu64 " %" PRIu64, word, p->round.view, p->parent, number_of(p->payload));
}

static void say_work(const struct simplex_reply *r) {
    switch (r->has) {
    case 0: printf("wait"); break;
    case 1:
        say_context("ready", r);
        printf(" %" PRIu64, number_of(r->proposal.payload));
        break;
    default:
        printf("resolve %" PRIu64 " %" PRIu64 " %s %" PRIu32, r->waiting, r->lacking,
               r->reason == SIMPLEX_NULLIFICATION ? "nullification" : "notarization", r->member);
    }
}

static void say_candidates(const struct simplex_reply *r) {
    printf("candidates");
    for (uint64_t i = 0; i < r->count; i++)
        printf(" %" PRIu64, simplex_member_item(member, SIMPLEX_PROPOSALS, i).proposal.round.view);
    printf(" fetch");
    for (uint64_t i = 0; i < r->fetches; i++) {
        struct simplex_fetch fetch = simplex_member_item(member, SIMPLEX_FETCHES, i).fetch;
        printf(" %" PRIu64 ":%" PRIu64, fetch.proposal, fetch.view);
    }
}

/* A reply that is there or not. */
static void say_optional(const struct simplex_reply *r) {
    if (!r->has) {
        printf("none");
        return;
    }
    switch (r->kind) {
    case SIMPLEX_REPLY_REQUEST: say_context(r->has == 1 ? "propose" : "prepare", r); break;
    case SIMPLEX_REPLY_CERTIFIED: printf("certified %" PRIu64, r->proposal.round.view); break;
    case SIMPLEX_REPLY_NOTARIZE: say_proposal("notarize", &r->proposal); break;
    case SIMPLEX_REPLY_NULLIFY: printf("nullify %" PRIu64 " %s", r->proposal.round.view, flag(r->flag)); break;
    case SIMPLEX_REPLY_FINALIZE: say_proposal("finalize", &r->proposal); break;
    case SIMPLEX_REPLY_CERTIFICATE: printf("%s %" PRIu64, CERTIFICATES[r->has], r->proposal.round.view); break;
    default: printf("%s", ABANDONED[r->reason]);
    }
}

static void say(struct simplex_reply r) {
    if (r.status > SIMPLEX_NOT_ALLOWED) ends("call", r.status);
    if (r.status) {
        puts(FAULTS[r.status]);
        return;
    }
    switch (r.kind) {
    case SIMPLEX_REPLY_UNIT: case SIMPLEX_REPLY_RELEASED: case SIMPLEX_REPLY_TRIGGERED: printf("ok"); break;
    case SIMPLEX_REPLY_FLAG: printf("%s", flag(r.flag)); break;
    case SIMPLEX_REPLY_ADDED:
        printf("added %s ", flag(r.flag));
        if (r.member == SIMPLEX_NOBODY) printf("-"); else printf("%" PRIu32, r.member);
        break;
    case SIMPLEX_REPLY_ADDED_NULLIFICATION: printf("added %s", flag(r.flag)); break;
    case SIMPLEX_REPLY_WORK: say_work(&r); break;
    case SIMPLEX_REPLY_CANDIDATES: say_candidates(&r); break;
    case SIMPLEX_REPLY_TIMEOUT: printf("timeout %" PRIu64 " %s", r.moment, TIMEOUTS[r.reason]); break;
    case SIMPLEX_REPLY_VIEWS:
        printf("pruned");
        for (uint64_t i = 0; i < r.count; i++) printf(" %" PRIu64, simplex_member_item(member, SIMPLEX_DROPPED, i).view);
        break;
    default: say_optional(&r);
    }
    puts("");
}

static void call(struct simplex_call it) { say(simplex_member_call(member, &it, CERTIFICATE, sizeof CERTIFICATE)); }

static void of_view(uint32_t kind, uint64_t view) { call((struct simplex_call){.kind = kind, .view = view}); }

static void of_proposal(uint32_t kind, const uint64_t *n, uint64_t moment) {
    struct simplex_call it = {.kind = kind, .view = n[0], .moment = moment, .proposal = {.round = {EPOCH, n[0]}, .parent = n[1]}};
    put_payload(it.proposal.payload, n[2]);
    call(it);
}

static void say_opened(uint32_t status) {
    if (!status) puts("ok");
    else if (status >= SIMPLEX_OUT_OF_ORDER) printf("refused %s\n", REFUSED[status - SIMPLEX_OUT_OF_ORDER]);
    else ends("restart", status);
}

static uint32_t restart(uint64_t drop, uint32_t prune, uint64_t now) {
    struct simplex_restart it = {.drop = drop, .moment = now, .prune = prune, .settings = settings};
    uint32_t status = simplex_member_restart(member, &it, leaders, settings.members, 0, 0);
    say_opened(status);
    return status;
}

/* What the engine has stored. */
static struct { uint8_t *bytes; size_t len; struct simplex_stored stored; uint64_t taken; } kept;

/* Stores what was shown: behind what is there, or in place of it. */
static void store(struct simplex_entries entries, size_t behind) {
    if (entries.status) ends("entries", entries.status);
    uint8_t *shown = bytes_of(SIMPLEX_SHOWN, entries.bytes);
    kept.bytes = realloc(kept.bytes, behind + entries.bytes + 1);
    if (!kept.bytes) ends("memory", SIMPLEX_OUT_OF_MEMORY);
    memcpy(kept.bytes + behind, shown, entries.bytes);
    free(shown);
    kept.len = behind + entries.bytes;
    kept.stored = entries.stored;
}

static void grow(void) { store(simplex_member_entries(member, kept.stored.entries), kept.len); }

static void compact(void) {
    uint64_t before = kept.stored.entries;
    store(simplex_member_prune_record(member), 0);
    kept.taken += before - kept.stored.entries;
}

/* As another process would: from what is stored. */
static uint32_t go_on(uint64_t now) {
    simplex_member *next = 0;
    uint32_t status = simplex_member_resume(&settings, leaders, settings.members, 0, 0, now, &kept.stored, kept.bytes, kept.len, &next);
    if (status) return status;
    simplex_member_free(member);
    member = next;
    return SIMPLEX_OK;
}

/* As another process would: the record out as bytes, a member made of the bytes, and the first one freed. */
static void resume(uint64_t now) {
    struct simplex_entries entries = simplex_member_entries(member, 0);
    if (entries.status) ends("entries", entries.status);
    uint8_t *journal = bytes_of(SIMPLEX_SHOWN, entries.bytes);
    simplex_member *next = 0;
    uint32_t status = simplex_member_resume(&settings, leaders, settings.members, 0, 0, now, &entries.stored, journal, entries.bytes, &next);
    free(journal);
    if (status) {
        /* A restart in place is refused alike, and leaves the member failed. */
        restart(0, 0, now);
        return;
    }
    simplex_member_free(member);
    member = next;
    puts("ok");
}

static uint32_t reason_of(const char *word) {
    for (uint32_t i = 0; i < sizeof TIMEOUTS / sizeof *TIMEOUTS; i++)
        if (!strcmp(word, TIMEOUTS[i])) return i;
    ends(word, SIMPLEX_NO_CALL);
}

static void views(void) {
    struct simplex_view it = simplex_member_view(member, 0);
    if (it.status) puts(FAULTS[it.status]);
    else printf("view %" PRIu64 " %" PRIu64 " %" PRIu64 "\n", it.current, it.last_finalized, it.min_active);
}

/* How many bytes there are, and their FNV-1a hash. */
static void say_sum(const uint8_t *bytes, uint64_t count) {
    uint64_t hash = 0xcbf29ce484222325;
    for (uint64_t i = 0; i < count; i++) hash = (hash ^ bytes[i]) * 0x100000001b3;
    printf("%" PRIu64 ":%" PRIu64, count, hash);
}

static void known(uint64_t view) {
    struct simplex_view it = simplex_member_view(member, view);
    if (it.status) { puts(FAULTS[it.status]); return; }
    printf("known ");
    if (it.leader == SIMPLEX_NOBODY) printf("-"); else printf("%" PRIu32, it.leader);
    printf(" %s %s %s %s ", flag(it.is_tracked), flag(it.admits_vote), flag(it.admits_certificate), flag(it.voted_nullify));
    if (it.has_forwardable) printf("%" PRIu64 "\n", number_of(it.forwardable.payload)); else puts("-");
}

static void withheld(uint32_t kind, uint64_t view) {
    struct simplex_withheld it = simplex_member_withheld(member, kind, view);
    if (it.status) puts(FAULTS[it.status]); else printf("withheld %" PRIu32 "\n", it.reason);
}

static void shown(uint32_t kind, uint64_t view) {
    struct simplex_found it = simplex_member_certificate(member, kind, view);
    if (it.status || !it.has) { puts(it.status ? FAULTS[it.status] : "none"); return; }
    uint8_t *bytes = bytes_of(SIMPLEX_SHOWN, it.bytes);
    printf("shown ");
    say_sum(bytes, it.bytes);
    puts("");
    free(bytes);
}

static void say_entries(uint64_t count) {
    struct simplex_entries it = simplex_member_entries(member, count);
    if (it.status) ends("entries", it.status);
    uint8_t *bytes = bytes_of(SIMPLEX_SHOWN, it.bytes);
    printf("entries ");
    say_sum(bytes, it.bytes);
    printf(" %" PRIu64 " %" PRIu64 " %" PRIu64 " %" PRIu64 " %s\n", it.stored.entries, it.stored.closed, it.stored.retention,
           it.stored.least_retention, flag(it.stored.is_pruned));
    free(bytes);
}

static void say_scan(uint64_t cut) {
    struct simplex_entries it = simplex_member_entries(member, 0);
    if (it.status) ends("entries", it.status);
    uint8_t *bytes = bytes_of(SIMPLEX_SHOWN, it.bytes);
    struct simplex_scan scan = simplex_scan(bytes, it.bytes - (cut < it.bytes ? cut : it.bytes));
    printf("scan %" PRIu64 " %" PRIu64 " %s\n", scan.entries, scan.bytes, (const char *[]){"whole", "cut", "broken"}[scan.ending]);
    free(bytes);
}

/* The lines that the program has not: what the member knows. */
static int knows(const char *word, const uint64_t *n) {
    if (!strcmp(word, "known")) known(n[0]);
    else if (!strcmp(word, "withheld")) withheld((uint32_t)n[0], n[1]);
    else if (!strcmp(word, "shown")) shown((uint32_t)n[0], n[1]);
    else if (!strcmp(word, "entries")) say_entries(n[0]);
    else if (!strcmp(word, "scan")) say_scan(n[0]);
    else return 0;
    return 1;
}

/* The lines of a word and a view. */
static const struct { const char *word; uint32_t kind; } OF_VIEW[] = {{"propose", SIMPLEX_TRY_PROPOSE}, {"verify", SIMPLEX_TRY_VERIFY},
    {"candidates", SIMPLEX_CERTIFY_CANDIDATES}, {"best", SIMPLEX_GET_BEST_CERTIFICATE}, {"prune", SIMPLEX_PRUNE},
    {"supersede", SIMPLEX_SUPERSEDE_PROPOSAL_REQUEST}, {"abandon", SIMPLEX_PENDING_HANDOFF_ABANDONMENT},
    {"release", SIMPLEX_RELEASE_PROPOSAL_REQUEST}, {"verified", SIMPLEX_VERIFIED}, {"notarize", SIMPLEX_CONSTRUCT_NOTARIZE},
    {"nullify", SIMPLEX_CONSTRUCT_NULLIFY}, {"finalize", SIMPLEX_CONSTRUCT_FINALIZE}};

static int answers(const char *word, const char *kind, const uint64_t *n) {
    for (size_t i = 0; i < sizeof OF_VIEW / sizeof *OF_VIEW; i++)
        if (!strcmp(word, OF_VIEW[i].word)) return of_view(OF_VIEW[i].kind, n[0]), 1;
    if (!strcmp(word, "notarization")) of_proposal(SIMPLEX_ADD_NOTARIZATION, n, 0);
    else if (!strcmp(word, "finalization")) of_proposal(SIMPLEX_ADD_FINALIZATION, n, n[3]);
    else if (!strcmp(word, "proposal")) of_proposal(SIMPLEX_SET_PROPOSAL, n, 0);
    else if (!strcmp(word, "nullification")) call((struct simplex_call){.kind = SIMPLEX_ADD_NULLIFICATION, .round = {EPOCH, n[0]}, .moment = n[1]});
    else if (!strcmp(word, "token")) call((struct simplex_call){.kind = SIMPLEX_SET_CERTIFY_HANDLE, .view = n[0], .token = n[1]});
    else if (!strcmp(word, "timeout")) call((struct simplex_call){.kind = SIMPLEX_NEXT_TIMEOUT, .moment = n[0]});
    else if (!strcmp(word, "rejected"))
        call((struct simplex_call){.kind = SIMPLEX_VERIFICATION_FAILED, .view = n[0], .reason = SIMPLEX_INVALID_PROPOSAL, .moment = n[1]});
    else if (!strcmp(word, "proposed")) {
        struct simplex_call it = {.kind = SIMPLEX_PROPOSED, .view = n[0], .moment = n[2]};
        put_payload(it.proposal.payload, n[1]);
        call(it);
    } else if (!strcmp(word, "verdict"))
        call((struct simplex_call){.kind = SIMPLEX_CERTIFIED, .view = n[0], .success = !strcmp(kind, "true"), .moment = n[1]});
    else if (!strcmp(word, "trigger"))
        call((struct simplex_call){.kind = SIMPLEX_TRIGGER_TIMEOUT, .view = n[0], .reason = reason_of(kind), .moment = n[1]});
    else if (!strcmp(word, "broadcast"))
        of_view(kind[0] == 'f' ? SIMPLEX_BROADCAST_FINALIZATION : kind[1] == 'o' ? SIMPLEX_BROADCAST_NOTARIZATION : SIMPLEX_BROADCAST_NULLIFICATION, n[0]);
    else return 0;
    return 1;
}

int main(int argc, char **argv) {
    if (argc < 6 || strcmp(argv[1], "voter")) return fputs("usage: script voter N ME T OPTIMISTIC [resume|compact]\n", stderr), 2;
    if (simplex_version() != SIMPLEX_VERSION) return fputs("another version\n", stderr), 2;
    int resumes = argc > 6 && !strcmp(argv[6], "resume"), compacts = argc > 6 && !strcmp(argv[6], "compact");
    settings.members = (uint32_t)strtoul(argv[2], 0, 10);
    settings.signer = argv[3][0] == '-' ? SIMPLEX_NOBODY : (uint32_t)strtoul(argv[3], 0, 10);
    settings.term_length = (uint32_t)strtoul(argv[4], 0, 10);
    settings.optimistic_views = strtoull(argv[5], 0, 10);
    if (settings.members > 1000) return fputs("at most 1000 members\n", stderr), 2;
    for (uint32_t i = 0; i < settings.members; i++) leaders[i] = i;
    uint32_t status = simplex_member_start(&settings, leaders, settings.members, 0, 0, 0, &member);
    if (status) ends("start", status);
    if (compacts) grow();
    char line[220];
    while (fgets(line, sizeof line, stdin)) {
        /* A word, another one behind it or after the view, and numbers. */
        char word[40] = "", kind[40] = "";
        uint64_t n[4] = {0};
        int count = 0;
        for (char *it = strtok(line, " \n"); it; it = strtok(0, " \n")) {
            if (!*word) snprintf(word, sizeof word, "%s", it);
            else if (*it >= '0' && *it <= '9') { if (count < 4) n[count++] = strtoull(it, 0, 10); }
            else snprintf(kind, sizeof kind, "%s", it);
        }
        if (!strcmp(word, "record")) printf("record %" PRIu64 "\n", simplex_member_entries(member, UINT64_MAX).stored.entries);
        else if (!strcmp(word, "view")) views();
        else if (!strcmp(word, "restart")) { if (resumes && !n[0]) resume(n[1]); else restart(n[0], 0, n[1]); }
        else if (!strcmp(word, "restart-pruned")) {
            uint32_t resumed = compacts ? go_on(n[1]) : 0;
            /* Where a resume is refused, a restart in place is refused alike. */
            if (resumed != restart(n[0], 1, n[1]) && resumed) ends("resume", resumed);
            if (compacts) store(simplex_member_entries(member, 0), 0);
        } else if (!knows(word, n) && !answers(word, kind, n)) ends(word, SIMPLEX_NO_CALL);
        if (compacts) grow();
        if (compacts && !strcmp(word, "prune")) compact();
    }
    if (compacts) fprintf(stderr, "%" PRIu64 " entries taken away\n", kept.taken);
    free(kept.bytes);
    simplex_member_free(member);
    return 0;
}
