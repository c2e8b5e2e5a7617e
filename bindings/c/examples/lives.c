/*
 * Begins and frees so many members, with resolvers and engines, and passes what is refused: settings, numbers, null handles, journals that are cut,
 * changed or of random bytes. It ends with status 0 where each result is the right one; run it under valgrind to see that nothing is lost.
 *
 *     lives COUNT
 */
#include "simplex.h"
#include <stdio.h>
#include <stdlib.h>
#include <string.h>

#define IS(what) do { if (!(what)) { fprintf(stderr, "%s:%d: not so: %s\n", __FILE__, __LINE__, #what); exit(1); } } while (0)

static const uint32_t LEADERS[4] = {0, 1, 2, 3};
/* Its last entry is no member's index. */
static const uint32_t BEYOND[4] = {0, 1, 2, 4};
static const struct simplex_settings SETTINGS = {.members = 4, .signer = 0, .term_length = 1, .epoch = 1, .view_retention = 10,
    .leader_timeout = 1000, .certification_timeout = 2000, .timeout_retry = 500, .skip_timeout = 3000,
    .namespace_bytes = {7, 1}};
static uint8_t journal[1 << 20];
static uint32_t seed = 1;
static long begun, let_go, engines;
static const struct simplex_options OPTIONS = {.retry = 250, .on_its_way = 25, .long_record = 2048};

static uint32_t drawn(uint32_t below) {
    seed = seed * 1664525u + 1013904223u;
    return (seed >> 8) % below;
}

static uint32_t started(const struct simplex_settings *settings, size_t leaders, simplex_member **out) {
    uint32_t status = simplex_member_start(settings, LEADERS, leaders, 0, 0, 0, out);
    begun += !status;
    return status;
}

static uint32_t resumed(const struct simplex_stored *stored, size_t len, simplex_member **out) {
    uint32_t status = simplex_member_resume(&SETTINGS, LEADERS, 4, 0, 0, 0, stored, journal, len, out);
    begun += !status;
    return status;
}

static void lets_go(simplex_member **at) {
    simplex_member_free(*at);
    *at = 0;
    let_go++;
}

static struct simplex_reply called(simplex_member *at, struct simplex_call call) {
    static const uint8_t certificate[96] = {7};
    return simplex_member_call(at, &call, certificate, sizeof certificate);
}

/* The bytes that wait behind a handle. */
static size_t shown(simplex_member *at, uint32_t which, uint8_t *to) {
    size_t len = 0;
    for (;;) {
        struct simplex_chunk chunk = simplex_member_bytes(at, which, len);
        if (!chunk.count) return len;
        memcpy(to + len, chunk.bytes, chunk.count);
        len += chunk.count;
    }
}

/* Tests that this text to notarize is that of the settings' network and begins with its namespace, and that of another network with its own. */
static void is_in_namespace(const uint8_t *text, size_t len, const struct simplex_proposal *proposal) {
    const uint8_t other[32] = {7, 2};
    struct simplex_text here = simplex_subject(SETTINGS.namespace_bytes, SIMPLEX_NOTARIZE, proposal);
    struct simplex_text there = simplex_subject(other, SIMPLEX_NOTARIZE, proposal);
    IS(!here.status && here.count == 89 && len == 89 && !memcmp(text, here.bytes, 89));
    IS(!memcmp(text, SETTINGS.namespace_bytes, sizeof SETTINGS.namespace_bytes));
    IS(!there.status && there.count == 89 && !memcmp(there.bytes, other, sizeof other) && !memcmp(there.bytes + 32, here.bytes + 32, 57));
}

/* Some views of a lifetime: a proposal of its own or of another, votes, certificates. */
static void lives(simplex_member *at, uint64_t views) {
    for (uint64_t view = 1; view <= views; view++) {
        struct simplex_proposal proposal = {.round = {1, view}, .parent = view - 1, .payload = {(uint8_t)view}};
        struct simplex_reply r = called(at, (struct simplex_call){.kind = SIMPLEX_TRY_PROPOSE});
        IS(!r.status && r.kind == SIMPLEX_REPLY_REQUEST);
        if (r.has) {
            r = called(at, (struct simplex_call){.kind = SIMPLEX_PROPOSED, .view = view, .proposal = proposal});
        } else {
            r = called(at, (struct simplex_call){.kind = SIMPLEX_SET_PROPOSAL, .view = view, .proposal = proposal});
            r = called(at, (struct simplex_call){.kind = SIMPLEX_TRY_VERIFY});
            IS(!r.status && r.has == 1 && r.proposal.round.view == view);
            r = called(at, (struct simplex_call){.kind = SIMPLEX_VERIFIED, .view = view});
        }
        IS(!r.status && r.flag);
        r = called(at, (struct simplex_call){.kind = SIMPLEX_CONSTRUCT_NOTARIZE, .view = view});
        IS(!r.status && r.has && r.member == 0);
        uint8_t text[96];
        is_in_namespace(text, shown(at, SIMPLEX_OF_REPLY, text), &r.proposal);
        IS(!called(at, (struct simplex_call){.kind = SIMPLEX_ADD_NOTARIZATION, .proposal = proposal}).status);
        r = called(at, (struct simplex_call){.kind = SIMPLEX_CERTIFY_CANDIDATES});
        IS(!r.status && r.count == 1 && simplex_member_item(at, SIMPLEX_PROPOSALS, 0).proposal.round.view == view);
        IS(!simplex_member_item(at, SIMPLEX_PROPOSALS, 1).has && !simplex_member_item(at, 9, 0).has);
        IS(called(at, (struct simplex_call){.kind = SIMPLEX_CERTIFIED, .view = view, .success = 1}).has == 1);
        IS(called(at, (struct simplex_call){.kind = SIMPLEX_ADD_FINALIZATION, .proposal = proposal}).flag);
        struct simplex_found found = simplex_member_certificate(at, SIMPLEX_FINALIZATION, view);
        IS(!found.status && found.has == 3 && found.bytes == 96 && found.proposal.round.view == view);
        IS(simplex_member_certificate(at, 4, view).status == SIMPLEX_NO_CALL && !simplex_member_certificate(at, 2, view).has);
    }
    struct simplex_view it = simplex_member_view(at, views);
    IS(!it.status && it.current == views + 1 && it.last_finalized == views && it.has_finalization && !it.has_nullification);
}

/* Numbers that are none of a call: nothing changes. */
static void refuses(simplex_member *at) {
    struct simplex_entries before = simplex_member_entries(at, 0);
    IS(called(at, (struct simplex_call){.kind = 25}).status == SIMPLEX_NO_CALL);
    IS(called(at, (struct simplex_call){.kind = 16, .reason = 10}).status == SIMPLEX_NO_CALL);
    IS(called(at, (struct simplex_call){.kind = 14, .success = 2}).status == SIMPLEX_NO_CALL);
    IS(called(at, (struct simplex_call){.kind = 3, .view = 2, .proposal = {.round = {1, 3}}}).status == SIMPLEX_NOT_ALLOWED);
    struct simplex_entries after = simplex_member_entries(at, 0);
    IS(!memcmp(&before, &after, sizeof before));
}

static void bad_settings(void) {
    simplex_member *none = (simplex_member *)&seed;
    struct simplex_settings it = SETTINGS;
    it.members = 0;
    IS(started(&it, 4, &none) == SIMPLEX_NO_SUCH_MEMBER);
    it = SETTINGS;
    it.signer = 4;
    IS(started(&it, 4, &none) == SIMPLEX_NO_SUCH_MEMBER);
    IS(started(&SETTINGS, 0, &none) == SIMPLEX_NOTHING_LEADS);
    IS(started(&SETTINGS, 3, &none) == SIMPLEX_OTHER_TABLE);
    IS(simplex_member_start(&SETTINGS, BEYOND, 4, 0, 0, 0, &none) == SIMPLEX_NO_SUCH_LEADER);
    it = SETTINGS;
    it.draws = 2;
    IS(started(&it, 4, &none) == SIMPLEX_NO_FLAG);
    it = SETTINGS;
    it.view_retention = 0;
    IS(started(&it, 4, &none) == SIMPLEX_RETENTION_ZERO);
    it = SETTINGS;
    it.is_finalized = 1;
    it.floor.round.epoch = 2;
    IS(started(&it, 4, &none) == SIMPLEX_FLOOR_EPOCH);
    IS(none == (simplex_member *)&seed);
}

/* Null handles: each function says so, and freeing one does nothing. */
static void nulls(void) {
    struct simplex_call call = {.kind = SIMPLEX_TRY_PROPOSE};
    struct simplex_restart restart = {.settings = SETTINGS};
    struct simplex_told told = {.kind = SIMPLEX_TOLD_NULLIFICATION, .proposal = {.round = {1, 9}}};
    IS(simplex_member_call(0, &call, 0, 0).status == SIMPLEX_NO_HANDLE);
    IS(simplex_member_bytes(0, SIMPLEX_SHOWN, 0).status == SIMPLEX_NO_HANDLE);
    IS(simplex_member_item(0, SIMPLEX_DROPPED, 0).status == SIMPLEX_NO_HANDLE);
    IS(simplex_member_certificate(0, SIMPLEX_NOTARIZATION, 1).status == SIMPLEX_NO_HANDLE);
    IS(simplex_member_entries(0, 0).status == SIMPLEX_NO_HANDLE);
    IS(simplex_member_prune_record(0).status == SIMPLEX_NO_HANDLE);
    IS(simplex_member_view(0, 1).status == SIMPLEX_NO_HANDLE);
    IS(simplex_member_withheld(0, SIMPLEX_NOTARIZE, 1).status == SIMPLEX_NO_HANDLE);
    IS(simplex_member_restart(0, &restart, LEADERS, 4, 0, 0) == SIMPLEX_NO_HANDLE);
    simplex_member_free(0);
    IS(simplex_resolver_told(0, &told, 0, 0).status == SIMPLEX_NO_HANDLE);
    IS(simplex_resolver_effect(0, 0).status == SIMPLEX_NO_HANDLE);
    IS(simplex_resolver_settled(0, 1).status == SIMPLEX_NO_HANDLE);
    IS(simplex_resolver_outstanding(0).status == SIMPLEX_NO_HANDLE);
    IS(simplex_resolver_produce(0, 1).status == SIMPLEX_NO_HANDLE);
    IS(simplex_resolver_bytes(0, 0).status == SIMPLEX_NO_HANDLE);
    simplex_resolver_free(0);
    struct simplex_input input = {.kind = SIMPLEX_TELL_GIVEN_UP, .view = 1};
    IS(simplex_engine_handle(0, &input, 0, 0, 0).status == SIMPLEX_NO_HANDLE);
    IS(simplex_engine_poll(0, 0).status == SIMPLEX_NO_HANDLE);
    IS(simplex_engine_bytes(0, SIMPLEX_OF_OUTPUT, 0).status == SIMPLEX_NO_HANDLE);
    IS(simplex_engine_status(0).status == SIMPLEX_NO_HANDLE);
    IS(simplex_engine_open(0, 0).status == SIMPLEX_NO_HANDLE);
    IS(simplex_engine_view(0, 1).status == SIMPLEX_NO_HANDLE);
    IS(simplex_engine_withheld(0, SIMPLEX_NOTARIZE, 1).status == SIMPLEX_NO_HANDLE);
    IS(simplex_engine_certificate(0, SIMPLEX_NOTARIZATION, 1).status == SIMPLEX_NO_HANDLE);
    IS(simplex_engine_serve(0, 1).status == SIMPLEX_NO_HANDLE);
    simplex_engine_free(0);
}

/* All bytes of an engine. */
static size_t read_out(simplex_engine *at, uint32_t which, uint8_t *to) {
    size_t len = 0;
    for (;;) {
        struct simplex_chunk chunk = simplex_engine_bytes(at, which, len);
        if (!chunk.count) return len;
        memcpy(to + len, chunk.bytes, chunk.count);
        len += chunk.count;
    }
}

/* Carries an output out on the journal, of which len bytes are there; how many there are then. */
static size_t stores(simplex_engine *at, const struct simplex_output *it, size_t len, struct simplex_stored *stored) {
    if (it->kind != SIMPLEX_STORE && it->kind != SIMPLEX_REPLACE) return len;
    *stored = it->stored;
    size_t from = it->kind == SIMPLEX_STORE ? len : 0;
    IS(from + it->bytes <= sizeof journal && read_out(at, SIMPLEX_OF_OUTPUT, journal + from) == it->bytes);
    return from + it->bytes;
}

/* Tells an engine, with so many bytes. */
static struct simplex_taken told(simplex_engine *at, struct simplex_input input, size_t len) {
    static const uint8_t bytes[2000] = {5};
    return simplex_engine_handle(at, &input, bytes, len, 0);
}

/* Numbers that are none of an input: nothing is passed. */
static void tells_nothing(simplex_engine *at) {
    struct simplex_engine_status before = simplex_engine_status(at);
    IS(told(at, (struct simplex_input){.kind = 0}, 0).status == SIMPLEX_NO_CALL);
    IS(told(at, (struct simplex_input){.kind = 8}, 0).status == SIMPLEX_NO_CALL);
    IS(told(at, (struct simplex_input){.kind = SIMPLEX_TELL_GIVEN_UP, .reason = 10}, 0).status == SIMPLEX_NO_CALL);
    IS(told(at, (struct simplex_input){.kind = SIMPLEX_TELL_VERIFIED, .success = 2}, 0).status == SIMPLEX_NO_CALL);
    IS(told(at, (struct simplex_input){.kind = SIMPLEX_TELL_VOTE, .subject = {.kind = 4}}, 9).status == SIMPLEX_NO_CALL);
    struct simplex_taken dropped = told(at, (struct simplex_input){.kind = SIMPLEX_TELL_VOTE, .subject = {.kind = 1, .member = 9}}, 9);
    IS(!dropped.status && !dropped.is_of_use);
    struct simplex_engine_status after = simplex_engine_status(at);
    IS(after.ignored == before.ignored + 1 && after.wake == before.wake && after.fetches == before.fetches);
}

/* An engine continues from the journal, as a member does; not from one that is cut, or of random bytes. */
static void goes_on(const struct simplex_stored *stored, size_t len, simplex_engine **next) {
    uint8_t random[300];
    simplex_member *member = 0;
    for (size_t i = 0; i < sizeof random; i++) random[i] = (uint8_t)drawn(256);
    IS(simplex_engine_resume(&SETTINGS, LEADERS, 4, 0, 0, &OPTIONS, 0, stored, random, sizeof random, next) == SIMPLEX_DAMAGED);
    size_t cut = 1 + drawn((uint32_t)len - 1);
    uint32_t status = simplex_engine_resume(&SETTINGS, LEADERS, 4, 0, 0, &OPTIONS, 0, stored, journal, cut, next);
    IS(status == (simplex_scan(journal, cut).ending ? SIMPLEX_DAMAGED : SIMPLEX_ENTRIES_LOST));
    IS(simplex_engine_resume(&SETTINGS, LEADERS, 4, 0, 0, &OPTIONS, 0, stored, 0, 0, next) == SIMPLEX_ENTRIES_LOST && !*next);
    IS(!simplex_engine_resume(&SETTINGS, LEADERS, 4, 0, 0, &OPTIONS, 0, stored, journal, len, next) && !resumed(stored, len, &member));
    struct simplex_view a = simplex_member_view(member, 1), b = simplex_engine_view(*next, 1);
    IS(!memcmp(&a, &b, sizeof a) && a.current == 1);
    lets_go(&member);
}

/* An engine that leads its first view: a block is built, and its vote is ordered behind what stores it. Another continues from its
 * journal. */
static void engine(void) {
    static const struct simplex_options at_once = {.retry = 0, .on_its_way = 25, .long_record = 2048};
    simplex_engine *at = 0, *next = 0;
    struct simplex_stored stored = {0};
    size_t len = 0, order = 0;
    IS(simplex_engine_start(&SETTINGS, LEADERS, 0, 0, 0, &OPTIONS, 0, &at) == SIMPLEX_NOTHING_LEADS && !at);
    IS(simplex_engine_start(&SETTINGS, LEADERS, 3, 0, 0, &OPTIONS, 0, &at) == SIMPLEX_OTHER_TABLE && !at);
    IS(simplex_engine_start(&SETTINGS, BEYOND, 4, 0, 0, &OPTIONS, 0, &at) == SIMPLEX_NO_SUCH_LEADER && !at);
    IS(simplex_engine_start(&SETTINGS, LEADERS, 4, 0, 0, &at_once, 0, &at) == SIMPLEX_FETCH_RETRY_ZERO && !at);
    IS(simplex_engine_resume(&SETTINGS, LEADERS, 4, 0, 0, &at_once, 0, &stored, 0, 0, &at) == SIMPLEX_FETCH_RETRY_ZERO && !at);
    IS(!simplex_engine_start(&SETTINGS, LEADERS, 4, 0, 0, &OPTIONS, 0, &at));
    tells_nothing(at);
    for (uint32_t first = 1;; first = 0) {
        struct simplex_output it = simplex_engine_poll(at, 0);
        IS(!it.status && (!first || it.kind == SIMPLEX_REPLACE));
        if (it.kind == SIMPLEX_NOTHING) break;
        len = stores(at, &it, len, &stored);
        if (it.kind == SIMPLEX_BUILD) {
            struct simplex_input built = {.kind = SIMPLEX_TELL_BUILT, .subject = it.subject, .context = it.context};
            IS(it.subject.member == 0 && told(at, built, 0).is_of_use);
        }
        if (it.kind == SIMPLEX_VOTE) {
            uint8_t text[96];
            IS(stored.entries && it.subject.kind == SIMPLEX_NOTARIZATION && it.subject.member == 0 && ++order == 1);
            is_in_namespace(text, read_out(at, 0, text), &it.subject.proposal);
        }
    }
    IS(order == 1 && simplex_engine_withheld(at, SIMPLEX_NOTARIZE, 1).reason == SIMPLEX_WITHHELD_ALREADY_VOTED);
    IS(simplex_engine_withheld(at, SIMPLEX_NULLIFY, 1).reason == SIMPLEX_NOT_WITHHELD);
    IS(simplex_engine_withheld(at, 0, 1).status == SIMPLEX_NO_CALL && simplex_engine_withheld(at, 4, 1).status == SIMPLEX_NO_CALL);
    IS(told(at, (struct simplex_input){.kind = SIMPLEX_TELL_CERTIFICATE, .subject = {.kind = 2, .proposal = {.round = {1, 2}}}}, 2000).is_of_use);
    struct simplex_served served = simplex_engine_serve(at, 2);
    IS(served.has && served.bytes == 17 + 2000 && simplex_engine_bytes(at, SIMPLEX_SHOWN_OF_ENGINE, 1024).count == served.bytes - 1024);
    struct simplex_found found = simplex_engine_certificate(at, SIMPLEX_NULLIFICATION, 2);
    IS(found.has == 2 && found.bytes == 2000 && simplex_engine_view(at, 2).has_nullification);
    IS(simplex_engine_status(at).fetches == 1 && simplex_engine_open(at, 0).fetch && !simplex_engine_open(at, 1).fetch);
    simplex_engine_free(at);
    goes_on(&stored, len, &next);
    simplex_engine_free(next);
    engines += 2;
}

/* A journal that is cut, changed in one byte, of fewer entries, or of random bytes. */
static void bad_journals(const struct simplex_stored *stored, size_t len) {
    simplex_member *none = 0;
    size_t cut = drawn((uint32_t)len);
    struct simplex_scan scan = simplex_scan(journal, cut);
    IS(scan.bytes <= cut && scan.ending == (scan.bytes == cut ? SIMPLEX_WHOLE : SIMPLEX_CUT));
    IS(resumed(stored, cut, &none) == (scan.ending ? SIMPLEX_DAMAGED : SIMPLEX_ENTRIES_LOST));
    IS(resumed(stored, scan.bytes, &none) == SIMPLEX_ENTRIES_LOST);
    uint8_t kept = journal[cut];
    journal[cut] ^= (uint8_t)(1 + drawn(255));
    IS(resumed(stored, len, &none) == SIMPLEX_DAMAGED && simplex_scan(journal, len).ending);
    journal[cut] = kept;
    uint8_t random[300];
    for (size_t i = 0; i < sizeof random; i++) random[i] = (uint8_t)drawn(256);
    IS(simplex_member_resume(&SETTINGS, LEADERS, 4, 0, 0, 0, stored, random, sizeof random, &none) == SIMPLEX_DAMAGED);
    IS(!none);
}

/* How a journal ends, so many of whose whole entries are left, in so many bytes. */
static void ends(size_t len, uint32_t ending, uint64_t entries, size_t bytes) {
    struct simplex_scan scan = simplex_scan(journal, len);
    IS(scan.ending == ending && scan.entries == entries && scan.bytes == bytes);
}

/* Each bit of an entry in the middle turned over is found as damage, and the last one cut anywhere as a cut. */
static void bits_and_cuts(size_t len) {
    size_t starts[64], count = 0;
    for (size_t at = 0; at < len; starts[count++] = at, at += 40 + ((size_t)journal[at + 2] << 8 | journal[at + 3])) IS(count < 64);
    IS(count > 4);
    size_t middle = count / 2, last = starts[count - 1];
    for (size_t bit = 8 * starts[middle]; bit < 8 * starts[middle + 1]; bit++) {
        journal[bit / 8] ^= (uint8_t)(1 << bit % 8);
        ends(len, SIMPLEX_BROKEN, middle, starts[middle]);
        journal[bit / 8] ^= (uint8_t)(1 << bit % 8);
    }
    for (size_t cut = last + 1; cut < len; cut++) ends(cut, SIMPLEX_CUT, count - 1, last);
    ends(len, SIMPLEX_WHOLE, count, len);
}

/* A resolver from a journal, and what it receives. */
static void resolves(size_t len) {
    simplex_resolver *at = 0;
    static const uint8_t certificate[2000] = {5};
    IS(simplex_resolver_start(0, journal, len, &at) == SIMPLEX_NOTHING_LEADS);
    IS(len < 2 || simplex_resolver_start(1, journal, len - 1, &at) == SIMPLEX_DAMAGED);
    IS(!at && !simplex_resolver_start(1, journal, len, &at));
    struct simplex_told told = {.kind = SIMPLEX_TOLD_NULLIFICATION, .proposal = {.round = {1, 9}}};
    struct simplex_effects effects = simplex_resolver_told(at, &told, certificate, sizeof certificate);
    IS(!effects.status && effects.count > 1 && effects.fetches > 0 && simplex_resolver_effect(at, 0).kind);
    IS(!simplex_resolver_effect(at, effects.count).kind);
    uint64_t views[16] = {0};
    struct simplex_outstanding open = simplex_outstanding_views(at, views, 16);
    IS(!open.status && open.count == effects.fetches && open.bytes == 8 * open.count && open.count < 16);
    for (uint64_t i = 0; i < open.count; i++) IS(simplex_resolver_settled(at, views[i]).is_open && (!i || views[i - 1] < views[i]));
    uint64_t first = views[0];
    IS(simplex_outstanding_views(at, views + 1, 1).count == open.count && views[1] == first && views[open.count] != first);
    struct simplex_settled settled = simplex_resolver_settled(at, 9);
    IS(settled.nullification && !settled.notarization && !settled.is_open && settled.fetches == effects.fetches);
    struct simplex_served served = simplex_resolver_produce(at, 9);
    IS(!served.status && served.has && served.bytes == 17 + sizeof certificate && simplex_resolver_bytes(at, 1024).count == served.bytes - 1024);
    IS(!simplex_resolver_produce(at, 8).has && !simplex_resolver_bytes(at, 0).count);
    told.kind = 5;
    IS(simplex_resolver_told(at, &told, certificate, 1).status == SIMPLEX_NO_CALL);
    told = (struct simplex_told){.kind = SIMPLEX_TOLD_VERDICT};
    IS(simplex_resolver_told(at, &told, certificate, 1).status == SIMPLEX_NOT_ALLOWED);
    told.proposal.round.view = UINT64_MAX;
    IS(simplex_resolver_told(at, &told, certificate, 1).status == SIMPLEX_VIEW_TOO_LARGE);
    simplex_resolver_free(at);
}

static void one(int is_first) {
    simplex_member *at = 0, *next = 0;
    IS(!started(&SETTINGS, 4, &at));
    lives(at, is_first ? 4 : 1 + drawn(3));
    refuses(at);
    struct simplex_entries entries = simplex_member_entries(at, 0);
    IS(!entries.status && shown(at, SIMPLEX_SHOWN, journal) == entries.bytes && entries.bytes <= sizeof journal);
    struct simplex_scan scan = simplex_scan(journal, entries.bytes);
    IS(scan.entries == entries.stored.entries && scan.bytes == entries.bytes && !scan.ending);
    if (is_first) bits_and_cuts(entries.bytes);
    bad_journals(&entries.stored, entries.bytes);
    resolves(entries.bytes);
    IS(!resumed(&entries.stored, entries.bytes, &next));
    struct simplex_view a = simplex_member_view(at, 1), b = simplex_member_view(next, 1);
    IS(!memcmp(&a, &b, sizeof a));
    lets_go(&at);
    IS(!called(next, (struct simplex_call){.kind = SIMPLEX_PRUNE}).status);
    struct simplex_entries left = simplex_member_prune_record(next);
    IS(!left.status && left.stored.is_pruned && left.stored.entries <= entries.stored.entries && left.stored.closed == left.stored.entries);
    IS(shown(next, SIMPLEX_SHOWN, journal) == left.bytes && !resumed(&left.stored, left.bytes, &at));
    a = simplex_member_view(at, 1), b = simplex_member_view(next, 1);
    IS(a.current == b.current && a.last_finalized == b.last_finalized);
    lets_go(&at);
    struct simplex_restart restart = {.drop = 1, .prune = 1, .settings = SETTINGS};
    IS(!simplex_member_restart(next, &restart, LEADERS, 4, 0, 0));
    restart.settings.view_retention = 20;
    IS(simplex_member_restart(next, &restart, LEADERS, 4, 0, 0) == SIMPLEX_RETENTION_GROWN);
    restart.prune = 2;
    IS(simplex_member_restart(next, &restart, LEADERS, 4, 0, 0) == SIMPLEX_NO_FLAG);
    lets_go(&next);
    engine();
}

int main(int argc, char **argv) {
    long count = argc > 1 ? strtol(argv[1], 0, 10) : 1;
    nulls();
    IS(simplex_version() == SIMPLEX_VERSION);
    bad_settings();
    for (int is_first = 1; begun < count; is_first = 0) one(is_first);
    IS(let_go == begun);
    printf("%ld members %ld engines\n", let_go, engines);
    return 0;
}
