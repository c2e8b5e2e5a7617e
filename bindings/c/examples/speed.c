/*
 * Calls a second of processor time: member 0 of four goes through views, each proposed or verified, notarized, certified, finalized and
 * pruned, with certificates of 96 bytes.
 *
 *     speed VIEWS
 */
#include "simplex.h"
#include <inttypes.h>
#include <stdio.h>
#include <stdlib.h>
#include <time.h>

static const uint8_t CERTIFICATE[96] = {1};
static const uint32_t LEADERS[4] = {0, 1, 2, 3};
static const struct simplex_settings SETTINGS = {.members = 4, .signer = 0, .term_length = 1, .epoch = 1, .view_retention = 10,
    .leader_timeout = 1000, .certification_timeout = 2000, .timeout_retry = 500, .skip_timeout = 3000};
static simplex_member *member;
static uint64_t calls;

static struct simplex_reply call(struct simplex_call it) {
    calls++;
    return simplex_member_call(member, &it, CERTIFICATE, it.kind <= SIMPLEX_ADD_FINALIZATION ? sizeof CERTIFICATE : 0);
}

static uint64_t one_view(uint64_t view) {
    struct simplex_proposal proposal = {.round = {1, view}, .parent = view - 1, .payload = {(uint8_t)view, (uint8_t)(view >> 8)}};
    uint64_t now = view * 10, votes = 0;
    if (call((struct simplex_call){.kind = SIMPLEX_TRY_PROPOSE}).has) {
        call((struct simplex_call){.kind = SIMPLEX_PROPOSED, .view = view, .moment = now, .proposal = proposal});
    } else {
        call((struct simplex_call){.kind = SIMPLEX_SET_PROPOSAL, .view = view, .proposal = proposal});
        if (call((struct simplex_call){.kind = SIMPLEX_TRY_VERIFY}).has == 1) call((struct simplex_call){.kind = SIMPLEX_VERIFIED, .view = view});
    }
    votes += call((struct simplex_call){.kind = SIMPLEX_CONSTRUCT_NOTARIZE, .view = view}).has;
    call((struct simplex_call){.kind = SIMPLEX_ADD_NOTARIZATION, .proposal = proposal});
    call((struct simplex_call){.kind = SIMPLEX_BROADCAST_NOTARIZATION, .view = view});
    call((struct simplex_call){.kind = SIMPLEX_CERTIFY_CANDIDATES});
    call((struct simplex_call){.kind = SIMPLEX_SET_CERTIFY_HANDLE, .view = view, .token = view});
    call((struct simplex_call){.kind = SIMPLEX_CERTIFIED, .view = view, .success = 1, .moment = now});
    votes += call((struct simplex_call){.kind = SIMPLEX_CONSTRUCT_FINALIZE, .view = view}).has;
    call((struct simplex_call){.kind = SIMPLEX_ADD_FINALIZATION, .proposal = proposal, .moment = now});
    call((struct simplex_call){.kind = SIMPLEX_BROADCAST_FINALIZATION, .view = view});
    call((struct simplex_call){.kind = SIMPLEX_NEXT_TIMEOUT, .moment = now});
    call((struct simplex_call){.kind = SIMPLEX_PRUNE});
    return votes;
}

int main(int argc, char **argv) {
    uint64_t views = argc > 1 ? strtoull(argv[1], 0, 10) : 40000, votes = 0;
    if (simplex_version() != SIMPLEX_VERSION || simplex_member_start(&SETTINGS, LEADERS, 4, 0, 0, 0, &member)) return 3;
    clock_t begun = clock();
    for (uint64_t view = 1; view <= views; view++) votes += one_view(view);
    double seconds = (double)(clock() - begun) / CLOCKS_PER_SEC;
    printf("views %" PRIu64 " votes %" PRIu64 " calls %" PRIu64 " seconds %.3f calls/s %.0f\n", views, votes, calls, seconds, (double)calls / seconds);
    if (votes != 2 * views || simplex_member_view(member, 0).last_finalized != views) return 1;
    simplex_member_free(member);
    return 0;
}
