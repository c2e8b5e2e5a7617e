/*
 * One engine alone, and then four in one process that finalize twenty views: the loop of a host in C, with a queue for a network, memory for a
 * disk, and a clock that the host advances. Half way member 1's process ends, and another resumes from its disk. The signatures are toys:
 * anyone can make them.
 *
 * A block names its parent by digest, and travels with its proposal. deliver walks parents back from a finalized block to the last delivered
 * one.
 *
 *     cc -std=c11 -Ibindings/c/include bindings/c/examples/network.c bindings/libsimplex.a -o network && ./network
 */
#include "simplex.h"
#include "simplex_status.h"

#include <inttypes.h>
#include <stdbool.h>
#include <stdio.h>
#include <stdlib.h>
#include <string.h>

/* How many outputs an engine carries out before messages and time get a turn: a member alone is never out of outputs. After MOST_STEPS a
 * network without its views has no progress: a right one takes 1,320. */
enum { EPOCH = 1, MOST_MEMBERS = 4, MOST_BLOCKS = 256, MOST_OUTPUTS = 1000, MESSAGES_A_MILLISECOND = 64, MOST_STEPS = 5000, DIGEST = 32, SIGNATURE = 8 };

struct bytes {
    uint8_t *at;
    size_t count;
};

struct block {
    uint64_t view;
    uint8_t parent[DIGEST], digest[DIGEST];
};

/* What each text to sign begins with: a digest of a real network's name, epoch and members. */
static const uint8_t NAMESPACE[32] = "network.c, epoch 1, test keys";

enum message_kind { BLOCK, ASK_BLOCK, VOTE, CERTIFICATE, FETCH };

struct message {
    enum message_kind kind;
    uint32_t from, to;
    struct block block;             /* of BLOCK; of ASK_BLOCK its digest */
    struct simplex_subject subject; /* of VOTE and CERTIFICATE, whose bytes these are */
    struct bytes bytes;
    uint32_t fetch; /* of FETCH */
    uint64_t view;
};

/* A member: its engine while its process runs, its disk, its blocks, and the chain that it delivered. */
struct node {
    uint32_t me, members;
    simplex_engine *engine;
    struct bytes journal;
    struct simplex_stored stored;
    bool is_stored;
    struct block blocks[MOST_BLOCKS], chain[MOST_BLOCKS];
    size_t blocks_count, chain_count;
    struct simplex_proposal finalized;
    bool has_finalized;
};

/* All members, the messages that are on their way from the first one that has not arrived on, and the clock. */
static struct network {
    struct node nodes[MOST_MEMBERS];
    uint32_t members;
    struct message *sent;
    size_t first, count, room;
    uint64_t now, arrived;
} network;

static _Noreturn void ends(const char *why) {
    fprintf(stderr, "network: %s\n", why);
    exit(1);
}

static void require(uint32_t status) {
    if (status != SIMPLEX_OK) ends(simplex_status_text(status));
}

static void append(struct bytes *to, const uint8_t *at, size_t count) {
    to->at = realloc(to->at, to->count + count + 1);
    if (!to->at) ends("out of memory");
    if (count) memcpy(to->at + to->count, at, count);
    to->count += count;
}

static void put_number(uint8_t *at, uint64_t number, size_t count) {
    for (size_t i = 0; i < count; i++) at[i] = (uint8_t)(number >> (8 * (count - 1 - i)));
}

static uint64_t number_at(const uint8_t *at, size_t count) {
    uint64_t number = 0;
    for (size_t i = 0; i < count; i++) number = number << 8 | at[i];
    return number;
}

static uint64_t hash_on(uint64_t hash, const uint8_t *at, size_t count) {
    for (size_t i = 0; i < count; i++) hash = (hash ^ at[i]) * 0x100000001b3;
    return hash;
}

static const uint64_t FIRST_HASH = 0xcbf29ce484222325;

/* A member's signature on the text of a subject. */
static void put_signature(uint8_t *at, uint32_t signer, const struct simplex_subject *subject) {
    struct simplex_text text = simplex_subject(NAMESPACE, subject->kind, &subject->proposal);
    require(text.status);
    uint8_t index[4];
    put_number(index, signer, sizeof index);
    put_number(at, hash_on(hash_on(FIRST_HASH, index, sizeof index), text.bytes, text.count), SIGNATURE);
}

static struct block block_on(const struct simplex_context *context) {
    struct block made = {.view = context->round.view};
    uint8_t head[9];
    memcpy(made.parent, context->payload, DIGEST);
    put_number(head + 1, made.view, 8);
    for (uint8_t place = 0; place < 4; place++) {
        head[0] = place;
        put_number(made.digest + 8 * place, hash_on(hash_on(FIRST_HASH, head, sizeof head), made.parent, DIGEST), 8);
    }
    return made;
}

static const struct block *find(const struct node *it, const uint8_t *digest) {
    for (size_t i = 0; i < it->blocks_count; i++)
        if (!memcmp(it->blocks[i].digest, digest, DIGEST)) return &it->blocks[i];
    return NULL;
}

static void keep(struct node *it, const struct block *block) {
    if (find(it, block->digest)) return;
    if (it->blocks_count == MOST_BLOCKS) ends("too many blocks");
    it->blocks[it->blocks_count++] = *block;
}

/* Sends a copy of a message. */
static void send_to(uint32_t to, struct message message) {
    if (network.count == network.room) {
        network.room = network.room ? 2 * network.room : 64;
        network.sent = realloc(network.sent, network.room * sizeof *network.sent);
        if (!network.sent) ends("out of memory");
    }
    struct bytes copied = {0};
    append(&copied, message.bytes.at, message.bytes.count);
    message.to = to;
    message.bytes = copied;
    network.sent[network.count++] = message;
}

static void send_to_others(const struct node *it, struct message message) {
    for (uint32_t to = 0; to < it->members; to++)
        if (to != it->me) send_to(to, message);
}

static void handle(struct node *it, struct simplex_input input, struct bytes bytes) {
    require(simplex_engine_handle(it->engine, &input, bytes.at, bytes.count, network.now).status);
}

/* All bytes of an engine that wait; the caller frees them. */
static struct bytes bytes_of(const struct node *it, uint32_t which) {
    struct bytes all = {0};
    append(&all, NULL, 0);
    for (;;) {
        struct simplex_chunk chunk = simplex_engine_bytes(it->engine, which, all.count);
        require(chunk.status);
        if (!chunk.count) return all;
        append(&all, chunk.bytes, chunk.count);
    }
}

/* Delivers the finalized block after its ancestors. Where a block is missing, all others are asked for it. */
static void deliver(struct node *it) {
    static const uint8_t GENESIS[DIGEST];
    const struct block *last = it->chain_count ? &it->chain[it->chain_count - 1] : NULL;
    if (!it->has_finalized || it->finalized.round.view <= (last ? last->view : 0)) return;
    const struct block *fresh[MOST_BLOCKS];
    size_t count = 0;
    for (const uint8_t *digest = it->finalized.payload; memcmp(digest, last ? last->digest : GENESIS, DIGEST);) {
        const struct block *found = find(it, digest);
        if (!found) {
            struct message ask = {.kind = ASK_BLOCK, .from = it->me};
            memcpy(ask.block.digest, digest, DIGEST);
            send_to_others(it, ask);
            return;
        }
        fresh[count++] = found;
        digest = found->parent;
    }
    while (count) it->chain[it->chain_count++] = *fresh[--count];
}

/* Begins a lifetime of a member from its disk. The last finalization is read from the record: a lifetime that ended may have stored it without
 * reporting it. */
static void begin(struct node *it) {
    const uint32_t leaders[MOST_MEMBERS] = {0, 1, 2, 3};
    struct simplex_settings settings = {.members = it->members, .signer = it->me, .term_length = 1, .epoch = EPOCH, .view_retention = 10,
        .leader_timeout = 1000, .certification_timeout = 2000, .timeout_retry = 500, .skip_timeout = 3000};
    memcpy(settings.namespace_bytes, NAMESPACE, sizeof NAMESPACE);
    const struct simplex_options options = {.retry = 250, .on_its_way = 25, .long_record = 2048};
    require(it->is_stored ? simplex_engine_resume(&settings, leaders, it->members, NULL, 0, &options, network.now, &it->stored, it->journal.at,
                                                  it->journal.count, &it->engine)
                          : simplex_engine_start(&settings, leaders, it->members, NULL, 0, &options, network.now, &it->engine));
    const uint64_t last = simplex_engine_view(it->engine, 0).last_finalized;
    const struct simplex_found found = simplex_engine_certificate(it->engine, SIMPLEX_FINALIZATION, last);
    require(found.status);
    it->has_finalized = found.has != 0;
    it->finalized = found.proposal;
    deliver(it);
}

/* Whether a certificate has good signatures of n - f members, by rising index. */
static bool is_good(const struct node *it, const struct simplex_subject *subject, struct bytes all) {
    uint32_t count = 0, last = 0;
    for (size_t at = 0; at < all.count; count++, at += 12 + SIGNATURE) {
        uint8_t wanted[SIGNATURE];
        if (all.count - at < 12 + SIGNATURE || number_at(all.at + at + 4, 8) != SIGNATURE) return false;
        const uint32_t signer = (uint32_t)number_at(all.at + at, 4);
        if (signer >= it->members || (count && signer <= last)) return false;
        put_signature(wanted, signer, subject);
        if (memcmp(all.at + at + 12, wanted, SIGNATURE)) return false;
        last = signer;
    }
    return count >= it->members - (it->members - 1) / 3;
}

/* Sends a member that asks the notarization of just that view, or a certificate that leads past it. */
static void serve(const struct node *it, const struct message *ask) {
    struct message reply = {.kind = CERTIFICATE, .from = it->me, .subject.member = SIMPLEX_NOBODY};
    struct simplex_found found = {0};
    if (ask->fetch == SIMPLEX_FETCH_NOTARIZATION) found = simplex_engine_certificate(it->engine, SIMPLEX_NOTARIZATION, ask->view);
    require(found.status);
    if (found.has) {
        reply.subject.kind = found.has;
        reply.subject.proposal = found.proposal;
        reply.bytes = bytes_of(it, SIMPLEX_SHOWN_OF_ENGINE);
        send_to(ask->from, reply);
        free(reply.bytes.at);
        return;
    }
    const struct simplex_served served = simplex_engine_serve(it->engine, ask->view);
    require(served.status);
    if (!served.has) return;
    /* The bytes of the certificate's subject, 17 of a nullification and else 57, and the certificate after them. */
    struct bytes all = bytes_of(it, SIMPLEX_SHOWN_OF_ENGINE);
    const bool is_nullification = all.at[0] == 1;
    const size_t length = is_nullification ? 17 : 57;
    reply.subject.kind = is_nullification ? SIMPLEX_NULLIFICATION : all.at[0] ? SIMPLEX_FINALIZATION : SIMPLEX_NOTARIZATION;
    reply.subject.proposal.round = (struct simplex_round){number_at(all.at + 1, 8), number_at(all.at + 9, 8)};
    if (!is_nullification) {
        reply.subject.proposal.parent = number_at(all.at + 17, 8);
        memcpy(reply.subject.proposal.payload, all.at + 25, DIGEST);
    }
    reply.bytes = (struct bytes){all.at + length, all.count - length};
    send_to(ask->from, reply);
    free(all.at);
}

/* A leader's vote to notarize is its proposal too. */
static void receive_vote(struct node *it, const struct message *vote) {
    uint8_t wanted[SIGNATURE];
    put_signature(wanted, vote->subject.member, &vote->subject);
    if (vote->bytes.count != SIGNATURE || memcmp(vote->bytes.at, wanted, SIGNATURE) || vote->subject.proposal.round.epoch != EPOCH) return;
    if (vote->subject.kind == SIMPLEX_NOTARIZE) {
        struct simplex_input proposal = {.kind = SIMPLEX_TELL_PROPOSAL, .subject = vote->subject};
        proposal.subject.member = vote->from;
        handle(it, proposal, (struct bytes){0});
    }
    handle(it, (struct simplex_input){.kind = SIMPLEX_TELL_VOTE, .subject = vote->subject}, vote->bytes);
}

/* Signatures and certificates are verified before the engine receives them. */
static void receive(struct node *it, const struct message *message) {
    const struct block *found;
    if (!it->engine) return;
    switch (message->kind) {
    case BLOCK:
        keep(it, &message->block);
        deliver(it);
        break;
    case ASK_BLOCK:
        found = find(it, message->block.digest);
        if (found) send_to(message->from, (struct message){.kind = BLOCK, .from = it->me, .block = *found});
        break;
    case VOTE: receive_vote(it, message); break;
    case CERTIFICATE:
        if (is_good(it, &message->subject, message->bytes))
            handle(it, (struct simplex_input){.kind = SIMPLEX_TELL_CERTIFICATE, .subject = message->subject}, message->bytes);
        break;
    case FETCH: serve(it, message); break;
    }
}

static bool holds(struct bytes all, struct bytes part) {
    for (size_t at = 0; at + part.count <= all.count; at++)
        if (!memcmp(all.at + at, part.at, part.count)) return true;
    return false;
}

/* Signs a vote, which is stored by now. All others receive it, and so does the engine. */
static void sign(struct node *it, const struct simplex_subject *subject, struct bytes text) {
    uint8_t signature[SIGNATURE];
    if (!holds(it->journal, text)) ends("a vote is ordered before it is stored");
    put_signature(signature, subject->member, subject);
    struct message vote = {.kind = VOTE, .from = it->me, .subject = *subject, .bytes = {signature, SIGNATURE}};
    const struct block *block = find(it, subject->proposal.payload);
    const bool is_leader = simplex_engine_view(it->engine, subject->proposal.round.view).leader == it->me;
    if (subject->kind == SIMPLEX_NOTARIZE && is_leader && block) send_to_others(it, (struct message){.kind = BLOCK, .from = it->me, .block = *block});
    send_to_others(it, vote);
    send_to(it->me, vote);
}

static void store(struct node *it, const struct simplex_output *output, struct bytes entries) {
    if (output->kind == SIMPLEX_REPLACE) it->journal.count = 0;
    append(&it->journal, entries.at, entries.count);
    it->stored = output->stored;
    it->is_stored = true;
}

static void build(struct node *it, const struct simplex_output *output) {
    const struct block block = block_on(&output->context);
    struct simplex_input built = {.kind = SIMPLEX_TELL_BUILT, .context = output->context, .subject.member = output->subject.member};
    memcpy(built.subject.proposal.payload, block.digest, DIGEST);
    keep(it, &block);
    handle(it, built, (struct bytes){0});
}

static void judge(struct node *it, uint32_t kind, const struct simplex_proposal *proposal, bool success) {
    handle(it, (struct simplex_input){.kind = kind, .view = proposal->round.view, .success = success}, (struct bytes){0});
}

static void carry_out(struct node *it, const struct simplex_output *output, struct bytes bytes) {
    const struct simplex_proposal *proposal = &output->subject.proposal;
    switch (output->kind) {
    case SIMPLEX_STORE:
    case SIMPLEX_REPLACE: store(it, output, bytes); break;
    case SIMPLEX_VOTE: sign(it, &output->subject, bytes); break;
    case SIMPLEX_BROADCAST:
        send_to_others(it, (struct message){.kind = CERTIFICATE, .from = it->me, .subject = output->subject, .bytes = bytes});
        break;
    case SIMPLEX_VERIFY:
        judge(it, SIMPLEX_TELL_VERIFIED, proposal, !memcmp(proposal->payload, block_on(&output->context).digest, DIGEST));
        break;
    case SIMPLEX_BUILD: build(it, output); break;
    case SIMPLEX_CERTIFY: judge(it, SIMPLEX_TELL_CERTIFIED, proposal, true); break;
    case SIMPLEX_ASK:
        if (output->member != SIMPLEX_NOBODY)
            send_to(output->member, (struct message){.kind = FETCH, .from = it->me, .fetch = output->fetch, .view = output->view});
        break;
    case SIMPLEX_FINAL:
        it->finalized = *proposal;
        it->has_finalized = true;
        deliver(it);
        break;
    case SIMPLEX_EQUIVOCATED: ends("an honest member signed two votes");
    case SIMPLEX_PROPOSED_TWICE: ends("an honest leader signed two proposals");
    default: break; /* SIMPLEX_STOP_BUILDING and SIMPLEX_FORGET: nothing is built for long, and blocks are few */
    }
}

static void settle(struct node *it) {
    for (int count = 0; it->engine && count < MOST_OUTPUTS; count++) {
        const struct simplex_output output = simplex_engine_poll(it->engine, network.now);
        require(output.status);
        if (output.kind == SIMPLEX_NOTHING) return;
        struct bytes bytes = bytes_of(it, SIMPLEX_OF_OUTPUT);
        carry_out(it, &output, bytes);
        free(bytes.at);
    }
}

/* Delivers a message; where none is on its way, advances the clock to the next moment at which an engine polls. */
static void step(void) {
    for (uint32_t i = 0; i < network.members; i++) settle(&network.nodes[i]);
    if (++network.arrived % MESSAGES_A_MILLISECOND == 0) network.now++;
    if (network.first < network.count) {
        struct message message = network.sent[network.first++];
        receive(&network.nodes[message.to], &message);
        free(message.bytes.at);
        return;
    }
    uint64_t wake = UINT64_MAX;
    for (uint32_t i = 0; i < network.members; i++) {
        if (!network.nodes[i].engine) continue;
        const uint64_t moment = simplex_engine_status(network.nodes[i].engine).wake;
        wake = moment < wake ? moment : wake;
    }
    network.now = wake > network.now ? wake : network.now;
}

static void end(struct node *it) {
    simplex_engine_free(it->engine);
    it->engine = NULL;
}

static void print(const struct block *block) {
    printf("view %2" PRIu64 "  leader %" PRIu64 "  block ", block->view, (block->view - 1) % network.members);
    for (size_t i = 0; i < DIGEST; i++) printf("%02x", block->digest[i]);
    puts("");
}

/* Finalizes so many views; member 1 is away from the half on until three quarters are final. */
static void run(uint32_t members, size_t views) {
    network = (struct network){.members = members};
    for (uint32_t me = 0; me < members; me++) {
        network.nodes[me].me = me;
        network.nodes[me].members = members;
        begin(&network.nodes[me]);
    }
    struct node *first = &network.nodes[0], *second = &network.nodes[1];
    for (size_t printed = 0, steps = 0; printed < views;) {
        if (++steps > MOST_STEPS) ends("no progress: too few views are final");
        step();
        const size_t before = printed;
        for (; printed < views && printed < first->chain_count; printed++) print(&first->chain[printed]);
        if (members > 1 && before < views / 2 && printed >= views / 2) {
            end(second);
            puts("member 1 ends");
        }
        if (members > 1 && !second->engine && printed >= views * 3 / 4) {
            begin(second);
            puts("member 1 resumes from its disk");
        }
    }
    printf("%zu views are final; member 0 has stored %" PRIu64 " entries, %zu bytes\n", views, first->stored.entries, first->journal.count);
    for (uint32_t me = 0; me < members; me++) {
        end(&network.nodes[me]);
        free(network.nodes[me].journal.at);
    }
    for (; network.first < network.count; network.first++) free(network.sent[network.first].bytes.at);
    free(network.sent);
}

int main(void) {
    if (simplex_version() != SIMPLEX_VERSION) {
        fprintf(stderr, "network: the library has version %" PRIu32 ", the header %u: build the archive again\n", simplex_version(), SIMPLEX_VERSION);
        return 1;
    }
    run(1, 5);
    run(4, 20);
    return 0;
}
