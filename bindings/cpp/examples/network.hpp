/*
 * Engines in one process: what a host does around each of them, with a queue for a network, a vector for a disk and a clock that the host
 * advances. The signatures are toys: anyone can make them.
 *
 * A block names its parent by digest, and travels with its proposal. Node::deliver walks parents back from a finalized block to the last
 * delivered one.
 */
#ifndef NETWORK_HPP
#define NETWORK_HPP

#include "simplex.hpp"

#include <deque>
#include <map>

namespace network {

using namespace simplex;

constexpr std::uint64_t EPOCH = 1;
/* A real network draws it from its name, its epoch and its members' keys. */
constexpr Namespace NAMESPACE{{1}};
constexpr Digest GENESIS{};
/* How many outputs an engine carries out before messages and time get a turn: a member alone is never out of outputs. */
constexpr int MOST_OUTPUTS = 1000;
constexpr std::uint64_t MESSAGES_A_MILLISECOND = 64;
/* After how many steps a network without its views has no progress: a right one takes 1,320. */
constexpr std::size_t MOST_STEPS = 5000;

inline std::uint64_t hash_of(const Bytes &bytes) {
    std::uint64_t hash = 0xcbf29ce484222325;
    for (std::uint8_t byte : bytes) hash = (hash ^ byte) * 0x100000001b3;
    return hash;
}

inline void append(Bytes &bytes, std::uint64_t number, int count) {
    for (int place = count - 1; place >= 0; place--) bytes.push_back(static_cast<std::uint8_t>(number >> (8 * place)));
}

/* Returns a member's signature on a text. */
inline Bytes signature(Participant signer, const Bytes &text) {
    Bytes signed_bytes, made;
    append(signed_bytes, signer, 4);
    signed_bytes.insert(signed_bytes.end(), text.begin(), text.end());
    append(made, hash_of(signed_bytes), 8);
    return made;
}

/* What a proposal's payload is the digest of. */
struct Block {
    View view = 0;
    Digest parent{};

    Digest digest() const {
        Bytes words;
        for (std::uint8_t place = 0; place < 4; place++) {
            Bytes bytes{place};
            append(bytes, view, 8);
            bytes.insert(bytes.end(), parent.begin(), parent.end());
            append(words, hash_of(bytes), 8);
        }
        Digest made{};
        std::copy(words.begin(), words.end(), made.begin());
        return made;
    }
};

inline Block block_on(const Context &context) { return {context.round.view, context.parent_payload}; }

struct AskBlock {
    Digest digest;
};
using Message = std::variant<Block, AskBlock, Vote, Certificate, output::Fetch>;

struct Sent {
    Participant from, to;
    Message message;
};
using Queue = std::deque<Sent>;

/* What a member has stored. */
struct Disk {
    Bytes journal;
    std::optional<std::array<std::uint8_t, 33>> stored;
};

/* A member: its engine while its process runs, its disk, its blocks, and the chain that it delivered. */
class Node {
public:
    Node(Participant me, std::uint32_t members) : me_(me), members_(members) {}

    std::optional<Engine> engine;
    Disk disk;
    std::vector<Block> chain;

    void begin(Millis now, Queue &out);
    void receive(Participant from, const Message &message, Millis now, Queue &out);
    void settle(Millis now, Queue &out);

private:
    bool is_good(const Certificate &certificate) const;
    std::optional<Certificate> served(const output::Fetch &fetch) const;
    void receive_vote(Participant from, const Vote &vote, Millis now);
    void carry_out(const Output &output, Millis now, Queue &out);
    void sign(const output::Sign &order, Queue &out);
    void deliver(Queue &out);
    void send_to_others(const Message &message, Queue &out) const;

    Participant me_;
    std::uint32_t members_;
    std::map<Digest, Block> blocks_;
    std::optional<Proposal> finalized_;
};

/* All members, the messages that are on their way, and the clock. */
class Network {
public:
    explicit Network(std::uint32_t members);
    /* Delivers a message; where none is on its way, advances the clock to the next moment at which an engine polls. */
    void step();
    /* Begins a lifetime of a member from its disk. */
    void begin(Participant member) { nodes[member].begin(now_, sent_); }

    std::vector<Node> nodes;

private:
    Millis now_ = 0;
    std::uint64_t arrived_ = 0;
    Queue sent_;
};

}  // namespace network
#endif
