/*
 * One engine alone, and then four in one process that finalize twenty views. Half way member 1's process ends, and another resumes from its
 * disk.
 *
 *     c++ -std=c++17 -Ibindings/c/include -Ibindings/cpp bindings/cpp/examples/network.cpp bindings/libsimplex.a -o network && ./network
 */
#include "network.hpp"

#include <cinttypes>
#include <cstdio>

namespace network {

template <class... Bodies>
struct Overloaded : Bodies... {
    using Bodies::operator()...;
};
template <class... Bodies>
Overloaded(Bodies...) -> Overloaded<Bodies...>;

/* The last finalization is read from the record: a lifetime that ended may have stored it without reporting it. */
void Node::begin(Millis now, Queue &out) {
    const Config config(NAMESPACE, members_, me_, EPOCH, GENESIS);
    if (disk.stored) {
        engine = Engine::resume(config, {}, now, Stored::from_bytes(*disk.stored).value(), disk.journal);
    } else {
        engine = Engine::start(config, {}, now);
    }
    const auto last = engine->certificate(Kind::Finalization, engine->view(0).last_finalized);
    finalized_ = last ? std::optional<Proposal>(last->subject.proposal) : std::nullopt;
    deliver(out);
}

bool Node::is_good(const Certificate &certificate) const {
    const auto signatures = certificate.signatures();
    if (!signatures || signatures->size() < members_ - (members_ - 1) / 3) return false;
    const Bytes text = certificate.subject.text(NAMESPACE);
    return std::all_of(signatures->begin(), signatures->end(), [&](const Signature &it) {
        return it.signer < members_ && it.bytes == signature(it.signer, text);
    });
}

/* A member that asks receives the notarization of just that view, or a certificate that leads past it. */
std::optional<Certificate> Node::served(const output::Fetch &fetch) const {
    if (fetch.kind == FetchKind::Notarization) {
        if (auto found = engine->certificate(Kind::Notarization, fetch.view)) return found;
    }
    return engine->serve(fetch.view);
}

void Node::receive_vote(Participant from, const Vote &vote, Millis now) {
    if (vote.signature != signature(vote.signer, vote.subject.text(NAMESPACE)) || vote.subject.proposal.round.epoch != EPOCH) return;
    if (vote.subject.kind == Kind::Notarization) engine->handle(input::Proposal{from, vote.subject.proposal}, now);
    engine->handle(vote, now);
}

/* Signatures and certificates are verified before the engine receives them. */
void Node::receive(Participant from, const Message &message, Millis now, Queue &out) {
    if (!engine) return;
    std::visit(Overloaded{[&](const Block &it) {
                              blocks_[it.digest()] = it;
                              deliver(out);
                          },
                          [&](const AskBlock &it) {
                              const auto found = blocks_.find(it.digest);
                              if (found != blocks_.end()) out.push_back({me_, from, found->second});
                          },
                          [&](const Vote &it) { receive_vote(from, it, now); },
                          [&](const Certificate &it) {
                              if (is_good(it)) engine->handle(it, now);
                          },
                          [&](const output::Fetch &it) {
                              if (const auto found = served(it)) out.push_back({me_, from, *found});
                          }},
               message);
}

void Node::settle(Millis now, Queue &out) {
    for (int count = 0; engine && count < MOST_OUTPUTS; count++) {
        const auto output = engine->poll(now);
        if (!output) return;
        carry_out(*output, now, out);
    }
}

void Node::carry_out(const Output &output, Millis now, Queue &out) {
    std::visit(Overloaded{[&](const output::Store &it) {
                              disk.journal.insert(disk.journal.end(), it.entries.bytes.begin(), it.entries.bytes.end());
                              disk.stored = it.entries.stored.to_bytes();
                          },
                          [&](const output::Replace &it) { disk = {it.entries.bytes, it.entries.stored.to_bytes()}; },
                          [&](const output::Sign &it) { sign(it, out); },
                          [&](const output::Broadcast &it) { send_to_others(it.certificate, out); },
                          [&](const output::Verify &it) {
                              const bool is_valid = it.proposal.payload == block_on(it.context).digest();
                              engine->handle(input::Verified{it.proposal.round.view, is_valid}, now);
                          },
                          [&](const output::Build &it) {
                              const Block block = block_on(it.context);
                              blocks_[block.digest()] = block;
                              engine->handle(input::Built{it.context, block.digest()}, now);
                          },
                          [&](const output::Certify &it) { engine->handle(input::Certified{it.proposal.round.view, true}, now); },
                          [&](const output::Fetch &it) {
                              if (it.of) out.push_back({me_, *it.of, it});
                          },
                          [&](const output::Finalized &it) {
                              finalized_ = it.proposal;
                              deliver(out);
                          },
                          [](const output::Equivocated &) { throw std::logic_error("an honest member signed two votes"); },
                          [](const output::ProposedTwice &) { throw std::logic_error("an honest leader signed two proposals"); },
                          [](const output::StopBuilding &) {}, [](const output::Forget &) {}},
               output);
}

/* The vote is stored by now. All others receive it, and so does the engine. */
void Node::sign(const output::Sign &order, Queue &out) {
    const Bytes &text = order.text;
    if (std::search(disk.journal.begin(), disk.journal.end(), text.begin(), text.end()) == disk.journal.end()) {
        throw std::logic_error("a vote is ordered before it is stored");
    }
    const Vote vote{order.subject, order.signer, signature(order.signer, text)};
    const auto found = blocks_.find(vote.subject.proposal.payload);
    const bool is_leader = engine->view(vote.subject.proposal.round.view).leader == me_;
    if (vote.subject.kind == Kind::Notarization && is_leader && found != blocks_.end()) send_to_others(found->second, out);
    send_to_others(vote, out);
    out.push_back({me_, me_, vote});
}

/* Delivers the finalized block after its ancestors. Where a block is missing, all others are asked for it. */
void Node::deliver(Queue &out) {
    const View last_view = chain.empty() ? 0 : chain.back().view;
    const Digest last = chain.empty() ? GENESIS : chain.back().digest();
    if (!finalized_ || finalized_->round.view <= last_view) return;
    std::vector<Block> fresh;
    for (Digest digest = finalized_->payload; digest != last; digest = fresh.back().parent) {
        const auto found = blocks_.find(digest);
        if (found == blocks_.end()) return send_to_others(AskBlock{digest}, out);
        fresh.push_back(found->second);
    }
    chain.insert(chain.end(), fresh.rbegin(), fresh.rend());
}

void Node::send_to_others(const Message &message, Queue &out) const {
    for (Participant to = 0; to < members_; to++) {
        if (to != me_) out.push_back({me_, to, message});
    }
}

Network::Network(std::uint32_t members) {
    for (Participant member = 0; member < members; member++) {
        nodes.emplace_back(member, members);
        begin(member);
    }
}

void Network::step() {
    for (Node &node : nodes) node.settle(now_, sent_);
    if (++arrived_ % MESSAGES_A_MILLISECOND == 0) now_++;
    if (!sent_.empty()) {
        const Sent sent = std::move(sent_.front());
        sent_.pop_front();
        nodes[sent.to].receive(sent.from, sent.message, now_, sent_);
        return;
    }
    Millis wake = UINT64_MAX;
    for (const Node &node : nodes) {
        if (node.engine) wake = std::min(wake, node.engine->state().wake);
    }
    now_ = std::max(now_, wake);
}

void print(const Block &block, std::uint32_t members) {
    std::printf("view %2" PRIu64 "  leader %" PRIu64 "  block ", block.view, (block.view - 1) % members);
    for (std::uint8_t byte : block.digest()) std::printf("%02x", byte);
    std::puts("");
}

/* Finalizes so many views; member 1 is away from the half on until three quarters are final. */
void run(std::uint32_t members, std::size_t views) {
    Network network(members);
    for (std::size_t printed = 0, steps = 0; printed < views;) {
        if (++steps > MOST_STEPS) throw std::runtime_error("no progress: too few views are final");
        network.step();
        const std::vector<Block> &chain = network.nodes[0].chain;
        const std::size_t before = printed;
        for (; printed < std::min(views, chain.size()); printed++) print(chain[printed], members);
        if (members > 1 && before < views / 2 && printed >= views / 2) {
            network.nodes[1].engine.reset();
            std::puts("member 1 ends");
        }
        if (members > 1 && !network.nodes[1].engine && printed >= views * 3 / 4) {
            network.begin(1);
            std::puts("member 1 resumes from its disk");
        }
    }
    const Disk &disk = network.nodes[0].disk;
    const std::uint64_t entries = Stored::from_bytes(disk.stored.value())->numbers.entries;
    std::printf("%zu views are final; member 0 has stored %" PRIu64 " entries, %zu bytes\n", views, entries, disk.journal.size());
}

}  // namespace network

int main() {
    if (!simplex::is_this_version()) {
        std::fprintf(stderr, "network: the library has version %u, the header %u: build the archive again\n", simplex_version(), SIMPLEX_VERSION);
        return 1;
    }
    try {
        network::run(1, 5);
        network::run(4, 20);
    } catch (const std::exception &error) {
        std::fprintf(stderr, "network: %s\n", error.what());
        return 1;
    }
    return 0;
}
