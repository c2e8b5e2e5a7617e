/*
 * Serves lines as bindings/rust/examples/engine_lines.rs does, and writes the same replies.
 *
 *     engine_lines N ME T OPTIMISTIC < LINES
 */
#include "simplex.hpp"

#include <iostream>
#include <sstream>

namespace {

using namespace simplex;
using Numbers = std::vector<std::uint64_t>;

constexpr std::uint64_t EPOCH = 1;
constexpr Namespace NAMESPACE{{1}};

/* How many bytes there are, and their FNV-1a hash. */
template <class Range>
std::string sum_of(const Range &bytes) {
    std::uint64_t hash = 0xcbf29ce484222325;
    for (std::uint8_t byte : bytes) hash = (hash ^ byte) * 0x100000001b3;
    return std::to_string(bytes.size()) + ":" + std::to_string(hash);
}

std::string word_of(bool it) { return it ? "true" : "false"; }

std::string text_of(const Round &it) { return std::to_string(it.epoch) + "." + std::to_string(it.view); }

std::string text_of(const Proposal &it) { return " " + text_of(it.round) + " " + std::to_string(it.parent) + " " + sum_of(it.payload); }

std::string text_of(const Context &it) {
    return " " + text_of(it.round) + " " + std::to_string(it.leader) + " " + std::to_string(it.parent) + " " + sum_of(it.parent_payload);
}

using Words = std::array<const char *, 3>;
constexpr Words VOTES{"notarize", "nullify", "finalize"};
constexpr Words CERTIFICATES{"notarization", "nullification", "finalization"};

std::string text_of(const Subject &it, const Words &words) {
    const std::string word = words.at(static_cast<std::size_t>(it.kind) - 1);
    return " " + word + (it.kind == Kind::Nullification ? " " + text_of(it.proposal.round) : text_of(it.proposal));
}

std::string text_of(const Vote &it) { return text_of(it.subject, VOTES) + " " + std::to_string(it.signer) + " " + sum_of(it.signature); }

std::string word_of(FetchKind kind) {
    return kind == FetchKind::Notarization ? "notarization" : kind == FetchKind::Nullification ? "nullification" : "decision";
}

std::string text_of(const Entries &it) {
    const simplex_stored &beside = it.stored.numbers;
    std::string text = sum_of(it.bytes);
    for (std::uint64_t number : {beside.entries, beside.closed, beside.retention, beside.least_retention}) text += " " + std::to_string(number);
    return text + " " + word_of(beside.is_pruned == 1);
}

struct Text {
    std::string operator()(const output::Store &it) const { return "store " + text_of(it.entries); }
    std::string operator()(const output::Replace &it) const { return "replace " + text_of(it.entries); }
    std::string operator()(const output::Sign &it) const { return "vote" + text_of(Vote{it.subject, it.signer, it.text}); }
    std::string operator()(const output::Broadcast &it) const {
        return "broadcast" + text_of(it.certificate.subject, CERTIFICATES) + " " + sum_of(it.certificate.bytes);
    }
    std::string operator()(const output::Verify &it) const { return "verify" + text_of(it.context) + text_of(it.proposal); }
    std::string operator()(const output::Build &it) const { return "build" + text_of(it.context); }
    std::string operator()(const output::StopBuilding &it) const { return "stop " + std::to_string(it.view); }
    std::string operator()(const output::Certify &it) const { return "certify" + text_of(it.proposal); }
    std::string operator()(const output::Fetch &it) const {
        return "fetch " + word_of(it.kind) + " " + std::to_string(it.view) + " " + (it.of ? std::to_string(*it.of) : "-");
    }
    std::string operator()(const output::Finalized &it) const { return "finalized" + text_of(it.proposal); }
    std::string operator()(const output::Equivocated &it) const { return "equivocated" + text_of(it.one) + text_of(it.other); }
    std::string operator()(const output::ProposedTwice &it) const { return "twice " + std::to_string(it.view) + " " + std::to_string(it.leader); }
    std::string operator()(const output::Forget &it) const { return "forget " + std::to_string(it.view); }
};

/* The payload that stands for a number: its bytes at the end. */
Digest payload(std::uint64_t number) {
    Digest made{};
    for (std::size_t place = 0; place < 8; place++) made[31 - place] = static_cast<std::uint8_t>(number >> (8 * place));
    return made;
}

Proposal proposal(const Numbers &it, std::size_t from) { return {{EPOCH, it.at(from)}, it.at(from + 1), payload(it.at(from + 2))}; }

/* As many bytes of a number as it says, eight times. */
Bytes bytes(std::uint64_t number) { return Bytes(number * 8, static_cast<std::uint8_t>(number)); }

Input input_of(const std::string &word, const Numbers &it) {
    const auto kind = [&it] { return static_cast<Kind>(it.at(0)); };
    if (word == "proposal") return input::Proposal{static_cast<Participant>(it.at(0)), proposal(it, 1)};
    if (word == "vote") return Vote{{kind(), proposal(it, 2)}, static_cast<Participant>(it.at(1)), bytes(it.at(5))};
    if (word == "certificate") return Certificate{{kind(), proposal(it, 1)}, bytes(it.at(4))};
    if (word == "built") {
        return input::Built{{{EPOCH, it.at(0)}, static_cast<Participant>(it.at(3)), it.at(1), payload(it.at(2))}, payload(it.at(4))};
    }
    if (word == "verified") return input::Verified{it.at(0), it.at(1) == 1};
    if (word == "certified") return input::Certified{it.at(0), it.at(1) == 1};
    if (word == "given-up") return input::GivenUp{it.at(0), static_cast<TimeoutReason>(it.at(1))};
    throw std::invalid_argument("not a line: " + word);
}

/* An engine, and what it stored. */
class Lifetime {
public:
    explicit Lifetime(const Config &config) : config_(config), engine_(Engine::start(config, OPTIONS, 0)) {}

    std::string reply(const std::string &word, const Numbers &it) {
        if (word == "poll") return poll(it.at(0));
        if (word == "resume") return resume(it.at(0));
        if (word == "status") return status();
        if (word == "open") return open(it.at(0));
        if (word == "view") return view(it.at(0));
        if (word == "withheld") {
            const auto found = engine_.withheld(static_cast<Kind>(it.at(0)), it.at(1));
            return "withheld " + std::to_string(found ? static_cast<std::uint32_t>(*found) : 0);
        }
        if (word == "shown") {
            const auto found = engine_.certificate(static_cast<Kind>(it.at(0)), it.at(1));
            return found ? "shown " + sum_of(found->bytes) : "none";
        }
        if (word == "served") return served(it.at(0));
        const Input input = input_of(word, it);
        try {
            return word_of(engine_.handle(input, it.back()));
        } catch (const Error &) {
            return "failed";
        }
    }

private:
    static constexpr Options OPTIONS{250, 25, 40};

    std::string poll(Millis now) {
        std::optional<Output> output;
        try {
            output = engine_.poll(now);
        } catch (const Error &) {
            return "failed";
        }
        if (!output) return "nothing";
        if (const auto *it = std::get_if<output::Store>(&*output)) {
            stored_->bytes.insert(stored_->bytes.end(), it->entries.bytes.begin(), it->entries.bytes.end());
            stored_->stored = it->entries.stored;
        }
        if (const auto *it = std::get_if<output::Replace>(&*output)) stored_ = it->entries;
        return std::visit(Text{}, *output);
    }

    std::string resume(Millis now) {
        if (!stored_) return "nothing is stored";
        try {
            engine_ = Engine::resume(config_, OPTIONS, now, stored_->stored, stored_->bytes);
            return "resumed";
        } catch (const Error &) {
            return "refused";
        }
    }

    std::string status() const {
        const State it = engine_.state();
        return "status " + word_of(it.is_failed) + " " + std::to_string(it.wake) + " " + std::to_string(it.ignored) + " " + std::to_string(it.fetches);
    }

    std::string open(std::size_t index) const {
        const std::vector<OpenFetch> all = engine_.fetches();
        if (index >= all.size()) return "none";
        const OpenFetch &it = all[index];
        return "open " + word_of(it.kind) + " " + std::to_string(it.view) + " " + std::to_string(it.count) + " " + std::to_string(it.moment);
    }

    std::string view(View view) const {
        const Views it = engine_.view(view);
        return "view " + std::to_string(it.current) + " " + std::to_string(it.last_finalized) + " " + (it.leader ? std::to_string(*it.leader) : "-") +
               " " + word_of(it.admits_vote) + " " + word_of(it.admits_certificate);
    }

    std::string served(View view) const {
        const auto found = engine_.serve(view);
        if (!found) return "none";
        Bytes all = found->subject.encoded();
        all.insert(all.end(), found->bytes.begin(), found->bytes.end());
        return "served " + sum_of(all);
    }

    Config config_;
    Engine engine_;
    std::optional<Entries> stored_;
};

Config config_of(char **words) {
    const auto number = [words](int place) { return std::stoul(words[place]); };
    const auto members = static_cast<std::uint32_t>(number(1));
    const auto me = static_cast<Participant>(number(2));
    Config config(NAMESPACE, members, me < members ? std::optional<Participant>(me) : std::nullopt, EPOCH, Digest{});
    config.term_length = static_cast<std::uint32_t>(number(3));
    config.optimistic_views = number(4);
    return config;
}

}  // namespace

int main(int count, char **words) {
    if (count != 5) {
        std::cerr << "usage: engine_lines N ME T OPTIMISTIC\n";
        return 2;
    }
    try {
        Lifetime lifetime(config_of(words));
        for (std::string line; std::getline(std::cin, line);) {
            std::istringstream read(line);
            std::string word;
            Numbers numbers;
            read >> word;
            for (std::uint64_t number; read >> number;) numbers.push_back(number);
            std::cout << lifetime.reply(word, numbers) << '\n';
        }
    } catch (const std::exception &error) {
        std::cerr << "engine_lines: " << error.what() << '\n';
        return 1;
    }
    return std::cout.flush() ? 0 : 1;
}
