/*
 * Serves the lines of the repository's program viewstate (docs/PROGRAM.md) through simplex.hpp, and writes the replies of the examples
 * first_script and resolver of the Rust package.
 *
 *     member_lines voter N ME T OPTIMISTIC [resume|compact] < LINES
 *     member_lines resolver T < LINES
 */
#include "simplex.hpp"

#include <iostream>
#include <sstream>

namespace {

using namespace simplex;
using Words = std::vector<std::string>;

constexpr std::uint64_t EPOCH = 1;
constexpr Namespace NAMESPACE{{1}};

const char *const TIMEOUTS[] = {"Retry", "Inactivity", "LeaderNullify", "LeaderTimeout", "CertificationTimeout", "StallTimeout",
                                "MissingProposal", "IgnoredProposal", "InvalidProposal", "FailedCertification"};
const char *const ABANDONED[] = {"ViewExit", "AncestrySuperseded", "AncestryInvalidated", "ParentNullify", "ViewNullify", "ResponseClosed",
                                 "IneligibleAtRecording"};
const char *const CERTIFICATES[] = {"", "notarization", "nullification", "finalization"};
const char *const VOTES[] = {"", "notarize", "nullify", "finalize"};
const char *const ENDINGS[] = {"whole", "cut", "broken"};
const char *const REFUSED[] = {"1 OutOfOrder", "2 OtherEpoch", "3 ZeroView", "4 ViewTooLarge", "5 ForeignSigner", "6 ParentNotBelow",
                               "7 VerdictWithoutNotarization", "8 ContradictingVerdicts", "9 NullifyBesideFinalize", "10 ContradictingVotes",
                               "11 FinalizeWithoutVerdict", "12 TimeOverflow", "14 RetentionGrown"};

std::uint64_t number(const std::string &word) { return std::stoull(word); }

std::string text(std::uint64_t it) { return std::to_string(it); }
std::string text(bool it) { return it ? "true" : "false"; }
std::string text(std::optional<Participant> it) { return it ? std::to_string(*it) : "-"; }

/* The payload that stands for a number: its bytes at the end. */
Digest payload(std::uint64_t number) {
    Digest made{};
    for (std::size_t place = 0; place < 8; place++) made[31 - place] = static_cast<std::uint8_t>(number >> (8 * place));
    return made;
}

std::uint64_t number_of(const Digest &payload) { return detail::number_at(&payload[24], 8); }

/* How many bytes there are, and their FNV-1a hash. */
std::string sum_of(const Bytes &bytes) {
    std::uint64_t hash = 0xcbf29ce484222325;
    for (std::uint8_t byte : bytes) hash = (hash ^ byte) * 0x100000001b3;
    return text(bytes.size()) + ":" + text(hash);
}

Kind kind_of(const std::string &word) {
    for (const Kind kind : {Kind::Notarization, Kind::Nullification, Kind::Finalization}) {
        if (word == CERTIFICATES[static_cast<std::size_t>(kind)]) return kind;
    }
    return static_cast<Kind>(number(word));
}

TimeoutReason reason_of(const std::string &word) {
    const auto *found = std::find(std::begin(TIMEOUTS), std::end(TIMEOUTS), word);
    if (found == std::end(TIMEOUTS)) throw std::invalid_argument("no reason: " + word);
    return static_cast<TimeoutReason>(found - std::begin(TIMEOUTS));
}

/* A certificate of this example: one byte that no one reads. */
Certificate certificate(Kind kind, View view, View parent, std::uint64_t payload_of) { return {{kind, {{EPOCH, view}, parent, payload(payload_of)}}, {1}}; }

std::string proposal_text(const char *word, const Proposal &it) {
    return word + (" " + text(it.round.view)) + " " + text(it.parent) + " " + text(number_of(it.payload));
}

std::string context_text(const char *word, const Context &it) {
    return word + (" " + text(it.round.view)) + " " + text(std::uint64_t(it.leader)) + " " + text(it.parent) + " " + text(number_of(it.parent_payload));
}

std::string certificate_text(const std::optional<Certificate> &it) {
    if (!it) return "none";
    return CERTIFICATES[static_cast<std::size_t>(it->subject.kind)] + (" " + text(it->subject.proposal.round.view));
}

std::string entries_text(const Entries &it) {
    const simplex_stored &beside = it.stored.numbers;
    std::string made = sum_of(it.bytes);
    for (std::uint64_t number : {beside.entries, beside.closed, beside.retention, beside.least_retention}) made += " " + text(number);
    return made + " " + text(beside.is_pruned == 1);
}

std::string fault_text(const Error &error) {
    switch (error.status()) {
    case SIMPLEX_FAILED: return "fault 2 Failed";
    case SIMPLEX_VIEW_TOO_LARGE: return "fault 3 ViewTooLarge";
    case SIMPLEX_TIME_OVERFLOW: return "fault 4 TimeOverflow";
    case SIMPLEX_NOT_ALLOWED: return "not-allowed";
    default: throw error;
    }
}

/* A member of which lines are asked, with the journal of a host that compacts it. */
class Voter {
public:
    Voter(const Config &config, const std::string &way) : config_(config), resumes_(way == "resume"), member_(Member::start(config, 0)) {
        if (way == "compact") stored_ = member_.entries_since(0);
    }

    std::string reply(const Words &words) {
        std::string made = reply_to(words);
        if (stored_) grow(words[0] == "prune");
        return made;
    }

    std::optional<std::uint64_t> taken() const { return stored_ ? std::optional<std::uint64_t>(taken_) : std::nullopt; }

private:
    std::string reply_to(const Words &words) {
        if (words[0] == "restart") return restart(number(words[1]), false, number(words[2]));
        if (words[0] == "restart-pruned") return restart(number(words[1]), true, number(words[2]));
        try {
            for (const auto asked : {&Voter::added, &Voter::proposing, &Voter::voting, &Voter::others, &Voter::known}) {
                if (auto made = (this->*asked)(words[0], words)) return *made;
            }
        } catch (const Error &error) {
            return fault_text(error);
        }
        throw std::invalid_argument("not a call: " + words[0]);
    }

    using Reply = std::optional<std::string>;

    Reply added(const std::string &word, const Words &it) {
        if (word == "nullification") return "added " + text(member_.add(certificate(Kind::Nullification, number(it[1]), 0, 0), number(it[2])).is_new);
        if (word != "notarization" && word != "finalization") return std::nullopt;
        const Certificate given = certificate(kind_of(word), number(it[1]), number(it[2]), number(it[3]));
        const Added made = member_.add(given, it.size() > 4 ? number(it[4]) : 0);
        return "added " + text(made.is_new) + " " + text(made.equivocator);
    }

    Reply proposing(const std::string &word, const Words &it) {
        if (word == "proposal") return text(member_.set_proposal({{EPOCH, number(it[1])}, number(it[2]), payload(number(it[3]))}));
        if (word == "propose") {
            const auto made = member_.try_propose();
            return made ? context_text(made->is_handoff ? "prepare" : "propose", made->context) : "none";
        }
        if (word == "proposed") return text(member_.proposed(number(it[1]), payload(number(it[2])), number(it[3])));
        if (word == "supersede") return text(member_.supersede_proposal_request(number(it[1])));
        if (word == "abandon") {
            const auto reason = member_.pending_handoff_abandonment(number(it[1]));
            return reason ? ABANDONED[static_cast<std::size_t>(*reason)] : "none";
        }
        if (word == "release") return member_.release_proposal_request(number(it[1])), "ok";
        if (word == "verify") return work();
        if (word == "verified") return text(member_.verified(number(it[1])));
        if (word == "rejected") return member_.verification_failed(number(it[1]), TimeoutReason::InvalidProposal, number(it[2])), "ok";
        return std::nullopt;
    }

    std::string work() {
        const auto made = member_.try_verify();
        if (!made) return "wait";
        if (const auto *ready = std::get_if<output::Verify>(&*made)) {
            return context_text("ready", ready->context) + " " + text(number_of(ready->proposal.payload));
        }
        const auto &missing = std::get<Missing>(*made);
        return "resolve " + text(missing.proposal) + " " + text(missing.view) + " " + CERTIFICATES[static_cast<std::size_t>(missing.kind)] + " " +
               text(std::uint64_t(missing.target));
    }

    Reply voting(const std::string &word, const Words &it) {
        for (const Kind kind : {Kind::Notarization, Kind::Nullification, Kind::Finalization}) {
            if (word != VOTES[static_cast<std::size_t>(kind)]) continue;
            const auto vote = member_.construct(kind, number(it[1]));
            if (!vote) return "none";
            if (vote->text != vote->subject.text(NAMESPACE)) throw std::logic_error("a vote does not sign its subject's text");
            if (kind == Kind::Nullification) return "nullify " + text(vote->subject.proposal.round.view) + " " + text(vote->is_repeat);
            return proposal_text(word.c_str(), vote->subject.proposal);
        }
        if (word == "broadcast") return certificate_text(member_.broadcast(kind_of(it[1]), number(it[2])));
        if (word == "best") return certificate_text(member_.best_certificate());
        return std::nullopt;
    }

    Reply others(const std::string &word, const Words &it) {
        if (word == "candidates") return candidates();
        if (word == "token") return member_.set_certify_handle(number(it[1]), number(it[2])), "ok";
        if (word == "verdict") {
            const auto judged = member_.certified(number(it[1]), it[2] == "true", number(it[3]));
            return judged ? "certified " + text(judged->subject.proposal.round.view) : "none";
        }
        if (word == "trigger") return member_.trigger_timeout(number(it[1]), reason_of(it[2]), number(it[3])), "ok";
        if (word == "timeout") {
            const Timeout next = member_.next_timeout(number(it[1]));
            return "timeout " + text(next.moment) + " " + TIMEOUTS[static_cast<std::size_t>(next.reason)];
        }
        if (word == "prune") {
            std::string made = "pruned";
            for (const View view : member_.prune()) made += " " + text(view);
            return made;
        }
        return std::nullopt;
    }

    std::string candidates() {
        const Candidates found = member_.certify_candidates();
        std::string made = "candidates";
        for (const Proposal &it : found.proposals) made += " " + text(it.round.view);
        made += " fetch";
        for (const CertificateFetch &it : found.fetches) made += " " + text(it.proposal) + ":" + text(it.view);
        return made;
    }

    Reply known(const std::string &word, const Words &it) {
        if (word == "record") return "record " + text(member_.stored().numbers.entries);
        if (word == "view") {
            const Views found = member_.view(0);
            return "view " + text(found.current) + " " + text(found.last_finalized) + " " + text(found.min_active);
        }
        if (word == "known") {
            const Views found = member_.view(number(it[1]));
            std::string made = "known " + text(found.leader);
            for (bool flag : {found.is_tracked, found.admits_vote, found.admits_certificate, found.voted_nullify}) made += " " + text(flag);
            return made + " " + (found.forwardable ? text(number_of(found.forwardable->payload)) : "-");
        }
        if (word == "withheld") return "withheld " + text(static_cast<std::uint64_t>(member_.withheld(kind_of(it[1]), number(it[2])).value_or(Withheld{})));
        if (word == "shown") {
            const auto found = member_.certificate(kind_of(it[1]), number(it[2]));
            return found ? "shown " + sum_of(found->bytes) : "none";
        }
        if (word == "entries") return "entries " + entries_text(member_.entries_since(number(it[1])));
        if (word == "scan") return scanned(number(it[1]));
        return std::nullopt;
    }

    /* Where the journal of all entries ends, once its last bytes are cut off. */
    std::string scanned(std::uint64_t cut) {
        Bytes all = member_.entries_since(0).bytes;
        all.resize(all.size() - std::min<std::size_t>(cut, all.size()));
        const Scan found = scan(all);
        return "scan " + text(found.entries) + " " + text(found.bytes) + " " + ENDINGS[static_cast<std::size_t>(found.ending)];
    }

    /* Begins another lifetime from the record: in place, or as another process would, from the bytes that were stored. */
    std::string restart(std::uint64_t drop, bool prune, Millis now) {
        if (resumes_ && drop == 0 && !prune) {
            try {
                const Entries all = member_.entries_since(0);
                member_ = Member::resume(config_, now, all.stored, all.bytes);
                return "ok";
            } catch (const Error &) { /* A restart in place is refused alike, and leaves the member failed. */
            }
        }
        std::uint32_t refused = SIMPLEX_OK;
        if (stored_) {
            try {
                member_ = Member::resume(config_, now, stored_->stored, stored_->bytes);
            } catch (const Error &error) {
                refused = error.status();
            }
        }
        const std::uint32_t restarted = restart_in_place(now, {drop, prune});
        if (refused != SIMPLEX_OK && refused != restarted) throw std::logic_error("a resume is refused where a restart is not");
        if (stored_) stored_ = member_.entries_since(0);
        return restarted == SIMPLEX_OK ? "ok" : std::string("refused ") + REFUSED[restarted - SIMPLEX_OUT_OF_ORDER];
    }

    std::uint32_t restart_in_place(Millis now, const Cut &cut) {
        try {
            member_.restart(config_, now, cut);
            return SIMPLEX_OK;
        } catch (const Error &error) {
            if (error.status() < SIMPLEX_OUT_OF_ORDER) throw;
            return error.status();
        }
    }

    /* Appends what the record has grown by; with a pruning, puts all that is left in place of the journal. */
    void grow(bool is_pruned) {
        const Entries grown = member_.entries_since(stored_->stored.numbers.entries);
        stored_->bytes.insert(stored_->bytes.end(), grown.bytes.begin(), grown.bytes.end());
        stored_->stored = grown.stored;
        if (!is_pruned) return;
        const std::uint64_t before = stored_->stored.numbers.entries;
        stored_ = member_.prune_record();
        taken_ += before - stored_->stored.numbers.entries;
    }

    Config config_;
    bool resumes_;
    Member member_;
    std::optional<Entries> stored_;
    std::uint64_t taken_ = 0;
};

struct EffectText {
    std::string operator()(const effect::Fetch &it) const {
        const char *const reason = it.reason == FetchReason::MissingNullification ? "missing_nullification" : "certification_failed";
        return "fetch " + text(it.view) + " " + text(it.cause) + " " + reason;
    }
    std::string operator()(const effect::Settled &it) const {
        return std::string("settled ") + CERTIFICATES[static_cast<std::size_t>(it.kind)] + " " + text(it.start) + " " + text(it.end);
    }
    std::string operator()(const effect::Finalized &it) const { return "finalized " + text(it.view); }
    std::string operator()(const effect::Raised &it) const { return "raised " + text(it.view); }
};

/* A resolver of which lines are asked. */
class Asked {
public:
    explicit Asked(std::uint32_t term_length) : resolver_(Resolver::start(term_length, {})) {}

    std::string reply(const Words &words) {
        const std::string &word = words[0];
        const View view = words.size() > 1 ? number(words[1]) : 0;
        if (word == "settled") return text(resolver_.is_settled(view, kind_of(words[2])));
        if (word == "key-settled") return text(resolver_.is_settled(view, Kind::Nullification) && resolver_.is_settled(view, Kind::Notarization));
        if (word == "uncertifiable") return text(resolver_.is_uncertifiable(view));
        if (word == "open") return text(resolver_.is_open(view));
        if (word == "fetches") return text(resolver_.fetches());
        if (word == "outstanding") {
            std::string made = "outstanding";
            for (const View it : resolver_.outstanding()) made += " " + text(it);
            return made;
        }
        if (word == "produce") return resolver_.produce(view) ? "some" : "none";
        if (word == "served") return served(view);
        try {
            return effects_text(told(words, view));
        } catch (const Error &error) {
            return fault_text(error);
        }
    }

private:
    std::vector<Effect> told(const Words &words, View view) {
        if (words[0] == "replayed") return {};
        const Kind kind = words[0] == "certified" ? Kind::Notarization : kind_of(words[0]);
        const Certificate given = certificate(kind, view, view == 0 ? 0 : view - 1, 0);
        return words[0] == "certified" ? resolver_.certified(given, words[2] == "true") : resolver_.updated(given);
    }

    static std::string effects_text(const std::vector<Effect> &effects) {
        std::string made;
        for (const Effect &it : effects) made += (made.empty() ? "" : "; ") + std::visit(EffectText{}, it);
        return made.empty() ? "-" : made;
    }

    std::string served(View view) {
        const auto found = resolver_.produce(view);
        if (!found) return "none";
        Bytes all = found->subject.encoded();
        all.insert(all.end(), found->bytes.begin(), found->bytes.end());
        return "served " + sum_of(all);
    }

    Resolver resolver_;
};

Config config_of(const Words &words) {
    const auto members = static_cast<std::uint32_t>(number(words[1]));
    const auto me = words[2] == "-" ? std::nullopt : std::optional<Participant>(static_cast<Participant>(number(words[2])));
    Config config(NAMESPACE, members, me, EPOCH, Digest{});
    config.term_length = static_cast<std::uint32_t>(number(words[3]));
    config.optimistic_views = number(words[4]);
    return config;
}

template <class Served>
void serve(Served &served) {
    for (std::string line; std::getline(std::cin, line);) {
        std::istringstream read(line);
        Words words;
        for (std::string word; read >> word;) words.push_back(word);
        std::cout << served.reply(words) << '\n';
    }
}

}  // namespace

int main(int count, char **arguments) {
    const Words words(arguments + 1, arguments + count);
    try {
        if ((words.size() == 5 || words.size() == 6) && words[0] == "voter") {
            Voter voter(config_of(words), words.size() == 6 ? words[5] : "");
            serve(voter);
            if (voter.taken()) std::cerr << *voter.taken() << " entries taken away\n";
        } else if (words.size() == 2 && words[0] == "resolver") {
            Asked asked(static_cast<std::uint32_t>(number(words[1])));
            serve(asked);
        } else {
            std::cerr << "usage: member_lines voter N ME T OPTIMISTIC [resume|compact]\n       member_lines resolver T\n";
            return 2;
        }
    } catch (const std::exception &error) {
        std::cerr << "member_lines: " << error.what() << '\n';
        return 1;
    }
    return std::cout.flush() ? 0 : 1;
}
