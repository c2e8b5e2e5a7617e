/*
 * An engine of the Simplex consensus protocol, for C++17: a header over libsimplex.a. For hosts that write their own it has the member that
 * decides in an engine (simplex_member.hpp) and its peer resolver (simplex_resolver.hpp).
 *
 *     c++ -std=c++17 -Ibindings/c/include -Ibindings/cpp host.cpp bindings/libsimplex.a
 *
 * docs/EMBEDDING.md has the loop of a host, and simplex.h says what the host must do. An engine moves and is not copied; its destructor
 * frees it. One thread calls it at a time. Each failing call throws simplex::Error. Times are milliseconds.
 */
#ifndef SIMPLEX_HPP
#define SIMPLEX_HPP

#include "simplex.h"
#include "simplex_status.h"

#include <algorithm>
#include <array>
#include <cstdint>
#include <cstring>
#include <memory>
#include <optional>
#include <stdexcept>
#include <string>
#include <utility>
#include <variant>
#include <vector>

namespace simplex {

using Bytes = std::vector<std::uint8_t>;
using Digest = std::array<std::uint8_t, 32>;
using View = std::uint64_t;
using Participant = std::uint32_t; /* a member's index */
using Millis = std::uint64_t;

/* A call that failed. what() is the status' text. After an error of handle or poll the engine has failed, except for the statuses
 * SIMPLEX_NO_CALL and SIMPLEX_NOT_MADE, which change nothing: resume another engine from what was stored. */
class Error : public std::runtime_error {
public:
    explicit Error(std::uint32_t status) : std::runtime_error(simplex_status_text(status)), status_(status) {}
    /* Returns the number: a simplex_status. */
    std::uint32_t status() const noexcept { return status_; }

private:
    std::uint32_t status_;
};

/* What a vote says, and which certificate such votes make. */
enum class Kind : std::uint32_t {
    Notarization = SIMPLEX_NOTARIZATION,
    Nullification = SIMPLEX_NULLIFICATION,
    Finalization = SIMPLEX_FINALIZATION
};

/* Why a view times out. */
enum class TimeoutReason : std::uint32_t {
    Retry = SIMPLEX_RETRY,
    Inactivity = SIMPLEX_INACTIVITY,
    LeaderNullify = SIMPLEX_LEADER_NULLIFY,
    LeaderTimeout = SIMPLEX_LEADER_TIMEOUT,
    CertificationTimeout = SIMPLEX_CERTIFICATION_TIMEOUT,
    StallTimeout = SIMPLEX_STALL_TIMEOUT,
    MissingProposal = SIMPLEX_MISSING_PROPOSAL,
    IgnoredProposal = SIMPLEX_IGNORED_PROPOSAL,
    InvalidProposal = SIMPLEX_INVALID_PROPOSAL,
    FailedCertification = SIMPLEX_FAILED_CERTIFICATION
};

/* Why a member withholds a vote: the first part of the vote's rule that is false. simplex.h says what each means. */
enum class Withheld : std::uint32_t {
    NoKey = SIMPLEX_WITHHELD_NO_KEY,
    NotAdmitted = SIMPLEX_WITHHELD_NOT_ADMITTED,
    AlreadyVoted = SIMPLEX_WITHHELD_ALREADY_VOTED,
    VotedToNullify = SIMPLEX_WITHHELD_VOTED_TO_NULLIFY,
    VotedToFinalize = SIMPLEX_WITHHELD_VOTED_TO_FINALIZE,
    NoProposal = SIMPLEX_WITHHELD_NO_PROPOSAL,
    Equivocated = SIMPLEX_WITHHELD_EQUIVOCATED,
    NotVerified = SIMPLEX_WITHHELD_NOT_VERIFIED,
    AncestryNotReady = SIMPLEX_WITHHELD_ANCESTRY_NOT_READY,
    BindingChanged = SIMPLEX_WITHHELD_BINDING_CHANGED,
    NotCurrent = SIMPLEX_WITHHELD_NOT_CURRENT,
    AlreadyFinalized = SIMPLEX_WITHHELD_ALREADY_FINALIZED,
    ConflictingNullify = SIMPLEX_WITHHELD_CONFLICTING_NULLIFY,
    ParentNotCertified = SIMPLEX_WITHHELD_PARENT_NOT_CERTIFIED,
    NotNotarized = SIMPLEX_WITHHELD_NOT_NOTARIZED,
    CertificationFailed = SIMPLEX_WITHHELD_CERTIFICATION_FAILED,
    NotCertified = SIMPLEX_WITHHELD_NOT_CERTIFIED
};

/* Which certificate is fetched: the view's notarization, a nullification that covers it, or whatever certificate decides it. */
enum class FetchKind : std::uint32_t {
    Notarization = SIMPLEX_FETCH_NOTARIZATION,
    Nullification = SIMPLEX_FETCH_NULLIFICATION,
    Decision = SIMPLEX_FETCH_DECISION
};

struct Round {
    std::uint64_t epoch = 0;
    View view = 0;
};

/* The bytes that each text to sign begins with: a digest of the network's name, its epoch and its members' keys, say. In two networks with one
 * namespace the signatures of one count in the other. */
struct Namespace {
    std::array<std::uint8_t, 32> bytes{};
};

struct Proposal {
    Round round;
    View parent = 0;
    Digest payload{};
};

/* What a vote or a certificate is on. Of a nullification only proposal.round is read. */
struct Subject {
    Kind kind;
    Proposal proposal;

    /* Returns the text that a vote on it signs in a network: the namespace, and then encoded(). Throws Error where memory runs out. */
    Bytes text(const Namespace &network_namespace) const;
    /* Returns its bytes, with which the encoding of a certificate begins. Throws Error where memory runs out. */
    Bytes encoded() const;
};

struct Vote {
    Subject subject;
    Participant signer;
    Bytes signature;
};

/* The signature of one member in a certificate. */
struct Signature {
    Participant signer;
    Bytes bytes;
};

struct Certificate {
    Subject subject;
    Bytes bytes;

    /* Returns the signatures by rising index, where the bytes are as an engine makes them of votes; else nothing. */
    std::optional<std::vector<Signature>> signatures() const;
};

/* In what a block is built or verified. */
struct Context {
    Round round;
    Participant leader = 0;
    View parent = 0;
    Digest parent_payload{};
};

/* What is stored beside a journal. */
struct Stored {
    simplex_stored numbers{};

    /* Returns the 33 bytes that it is stored as. */
    std::array<std::uint8_t, 33> to_bytes() const;
    /* Returns what was stored as these bytes; nothing where their last is neither 0 nor 1. */
    static std::optional<Stored> from_bytes(const std::array<std::uint8_t, 33> &bytes);
};

/* Entries of the record, as bytes of the journal, and what to store beside it. */
struct Entries {
    Bytes bytes;
    Stored stored;
};

/* A finalized proposal with its certificate, which the host verified. */
struct Finalized {
    Proposal proposal;
    Bytes certificate;
};

/* How a member is set up. All members of an epoch have the same, except for the signer and the floor. */
struct Config {
    Namespace network_namespace;              /* each text to sign begins with it */
    std::uint32_t members = 0;
    std::optional<Participant> signer;
    std::uint64_t epoch = 0;
    std::vector<Participant> leaders;              /* each term's leader, round-robin */
    bool draws = false;                       /* certificates name leaders: simplex.h, simplex_settings */
    std::uint32_t term_length = 1;
    std::uint64_t optimistic_views = 0;
    std::optional<Millis> stall_timeout;
    std::variant<Digest, Finalized> floor;    /* what is final at the start: genesis by its payload, or a finalized proposal */
    Millis leader_timeout = 1000;
    Millis certification_timeout = 2000;
    Millis timeout_retry = 500;
    std::uint64_t view_retention = 10;
    Millis skip_timeout = 3000;               /* 0: no view is skipped */
    std::uint64_t skip_budget = 0;            /* 0: as many as there are members */

    Config() = default;
    /* Members that lead round-robin, one view each, from genesis, with the usual times. */
    Config(const Namespace &network_namespace, std::uint32_t members, std::optional<Participant> signer, std::uint64_t epoch,
           const Digest &genesis);
};

struct Options {
    Millis retry = 250;               /* after how long a fetch asks again: 1 at least */
    Millis on_its_way = 25;           /* how long a missing certificate may be on its way */
    std::uint64_t long_record = 2048; /* a record with more entries is compacted */
};

/* The inputs. simplex_input_kind in simplex.h says when to pass each. */
namespace input {
struct Proposal { Participant from; simplex::Proposal proposal; };
struct Verified { View view; bool is_valid; };
struct Built { Context context; Digest payload; };
struct Certified { View view; bool is_success; };
struct GivenUp { View view; TimeoutReason reason; };
}  // namespace input
using Input = std::variant<input::Proposal, Vote, Certificate, input::Verified, input::Built, input::Certified, input::GivenUp>;

/* The outputs. simplex_output_kind in simplex.h says what to do for each. */
namespace output {
struct Store { Entries entries; };
struct Replace { Entries entries; };
struct Sign { Subject subject; Participant signer; Bytes text; };
struct Broadcast { Certificate certificate; };
struct Verify { Context context; Proposal proposal; };
struct Build { Context context; };
struct StopBuilding { View view; };
struct Certify { Proposal proposal; };
struct Fetch { FetchKind kind; View view; std::optional<Participant> of; };
struct Finalized { Proposal proposal; };
struct Equivocated { Vote one; Vote other; };
struct ProposedTwice { View view; Participant leader; };
struct Forget { View view; };
}  // namespace output
using Output = std::variant<output::Store, output::Replace, output::Sign, output::Broadcast, output::Verify, output::Build, output::StopBuilding,
                            output::Certify, output::Fetch, output::Finalized, output::Equivocated, output::ProposedTwice, output::Forget>;

/* An outstanding fetch. */
struct OpenFetch {
    FetchKind kind;
    View view;
    std::uint64_t count; /* how often it was asked for */
    Millis moment;       /* when it is asked for next */
};

/* What an engine knows of itself. */
struct State {
    bool is_failed;
    Millis wake; /* poll at this moment if no input comes before */
    std::uint64_t ignored;
    std::uint64_t fetches;
};

/* What the member knows, and what it knows of a view. */
struct Views {
    std::uint64_t epoch;
    View current, last_finalized, min_active;
    bool is_tracked, admits_vote, admits_certificate, voted_nullify;
    std::optional<Participant> leader;
    std::optional<Proposal> forwardable;
};

/* An engine. A moved-from engine may be assigned and destroyed; each other call of it throws Error with SIMPLEX_NO_HANDLE. */
class Engine {
public:
    /* Begins an engine whose member never voted. A member that voted must resume, or it could vote twice in a view. Throws Error where
     * the settings, the options or the floor are refused. */
    static Engine start(const Config &config, const Options &options, Millis now);
    /* Resumes an engine from its journal and what was stored beside it last. Throws Error where these or the settings are refused. */
    static Engine resume(const Config &config, const Options &options, Millis now, const Stored &stored, const Bytes &journal);

    /* Passes an input. Returns false if it was ignored, which changes nothing. Throws Error. */
    bool handle(const Input &input, Millis now);
    /* Returns the next output to carry out; nothing where there is none until another input or the moment state().wake. Throws Error. */
    [[nodiscard]] std::optional<Output> poll(Millis now);

    State state() const;
    std::vector<OpenFetch> fetches() const;
    /* Throws Error with SIMPLEX_FAILED once the engine has failed. */
    Views view(View view) const;
    /* Returns why the member withholds its vote of a kind on a view; nothing where it does not. */
    std::optional<Withheld> withheld(Kind kind, View view) const;
    /* Returns a view's certificate, where the view is tracked and has it. */
    std::optional<Certificate> certificate(Kind kind, View view) const;
    /* Returns the certificate to serve to a peer that asks for the view, if there is one. */
    std::optional<Certificate> serve(View view) const;

private:
    struct Free {
        void operator()(simplex_engine *at) const noexcept { simplex_engine_free(at); }
    };
    explicit Engine(simplex_engine *at) : at_(at) {}
    Bytes bytes(std::uint32_t which) const;
    static Engine begun(std::uint32_t status, simplex_engine *at);

    std::unique_ptr<simplex_engine, Free> at_;
};

/* Returns what the linked library is: whether it is proved, of which commit and kit. */
inline std::string build_info() { return simplex_build_info(); }

/* Returns whether the linked library has this header's version. Test it once, before anything else. */
inline bool is_this_version() noexcept { return simplex_version() == SIMPLEX_VERSION; }

}  // namespace simplex

#include "simplex_inline.hpp"
#include "simplex_member.hpp"
#include "simplex_resolver.hpp"

#endif
