/*
 * A member of the Simplex consensus protocol, for a host that writes its own engine. simplex.hpp includes it, and docs/EMBEDDING.md has the
 * loop. A call that returns a vote has recorded it: the host stores the new entries before it sends the vote. A member moves and is not
 * copied; its destructor frees it. One thread calls it at a time. Each failing call throws simplex::Error: with SIMPLEX_OUT_OF_MEMORY
 * nothing has changed, or the member has failed and each later call throws SIMPLEX_FAILED until a restart; with each other status nothing
 * has changed.
 */
#ifndef SIMPLEX_MEMBER_HPP
#define SIMPLEX_MEMBER_HPP

#include "simplex.hpp"

namespace simplex {

/* Why a handoff, a proposal that is built before its parent is certified, must be abandoned. */
enum class AbandonedReason : std::uint32_t {
    ViewExit = SIMPLEX_VIEW_EXIT,
    AncestrySuperseded = SIMPLEX_ANCESTRY_SUPERSEDED,
    AncestryInvalidated = SIMPLEX_ANCESTRY_INVALIDATED,
    ParentNullify = SIMPLEX_PARENT_NULLIFY,
    ViewNullify = SIMPLEX_VIEW_NULLIFY,
    ResponseClosed = SIMPLEX_RESPONSE_CLOSED,
    IneligibleAtRecording = SIMPLEX_INELIGIBLE_AT_RECORDING
};

/* The result of adding a certificate. */
struct Added {
    bool is_new;
    std::optional<Participant> equivocator; /* a leader that signed two proposals, which certificates show */
};

/* A block to build. */
struct ProposalRequest {
    Context context;
    bool is_handoff; /* its parent is not certified yet */
};

/* A proposal waits for a certificate that is missing: ask the target for it. */
struct Missing {
    View proposal;      /* the view of the proposal that waits */
    View view;          /* the certificate's view */
    Kind kind;          /* a notarization or a nullification */
    Participant target;
};

/* A notarization to fetch for other members, and the view of the proposal that waits for it. */
struct CertificateFetch {
    View proposal;
    View view;
};

struct Candidates {
    std::vector<Proposal> proposals; /* to certify */
    std::vector<CertificateFetch> fetches;
};

/* A vote that the member cast: once the new entries of the record are stored, sign the text with the signer's key, and send it. */
struct VoteOrder {
    Subject subject;
    Participant signer;
    Bytes text;
    bool is_repeat; /* a vote to nullify that was cast before */
};

struct Timeout {
    Millis moment;
    TimeoutReason reason;
};

/* What a restart removes from the record before the new lifetime begins. */
struct Cut {
    std::uint64_t last = 0; /* at most this number of the last entries, but never a vote or an entry before one */
    bool prune = false;     /* all entries further below the highest finalized view than the last lifetime's retention */
};

/* How a journal ends after its whole entries. simplex_ending in simplex.h says what each means. */
enum class Ending : std::uint32_t { Whole = SIMPLEX_WHOLE, Cut = SIMPLEX_CUT, Broken = SIMPLEX_BROKEN };

struct Scan {
    std::uint64_t entries; /* how many whole entries the journal begins with */
    std::uint64_t bytes;   /* how many bytes these are: an append that was cut off is truncated to here */
    Ending ending;
};

/* Reads the entries of a journal, and returns where they end. */
inline Scan scan(const Bytes &journal) {
    const struct simplex_scan it = simplex_scan(journal.data(), journal.size());
    return {it.entries, it.bytes, static_cast<Ending>(it.ending)};
}

/* A moved-from member may be assigned and destroyed; each other call of it throws Error with SIMPLEX_NO_HANDLE. */
class Member {
public:
    /* Begins a member that never voted. One that voted must resume, or it could vote twice in a view. Throws Error where the settings or
     * the floor are refused. */
    static Member start(const Config &config, Millis now);
    /* Resumes a member from its journal, the bytes of its entries in their order, and what was stored beside them last. */
    static Member resume(const Config &config, Millis now, const Stored &stored, const Bytes &journal);
    /* Ends the lifetime, also of a member that has failed, and begins another from its record. Where the settings or
     * SIMPLEX_RETENTION_GROWN are refused nothing has changed. After another error the record is cut and the member has failed: store
     * entries_since(0) in place of the journal. */
    void restart(const Config &config, Millis now, const Cut &cut);

    /* Passes a certificate that the host made or received, and verified. */
    Added add(const Certificate &certificate, Millis now);
    /* Passes a proposal of its view's leader. Returns whether it must be verified. */
    bool set_proposal(const Proposal &proposal);
    /* Returns the next block to build, if there is one. */
    std::optional<ProposalRequest> try_propose();
    /* Passes the payload that was built on request in the view. Returns whether it is accepted. */
    bool proposed(View view, const Digest &payload, Millis now);
    /* Returns whether the request to build in the view is superseded; then ask again, for another parent. */
    bool supersede_proposal_request(View view);
    /* Returns why the handoff that is built in the view must be abandoned, if it must. */
    std::optional<AbandonedReason> pending_handoff_abandonment(View view);
    /* Abandons the request to build in the view. Returns whether one was open. */
    bool release_proposal_request(View view);
    /* Returns the next proposal to verify, or the certificate that one waits for; nothing where there is neither. */
    std::optional<std::variant<output::Verify, Missing>> try_verify();
    /* Reports the view's proposal as valid. Returns whether it is marked so: not if it or its parent changed since it was returned. */
    bool verified(View view);
    /* Reports the view's proposal as invalid, or as one that could not be verified. */
    void verification_failed(View view, TimeoutReason reason, Millis now);
    Candidates certify_candidates();
    /* Notes the host's token for the certification of the view's proposal. */
    void set_certify_handle(View view, std::uint64_t token);
    /* Passes the application's verdict on the view's proposal. Returns the notarization that was judged, if the view is tracked. */
    std::optional<Certificate> certified(View view, bool is_success, Millis now);
    /* Returns this member's vote of a kind on the view, if the vote's rule allows it. */
    std::optional<VoteOrder> construct(Kind kind, View view);
    /* Returns the view's certificate of a kind for broadcast, once. */
    std::optional<Certificate> broadcast(Kind kind, View view);
    /* Returns the certificate that lets other members enter the current view. */
    std::optional<Certificate> best_certificate();
    /* Times the view out for a reason that the member does not see by itself. Returns whether that timeout counts from now on. */
    bool trigger_timeout(View view, TimeoutReason reason, Millis now);
    /* Returns the next timeout of the current view. Once it has come, the member votes to nullify the view. */
    Timeout next_timeout(Millis now);
    /* Drops the views that are no longer retained, and returns them, lowest first. The record stays: prune_record. */
    std::vector<View> prune();

    /* Returns the entries of the record after its first count, to be stored before a vote is sent. Also of a member that has failed. */
    Entries entries_since(std::uint64_t count);
    /* Prunes the record, after prune, and returns all that is left, to be stored in place of the journal in one step. The lifetime
     * continues. After an error the record is pruned and not returned: ask for entries_since(0). */
    Entries prune_record();
    /* Returns what is stored beside the journal, with the number of entries of the record. Also of a member that has failed. */
    Stored stored() const;

    bool is_failed() const;
    /* Throws Error with SIMPLEX_FAILED once the member has failed. */
    Views view(View view) const;
    /* Returns why the member withholds its vote of a kind on a view; nothing exactly where construct returns the vote. */
    std::optional<Withheld> withheld(Kind kind, View view) const;
    /* Returns a view's certificate, where the view is tracked and has it. */
    std::optional<Certificate> certificate(Kind kind, View view) const;

private:
    struct Free {
        void operator()(simplex_member *at) const noexcept { simplex_member_free(at); }
    };
    explicit Member(simplex_member *at) : at_(at) {}
    static Member begun(std::uint32_t status, simplex_member *at);
    simplex_reply make(const simplex_call &call, const Bytes &certificate = {});
    simplex_reply of_view(std::uint32_t kind, View view);
    simplex_reply timed(std::uint32_t kind, View view, TimeoutReason reason, Millis now);
    Bytes bytes(std::uint32_t which) const;
    simplex_item item(std::uint32_t which, std::uint64_t index) const;
    std::optional<Certificate> certificate_in(std::uint32_t has, const simplex_proposal &proposal, std::uint32_t which) const;
    Entries entries_of(const simplex_entries &shown) const;

    std::unique_ptr<simplex_member, Free> at_;
};

}  // namespace simplex

#include "simplex_member_inline.hpp"

#endif
