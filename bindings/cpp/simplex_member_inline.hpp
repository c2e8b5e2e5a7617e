/* The bodies of simplex_member.hpp, which includes it. */
#ifndef SIMPLEX_MEMBER_INLINE_HPP
#define SIMPLEX_MEMBER_INLINE_HPP

#include "simplex_member.hpp"

namespace simplex {

inline Member Member::begun(std::uint32_t status, simplex_member *at) {
    detail::require(status);
    return Member(at);
}

inline Member Member::start(const Config &config, Millis now) {
    const simplex_settings settings = detail::settings_of(config);
    const Bytes certificate = detail::floor_certificate(config);
    simplex_member *at = nullptr;
    const std::uint32_t status = simplex_member_start(&settings, config.leaders.data(), config.leaders.size(), certificate.data(),
                                                      certificate.size(), now, &at);
    return begun(status, at);
}

inline Member Member::resume(const Config &config, Millis now, const Stored &stored, const Bytes &journal) {
    const simplex_settings settings = detail::settings_of(config);
    const Bytes certificate = detail::floor_certificate(config);
    simplex_member *at = nullptr;
    const std::uint32_t status =
        simplex_member_resume(&settings, config.leaders.data(), config.leaders.size(), certificate.data(), certificate.size(), now,
                              &stored.numbers, journal.data(), journal.size(), &at);
    return begun(status, at);
}

inline void Member::restart(const Config &config, Millis now, const Cut &cut) {
    const simplex_restart restart{cut.last, now, cut.prune ? 1u : 0u, 0, detail::settings_of(config)};
    const Bytes certificate = detail::floor_certificate(config);
    detail::require(simplex_member_restart(at_.get(), &restart, config.leaders.data(), config.leaders.size(), certificate.data(),
                                           certificate.size()));
}

inline simplex_reply Member::make(const simplex_call &call, const Bytes &certificate) {
    const simplex_reply reply = simplex_member_call(at_.get(), &call, certificate.data(), certificate.size());
    detail::require(reply.status);
    return reply;
}

inline simplex_reply Member::of_view(std::uint32_t kind, View view) {
    simplex_call call{};
    call.kind = kind;
    call.view = view;
    return make(call);
}

inline simplex_reply Member::timed(std::uint32_t kind, View view, TimeoutReason reason, Millis now) {
    simplex_call call{};
    call.kind = kind;
    call.view = view;
    call.reason = static_cast<std::uint32_t>(reason);
    call.moment = now;
    return make(call);
}

inline Bytes Member::bytes(std::uint32_t which) const {
    return detail::all_bytes([this, which](std::uint64_t from) { return simplex_member_bytes(at_.get(), which, from); });
}

inline simplex_item Member::item(std::uint32_t which, std::uint64_t index) const {
    const simplex_item found = simplex_member_item(at_.get(), which, index);
    detail::require(found.status);
    return found;
}

inline std::optional<Certificate> Member::certificate_in(std::uint32_t has, const simplex_proposal &proposal, std::uint32_t which) const {
    if (has == 0) return std::nullopt;
    return Certificate{detail::subject_of(has, proposal), bytes(which)};
}

inline Added Member::add(const Certificate &certificate, Millis now) {
    simplex_call call{};
    call.moment = now;
    call.proposal = detail::flat(certificate.subject.proposal);
    call.round = call.proposal.round;
    switch (certificate.subject.kind) {
    case Kind::Notarization: call.kind = SIMPLEX_ADD_NOTARIZATION; break;
    case Kind::Nullification: call.kind = SIMPLEX_ADD_NULLIFICATION; break;
    case Kind::Finalization: call.kind = SIMPLEX_ADD_FINALIZATION; break;
    default: throw Error(SIMPLEX_NO_CALL);
    }
    const simplex_reply reply = make(call, certificate.bytes);
    return {reply.flag != 0, reply.kind == SIMPLEX_REPLY_ADDED ? detail::member_of(reply.member) : std::nullopt};
}

inline bool Member::set_proposal(const Proposal &proposal) {
    simplex_call call{};
    call.kind = SIMPLEX_SET_PROPOSAL;
    call.view = proposal.round.view;
    call.proposal = detail::flat(proposal);
    return make(call).flag != 0;
}

inline std::optional<ProposalRequest> Member::try_propose() {
    const simplex_reply reply = of_view(SIMPLEX_TRY_PROPOSE, 0);
    if (reply.has == 0) return std::nullopt;
    return ProposalRequest{detail::context_of(reply.context, reply.member), reply.has == 2};
}

inline bool Member::proposed(View view, const Digest &payload, Millis now) {
    simplex_call call{};
    call.kind = SIMPLEX_PROPOSED;
    call.view = view;
    call.moment = now;
    std::copy(payload.begin(), payload.end(), call.proposal.payload);
    return make(call).flag != 0;
}

inline bool Member::supersede_proposal_request(View view) { return of_view(SIMPLEX_SUPERSEDE_PROPOSAL_REQUEST, view).flag != 0; }

inline std::optional<AbandonedReason> Member::pending_handoff_abandonment(View view) {
    const simplex_reply reply = of_view(SIMPLEX_PENDING_HANDOFF_ABANDONMENT, view);
    if (reply.has == 0) return std::nullopt;
    return static_cast<AbandonedReason>(reply.reason);
}

inline bool Member::release_proposal_request(View view) { return of_view(SIMPLEX_RELEASE_PROPOSAL_REQUEST, view).flag != 0; }

inline std::optional<std::variant<output::Verify, Missing>> Member::try_verify() {
    const simplex_reply reply = of_view(SIMPLEX_TRY_VERIFY, 0);
    if (reply.has == 0) return std::nullopt;
    if (reply.has == 1) return output::Verify{detail::context_of(reply.context, reply.member), detail::proposal_of(reply.proposal)};
    return Missing{reply.waiting, reply.lacking, static_cast<Kind>(reply.reason), reply.member};
}

inline bool Member::verified(View view) { return of_view(SIMPLEX_VERIFIED, view).flag != 0; }

inline void Member::verification_failed(View view, TimeoutReason reason, Millis now) { timed(SIMPLEX_VERIFICATION_FAILED, view, reason, now); }

inline Candidates Member::certify_candidates() {
    const simplex_reply reply = of_view(SIMPLEX_CERTIFY_CANDIDATES, 0);
    Candidates made;
    for (std::uint64_t index = 0; index < reply.count; index++) {
        made.proposals.push_back(detail::proposal_of(item(SIMPLEX_PROPOSALS, index).proposal));
    }
    for (std::uint64_t index = 0; index < reply.fetches; index++) {
        const simplex_fetch fetch = item(SIMPLEX_FETCHES, index).fetch;
        made.fetches.push_back({fetch.proposal, fetch.view});
    }
    return made;
}

inline void Member::set_certify_handle(View view, std::uint64_t token) {
    simplex_call call{};
    call.kind = SIMPLEX_SET_CERTIFY_HANDLE;
    call.view = view;
    call.token = token;
    make(call);
}

inline std::optional<Certificate> Member::certified(View view, bool is_success, Millis now) {
    simplex_call call{};
    call.kind = SIMPLEX_CERTIFIED;
    call.view = view;
    call.success = is_success ? 1 : 0;
    call.moment = now;
    const simplex_reply reply = make(call);
    return certificate_in(reply.has == 0 ? 0 : SIMPLEX_NOTARIZATION, reply.proposal, SIMPLEX_OF_REPLY);
}

inline std::optional<VoteOrder> Member::construct(Kind kind, View view) {
    const std::uint32_t call = kind == Kind::Notarization    ? SIMPLEX_CONSTRUCT_NOTARIZE
                               : kind == Kind::Nullification ? SIMPLEX_CONSTRUCT_NULLIFY
                                                             : SIMPLEX_CONSTRUCT_FINALIZE;
    const simplex_reply reply = of_view(call, view);
    if (reply.has == 0) return std::nullopt;
    const bool is_repeat = reply.kind == SIMPLEX_REPLY_NULLIFY && reply.flag != 0;
    return VoteOrder{{kind, detail::proposal_of(reply.proposal)}, reply.member, bytes(SIMPLEX_OF_REPLY), is_repeat};
}

inline std::optional<Certificate> Member::broadcast(Kind kind, View view) {
    const std::uint32_t call = kind == Kind::Notarization    ? SIMPLEX_BROADCAST_NOTARIZATION
                               : kind == Kind::Nullification ? SIMPLEX_BROADCAST_NULLIFICATION
                                                             : SIMPLEX_BROADCAST_FINALIZATION;
    const simplex_reply reply = of_view(call, view);
    return certificate_in(reply.has, reply.proposal, SIMPLEX_OF_REPLY);
}

inline std::optional<Certificate> Member::best_certificate() {
    const simplex_reply reply = of_view(SIMPLEX_GET_BEST_CERTIFICATE, 0);
    return certificate_in(reply.has, reply.proposal, SIMPLEX_OF_REPLY);
}

inline bool Member::trigger_timeout(View view, TimeoutReason reason, Millis now) {
    return timed(SIMPLEX_TRIGGER_TIMEOUT, view, reason, now).flag != 0;
}

inline Timeout Member::next_timeout(Millis now) {
    const simplex_reply reply = timed(SIMPLEX_NEXT_TIMEOUT, 0, TimeoutReason::Retry, now);
    return {reply.moment, static_cast<TimeoutReason>(reply.reason)};
}

inline std::vector<View> Member::prune() {
    const simplex_reply reply = of_view(SIMPLEX_PRUNE, 0);
    std::vector<View> dropped;
    for (std::uint64_t index = 0; index < reply.count; index++) dropped.push_back(item(SIMPLEX_DROPPED, index).view);
    return dropped;
}

inline Entries Member::entries_of(const simplex_entries &shown) const {
    detail::require(shown.status);
    return {bytes(SIMPLEX_SHOWN), {shown.stored}};
}

inline Entries Member::entries_since(std::uint64_t count) { return entries_of(simplex_member_entries(at_.get(), count)); }

inline Entries Member::prune_record() { return entries_of(simplex_member_prune_record(at_.get())); }

inline Stored Member::stored() const {
    /* No record has so many entries, so none is shown. */
    const simplex_entries shown = simplex_member_entries(at_.get(), UINT64_MAX);
    detail::require(shown.status);
    return {shown.stored};
}

inline bool Member::is_failed() const {
    const std::uint32_t status = simplex_member_view(at_.get(), 0).status;
    if (status != SIMPLEX_FAILED) detail::require(status);
    return status == SIMPLEX_FAILED;
}

inline Views Member::view(View view) const { return detail::views_of(simplex_member_view(at_.get(), view)); }

inline std::optional<Withheld> Member::withheld(Kind kind, View view) const {
    return detail::withheld_of(simplex_member_withheld(at_.get(), static_cast<std::uint32_t>(kind), view));
}

inline std::optional<Certificate> Member::certificate(Kind kind, View view) const {
    const simplex_found found = simplex_member_certificate(at_.get(), static_cast<std::uint32_t>(kind), view);
    detail::require(found.status);
    return certificate_in(found.has, found.proposal, SIMPLEX_SHOWN);
}

}  // namespace simplex
#endif
