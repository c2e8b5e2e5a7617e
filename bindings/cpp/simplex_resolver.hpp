/*
 * A peer resolver, for a host that writes its own engine: it decides which certificates are retained, served and fetched. simplex.hpp
 * includes it. Pass it each certificate that the member newly added and each verdict: its outstanding fetches are then exactly the views
 * whose certificate is missing. It moves and is not copied; its destructor frees it. One thread calls it at a time. Each failing call throws
 * simplex::Error: with SIMPLEX_OUT_OF_MEMORY the resolver has failed, start another; with each other status it received nothing.
 */
#ifndef SIMPLEX_RESOLVER_HPP
#define SIMPLEX_RESOLVER_HPP

#include "simplex.hpp"

namespace simplex {

/* Why a nullification is fetched. */
enum class FetchReason : std::uint32_t {
    MissingNullification = SIMPLEX_MISSING_NULLIFICATION,
    CertificationFailed = SIMPLEX_CERTIFICATION_FAILED
};

/* The changes to the outstanding fetches. simplex_effect_kind in simplex.h says what each means. */
namespace effect {
struct Fetch { View view; View cause; FetchReason reason; };
struct Settled { Kind kind; View start; View end; };
struct Finalized { View view; };
struct Raised { View view; };
}  // namespace effect
using Effect = std::variant<effect::Fetch, effect::Settled, effect::Finalized, effect::Raised>;

/* A moved-from resolver may be assigned and destroyed; each other call of it throws Error with SIMPLEX_NO_HANDLE. */
class Resolver {
public:
    /* Starts a resolver from a member's whole journal, with its first fetches outstanding. term_length is that of the member's settings.
     * Throws Error where these are refused. */
    static Resolver start(std::uint32_t term_length, const Bytes &journal);

    /* Passes a certificate that the member newly added. Throws Error with SIMPLEX_NOT_ALLOWED for one of genesis. */
    std::vector<Effect> updated(const Certificate &certificate);
    /* Passes a verdict on a notarization, as Member::certified returns it. */
    std::vector<Effect> certified(const Certificate &notarization, bool is_success);

    bool is_failed() const { return known(0).is_failed != 0; }
    /* Returns whether the view's fetch is outstanding. */
    bool is_open(View view) const { return known(view).is_open != 0; }
    /* Returns whether no certificate of a kind, a notarization or a nullification, is left to ask for at the view. */
    bool is_settled(View view, Kind kind) const;
    /* Returns whether the view's certification failed. */
    bool is_uncertifiable(View view) const { return known(view).uncertifiable != 0; }
    /* Returns how many fetches are outstanding. */
    std::uint64_t fetches() const { return known(0).fetches; }
    /* Returns the views with an outstanding fetch, rising. */
    std::vector<View> outstanding();
    /* Returns the certificate to serve to a peer that asks for the view, if there is one. */
    std::optional<Certificate> produce(View view);

private:
    struct Free {
        void operator()(simplex_resolver *at) const noexcept { simplex_resolver_free(at); }
    };
    explicit Resolver(simplex_resolver *at) : at_(at) {}
    struct simplex_settled known(View view) const;
    std::vector<Effect> tell(const simplex_told &told, const Bytes &certificate);
    Bytes bytes() const;

    std::unique_ptr<simplex_resolver, Free> at_;
};

namespace detail {

inline Effect effect_of(const simplex_effect &it) {
    switch (it.kind) {
    case SIMPLEX_FETCH: return effect::Fetch{it.view, it.cause, static_cast<FetchReason>(it.reason)};
    case SIMPLEX_SETTLED: return effect::Settled{static_cast<Kind>(it.reason), it.view, it.end};
    case SIMPLEX_FINALIZED: return effect::Finalized{it.view};
    case SIMPLEX_RAISED: return effect::Raised{it.view};
    default: throw std::logic_error("libsimplex.a has another version than simplex.hpp");
    }
}

}  // namespace detail

inline Resolver Resolver::start(std::uint32_t term_length, const Bytes &journal) {
    simplex_resolver *at = nullptr;
    detail::require(simplex_resolver_start(term_length, journal.data(), journal.size(), &at));
    return Resolver(at);
}

inline std::vector<Effect> Resolver::tell(const simplex_told &told, const Bytes &certificate) {
    const simplex_effects effects = simplex_resolver_told(at_.get(), &told, certificate.data(), certificate.size());
    detail::require(effects.status);
    std::vector<Effect> made;
    for (std::uint64_t index = 0; index < effects.count; index++) made.push_back(detail::effect_of(simplex_resolver_effect(at_.get(), index)));
    return made;
}

inline std::vector<Effect> Resolver::updated(const Certificate &certificate) {
    return tell({static_cast<std::uint32_t>(certificate.subject.kind), 0, detail::flat(certificate.subject.proposal)}, certificate.bytes);
}

inline std::vector<Effect> Resolver::certified(const Certificate &notarization, bool is_success) {
    return tell({SIMPLEX_TOLD_VERDICT, is_success ? 1u : 0u, detail::flat(notarization.subject.proposal)}, notarization.bytes);
}

inline struct simplex_settled Resolver::known(View view) const {
    const struct simplex_settled it = simplex_resolver_settled(at_.get(), view);
    detail::require(it.status);
    return it;
}

inline bool Resolver::is_settled(View view, Kind kind) const {
    const struct simplex_settled it = known(view);
    return (kind == Kind::Nullification ? it.nullification : it.notarization) != 0;
}

inline Bytes Resolver::bytes() const {
    return detail::all_bytes([this](std::uint64_t from) { return simplex_resolver_bytes(at_.get(), from); });
}

inline std::vector<View> Resolver::outstanding() {
    detail::require(simplex_resolver_outstanding(at_.get()).status);
    const Bytes shown = bytes();
    std::vector<View> views;
    for (std::size_t place = 0; place + 8 <= shown.size(); place += 8) views.push_back(detail::number_at(&shown[place], 8));
    return views;
}

inline std::optional<Certificate> Resolver::produce(View view) {
    const simplex_served served = simplex_resolver_produce(at_.get(), view);
    detail::require(served.status);
    if (served.has == 0) return std::nullopt;
    return detail::served_of(bytes());
}

}  // namespace simplex
#endif
