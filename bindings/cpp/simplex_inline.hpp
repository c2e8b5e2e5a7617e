/* The bodies of simplex.hpp, which includes it. */
#ifndef SIMPLEX_INLINE_HPP
#define SIMPLEX_INLINE_HPP

#include "simplex.hpp"

namespace simplex {
namespace detail {

inline void require(std::uint32_t status) {
    if (status != SIMPLEX_OK) throw Error(status);
}

inline std::uint64_t number_at(const std::uint8_t *bytes, std::size_t count) {
    std::uint64_t number = 0;
    for (std::size_t place = 0; place < count; place++) number = number << 8 | bytes[place];
    return number;
}

inline simplex_proposal flat(const Proposal &it) {
    simplex_proposal made{};
    made.round = {it.round.epoch, it.round.view};
    made.parent = it.parent;
    std::copy(it.payload.begin(), it.payload.end(), made.payload);
    return made;
}

inline Proposal proposal_of(const simplex_proposal &it) {
    Proposal made{{it.round.epoch, it.round.view}, it.parent, {}};
    std::copy(std::begin(it.payload), std::end(it.payload), made.payload.begin());
    return made;
}

inline struct simplex_subject flat(const Subject &it, Participant member) { return {static_cast<std::uint32_t>(it.kind), member, flat(it.proposal)}; }

inline Subject subject_of(std::uint32_t kind, const simplex_proposal &it) { return {static_cast<Kind>(kind), proposal_of(it)}; }

inline Context context_of(const simplex_context &it, Participant leader) {
    Context made{{it.round.epoch, it.round.view}, leader, it.parent, {}};
    std::copy(std::begin(it.payload), std::end(it.payload), made.parent_payload.begin());
    return made;
}

inline std::optional<Participant> member_of(std::uint32_t index) {
    return index == SIMPLEX_NOBODY ? std::nullopt : std::optional<Participant>(index);
}

/* An input as the library takes it. */
struct Flat {
    simplex_input input{};
    const Bytes *bytes = nullptr;

    void operator()(const input::Proposal &it) {
        input.kind = SIMPLEX_TELL_PROPOSAL;
        input.subject = {0, it.from, flat(it.proposal)};
    }
    void operator()(const Vote &it) {
        input.kind = SIMPLEX_TELL_VOTE;
        input.subject = flat(it.subject, it.signer);
        bytes = &it.signature;
    }
    void operator()(const Certificate &it) {
        input.kind = SIMPLEX_TELL_CERTIFICATE;
        input.subject = flat(it.subject, SIMPLEX_NOBODY);
        bytes = &it.bytes;
    }
    void operator()(const input::Verified &it) { verdict(SIMPLEX_TELL_VERIFIED, it.view, it.is_valid); }
    void operator()(const input::Certified &it) { verdict(SIMPLEX_TELL_CERTIFIED, it.view, it.is_success); }
    void operator()(const input::GivenUp &it) {
        input.kind = SIMPLEX_TELL_GIVEN_UP;
        input.view = it.view;
        input.reason = static_cast<std::uint32_t>(it.reason);
    }
    void operator()(const input::Built &it) {
        input.kind = SIMPLEX_TELL_BUILT;
        input.subject.member = it.context.leader;
        std::copy(it.payload.begin(), it.payload.end(), input.subject.proposal.payload);
        input.context.round = {it.context.round.epoch, it.context.round.view};
        input.context.parent = it.context.parent;
        std::copy(it.context.parent_payload.begin(), it.context.parent_payload.end(), input.context.payload);
    }

private:
    void verdict(std::uint32_t kind, View view, bool success) {
        input.kind = kind;
        input.view = view;
        input.success = success ? 1 : 0;
    }
};

/* The output of numbers and of bytes, which `bytes` reads. */
template <class Read>
std::optional<Output> output_of(const simplex_output &it, Read bytes) {
    const Proposal proposal = proposal_of(it.subject.proposal);
    const auto subject = [&it] { return subject_of(it.subject.kind, it.subject.proposal); };
    switch (it.kind) {
    case SIMPLEX_NOTHING: return std::nullopt;
    case SIMPLEX_STORE: return output::Store{{bytes(SIMPLEX_OF_OUTPUT), {it.stored}}};
    case SIMPLEX_REPLACE: return output::Replace{{bytes(SIMPLEX_OF_OUTPUT), {it.stored}}};
    case SIMPLEX_VOTE: return output::Sign{subject(), it.subject.member, bytes(SIMPLEX_OF_OUTPUT)};
    case SIMPLEX_BROADCAST: return output::Broadcast{{subject(), bytes(SIMPLEX_OF_OUTPUT)}};
    case SIMPLEX_VERIFY: return output::Verify{context_of(it.context, it.subject.member), proposal};
    case SIMPLEX_BUILD: return output::Build{context_of(it.context, it.subject.member)};
    case SIMPLEX_STOP_BUILDING: return output::StopBuilding{it.view};
    case SIMPLEX_CERTIFY: return output::Certify{proposal};
    case SIMPLEX_ASK: return output::Fetch{static_cast<FetchKind>(it.fetch), it.view, member_of(it.member)};
    case SIMPLEX_FINAL: return output::Finalized{proposal};
    case SIMPLEX_EQUIVOCATED:
        return output::Equivocated{{subject(), it.subject.member, bytes(SIMPLEX_OF_OUTPUT)},
                                   {subject_of(it.other.kind, it.other.proposal), it.other.member, bytes(SIMPLEX_OTHER_OF_OUTPUT)}};
    case SIMPLEX_PROPOSED_TWICE: return output::ProposedTwice{it.view, it.member};
    case SIMPLEX_FORGET: return output::Forget{it.view};
    default: throw std::logic_error("libsimplex.a has another version than simplex.hpp");
    }
}

inline simplex_settings settings_of(const Config &it) {
    simplex_settings made{};
    std::copy(it.network_namespace.bytes.begin(), it.network_namespace.bytes.end(), made.namespace_bytes);
    made.members = it.members;
    made.signer = it.signer.value_or(SIMPLEX_NOBODY);
    if (it.signer == SIMPLEX_NOBODY) throw Error(SIMPLEX_NO_SUCH_MEMBER);
    made.term_length = it.term_length;
    made.draws = it.draws ? 1 : 0;
    made.stalls = it.stall_timeout ? 1 : 0;
    made.stall_timeout = it.stall_timeout.value_or(0);
    made.optimistic_views = it.optimistic_views;
    made.epoch = it.epoch;
    made.view_retention = it.view_retention;
    made.leader_timeout = it.leader_timeout;
    made.certification_timeout = it.certification_timeout;
    made.timeout_retry = it.timeout_retry;
    made.skip_timeout = it.skip_timeout;
    made.skip_budget = it.skip_budget;
    if (const auto *finalized = std::get_if<Finalized>(&it.floor)) {
        made.is_finalized = 1;
        made.floor = flat(finalized->proposal);
    } else {
        made.floor = flat(Proposal{{}, 0, std::get<Digest>(it.floor)});
    }
    return made;
}

inline Bytes floor_certificate(const Config &it) {
    const auto *finalized = std::get_if<Finalized>(&it.floor);
    return finalized ? finalized->certificate : Bytes();
}

inline simplex_options flat(const Options &it) { return {it.retry, it.on_its_way, it.long_record}; }

/* All bytes that wait; `part` returns those from a byte on, and none where there are no more. */
template <class Part>
Bytes all_bytes(Part part) {
    Bytes all;
    for (;;) {
        const simplex_chunk chunk = part(static_cast<std::uint64_t>(all.size()));
        require(chunk.status);
        if (chunk.count == 0) return all;
        all.insert(all.end(), chunk.bytes, chunk.bytes + chunk.count);
    }
}

inline Views views_of(const simplex_view &it) {
    require(it.status);
    const auto forwardable = it.has_forwardable ? std::optional<Proposal>(proposal_of(it.forwardable)) : std::nullopt;
    return {it.epoch,           it.current,          it.last_finalized,      it.min_active, it.is_tracked != 0, it.admits_vote != 0,
            it.admits_certificate != 0, it.voted_nullify != 0, member_of(it.leader), forwardable};
}

inline std::optional<Withheld> withheld_of(const simplex_withheld &it) {
    require(it.status);
    if (it.reason == SIMPLEX_NOT_WITHHELD) return std::nullopt;
    return static_cast<Withheld>(it.reason);
}

/* The certificate in bytes that are served: those of its subject, 17 of a nullification and else 57, and its own bytes after them. */
inline Certificate served_of(const Bytes &all) {
    const bool is_nullification = all.at(0) == 1;
    Subject subject{is_nullification ? Kind::Nullification : all[0] == 0 ? Kind::Notarization : Kind::Finalization, {}};
    const std::size_t length = is_nullification ? 17 : 57;
    if (all.size() < length) throw std::logic_error("libsimplex.a has another version than simplex.hpp");
    subject.proposal.round = {number_at(&all[1], 8), number_at(&all[9], 8)};
    if (!is_nullification) {
        subject.proposal.parent = number_at(&all[17], 8);
        std::copy(all.begin() + 25, all.begin() + 57, subject.proposal.payload.begin());
    }
    return {subject, Bytes(all.begin() + static_cast<std::ptrdiff_t>(length), all.end())};
}

}  // namespace detail

inline Bytes Subject::text(const Namespace &network_namespace) const {
    const simplex_proposal flat = detail::flat(proposal);
    const simplex_text text = simplex_subject(network_namespace.bytes.data(), static_cast<std::uint32_t>(kind), &flat);
    detail::require(text.status);
    return Bytes(text.bytes, text.bytes + text.count);
}

inline Bytes Subject::encoded() const {
    const Bytes all = text(Namespace{});
    return Bytes(all.begin() + sizeof(Namespace), all.end());
}

inline std::optional<std::vector<Signature>> Certificate::signatures() const {
    std::vector<Signature> made;
    for (std::size_t place = 0; place < bytes.size();) {
        if (bytes.size() - place < 12) return std::nullopt;
        const auto signer = static_cast<Participant>(detail::number_at(&bytes[place], 4));
        const std::uint64_t length = detail::number_at(&bytes[place + 4], 8);
        place += 12;
        if (length > bytes.size() - place || (!made.empty() && made.back().signer >= signer)) return std::nullopt;
        const std::uint8_t *from = bytes.data() + place;
        made.push_back({signer, Bytes(from, from + length)});
        place += static_cast<std::size_t>(length);
    }
    return made;
}

inline std::array<std::uint8_t, 33> Stored::to_bytes() const {
    std::array<std::uint8_t, 33> bytes{};
    const std::uint64_t all[] = {numbers.entries, numbers.closed, numbers.retention, numbers.least_retention};
    for (std::size_t place = 0; place < 32; place++) bytes[place] = static_cast<std::uint8_t>(all[place / 8] >> (56 - 8 * (place % 8)));
    bytes[32] = static_cast<std::uint8_t>(numbers.is_pruned);
    return bytes;
}

inline std::optional<Stored> Stored::from_bytes(const std::array<std::uint8_t, 33> &bytes) {
    if (bytes[32] > 1) return std::nullopt;
    const auto number = [&bytes](std::size_t place) { return detail::number_at(&bytes[8 * place], 8); };
    return Stored{{number(0), number(1), number(2), number(3), bytes[32], 0}};
}

inline Config::Config(const Namespace &network_namespace_, std::uint32_t members_, std::optional<Participant> signer_, std::uint64_t epoch_,
                      const Digest &genesis)
    : network_namespace(network_namespace_), members(members_), signer(signer_), epoch(epoch_), floor(genesis) {
    for (Participant member = 0; member < members; member++) leaders.push_back(member);
}

inline Engine Engine::begun(std::uint32_t status, simplex_engine *at) {
    detail::require(status);
    return Engine(at);
}

inline Engine Engine::start(const Config &config, const Options &options, Millis now) {
    const simplex_settings settings = detail::settings_of(config);
    const simplex_options flat = detail::flat(options);
    const Bytes certificate = detail::floor_certificate(config);
    simplex_engine *at = nullptr;
    const std::uint32_t status = simplex_engine_start(&settings, config.leaders.data(), config.leaders.size(), certificate.data(),
                                                      certificate.size(), &flat, now, &at);
    return begun(status, at);
}

inline Engine Engine::resume(const Config &config, const Options &options, Millis now, const Stored &stored, const Bytes &journal) {
    const simplex_settings settings = detail::settings_of(config);
    const simplex_options flat = detail::flat(options);
    const Bytes certificate = detail::floor_certificate(config);
    simplex_engine *at = nullptr;
    const std::uint32_t status =
        simplex_engine_resume(&settings, config.leaders.data(), config.leaders.size(), certificate.data(), certificate.size(), &flat, now,
                              &stored.numbers, journal.data(), journal.size(), &at);
    return begun(status, at);
}

inline bool Engine::handle(const Input &input, Millis now) {
    detail::Flat flat;
    std::visit(flat, input);
    const std::uint8_t *data = flat.bytes ? flat.bytes->data() : nullptr;
    const simplex_taken taken = simplex_engine_handle(at_.get(), &flat.input, data, flat.bytes ? flat.bytes->size() : 0, now);
    detail::require(taken.status);
    return taken.is_of_use != 0;
}

inline std::optional<Output> Engine::poll(Millis now) {
    const simplex_output output = simplex_engine_poll(at_.get(), now);
    detail::require(output.status);
    return detail::output_of(output, [this](std::uint32_t which) { return bytes(which); });
}

inline Bytes Engine::bytes(std::uint32_t which) const {
    return detail::all_bytes([this, which](std::uint64_t from) { return simplex_engine_bytes(at_.get(), which, from); });
}

inline State Engine::state() const {
    const struct simplex_engine_status it = simplex_engine_status(at_.get());
    if (it.status != SIMPLEX_OK && it.status != SIMPLEX_FAILED) throw Error(it.status);
    return {it.status == SIMPLEX_FAILED, it.wake, it.ignored, it.fetches};
}

inline std::vector<OpenFetch> Engine::fetches() const {
    std::vector<OpenFetch> all;
    for (;;) {
        const simplex_open it = simplex_engine_open(at_.get(), all.size());
        detail::require(it.status);
        if (it.fetch == 0) return all;
        all.push_back({static_cast<FetchKind>(it.fetch), it.view, it.count, it.moment});
    }
}

inline Views Engine::view(View view) const { return detail::views_of(simplex_engine_view(at_.get(), view)); }

inline std::optional<Withheld> Engine::withheld(Kind kind, View view) const {
    return detail::withheld_of(simplex_engine_withheld(at_.get(), static_cast<std::uint32_t>(kind), view));
}

inline std::optional<Certificate> Engine::certificate(Kind kind, View view) const {
    const simplex_found it = simplex_engine_certificate(at_.get(), static_cast<std::uint32_t>(kind), view);
    detail::require(it.status);
    if (it.has == 0) return std::nullopt;
    return Certificate{detail::subject_of(it.has, it.proposal), bytes(SIMPLEX_SHOWN_OF_ENGINE)};
}

inline std::optional<Certificate> Engine::serve(View view) const {
    const simplex_served it = simplex_engine_serve(at_.get(), view);
    detail::require(it.status);
    if (it.has == 0) return std::nullopt;
    return detail::served_of(bytes(SIMPLEX_SHOWN_OF_ENGINE));
}

}  // namespace simplex
#endif
