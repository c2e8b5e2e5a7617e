/* Tests of simplex_member.hpp and simplex_resolver.hpp: errors, handles, restarts, journals and fetches. */
#include "simplex.hpp"

#include <cstdio>
#include <functional>
#include <type_traits>

namespace {

using namespace simplex;

static_assert(!std::is_copy_constructible_v<Member> && std::is_nothrow_move_constructible_v<Member> && std::is_move_assignable_v<Member>);
static_assert(!std::is_copy_constructible_v<Resolver> && std::is_nothrow_move_constructible_v<Resolver>);

int failed = 0;

void expect(bool it, const char *what) {
    if (it) return;
    std::printf("FAILED: %s\n", what);
    failed++;
}

void expect_error(std::uint32_t status, const char *what, const std::function<void()> &body) {
    try {
        body();
    } catch (const Error &error) {
        return expect(error.status() == status, what);
    }
    expect(false, what);
}

constexpr Namespace NAMESPACE{{7, 1}};

Config config(Participant me = 0) { return Config(NAMESPACE, 4, me, 1, Digest{}); }

Proposal proposal(View view) { return {{1, view}, view - 1, {7}}; }

/* A member that leads view 1 and voted for its own proposal. */
Member with_a_vote() {
    Member member = Member::start(config(), 0);
    const auto request = member.try_propose();
    expect(request && !request->is_handoff && request->context.round.view == 1, "member 0 leads view 1");
    expect(member.proposed(1, proposal(1).payload, 5), "the block is accepted");
    const auto vote = member.construct(Kind::Notarization, 1);
    expect(vote && vote->signer == 0 && vote->text == vote->subject.text(NAMESPACE) && !vote->is_repeat, "its vote");
    return member;
}

void settings_are_refused_by_their_status() {
    expect_error(SIMPLEX_NO_SUCH_MEMBER, "a signer that is no member", [] { Member::start(config(4), 0); });
    Config other = config();
    other.leaders.pop_back();
    expect_error(SIMPLEX_OTHER_TABLE, "a table of three leaders", [&] { Member::start(other, 0); });
}

void a_resumed_member_does_not_vote_again() {
    const Entries stored = with_a_vote().entries_since(0);
    Member member = Member::resume(config(), 9, stored.stored, stored.bytes);
    expect(!member.construct(Kind::Notarization, 1), "no second vote");
    expect(member.withheld(Kind::Notarization, 1) == Withheld::AlreadyVoted, "and why");
    expect(member.stored().to_bytes() == stored.stored.to_bytes(), "what is stored beside the journal");
}

void a_journal_is_refused_by_its_status() {
    const Entries stored = with_a_vote().entries_since(0);
    expect_error(SIMPLEX_ENTRIES_LOST, "an empty journal", [&] { Member::resume(config(), 0, stored.stored, {}); });
    Bytes other = stored.bytes;
    other.back() ^= 1;
    expect_error(SIMPLEX_DAMAGED, "a bit turned over", [&] { Member::resume(config(), 0, stored.stored, other); });
    expect_error(SIMPLEX_FOREIGN_SIGNER, "another member's journal", [&] { Member::resume(config(1), 0, stored.stored, stored.bytes); });
}

void a_refused_restart_leaves_the_record() {
    Member member = with_a_vote();
    const Entries stored = member.entries_since(0);
    expect_error(SIMPLEX_FOREIGN_SIGNER, "a restart as another member", [&] { member.restart(config(1), 9, {}); });
    expect(member.is_failed(), "the member has failed");
    expect_error(SIMPLEX_FAILED, "a call after it", [&] { (void)member.try_verify(); });
    expect(member.entries_since(0).bytes == stored.bytes, "the record is left");
    member.restart(config(), 9, {});
    expect(!member.is_failed() && member.view(1).current == 1, "it is restarted");
}

void a_moved_member_has_no_handle() {
    Member one = with_a_vote();
    Member other = std::move(one);
    expect(other.view(1).leader == 0u, "the new one works");
    expect_error(SIMPLEX_NO_HANDLE, "a call of the old one", [&] { (void)one.try_propose(); });
    expect_error(SIMPLEX_NO_HANDLE, "a question to the old one", [&] { (void)one.is_failed(); });
    expect_error(SIMPLEX_NO_HANDLE, "the entries of the old one", [&] { (void)one.entries_since(0); });
}

void a_pruned_record_is_shorter() {
    Member member = Member::start(config(), 0);
    for (View view = 1; view < 50; view++) {
        const Added added = member.add({{Kind::Finalization, proposal(view)}, {7}}, view);
        expect(added.is_new && !added.equivocator, "a finalization is new");
    }
    const std::uint64_t whole = member.stored().numbers.entries;
    expect(!member.prune().empty(), "views are dropped");
    const Entries left = member.prune_record();
    expect(left.stored.numbers.entries < whole, "the record is shorter");
    expect(Member::resume(config(), 60, left.stored, left.bytes).view(0).current == member.view(0).current, "and resumes");
    const auto found = member.certificate(Kind::Finalization, 49);
    expect(found && found->bytes == Bytes{7} && found->subject.proposal.payload[0] == 7, "the last certificate");
    expect(member.best_certificate()->subject.proposal.round.view == 49, "the best certificate");
}

void a_journal_is_scanned() {
    const Bytes journal = with_a_vote().entries_since(0).bytes;
    const Scan whole = scan(journal);
    expect(whole.entries == 1 && whole.bytes == journal.size() && whole.ending == Ending::Whole, "a whole journal");
    const Scan cut = scan(Bytes(journal.begin(), journal.end() - 1));
    expect(cut.entries == 0 && cut.bytes == 0 && cut.ending == Ending::Cut, "a cut journal");
    Bytes other = journal;
    other.back() ^= 1;
    expect(scan(other).ending == Ending::Broken, "a broken journal");
}

void a_resolver_fetches_what_is_missing() {
    Resolver resolver = Resolver::start(1, {});
    const auto effects = resolver.updated({{Kind::Nullification, {{1, 3}, 0, {}}}, {7}});
    expect(effects.size() == 3 && std::get<effect::Settled>(effects[0]).end == 3, "nothing is missing at view 3");
    const auto fetch = std::get<effect::Fetch>(effects.at(2));
    expect(fetch.view == 2 && fetch.cause == 3 && fetch.reason == FetchReason::MissingNullification, "view 2 is fetched");
    expect(resolver.outstanding() == std::vector<View>{1, 2} && resolver.fetches() == 2, "two views are missing");
    expect(resolver.is_open(1) && !resolver.is_open(3) && resolver.is_settled(3, Kind::Nullification), "the view itself is there");
    const auto served = resolver.produce(3);
    expect(served && served->subject.kind == Kind::Nullification && served->bytes == Bytes{7}, "and is served");
    expect_error(SIMPLEX_NOT_ALLOWED, "a certificate of genesis", [&] { resolver.updated({{Kind::Nullification, {{1, 0}, 0, {}}}, {7}}); });
    Resolver other = std::move(resolver);
    expect(!other.is_failed(), "the new one works");
    expect_error(SIMPLEX_NO_HANDLE, "a call of the old one", [&] { (void)resolver.outstanding(); });
    expect_error(SIMPLEX_DAMAGED, "no journal", [] { Resolver::start(1, Bytes(40)); });
}

}  // namespace

int main() {
    const std::pair<const char *, void (*)()> tests[] = {
        {"settings are refused by their status", settings_are_refused_by_their_status},
        {"a resumed member does not vote again", a_resumed_member_does_not_vote_again},
        {"a journal is refused by its status", a_journal_is_refused_by_its_status},
        {"a refused restart leaves the record", a_refused_restart_leaves_the_record},
        {"a moved member has no handle", a_moved_member_has_no_handle},
        {"a pruned record is shorter", a_pruned_record_is_shorter},
        {"a journal is scanned", a_journal_is_scanned},
        {"a resolver fetches what is missing", a_resolver_fetches_what_is_missing},
    };
    for (const auto &[name, body] : tests) {
        body();
        std::printf("test %s\n", name);
    }
    return failed ? 1 : 0;
}
