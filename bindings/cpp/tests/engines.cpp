/* Tests of simplex.hpp that need no network: errors, handles, and what is stored. */
#include "simplex.hpp"

#include <cstdio>
#include <functional>
#include <type_traits>

namespace {

using namespace simplex;

static_assert(!std::is_copy_constructible_v<Engine> && std::is_nothrow_move_constructible_v<Engine> && std::is_move_assignable_v<Engine>);

int failed = 0;

void expect(bool it, const char *what) {
    if (it) return;
    std::printf("FAILED: %s\n", what);
    failed++;
}

void expect_error(std::uint32_t status, const char *what, const std::function<void()> &body) {
    try {
        body();
    } catch (const Error &error) {
        const bool is_text = error.what() == std::string(simplex_status_text(status));
        return expect(error.status() == status && is_text, what);
    }
    expect(false, what);
}

constexpr Namespace NAMESPACE{{7, 1}};

Config config() { return Config(NAMESPACE, 4, 1, 1, Digest{}); }

/* What the first output of an engine stores. */
Entries first_entries(Engine &engine) {
    auto output = engine.poll(0);
    const auto *it = output ? std::get_if<output::Replace>(&*output) : nullptr;
    expect(it != nullptr, "the first output replaces what is stored");
    return it ? it->entries : Entries{};
}

/* Runs an engine until its first vote, and returns what it stored. */
Entries with_a_vote(Engine &engine) {
    Entries all = first_entries(engine);
    for (Millis now = 0; now < 60000; now += 500) {
        while (auto output = engine.poll(now)) {
            if (const auto *it = std::get_if<output::Store>(&*output)) {
                all.bytes.insert(all.bytes.end(), it->entries.bytes.begin(), it->entries.bytes.end());
                all.stored = it->entries.stored;
            }
            if (std::holds_alternative<output::Sign>(*output)) return all;
        }
    }
    expect(false, "an engine alone votes in a minute");
    return all;
}

void settings_are_refused_by_their_status() {
    expect_error(SIMPLEX_LEADER_TIMEOUT_ZERO, "a leader timeout of 0", [] {
        Config it = config();
        it.leader_timeout = 0;
        Engine::start(it, {}, 0);
    });
    expect_error(SIMPLEX_OTHER_TABLE, "a table of three leaders", [] {
        Config it = config();
        it.leaders.pop_back();
        Engine::start(it, {}, 0);
    });
    expect_error(SIMPLEX_NO_SUCH_MEMBER, "a signer that is no member", [] { Engine::start(Config(NAMESPACE, 4, 4, 1, Digest{}), {}, 0); });
    expect_error(SIMPLEX_NO_SUCH_MEMBER, "the number of nobody as a signer", [] { Engine::start(Config(NAMESPACE, 4, SIMPLEX_NOBODY, 1, Digest{}), {}, 0); });
    expect_error(SIMPLEX_FETCH_RETRY_ZERO, "a fetch that is asked again at once", [] { Engine::start(config(), {0, 25, 2048}, 0); });
}

void a_journal_is_refused_by_its_status() {
    Engine engine = Engine::start(config(), {}, 0);
    const Entries stored = with_a_vote(engine);
    Engine::resume(config(), {}, 0, stored.stored, stored.bytes);
    expect_error(SIMPLEX_ENTRIES_LOST, "an empty journal", [&] { Engine::resume(config(), {}, 0, stored.stored, {}); });
    expect_error(SIMPLEX_DAMAGED, "a bit turned over", [&] {
        Bytes other = stored.bytes;
        other.back() ^= 1;
        Engine::resume(config(), {}, 0, stored.stored, other);
    });
    expect_error(SIMPLEX_FOREIGN_SIGNER, "another member's journal", [&] {
        Engine::resume(Config(NAMESPACE, 4, 2, 1, Digest{}), {}, 0, stored.stored, stored.bytes);
    });
}

void what_is_stored_has_33_bytes() {
    Engine engine = Engine::start(config(), {}, 0);
    auto bytes = with_a_vote(engine).stored.to_bytes();
    expect(Stored::from_bytes(bytes)->to_bytes() == bytes, "what was stored is read back");
    bytes[32] = 2;
    expect(!Stored::from_bytes(bytes), "a flag that is neither 0 nor 1");
}

void a_moved_engine_has_no_handle() {
    Engine one = Engine::start(config(), {}, 0);
    Engine other = std::move(one);
    expect(!other.state().is_failed && other.view(1).current == 1, "the new one works");
    expect_error(SIMPLEX_NO_HANDLE, "a poll of the old one", [&] { (void)one.poll(0); });
    expect_error(SIMPLEX_NO_HANDLE, "the state of the old one", [&] { one.state(); });
    one = Engine::start(config(), {}, 0);
    expect(one.view(1).current == 1, "the old one is assigned");
}

void refused_inputs_change_nothing() {
    Config it = config();
    it.draws = true;
    Engine engine = Engine::start(it, {}, 0);
    const Vote vote{{Kind::Notarization, {{1, 1}, 0, {}}}, 2, {1}};
    expect_error(SIMPLEX_NO_CALL, "a vote where certificates name leaders", [&] { engine.handle(vote, 0); });
    expect(!engine.state().is_failed, "the engine has not failed");
    expect(!engine.handle(input::Certified{3, true}, 0) && engine.state().ignored == 1, "a verdict that nobody asked for is ignored");
}

void signatures_are_read() {
    const Subject subject{Kind::Nullification, {{1, 7}, 0, {}}};
    const Certificate good{subject, {0, 0, 0, 2, 0, 0, 0, 0, 0, 0, 0, 1, 99}};
    const auto read = good.signatures();
    expect(read && read->size() == 1 && read->at(0).signer == 2 && read->at(0).bytes == Bytes{99}, "one signature");
    Certificate cut = good;
    cut.bytes.pop_back();
    expect(!cut.signatures(), "a cut certificate");
    Certificate twice = good;
    twice.bytes.insert(twice.bytes.end(), good.bytes.begin(), good.bytes.end());
    expect(!twice.signatures(), "one signer twice");
    expect(subject.encoded().size() == 17 && subject.encoded()[0] == 1, "the bytes of a nullification's subject");
}

void a_text_begins_with_its_namespace() {
    const Subject subject{Kind::Nullification, {{1, 2}, 0, {}}};
    for (const Namespace &it : {NAMESPACE, Namespace{{7, 2}}}) {
        Bytes expected(it.bytes.begin(), it.bytes.end());
        const Bytes encoded = subject.encoded();
        expected.insert(expected.end(), encoded.begin(), encoded.end());
        expect(subject.text(it) == expected, "the namespace, and then the subject");
    }
    for (const std::uint8_t last : {1, 2}) {
        Config it = config();
        it.network_namespace = Namespace{{7, last}};
        Engine engine = Engine::start(it, {}, 0);
        engine.handle(input::GivenUp{1, TimeoutReason::Inactivity}, 0);
        bool has_voted = false;
        for (auto output = engine.poll(0); output; output = engine.poll(0)) {
            const auto *order = std::get_if<output::Sign>(&*output);
            has_voted = has_voted || order;
            expect(!order || order->text == order->subject.text(it.network_namespace), "an order in the settings' network");
        }
        expect(has_voted, "a vote is ordered");
    }
}

}  // namespace

int main() {
    expect(is_this_version(), "the header's version");
    const std::string info = build_info();
    expect(info.rfind("proved; commit ", 0) == 0 || info.rfind("unproved; commit ", 0) == 0, "what the library is");
    const std::pair<const char *, void (*)()> tests[] = {
        {"settings are refused by their status", settings_are_refused_by_their_status},
        {"a journal is refused by its status", a_journal_is_refused_by_its_status},
        {"what is stored has 33 bytes", what_is_stored_has_33_bytes},
        {"a moved engine has no handle", a_moved_engine_has_no_handle},
        {"refused inputs change nothing", refused_inputs_change_nothing},
        {"signatures are read", signatures_are_read},
        {"a text begins with its namespace", a_text_begins_with_its_namespace},
    };
    for (const auto &[name, body] : tests) {
        body();
        std::printf("test %s\n", name);
    }
    return failed ? 1 : 0;
}
