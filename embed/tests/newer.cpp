// A library of a later version, whose statuses, reasons, locations and operations souper.hpp does not know. The calls are here, so
// nothing of the archive is linked.
#include "souper.hpp"

extern "C" {
#include "records.h"
}

#include <cstring>

namespace {

// What the calls return and write.
SouperOutcome outcome;
SouperFlaw flaw_found;
SouperLocation location;
SouperOutcome hinted;
std::string output, meant;

SouperOutcome answer(std::uint8_t *out, std::size_t room) {
    std::memcpy(out, output.data(), std::min(output.size(), room));
    return outcome;
}

} // namespace

extern "C" {

std::uint32_t souper_version() { return 3000000; }

SouperOutcome souper_format(std::uint32_t, const std::uint8_t *, std::size_t, std::uint8_t *out, std::size_t room) {
    return answer(out, room);
}

SouperOutcome souper_read(std::uint32_t, const std::uint8_t *, std::size_t, std::uint8_t *out, std::size_t room) {
    return answer(out, room);
}

SouperOutcome souper_write(std::uint32_t, const std::uint8_t *, std::size_t, std::uint8_t *out, std::size_t room) {
    return answer(out, room);
}

SouperOutcome souper_key(std::uint32_t, std::uint32_t, const std::uint8_t *, std::size_t, std::uint8_t *out, std::size_t room) {
    return answer(out, room);
}

SouperOutcome souper_find(const std::uint8_t *, std::size_t, const std::uint8_t *, std::size_t, std::uint8_t *out, std::size_t room) {
    return answer(out, room);
}

SouperOutcome souper_check(std::uint32_t, const std::uint8_t *, std::size_t) { return outcome; }

SouperOutcome souper_same(std::uint32_t, const std::uint8_t *, std::size_t, const std::uint8_t *, std::size_t) { return outcome; }

SouperOutcome souper_last_cut(std::uint32_t, const std::uint8_t *, std::size_t) { return outcome; }

SouperOutcome souper_first_segment(std::uint32_t, const std::uint8_t *, std::size_t) { return outcome; }

SouperFlaw souper_flaw(std::uint32_t, const std::uint8_t *, std::size_t) { return flaw_found; }

SouperLocation souper_locate(std::uint32_t, const std::uint8_t *, std::size_t) { return location; }

SouperOutcome souper_hint(std::uint32_t, std::size_t, const std::uint8_t *, std::size_t, std::uint8_t *out, std::size_t room) {
    std::memcpy(out, meant.data(), std::min(meant.size(), room));
    return hinted;
}

} // extern "C"

namespace {

using souper::error;
using souper::item;
using souper::kind;
using souper::status;

const item one{{souper::assignment{"%x"}}, souper::infer{souper::id{0}}};

// A call in both forms: what is not done, and why.
template <typename Try, typename Call> void is_unknown(const char *what, const std::string &text, Try attempt, Call call) {
    error e;
    expect(!attempt(e) && e.what == static_cast<status>(outcome.status) && e.message == "the library returned the status " + text,
           what, nullptr);
    try {
        call();
        expect(false, what, nullptr);
    } catch (const std::runtime_error &thrown) {
        expect(thrown.what() == e.message, what, nullptr);
    }
}

void statuses(std::uint32_t number, const std::string &text) {
    outcome = {number, 0, 0, 0, 0, 0};
    std::string out;
    std::vector<item> items;
    std::vector<souper::record> records;
    std::vector<std::vector<std::string>> answers;
    bool yes = false;
    is_unknown("format", text, [&](error &e) { return souper::try_format(kind::lhs, "", out, e); }, [] { souper::format(kind::lhs, ""); });
    is_unknown("read", text, [&](error &e) { return souper::try_read(kind::lhs, "", items, e); }, [] { souper::read(kind::lhs, ""); });
    is_unknown("write", text, [&](error &e) { return souper::try_write(one, out, e); }, [] { souper::write(one); });
    is_unknown("key", text, [&](error &e) { return souper::try_key(kind::lhs, "", souper::flags::key, out, e); },
               [] { souper::key(kind::lhs, ""); });
    is_unknown("records", text, [&](error &e) { return souper::try_records(kind::lhs, "", true, records, e); },
               [] { souper::records(kind::lhs, ""); });
    is_unknown("find", text, [&](error &e) { return souper::try_find("", "", answers, e); }, [] { souper::find("", ""); });
    is_unknown("check", text, [&](error &e) { return souper::try_check(kind::lhs, "", yes, e); }, [] { souper::check(kind::lhs, ""); });
    is_unknown("same", text, [&](error &e) { return souper::try_same(kind::lhs, "", "", yes, e); }, [] { souper::same(kind::lhs, "", ""); });
    for (const bool by_segments : {false, true}) {
        souper::reader from(kind::lhs, by_segments);
        std::optional<item> next;
        from.push("infer\n");
        from.finish();
        is_unknown("next", text, [&](error &e) { return from.try_next(next, e); }, [&] { from.next(); });
    }
}

// What is shown of an item with such a flaw.
void shows(std::uint32_t at, std::uint32_t reason, std::size_t position, const std::string &shown) {
    flaw_found = {SOUPER_NOT_WELL_FORMED, at, reason, position};
    error e;
    std::string out;
    expect(!souper::try_write(one, out, e) && e.what == status::not_well_formed && e.why, shown.c_str(), nullptr);
    expect(static_cast<std::uint32_t>(e.why->location) == at && static_cast<std::uint32_t>(e.why->reason) == reason, "its numbers", nullptr);
    expect(e.message == "item 0 is not well formed: " + shown, shown.c_str(), nullptr);
}

void flaws() {
    outcome = {SOUPER_NOT_WELL_FORMED, 0, 0, 0, 0, 0};
    shows(SOUPER_AT_STATEMENT, SOUPER_ZERO_WIDTH, 0, "statement 0 (%x): a width is 0");
    for (const std::uint32_t number : {0U, 10U, 999U, 1007U, UINT32_MAX}) {
        shows(SOUPER_AT_STATEMENT, number, 0, "statement 0 (%x): unknown(" + std::to_string(number) + ")");
        shows(SOUPER_AT_RESULT, number, 0, "result line: unknown(" + std::to_string(number) + ")");
    }
    for (const std::uint32_t number : {0U, 5U, 1000U, UINT32_MAX}) {
        shows(number, SOUPER_ZERO_WIDTH, 3, "unknown(" + std::to_string(number) + "): a width is 0");
        shows(number, 77, 3, "unknown(" + std::to_string(number) + "): unknown(77)");
    }
    shows(SOUPER_AT_STATEMENT, SOUPER_ZERO_WIDTH, 1, "statement 1: a width is 0");
    shows(SOUPER_AT_STATEMENT, SOUPER_ZERO_WIDTH, SIZE_MAX, "statement " + std::to_string(SIZE_MAX) + ": a width is 0");
}

// An item or a place that is not there, and a flaw that is not told.
void places() {
    error e;
    std::string out;
    for (const std::size_t number : {std::size_t{1}, std::size_t{1000}, SIZE_MAX}) {
        flaw_found = {SOUPER_NOT_WELL_FORMED, SOUPER_AT_INFER, SOUPER_ZERO_WIDTH, 0};
        outcome = {SOUPER_NOT_WELL_FORMED, 0, number, 0, 0, 0};
        expect(!souper::try_write(one, out, e) && e.index == number && !e.why, "no such item", nullptr);
        outcome = {SOUPER_NOT_WELL_FORMED, 0, 0, 1000 + number / 2, 0, 0};
        expect(!souper::try_write(one, out, e) && e.message == "item 0 is not well formed" && !e.why, "no such place", nullptr);
    }
    outcome = {SOUPER_NOT_WELL_FORMED, 0, 0, 0, 0, 0};
    flaw_found.status = 77;
    expect(!souper::try_write(one, out, e) && e.message == "item 0 is not well formed" && !e.why, "a flaw of another status", nullptr);
    outcome.status = SOUPER_NO_CODE;
    expect(!souper::try_write(one, out, e) && e.what == status::not_well_formed && !e.why, "another code", nullptr);
}

// Refusals that are shown in another form, without a location and without a hint.
void refusals() {
    location = {77, 1, 1, 1, 1};
    meant = "no";
    hinted = {77, 1, meant.size(), 1, 1, 1};
    for (const char *const shown : {"", "x", "a: b", "\n", "\n\n\n", "a: b\n\n\n", "unknown:1:1: no\n     |\n   1 | x\n     | ^"}) {
        output = shown;
        outcome = {SOUPER_REFUSED, 0, output.size(), 1, 1, 1};
        error e;
        std::vector<item> items;
        expect(!souper::try_read(kind::lhs, "x", items, e) && e.shown == output && !e.location && !e.at_end && e.hint.empty(),
               "a refusal without a location", nullptr);
        expect(output.find("no") == std::string::npos || e.message == "no", "its message", nullptr);
        expect(output != "a: b\n\n\n" || e.message == "b", "a short message", nullptr);
    }
    location = {SOUPER_REFUSED, 1, 4, 2, 3};
    hinted.status = SOUPER_REFUSED;
    error e;
    std::vector<item> items;
    expect(!souper::try_read(kind::lhs, "x\nyz\r\n", items, e) && e.shown == "unknown:2:3: no\n     |\n   2 | yz\n     |   ^" && e.at_end
               && e.hint == "no",
           "a refusal with a location and a hint", nullptr);
}

void operations() {
    std::string code = {1, 0, 0, 0, 0, 0, 0, 0, 0, 2, 0, 0, 0, 0, 0, 0, 0, '%', 'x', 0, 5, 59, 0, 0, 0, 0, 0, 0, 0, 0};
    code.append(8 + 1 + 8 + 8, '\0');
    output = code;
    outcome = {SOUPER_DONE, 0, code.size(), 0, 0, 0};
    error e;
    std::vector<item> items;
    expect(!souper::try_read(kind::lhs, "", items, e) && e.what == status::no_code && items.empty(), "an operation", nullptr);
    expect(e.message == "at byte 0 is the code of no item: statement 0 (%x): unknown(59) is no operation", "its number", nullptr);
    output[21] = static_cast<char>(souper::op::hole);
    expect(souper::try_read(kind::lhs, "", items, e) && items.size() == 1, "the same with an operation of these headers", nullptr);
}

} // namespace

int main() {
    for (const std::uint32_t number : {11U, 77U, 999U, 1002U, UINT32_MAX}) {
        statuses(number, "unknown(" + std::to_string(number) + ")");
    }
    flaws();
    places();
    refusals();
    operations();
    return summary("C++: numbers of a later library");
}
