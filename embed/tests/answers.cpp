// Each stored answer through the C++ wrappers: strings, or exceptions with their text and place.
#include "oracle.hpp"

extern "C" {
#include "records.h"
}

namespace {

std::string_view view(const std::uint8_t *bytes, std::size_t length) {
    return {reinterpret_cast<const char *>(bytes), length};
}

// The exception of a call, by its place and by what it shows of the text.
template <typename Call> bool is_refused(Call call, std::string_view text, std::string_view answer, unsigned input) {
    try {
        call();
        return false;
    } catch (const souper::refused &refusal) {
        const std::string head = "unknown:" + std::to_string(refusal.line) + ":" + std::to_string(refusal.column) + ": ";
        const std::string message = refusal.message();
        if (!refusal.location) {
            return false;
        }
        const std::string shown = oracle::located(answer, text, *refusal.location);
        return !message.empty() && answer.substr(head.size(), message.size()) == message && answer[head.size() + message.size()] == '\n'
            && refusal.shown() == shown && refusal.what() == shown.substr(0, shown.find('\0')) && refusal.input == input
            && refusal.offset + 1 >= refusal.column && answer.substr(0, head.size()) == head
            && (refusal.at_end || refusal.location->offset == refusal.offset);
    }
}

void refusal(const Record &record, souper::kind kind, std::string_view text, std::string_view answer) {
    expect(is_refused([&] { return souper::format(kind, text); }, text, answer, 0), "the exception of format", &record);
    expect(is_refused([&] { return souper::check(kind, text); }, text, answer, 0), "the exception of check", &record);
    expect(is_refused([&] { return souper::same(kind, text, {}); }, text, answer, 0), "the exception of same, first", &record);
    expect(is_refused([&] { return souper::same(kind, {}, text); }, text, answer, 1), "the exception of same, second", &record);
    if (kind == souper::kind::rep) {
        expect(is_refused([&] { return souper::find(text, "x"); }, text, answer, 0), "the exception of find, the store", &record);
    } else if (kind == souper::kind::lhs) {
        expect(is_refused([&] { return souper::find({}, text); }, text, answer, 1), "the exception of find, the queries", &record);
    }
}

void acceptance(const Record &record, souper::kind kind, std::string_view text, std::string_view answer) {
    expect(souper::format(kind, text) == answer, "its canonical text", &record);
    expect(souper::check(kind, text) == (text == answer), "whether it is canonical", &record);
    expect(souper::check(kind, answer), "that a canonical text is canonical", &record);
    expect(souper::same(kind, text, answer), "that it is the same as its canonical text", &record);
    expect(souper::same(kind, {}, text) == answer.empty(), "whether it is the same as no items", &record);
}

template <typename Call> bool is_not_utf8(Call call, unsigned input) {
    try {
        call();
        return false;
    } catch (const souper::not_utf8 &error) {
        return error.input == input;
    }
}

void bytes() {
    const souper::kind kind = souper::kind::rep;
    expect(souper::format(kind, {}).empty(), "a view without bytes", nullptr);
    expect(souper::check(kind, {}) && souper::same(kind, {}, {}), "questions of a view without bytes", nullptr);
    const std::string_view null(nullptr, 0);
    expect(souper::format(kind, null).empty() && souper::check(kind, null) && souper::same(kind, null, "") && souper::read(kind, null).empty()
               && souper::key(kind, null).empty() && souper::records(kind, null).empty() && souper::find(null, null).empty()
               && souper::find(null, "%x = var infer %x").size() == 1 && souper::decode(kind, null).empty(),
           "null and length 0", nullptr);
    expect(is_not_utf8([&] { return souper::format(kind, "\xff"); }, 0), "no text, format", nullptr);
    expect(is_not_utf8([&] { return souper::check(kind, "\xff"); }, 0), "no text, check", nullptr);
    expect(is_not_utf8([&] { return souper::same(kind, "", "\xff"); }, 1), "no text, same", nullptr);
    expect(is_not_utf8([&] { return souper::find("\xff", "\xff"); }, 0), "no text, find", nullptr);
    expect(is_not_utf8([&] { return souper::find({}, "\xff"); }, 1), "no text, find", nullptr);
    expect(souper::find({}, {}).empty(), "no left-hand sides", nullptr);
}

// Two answers, none, one; and answers that are longer than the first guess at their length.
void found() {
    const std::string store = "%x:i8 = var %y = add %x, %x infer %y %z = shl %x, 1 result %z  %a:i8 = var %b = add %a, %a cand %b 0 "
                              "%x = var infer %x %m = freeze %x %k = freeze %m result %k";
    const auto answers = souper::find(store, "%p:i8 = var %q = add %p, %p infer %q  %p:i8 = var infer %p  %p = var infer %p");
    const std::string first = "%p:i8 = var\n%q = add %p, %p\ninfer %q\n";
    const std::vector<std::vector<std::string>> wanted = {{first + "%2 = shl %p, 1\nresult %2\n", first + "result 0\n"},
                                                          {},
                                                          {"%p = var\ninfer %p\n%1 = freeze %p\n%2 = freeze %1\nresult %2\n"}};
    expect(answers == wanted, "the answers for three left-hand sides", nullptr);
    expect(souper::find("; none", "%p = var infer %p").at(0).empty(), "an empty store", nullptr);
    std::string queries;
    for (int i = 0; i < 300; i++) {
        queries += "%x = var infer %x ";
    }
    const auto many = souper::find(store, queries);
    expect(many.size() == 300 && many.back().size() == 1, "answers that are longer than the first buffer", nullptr);
}

// A text whose answers are longer than the first guess at their length: the buffer is too short at first.
void long_answers() {
    const std::string name(2000, 'n');
    const std::string line = "%" + name + " = var infer %" + name + "x";
    const std::size_t column = line.size() - name.size() - 2;
    const std::string answer = "unknown:1:" + std::to_string(column) + ": no value named '%" + name + "x' in scope\n     |\n   1 | " + line
        + "\n     | " + std::string(column - 1, ' ') + "^";
    expect(is_refused([&] { return souper::format(souper::kind::lhs, line); }, line, answer, 0), "a long refusal", nullptr);
    expect(is_refused([&] { return souper::same(souper::kind::lhs, "", line); }, line, answer, 1), "a long refusal of same", nullptr);
}

// Where a call finds a text at fault; nothing if it does not refuse it.
template <typename Call> std::optional<souper::location> location_of(Call call, unsigned input, bool at_end) {
    try {
        call();
        return std::nullopt;
    } catch (const souper::refused &refusal) {
        return refusal.input == input && refusal.at_end == at_end ? refusal.location : std::nullopt;
    }
}

void located(const char *what, souper::kind kind, std::string_view text, const souper::location &at, bool at_end = false) {
    expect(location_of([&] { souper::format(kind, text); }, 0, at_end) == at, what, nullptr);
    expect(location_of([&] { souper::check(kind, text); }, 0, at_end) == at, what, nullptr);
    expect(location_of([&] { souper::same(kind, text, "x"); }, 0, at_end) == at, what, nullptr);
    expect(location_of([&] { souper::same(kind, "", text); }, 1, at_end) == at, what, nullptr);
    expect(location_of([&] { souper::read(kind, text); }, 0, at_end) == at, what, nullptr);
    expect(location_of([&] { souper::key(kind, text); }, 0, at_end) == at, what, nullptr);
    expect(location_of([&] { souper::records(kind, text, true); }, 0, at_end) == at, what, nullptr);
    if (kind == souper::kind::rep) {
        expect(location_of([&] { souper::find(text, "x"); }, 0, at_end) == at, what, nullptr);
    } else if (kind == souper::kind::lhs) {
        expect(location_of([&] { souper::find("", text); }, 1, at_end) == at, what, nullptr);
    }
}

// Offset, line and column are counted by hand.
void locations() {
    const souper::kind lhs = souper::kind::lhs;
    located("a wrong word on line 2", lhs, "%x = var\n%y = frob %x\ninfer %y", {14, 2, 6});
    located("a second definition", lhs, "%x = var\n%x = var\ninfer %x", {9, 2, 1});
    located("the second item", lhs, "%x = var\ninfer %x\n\n%y = var\ninfer %z\n", {34, 5, 7});
    located("the first byte", lhs, "5", {0, 1, 1});
    located("columns in bytes", lhs, "%x = var ; \u00e9\ninfer\u2003%x 5", {25, 2, 12});
    located("an early end", lhs, "%x = var\ninfer", {14, 2, 6}, true);
    located("an early end, a newline", lhs, "%x = var\ninfer\n", {14, 2, 6}, true);
    located("an early end, blanks", lhs, "%x = var\ninfer \t\n  ", {14, 2, 6}, true);
    located("an early end of right-hand sides", souper::kind::rhs, "result 1\nresult", {15, 2, 7}, true);
    located("an early end of a replacement", souper::kind::rep, "%x = var\ncand %x", {16, 2, 8}, true);
    try {
        souper::format(lhs, "%x = var\n%x = var\ninfer %x");
        expect(false, "the numbers that the refusal shows", nullptr);
    } catch (const souper::refused &refusal) {
        expect(refusal.offset == 9 && refusal.line == 1 && refusal.column == 9, "the numbers that the refusal shows", nullptr);
    }
    for (const auto &[text, shown] : {std::pair("%x = var\r\ninfer %q\r\n", "unknown:2:7: no value named '%q' in scope\n     |\n   2 | infer %q\n     |       ^"),
                                      std::pair("%x = var ; \u00e9\n\n \n", "unknown:1:14: unexpected EOF\n     |\n   1 | %x = var ; \u00e9\n     |              ^")}) {
        try {
            souper::format(lhs, text);
            expect(false, "what a refusal shows", nullptr);
        } catch (const souper::refused &refusal) {
            expect(refusal.what() == std::string_view(shown), "what a refusal shows", nullptr);
        }
    }
    const SouperOutcome outcome = {SOUPER_REFUSED, 0, 5, 1, 1, 1};
    const souper::refused made("shown", outcome);
    expect(!made.location && !made.at_end && made.hint().empty() && made.offset == 1, "an exception without a location", nullptr);
}

// The hint of the refusal of a call, which what it shows has not; a byte 0 if it is not refused.
template <typename Call> std::string hint_of(Call call) {
    try {
        call();
        return std::string(1, '\0');
    } catch (const souper::refused &refusal) {
        const souper::refused copy = refusal;
        return copy.shown().find("hint") == std::string::npos ? copy.hint() : copy.shown();
    }
}

void hinted(const char *text, const char *hint) {
    const souper::kind lhs = souper::kind::lhs;
    expect(hint_of([&] { souper::format(lhs, text); }) == hint, hint, nullptr);
    expect(hint_of([&] { souper::check(lhs, text); }) == hint, hint, nullptr);
    expect(hint_of([&] { souper::same(lhs, text, "x"); }) == hint, hint, nullptr);
    expect(hint_of([&] { souper::same(lhs, "", text); }) == hint, hint, nullptr);
    expect(hint_of([&] { souper::read(lhs, text); }) == hint, hint, nullptr);
    expect(hint_of([&] { souper::key(lhs, text); }) == hint, hint, nullptr);
    expect(hint_of([&] { souper::records(lhs, text, true); }) == hint, hint, nullptr);
    expect(hint_of([&] { souper::find("", text); }) == hint, hint, nullptr);
}

void hints() {
    hinted("%x = var\n%y = ad %x, 1\ninfer %y", "did you mean 'add'?");
    hinted("%x = var\n%left = var\n%left = var\ninfer %left\n", "'%left' is defined on line 2");
    hinted("%x = var\n", "the 'infer' line is missing at the end");
    hinted("%x = var\ninfer %y", "");
    expect(hint_of([] { souper::find("cnd 1 2", ""); }) == "did you mean 'cand'?", "the hint of a store", nullptr);
}

void wrong_kind() {
    try {
        souper::format(static_cast<souper::kind>(7), "");
        expect(false, "the exception of a kind that is none", nullptr);
    } catch (const std::invalid_argument &error) {
        expect(error.what() == std::string("the kind is none"), "the exception of a kind that is none", nullptr);
    }
}

} // namespace

void widths() {
    const auto item = [](std::string_view text) { return souper::read(souper::kind::lhs, text).at(0); };
    const souper::widths typed = souper::widths_of(item("%x:i8 = var  %y = eq %x, 1  infer %y"));
    expect(!typed.why && typed.results == std::vector<std::uint32_t>{8, 1} && typed.operands == std::vector<std::uint32_t>{0, 8},
           "widths", nullptr);
    expect(typed.root == 1, "the width of the root", nullptr);
    const souper::widths flawed = souper::widths_of(item("%x:i8 = var  %y:i9 = add %x, 1  infer %y"));
    expect(flawed.results.empty() && flawed.why && to_string(*flawed.why) == "statement 1 (%y): i8 and i9 clash", "no widths", nullptr);
    souper::error e;
    souper::widths none;
    expect(!souper::try_widths(souper::item{}, none, e) && e.what == souper::status::not_well_formed && e.why.has_value(),
           "the widths of what is not well formed", nullptr);
}

int main(int argc, char **argv) {
    std::size_t count;
    Record *records = read_records(argc == 2 ? argv[1] : "", &count);
    for (std::size_t i = 0; i < count; i++) {
        const Record &record = records[i];
        const auto kind = static_cast<souper::kind>(record.kind);
        const auto text = view(record.text, record.text_length);
        const auto answer = view(record.answer, record.answer_length);
        if (record.status == SOUPER_REFUSED) {
            refusal(record, kind, text, answer);
        } else {
            acceptance(record, kind, text, answer);
        }
    }
    bytes();
    found();
    long_answers();
    locations();
    hints();
    wrong_kind();
    widths();
    free_records(records);
    return summary("C++: the stored answers, exceptions, views without bytes");
}
