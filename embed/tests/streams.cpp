// The reader of streams: a text that comes in parts, however it is cut, gives the items of its segments, and their refusals with the
// places and locations that they have in the text.
//
//     streams RECORDS [N]      N random cuts of a long text, by default 10,000
//     streams lhs|rhs|rep      counts the items and refusals of standard input
#include "souper.hpp"

extern "C" {
#include "records.h"
}

#include <cstdio>
#include <cstdlib>
#include <random>

namespace {

using souper::kind;
using souper::reader;
using souper::status;
using strings = std::vector<std::string>;

std::string numbers(const souper::error &e) {
    std::string all = std::to_string(e.offset) + ":" + std::to_string(e.line) + ":" + std::to_string(e.column);
    if (e.location) {
        all += " at " + std::to_string(e.location->offset) + ":" + std::to_string(e.location->line) + ":" + std::to_string(e.location->column);
    }
    return all + (e.at_end ? " end" : "");
}

std::string told(const souper::error &e) {
    return e.what == status::not_utf8 ? "not UTF-8 " + numbers(e) : "refused " + numbers(e) + "\n" + e.shown;
}

std::string told(kind k, const souper::item &one) {
    std::string text;
    souper::error e;
    return souper::try_write(k, one, text, e) ? text : "no item";
}

// What there is now.
void take(kind k, reader &from, strings &found) {
    for (std::optional<souper::item> one;;) {
        souper::error e;
        const bool done = from.try_next(one, e);
        if (done && !one) {
            return;
        }
        found.push_back(done ? told(k, *one) : told(e));
        if (!done && e.what != status::refused) {
            return;
        }
    }
}

// What comes of a text that is cut before each of these bytes.
strings in_parts(kind k, std::string_view text, const std::vector<std::size_t> &cuts, bool by_segments = false) {
    reader from(k, by_segments);
    strings found;
    std::size_t at = 0;
    souper::error e;
    for (const std::size_t cut : cuts) {
        // After bytes that are not UTF-8 no more are taken.
        static_cast<void>(from.try_push(text.substr(at, cut - at), e));
        at = cut;
        take(k, from, found);
    }
    static_cast<void>(from.try_push(text.substr(at), e));
    from.finish();
    take(k, from, found);
    return found;
}

std::string blank(std::string text) {
    for (char &byte : text) {
        byte = byte == '\n' ? '\n' : ' ';
    }
    return text;
}

// What is to come of it: each segment is read after a text of as many blank bytes and lines as come before it.
strings by_segments(kind k, const std::string &text) {
    strings found;
    for (std::size_t at = 0; at < text.size();) {
        const auto *rest = reinterpret_cast<const std::uint8_t *>(text.data()) + at;
        const SouperOutcome segment = souper_first_segment(static_cast<std::uint32_t>(k), rest, text.size() - at);
        std::vector<souper::item> items;
        souper::error e;
        if (segment.status != SOUPER_DONE) {
            found.emplace_back("not UTF-8");
            break;
        }
        if (souper::try_read(k, blank(text.substr(0, at)) + text.substr(at, segment.length), items, e)) {
            for (const souper::item &one : items) {
                found.push_back(told(k, one));
            }
        } else {
            found.push_back(told(e));
        }
        at += segment.length;
    }
    return found;
}

std::vector<std::size_t> each_byte(std::string_view text) {
    std::vector<std::size_t> cuts;
    for (std::size_t at = 0; at <= text.size(); at++) {
        cuts.push_back(at);
    }
    return cuts;
}

// Valid and invalid items, comments, blank lines and line ends of Windows.
const char *const lhs = "; a comment first\n%x = var\ninfer %x\n\n%y:i8 = var ; \xc3\xa9\r\n%z = add %y, 1\r\npc %z 1\r\ninfer %z\r\n"
                        "%x = var\ninfer %q\n  # no comment\n%a = var\n%b = frob %a\ninfer %b\n%x = var\ninfer\n%x = var infer %x %y = var\n"
                        "infer %y (harvestedFromUse)\n; infer %x\n%x = var\n\n\n; between\n infer %x\n%n = var\n%m = add %n,\n1\ninfer %m";
const char *const rep = "%x = var\ncand %x 1\n%x = var\ninfer %x\n%y = add %x, 1\nresult %y\nresult 2\n%x = var\ncand %x, 3:i8 ; end\n\n";
const char *const rhs = "result 1\nresult 2 result 3\nresult\nresult %x\n%x = var result %x\n\n";

void cuts() {
    const std::pair<kind, std::string> texts[] = {{kind::lhs, lhs}, {kind::rep, rep}, {kind::rhs, rhs}, {kind::rhs, ""},
                                                  {kind::lhs, "; no item"}, {kind::rhs, "result 5"}, {kind::rhs, "\n\nresult"}};
    for (const auto &[k, text] : texts) {
        const strings wanted = by_segments(k, text);
        bool same = true;
        for (std::size_t cut = 0; cut <= text.size(); cut++) {
            same = same && in_parts(k, text, {cut}) == wanted;
        }
        expect(same, "each text in two parts", nullptr);
        expect(in_parts(k, text, {}) == wanted, "a text in one part", nullptr);
        expect(in_parts(k, text, each_byte(text)) == wanted, "a text byte by byte", nullptr);
        expect(in_parts(k, text, each_byte(text), true) == wanted, "a text byte by byte, by segments", nullptr);
        expect(in_parts(k, text, {}, true) == wanted, "a text in one part, by segments", nullptr);
    }
    expect(by_segments(kind::lhs, lhs).size() == 9, "the long text's items and refusals", nullptr);
}

// Each of the splits of a small text.
void splits() {
    const std::string text = "result 1\nresult\n";
    const strings wanted = by_segments(kind::rhs, text);
    bool same = wanted.size() == 2;
    for (std::uint32_t split = 0; split < 1U << (text.size() - 1); split++) {
        std::vector<std::size_t> at;
        for (std::size_t i = 1; i < text.size(); i++) {
            if ((split >> (i - 1) & 1U) != 0) {
                at.push_back(i);
            }
        }
        same = same && in_parts(kind::rhs, text, at) == wanted;
    }
    expect(same, "each split of a small text", nullptr);
}

void random_cuts(unsigned long count) {
    std::string text;
    for (int i = 0; i < 4; i++) {
        text += lhs;
        text += '\n';
    }
    const strings wanted = by_segments(kind::lhs, text);
    std::mt19937 random(7);
    bool same = wanted.size() > 30;
    for (unsigned long i = 0; i < count; i++) {
        std::vector<std::size_t> at;
        const std::size_t parts = random() % 20;
        for (std::size_t part = 0; part < parts; part++) {
            at.push_back(random() % text.size());
        }
        std::sort(at.begin(), at.end());
        same = same && in_parts(kind::lhs, text, at, i % 5 == 0) == wanted;
    }
    expect(same, "random cuts", nullptr);
}

// A segment that begins with the token at fault: the byte before is in the line before. It is that of the whole text.
void fault_first() {
    for (const char *const end : {"\n", "\r\n"}) {
        const std::string text = std::string("%x = var") + end + "infer %x (demandedBits=01)" + end + "result %x" + end;
        std::vector<souper::item> items;
        souper::error e;
        expect(!souper::try_read(kind::lhs, text, items, e), "that it is refused", nullptr);
        const strings found = in_parts(kind::lhs, text, each_byte(text));
        expect(found.size() == 2 && found[1] == told(e), "the place of a fault at the beginning", nullptr);
    }
    std::string many;
    for (int i = 0; i < 12345; i++) {
        many += "result 1\n";
    }
    many += "result )\n";
    std::vector<souper::item> items;
    souper::error e;
    expect(!souper::try_read(kind::rhs, many, items, e), "that a long text is refused", nullptr);
    const strings found = in_parts(kind::rhs, many, {70000, 70001, 100000});
    expect(found.size() == 12346 && found.back() == told(e), "a place with many digits", nullptr);
}

void no_text() {
    const std::string text = "result 1\nresult\nresult 2\n; \xc3\xa9 \xe2\x82\nresult 3\nresult 4\n";
    const strings wanted{"result 1\n\n", "refused 15:2:6 at 15:2:7 end\n", "not UTF-8 30:4:6"};
    bool same = true;
    for (std::size_t cut = 0; cut <= text.size(); cut++) {
        strings found = in_parts(kind::rhs, text, {cut});
        // The reader says so again.
        same = same && found.size() >= 3 && found[0] == wanted[0].substr(0, 9) && found[1].substr(0, 29) == wanted[1].substr(0, 29)
            && found.back() == wanted[2];
    }
    expect(same, "bytes that are not UTF-8", nullptr);
    for (const char *const bad : {"\xff", "\xc0\x80", "\xed\xa0\x80", "\xf4\x90\x80\x80", "\xe0\x80\x80", "\xf0\x80\x80\x80", "\xc3", "\x80"}) {
        expect(in_parts(kind::rhs, std::string(bad) + "\n", {}) == strings{"not UTF-8 0:1:1"}, "no character", nullptr);
    }
    for (const char *const good : {"\xc3\xa9", "\xe2\x82\xac", "\xed\x9f\xbf", "\xf0\x90\x80\x80", "\xf4\x8f\xbf\xbf", "\xe0\xa0\x80"}) {
        const std::string all = std::string("; ") + good + "\n\xff";
        expect(in_parts(kind::rhs, all, each_byte(all)) == strings{"not UTF-8 " + std::to_string(all.size() - 1) + ":2:1"},
               "a character before", nullptr);
    }
    try {
        reader from(kind::rhs);
        from.push("\n\xff");
        from.finish();
        static_cast<void>(from.next());
        expect(false, "an exception", nullptr);
    } catch (const souper::not_utf8 &error) {
        expect(error.offset == 1 && error.line == 2 && error.what() == std::string("line 2: not UTF-8 at byte 1"), "what it says", nullptr);
    }
}

// A part after the end, in both forms.
void after_the_end(reader &from) {
    souper::error e;
    expect(!from.try_push("more", e) && e.what == status::stream_ended && e.message == "the stream has ended",
           "a part after the end", nullptr);
    try {
        from.push("more");
        expect(false, "an exception after the end", nullptr);
    } catch (const std::logic_error &error) {
        expect(error.what() == std::string("the stream has ended"), "an exception after the end", nullptr);
    }
}

void ends() {
    reader finished(kind::rhs);
    souper::error e;
    expect(finished.try_push("result 1", e) && e.what == status::done, "a part before the end", nullptr);
    finished.push({nullptr, 0});
    finished.finish();
    after_the_end(finished);
    expect(finished.next() && !finished.next(), "what came before the end", nullptr);
    after_the_end(finished);
    reader damaged(kind::rhs);
    std::optional<souper::item> one;
    damaged.push("result 1\nresult 2\n\xff\n");
    expect(damaged.next() && !damaged.try_next(one, e) && e.what == status::not_utf8 && e.message == "line 3: not UTF-8 at byte 18",
           "no UTF-8", nullptr);
    after_the_end(damaged);
    expect(!damaged.try_next(one, e) && e.what == status::not_utf8, "the same again", nullptr);
}

// A loop takes the items that are there, and another one those that follow.
void loops() {
    reader from(kind::rhs);
    strings found;
    const auto all = [&] {
        for (;;) {
            try {
                for (souper::item &one : from) {
                    found.push_back(souper::write(std::move(one)));
                }
                return;
            } catch (const souper::refused &refusal) {
                found.push_back(std::to_string(from.line()) + ": " + refusal.message());
            }
        }
    };
    all();
    from.push("result\nresult 1\nresult 2\nresult %x\nres");
    all();
    expect(found == strings{"1: unexpected EOF", "result 1\n", "result 2\n"}, "a loop", nullptr);
    from.push("ult 3");
    from.finish();
    all();
    all();
    expect(found.size() == 5 && found[3] == "4: unknown value '%x'" && found[4] == "result 3\n", "another loop", nullptr);
    reader again(kind::rhs);
    again.push("result 1\nresult 2\nresult 3");
    again.finish();
    std::size_t count = 0;
    for (auto at = again.begin(); at != again.end(); at++) {
        count += at->statements.empty();
    }
    expect(count == 3, "its iterators", nullptr);
}

// The form with exceptions, and where the last part began.
void next() {
    reader from(kind::lhs, true);
    from.push("; first\n%x = var\ninfer %x\n\n; second\n %y = var\ninfer %z\n%z = var\ninfer %z\n%");
    const auto first = from.next();
    expect(first && first->statements.size() == 1 && from.offset() == 8 && from.line() == 2, "the first item", nullptr);
    try {
        static_cast<void>(from.next());
        expect(false, "an exception", nullptr);
    } catch (const souper::refused &refusal) {
        expect(refusal.location == souper::location{52, 7, 7} && refusal.line == 7 && from.offset() == 37 && from.line() == 6,
               "the place of a refusal", nullptr);
    }
    expect(!from.next(), "that more is wanted", nullptr);
    from.finish();
    try {
        static_cast<void>(from.next());
        expect(false, "an exception at the end", nullptr);
    } catch (const souper::refused &refusal) {
        expect(refusal.location && refusal.location->line == 10, "the rest is refused with the last item", nullptr);
        expect(refusal.hint().empty(), "no hint", nullptr);
    }
    expect(!from.next() && !from.next(), "the end", nullptr);
    reader none(static_cast<kind>(3));
    none.push("\n");
    souper::error e;
    std::optional<souper::item> one;
    expect(!none.try_next(one, e) && e.what == status::no_kind, "no kind", nullptr);
    none.finish();
    expect(!none.try_next(one, e) && e.what == status::no_kind, "no kind at the end", nullptr);
}

// A hint names lines of the stream.
void hints() {
    for (const bool by_segments : {false, true}) {
        reader from(kind::lhs, by_segments);
        std::optional<souper::item> one;
        souper::error e;
        from.push("%x = var\ninfer %x\n\n%x = var\n%left = var\n%left = var\ninfer %left\n%y = ad 1, 2\n%left = var\n%left = var\ninfer %left\n");
        from.finish();
        expect(from.try_next(one, e) && one && e.hint.empty(), "an item before hints", nullptr);
        expect(!from.try_next(one, e) && e.hint == "'%left' is defined on line 5", "the line of a hint", nullptr);
        expect(!from.try_next(one, e) && e.hint == "did you mean 'add'?", "a hint without a line", nullptr);
        expect(from.try_next(one, e) && !one && e.hint.empty(), "the end after hints", nullptr);
    }
}

// The stored answers of one kind, one after the other: as many items as in the texts alone, if these are valid.
void answers(const Record *records, std::size_t count) {
    for (const kind k : {kind::lhs, kind::rhs, kind::rep}) {
        std::string text;
        for (std::size_t i = 0; i < count; i++) {
            if (records[i].kind == static_cast<std::uint32_t>(k)) {
                text.append(reinterpret_cast<const char *>(records[i].text), records[i].text_length).append("\n");
            }
        }
        const strings wanted = by_segments(k, text);
        std::mt19937 random(3);
        std::vector<std::size_t> at;
        for (std::size_t cut = 0; cut < text.size(); cut += 1 + random() % 60) {
            at.push_back(cut);
        }
        const strings found = in_parts(k, text, at);
        expect(found.size() > 50 && found == wanted, "the stored texts as a stream", nullptr);
    }
}

int count(kind k) {
    static char part[65536];
    reader from(k);
    std::size_t items = 0, refusals = 0;
    const auto all = [&] {
        for (std::optional<souper::item> one;;) {
            souper::error e;
            if (!from.try_next(one, e)) {
                refusals++;
            } else if (one) {
                items++;
            } else {
                return;
            }
        }
    };
    for (std::size_t got; (got = std::fread(part, 1, sizeof part, stdin)) > 0; all()) {
        from.push({part, got});
    }
    from.finish();
    all();
    std::printf("%zu items, %zu refusals\n", items, refusals);
    return 0;
}

} // namespace

int main(int argc, char **argv) {
    const std::string_view word = argc > 1 ? argv[1] : "";
    if (word == "lhs" || word == "rhs" || word == "rep") {
        return count(word == "lhs" ? kind::lhs : word == "rhs" ? kind::rhs : kind::rep);
    }
    std::size_t stored;
    Record *records = read_records(argv[1], &stored);
    cuts();
    splits();
    random_cuts(argc > 2 ? std::strtoul(argv[2], nullptr, 10) : 10000);
    fault_first();
    no_text();
    next();
    hints();
    ends();
    loops();
    answers(records, stored);
    free_records(records);
    return summary("C++: streams");
}
