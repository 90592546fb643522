// The form without exceptions, in code that is compiled without them and without RTTI: what each call gives, and each error.
#include "souper.hpp"

extern "C" {
#include "records.h"
}

#if defined(__cpp_exceptions) || defined(__cpp_rtti)
#error "compile this with -fno-exceptions -fno-rtti"
#endif

namespace {

using souper::error;
using souper::item;
using souper::kind;
using souper::status;

const char *const text = "%unused = var %x:i8 = var %y = add %x, 1 infer %y";
const char *const canonical = "%x:i8 = var\n%y = add %x, 1\ninfer %y\n\n";

bool is_none(const error &e) {
    return e.what == status::done && e.input == 0 && e.index == 0 && e.offset == 0 && e.line == 0 && e.column == 0
        && e.shown.empty() && !e.why && !e.location && !e.at_end && e.message.empty() && e.hint.empty();
}

void done() {
    error e;
    std::string out, code;
    std::vector<item> items, again;
    std::vector<souper::record> records;
    bool yes = false;
    expect(souper::try_format(kind::lhs, text, out, e) && is_none(e) && out == canonical, "format", nullptr);
    expect(souper::try_check(kind::lhs, out, yes, e) && is_none(e) && yes, "check, yes", nullptr);
    expect(souper::try_check(kind::lhs, text, yes, e) && is_none(e) && !yes, "check, no", nullptr);
    expect(souper::try_same(kind::lhs, out, text, yes, e) && is_none(e) && yes, "same, yes", nullptr);
    expect(souper::try_same(kind::lhs, out, "", yes, e) && is_none(e) && !yes, "same, no", nullptr);
    expect(souper::try_read(kind::lhs, text, items, e) && is_none(e) && items.size() == 1, "read", nullptr);
    expect(souper::try_write(kind::lhs, items, out, e) && is_none(e) && out == canonical, "write", nullptr);
    expect(souper::try_write(kind::lhs, items[0], out, e) && is_none(e) && out == canonical, "write, one", nullptr);
    expect(souper::try_write(items[0], out, e) && is_none(e) && out == canonical, "write, one of its kind", nullptr);
    expect(souper::try_encode(items, code, e) && is_none(e), "encode", nullptr);
    expect(souper::try_decode(kind::lhs, code, again, e) && is_none(e) && again == items, "decode", nullptr);
    expect(souper::try_canonical(kind::lhs, items, items, e) && is_none(e) && items[0].statements.size() == 2,
           "canonical, in place", nullptr);
    expect(souper::try_format(kind::lhs, out, out, e) && is_none(e) && out == canonical, "format, in place", nullptr);
    expect(souper::try_key(kind::lhs, text, souper::flags::none, out, e) && is_none(e) && out == canonical, "key", nullptr);
    expect(souper::try_records(kind::lhs, text, false, records, e) && is_none(e) && records.size() == 1, "records", nullptr);
    expect(records[0].text + "\n" == canonical && records[0].key.size() == 64, "a record", nullptr);
    std::vector<std::vector<std::string>> answers;
    expect(souper::try_find("%x = var infer %x result 1", "%y = var infer %y", answers, e) && is_none(e) && answers.size() == 1
               && answers[0] == std::vector<std::string>{"%y = var\ninfer %y\nresult 1\n"},
           "find", nullptr);
}

void refused() {
    const std::string bad = "%val = var\npc %va 1";
    error e;
    std::string out = "before";
    std::vector<item> items(1);
    std::vector<souper::record> records(1);
    bool yes = true;
    expect(!souper::try_format(kind::lhs, bad, out, e) && out.empty() && e.what == status::refused, "format", nullptr);
    const error wanted = e;
    expect(wanted.offset > 0 && wanted.line == 2 && wanted.column > 0
               && wanted.shown == "unknown:2:4: unknown value '%va'\n     |\n   2 | pc %va 1\n     |    ^",
           "what a refusal shows", nullptr);
    expect(wanted.message == "unknown value '%va'" && souper::to_string(wanted) == wanted.shown, "its message", nullptr);
    expect(wanted.location == souper::location{14, 2, 4} && !wanted.at_end, "its location", nullptr);
    expect(wanted.hint == "did you mean '%val'?", "its hint", nullptr);
    const auto is_wanted = [&wanted](const error &got, unsigned input) {
        return got.what == wanted.what && got.input == input && got.index == 0 && got.offset == wanted.offset
            && got.line == wanted.line && got.column == wanted.column && got.shown == wanted.shown
            && got.location == wanted.location && got.at_end == wanted.at_end && got.message == wanted.message && got.hint == wanted.hint;
    };
    expect(!souper::try_check(kind::lhs, bad, yes, e) && is_wanted(e, 0) && !yes, "check, refused", nullptr);
    expect(!souper::try_same(kind::lhs, bad, "", yes, e) && is_wanted(e, 0), "same, refused first", nullptr);
    expect(!souper::try_same(kind::lhs, "", bad, yes, e) && is_wanted(e, 1), "same, refused second", nullptr);
    expect(!souper::try_read(kind::lhs, bad, items, e) && is_wanted(e, 0) && items.empty(), "read, refused", nullptr);
    expect(!souper::try_key(kind::lhs, bad, souper::flags::key, out, e) && is_wanted(e, 0) && out.empty(), "key, refused",
           nullptr);
    expect(!souper::try_records(kind::lhs, bad, true, records, e) && is_wanted(e, 0) && records.empty(), "records, refused",
           nullptr);
    std::vector<std::vector<std::string>> answers(1);
    expect(!souper::try_find("", bad, answers, e) && is_wanted(e, 1) && answers.empty(), "find, refused queries", nullptr);
    expect(!souper::try_find("infer", bad, answers, e) && e.what == status::refused && e.input == 0 && e.at_end, "find, a refused store",
           nullptr);
    expect(!souper::try_read(kind::lhs, "%x = var\ninfer \n", items, e) && e.location == souper::location{14, 2, 6} && e.at_end,
           "read, an early end", nullptr);
}

void other_errors() {
    const auto none = static_cast<kind>(3);
    error e;
    std::string out;
    std::vector<item> items;
    bool yes = true;
    expect(!souper::try_format(none, text, out, e) && e.what == status::no_kind, "format, no kind", nullptr);
    expect(!souper::try_read(none, text, items, e) && e.what == status::no_kind, "read, no kind", nullptr);
    expect(!souper::try_write(none, items, out, e) && e.what == status::no_kind, "write, no kind", nullptr);
    expect(!souper::try_decode(none, "", items, e) && e.what == status::no_kind, "decode, no kind", nullptr);
    expect(!souper::try_key(none, text, souper::flags::key, out, e) && e.what == status::no_kind, "key, no kind", nullptr);
    expect(!souper::try_key(kind::lhs, text, static_cast<souper::flags>(8), out, e) && e.what == status::no_flags,
           "key, no flags", nullptr);
    expect(!souper::try_read(kind::lhs, "\xff", items, e) && e.what == status::not_utf8 && e.input == 0, "read, not UTF-8",
           nullptr);
    expect(!souper::try_same(kind::lhs, "", "\xff", yes, e) && e.what == status::not_utf8 && e.input == 1, "same, not UTF-8",
           nullptr);
    souper::builder b;
    items.push_back(b.infer(b.var("x")));
    items.push_back(b.infer(b.var("x", 70000)));
    expect(!souper::try_encode(items, out, e) && e.what == status::not_well_formed && e.index == 1, "encode, no code", nullptr);
    expect(e.message == "item 1 is not well formed: statement 0 (%x): a width is over 65535", "what it says", nullptr);
    expect(!souper::try_write(kind::lhs, items, out, e) && e.what == status::not_well_formed && e.index == 1, "write, no code",
           nullptr);
    items[1] = b.infer(b.var("x y"));
    expect(!souper::try_write(kind::lhs, items, out, e) && e.what == status::not_well_formed && e.index == 1, "write, no name",
           nullptr);
    expect(souper::try_encode({items[0]}, out, e) && !souper::try_decode(kind::rhs, out, items, e) && e.what == status::no_code
               && e.index == 0,
           "decode, another kind", nullptr);
}

void streams() {
    souper::reader from(kind::rhs);
    error e;
    std::optional<item> one;
    from.push("result 1\nresult\nresult 2\nresult 3\n\xff\n");
    expect(from.try_next(one, e) && is_none(e) && one && from.line() == 1, "an item of a stream", nullptr);
    expect(!from.try_next(one, e) && e.what == status::refused && !one && e.location == souper::location{15, 2, 7} && e.at_end,
           "an invalid segment", nullptr);
    expect(from.try_next(one, e) && is_none(e) && one, "the item after it", nullptr);
    for (int again = 0; again < 2; again++) {
        expect(!from.try_next(one, e) && e.what == status::not_utf8 && e.offset == 34 && e.line == 5 && e.column == 1 && e.shown.empty(),
               "bytes that are not UTF-8", nullptr);
    }
    souper::reader ended(kind::rhs);
    expect(ended.try_push("result 1", e) && is_none(e), "a push", nullptr);
    ended.finish();
    ended.push("0");
    expect(!ended.try_push("0", e) && e.what == status::stream_ended && e.message == "the stream has ended",
           "a push after the end", nullptr);
    expect(ended.try_next(one, e) && is_none(e) && one == item{{}, souper::result{souper::constant{1}}}, "the last item", nullptr);
    expect(ended.try_next(one, e) && is_none(e) && !one, "the end", nullptr);
}

void passes() {
    using pairs = std::vector<std::pair<souper::id, souper::operand>>;
    souper::builder b;
    const auto x = b.var("x"), y = b.inst(souper::op::freeze, {x}, "y"), z = b.inst(souper::op::freeze, {y}, "z");
    item i = b.infer(z);
    const item before = i;
    error e;
    expect(!souper::try_replace_uses(i, pairs{{y, z}, {z, y}}, e) && e.what == status::cycle && e.index == 1 && i == before
               && e.message == "statement 1: the replacements of a value come back to it",
           "replacements that have a cycle", nullptr);
    expect(souper::try_replace_uses(i, pairs{{z, y}, {y, x}}, e) && is_none(e) && i.last == souper::last_lines(souper::infer{x}),
           "values that are replaced at once", nullptr);
    expect(souper::insert_before(i, x, souper::assignment{"%first"}).position == 0 && souper::sort(i).size() == 4
               && souper::move_before(i, souper::id{0}, souper::id{4}).position == 3 && souper::users(i).of(x).size() == 2,
           "statements that are inserted and moved", nullptr);
}

} // namespace

int main() {
    done();
    refused();
    other_errors();
    streams();
    passes();
    return summary("C++ without exceptions");
}
