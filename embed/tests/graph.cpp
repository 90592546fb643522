// Each stored answer as values: read, coded, written, and its canonical items and records. Items that are built, by their texts.
#include "oracle.hpp"

extern "C" {
#include "records.h"
}

#include <algorithm>
#include <fstream>
#include <sstream>
#include <string>
#include <unordered_set>

namespace {

using souper::constant;
using souper::id;
using souper::item;
using souper::kind;
using souper::op;

std::string_view view(const std::uint8_t *bytes, std::size_t length) {
    return {reinterpret_cast<const char *>(bytes), length};
}

// What souper_read writes.
std::string code_of(kind k, std::string_view text) {
    std::string code(16 * text.size() + 64, '\xaa');
    const SouperOutcome outcome = souper_read(static_cast<std::uint32_t>(k), reinterpret_cast<const std::uint8_t *>(text.data()),
                                              text.size(), reinterpret_cast<std::uint8_t *>(code.data()), code.size());
    code.resize(outcome.status == SOUPER_DONE ? outcome.length : 0);
    return code;
}

// Each use is of an assignment before its user.
bool uses_lie_before(const item &i) {
    bool all = true;
    for (std::size_t position = 0; position < i.statements.size(); position++) {
        souper::for_each_use(i.statements[position],
                             [&](id used) { all = all && used.position < position && i.at(used) != nullptr; });
    }
    return all;
}

// The records of a text in one string, out of the list of its records.
std::string joined(const std::vector<souper::record> &records, bool with_null) {
    std::string all;
    for (const auto &record : records) {
        all += "; " + record.key + "\n" + record.text;
        all += with_null ? std::string(1, '\0') : "\n";
    }
    return all;
}

void keys(const Record &record, kind k, std::string_view text, std::string_view answer) {
    const auto records = souper::records(k, text);
    std::string texts;
    for (const auto &one : records) {
        texts += one.text + "\n";
    }
    expect(texts == answer, "the texts of its records", &record);
    expect(souper::key(k, text) == joined(records, false), "its keys", &record);
    expect(souper::key(k, text, souper::flags::key | souper::flags::null) == joined(records, true), "its keys with nulls",
           &record);
    const auto renamed = souper::records(k, text, true);
    expect(renamed.size() == records.size(), "the number of its renamed records", &record);
    expect(souper::key(k, text, souper::flags::key | souper::flags::rename) == joined(renamed, false), "its renamed keys",
           &record);
}

// The statements of a canonical item, each printed by itself, are lines of its text, in order.
bool statements_are_lines(const item &i, std::string_view text) {
    std::size_t next = 0;
    while (!text.empty()) {
        const std::string_view line = text.substr(0, text.find('\n'));
        text.remove_prefix(std::min(line.size() + 1, text.size()));
        if (next < i.statements.size() && line == souper::statement_text(i.statements, id{next})) {
            next++;
        }
    }
    return next == i.statements.size();
}

void acceptance(const Record &record, kind k, std::string_view text, std::string_view answer) {
    const std::string code = code_of(k, text);
    const auto items = souper::read(k, text);
    expect(souper::encode(items) == code, "the code of its values", &record);
    const auto decoded = souper::decode(k, code);
    expect(decoded == items && !(decoded != items), "the values of its code", &record);
    for (std::size_t i = 0; i < items.size(); i++) {
        expect(souper::kind_of(items[i]) == k && uses_lie_before(items[i]), "an item", &record);
        expect(std::hash<item>()(items[i]) == std::hash<item>()(decoded.at(i)), "its hash", &record);
    }
    expect(souper::write(k, items) == answer, "the text of its values", &record);
    const auto canonical = souper::canonical(k, items);
    expect(canonical == souper::read(k, answer), "its canonical items", &record);
    expect(souper::canonical(k, canonical) == canonical, "the canonical items of canonical items", &record);
    std::string one_by_one;
    for (std::size_t i = 0; i < items.size(); i++) {
        expect(souper::canonical(k, items[i]) == canonical[i], "a canonical item", &record);
        expect(statements_are_lines(canonical[i], souper::write(k, canonical[i])), "the lines of its statements", &record);
        one_by_one += souper::write(k, items[i]);
    }
    expect(one_by_one == answer, "the texts of its items", &record);
    keys(record, k, text, answer);
}

template <typename Call> bool is_refused(Call call, std::string_view text, std::string_view answer) {
    try {
        call();
        return false;
    } catch (const souper::refused &refusal) {
        return refusal.location && refusal.shown() == oracle::located(answer, text, *refusal.location) && refusal.input == 0;
    }
}

void refusal(const Record &record, kind k, std::string_view text, std::string_view answer) {
    expect(is_refused([&] { return souper::read(k, text); }, text, answer), "the exception of read", &record);
    expect(is_refused([&] { return souper::key(k, text); }, text, answer), "the exception of key", &record);
    expect(is_refused([&] { return souper::records(k, text, true); }, text, answer), "the exception of records", &record);
}

// Long texts, which are read and written part by part.

struct many {
    std::string text, answer;
    std::vector<item> items;
};

many many_of(kind k, const Record *records, std::size_t count) {
    many all;
    while (all.text.size() < 200000) {
        for (std::size_t i = 0; i < count; i++) {
            if (records[i].status == SOUPER_DONE && static_cast<kind>(records[i].kind) == k) {
                const auto text = view(records[i].text, records[i].text_length);
                all.text.append(text).append("\n");
                all.answer.append(view(records[i].answer, records[i].answer_length));
                for (item &one : souper::read(k, text)) {
                    all.items.push_back(std::move(one));
                }
            }
        }
    }
    return all;
}

// What souper_format writes for a text that is refused.
std::string refusal_of(kind k, const std::string &text) {
    std::string out(2 * text.size(), '\0');
    const SouperOutcome outcome = souper_format(static_cast<std::uint32_t>(k), oracle::bytes(text), text.size(),
                                                reinterpret_cast<std::uint8_t *>(out.data()), out.size());
    out.resize(outcome.status == SOUPER_REFUSED ? outcome.length : 0);
    return out;
}

void in_parts(kind k, const Record *records, std::size_t count) {
    const many all = many_of(k, records, count);
    expect(souper::read(k, all.text) == all.items && souper::format(k, all.text) == all.answer, "a long text", nullptr);
    expect(souper::write(k, all.items) == all.answer && souper::decode(k, souper::encode(all.items)) == all.items, "many items", nullptr);
    const auto records_of = souper::records(k, all.text);
    std::string texts;
    for (const auto &one : records_of) {
        texts += one.text + "\n";
    }
    expect(texts == all.answer && souper::key(k, all.text) == joined(records_of, false), "the records of a long text", nullptr);
    for (const char *const end : {"infer", "%x = var", "%x = add 1"}) {
        const std::string bad = all.text + end, shown = refusal_of(k, bad);
        expect(is_refused([&] { return souper::read(k, bad); }, bad, shown), "read of a long text that is refused", nullptr);
        expect(is_refused([&] { return souper::format(k, bad); }, bad, shown), "format of a long text that is refused", nullptr);
        expect(is_refused([&] { return souper::records(k, bad); }, bad, shown), "records of a long text that is refused", nullptr);
    }
    souper::error e;
    std::string out;
    expect(!souper::try_format(k, all.text + "infer \xff", out, e) && e.what == souper::status::not_utf8, "a long text that is not UTF-8",
           nullptr);
    // The first item that has no text is told, be it one that has no code.
    auto items = all.items;
    const item ill_formed{{}, souper::infer{id{0}}}, uncoded{{}, souper::infer{id{0}, {souper::demanded_bits{"x"}}}};
    const item last = k == kind::lhs ? ill_formed : item{{}, souper::cand{id{0}, id{0}}};
    items.push_back(last);
    items.push_back(uncoded);
    const bool done = souper::try_write(k, items, out, e);
    expect(!done && out.empty() && e.what == souper::status::not_well_formed && e.index == all.items.size() && e.why.has_value(),
           "the index of an item among many", nullptr);
    expect(e.offset == souper::encode(all.items).size(), "its offset", nullptr);
}

// One item that is longer than a part.
void long_item() {
    souper::builder b;
    id last = b.var();
    for (int count = 0; count < 10000; count++) {
        last = b.inst(op::add, {last, constant{count, 32}}, {}, 32);
    }
    const std::vector<item> items(3, b.infer(last));
    const std::string text = souper::write(kind::lhs, items);
    expect(text.size() > 500000 && souper::read(kind::lhs, text) == items && souper::check(kind::lhs, text), "long items", nullptr);
}

// Items that are built, and their texts.

void prints(const char *what, const item &i, const std::string &text) {
    expect(souper::write(souper::kind_of(i), i) == text + "\n" && souper::write(i) == text + "\n", what, nullptr);
}

template <typename T> std::string shown(const T &value) {
    std::ostringstream out;
    out << value;
    return out.str();
}

void built_lhs() {
    souper::builder b;
    const id x = b.var("x", 8, {souper::known_bits{"0xxxxxxx"}, souper::non_negative{}});
    b.var("unneeded");
    const id y = b.inst(op::mul, {x, constant{2, 8}}, "%y");
    const id c = b.inst(op::slt, {constant{0}, y});
    b.pc(c, constant{1});
    prints("a left-hand side", b.infer(y, {souper::demanded_bits{"00001111"}, souper::harvested_from_use{}}),
           "%x:i8 = var (knownBits=0xxxxxxx) (nonNegative)\n%y = mul %x, 2:i8\n%3 = slt 0, %y\npc %3 1\n"
           "infer %y (demandedBits=00001111) (harvestedFromUse)\n");
    const id again = b.var();
    prints("a builder that is used again", b.infer(again), "%0 = var\ninfer %0\n");
}

void built_blocks() {
    souper::builder b;
    const id x = b.var("x", 32), block = b.block(2, "b");
    const id choice = b.phi(block, {x, constant{-1, 32}}, "p", 32, {souper::non_zero{}});
    b.blockpc(block, 1, x, constant{7, 32});
    prints("a right-hand side", b.result(choice),
           "%b = block 2\n%x:i32 = var\n%p:i32 = phi %b, %x, -1:i32 (nonZero)\nblockpc %b 1 %x 7:i32\nresult %p");
}

// Names that are made are free ones, and a name that is taken is an error; also over the statements of an item that was read.
void built_names() {
    souper::builder b;
    const id one = b.var("1"), made = b.var();
    b.var("%3");
    const id sum = b.inst(op::add, {one, made}), last = b.inst(op::add, {sum, made});
    expect(!b.is_free("1") && !b.is_free("%4") && b.is_free("x"), "names that are free", nullptr);
    prints("names that are numbers", b.infer(last), "%1 = var\n%2 = var\n%4 = add %1, %2\n%5 = add %4, %2\ninfer %5\n");
    souper::builder more(souper::read(kind::lhs, "%2 = var %x = add %2, 1 infer %x")[0].statements);
    const id y = more.var();
    try {
        more.var("%x");
        expect(false, "a name that is taken", nullptr);
    } catch (const std::invalid_argument &error) {
        expect(error.what() == std::string("statement 3 (%x): an assignment before it has the same name"), "a name that is taken", nullptr);
    }
    prints("a builder over an item", more.infer(more.inst(op::add, {id{1}, y}, "z", 8)),
           "%2 = var\n%x = add %2, 1\n%3 = var\n%z:i8 = add %x, %3\ninfer %z\n");
    more.var("x");
    souper::builder moved = std::move(more);
    more.var();
    prints("a builder after a move", more.infer(more.var()), "%1 = var\ninfer %1\n");
    more = std::move(moved);
    prints("a name is free again", more.infer(id{0}), "%x = var\ninfer %x\n");
}

// The order of arguments that was there before.
void built_by_width() {
#pragma GCC diagnostic push
#pragma GCC diagnostic ignored "-Wdeprecated-declarations"
    souper::builder b;
    const souper::right_side input = souper::var{};
    const id block = b.block(1, "b"), x = b.assign(input, 8, "x"), y = b.assign(input, {}, "y");
    const id p = b.phi(block, {x}, 8, "p"), q = b.phi(block, {y}, {}, "q"), r = b.phi(block, {y}, 8);
    const id s = b.inst(op::select, {p, q, r}, std::optional<std::uint32_t>(), "s");
    prints("the width before the name", b.infer(b.inst(op::add, {s, constant{1}}, 16)),
           "%b = block 1\n%x:i8 = var\n%p:i8 = phi %b, %x\n%y = var\n%q = phi %b, %y\n%5:i8 = phi %b, %y\n%s = select %p, %q, %5\n"
           "%7:i16 = add %s, 1\ninfer %7\n");
#pragma GCC diagnostic pop
}

// Constants of a width by their bits; ids that are sorted and hashed; words.
void values() {
    const auto all = ~static_cast<souper::detail::uint128>(0);
    const auto is = [](const constant &c, int value, std::uint32_t width) { return c.value == value && c.width == width; };
    expect(is(constant::from_bits(255, 8), -1, 8) && is(constant::from_bits(127, 8), 127, 8) && is(constant::from_bits(256 + 128, 8), -128, 8),
           "bits of 8", nullptr);
    expect(is(constant::from_bits(1, 1), -1, 1) && is(constant::from_bits(all, 128), -1, 128) && is(constant::from_bits(5, 128), 5, 128),
           "bits of 1 and 128", nullptr);
    expect(souper::decimal(constant::from_bits(all ^ (all >> 1), 128).value) == "-170141183460469231731687303715884105728" &&
               souper::decimal(souper::int128{0}) == "0",
           "numbers as texts", nullptr);
    expect(id{1} < id{2} && !(id{2} < id{2}) && std::hash<id>()(id{3}) == std::hash<id>()(id{3}), "ids", nullptr);
    expect(souper::op_named("sadd.with.overflow") == op::sadd_with_overflow && souper::op_named("freeze") == op::freeze &&
               !souper::op_named("frieze") && !souper::op_named(""),
           "words", nullptr);
    expect(souper::statement_text(souper::read(kind::lhs, "pc 1 1 %x = var infer %x")[0].statements, id{2}).empty(), "no statement", nullptr);
}

// Values differ as they compare; a hash is that of the value.
void differences() {
    const auto items =
        souper::read(kind::rep, "%x:i8 = var (nonZero) cand %x 1 (harvestedFromUse) %x:i8 = var (negative) infer %x result 1");
    const item &a = items[0], &b = items[1];
    expect(a != b && !(a != items[0]) && a.statements[0] != b.statements[0] && a.last != b.last, "items that differ", nullptr);
    expect(a.at(id{0})->attributes[0] != b.at(id{0})->attributes[0] && a.at(id{0})->value == b.at(id{0})->value,
           "attributes that differ", nullptr);
    expect(souper::operand(id{1}) != souper::operand(constant{1})
               && souper::right_side(souper::block{1}) != souper::right_side(souper::block{2})
               && souper::root_attribute(souper::demanded_bits{"0"}) != souper::root_attribute(souper::demanded_bits{"1"}),
           "other values that differ", nullptr);
    const std::unordered_set<item> set(items.begin(), items.end());
    expect(set.size() == 2 && set.count(a) == 1, "a set of items", nullptr);
    const std::unordered_set<souper::operand> operands{id{1}, constant{1}, constant{1, 8}, constant{-1}, id{1}, constant{1, 8}};
    expect(operands.size() == 4 && operands.count(constant{1, 9}) == 0, "a set of operands", nullptr);
    std::unordered_set<std::size_t> hashes;
    for (int number = 0; number < 1000; number++) {
        hashes.insert(std::hash<souper::operand>()(constant{number, 8}));
        hashes.insert(std::hash<souper::statement>()(souper::pc{constant{number}, constant{1}}));
    }
    expect(hashes.size() > 1990, "hashes that differ", nullptr);
}

// Values without what may be left out; a warning is an error here.
void short_values() {
    const item lhs{{souper::assignment{"%x"}, souper::assignment{"%y", 8}}, souper::infer{id{0}}};
    expect(lhs == souper::read(kind::lhs, "%x = var %y:i8 = var infer %x")[0], "a short left-hand side", nullptr);
    const item rep{{souper::assignment{"%h", {}, souper::instruction{op::hole}}, souper::assignment{"%b", {}, souper::block{0}}},
                   souper::cand{id{0}, id{0}}};
    expect(rep == souper::read(kind::rep, "%h = hole %b = block 0 cand %h %h")[0], "a short replacement", nullptr);
}

void words() {
    for (const kind k : {kind::lhs, kind::rhs, kind::rep}) {
        expect(souper::kind_named(souper::word(k)) == k && shown(k) == souper::word(k), "the word of a kind", nullptr);
    }
    const auto none = static_cast<kind>(3);
    expect(!souper::kind_named("LHS") && !souper::kind_named("") && souper::word(none).empty() && shown(none) == "unknown(3)",
           "no kind", nullptr);
    expect(shown(op::sadd_with_overflow) == "sadd.with.overflow" && shown(static_cast<op>(59)) == "unknown(59)", "operations", nullptr);
    expect(shown(constant{-1, 8}) == "-1:i8" && shown(constant{5}) == "5", "constants", nullptr);
    expect(shown(souper::status::not_utf8) == "not UTF-8" && shown(static_cast<souper::status>(11)) == "unknown(11)",
           "statuses", nullptr);
    expect(shown(souper::flaw_location::at_cand) == "cand line" && shown(souper::flaw_reason::zero_width) == "a width is 0",
           "parts of flaws", nullptr);
    const souper::flaw no_bit{souper::flaw_location::at_infer, souper::flaw_reason::no_bit};
    expect(shown(no_bit) == "infer line: a bit is none" && souper::to_string(no_bit) == no_bit.shown(), "flaws", nullptr);
    const souper::assignment of_no_operation{"%x", {}, souper::instruction{static_cast<op>(59), {constant{1}}}};
    expect(souper::statement_text({of_no_operation}, id{0}) == "%x = unknown(59) 1", "a statement of no operation", nullptr);
    const item one = souper::read(kind::lhs, "%x = var infer %x")[0];
    expect(shown(one) == souper::write(one), "an item", nullptr);
    std::ostringstream out;
    out << item{{}, souper::infer{id{0}}};
    expect(out.fail() && out.str().empty(), "an item that is not well formed", nullptr);
    souper::error e;
    std::string text;
    expect(!souper::try_format(kind::lhs, "infer", text, e) && shown(e) == e.shown, "a refusal", nullptr);
    expect(!souper::try_format(none, "infer", text, e) && shown(e) == "the kind is none", "another error", nullptr);
    e.what = souper::status::out_of_memory;
    e.message.clear();
    expect(shown(e) == "out of memory" && souper::version == SOUPER_VERSION, "no memory", nullptr);
    expect(souper::library_version() == SOUPER_VERSION_NUMBER, "the version of the library", nullptr);
}

void built_replacements() {
    souper::builder b;
    const id x = b.var("x", 8), twice = b.inst(op::add, {x, x}, "y");
    souper::builder copy = b;
    souper::builder other(copy.infer(twice).statements);
    prints("a replacement by cand", b.cand(twice, constant{0}), "%x:i8 = var\n%y = add %x, %x\ncand %y 0\n");
    const id shifted = other.inst(op::shl, {x, constant{1, 8}}, "z");
    prints("a replacement by result", other.infer_result(twice, shifted),
           "%x:i8 = var\n%y = add %x, %x\ninfer %y\n%z = shl %x, 1:i8\nresult %z\n");
    const auto least = static_cast<souper::int128>(1) << 126;
    prints("numbers of 128 bits", b.cand(constant{-least - least}, constant{least - 1 + least, 128}),
           "cand -170141183460469231731687303715884105728 170141183460469231731687303715884105727:i128\n");
}

void built_attributes() {
    souper::builder b;
    const id x = b.var("x", 8,
                       {souper::power_of_two{}, souper::negative{}, souper::non_zero{}, souper::has_external_uses{},
                        souper::sign_bits{255}, souper::range{-5, 6}});
    b.assign(souper::reservedinst{}, "r");
    const id r = b.assign(souper::reservedinst{}, "s", 3), c = b.assign(souper::reservedconst{}, "c");
    const id y = b.inst(op::select, {x, r, c}, "y", 65535, {souper::known_bits{"01x"}});
    prints("attributes", b.result(y),
           "%x:i8 = var (powerOfTwo) (negative) (nonZero) (hasExternalUses) (signBits=255) (range=[-5,6))\n"
           "%s:i3 = reservedinst\n%c = reservedconst\n%y:i65535 = select %x, %s, %c (knownBits=01x)\nresult %y");
}

// Each operation in an item, by its word and with its operands.
void operations() {
    std::size_t count = 0;
#define SOUPER_X(name, text, operands) \
    expect(static_cast<std::size_t>(op::name) == count++ && souper::word(op::name) == (text), text, nullptr);
    SOUPER_INSTRUCTIONS(SOUPER_X)
#undef SOUPER_X
    expect(count == 59 && souper::word(static_cast<op>(59)).empty(), "the number of operations", nullptr);
    for (std::size_t number = 0; number < count; number++) {
        const auto operation = static_cast<op>(number);
        souper::builder b;
        const std::vector<souper::operand> operands(souper::operand_count(operation), b.var("x"));
        std::string line = "%y = " + std::string(souper::word(operation));
        for (std::size_t i = 0; i < operands.size(); i++) {
            line += i == 0 ? " %x" : ", %x";
        }
        const item i = b.infer(b.inst(operation, operands, "y"));
        prints(line.c_str(), i, (operands.empty() ? "" : "%x = var\n") + line + "\ninfer %y\n");
        expect(souper::read(kind::lhs, "%x = var " + line + " infer %y").front() == i, line.c_str(), nullptr);
    }
}

void walks() {
    const item i =
        souper::read(kind::lhs, "%b = block 2 %x = var %u = var %p = phi %b, %x, 1 blockpc %b 0 3 %p infer %p").front();
    std::vector<std::size_t> uses;
    for (const auto &s : i.statements) {
        souper::for_each_use(s, [&](id used) { uses.push_back(used.position); });
    }
    expect(uses == std::vector<std::size_t>{0, 1, 0, 3}, "the uses of a phi and a blockpc", nullptr);
    std::string names;
    for (const auto &s : souper::canonical(kind::lhs, i).statements) {
        const auto *assigned = std::get_if<souper::assignment>(&s);
        names += assigned != nullptr ? assigned->name : "-";
    }
    expect(names == "%b%x%p-", "the needed statements in printed order", nullptr);
    expect(i.at(id{4}) == nullptr && i.at(id{5}) == nullptr, "no assignment", nullptr);
}

// Operands that are replaced: each item is the one that is read of the text behind it.

const char *const branching = "%x = var %b = block 2 %p = phi %b, %x, 1 blockpc %b 1 %x 0 %y = add %p, %x pc %y %p ";
const id branching_x{0}, branching_b{1}, branching_p{2}, branching_y{4};

void becomes(kind k, const std::string &last, id of, const souper::operand &by, const std::string &wanted) {
    item i = souper::read(k, branching + last).front();
    souper::replace_uses(i, of, by);
    expect(i == souper::read(k, wanted).front(), wanted.c_str(), nullptr);
}

void replaced_in_statements() {
    const std::string wanted = "%x = var %b = block 2 %p = phi %b, 7, 1 blockpc %b 1 7 0 %y = add %p, 7 pc %y %p ";
    const constant seven{7};
    becomes(kind::lhs, "infer %y", branching_x, seven, wanted + "infer %y");
    becomes(kind::rhs, "result 0", branching_x, seven, wanted + "result 0");
    becomes(kind::rep, "infer %y result 0", branching_x, seven, wanted + "infer %y result 0");
    becomes(kind::rep, "cand %y 0", branching_x, seven, wanted + "cand %y 0");
    becomes(kind::lhs, "infer %y", branching_b, seven, std::string(branching) + "infer %y");
    item i = souper::read(kind::lhs, branching + std::string("infer %y")).front();
    souper::replace_uses(i.statements[branching_y.position], branching_x, branching_p);
    expect(souper::statement_text(i.statements, branching_y) == "%y = add %p, %p", "one statement", nullptr);
    expect(souper::statement_text(i.statements, branching_p) == "%p = phi %b, %x, 1", "another statement", nullptr);
}

void replaced_in_last_lines() {
    const std::string by_p = "%x = var %b = block 2 %p = phi %b, %x, 1 blockpc %b 1 %x 0 %y = add %p, %x pc %p %p ";
    const std::string by_5 = "%x = var %b = block 2 %p = phi %b, %x, 1 blockpc %b 1 %x 0 %y = add %p, %x pc 5 %p ";
    const constant five{5};
    becomes(kind::lhs, "infer %y (harvestedFromUse)", branching_y, branching_p, by_p + "infer %p (harvestedFromUse)");
    becomes(kind::lhs, "infer %x", branching_y, branching_p, by_p + "infer %x");
    becomes(kind::lhs, "infer %y", branching_y, five, by_5 + "infer %y");
    becomes(kind::rhs, "result %y", branching_y, branching_p, by_p + "result %p");
    becomes(kind::rhs, "result %y", branching_y, five, by_5 + "result 5");
    becomes(kind::rep, "infer %y result %y", branching_y, branching_p, by_p + "infer %p result %p");
    becomes(kind::rep, "infer %y result %y", branching_y, five, by_5 + "infer %y result 5");
    becomes(kind::rep, "infer %x result 3", branching_y, branching_p, by_p + "infer %x result 3");
    becomes(kind::rep, "cand %y %y (demandedBits=1)", branching_y, branching_p, by_p + "cand %p %p (demandedBits=1)");
    becomes(kind::rep, "cand %x %y", branching_y, five, by_5 + "cand %x 5");
}

// The operands of each statement, in order, which the visitor may change.
void operands() {
    item i = souper::read(kind::lhs, branching + std::string("%h = hole %s = select %x, %p, 3 infer %s")).front();
    int count = 0;
    for (auto &s : i.statements) {
        souper::for_each_operand(s, [&](souper::operand &o) { o = constant{++count}; });
    }
    const char *const wanted = "%x = var %b = block 2 %p = phi %b, 1, 2 blockpc %b 1 3 4 %y = add 5, 6 pc 7 8 %h = hole %s = select 9, 10, 11 infer %s";
    expect(i == souper::read(kind::lhs, wanted).front(), "other operands", nullptr);
    const item &fixed = i;
    int constants = 0;
    for (const auto &s : fixed.statements) {
        souper::for_each_operand(s, [&](const souper::operand &o) { constants += std::holds_alternative<constant>(o); });
    }
    expect(constants == 11, "the operands", nullptr);
}

// A pass: x in the place of each use of `add x, 0`.
void a_pass() {
    item i = souper::read(kind::lhs, "%x:i8 = var %1:i8 = add %x, 0:i8 %2:i8 = add %1, 0:i8 %3:i8 = mul %2, %1 infer %3").front();
    const souper::operand zero = constant{0, 8};
    for (std::size_t position = 0; position < i.statements.size(); position++) {
        const auto *sum = i.at(id{position}) ? std::get_if<souper::instruction>(&i.at(id{position})->value) : nullptr;
        if (sum != nullptr && sum->operation == op::add && sum->operands[1] == zero) {
            souper::replace_uses(i, id{position}, sum->operands[0]);
        }
    }
    prints("a pass", i, "%x:i8 = var\n%3:i8 = mul %x, %x\ninfer %3\n");
}

// What is no item of the kind.

bool is_ill_formed(kind k, const std::vector<item> &items, std::size_t index) {
    try {
        souper::write(k, items);
        return false;
    } catch (const souper::not_well_formed &error) {
        return error.index == index;
    }
}

void ill_formed(const char *what, const item &bad) {
    souper::builder b;
    const id x = b.var("x");
    const item good = bad.last.index() == 1 ? b.result(x) : b.infer(x);
    const kind k = souper::kind_of(good);
    expect(is_ill_formed(k, {bad}, 0) && is_ill_formed(k, {good, good, bad, good}, 2), what, nullptr);
}

// What the exception for a left-hand side shows.
void shows(const char *what, const item &bad, const std::string &shown) {
    try {
        souper::write(kind::lhs, {bad});
        expect(false, what, nullptr);
    } catch (const souper::not_well_formed &error) {
        expect(error.what() == "item 0 is not well formed" + shown, what, nullptr);
    }
}

void flaws() {
    const souper::var var;
    const item twice{{souper::assignment{"%x", 8, var, {}}, souper::pc{id{0}, souper::constant{1, {}}},
                      souper::assignment{"%x", 8, var, {}}},
                     souper::infer{id{2}, {}}};
    shows("a name twice", twice, ": statement 2 (%x): an assignment before it has the same name");
    shows("no statement", item{{}, souper::infer{id{0}, {}}}, ": infer line: an operand is no assignment");
}

item lhs_of(souper::assignment assigned) {
    return item{{std::move(assigned)}, souper::infer{id{0}, {}}};
}

// An item that has no code: what `write` and `encode` say of it as the second one.
void no_code(const item &bad, souper::flaw_reason reason, const std::string &shown) {
    const item lhs = souper::read(kind::lhs, "%x = var infer %x")[0], rhs{{}, souper::result{constant{1}}};
    const item &good = souper::kind_of(bad) == kind::lhs ? lhs : rhs;
    souper::error e;
    std::string out;
    const std::string wanted = "item 1 is not well formed: " + shown;
    expect(!souper::try_write(souper::kind_of(good), {good, bad, bad}, out, e) && e.index == 1 && e.message == wanted,
           shown.c_str(), nullptr);
    expect(e.why && e.why->reason == reason && e.why->shown() == shown, "its reason", nullptr);
    if (reason != souper::flaw_reason::other_kind) {
        try {
            souper::encode({good, bad});
            expect(false, "the exception of encode", nullptr);
        } catch (const souper::not_well_formed &error) {
            expect(error.what() == wanted && error.why && error.why->reason == reason, "the exception of encode", nullptr);
        }
    }
}

void without_codes() {
    using souper::flaw_reason;
    const souper::var var;
    const auto computed = [](op operation, std::vector<souper::operand> operands) {
        return lhs_of({"%x", {}, souper::instruction{operation, std::move(operands)}});
    };
    no_code(lhs_of({"%x", 65536}), flaw_reason::wide, "statement 0 (%x): a width is over 65535");
    no_code(lhs_of({"%x", 8, var, {souper::known_bits{"012"}}}), flaw_reason::no_bit, "statement 0 (%x): a bit is not 0, 1 or x");
    no_code(lhs_of({"%\xc3\xa9\xff"}), flaw_reason::name_not_utf8, "statement 0 (%\xc3\xa9\\xff): the name is not UTF-8");
    no_code(computed(static_cast<op>(59), {}), flaw_reason::no_operation, "statement 0 (%x): unknown(59) is no operation");
    no_code(computed(op::add, {constant{1}}), flaw_reason::operand_count, "statement 0 (%x): add has 2 operands, not 1");
    no_code(computed(op::freeze, {constant{1}, constant{1}}), flaw_reason::operand_count, "statement 0 (%x): freeze has 1 operand, not 2");
    no_code(computed(op::freeze, {constant{1, 65536}}), flaw_reason::wide, "statement 0 (%x): a width is over 65535");
    no_code(item{{souper::assignment{"%x"}, souper::pc{id{0}, constant{1, 70000}}}, souper::infer{id{0}}}, flaw_reason::wide,
            "statement 1: a width is over 65535");
    no_code(item{{souper::assignment{"%x"}}, souper::infer{id{0}, {souper::demanded_bits{"0x"}}}}, flaw_reason::no_bit,
            "infer line: a bit is not 0 or 1");
    no_code(item{{}, souper::result{constant{1, 65536}}}, flaw_reason::wide, "result line: a width is over 65535");
    no_code(item{{}, souper::infer_result{{id{0}}, {constant{1, 65536}}}}, flaw_reason::wide, "result line: a width is over 65535");
    no_code(item{{}, souper::cand{constant{1}, constant{1, 65536}}}, flaw_reason::wide, "cand line: a width is over 65535");
    no_code(item{{}, souper::cand{constant{1}, constant{1}}}, flaw_reason::other_kind, "cand line: the item is of the kind rep, not rhs");
    no_code(item{{}, souper::infer_result{{id{0}}, {id{0}}}}, flaw_reason::other_kind, "infer line: the item is of the kind rep, not rhs");
}

// Codes with a byte that is none there: what `decode` says.
void damaged(std::size_t at, unsigned byte, const std::string &shown) {
    std::string code = souper::encode(souper::read(kind::lhs, "%h = hole infer %h (demandedBits=1)"));
    code[at] = static_cast<char>(byte);
    try {
        souper::decode(kind::lhs, code);
        expect(false, shown.c_str(), nullptr);
    } catch (const souper::bad_code &error) {
        expect(error.what() == "at byte 0 is the code of no item" + shown && (error.why == nullptr) == shown.empty(),
               shown.c_str(), nullptr);
    }
}

void damaged_codes() {
    damaged(18, 0xff, ": statement 0 (%\\xff): the name is not UTF-8");
    damaged(21, 59, ": statement 0 (%h): unknown(59) is no operation");
    damaged(21, 0, ": statement 0 (%h): add has 2 operands, not 0");
    damaged(8, 3, "");
    damaged(0, 2, "");
    const std::string code = souper::encode(souper::read(kind::lhs, "%h = hole infer %h (demandedBits=1)"));
    damaged(code.size() - 1, 2, ": infer line: a bit is none");
    souper::error e;
    std::vector<item> items;
    expect(!souper::try_decode(kind::rep, code, items, e) && e.why
               && e.message == "at byte 0 is the code of no item: infer line: the item is of the kind lhs, not rep",
           "the code of another kind", nullptr);
}

void ill_formed_values() {
    const souper::var var;
    ill_formed("a width of 0", lhs_of({"%x", 0, var, {}}));
    ill_formed("a width of 2^16", lhs_of({"%x", 65536, var, {}}));
    ill_formed("no known bits", lhs_of({"%x", {}, var, {souper::known_bits{""}}}));
    ill_formed("a bit that is none", lhs_of({"%x", {}, var, {souper::known_bits{"012"}}}));
    ill_formed("no name", lhs_of({"", {}, var, {}}));
    ill_formed("a name without a character", lhs_of({"%", {}, var, {}}));
    ill_formed("a name without its %", lhs_of({"x", {}, var, {}}));
    ill_formed("a name with a newline", lhs_of({"%x = var\n%y", {}, var, {}}));
    ill_formed("a name that is not UTF-8", lhs_of({"%\xff", {}, var, {}}));
    ill_formed("an operation that is none", lhs_of({"%x", {}, souper::instruction{static_cast<op>(59), {}}, {}}));
    ill_formed("no operands", lhs_of({"%x", {}, souper::instruction{op::freeze, {}}, {}}));
    ill_formed("an operand of width 0", lhs_of({"%x", {}, souper::instruction{op::freeze, {constant{1, 0}}}, {}}));
    ill_formed("a use of itself", lhs_of({"%x", {}, souper::instruction{op::freeze, {id{0}}}, {}}));
    ill_formed("a use of no statement", lhs_of({"%x", {}, souper::instruction{op::freeze, {id{SIZE_MAX}}}, {}}));
}

void ill_formed_graphs() {
    souper::builder b;
    const id x = b.var("x"), y = b.var("y");
    item one_name = b.infer(b.inst(op::add, {x, y}));
    std::get<souper::assignment>(one_name.statements[1]).name = "%x";
    ill_formed("one name of two", one_name);
    b.pc(constant{1}, constant{1});
    ill_formed("a use of a path condition", b.infer(id{0}));
    ill_formed("a root that is none", b.infer(id{0}));
    const id block = b.block(2);
    ill_formed("a phi with a value too few", b.infer(b.phi(block, {constant{1}})));
    b.phi(b.var(), {});
    ill_formed("a phi of no block", b.infer(id{1}));
    b.blockpc(b.block(2), 2, constant{1}, constant{1});
    ill_formed("a predecessor that is none", b.infer(id{0}));
    ill_formed("no demanded bits", b.infer(b.var(), {souper::demanded_bits{""}}));
    ill_formed("a demanded bit that is none", b.infer(b.var(), {souper::demanded_bits{"0x"}}));
    b.var();
    expect(is_ill_formed(kind::rhs, {b.infer(id{0})}, 0), "an item of another kind", nullptr);
    b.var();
    expect(is_ill_formed(kind::rep, {b.cand(constant{1}, constant{2}), b.result(constant{1})}, 1),
           "a second item of another kind", nullptr);
}

std::string unescaped(std::string text) {
    for (std::size_t at = 0; (at = text.find('\\', at)) != std::string::npos; at++) {
        text.replace(at, 2, 1, text[at + 1] == 'n' ? '\n' : '\0');
    }
    return text;
}

// Each form of records, by the file that tools/record-formats compares with the stored texts of the program souper_items.
void record_formats() {
    std::ifstream file("embed/tests/record_formats.txt");
    std::size_t count = 0;
    for (std::string line; std::getline(file, line);) {
        if (line.front() == '#') {
            continue;
        }
        std::istringstream row(line);
        std::string kind_name, flag_names, text, records;
        std::getline(std::getline(std::getline(std::getline(row, kind_name, '\t'), flag_names, '\t'), text, '\t'), records);
        const auto has = [&](const char *name, souper::flags flag) {
            return flag_names.find(name) == std::string::npos ? souper::flags::none : flag;
        };
        const auto flags = has("key", souper::flags::key) | has("rename", souper::flags::rename) | has("null", souper::flags::null);
        const kind k = kind_name == "lhs" ? kind::lhs : kind_name == "rhs" ? kind::rhs : kind::rep;
        expect(souper::key(k, unescaped(text), flags) == unescaped(records), "a form of records", nullptr);
        count++;
    }
    expect(count > 6, "the forms of records", nullptr);
}

void numbers() {
    const std::string text = "%b = var %a = var %c = add %a, %b pc %c 1 infer %c";
    const auto renamed = souper::records(kind::lhs, text, true);
    expect(renamed.size() == 1 && renamed[0].key == "5c3aba6388404e1e1b78de05a4f8679dcfca76884a681a5c8b5902c32dcdbf52", "a key",
           nullptr);
    expect(souper::read(kind::rep, {}).empty() && souper::write(kind::rep, std::vector<item>{}).empty(), "no items", nullptr);
    expect(souper::canonical(kind::rep, std::vector<item>{}).empty() && souper::records(kind::rep, {}).empty(),
           "no items, canonical", nullptr);
    expect(souper::decode(kind::lhs, {}).empty() && souper::encode({}).empty(), "no items, code", nullptr);
    for (const auto wrong : {static_cast<souper::flags>(8), static_cast<souper::flags>(0x80000001u)}) {
        try {
            souper::key(kind::lhs, text, wrong);
            expect(false, "the exception of a flag that is none", nullptr);
        } catch (const std::invalid_argument &) {
            expect(true, "the exception of a flag that is none", nullptr);
        }
    }
    try {
        souper::decode(kind::lhs, souper::encode(souper::read(kind::lhs, text + " " + text)) + "x");
        expect(false, "the exception of a damaged code", nullptr);
    } catch (const souper::bad_code &error) {
        expect(error.index == 2 && error.offset == 2 * souper::encode(souper::read(kind::lhs, text)).size(), "its place",
               nullptr);
    }
}

} // namespace

int main(int argc, char **argv) {
    std::size_t count;
    Record *records = read_records(argc == 2 ? argv[1] : "", &count);
    for (std::size_t i = 0; i < count; i++) {
        const auto text = view(records[i].text, records[i].text_length);
        const auto answer = view(records[i].answer, records[i].answer_length);
        (records[i].status == SOUPER_REFUSED ? refusal : acceptance)(records[i], static_cast<kind>(records[i].kind), text,
                                                                     answer);
    }
    for (const kind k : {kind::lhs, kind::rhs, kind::rep}) {
        in_parts(k, records, count);
    }
    long_item();
    built_lhs();
    built_blocks();
    built_names();
    built_by_width();
    values();
    differences();
    short_values();
    words();
    built_replacements();
    built_attributes();
    operations();
    walks();
    replaced_in_statements();
    replaced_in_last_lines();
    operands();
    a_pass();
    ill_formed_values();
    without_codes();
    damaged_codes();
    flaws();
    ill_formed_graphs();
    numbers();
    record_formats();
    free_records(records);
    return summary("C++: the stored answers as values, items that are built");
}
