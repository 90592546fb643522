// Codes that are damaged: the decoder of souper.hpp reads nothing outside them and allocates little, and souper_write refuses
// them or writes canonical texts. Each allocation of a call in C++ is refused in turn.
//
//     codes RECORDS [COUNT [FOLDER]]
//
// COUNT codes are changed at random, by default 200,000. The codes of the records are written to FOLDER, as seeds for fuzz.cpp.
#include "oracle.hpp"

extern "C" {
#include "records.h"
}

#include <cstdio>
#include <cstdlib>
#include <fstream>
#include <new>
#include <random>

namespace {

// The allocations of C++.
std::size_t allocated;               // bytes, by all allocations
std::size_t left_to_make = SIZE_MAX; // allocations, before one fails

void *allocate(std::size_t size) noexcept {
    allocated += size;
    if (left_to_make == 0) {
        return nullptr;
    }
    left_to_make -= left_to_make != SIZE_MAX;
    return std::malloc(size == 0 ? 1 : size);
}

} // namespace

// Not inlined: gcc would take the `free` in them for one of memory of the other `new`.
[[gnu::noinline]] void *operator new(std::size_t size) {
    void *memory = allocate(size);
    if (memory == nullptr) {
        throw std::bad_alloc();
    }
    return memory;
}

[[gnu::noinline]] void operator delete(void *memory) noexcept {
    std::free(memory);
}

[[gnu::noinline]] void operator delete(void *memory, std::size_t) noexcept {
    std::free(memory);
}

namespace {

using souper::id;
using souper::item;
using souper::kind;

struct sample {
    kind of;
    std::vector<item> items;
    std::string code;
};

std::vector<sample> samples(const Record *records, std::size_t count) {
    std::vector<sample> all;
    for (std::size_t i = 0; i < count; i++) {
        const auto k = static_cast<kind>(records[i].kind);
        if (records[i].status == SOUPER_DONE && records[i].answer_length > 0) {
            auto items = souper::read(k, {reinterpret_cast<const char *>(records[i].text), records[i].text_length});
            auto code = souper::encode(items);
            all.push_back({k, std::move(items), std::move(code)});
        }
    }
    return all;
}

// A case of any bytes as a code; what does not hold is shown with the bytes.
void holds(kind k, const std::string &code) {
    const char *wrong = oracle::decodes(k, code);
    wrong = wrong != nullptr ? wrong : oracle::writes(k, code);
    expect(wrong == nullptr, wrong == nullptr ? "" : wrong, nullptr);
    if (wrong != nullptr) {
        std::printf("    kind %u, code", static_cast<unsigned>(k));
        for (const char byte : code) {
            std::printf(" %02x", static_cast<unsigned char>(byte));
        }
        std::printf("\n");
    }
}

// A text with each kind of node.
sample each_node() {
    const auto items = souper::read(
        kind::rep,
        "%x:i8 = var (knownBits=01x) (powerOfTwo) (negative) (nonNegative) (nonZero) (hasExternalUses) (signBits=3) "
        "(range=[-1,5))"
        "%b = block 2 %p = phi %b, %x, 1:i8 %r = reservedinst %c = reservedconst pc %x 1 blockpc %b 1 %x 2:i8 %h = hole"
        "%y = select %x, %p, -7 infer %y (demandedBits=01) (harvestedFromUse) %z = fshl %r, %c, %x result %z"
        "%x = var cand %x, 1 (demandedBits=1)");
    return {kind::rep, items, souper::encode(items)};
}

// Every prefix, and every other value of every byte.
void damage(const sample &from) {
    for (std::size_t length = 0; length < from.code.size(); length++) {
        holds(from.of, from.code.substr(0, length));
    }
    for (std::size_t at = 0; at < from.code.size(); at++) {
        std::string code = from.code;
        for (unsigned more = 1; more < 256; more++) {
            code[at]++;
            holds(from.of, code);
        }
    }
}

// Lists that say to be longer than what follows.
void lengths() {
    for (const kind k : {kind::lhs, kind::rhs, kind::rep}) {
        for (const std::uint64_t length : {std::uint64_t{1}, std::uint64_t{1} << 32, std::uint64_t{1} << 60, UINT64_MAX}) {
            std::string code(64, '\0');
            std::memcpy(code.data(), &length, sizeof length);
            holds(k, code);
        }
    }
}

// Whether the allocations of C++ are those of this file; valgrind puts its own in their place.
bool has_allocations() {
    const std::size_t before = allocated;
    ::operator delete(::operator new(1));
    return allocated > before;
}

// The decoder allocates at most this many bytes for each byte of a code, where an attribute of one byte is a value of 48, and as many for
// the text of an error.
constexpr std::size_t most = 200;

void memory(const sample &from, std::string_view code) {
    if (!has_allocations()) {
        return;
    }
    std::vector<item> items;
    souper::error e;
    const std::size_t before = allocated;
    static_cast<void>(souper::try_decode(from.of, code, items, e));
    expect(allocated - before <= most * (code.size() + 1), "the memory of the decoder", nullptr);
}

// Lists of the shortest elements, whose values are the longest compared with their codes.
void long_lists() {
    constexpr std::size_t count = 10000;
    souper::builder b;
    const id x = b.var("x", 8, std::vector<souper::attribute>(count, souper::power_of_two{}));
    const std::vector<item> one = {b.infer(x, std::vector<souper::root_attribute>(count, souper::harvested_from_use{}))};
    const sample attributes{kind::lhs, one, souper::encode(one)};
    const std::vector<item> many(count, b.result(souper::constant{1}));
    const sample items{kind::rhs, many, souper::encode(many)};
    for (const sample &from : {attributes, items}) {
        holds(from.of, from.code);
        memory(from, from.code);
        memory(from, std::string_view(from.code).substr(0, from.code.size() - 1));
        memory(from, std::string_view(from.code).substr(0, from.code.size() / 2));
    }
}

// The codes of items of one kind as codes of each.
void kinds(const std::vector<sample> &all) {
    for (const sample &from : all) {
        for (const kind k : {kind::lhs, kind::rhs, kind::rep}) {
            holds(k, from.code);
        }
    }
}

// Random changes, by bytes and by values.

using generator = std::mt19937_64;

std::size_t below(generator &random, std::size_t bound) {
    return random() % bound;
}

void change_bytes(generator &random, std::string &code, const std::string &other) {
    for (std::size_t changes = 1 + below(random, 3); changes > 0 && !code.empty(); changes--) {
        const std::size_t at = below(random, code.size()), end = below(random, other.size() + 1), begin = below(random, end + 1);
        switch (below(random, 6)) {
        case 0:
            code[at] = static_cast<char>(random());
            break;
        case 1:
            code[at] = static_cast<char>(below(random, 8));
            break;
        case 2:
            code.insert(at, 1, static_cast<char>(random()));
            break;
        case 3:
            code.erase(at, 1 + below(random, 9));
            break;
        case 4:
            code.replace(at, end - begin, other, begin, end - begin);
            break;
        default:
            code.resize(at);
        }
    }
}

void change_operand(generator &random, souper::operand &o, std::size_t statements) {
    switch (below(random, 3)) {
    case 0:
        o = id{below(random, statements + 2)};
        break;
    case 1:
        o = souper::constant{static_cast<souper::int128>(random()) << below(random, 65), {}};
        break;
    default:
        o = souper::constant{-1, static_cast<std::uint32_t>(below(random, 65536))};
    }
}

void change_assignment(generator &random, souper::assignment &a, std::size_t statements) {
    if (auto *computed = std::get_if<souper::instruction>(&a.value); computed != nullptr && !computed->operands.empty()) {
        change_operand(random, computed->operands[below(random, computed->operands.size())], statements);
    } else if (auto *choice = std::get_if<souper::phi>(&a.value)) {
        choice->block = id{below(random, statements + 2)};
    } else if (auto *block = std::get_if<souper::block>(&a.value)) {
        block->predecessors = static_cast<std::uint32_t>(below(random, 4));
    } else {
        // A name that is not UTF-8 has no code; `change_bytes` makes such ones.
        a.name = below(random, 2) == 0 ? "%x" : "%" + std::to_string(below(random, 9)) + static_cast<char>(below(random, 128));
    }
}

void change_item(generator &random, item &i) {
    auto &statements = i.statements;
    if (statements.empty()) {
        return;
    }
    auto &chosen = statements[below(random, statements.size())];
    switch (below(random, 4)) {
    case 0:
        std::swap(chosen, statements[below(random, statements.size())]);
        break;
    case 1: {
        const souper::statement copy = statements[below(random, statements.size())];
        chosen = copy;
        break;
    }
    case 2:
        statements.pop_back();
        break;
    default:
        if (auto *assigned = std::get_if<souper::assignment>(&chosen)) {
            change_assignment(random, *assigned, statements.size());
        } else if (auto *condition = std::get_if<souper::pc>(&chosen)) {
            change_operand(random, condition->y, statements.size());
        } else if (auto *on_block = std::get_if<souper::blockpc>(&chosen)) {
            on_block->predecessor = static_cast<std::uint32_t>(below(random, 4));
        }
    }
}

std::string changed(generator &random, const std::vector<sample> &all, const sample &from) {
    std::string code = from.code;
    if (below(random, 2) == 0) {
        auto items = from.items;
        for (std::size_t changes = 1 + below(random, 2); changes > 0; changes--) {
            change_item(random, items[below(random, items.size())]);
        }
        code = souper::encode(items);
    }
    if (below(random, 2) == 0) {
        change_bytes(random, code, all[below(random, all.size())].code);
    }
    return code;
}

void random_changes(const std::vector<sample> &all, std::size_t count) {
    generator random(20261126);
    std::size_t statuses[10] = {};
    for (std::size_t i = 0; i < count; i++) {
        const sample &from = all[below(random, all.size())];
        const std::string code = changed(random, all, from);
        std::string text;
        holds(from.of, code);
        memory(from, code);
        statuses[oracle::write(from.of, code, text).status % 10]++;
    }
    std::printf("  of %zu codes, %zu are written, %zu are none, %zu are not well formed\n", count, statuses[SOUPER_DONE],
                statuses[SOUPER_NO_CODE], statuses[SOUPER_NOT_WELL_FORMED]);
    expect(count < 1000 || (statuses[SOUPER_DONE] > 0 && statuses[SOUPER_NO_CODE] > 0 && statuses[SOUPER_NOT_WELL_FORMED] > 0),
           "each status", nullptr);
}

// A call whose allocations fail from the first, the second, .. on, until it is done.
template <typename Call> void without_memory(const char *what, Call call) {
    bool done = false;
    std::size_t refused = 0;
    for (; !done; refused++) {
        souper::error e;
        left_to_make = refused;
        done = call(e);
        left_to_make = SIZE_MAX;
        if (!done) {
            expect(e.what == souper::status::out_of_memory && e.shown.empty(), what, nullptr);
        }
    }
    expect(refused > 1, what, nullptr);
}

void out_of_memory(const sample &from) {
    std::string text = souper::write(from.of, from.items), out;
    std::vector<item> items;
    std::vector<souper::record> records;
    const auto flags = souper::flags::key;
    without_memory("format without memory", [&](auto &e) { return souper::try_format(from.of, text, out, e); });
    without_memory("read without memory", [&](auto &e) { return souper::try_read(from.of, text, items, e); });
    without_memory("write without memory", [&](auto &e) { return souper::try_write(from.of, from.items, out, e); });
    without_memory("canonical without memory", [&](auto &e) { return souper::try_canonical(from.of, from.items, items, e); });
    without_memory("key without memory", [&](auto &e) { return souper::try_key(from.of, text, flags, out, e); });
    without_memory("records without memory", [&](auto &e) { return souper::try_records(from.of, text, true, records, e); });
    without_memory("encode without memory", [&](auto &e) { return souper::try_encode(from.items, out, e); });
    without_memory("decode without memory", [&](auto &e) { return souper::try_decode(from.of, from.code, items, e); });
    left_to_make = 1;
    bool thrown = false;
    try {
        items = souper::read(from.of, text);
    } catch (const std::bad_alloc &) {
        thrown = true;
    }
    left_to_make = SIZE_MAX;
    expect(thrown, "the exception of read without memory", nullptr);
}

void write_seeds(const std::vector<sample> &all, const std::string &folder) {
    for (std::size_t i = 0; i < all.size(); i++) {
        std::ofstream(folder + "/" + std::to_string(i), std::ios::binary) << all[i].code;
    }
}

} // namespace

int main(int argc, char **argv) {
    std::size_t count;
    Record *records = read_records(argc > 1 ? argv[1] : "", &count);
    const auto all = samples(records, count);
    damage(each_node());
    for (const std::size_t i : {all.size() / 5, all.size() / 2, all.size() - 1}) {
        damage(all[i]);
    }
    lengths();
    long_lists();
    kinds(all);
    memory(each_node(), each_node().code);
    if (argc > 3) {
        write_seeds(all, argv[3]);
    }
    random_changes(all, argc > 2 ? std::strtoull(argv[2], nullptr, 10) : 350000);
    if (has_allocations()) {
        out_of_memory(each_node());
    } else {
        std::printf("  left out: no memory, the memory of the decoder\n");
    }
    free_records(records);
    return summary("C++: damaged codes, no memory");
}
