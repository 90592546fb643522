// Souper IR for C++17: items as values, which are read, built and written; canonical texts and their keys; whether two texts have
// the same graphs, whether a text is canonical; what replacements answer for left-hand sides; the items of a stream that comes in
// parts.
//
// Over souper.h, which says what the calls promise and what the caller sees to; these functions see to the pointers. Each has two
// forms:
//
//   - `read`, `write`, `format`, .. throw, and exist only where exceptions are on. A refused text is thrown as `souper::refused`,
//     bytes that are not UTF-8 as `souper::not_utf8`, an item that is not well formed as `souper::not_well_formed`, a damaged
//     code as `souper::bad_code`, a kind or flag that is none as `std::invalid_argument`, out of memory as `std::bad_alloc`, and a
//     status that these headers do not know, as of a library of a later version, as `std::runtime_error`;
//   - `try_read`, `try_write`, `try_format`, .. are noexcept. They return whether they are done, and else say why in a
//     `souper::error`. Where exceptions are off (-fno-exceptions; RTTI may be off too), an allocation of the standard library
//     that fails ends the program, as elsewhere in such code.
#ifndef SOUPER_HPP
#define SOUPER_HPP

#include "souper.h"

#include <algorithm>
#include <cstddef>
#include <cstdint>
#include <cstring>
#include <exception>
#include <functional>
#include <iterator>
#include <memory>
#include <new>
#include <optional>
#include <ostream>
#include <stdexcept>
#include <string>
#include <string_view>
#include <type_traits>
#include <unordered_set>
#include <utility>
#include <variant>
#include <vector>

static_assert(__BYTE_ORDER__ == __ORDER_LITTLE_ENDIAN__, "the archive is for x86-64, and the code is little-endian");

// The instructions: the name in C++, the word in a text, the number of operands. Their order is their number in the code.
#define SOUPER_INSTRUCTIONS(X) \
    X(add, "add", 2) \
    X(addnsw, "addnsw", 2) \
    X(addnuw, "addnuw", 2) \
    X(addnw, "addnw", 2) \
    X(sub, "sub", 2) \
    X(subnsw, "subnsw", 2) \
    X(subnuw, "subnuw", 2) \
    X(subnw, "subnw", 2) \
    X(mul, "mul", 2) \
    X(mulnsw, "mulnsw", 2) \
    X(mulnuw, "mulnuw", 2) \
    X(mulnw, "mulnw", 2) \
    X(udiv, "udiv", 2) \
    X(sdiv, "sdiv", 2) \
    X(udivexact, "udivexact", 2) \
    X(sdivexact, "sdivexact", 2) \
    X(urem, "urem", 2) \
    X(srem, "srem", 2) \
    X(and_, "and", 2) \
    X(or_, "or", 2) \
    X(xor_, "xor", 2) \
    X(shl, "shl", 2) \
    X(shlnsw, "shlnsw", 2) \
    X(shlnuw, "shlnuw", 2) \
    X(shlnw, "shlnw", 2) \
    X(lshr, "lshr", 2) \
    X(lshrexact, "lshrexact", 2) \
    X(ashr, "ashr", 2) \
    X(ashrexact, "ashrexact", 2) \
    X(select, "select", 3) \
    X(zext, "zext", 1) \
    X(sext, "sext", 1) \
    X(trunc, "trunc", 1) \
    X(eq, "eq", 2) \
    X(ne, "ne", 2) \
    X(ult, "ult", 2) \
    X(slt, "slt", 2) \
    X(ule, "ule", 2) \
    X(sle, "sle", 2) \
    X(ctpop, "ctpop", 1) \
    X(bswap, "bswap", 1) \
    X(bitreverse, "bitreverse", 1) \
    X(cttz, "cttz", 1) \
    X(ctlz, "ctlz", 1) \
    X(fshl, "fshl", 3) \
    X(fshr, "fshr", 3) \
    X(sadd_with_overflow, "sadd.with.overflow", 2) \
    X(uadd_with_overflow, "uadd.with.overflow", 2) \
    X(ssub_with_overflow, "ssub.with.overflow", 2) \
    X(usub_with_overflow, "usub.with.overflow", 2) \
    X(smul_with_overflow, "smul.with.overflow", 2) \
    X(umul_with_overflow, "umul.with.overflow", 2) \
    X(sadd_sat, "sadd.sat", 2) \
    X(uadd_sat, "uadd.sat", 2) \
    X(ssub_sat, "ssub.sat", 2) \
    X(usub_sat, "usub.sat", 2) \
    X(extractvalue, "extractvalue", 2) \
    X(hole, "hole", 0) \
    X(freeze, "freeze", 1)

namespace souper {

/// The version of these headers.
inline constexpr std::string_view version = SOUPER_VERSION;

/// The version of the library that is linked, as a number: 1,002,003 is 1.2.3.
inline std::uint32_t library_version() { return souper_version(); }

// A library of a later version may return numbers that these headers have no names for. As a value of an enumeration such a number
// stays what it is, and its text is `unknown(N)`.

namespace detail {

inline std::string unknown(std::uint64_t number) { return "unknown(" + std::to_string(number) + ")"; }

} // namespace detail

/// What a text is read as.
enum class kind : std::uint32_t { lhs = SOUPER_LHS, rhs = SOUPER_RHS, rep = SOUPER_REP };

/// The word of a kind: `lhs`, `rhs` or `rep`; empty if it is none of the three.
constexpr std::string_view word(kind k) noexcept {
    switch (k) {
    case kind::lhs:
        return "lhs";
    case kind::rhs:
        return "rhs";
    case kind::rep:
        return "rep";
    }
    return {};
}

/// The kind of a word, if it is one of the three.
inline std::optional<kind> kind_named(std::string_view text) noexcept {
    for (const kind k : {kind::lhs, kind::rhs, kind::rep}) {
        if (word(k) == text) {
            return k;
        }
    }
    return std::nullopt;
}

inline std::string to_string(kind k) { return word(k).empty() ? detail::unknown(static_cast<std::uint32_t>(k)) : std::string(word(k)); }

inline std::ostream &operator<<(std::ostream &out, kind k) { return out << to_string(k); }

// ----------------------------------------------------------------
// Items
//
// An item is plain data: a list of statements, and the last lines. Values are compared by `==`; operands, statements and items have
// a `std::hash`.

__extension__ typedef __int128 int128;

namespace detail {
__extension__ typedef unsigned __int128 uint128;
} // namespace detail

/// A statement of an item, by its position in `item::statements`, from 0.
struct id {
    std::size_t position;

    friend bool operator==(id a, id b) noexcept { return a.position == b.position; }
    friend bool operator!=(id a, id b) noexcept { return a.position != b.position; }
    friend bool operator<(id a, id b) noexcept { return a.position < b.position; }
};

/// A number, with a width in bits (1 to 65535) or without.
struct constant {
    int128 value;
    std::optional<std::uint32_t> width = std::nullopt;

    /// The constant of a width that has these bits, of which the lowest `wide` count. It is signed, as Souper prints constants:
    /// the bits 255 of width 8 are `-1:i8`. (`255:i8` is well formed too, and another graph with another text.) The width is to
    /// be from 1 to 128: what another one gives is not specified.
    static constant from_bits(detail::uint128 bits, std::uint32_t wide) noexcept {
        const std::uint32_t above = wide > 0 && wide < 128 ? 128 - wide : 0;
        return {static_cast<int128>(bits << above) >> above, wide};
    }

    friend bool operator==(const constant &a, const constant &b) noexcept { return a.value == b.value && a.width == b.width; }
    friend bool operator!=(const constant &a, const constant &b) noexcept { return !(a == b); }
};

/// What a statement uses: the value of another one, or a constant.
using operand = std::variant<id, constant>;

/// An instruction's operation.
enum class op : std::uint8_t {
#define SOUPER_X(name, text, operands) name,
    SOUPER_INSTRUCTIONS(SOUPER_X)
#undef SOUPER_X
};

/// The word of an operation in a text; empty if it is none of the 59.
constexpr std::string_view word(op operation) noexcept {
    switch (operation) {
#define SOUPER_X(name, text, operands) \
    case op::name: \
        return text;
        SOUPER_INSTRUCTIONS(SOUPER_X)
#undef SOUPER_X
    }
    return {};
}

inline std::string to_string(op operation) {
    return word(operation).empty() ? detail::unknown(static_cast<std::uint8_t>(operation)) : std::string(word(operation));
}

inline std::ostream &operator<<(std::ostream &out, op operation) { return out << to_string(operation); }

/// How many operands an operation has, 0 to 3.
constexpr std::size_t operand_count(op operation) noexcept {
    switch (operation) {
#define SOUPER_X(name, text, operands) \
    case op::name: \
        return operands;
        SOUPER_INSTRUCTIONS(SOUPER_X)
#undef SOUPER_X
    }
    return 0;
}

/// The operation of a word in a text, if it is one of the 59.
inline std::optional<op> op_named(std::string_view text) noexcept {
    for (unsigned number = 0; !word(static_cast<op>(number)).empty(); number++) {
        if (word(static_cast<op>(number)) == text) {
            return static_cast<op>(number);
        }
    }
    return std::nullopt;
}

// Right sides of assignments.

/// An input.
struct var {
    friend bool operator==(var, var) noexcept { return true; }
    friend bool operator!=(var, var) noexcept { return false; }
};

/// A block, with its number of predecessors.
struct block {
    std::uint32_t predecessors;

    friend bool operator==(block a, block b) noexcept { return a.predecessors == b.predecessors; }
    friend bool operator!=(block a, block b) noexcept { return !(a == b); }
};

/// A choice by a block: a value for each of its predecessors.
struct phi {
    id block;
    std::vector<operand> values = {};

    friend bool operator==(const phi &a, const phi &b) noexcept { return a.block == b.block && a.values == b.values; }
    friend bool operator!=(const phi &a, const phi &b) noexcept { return !(a == b); }
};

/// An instruction that Souper keeps for itself.
struct reservedinst {
    friend bool operator==(reservedinst, reservedinst) noexcept { return true; }
    friend bool operator!=(reservedinst, reservedinst) noexcept { return false; }
};

/// A constant that Souper keeps for itself.
struct reservedconst {
    friend bool operator==(reservedconst, reservedconst) noexcept { return true; }
    friend bool operator!=(reservedconst, reservedconst) noexcept { return false; }
};

/// An operation and its operands, `operand_count` of them.
struct instruction {
    op operation;
    std::vector<operand> operands = {};

    friend bool operator==(const instruction &a, const instruction &b) noexcept {
        return a.operation == b.operation && a.operands == b.operands;
    }
    friend bool operator!=(const instruction &a, const instruction &b) noexcept { return !(a == b); }
};

/// What an assignment assigns.
using right_side = std::variant<var, block, phi, reservedinst, reservedconst, instruction>;

// Attributes of assignments: what is known of a value.

/// The bits of a value: `0`, `1`, or `x` for one that is not known, in the order of the text.
struct known_bits {
    std::string bits;

    friend bool operator==(const known_bits &a, const known_bits &b) noexcept { return a.bits == b.bits; }
    friend bool operator!=(const known_bits &a, const known_bits &b) noexcept { return !(a == b); }
};

struct power_of_two {
    friend bool operator==(power_of_two, power_of_two) noexcept { return true; }
    friend bool operator!=(power_of_two, power_of_two) noexcept { return false; }
};

struct negative {
    friend bool operator==(negative, negative) noexcept { return true; }
    friend bool operator!=(negative, negative) noexcept { return false; }
};

struct non_negative {
    friend bool operator==(non_negative, non_negative) noexcept { return true; }
    friend bool operator!=(non_negative, non_negative) noexcept { return false; }
};

struct non_zero {
    friend bool operator==(non_zero, non_zero) noexcept { return true; }
    friend bool operator!=(non_zero, non_zero) noexcept { return false; }
};

struct has_external_uses {
    friend bool operator==(has_external_uses, has_external_uses) noexcept { return true; }
    friend bool operator!=(has_external_uses, has_external_uses) noexcept { return false; }
};

/// The number of sign bits of a value.
struct sign_bits {
    std::uint8_t count;

    friend bool operator==(sign_bits a, sign_bits b) noexcept { return a.count == b.count; }
    friend bool operator!=(sign_bits a, sign_bits b) noexcept { return !(a == b); }
};

/// Bounds of a value: `(range=[low,high))`.
struct range {
    int128 low, high;

    friend bool operator==(const range &a, const range &b) noexcept { return a.low == b.low && a.high == b.high; }
    friend bool operator!=(const range &a, const range &b) noexcept { return !(a == b); }
};

/// An attribute of an assignment.
using attribute = std::variant<known_bits, power_of_two, negative, non_negative, non_zero, has_external_uses, sign_bits, range>;

// Statements.

/// `name = value`. The name begins with its `%`; the width is in bits, 1 to 65535, or none.
struct assignment {
    std::string name;
    std::optional<std::uint32_t> width = std::nullopt;
    right_side value = var{};
    std::vector<attribute> attributes = {};

    friend bool operator==(const assignment &a, const assignment &b) noexcept {
        return a.name == b.name && a.width == b.width && a.value == b.value && a.attributes == b.attributes;
    }
    friend bool operator!=(const assignment &a, const assignment &b) noexcept { return !(a == b); }
};

/// A path condition: x is y.
struct pc {
    operand x, y;

    friend bool operator==(const pc &a, const pc &b) noexcept { return a.x == b.x && a.y == b.y; }
    friend bool operator!=(const pc &a, const pc &b) noexcept { return !(a == b); }
};

/// A path condition on a predecessor of a block, by its index from 0: x is y.
struct blockpc {
    id block;
    std::uint32_t predecessor;
    operand x, y;

    friend bool operator==(const blockpc &a, const blockpc &b) noexcept {
        return a.block == b.block && a.predecessor == b.predecessor && a.x == b.x && a.y == b.y;
    }
    friend bool operator!=(const blockpc &a, const blockpc &b) noexcept { return !(a == b); }
};

/// A statement of an item.
using statement = std::variant<assignment, pc, blockpc>;

// Last lines.

/// The bits of a root that are wanted: `0` or `1`, in the order of the text.
struct demanded_bits {
    std::string bits;

    friend bool operator==(const demanded_bits &a, const demanded_bits &b) noexcept { return a.bits == b.bits; }
    friend bool operator!=(const demanded_bits &a, const demanded_bits &b) noexcept { return !(a == b); }
};

struct harvested_from_use {
    friend bool operator==(harvested_from_use, harvested_from_use) noexcept { return true; }
    friend bool operator!=(harvested_from_use, harvested_from_use) noexcept { return false; }
};

/// An attribute of the last lines.
using root_attribute = std::variant<demanded_bits, harvested_from_use>;

/// `infer value`: the last line of a left-hand side.
struct infer {
    id value;
    std::vector<root_attribute> attributes = {};

    friend bool operator==(const infer &a, const infer &b) noexcept { return a.value == b.value && a.attributes == b.attributes; }
    friend bool operator!=(const infer &a, const infer &b) noexcept { return !(a == b); }
};

/// `result value`: the last line of a right-hand side.
struct result {
    operand value;

    friend bool operator==(const result &a, const result &b) noexcept { return a.value == b.value; }
    friend bool operator!=(const result &a, const result &b) noexcept { return !(a == b); }
};

/// `infer replaced.value` and `result by.value`: the last lines of a replacement.
struct infer_result {
    infer replaced;
    result by;

    friend bool operator==(const infer_result &a, const infer_result &b) noexcept {
        return a.replaced == b.replaced && a.by == b.by;
    }
    friend bool operator!=(const infer_result &a, const infer_result &b) noexcept { return !(a == b); }
};

/// `cand replaced by`: the last line of a replacement.
struct cand {
    operand replaced, by;
    std::vector<root_attribute> attributes = {};

    friend bool operator==(const cand &a, const cand &b) noexcept {
        return a.replaced == b.replaced && a.by == b.by && a.attributes == b.attributes;
    }
    friend bool operator!=(const cand &a, const cand &b) noexcept { return !(a == b); }
};

/// The last lines of an item.
using last_lines = std::variant<infer, result, infer_result, cand>;

/// A left-hand side, a right-hand side or a replacement. The items of a text have all statements of the text, also those that
/// nothing needs, in its order; a statement uses statements before it.
struct item {
    std::vector<statement> statements;
    last_lines last;

    /// The assignment at a position; null if no statement or a path condition is there.
    const assignment *at(id position) const noexcept {
        return position.position < statements.size() ? std::get_if<assignment>(&statements[position.position]) : nullptr;
    }

    friend bool operator==(const item &a, const item &b) noexcept { return a.statements == b.statements && a.last == b.last; }
    friend bool operator!=(const item &a, const item &b) noexcept { return !(a == b); }
};

/// What the last lines make the item.
inline kind kind_of(const item &i) noexcept {
    return i.last.index() == 0 ? kind::lhs : i.last.index() == 1 ? kind::rhs : kind::rep;
}

namespace detail {

// Calls `visit` with each operand of a statement, which may be const.
template <typename Statement, typename Visit> void visit_operands(Statement &s, Visit &visit) {
    if (auto *condition = std::get_if<pc>(&s)) {
        visit(condition->x);
        visit(condition->y);
    } else if (auto *on_block = std::get_if<blockpc>(&s)) {
        visit(on_block->x);
        visit(on_block->y);
    } else if (auto *assigned = std::get_if<assignment>(&s)) {
        auto *choice = std::get_if<phi>(&assigned->value);
        auto *computed = std::get_if<instruction>(&assigned->value);
        if (auto *operands = choice ? &choice->values : computed ? &computed->operands : nullptr) {
            for (auto &o : *operands) {
                visit(o);
            }
        }
    }
}

} // namespace detail

/// Calls `visit` with each operand of a statement, from left to right. The block of a phi or `blockpc` is no operand.
template <typename Visit> void for_each_operand(const statement &s, Visit visit) { detail::visit_operands(s, visit); }

/// The same with operands that `visit` may change.
template <typename Visit> void for_each_operand(statement &s, Visit visit) { detail::visit_operands(s, visit); }

namespace detail {

// Calls `visit` with the id that an operand is, if it is one.
template <typename Operand, typename Visit> void visit_id(Operand &o, Visit &visit) {
    if (auto *used = std::get_if<id>(&o)) {
        visit(*used);
    }
}

// Calls `visit` with each id of a statement, or of last lines. These may be const.
template <typename Statement, typename Visit> void visit_ids(Statement &s, Visit &visit) {
    if (auto *on_block = std::get_if<blockpc>(&s)) {
        visit(on_block->block);
    } else if (auto *assigned = std::get_if<assignment>(&s)) {
        if (auto *choice = std::get_if<phi>(&assigned->value)) {
            visit(choice->block);
        }
    }
    const auto visit_used = [&visit](auto &o) { visit_id(o, visit); };
    visit_operands(s, visit_used);
}

template <typename Lines, typename Visit> void visit_last_ids(Lines &lines, Visit &visit) {
    if (auto *lhs = std::get_if<infer>(&lines)) {
        visit(lhs->value);
    } else if (auto *rhs = std::get_if<result>(&lines)) {
        visit_id(rhs->value, visit);
    } else if (auto *both = std::get_if<infer_result>(&lines)) {
        visit(both->replaced.value);
        visit_id(both->by.value, visit);
    } else if (auto *pair = std::get_if<cand>(&lines)) {
        visit_id(pair->replaced, visit);
        visit_id(pair->by, visit);
    }
}

} // namespace detail

/// Calls `visit` with the id of each use of a statement, in order: the block of a phi or `blockpc`, and then the operands from
/// left to right. Constants are no uses.
template <typename Visit> void for_each_use(const statement &s, Visit visit) { detail::visit_ids(s, visit); }

/// Calls `visit` with the id of each use of last lines, in order.
template <typename Visit> void for_each_use(const last_lines &lines, Visit visit) { detail::visit_last_ids(lines, visit); }

/// What uses each statement of an item, made once, in time linear in the item. It does not follow changes of the item.
class users {
public:
    /// Some statements, by their ids.
    class list {
    public:
        list(const id *from, const id *to) noexcept : first(from), past(to) {}

        const id *begin() const noexcept { return first; }
        const id *end() const noexcept { return past; }
        std::size_t size() const noexcept { return static_cast<std::size_t>(past - first); }
        bool empty() const noexcept { return first == past; }
        id operator[](std::size_t index) const noexcept { return first[index]; }

    private:
        const id *first, *past;
    };

    explicit users(const item &i) : ends(i.statements.size()), in_last(i.statements.size()) {
        visit(i, [this](std::size_t used, id) { ends[used]++; });
        std::size_t total = 0;
        for (std::size_t &end : ends) {
            total += std::exchange(end, total);
        }
        all.resize(total);
        visit(i, [this](std::size_t used, id user) { all[ends[used]++] = user; });
        for_each_use(i.last, [this](id used) {
            if (used.position < in_last.size()) {
                in_last[used.position] = true;
            }
        });
    }

    /// The statements that use the one at a position, each once, in their order.
    list of(id used) const noexcept {
        if (used.position >= ends.size()) {
            return {nullptr, nullptr};
        }
        return {all.data() + (used.position > 0 ? ends[used.position - 1] : 0), all.data() + ends[used.position]};
    }

    /// Whether a last line uses the statement at a position.
    bool in_last_lines(id used) const noexcept { return used.position < in_last.size() && in_last[used.position]; }

private:
    // Calls `take` with each statement that is used and each of its users.
    template <typename Take> static void visit(const item &i, Take take) {
        std::vector<std::size_t> user_of(i.statements.size(), SIZE_MAX); // the last that was seen
        for (std::size_t user = 0; user < i.statements.size(); user++) {
            for_each_use(i.statements[user], [&](id used) {
                if (used.position < user_of.size() && std::exchange(user_of[used.position], user) != user) {
                    take(used.position, id{user});
                }
            });
        }
    }

    std::vector<std::size_t> ends; // where the users of each statement end in `all`
    std::vector<id> all;
    std::vector<bool> in_last;
};

namespace detail {

// `other` returns what comes in the place of a value, or null.
template <typename Other> void replace_use(operand &o, const Other &other) {
    const id *used = std::get_if<id>(&o);
    if (const operand *by = used != nullptr ? other(*used) : nullptr) {
        o = operand(*by);
    }
}

// An infer line has a value, and keeps it where a constant would take its place.
template <typename Other> void replace_use(infer &line, const Other &other) {
    const operand *by = other(line.value);
    if (const id *value = by != nullptr ? std::get_if<id>(by) : nullptr) {
        line.value = *value;
    }
}

template <typename Other> void replace_uses(statement &s, const Other &other) {
    for_each_operand(s, [&other](operand &o) { replace_use(o, other); });
}

template <typename Other> void replace_uses(item &i, const Other &other) {
    for (statement &s : i.statements) {
        replace_uses(s, other);
    }
    if (auto *lhs = std::get_if<infer>(&i.last)) {
        replace_use(*lhs, other);
    } else if (auto *rhs = std::get_if<result>(&i.last)) {
        replace_use(rhs->value, other);
    } else if (auto *both = std::get_if<infer_result>(&i.last)) {
        replace_use(both->replaced, other);
        replace_use(both->by.value, other);
    } else if (auto *pair = std::get_if<cand>(&i.last)) {
        replace_use(pair->replaced, other);
        replace_use(pair->by, other);
    }
}

// What comes in the place of many values.
class replacements {
public:
    // Of pairs of an id and an operand, such as a map has. A value by itself stays, and an id past the end is none.
    template <typename Pairs> replacements(const Pairs &pairs, std::size_t count) : to(count, nullptr) {
        static_assert(std::is_lvalue_reference_v<decltype(*std::begin(pairs))>, "the pairs are to be in memory");
        for (const auto &[of, by] : pairs) {
            if (of.position < count) {
                const id *other = std::get_if<id>(&by);
                to[of.position] = other != nullptr && *other == of ? nullptr : &by;
            }
        }
    }

    // Lets each chain end: where a comes by b and b by c, a comes by c. If a chain comes back to a value, the value's position.
    std::optional<std::size_t> follow() {
        std::vector<std::size_t> begin_of(to.size(), SIZE_MAX), chain;
        for (std::size_t begin = 0; begin < to.size(); begin++) {
            chain.clear();
            std::size_t at = begin;
            while (is_replaced(at) && begin_of[at] == SIZE_MAX) {
                begin_of[at] = begin;
                chain.push_back(at);
                const id *next = std::get_if<id>(to[at]);
                at = next != nullptr ? next->position : SIZE_MAX;
            }
            if (chain.empty()) {
                continue;
            }
            if (is_replaced(at) && begin_of[at] == begin) {
                return at;
            }
            const operand *end = to[is_replaced(at) ? at : chain.back()];
            for (const std::size_t value : chain) {
                to[value] = end;
            }
        }
        return std::nullopt;
    }

    const operand *operator()(id of) const noexcept { return of.position < to.size() ? to[of.position] : nullptr; }

private:
    bool is_replaced(std::size_t position) const noexcept { return position < to.size() && to[position] != nullptr; }

    std::vector<const operand *> to;
};

} // namespace detail

/// Puts `by` in the place of each operand of the statement that is the value `of`. Nothing else changes.
inline void replace_uses(statement &s, id of, operand by) noexcept {
    detail::replace_uses(s, [of, &by](id used) { return used == of ? &by : nullptr; });
}

/// Puts `by` in the place of each operand of the item that is the value `of`, also in the last lines. An infer line has a value,
/// and keeps it if `by` is a constant. Nothing else changes: the blocks of phis and `blockpc`s are no operands. `write` says
/// whether the item is well formed then.
inline void replace_uses(item &i, id of, operand by) noexcept {
    detail::replace_uses(i, [of, &by](id used) { return used == of ? &by : nullptr; });
}

// ----------------------------------------------------------------
// The order of statements
//
// An id is a position, so these calls renumber the uses of statements that move, in the statements and the last lines. Ids that the
// program has itself are as before. An assignment whose name is empty gets a name as from a `builder`.

namespace detail {

// The number that a made name has: digits without a zero in front.
inline std::optional<std::size_t> number_of(std::string_view name) noexcept {
    if (name.size() < 2 || name.size() > 19 || name[0] != '%' || (name[1] == '0' && name.size() > 2)) {
        return std::nullopt;
    }
    std::size_t number = 0;
    for (const char digit : name.substr(1)) {
        if (digit < '0' || digit > '9') {
            return std::nullopt;
        }
        number = 10 * number + static_cast<unsigned char>(digit - '0');
    }
    return number;
}

// Gives each assignment without a name `%` and its position, or the next number that no name has.
inline void make_names(std::vector<statement> &all) {
    const auto name_of = [](statement &s) {
        auto *assigned = std::get_if<assignment>(&s);
        return assigned != nullptr ? &assigned->name : nullptr;
    };
    const auto is_unnamed = [name_of](statement &s) { return name_of(s) != nullptr && name_of(s)->empty(); };
    if (std::none_of(all.begin(), all.end(), is_unnamed)) {
        return;
    }
    std::unordered_set<std::size_t> given;
    for (statement &s : all) {
        const auto number = name_of(s) != nullptr ? number_of(*name_of(s)) : std::nullopt;
        if (number) {
            given.insert(*number);
        }
    }
    std::size_t next = 0;
    for (std::size_t position = 0; position < all.size(); position++) {
        if (is_unnamed(all[position])) {
            for (next = std::max(next, position); given.count(next) != 0; next++) {
            }
            *name_of(all[position]) = "%" + std::to_string(next++);
        }
    }
}

// Puts `number(used)` in the place of each id of the item.
template <typename Number> void renumber(item &i, const Number &number) {
    const auto change = [&number](id &used) { used = number(used); };
    for (statement &s : i.statements) {
        visit_ids(s, change);
    }
    visit_last_ids(i.last, change);
}

// The positions of the statements in an order in which each assignment stands before its uses: a walk in depth, from each in turn.
inline std::vector<std::size_t> sorted(const std::vector<statement> &all) {
    struct step {
        std::size_t position;
        bool uses_are_done;
    };
    std::vector<std::size_t> order;
    order.reserve(all.size());
    std::vector<bool> seen(all.size());
    std::vector<step> path;
    for (std::size_t from = 0; from < all.size(); from++) {
        path.push_back({from, false});
        while (!path.empty()) {
            const step top = path.back();
            path.pop_back();
            if (top.uses_are_done) {
                order.push_back(top.position);
            } else if (!seen[top.position]) {
                seen[top.position] = true;
                path.push_back({top.position, true});
                const std::size_t begin = path.size();
                for_each_use(all[top.position], [&](id used) {
                    if (used.position < all.size() && !seen[used.position] && std::holds_alternative<assignment>(all[used.position])) {
                        path.push_back({used.position, false});
                    }
                });
                std::reverse(path.begin() + static_cast<std::ptrdiff_t>(begin), path.end());
            }
        }
    }
    return order;
}

} // namespace detail

/// Puts each assignment before the statements that use it, so that a pass may append statements at the end and then call this. A
/// statement that stands too late comes right before the first that uses it, and the order of the others stays. Where statements use one
/// another in a cycle, a use before its definition remains. Returns the new id of each statement, by its position before. It takes time
/// linear in the item, without recursion.
inline std::vector<id> sort(item &i) {
    const std::vector<std::size_t> order = detail::sorted(i.statements);
    std::vector<id> ids(order.size());
    std::vector<statement> all;
    all.reserve(order.size());
    for (std::size_t position = 0; position < order.size(); position++) {
        ids[order[position]] = id{position};
        all.push_back(std::move(i.statements[order[position]]));
    }
    i.statements = std::move(all);
    detail::renumber(i, [&ids](id used) { return used.position < ids.size() ? ids[used.position] : used; });
    detail::make_names(i.statements);
    return ids;
}

/// Inserts a statement before the one at `place`, or at the end if there is none. Returns its id. The statements from `place` on are at
/// the next position then. The ids in the statement are, as `place` is, those from before. It takes time linear in the item: to insert
/// many, append them and call `sort`.
inline id insert_before(item &i, id place, statement inserted) {
    const id at{std::min(place.position, i.statements.size())};
    i.statements.push_back(std::move(inserted));
    detail::renumber(i, [at](id used) {
        return used.position < at.position || used.position == SIZE_MAX ? used : id{used.position + 1};
    });
    std::rotate(i.statements.begin() + static_cast<std::ptrdiff_t>(at.position), i.statements.end() - 1, i.statements.end());
    detail::make_names(i.statements);
    return at;
}

/// Moves the statement `which` before the one at `place`, or to the end if there is none. Returns its new id. The statements between
/// the two places move by one position. It takes time linear in the item.
inline id move_before(item &i, id which, id place) {
    const std::size_t count = i.statements.size(), from = which.position, to = std::min(place.position, count);
    if (from >= count) {
        return which;
    }
    const std::size_t at = to > from ? to - 1 : to, low = std::min(from, at), high = std::max(from, at);
    const auto statement_at = [&i](std::size_t position) { return i.statements.begin() + static_cast<std::ptrdiff_t>(position); };
    std::rotate(statement_at(low), statement_at(at < from ? from : from + 1), statement_at(high + 1));
    detail::renumber(i, [=](id used) {
        if (used == which) {
            return id{at};
        }
        return used.position < low || used.position > high ? used : id{at < from ? used.position + 1 : used.position - 1};
    });
    detail::make_names(i.statements);
    return id{at};
}

// ----------------------------------------------------------------
// Printing, of a number or a statement by itself. `write` prints items.

/// The number in decimal digits.
template <typename T, typename = std::enable_if_t<std::is_same_v<T, int128>>> std::string decimal(T value) {
    std::string digits;
    detail::uint128 rest = value < 0 ? -static_cast<detail::uint128>(value) : static_cast<detail::uint128>(value);
    do {
        digits.insert(digits.begin(), "0123456789"[rest % 10]);
        rest /= 10;
    } while (rest != 0);
    return value < 0 ? "-" + digits : digits;
}

namespace detail {

inline std::string of_width(const std::optional<std::uint32_t> &bits) { return bits ? ":i" + std::to_string(*bits) : std::string(); }

} // namespace detail

inline std::string to_string(const constant &number) { return decimal(number.value) + detail::of_width(number.width); }

inline std::ostream &operator<<(std::ostream &out, const constant &number) { return out << to_string(number); }

namespace detail {

// The text of a statement of a list.
class printer {
public:
    explicit printer(const std::vector<statement> &all) noexcept : statements(all) {}

    std::string line(const statement &s) const {
        if (const auto *condition = std::get_if<pc>(&s)) {
            return "pc " + text(condition->x) + " " + text(condition->y);
        }
        if (const auto *on_block = std::get_if<blockpc>(&s)) {
            return "blockpc " + name(on_block->block) + " " + std::to_string(on_block->predecessor) + " " + text(on_block->x) + " " +
                   text(on_block->y);
        }
        const auto &assigned = std::get<assignment>(s);
        std::string out = assigned.name + of_width(assigned.width) + " = " + text(assigned.value);
        for (const attribute &a : assigned.attributes) {
            out += " (" + text(a) + ")";
        }
        return out;
    }

private:
    // The name of an assignment; `?` if the statement at the position is none.
    std::string name(id of) const {
        const auto *assigned = of.position < statements.size() ? std::get_if<assignment>(&statements[of.position]) : nullptr;
        return assigned ? assigned->name : "?";
    }

    std::string text(const operand &o) const {
        if (const auto *number = std::get_if<constant>(&o)) {
            return to_string(*number);
        }
        return name(std::get<id>(o));
    }

    std::string list(std::string out, const char *before, const std::vector<operand> &operands) const {
        for (const operand &o : operands) {
            out += before + text(o);
            before = ", ";
        }
        return out;
    }

    std::string text(const right_side &value) const {
        if (const auto *choice = std::get_if<phi>(&value)) {
            return list("phi " + name(choice->block), ", ", choice->values);
        }
        if (const auto *computed = std::get_if<instruction>(&value)) {
            return list(to_string(computed->operation), " ", computed->operands);
        }
        if (const auto *of_block = std::get_if<block>(&value)) {
            return "block " + std::to_string(of_block->predecessors);
        }
        return std::holds_alternative<var>(value) ? "var" : std::holds_alternative<reservedinst>(value) ? "reservedinst" : "reservedconst";
    }

    static std::string text(const attribute &a) {
        if (const auto *known = std::get_if<known_bits>(&a)) {
            return "knownBits=" + known->bits;
        }
        if (const auto *sign = std::get_if<sign_bits>(&a)) {
            return "signBits=" + std::to_string(sign->count);
        }
        if (const auto *bounds = std::get_if<range>(&a)) {
            return "range=[" + decimal(bounds->low) + "," + decimal(bounds->high) + ")";
        }
        return std::holds_alternative<power_of_two>(a)   ? "powerOfTwo"
               : std::holds_alternative<negative>(a)     ? "negative"
               : std::holds_alternative<non_negative>(a) ? "nonNegative"
               : std::holds_alternative<non_zero>(a)     ? "nonZero"
                                                         : "hasExternalUses";
    }

    const std::vector<statement> &statements;
};

} // namespace detail

/// The line of a statement, without a newline, as `write` prints it; empty if there is none at the position. A use of no
/// assignment is printed as `?`.
inline std::string statement_text(const std::vector<statement> &statements, id which) {
    return which.position < statements.size() ? detail::printer(statements).line(statements[which.position]) : std::string();
}

// ----------------------------------------------------------------
// Errors

namespace detail {

// The length of the character that the bytes begin with; 0 if they begin with none.
inline std::size_t character(std::string_view text) noexcept {
    const auto at = [text](std::size_t i) -> unsigned { return i < text.size() ? static_cast<unsigned char>(text[i]) : 0U; };
    const auto follows = [at](std::size_t i) { return (at(i) & 0xc0U) == 0x80U; };
    const unsigned first = at(0), second = at(1);
    if (first < 0x80) {
        return text.empty() ? 0 : 1;
    }
    if (first >= 0xc2 && first < 0xe0) {
        return follows(1) ? 2 : 0;
    }
    if (first >= 0xe0 && first < 0xf0) {
        return second >= (first == 0xe0 ? 0xa0U : 0x80U) && second < (first == 0xed ? 0xa0U : 0xc0U) && follows(2) ? 3 : 0;
    }
    if (first >= 0xf0 && first < 0xf5) {
        return second >= (first == 0xf0 ? 0x90U : 0x80U) && second < (first == 0xf4 ? 0x90U : 0xc0U) && follows(2) && follows(3) ? 4 : 0;
    }
    return 0;
}

// The text, with `\xff` and the like for each byte that is in no character.
inline std::string escaped(std::string_view text) {
    std::string all;
    while (!text.empty()) {
        const std::size_t length = character(text);
        if (length > 0) {
            all.append(text.substr(0, length));
        } else {
            const auto byte = static_cast<unsigned char>(text.front());
            all.append("\\x").append(1, "0123456789abcdef"[byte >> 4U]).append(1, "0123456789abcdef"[byte & 15U]);
        }
        text.remove_prefix(length > 0 ? length : 1);
    }
    return all;
}

inline bool is_utf8(std::string_view text) noexcept {
    unsigned char all = 0;
    for (const char byte : text) {
        all |= static_cast<unsigned char>(byte);
    }
    if (all < 0x80) {
        return true;
    }
    for (std::size_t length = 1; !text.empty() && length > 0; text.remove_prefix(length)) {
        length = character(text);
    }
    return text.empty();
}

} // namespace detail

/// Why a call is not done; the names are those of souper.h.
enum class status : std::uint32_t {
    done = SOUPER_DONE,
    refused = SOUPER_REFUSED,
    no_kind = SOUPER_NO_KIND,
    out_of_memory = SOUPER_OUT_OF_MEMORY,
    not_utf8 = SOUPER_NOT_UTF8,
    no_code = SOUPER_NO_CODE,
    not_well_formed = SOUPER_NOT_WELL_FORMED,
    no_flags = SOUPER_NO_FLAGS,
    stream_ended = 1000, ///< of a `reader`: `finish` came before, or bytes that are not UTF-8
    cycle                ///< of `replace_uses`: the replacements of a value come back to it
};

inline std::string to_string(status s) {
    const auto number = static_cast<std::uint32_t>(s);
    const std::string_view text = s == status::stream_ended ? "the stream has ended"
                                  : s == status::cycle      ? "the replacements of a value come back to it"
                                                            : souper_status_text(number);
    return text == "unknown" ? detail::unknown(number) : std::string(text);
}

inline std::ostream &operator<<(std::ostream &out, status s) { return out << to_string(s); }

/// A statement or a last line of an item.
enum class flaw_location : std::uint32_t {
    at_statement = SOUPER_AT_STATEMENT,
    at_infer = SOUPER_AT_INFER,
    at_result = SOUPER_AT_RESULT,
    at_cand = SOUPER_AT_CAND
};

inline std::string to_string(flaw_location at) {
    switch (at) {
    case flaw_location::at_statement:
        return "statement";
    case flaw_location::at_infer:
        return "infer line";
    case flaw_location::at_result:
        return "result line";
    case flaw_location::at_cand:
        return "cand line";
    }
    return detail::unknown(static_cast<std::uint32_t>(at));
}

inline std::ostream &operator<<(std::ostream &out, flaw_location at) { return out << to_string(at); }

/// Why an item is not well formed, in the order in which the reasons are looked for at one statement or line.
enum class flaw_reason : std::uint32_t {
    invalid_name = SOUPER_INVALID_NAME,                      ///< the name is not % and letters, digits, _ or .
    empty_bits = SOUPER_EMPTY_BITS,                          ///< a list of bits is empty
    zero_width = SOUPER_ZERO_WIDTH,                          ///< a width is 0
    use_before_definition = SOUPER_USE_BEFORE_DEFINITION,    ///< an operand or the block is not a statement before this one
    not_an_assignment = SOUPER_NOT_AN_ASSIGNMENT,            ///< an operand is no assignment
    not_a_block = SOUPER_NOT_A_BLOCK,                        ///< what is used as a block is none
    value_count = SOUPER_VALUE_COUNT,                        ///< a phi has not one value per predecessor of its block
    predecessor_out_of_range = SOUPER_PREDECESSOR_OUT_OF_RANGE, ///< the block of a condition has no such predecessor
    duplicate_name = SOUPER_DUPLICATE_NAME,                  ///< a needed assignment before it has the same name

    // What has no code. The library does not see such an item, and needed or not, a statement is looked at.
    name_not_utf8 = 1000, ///< the name is not UTF-8
    wide,                 ///< a width is over 65535
    no_bit,               ///< a bit is none
    no_operation,         ///< an operation is none of the 59
    operand_count,        ///< an instruction has another number of operands than its operation
    other_kind,           ///< the last lines are those of another kind
    no_value              ///< a variant has no value, as after an exception
};

inline std::string to_string(flaw_reason why) {
    switch (why) {
    case flaw_reason::name_not_utf8:
        return "the name is not UTF-8";
    case flaw_reason::wide:
        return "a width is over 65535";
    case flaw_reason::no_bit:
        return "a bit is none";
    case flaw_reason::no_operation:
        return "the operation is none";
    case flaw_reason::operand_count:
        return "it has another number of operands";
    case flaw_reason::other_kind:
        return "the item is of another kind";
    case flaw_reason::no_value:
        return "a variant has no value";
    default:
        const std::string_view text = souper_reason_text(static_cast<std::uint32_t>(why));
        return text == "unknown" ? detail::unknown(static_cast<std::uint32_t>(why)) : std::string(text);
    }
}

inline std::ostream &operator<<(std::ostream &out, flaw_reason why) { return out << to_string(why); }

/// The first flaw of an item: of its needed statements in their order, and then of its last lines.
struct flaw {
    flaw_location location = flaw_location::at_statement;
    flaw_reason reason = flaw_reason::invalid_name;
    std::size_t position = 0; ///< at_statement: its position, from 0; else 0
    std::string name = {};    ///< at_statement: the name, if it is an assignment; else empty
    std::string text = {};    ///< the reason with its numbers, as `add has 2 operands, not 3`; empty if it has none

    /// Where and why, as `not_well_formed` shows it after the item. Bytes of the name that are not UTF-8 are `\xff` and the like.
    std::string shown() const {
        std::string all = to_string(location);
        if (location == flaw_location::at_statement) {
            all += " " + std::to_string(position);
        }
        if (!name.empty()) {
            all += " (" + detail::escaped(name) + ")";
        }
        return all + ": " + (text.empty() ? to_string(reason) : text);
    }
};

inline std::string to_string(const flaw &f) { return f.shown(); }

inline std::ostream &operator<<(std::ostream &out, const flaw &f) { return out << f.shown(); }

/// Why an item has no widths. Of flaws of one line of the list the first in the item is told; those of an earlier line come before.
enum class width_reason : std::uint32_t {
    typed_block = SOUPER_TYPED_BLOCK,             ///< a block has a type
    fact_on_computed = SOUPER_FACT_ON_COMPUTED,   ///< a fact is about a value that is no input
    block_as_value = SOUPER_BLOCK_AS_VALUE,       ///< an operand or a root is a block
    pair_as_value = SOUPER_PAIR_AS_VALUE,         ///< an operand or a root is the value of a word .with.overflow
    not_a_pair = SOUPER_NOT_A_PAIR,               ///< the first operand of extractvalue is none
    bad_index = SOUPER_BAD_INDEX,                 ///< the second is not 0 or 1
    conflict = SOUPER_CONFLICT,                   ///< a width has to be both `left` and `right`
    undetermined = SOUPER_UNDETERMINED,           ///< nothing says which width it is
    not_wider = SOUPER_NOT_WIDER,                 ///< the result of zext or sext is not wider than the operand
    not_narrower = SOUPER_NOT_NARROWER,           ///< the result of trunc is not narrower
    byte_swap = SOUPER_BYTE_SWAP,                 ///< the width of bswap is not a multiple of 16
    constant_too_wide = SOUPER_CONSTANT_TOO_WIDE, ///< a constant does not fit its width
    bit_count = SOUPER_BIT_COUNT,                 ///< known or demanded bits are not as many as the width
    sign_bits = SOUPER_SIGN_BITS,                 ///< there are more sign bits than the width has
    range = SOUPER_RANGE                          ///< an end of a range does not fit, or equal ends say neither nothing nor everything
};

inline std::string to_string(width_reason why) {
    const auto number = static_cast<std::uint32_t>(why);
    const std::string_view text = souper_width_reason_text(number);
    return text == "unknown" ? detail::unknown(number) : std::string(text);
}

inline std::ostream &operator<<(std::ostream &out, width_reason why) { return out << to_string(why); }

/// The first flaw of an item that has no widths.
struct width_flaw {
    flaw_location location = flaw_location::at_statement;
    width_reason reason = width_reason::undetermined;
    std::uint32_t left = 0, right = 0; ///< conflict: the two widths
    std::size_t position = 0;          ///< at_statement: its position, from 0; else 0
    std::string name = {};             ///< at_statement: the name, if it is an assignment; else empty

    /// Where and why.
    std::string shown() const {
        const flaw at{location, flaw_reason::invalid_name, position, name,
                      reason == width_reason::conflict ? "i" + std::to_string(left) + " and i" + std::to_string(right) + " clash"
                                                       : to_string(reason)};
        return at.shown();
    }
};

inline std::string to_string(const width_flaw &f) { return f.shown(); }

inline std::ostream &operator<<(std::ostream &out, const width_flaw &f) { return out << f.shown(); }

/// The widths of an item, in bits, by the positions of its statements; or why it has none. A width is 0 where there is none, and of a
/// statement that the item does not need.
struct widths {
    std::vector<std::uint32_t> results = {};  ///< of the result of each statement; a block and a path condition have none
    std::vector<std::uint32_t> operands = {}; ///< of the operands of each statement; the condition of a select has one bit besides
    std::uint32_t root = 0;                   ///< of the operands of the last lines
    std::optional<width_flaw> why = {};       ///< why the item has no widths; none if it has
};

/// Where a text is at fault: where the token at fault begins or, if the text ended where more is wanted, where it ends, without the
/// white space at its end.
struct location {
    std::size_t offset; ///< in bytes, from the first byte of the text
    std::size_t line;   ///< from 1
    std::size_t column; ///< in bytes and from 1

    friend bool operator==(const location &a, const location &b) noexcept {
        return a.offset == b.offset && a.line == b.line && a.column == b.column;
    }
    friend bool operator!=(const location &a, const location &b) noexcept { return !(a == b); }
};

/// What a `try_` call reports. What is not named for the status is 0, false or empty.
struct error {
    status what = status::done;
    unsigned input = 0;     ///< refused, not_utf8: which text of the call, 0 the first, 1 the second
    std::size_t index = 0;  ///< no_code, not_well_formed: which item, from 0; cycle: the position of such a value
    std::size_t offset = 0; ///< refused: how many bytes were read; no_code, not_well_formed: where the code of the item begins;
                            ///< not_utf8 of a stream: where the first byte is that is in no character
    std::size_t line = 0;   ///< refused: the line of the last of these bytes, or of the first byte if there is none; not_utf8 of a
                            ///< stream: the line of that byte; from 1
    std::size_t column = 0; ///< refused: its column, in bytes and from 1
    std::string shown = {}; ///< refused: why and where, in four lines without a newline at the end; where is `location` or, without one,
                            ///< `line` and `column`
    std::optional<flaw> why = {}; ///< not_well_formed: the first flaw of the item, if it could be asked for; no_code: the flaw, if the
                                  ///< bytes have a value that is none
    std::optional<souper::location> location = {}; ///< refused: where the text is at fault; none if memory ran out for it
    bool at_end = false; ///< refused: whether the text ended where more is wanted; false without a location
    std::string message = {}; ///< refused: what `shown` says, without the place and the line; else what the exception says; empty if
                              ///< memory ran out
    std::string hint = {}; ///< refused: what the writer may have meant, for a person, in one line; empty if there is no hint
};

/// What the exception says.
inline std::string to_string(const error &e) {
    return e.what == status::refused ? e.shown : e.message.empty() ? to_string(e.what) : e.message;
}

inline std::ostream &operator<<(std::ostream &out, const error &e) { return out << to_string(e); }

namespace detail {

// What a refusal says: from the first `: ` to the three lines that show the place.
inline std::string_view message_of(std::string_view shown) noexcept {
    std::size_t end = shown.size();
    for (int line = 0; line < 3 && end != std::string_view::npos; line++) {
        end = end > 0 ? shown.rfind('\n', end - 1) : std::string_view::npos;
    }
    const std::string_view first = shown.substr(0, end);
    const std::size_t place = first.find(": ");
    return place == std::string_view::npos ? first : first.substr(place + 2);
}

inline std::string not_utf8_text(std::size_t offset, std::size_t line) {
    return line > 0 ? "line " + std::to_string(line) + ": not UTF-8 at byte " + std::to_string(offset) : "the text is not UTF-8";
}

inline std::string not_well_formed_text(std::size_t index, const std::optional<flaw> &why) {
    return "item " + std::to_string(index) + " is not well formed" + (why ? ": " + why->shown() : "");
}

inline std::string bad_code_text(std::size_t offset, const std::optional<flaw> &why) {
    return "at byte " + std::to_string(offset) + " is the code of no item" + (why ? ": " + why->shown() : "");
}

inline std::string message_of(const error &e) {
    switch (e.what) {
    case status::refused:
        return std::string(message_of(e.shown));
    case status::not_utf8:
        return not_utf8_text(e.offset, e.line);
    case status::no_kind:
        return "the kind is none";
    case status::no_flags:
        return "a flag is none";
    case status::no_code:
        return bad_code_text(e.offset, e.why);
    case status::not_well_formed:
        return not_well_formed_text(e.index, e.why);
    case status::cycle:
        return "statement " + std::to_string(e.index) + ": " + to_string(e.what);
    case status::stream_ended:
        return to_string(e.what);
    case status::out_of_memory:
        return {};
    case status::done:
        break;
    }
    return "the library returned the status " + to_string(e.what);
}

} // namespace detail

// ----------------------------------------------------------------
// Building

#if defined(__cpp_exceptions)
inline namespace with_exceptions {
#else
inline namespace without_exceptions {
#endif

/// Builds an item, statement by statement. But for names nothing is tested before the item is written: `write` says whether it
/// is well formed.
///
/// A name may have its `%` or not, and comes before a width, which is in bits, 1 to 65535, or none. An assignment without a name
/// gets `%` and its position, or the next number that is free. A name that is taken is a `std::invalid_argument`; without
/// exceptions it is taken again, and the item is not well formed if both assignments are needed.
class builder {
    // A width where a name was expected: the order of arguments of version 1.0.
    template <typename W>
    using if_width = std::enable_if_t<std::is_convertible_v<W, std::optional<std::uint32_t>> && !std::is_convertible_v<W, std::string_view>>;

public:
    builder() = default;

    /// Begins with these statements, as of an item that was read. Each keeps its position.
    explicit builder(std::vector<statement> begun) : statements(std::move(begun)) {
        for (const statement &s : statements) {
            if (const auto *assigned = std::get_if<assignment>(&s)) {
                given_names.insert(assigned->name);
            }
        }
    }

    /// Whether no assignment has this name, which may have its `%` or not.
    bool is_free(std::string_view name) const { return is_new(with_percent(name)); }

    /// Appends an assignment, and returns its position for later uses.
    id assign(right_side value, std::string_view name = {}, std::optional<std::uint32_t> width = {},
              std::vector<attribute> attributes = {}) {
        if (statements.empty()) {
            forget_names();
        }
        // Nothing is changed if memory runs out: a move asks for none.
        if (statements.size() == statements.capacity()) {
            statements.reserve(2 * statements.size() + 8);
        }
        const std::size_t number = name.empty() ? free_number() : 0;
        std::string chosen = name.empty() ? "%" + std::to_string(number) : with_percent(name);
#if defined(__cpp_exceptions)
        if (!is_new(chosen)) {
            throw std::invalid_argument(
                flaw{flaw_location::at_statement, flaw_reason::duplicate_name, statements.size(), chosen}.shown());
        }
#endif
        if (name.empty()) {
            made_names.insert(number);
            next_number = number + 1;
        } else {
            given_names.insert(chosen);
        }
        return append(assignment{std::move(chosen), width, std::move(value), std::move(attributes)});
    }

    /// An input.
    id var(std::string_view name = {}, std::optional<std::uint32_t> width = {}, std::vector<attribute> attributes = {}) {
        return assign(souper::var{}, name, width, std::move(attributes));
    }

    /// A block, for phis and for path conditions on its predecessors.
    id block(std::uint32_t predecessors, std::string_view name = {}) { return assign(souper::block{predecessors}, name); }

    /// A choice by a block, with a value for each of its predecessors.
    id phi(id of, std::vector<operand> values, std::string_view name = {}, std::optional<std::uint32_t> width = {},
           std::vector<attribute> attributes = {}) {
        return assign(souper::phi{of, std::move(values)}, name, width, std::move(attributes));
    }

    /// An instruction, with `operand_count(operation)` operands.
    id inst(op operation, std::vector<operand> operands, std::string_view name = {}, std::optional<std::uint32_t> width = {},
            std::vector<attribute> attributes = {}) {
        return assign(instruction{operation, std::move(operands)}, name, width, std::move(attributes));
    }

    // The same with the width before the name.

    template <typename W = std::optional<std::uint32_t>, typename = if_width<W>>
    [[deprecated("the name comes before the width")]] id assign(right_side value, W width, std::string_view name = {},
                                                                std::vector<attribute> attributes = {}) {
        return assign(std::move(value), name, std::optional<std::uint32_t>(width), std::move(attributes));
    }

    template <typename W = std::optional<std::uint32_t>, typename = if_width<W>>
    [[deprecated("the name comes before the width")]] id phi(id of, std::vector<operand> values, W width, std::string_view name = {}) {
        return phi(of, std::move(values), name, std::optional<std::uint32_t>(width));
    }

    template <typename W = std::optional<std::uint32_t>, typename = if_width<W>>
    [[deprecated("the name comes before the width")]] id inst(op operation, std::vector<operand> operands, W width,
                                                              std::string_view name = {}, std::vector<attribute> attributes = {}) {
        return inst(operation, std::move(operands), name, std::optional<std::uint32_t>(width), std::move(attributes));
    }

    /// A path condition: x is y.
    void pc(operand x, operand y) { append(souper::pc{x, y}); }

    /// A path condition on the predecessor of a block with this index, from 0: x is y.
    void blockpc(id of, std::uint32_t predecessor, operand x, operand y) { append(souper::blockpc{of, predecessor, x, y}); }

    // Each of these returns the item, and leaves the builder without statements.

    item infer(id value, std::vector<root_attribute> attributes = {}) { return end(souper::infer{value, std::move(attributes)}); }

    item result(operand value) { return end(souper::result{value}); }

    item infer_result(id replaced, operand by, std::vector<root_attribute> attributes = {}) {
        return end(souper::infer_result{{replaced, std::move(attributes)}, {by}});
    }

    item cand(operand replaced, operand by, std::vector<root_attribute> attributes = {}) {
        return end(souper::cand{replaced, by, std::move(attributes)});
    }

private:
    static std::string with_percent(std::string_view name) {
        std::string all(name.empty() || name.front() != '%' ? "%" : "");
        return all += name;
    }

    bool is_new(const std::string &name) const {
        const auto number = detail::number_of(name);
        return given_names.count(name) == 0 && !(number && made_names.count(*number) != 0);
    }

    // The position of the next statement, or the next number that is free.
    std::size_t free_number() const {
        std::size_t number = next_number < statements.size() ? statements.size() : next_number;
        while (given_names.count("%" + std::to_string(number)) != 0) {
            number++;
        }
        return number;
    }

    void forget_names() {
        given_names = {};
        made_names = {};
        next_number = 0;
    }

    id append(statement s) {
        statements.push_back(std::move(s));
        return id{statements.size() - 1};
    }

    item end(last_lines last) { return item{std::exchange(statements, {}), std::move(last)}; }

    std::vector<statement> statements;
    std::unordered_set<std::string> given_names;
    std::unordered_set<std::size_t> made_names;

    // The numbers below it are not tried again.
    std::size_t next_number = 0;
};

} // namespace with_exceptions, or without

// ----------------------------------------------------------------
// Records

/// What `records` returns of an item.
struct record {
    std::string key;  ///< the SHA-256 of the text, in 64 hexadecimal digits
    std::string text; ///< the canonical text, without the newline that `format` writes after it
};

/// What `key` adds or changes; combined by `|`.
enum class flags : std::uint32_t {
    none = 0,
    key = SOUPER_KEY,       ///< before each text a line `; ` and the SHA-256 of the text in hexadecimal digits
    rename = SOUPER_RENAME, ///< names %0, %1, .. in printed order
    null = SOUPER_NULL      ///< a byte 0 after each text in place of the newline
};

constexpr flags operator|(flags a, flags b) noexcept {
    return static_cast<flags>(static_cast<std::uint32_t>(a) | static_cast<std::uint32_t>(b));
}

// ----------------------------------------------------------------
// The code of items, which crates/souper_code/src/lib.rt describes

namespace detail {

// The line whose kind is that of the item.
inline flaw_location last_location(const item &i) noexcept {
    return std::holds_alternative<result>(i.last) ? flaw_location::at_result
           : std::holds_alternative<cand>(i.last) ? flaw_location::at_cand
                                                  : flaw_location::at_infer;
}

inline std::string no_operation_text(op operation) { return to_string(operation) + " is no operation"; }

inline std::string operand_count_text(const instruction &i) {
    const std::size_t wanted = operand_count(i.operation);
    return to_string(i.operation) + " has " + std::to_string(wanted) + (wanted == 1 ? " operand, not " : " operands, not ") +
           std::to_string(i.operands.size());
}

inline std::string other_kind_text(kind is, kind wanted) { return "the item is of the kind " + to_string(is) + ", not " + to_string(wanted); }

// Bytes that grow at their end. They are not set before they are written.
class buffer {
public:
    std::size_t size() const noexcept { return used; }
    void keep(std::size_t count) noexcept { used = count; }
    std::string_view view() const noexcept { return {used > 0 ? bytes.get() : "", used}; }
    void clear() noexcept { keep(0); }

    // Makes room for so many bytes.
    void need(std::size_t count) {
        if (room - used < count) {
            grow(count);
        }
    }

    // Where bytes may be written for which there is room; `wrote` says how many were.
    std::uint8_t *end() const noexcept { return reinterpret_cast<std::uint8_t *>(bytes.get()) + used; }
    void wrote(std::size_t count) noexcept { used += count; }

    // Appends bytes for which there is room.
    void append(std::string_view text) noexcept {
        std::memcpy(bytes.get() + used, text.data(), text.size());
        used += text.size();
    }

    template <typename T> void put(T value) noexcept {
        std::memcpy(bytes.get() + used, &value, sizeof value);
        used += sizeof value;
    }

private:
    void grow(std::size_t count) {
        constexpr std::size_t least = 1024;
        const std::size_t wanted = used + std::max({count, used, least});
        std::unique_ptr<char[]> more(new char[wanted]);
        if (used > 0) {
            std::memcpy(more.get(), bytes.get(), used);
        }
        bytes = std::move(more);
        room = wanted;
    }

    std::unique_ptr<char[]> bytes;
    std::size_t used = 0, room = 0;
};

// Appends the code of items, or of their parts, to a buffer, or to what has its `need`, `append` and `put`. Room is made for the fixed part
// of what is put, and of a list for all elements.
template <typename Out> class encoder {
public:
    explicit encoder(Out &code) noexcept : out(code) {}

    // Where and why the first value is that has no code; `describe` adds its texts.
    std::optional<flaw> why;

    void put(const item &i) {
        out.need(size_length);
        size(i.statements.size());
        at.location = flaw_location::at_statement;
        for (at.position = 0; at.position < i.statements.size(); at.position++) {
            put(i.statements[at.position]);
        }
        at.location = last_location(i);
        at.position = 0;
        out.need(1 + 2 * size_length + 2 * operand_length);
        byte(i.last.index());
        if (const auto *lhs = std::get_if<infer>(&i.last)) {
            put(*lhs);
        } else if (const auto *rhs = std::get_if<result>(&i.last)) {
            put(rhs->value);
        } else if (const auto *both = std::get_if<infer_result>(&i.last)) {
            put(both->replaced);
            at.location = flaw_location::at_result;
            out.need(operand_length);
            put(both->by.value);
        } else if (const auto *pair = std::get_if<cand>(&i.last)) {
            put(pair->replaced);
            put(pair->by);
            list(pair->attributes, 0);
        }
    }

    void put(const statement &s) {
        out.need(1);
        byte(s.index());
        if (const auto *assigned = std::get_if<assignment>(&s)) {
            put(*assigned);
        } else if (const auto *condition = std::get_if<pc>(&s)) {
            put(*condition);
        } else if (const auto *on_block = std::get_if<blockpc>(&s)) {
            put(*on_block);
        }
    }

    void put(const assignment &assigned) {
        // A name, a width, the number of a right side with the fixed part of a phi, and two lists.
        out.need(assigned.name.size() + width_length + 2 + 4 * size_length);
        size(assigned.name.size());
        out.append(assigned.name);
        if (!is_utf8(assigned.name)) {
            fail(flaw_reason::name_not_utf8);
        }
        width(assigned.width);
        put(assigned.value);
        list(assigned.attributes, 0);
    }

    void put(const pc &condition) {
        out.need(2 * operand_length);
        put(condition.x);
        put(condition.y);
    }

    void put(const blockpc &on_block) {
        out.need(size_length + sizeof on_block.predecessor + 2 * operand_length);
        size(on_block.block.position);
        plain(on_block.predecessor);
        put(on_block.x);
        put(on_block.y);
    }

    void put(const constant &number) {
        out.need(operand_length);
        put_constant(number);
    }

private:
    // The lengths of the codes of a size, and of the longest ones of a width and of an operand.
    static constexpr std::size_t size_length = 8, width_length = 3, operand_length = 1 + sizeof(int128) + width_length;

    void fail(flaw_reason reason) {
        if (!why) {
            why = at;
            why->reason = reason;
        }
    }

    template <typename T> void plain(T value) { out.put(value); }

    // The index of a variant.
    void byte(std::size_t value) {
        if (value > UINT8_MAX) {
            fail(flaw_reason::no_value);
        }
        plain(static_cast<std::uint8_t>(value));
    }

    void size(std::uint64_t value) { plain(value); }

    // The list's length, for which there is room, and its elements.
    template <typename T> void list(const std::vector<T> &all, std::size_t longest) {
        size(all.size());
        out.need(all.size() * longest + size_length);
        for (const T &one : all) {
            put(one);
        }
    }

    void bits(const std::string &text, std::string_view digits) {
        out.need(size_length + text.size());
        size(text.size());
        for (const char digit : text) {
            const std::size_t bit = digits.find(digit);
            if (bit == std::string_view::npos) {
                fail(flaw_reason::no_bit);
            }
            plain(static_cast<std::uint8_t>(bit));
        }
    }

    void width(const std::optional<std::uint32_t> &bits_wide) {
        byte(bits_wide.has_value());
        if (bits_wide) {
            if (*bits_wide > UINT16_MAX) {
                fail(flaw_reason::wide);
            }
            plain(static_cast<std::uint16_t>(*bits_wide));
        }
    }

    void put(const operand &o) {
        byte(o.index());
        if (const auto *used = std::get_if<id>(&o)) {
            size(used->position);
        } else if (const auto *number = std::get_if<constant>(&o)) {
            put_constant(*number);
        }
    }

    void put_constant(const constant &number) {
        plain(number.value);
        width(number.width);
    }

    void put(const attribute &a) {
        out.need(1 + 2 * sizeof(int128));
        byte(a.index());
        if (const auto *known = std::get_if<known_bits>(&a)) {
            bits(known->bits, "01x");
        } else if (const auto *sign = std::get_if<sign_bits>(&a)) {
            plain(sign->count);
        } else if (const auto *bounds = std::get_if<range>(&a)) {
            plain(bounds->low);
            plain(bounds->high);
        }
    }

    void put(const root_attribute &a) {
        out.need(1);
        byte(a.index());
        if (const auto *demanded = std::get_if<demanded_bits>(&a)) {
            bits(demanded->bits, "01");
        }
    }

    void put(const right_side &value) {
        byte(value.index());
        if (const auto *of_block = std::get_if<block>(&value)) {
            plain(of_block->predecessors);
        } else if (const auto *choice = std::get_if<phi>(&value)) {
            size(choice->block.position);
            list(choice->values, operand_length);
        } else if (const auto *computed = std::get_if<instruction>(&value)) {
            if (word(computed->operation).empty()) {
                fail(flaw_reason::no_operation);
            } else if (computed->operands.size() != operand_count(computed->operation)) {
                fail(flaw_reason::operand_count);
            }
            plain(computed->operation);
            list(computed->operands, operand_length);
        }
    }

    void put(const infer &i) {
        size(i.value.position);
        list(i.attributes, 0);
    }

    Out &out;

    // The place of what is coded.
    flaw at = {};
};

// Adds the name and the text to the flaw of an item that has no code, or not one of the kind.
inline void describe(flaw &f, const item &i, std::optional<kind> wanted) {
    const assignment *assigned = f.location == flaw_location::at_statement ? i.at(id{f.position}) : nullptr;
    const instruction *computed = assigned != nullptr ? std::get_if<instruction>(&assigned->value) : nullptr;
    if (assigned != nullptr) {
        f.name = assigned->name;
    }
    if (f.reason == flaw_reason::no_operation && computed != nullptr) {
        f.text = no_operation_text(computed->operation);
    } else if (f.reason == flaw_reason::operand_count && computed != nullptr) {
        f.text = operand_count_text(*computed);
    } else if (f.reason == flaw_reason::no_bit) {
        f.text = assigned != nullptr ? "a bit is not 0, 1 or x" : "a bit is not 0 or 1";
    } else if (f.reason == flaw_reason::other_kind && wanted) {
        f.text = other_kind_text(kind_of(i), *wanted);
    }
}

// Takes a code, and keeps its hash alone: FNV-1a of 64 bits.
class hash_sink {
public:
    std::uint64_t hash = 0xcbf29ce484222325U;

    void need(std::size_t) noexcept {}

    void append(std::string_view text) noexcept {
        for (const char byte : text) {
            add(static_cast<unsigned char>(byte));
        }
    }

    template <typename T> void put(T value) noexcept {
        unsigned char bytes[sizeof value];
        std::memcpy(bytes, &value, sizeof value);
        for (const unsigned char byte : bytes) {
            add(byte);
        }
    }

private:
    void add(unsigned char byte) noexcept { hash = (hash ^ byte) * 0x100000001b3U; }
};

// Equal values have equal codes.
template <typename T> std::size_t hash_of(const T &value) noexcept {
    hash_sink sink;
    encoder<hash_sink>(sink).put(value);
    return sink.hash;
}

// Reads items from the front of a code. Where a byte is none that a code has there, or bytes are missing, `good` is false and what is read
// means nothing. A list is not longer than the bytes that are left allow, so memory is bounded by the length of the code.
//
// A statement's fixed part, with up to three operands, is read without looking whether its bytes are there, if that many are: `Sure`.
class decoder {
public:
    explicit decoder(std::string_view code) noexcept : at(code.data()), end(code.data() + code.size()) {}

    bool good = true;

    // Where and why a value is none. Nothing if bytes are missing, or a variant has another number.
    std::optional<flaw> why;

    std::size_t left() const noexcept { return static_cast<std::size_t>(end - at); }

    void get_item(kind k, item &i) {
        place.location = flaw_location::at_statement;
        place.position = 0;
        get_list(i.statements, least_statement, [this](statement &s) { get_statement(s); });
        place.location = flaw_location::at_infer;
        place.position = 0;
        get_last(i.last);
        place.location = last_location(i);
        if (good && kind_of(i) != k) {
            fail(flaw_reason::other_kind, other_kind_text(kind_of(i), k));
        }
    }

private:
    // The lengths of the shortest codes, and of the longest one of an operand and of the fixed part of a statement after its name: a width,
    // a right side of three operands, and the length of the list of attributes.
    static constexpr std::size_t least_operand = 9, least_statement = 19, least_attribute = 1;
    static constexpr std::size_t operand_length = 20, fixed_length = 3 + 10 + 3 * operand_length + 8;

    void fail(flaw_reason reason, std::string text = {}) {
        if (good) {
            why = place;
            why->reason = reason;
            why->text = std::move(text);
        }
        good = false;
    }

    // Whether so many bytes are there. Where it is sure, they are, after a failure too.
    template <bool Sure = false> bool has(std::size_t count) noexcept {
        good = Sure ? good : good && left() >= count;
        return Sure || good;
    }

    // Bytes that are there.
    template <typename T> T take() noexcept {
        T value;
        std::memcpy(&value, at, sizeof value);
        at += sizeof value;
        return value;
    }

    template <typename T, bool Sure = false> T plain() noexcept { return has<Sure>(sizeof(T)) ? take<T>() : T{}; }

    // A byte below a bound.
    template <bool Sure = false> std::uint8_t byte(std::size_t bound) noexcept {
        const auto value = plain<std::uint8_t, Sure>();
        good = good && value < bound;
        return value;
    }

    // The length of a list whose elements have at least these bytes.
    template <bool Sure = false> std::size_t length(std::size_t least) noexcept {
        const auto count = plain<std::uint64_t, Sure>();
        good = good && count <= left() / least;
        return good ? static_cast<std::size_t>(count) : 0;
    }

    template <typename T, typename Get> void get_list(std::vector<T> &all, std::size_t least, Get get) {
        get_elements(all, length(least), get);
    }

    template <typename T, typename Get> void get_elements(std::vector<T> &all, std::size_t count, Get get) {
        if (count > 0) {
            all.reserve(count);
        }
        for (std::size_t i = 0; good && i < count; i++) {
            get(all.emplace_back());
        }
    }

    std::string_view text() noexcept {
        const std::size_t count = length(1);
        return {std::exchange(at, at + count), count};
    }

    void get_bits(std::string &bits, std::string_view digits) {
        bits = text();
        for (char &bit : bits) {
            const auto value = static_cast<unsigned char>(bit);
            if (value >= digits.size()) {
                fail(flaw_reason::no_bit);
                return;
            }
            bit = digits[value];
        }
    }

    template <bool Sure> void get_width(std::optional<std::uint32_t> &width) noexcept {
        if (byte<Sure>(2) == 1) {
            width = plain<std::uint16_t, Sure>();
        }
    }

    template <bool Sure = false> id get_id() noexcept { return id{plain<std::uint64_t, Sure>()}; }

    template <bool Sure = false> void get_operand(operand &o) noexcept {
        if (byte<Sure>(2) == 0) {
            o = get_id<Sure>();
            return;
        }
        constant number{plain<int128, Sure>()};
        get_width<Sure>(number.width);
        o = number;
    }

    void get_attribute(attribute &a) {
        switch (byte(std::variant_size_v<attribute>)) {
        case 0:
            return get_bits(a.emplace<known_bits>().bits, "01x");
        case 1:
            a = power_of_two{};
            return;
        case 2:
            a = negative{};
            return;
        case 3:
            a = non_negative{};
            return;
        case 4:
            a = non_zero{};
            return;
        case 5:
            a = has_external_uses{};
            return;
        case 6:
            a = sign_bits{plain<std::uint8_t>()};
            return;
        default:
            const auto low = plain<int128>();
            a = range{low, plain<int128>()};
        }
    }

    void get_root_attribute(root_attribute &a) {
        if (byte(std::variant_size_v<root_attribute>) == 0) {
            return get_bits(a.emplace<demanded_bits>().bits, "01");
        }
        a = harvested_from_use{};
    }

    void get_root_attributes(std::vector<root_attribute> &all) {
        get_list(all, least_attribute, [this](root_attribute &a) { get_root_attribute(a); });
    }

    template <bool Sure> void get_instruction(instruction &computed) {
        computed.operation = plain<op, Sure>();
        if (good && word(computed.operation).empty()) {
            return fail(flaw_reason::no_operation, no_operation_text(computed.operation));
        }
        const std::size_t count = length<Sure>(least_operand);
        if (good && count != operand_count(computed.operation)) {
            computed.operands.resize(count, id{0});
            return fail(flaw_reason::operand_count, operand_count_text(computed));
        }
        get_elements(computed.operands, count, [this](operand &o) { get_operand<Sure>(o); });
    }

    template <bool Sure> void get_right_side(right_side &value) {
        switch (byte<Sure>(std::variant_size_v<right_side>)) {
        case 0:
            return;
        case 1:
            value = block{plain<std::uint32_t, Sure>()};
            return;
        case 2: {
            auto &choice = value.emplace<phi>(phi{get_id<Sure>()});
            get_list(choice.values, least_operand, [this](operand &o) { get_operand(o); });
            return;
        }
        case 3:
            value = reservedinst{};
            return;
        case 4:
            value = reservedconst{};
            return;
        default:
            get_instruction<Sure>(value.emplace<instruction>());
        }
    }

    template <bool Sure> void get_rest(assignment &assigned) {
        get_width<Sure>(assigned.width);
        get_right_side<Sure>(assigned.value);
    }

    void get_assignment(assignment &assigned) {
        assigned.name = text();
        if (!is_utf8(assigned.name)) {
            fail(flaw_reason::name_not_utf8);
        }
        if (left() >= fixed_length) {
            get_rest<true>(assigned);
        } else {
            get_rest<false>(assigned);
        }
        get_list(assigned.attributes, least_attribute, [this](attribute &a) { get_attribute(a); });
        if (why) {
            why->name = assigned.name;
        }
    }

    void get_statement(statement &s) {
        const auto which = byte(std::variant_size_v<statement>);
        if (which == 0) {
            get_assignment(*std::get_if<assignment>(&s));
        } else if (which == 1) {
            auto &condition = s.emplace<pc>();
            get_operand(condition.x);
            get_operand(condition.y);
        } else {
            auto &on_block = s.emplace<blockpc>(blockpc{get_id(), plain<std::uint32_t>(), {}, {}});
            get_operand(on_block.x);
            get_operand(on_block.y);
        }
        place.position++;
    }

    void get_infer(infer &line) {
        line.value = get_id();
        get_root_attributes(line.attributes);
    }

    void get_last(last_lines &last) {
        switch (byte(std::variant_size_v<last_lines>)) {
        case 0:
            return get_infer(*std::get_if<infer>(&last));
        case 1:
            return get_operand(last.emplace<result>().value);
        case 2: {
            auto &both = last.emplace<infer_result>();
            get_infer(both.replaced);
            return get_operand(both.by.value);
        }
        default:
            place.location = flaw_location::at_cand;
            auto &pair = last.emplace<cand>();
            get_operand(pair.replaced);
            get_operand(pair.by);
            get_root_attributes(pair.attributes);
        }
    }

    const char *at, *end;

    // The place of what is read.
    flaw place = {};
};

// What is read or written at once, in bytes: so much that calls are few, and so little that it stays in the processor's cache.
constexpr std::size_t part_length = 1 << 15;

// Appends the code of items from `next` on, which are to be of the kind, if one is given: up to the last, or to the one with which the code
// is as long as a part. (Of a kind that is none the library says so.)
inline bool encode_part(std::optional<kind> wanted, const item *items, std::size_t count, std::size_t &next, buffer &code, error &e) {
    encoder<buffer> to(code);
    for (; next < count && code.size() < part_length; next++) {
        const std::size_t begin = code.size();
        to.put(items[next]);
        if (!to.why && wanted && !word(*wanted).empty() && kind_of(items[next]) != *wanted) {
            to.why = flaw{last_location(items[next]), flaw_reason::other_kind};
        }
        if (to.why) {
            describe(*to.why, items[next], wanted);
            e.what = status::not_well_formed;
            e.index = next;
            e.offset = begin;
            e.why = std::move(to.why);
            return false;
        }
    }
    return true;
}

inline bool encode(const item *items, std::size_t count, std::string &out, error &e) {
    buffer code;
    for (std::size_t next = 0; next < count; code.clear()) {
        if (!encode_part(std::nullopt, items, count, next, code, e)) {
            e.offset += out.size();
            return false;
        }
        out += code.view();
    }
    return true;
}

inline bool decode(kind k, std::string_view code, std::vector<item> &items, error &e) {
    if (static_cast<std::uint32_t>(k) > SOUPER_REP) {
        e.what = status::no_kind;
        return false;
    }
    decoder from(code);
    while (from.left() > 0) {
        const std::size_t begin = code.size() - from.left();
        from.get_item(k, items.emplace_back());
        if (!from.good) {
            e.what = status::no_code;
            e.index = items.size() - 1;
            e.offset = begin;
            e.why = std::move(from.why);
            return false;
        }
    }
    return true;
}

// The calls of souper.h.

// The bytes of a text; the pointer is not null, also of an empty view.
inline const std::uint8_t *bytes(std::string_view text) noexcept {
    return reinterpret_cast<const std::uint8_t *>(text.empty() ? "" : text.data());
}

inline void report(const SouperOutcome &outcome, error &e) noexcept {
    e.what = static_cast<status>(outcome.status);
    e.input = outcome.input;
    e.index = outcome.status == SOUPER_NO_CODE || outcome.status == SOUPER_NOT_WELL_FORMED ? outcome.length : 0;
    e.offset = outcome.offset;
    e.line = outcome.line;
    e.column = outcome.column;
}

// What a call writes to the buffer; `room` is the first guess at its length, which ordinary input does not exceed. If it is too short, the
// call does its work again.
template <typename Call> bool collect(buffer &out, std::size_t room, error &e, Call call) {
    SouperOutcome outcome;
    do {
        out.clear();
        out.need(room);
        outcome = call(out.end(), room);
        room = outcome.length;
    } while (outcome.status == SOUPER_SHORT);
    out.wrote(outcome.status == SOUPER_DONE || outcome.status == SOUPER_REFUSED ? outcome.length : 0);
    if (outcome.status == SOUPER_DONE) {
        return true;
    }
    report(outcome, e);
    e.shown = out.view();
    return false;
}

// The four lines that show a refusal.
inline std::string shown(std::string_view message, std::size_t line, std::size_t column, std::string_view text) {
    const std::string number = std::to_string(line);
    std::string all = "unknown:" + number + ":" + std::to_string(column) + ": ";
    all.append(message).append("\n     |\n").append(number.size() < 4 ? 4 - number.size() : 0, ' ').append(number).append(" | ");
    all.append(text).append("\n     | ").append(column - 1, ' ').append("^");
    return all;
}

// The line of a byte of a text, without its line end.
inline std::string_view line_at(std::string_view text, std::size_t offset) noexcept {
    const std::size_t before = text.substr(0, std::min(offset, text.size())).rfind('\n'), end = text.find('\n', offset);
    const std::size_t begin = before == std::string_view::npos ? 0 : before + 1;
    std::string_view line = text.substr(begin, end == std::string_view::npos ? end : end - begin);
    line.remove_suffix(end != std::string_view::npos && !line.empty() && line.back() == '\r');
    return line;
}

// The hint for a refused text that this number of lines precedes; empty if there is none, or if memory ran out for it.
inline std::string hint(kind k, std::size_t lines, std::string_view text) {
    buffer out;
    error found;
    collect(out, 256, found, [k, lines, text](std::uint8_t *to, std::size_t room) {
        return souper_hint(static_cast<std::uint32_t>(k), lines, bytes(text), text.size(), to, room);
    });
    return found.shown;
}

// Where the text is at fault, what shows it, and the hint, if the error says that it was refused.
inline void locate(kind k, std::string_view text, error &e) {
    if (e.what == status::refused) {
        e.hint = hint(k, 0, text);
        const SouperLocation found = souper_locate(static_cast<std::uint32_t>(k), bytes(text), text.size());
        if (found.status == SOUPER_REFUSED) {
            e.location = location{found.offset, found.line, found.column};
            e.at_end = found.at_end != 0;
            e.shown = shown(message_of(e.shown), found.line, found.column, line_at(text, found.offset));
        }
    }
}

// The first items of a text: up to the last cut between two in the first bytes, `length` of them or, if they have none, more.
inline std::string_view first_part(kind k, std::string_view text, std::size_t length) noexcept {
    for (; length < text.size(); length *= 4) {
        const SouperOutcome cut = souper_last_cut(static_cast<std::uint32_t>(k), bytes(text), length);
        if (cut.status != SOUPER_DONE || cut.length > 0) {
            return cut.status == SOUPER_DONE ? text.substr(0, cut.length) : text;
        }
    }
    return text;
}

// What an error shows is mostly shorter.
constexpr std::size_t shown_length = 4096;

// Gives `take` what a call writes for each part of a text, which is cut between items; the first guess is so many times its length. If a
// part is refused, the whole text is read, in which the error has its place.
template <typename Output, typename Call, typename Take>
bool in_parts(kind k, std::string_view text, std::size_t times, Output &out, error &e, Call call, Take take) {
    buffer written;
    std::string_view rest = text;
    for (std::size_t length = part_length;;) {
        const std::string_view part = first_part(k, rest, length);
        const auto of_part = [&](std::uint8_t *to, std::size_t room) { return call(part, to, room); };
        if (collect(written, times * part.size() + shown_length, e, of_part)) {
            if (!take(written.view())) {
                return false;
            }
            rest.remove_prefix(part.size());
            if (rest.empty()) {
                return true;
            }
        } else if (part.size() == text.size() || (e.what != status::refused && e.what != status::not_utf8)) {
            locate(k, text, e);
            return false;
        } else {
            out = Output{};
            e = error();
            rest = text;
            length = text.size();
            times = 0;
        }
    }
}

// The same, to a string.
template <typename Call> bool text_in_parts(kind k, std::string_view text, std::size_t times, std::string &out, error &e, Call call) {
    return in_parts(k, text, times, out, e, call, [&out](std::string_view written) {
        out += written;
        return true;
    });
}

inline bool format(kind k, std::string_view text, std::string &out, error &e) {
    return text_in_parts(k, text, 2, out, e, [k](std::string_view part, std::uint8_t *to, std::size_t room) {
        return souper_format(static_cast<std::uint32_t>(k), bytes(part), part.size(), to, room);
    });
}

// The record of `result 1` has nine times its length.
constexpr std::size_t times_of_record = 10;

inline auto key_of(kind k, flags f) noexcept {
    return [k, f](std::string_view part, std::uint8_t *to, std::size_t room) {
        return souper_key(static_cast<std::uint32_t>(k), static_cast<std::uint32_t>(f), bytes(part), part.size(), to, room);
    };
}

inline bool key(kind k, std::string_view text, flags f, std::string &out, error &e) {
    return text_in_parts(k, text, times_of_record, out, e, key_of(k, f));
}

// The code of `%1=fshl 1,2,3` has six times its length.
inline bool read(kind k, std::string_view text, std::vector<item> &items, error &e) {
    const auto call = [k](std::string_view part, std::uint8_t *to, std::size_t room) {
        return souper_read(static_cast<std::uint32_t>(k), bytes(part), part.size(), to, room);
    };
    return in_parts(k, text, 7, items, e, call, [&](std::string_view code) { return decode(k, code, items, e); });
}

// The first flaw of an item, with whose code the bytes begin.
inline std::optional<flaw> flaw_of(kind k, std::string_view code, const item &one) {
    const SouperFlaw found = souper_flaw(static_cast<std::uint32_t>(k), bytes(code), code.size());
    if (found.status != SOUPER_NOT_WELL_FORMED) {
        return std::nullopt;
    }
    flaw why{static_cast<flaw_location>(found.location), static_cast<flaw_reason>(found.reason), found.position};
    const assignment *at = why.location == flaw_location::at_statement ? one.at(id{found.position}) : nullptr;
    if (at != nullptr) {
        why.name = at->name;
    }
    return why;
}

// Writes the numbers of the library.
inline void tell(const SouperWidths &found, const item &one, const std::vector<std::uint32_t> &numbers, widths &out) {
    const auto middle = numbers.begin() + static_cast<std::ptrdiff_t>(numbers.size() / 2);
    if (found.status == SOUPER_DONE) {
        out = widths{{numbers.begin(), middle}, {middle, numbers.end()}, found.root};
        return;
    }
    width_flaw why{static_cast<flaw_location>(found.location), static_cast<width_reason>(found.reason), found.left, found.right,
                   found.position};
    const assignment *at = why.location == flaw_location::at_statement ? one.at(id{found.position}) : nullptr;
    why.name = at != nullptr ? at->name : std::string();
    out = widths{{}, {}, 0, std::move(why)};
}

inline bool measure(kind k, const item &one, widths &out, error &e) {
    buffer code;
    std::size_t next = 0;
    if (!encode_part(k, &one, 1, next, code, e)) {
        return false;
    }
    std::vector<std::uint32_t> numbers(2 * one.statements.size());
    std::uint32_t none = 0;
    const SouperWidths found = souper_widths(static_cast<std::uint32_t>(k), bytes(code.view()), code.size(),
                                             numbers.empty() ? &none : numbers.data(), numbers.size());
    if (found.status == SOUPER_DONE || found.status == SOUPER_NO_WIDTHS) {
        tell(found, one, numbers, out);
        return true;
    }
    e.what = static_cast<status>(found.status);
    if (e.what == status::not_well_formed) {
        e.why = flaw_of(k, code.view(), one);
    }
    return false;
}

inline bool write(kind k, const item *items, std::size_t count, std::string &out, error &e) {
    buffer code, text;
    std::size_t next = 0, before = 0; // the items, and the bytes of code, that are written
    const auto call = [k, &code](std::uint8_t *to, std::size_t room) {
        return souper_write(static_cast<std::uint32_t>(k), bytes(code.view()), code.size(), to, room);
    };
    do {
        const std::size_t first = next;
        error of_item;
        code.clear();
        const bool is_coded = encode_part(k, items, count, next, code, of_item);
        // The items before one that has no code come first.
        const std::size_t length = is_coded ? code.size() : of_item.offset;
        code.keep(length);
        if (!collect(text, 2 * length + shown_length, e, call)) {
            if (e.what == status::not_well_formed && e.index < next - first && e.offset <= length) {
                e.why = flaw_of(k, code.view().substr(e.offset), items[first + e.index]);
            }
            // A library of another version may have other codes.
            e.what = e.what == status::no_code ? status::not_well_formed : e.what;
            e.index += e.what == status::not_well_formed ? first : 0;
            e.offset += e.what == status::not_well_formed ? before : 0;
            return false;
        }
        before += length;
        if (!is_coded) {
            e = std::move(of_item);
            e.offset = before;
            return false;
        }
        out += text.view();
    } while (next < count);
    return true;
}

inline bool canonical(kind k, const item *items, std::size_t count, std::vector<item> &out, error &e) {
    std::string text;
    return write(k, items, count, text, e) && read(k, text, out, e);
}

// Each record is `; `, the key, a newline, the text and a byte 0.
inline bool records(kind k, std::string_view text, bool rename, std::vector<record> &out, error &e) {
    constexpr std::size_t digits = 64, before = 2, head = before + digits + 1;
    const flags f = flags::key | flags::null | (rename ? flags::rename : flags::none);
    return in_parts(k, text, times_of_record, out, e, key_of(k, f), [&out](std::string_view all) {
        for (std::size_t at = 0; at < all.size();) {
            const std::size_t end = all.find('\0', at);
            out.push_back(record{std::string(all.substr(at + before, digits)), std::string(all.substr(at + head, end - at - head))});
            at = end + 1;
        }
        return true;
    });
}

// The texts of items, each of which a newline ends and an empty line follows.
inline std::vector<std::string> texts(std::string_view all) {
    std::vector<std::string> found;
    for (std::size_t at = 0; at < all.size();) {
        const std::size_t end = all.find("\n\n", at);
        found.emplace_back(all.substr(at, end + 1 - at));
        at = end + 2;
    }
    return found;
}

// What is written for a left-hand side ends with a byte 0.
inline bool find(std::string_view store, std::string_view queries, std::vector<std::vector<std::string>> &answers, error &e) {
    buffer out;
    // A second call reads the store again, and room that is not written costs nothing.
    if (!collect(out, 4 * queries.size() + 2 * store.size() + shown_length, e, [store, queries](std::uint8_t *to, std::size_t room) {
            return souper_find(bytes(store), store.size(), bytes(queries), queries.size(), to, room);
        })) {
        locate(e.input == 0 ? kind::rep : kind::lhs, e.input == 0 ? store : queries, e);
        return false;
    }
    for (std::string_view all = out.view(); !all.empty();) {
        const std::size_t end = all.find('\0');
        answers.push_back(texts(all.substr(0, end)));
        all.remove_prefix(end + 1);
    }
    return true;
}

// Whether a question was answered. What a refusal shows is asked of souper_format, as the question has no buffer. `format` also
// locates the refusal.
inline bool answer(kind k, std::string_view text, const SouperOutcome &outcome, bool &yes, error &e) {
    yes = outcome.status == SOUPER_DONE;
    if (yes || outcome.status == SOUPER_DIFFERENT) {
        return true;
    }
    if (outcome.status == SOUPER_REFUSED) {
        std::string out;
        if (!format(k, text, out, e) && e.what != status::refused) {
            return false;
        }
    }
    report(outcome, e);
    return false;
}

inline bool check(kind k, std::string_view text, bool &canonical, error &e) {
    return answer(k, text, souper_check(static_cast<std::uint32_t>(k), bytes(text), text.size()), canonical, e);
}

inline bool same(kind k, std::string_view a, std::string_view b, bool &same, error &e) {
    const SouperOutcome outcome = souper_same(static_cast<std::uint32_t>(k), bytes(a), a.size(), bytes(b), b.size());
    return answer(k, outcome.input == 0 ? a : b, outcome, same, e);
}

} // namespace detail

// ----------------------------------------------------------------
// The form without exceptions
//
// Each call returns whether it is done. If it is not, `e` says why, and its output is empty or false. The output need not be
// empty before.

// With exceptions and without, the functions differ where memory runs out: they have other names for the linker, so that one
// program may have both.
#if defined(__cpp_exceptions)
#define SOUPER_FORM with_exceptions
#else
#define SOUPER_FORM without_exceptions
#endif

namespace detail {
inline namespace SOUPER_FORM {

// What the call makes of an empty output; it may have been given a view of `out`.
template <typename Output, typename Call> bool made(Output &out, error &e, Call call) {
    Output fresh{};
    e = error();
    const bool done = call(fresh, e);
    if (!done) {
        e.message = message_of(e);
    }
    out = done ? std::move(fresh) : Output{};
    return done;
}

// The only exceptions of the call are those of allocation.
template <typename Output, typename Call> bool guarded(Output &out, error &e, Call call) noexcept {
#if defined(__cpp_exceptions)
    try {
        return made(out, e, call);
    } catch (const std::exception &) {
        out = Output{};
        e = error();
        e.what = status::out_of_memory;
        return false;
    }
#else
    return made(out, e, call);
#endif
}

} // namespace SOUPER_FORM
} // namespace detail

inline namespace SOUPER_FORM {

/// See `format`.
[[nodiscard]] inline bool try_format(kind k, std::string_view text, std::string &out, error &e) noexcept {
    return detail::guarded(out, e, [&](auto &o, error &why) { return detail::format(k, text, o, why); });
}

/// See `check`.
[[nodiscard]] inline bool try_check(kind k, std::string_view text, bool &canonical, error &e) noexcept {
    return detail::guarded(canonical, e, [&](auto &o, error &why) { return detail::check(k, text, o, why); });
}

/// See `same`.
[[nodiscard]] inline bool try_same(kind k, std::string_view a, std::string_view b, bool &same, error &e) noexcept {
    return detail::guarded(same, e, [&](auto &o, error &why) { return detail::same(k, a, b, o, why); });
}

/// See `read`.
[[nodiscard]] inline bool try_read(kind k, std::string_view text, std::vector<item> &items, error &e) noexcept {
    return detail::guarded(items, e, [&](auto &o, error &why) { return detail::read(k, text, o, why); });
}

/// See `write`.
[[nodiscard]] inline bool try_write(kind k, const std::vector<item> &items, std::string &text, error &e) noexcept {
    return detail::guarded(text, e, [&](auto &o, error &why) { return detail::write(k, items.data(), items.size(), o, why); });
}

/// See `write`.
[[nodiscard]] inline bool try_write(kind k, const item &one, std::string &text, error &e) noexcept {
    return detail::guarded(text, e, [&](auto &o, error &why) { return detail::write(k, &one, 1, o, why); });
}

/// The same of the item's own kind.
[[nodiscard]] inline bool try_write(const item &one, std::string &text, error &e) noexcept {
    return try_write(kind_of(one), one, text, e);
}

/// See `widths_of`.
[[nodiscard]] inline bool try_widths(kind k, const item &one, widths &out, error &e) noexcept {
    return detail::guarded(out, e, [&](auto &o, error &why) { return detail::measure(k, one, o, why); });
}

/// The same of the item's own kind.
[[nodiscard]] inline bool try_widths(const item &one, widths &out, error &e) noexcept {
    return try_widths(kind_of(one), one, out, e);
}

/// See `canonical`.
[[nodiscard]] inline bool try_canonical(kind k, const std::vector<item> &items, std::vector<item> &out, error &e) noexcept {
    return detail::guarded(out, e, [&](auto &o, error &why) { return detail::canonical(k, items.data(), items.size(), o, why); });
}

/// See `key`.
[[nodiscard]] inline bool try_key(kind k, std::string_view text, flags f, std::string &out, error &e) noexcept {
    return detail::guarded(out, e, [&](auto &o, error &why) { return detail::key(k, text, f, o, why); });
}

/// See `records`.
[[nodiscard]] inline bool try_records(kind k, std::string_view text, bool rename, std::vector<record> &out, error &e) noexcept {
    return detail::guarded(out, e, [&](auto &o, error &why) { return detail::records(k, text, rename, o, why); });
}

/// See `find`.
[[nodiscard]] inline bool try_find(std::string_view store, std::string_view queries, std::vector<std::vector<std::string>> &answers,
                                   error &e) noexcept {
    return detail::guarded(answers, e, [&](auto &o, error &why) { return detail::find(store, queries, o, why); });
}

/// See `encode`.
[[nodiscard]] inline bool try_encode(const std::vector<item> &items, std::string &code, error &e) noexcept {
    return detail::guarded(code, e,
                           [&](auto &o, error &why) { return detail::encode(items.data(), items.size(), o, why); });
}

/// See `decode`.
[[nodiscard]] inline bool try_decode(kind k, std::string_view code, std::vector<item> &items, error &e) noexcept {
    return detail::guarded(items, e, [&](auto &o, error &why) { return detail::decode(k, code, o, why); });
}

/// See `replace_uses`.
template <typename Pairs> [[nodiscard]] bool try_replace_uses(item &i, const Pairs &pairs, error &e) noexcept {
    bool done = false;
    return detail::guarded(done, e, [&](bool &, error &why) {
        detail::replacements all(pairs, i.statements.size());
        if (const auto value = all.follow()) {
            why.what = status::cycle;
            why.index = *value;
            return false;
        }
        detail::replace_uses(i, all);
        return true;
    });
}

/// What `write` returns. If it is not done, nothing is printed, and the stream fails.
inline std::ostream &operator<<(std::ostream &out, const item &one) {
    std::string text;
    error e;
    if (try_write(one, text, e)) {
        out << text;
    } else {
        out.setstate(std::ios_base::failbit);
    }
    return out;
}

} // namespace SOUPER_FORM

// ----------------------------------------------------------------
// The form with exceptions
#if defined(__cpp_exceptions)

/// A text spells no list of items of the kind. `what()` shows why and where, in four lines: at `location` or, without one, at `line` and
/// `column`.
class refused : public std::runtime_error {
public:
    refused(const std::string &shown, const SouperOutcome &outcome, const std::optional<souper::location> &at = std::nullopt,
            bool ended = false, const std::string &meant = {})
        : std::runtime_error(shown), offset(outcome.offset), line(outcome.line), column(outcome.column), input(outcome.input),
          location(at), at_end(ended), text(std::make_shared<const std::string>(shown)),
          said(std::make_shared<const std::string>(meant)) {}

    /// What `what()` shows, also after a byte 0.
    const std::string &shown() const noexcept { return *text; }

    /// What it shows, without the place and the line.
    std::string message() const { return std::string(detail::message_of(*text)); }

    /// What the writer may have meant, for a person, in one line; empty if there is no hint.
    const std::string &hint() const noexcept { return *said; }

    std::size_t offset; ///< how many bytes were read
    std::size_t line;   ///< the line of the last of these, or of the first byte if there is none; from 1
    std::size_t column; ///< its column, in bytes and from 1
    unsigned input;     ///< which text of the call: 0 the first, 1 the second
    std::optional<souper::location> location; ///< where the text is at fault; none if memory ran out for it
    bool at_end; ///< whether the text ended where more is wanted; false without a location

private:
    std::shared_ptr<const std::string> text, said;
};

/// A text is not UTF-8.
class not_utf8 : public std::invalid_argument {
public:
    explicit not_utf8(unsigned which) : std::invalid_argument(detail::not_utf8_text(0, 0)), input(which) {}

    not_utf8(std::size_t where, std::size_t on_line)
        : std::invalid_argument(detail::not_utf8_text(where, on_line)), offset(where), line(on_line) {}

    unsigned input = 0;     ///< which text of the call: 0 the first, 1 the second
    std::size_t offset = 0; ///< of a stream: where the first byte is that is in no character
    std::size_t line = 0;   ///< of a stream: its line, from 1; else 0
};

/// An item is not well formed, so it has no canonical text.
class not_well_formed : public std::invalid_argument {
public:
    explicit not_well_formed(std::size_t which, std::optional<flaw> reason = std::nullopt)
        : std::invalid_argument(detail::not_well_formed_text(which, reason)), index(which),
          why(reason ? std::make_shared<const flaw>(*reason) : nullptr) {}

    std::size_t index;               ///< which item, from 0
    std::shared_ptr<const flaw> why; ///< its first flaw; null if memory ran out for it
};

/// Bytes are the code of no list of items of the kind.
class bad_code : public std::runtime_error {
public:
    bad_code(std::size_t which, std::size_t begin, std::optional<flaw> reason = std::nullopt)
        : std::runtime_error(detail::bad_code_text(begin, reason)), index(which), offset(begin),
          why(reason ? std::make_shared<const flaw>(*reason) : nullptr) {}

    std::size_t index;               ///< how many items come before
    std::size_t offset;              ///< where the bytes begin that are the code of no item
    std::shared_ptr<const flaw> why; ///< which value is none; null if bytes are missing, or mean nothing
};

namespace detail {

[[noreturn]] inline void fail(const error &e) {
    switch (e.what) {
    case status::refused:
        throw refused(e.shown, SouperOutcome{SOUPER_REFUSED, e.input, e.shown.size(), e.offset, e.line, e.column}, e.location,
                      e.at_end, e.hint);
    case status::not_utf8:
        throw e.line > 0 ? not_utf8(e.offset, e.line) : not_utf8(e.input);
    case status::no_kind:
    case status::no_flags:
    case status::cycle:
        throw std::invalid_argument(e.message);
    case status::no_code:
        throw bad_code(e.index, e.offset, e.why);
    case status::not_well_formed:
        throw not_well_formed(e.index, e.why);
    case status::stream_ended:
        throw std::logic_error(e.message);
    case status::out_of_memory:
        throw std::bad_alloc();
    case status::done:
        break;
    }
    throw std::runtime_error(e.message);
}

// The output of a call.
template <typename Output, typename Call> Output output(Call call) {
    Output out{};
    error e;
    if (!call(out, e)) {
        fail(e);
    }
    return out;
}

} // namespace detail

/// The canonical text of each item that the text spells, a newline after each.
inline std::string format(kind k, std::string_view text) {
    return detail::output<std::string>([&](std::string &out, error &e) { return try_format(k, text, out, e); });
}

/// Whether the text is canonical: `format` returns the text itself.
inline bool check(kind k, std::string_view text) {
    return detail::output<bool>([&](bool &out, error &e) { return try_check(k, text, out, e); });
}

/// Whether the texts spell lists of one length, in which each item is the same graph as the one at its index in the other.
inline bool same(kind k, std::string_view a, std::string_view b) {
    return detail::output<bool>([&](bool &out, error &e) { return try_same(k, a, b, out, e); });
}

/// The items that the text spells, with all their statements.
inline std::vector<item> read(kind k, std::string_view text) {
    return detail::output<std::vector<item>>([&](std::vector<item> &out, error &e) { return try_read(k, text, out, e); });
}

/// The canonical text of each item, a newline after each. Of the items that `read` returns, what `format` returns for the text.
///
/// Throws `not_well_formed` if an item has no canonical text of the kind: a statement that it needs is invalid or uses one that
/// is not before it, two have one name, or the last lines are of another kind.
inline std::string write(kind k, const std::vector<item> &items) {
    return detail::output<std::string>([&](std::string &out, error &e) { return try_write(k, items, out, e); });
}

/// The canonical text of an item, and a newline.
inline std::string write(kind k, const item &one) {
    return detail::output<std::string>([&](std::string &out, error &e) { return try_write(k, one, out, e); });
}

/// The same of the item's own kind.
inline std::string write(const item &one) { return write(kind_of(one), one); }

/// The items of the canonical texts of items. The statements of each are the needed ones in printed order, uses before their
/// users, so a loop over `statements` is a walk of the graph in that order.
inline std::vector<item> canonical(kind k, const std::vector<item> &items) {
    return detail::output<std::vector<item>>([&](std::vector<item> &out, error &e) { return try_canonical(k, items, out, e); });
}

/// The item of the canonical text of an item: its statements are the needed ones in printed order.
inline item canonical(kind k, const item &one) {
    return std::move(canonical(k, std::vector<item>{one}).front());
}

/// The records of the items that the text spells, one after the other, as the program souper_items writes them: each is the
/// canonical text and a newline, and what the flags add or change.
inline std::string key(kind k, std::string_view text, flags f = flags::key) {
    return detail::output<std::string>([&](std::string &out, error &e) { return try_key(k, text, f, out, e); });
}

/// The key and the canonical text of each item that the text spells; with `rename`, of the item with names %0, %1, .. in printed
/// order.
inline std::vector<record> records(kind k, std::string_view text, bool rename = false) {
    return detail::output<std::vector<record>>(
        [&](std::vector<record> &out, error &e) { return try_records(k, text, rename, out, e); });
}

/// For each left-hand side of `queries`, in order, the canonical text of each of its answers in `store`, without the newline that
/// `format` writes after it: of the replacements whose left-hand side is the same graph up to names, in the order in which `store`
/// has them first, with the names of the left-hand side that was asked for. `refused` has 0 as `input` for the replacements of
/// `store`, 1 for the left-hand sides.
///
/// Each call reads `store` anew, so many left-hand sides are best asked for at once.
inline std::vector<std::vector<std::string>> find(std::string_view store, std::string_view queries) {
    return detail::output<std::vector<std::vector<std::string>>>(
        [&](std::vector<std::vector<std::string>> &out, error &e) { return try_find(store, queries, out, e); });
}

/// Puts an operand in the place of each use of each value that `pairs` has, such as a `std::map<id, operand>`, in one walk, as the other
/// `replace_uses` does of one value. What comes in the place of a value is replaced in turn: of a by b and b by 5, both become 5. Throws
/// `std::invalid_argument`, and nothing changes, if this comes back to a value; a value by itself stays.
template <typename Pairs> void replace_uses(item &i, const Pairs &pairs) {
    detail::output<bool>([&](bool &, error &e) { return try_replace_uses(i, pairs, e); });
}

/// The widths of the item, or why it has none. Throws `not_well_formed`, as `write` does.
inline widths widths_of(kind k, const item &one) {
    return detail::output<widths>([&](widths &out, error &e) { return try_widths(k, one, out, e); });
}

/// The same of the item's own kind.
inline widths widths_of(const item &one) {
    return widths_of(kind_of(one), one);
}

/// The code of items, which `decode` and souper_write read. Throws `not_well_formed` if an item has a value without a code: the reasons
/// are those of `flaw_reason` from 1000 on.
inline std::string encode(const std::vector<item> &items) {
    return detail::output<std::string>([&](std::string &out, error &e) { return try_encode(items, out, e); });
}

/// The items whose code this is. It reads nothing outside the code, and allocates at most a constant times its length, and the text of
/// an error. That the items are well formed, it does not test.
inline std::vector<item> decode(kind k, std::string_view code) {
    return detail::output<std::vector<item>>([&](std::vector<item> &out, error &e) { return try_decode(k, code, out, e); });
}

#endif

// ----------------------------------------------------------------
// Streams

namespace detail {

inline std::size_t newlines(std::string_view text) noexcept {
    std::size_t count = 0;
    for (const char byte : text) {
        count += byte == '\n';
    }
    return count;
}

// The length of the white space and the comments that the text begins with. (Of white space that is not ASCII it knows nothing.)
inline std::size_t gap(std::string_view text) noexcept {
    std::size_t at = 0;
    while (at < text.size() && (text[at] == ';' || text[at] == ' ' || (text[at] >= '\t' && text[at] <= '\r'))) {
        at = text[at] == ';' ? std::min(text.find('\n', at), text.size()) : at + 1;
    }
    return at;
}

// What comes before a segment in its stream.
struct before {
    std::size_t bytes = 0;
    std::size_t lines = 0;
    std::string last_line = {};
};

// Gives the refusal of a segment its place and its location in the stream.
inline void place(error &e, const before &b) {
    const std::string_view all = e.shown;
    const std::size_t marks = all.rfind('\n'), above = all.rfind('\n', marks - 1);
    std::string_view text = all.substr(above + 1, marks - above - 1);
    const std::size_t bar = text.find(" | ");
    text.remove_prefix(bar == std::string_view::npos ? text.size() : bar + 3);
    if (e.offset == 0 && b.bytes > 0) {
        // The byte before is the newline of the line before.
        e.line = b.lines;
        e.column = b.last_line.size();
        text = e.location ? text : line_at(b.last_line, e.column - 1);
    } else {
        e.line += b.lines;
    }
    e.offset += b.bytes;
    if (e.location) {
        e.location->offset += b.bytes;
        e.location->line += b.lines;
    }
    const std::size_t line = e.location ? e.location->line : e.line, column = e.location ? e.location->column : e.column;
    e.shown = shown(message_of(all), line, column, text);
}

} // namespace detail

inline namespace SOUPER_FORM {

/// Reads the items of a stream that comes in parts, such as a socket, a pipe, or a file that is larger than memory.
///
/// The stream is cut where an item ends and a line of the next begins, as the tokens of the lines show it, and read on after an
/// invalid segment, the lines between two cuts. An item is there when the first line of the next one is whole, or after `finish`.
/// In memory are what was pushed since the last cut, which is an unfinished segment, and the items of the last cut segments.
class reader {
public:
    /// With `by_segments` each segment is read by itself: `offset` and `line` are then those of the item, if its segment has no other.
    /// It takes more time.
    explicit reader(kind of, bool by_segments = false) noexcept : items_of(of), each_segment(by_segments) {}

    /// The next bytes of the stream, cut anywhere. After `finish`, and after bytes that are not UTF-8, this is a `std::logic_error`;
    /// without exceptions the bytes are then not taken, which `try_push` reports.
    void push(std::string_view part) {
        if (!ended) {
            append(part);
            return;
        }
#if defined(__cpp_exceptions)
        throw std::logic_error(to_string(status::stream_ended));
#endif
    }

    /// See `push`.
    [[nodiscard]] bool try_push(std::string_view part, error &e) noexcept {
        bool taken = false;
        return detail::guarded(taken, e, [this, part](bool &, error &why) {
            if (ended) {
                why.what = status::stream_ended;
                return false;
            }
            append(part);
            return true;
        });
    }

    /// Nothing comes after what was pushed.
    void finish() noexcept { ended = true; }

    /// See `next`.
    [[nodiscard]] bool try_next(std::optional<item> &out, error &e) noexcept {
        return detail::guarded(out, e, [this](auto &one, error &why) { return take(one, why); });
    }

#if defined(__cpp_exceptions)
    /// The next item; none if more of the stream is wanted or, after `finish`, at its end.
    ///
    /// An invalid segment is thrown as `refused`, with its place and location in the stream, and gives no items. The next call reads on
    /// after it. Bytes that are not UTF-8 are thrown as `not_utf8`, after the segments before them, and again by each call.
    std::optional<item> next() {
        return detail::output<std::optional<item>>([this](std::optional<item> &out, error &e) { return try_next(out, e); });
    }
#endif

    /// Where the part begins that the last item came from, or that was refused: its first byte that is not in white space nor in a
    /// comment. A part is one segment or more.
    std::size_t offset() const noexcept { return part_offset; }

    /// The line of that byte, from 1.
    std::size_t line() const noexcept { return part_line; }

#if defined(__cpp_exceptions)
    /// What `begin` returns: it reads on when it is incremented.
    class iterator {
    public:
        using iterator_category = std::input_iterator_tag;
        using value_type = item;
        using difference_type = std::ptrdiff_t;
        using pointer = item *;
        using reference = item &;

        iterator() = default;
        explicit iterator(reader &source) : from(&source) { ++*this; }

        item &operator*() const noexcept { return *from->current; }
        item *operator->() const noexcept { return &*from->current; }

        iterator &operator++() {
            from->current = from->next();
            from = from->current ? from : nullptr;
            return *this;
        }
        void operator++(int) { ++*this; }

        friend bool operator==(const iterator &a, const iterator &b) noexcept { return a.from == b.from; }
        friend bool operator!=(const iterator &a, const iterator &b) noexcept { return !(a == b); }

    private:
        reader *from = nullptr; // null at the end
    };

    /// `for (souper::item &one : from)` takes the items that `next` returns, and ends when it returns none. It throws what `next`
    /// throws. Another loop, after the next `push` or after an exception, takes the items that follow.
    iterator begin() { return iterator(*this); }
    iterator end() noexcept { return {}; }
#endif

private:
    void append(std::string_view part) {
        if (start > 0 && start >= buffer.size() - start) {
            buffer.erase(0, start);
            start = 0;
        }
        buffer.append(part);
        const std::size_t newline = part.rfind('\n');
        if (newline != std::string_view::npos) {
            whole = buffer.size() - start - (part.size() - newline - 1);
        }
    }

    std::string_view unread() const noexcept { return std::string_view(buffer).substr(start); }

    bool take(std::optional<item> &out, error &e) {
        for (bool more = true; index == items.size();) {
            if (!read_part(more, e)) {
                return false;
            }
            if (!more) {
                return true;
            }
        }
        out = std::move(items[index++]);
        return true;
    }

    // The length of the next chunk, which is cut at its end; 0 if there is none yet.
    bool next_chunk(std::size_t &length, error &e) {
        length = ended ? unread().size() : 0;
        if (ended || whole < goal) {
            return true;
        }
        const SouperOutcome cut = souper_last_cut(static_cast<std::uint32_t>(items_of), detail::bytes(unread()), whole);
        if (cut.status == SOUPER_NO_KIND) {
            detail::report(cut, e);
            return false;
        }
        length = cut.status == SOUPER_DONE ? cut.length : whole;
        // In a long segment a cut is looked for only when an eighth more is there, so that looking takes little of the time.
        goal = length > 0 ? 1 : whole + 1 + (whole > step ? whole / 8 : 0);
        return true;
    }

    // Reads the next part, if there is one.
    bool read_part(bool &more, error &e) {
        std::size_t length = rejected;
        if (length == 0) {
            if (!next_chunk(length, e) || length == 0) {
                more = false;
                return e.what == status::done;
            }
            if (!each_segment) {
                if (read_text(length, e)) {
                    return true;
                }
                if (e.what != status::refused && e.what != status::not_utf8) {
                    return false;
                }
                e = error();
            }
            rejected = length;
        }
        return read_segment(e);
    }

    bool read_segment(error &e) {
        const std::string_view rest = unread().substr(0, rejected);
        const SouperOutcome segment = souper_first_segment(static_cast<std::uint32_t>(items_of), detail::bytes(rest), rest.size());
        if (segment.status != SOUPER_DONE) {
            detail::report(segment, e);
            if (e.what == status::not_utf8) {
                locate_bytes(rest, e);
                ended = true;
            }
            return false;
        }
        const std::size_t left = rejected - segment.length;
        if (!read_text(segment.length, e)) {
            if (e.what != status::refused) {
                return false;
            }
            detail::place(e, done);
            if (done.lines > 0 && !e.hint.empty()) {
                e.hint = detail::hint(items_of, done.lines, rest.substr(0, segment.length));
            }
            pass(segment.length, {});
        }
        rejected = left;
        return e.what == status::done;
    }

    // Reads the items of the first bytes, and passes over them.
    bool read_text(std::size_t length, error &e) {
        std::vector<item> found;
        if (!detail::read(items_of, unread().substr(0, length), found, e)) {
            return false;
        }
        pass(length, std::move(found));
        return true;
    }

    void pass(std::size_t length, std::vector<item> found) {
        const std::string_view text = unread().substr(0, length);
        const std::size_t before = length > 1 ? text.rfind('\n', length - 2) : std::string_view::npos;
        done.last_line = text.substr(before == std::string_view::npos ? 0 : before + 1);
        const std::size_t empty = detail::gap(text);
        part_offset = done.bytes + empty;
        part_line = done.lines + detail::newlines(text.substr(0, empty)) + 1;
        done.bytes += length;
        done.lines += detail::newlines(text);
        start += length;
        whole -= std::min(length, whole);
        goal = whole + 1;
        items = std::move(found);
        index = 0;
    }

    // Where the first byte is that is in no character.
    void locate_bytes(std::string_view text, error &e) const noexcept {
        std::size_t valid = 0, line_start = 0;
        for (std::size_t length = 1; (length = detail::character(text.substr(valid))) > 0; valid += length) {
            line_start = text[valid] == '\n' ? valid + 1 : line_start;
        }
        e.offset = done.bytes + valid;
        e.line = done.lines + detail::newlines(text.substr(0, valid)) + 1;
        e.column = valid - line_start + 1;
    }

    static constexpr std::size_t step = 65536;

    kind items_of;
    bool each_segment;
    bool ended = false;
    std::string buffer;
    std::size_t start = 0;      // the read bytes of the buffer
    std::size_t whole = 0;      // the unread bytes up to the last newline
    std::size_t goal = 1;       // a cut is looked for when so many are there
    std::size_t rejected = 0;   // the bytes of a chunk that are read segment by segment
    detail::before done;
    std::size_t part_offset = 0;
    std::size_t part_line = 1;
    std::vector<item> items; // of the last part
    std::size_t index = 0;
    std::optional<item> current; // of an iterator
};

} // namespace SOUPER_FORM
#undef SOUPER_FORM

} // namespace souper

template <> struct std::hash<souper::id> {
    std::size_t operator()(souper::id of) const noexcept { return std::hash<std::size_t>()(of.position); }
};

// With these `souper::operand` and `souper::statement` have one too, being variants.
#define SOUPER_X(type) \
    template <> struct std::hash<souper::type> { \
        std::size_t operator()(const souper::type &of) const noexcept { return souper::detail::hash_of(of); } \
    };
SOUPER_X(constant)
SOUPER_X(assignment)
SOUPER_X(pc)
SOUPER_X(blockpc)
SOUPER_X(item)
#undef SOUPER_X

#endif
