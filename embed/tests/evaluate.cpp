// Whether a pass keeps the values of items: an interpreter of items, on random inputs.
//
//     evaluate make KIND               writes items with products, by constants and others, of widths of 2 to 64 bits
//     evaluate same KIND BEFORE AFTER  compares the items of two files, value by value; the second one is to have no product by a power of
//                                      two, 3, 5 or 9
#include "souper.hpp"

extern "C" {
#include "records.h"
}

#include <fstream>
#include <iostream>
#include <iterator>
#include <map>
#include <random>
#include <string>

namespace {

using souper::constant;
using souper::id;
using souper::item;
using souper::op;
using souper::operand;

// The bits of a value; none if it is undefined.
using bits = std::optional<std::uint64_t>;

std::uint64_t mask(std::uint32_t width) { return UINT64_MAX >> (64 - width); }

std::int64_t as_signed(std::uint64_t value, std::uint32_t width) {
    return static_cast<std::int64_t>(value << (64 - width)) >> (64 - width);
}

// A number that the seed and a text determine.
std::uint64_t input(std::uint64_t seed, const std::string &name) {
    std::seed_seq sequence(name.begin(), name.end());
    std::vector<std::uint32_t> words(2);
    sequence.generate(words.begin(), words.end());
    return std::mt19937_64(seed ^ (std::uint64_t{words[0]} << 32U | words[1]))();
}

// The values of an item. Inputs, and what an operation gives that is none of those below, are numbers that names and operands determine.
class interpreter {
public:
    interpreter(const item &of, std::uint64_t with_seed) : i(of), seed(with_seed) {
        for (const auto &s : i.statements) {
            const auto *assigned = std::get_if<souper::assignment>(&s);
            values.push_back(assigned ? value(*assigned) : std::nullopt);
        }
    }

    // The values of the path conditions, and of the last lines.
    std::vector<bits> observed() const {
        std::vector<bits> all;
        for (const auto &s : i.statements) {
            if (!std::holds_alternative<souper::assignment>(s)) {
                souper::for_each_operand(s, [&](const operand &o) { all.push_back(of(o, 64)); });
            }
        }
        if (const auto *lhs = std::get_if<souper::infer>(&i.last)) {
            all.push_back(values[lhs->value.position]);
        } else if (const auto *rhs = std::get_if<souper::result>(&i.last)) {
            all.push_back(of(rhs->value, 64));
        } else if (const auto *both = std::get_if<souper::infer_result>(&i.last)) {
            all.insert(all.end(), {values[both->replaced.value.position], of(both->by.value, 64)});
        } else if (const auto *pair = std::get_if<souper::cand>(&i.last)) {
            all.insert(all.end(), {of(pair->replaced, 64), of(pair->by, 64)});
        }
        return all;
    }

private:
    std::uint32_t width(const operand &o, std::uint32_t other) const {
        const auto *used = std::get_if<id>(&o);
        return (used ? i.at(*used)->width : std::get<constant>(o).width).value_or(other);
    }

    bits of(const operand &o, std::uint32_t other) const {
        const auto *used = std::get_if<id>(&o);
        return used ? values[used->position] : bits(static_cast<std::uint64_t>(std::get<constant>(o).value) & mask(width(o, other)));
    }

    bits value(const souper::assignment &a) const {
        const std::uint32_t wide = a.width.value_or(64);
        if (const auto *choice = std::get_if<souper::phi>(&a.value)) {
            return of(choice->values[input(seed, i.at(choice->block)->name) % choice->values.size()], wide);
        }
        const auto *computed = std::get_if<souper::instruction>(&a.value);
        if (computed == nullptr) {
            return input(seed, a.name) & mask(wide);
        }
        std::vector<std::uint64_t> operands;
        for (const operand &o : computed->operands) {
            const bits one = of(o, wide);
            if (!one) {
                return std::nullopt;
            }
            operands.push_back(*one);
        }
        const bits found = computed->operands.size() == 2 ? binary(*computed, operands[0], operands[1], wide) : other(*computed, operands);
        return found ? bits(*found & mask(wide)) : std::nullopt;
    }

    bits binary(const souper::instruction &with, std::uint64_t a, std::uint64_t b, std::uint32_t wide) const {
        const std::uint32_t compared = std::max(width(with.operands[0], 0), width(with.operands[1], 0));
        switch (with.operation) {
        case op::add:
            return a + b;
        case op::sub:
            return a - b;
        case op::mul:
            return a * b;
        case op::and_:
            return a & b;
        case op::or_:
            return a | b;
        case op::xor_:
            return a ^ b;
        case op::shl:
            return b < wide ? bits(a << b) : std::nullopt;
        case op::lshr:
            return b < wide ? bits(a >> b) : std::nullopt;
        case op::ashr:
            return b < wide ? bits(static_cast<std::uint64_t>(as_signed(a, wide) >> b)) : std::nullopt;
        case op::udiv:
            return b > 0 ? bits(a / b) : std::nullopt;
        case op::urem:
            return b > 0 ? bits(a % b) : std::nullopt;
        case op::eq:
            return a == b;
        case op::ult:
            return a < b;
        case op::slt:
            return as_signed(a, compared) < as_signed(b, compared);
        default:
            return other(with, {a, b});
        }
    }

    bits other(const souper::instruction &with, const std::vector<std::uint64_t> &operands) const {
        switch (with.operation) {
        case op::select:
            return operands[0] == 1 ? operands[1] : operands[2];
        case op::zext:
        case op::trunc:
        case op::freeze:
            return operands[0];
        case op::sext:
            return static_cast<std::uint64_t>(as_signed(operands[0], width(with.operands[0], 64)));
        default:
            std::string text(souper::word(with.operation));
            for (const std::uint64_t one : operands) {
                text += " " + std::to_string(one);
            }
            return input(seed, text);
        }
    }

    const item &i;
    std::uint64_t seed;
    std::vector<bits> values;
};

// Whether a statement is a product that the pass is to change.
bool is_reducible(const souper::statement &s) {
    const auto *assigned = std::get_if<souper::assignment>(&s);
    const auto *product = assigned ? std::get_if<souper::instruction>(&assigned->value) : nullptr;
    if (!product || product->operation != op::mul || !assigned->width || *assigned->width > 64) {
        return false;
    }
    for (const operand &o : product->operands) {
        if (const auto *factor = std::get_if<constant>(&o)) {
            const std::uint64_t by = static_cast<std::uint64_t>(factor->value) & mask(*assigned->width);
            if ((by != 0 && (by & (by - 1)) == 0) || by == 3 || by == 5 || by == 9) {
                return true;
            }
        }
    }
    return false;
}

std::size_t reducible(const item &i) {
    return static_cast<std::size_t>(std::count_if(i.statements.begin(), i.statements.end(), is_reducible));
}

// Items whose statements are of one width, but for conditions of one bit, and inputs that are extended and truncated.
class maker {
public:
    item one(souper::kind k) {
        width = pick(std::vector<std::uint32_t>{2, 3, 4, 8, 16, 33, 64});
        values = {build.var({}, width), build.var({}, width)};
        truths = {};
        const id block = build.block(2);
        for (std::size_t count = 4 + random() % 12; count > 0; count--) {
            statement(block);
        }
        const id root = std::get<id>(values.back());
        switch (k) {
        case souper::kind::lhs:
            return build.infer(root);
        case souper::kind::rhs:
            return build.result(some());
        default:
            return random() % 2 == 0 ? build.infer_result(root, some()) : build.cand(root, some());
        }
    }

private:
    template <typename T> T pick(const std::vector<T> &all) { return all[random() % all.size()]; }

    operand number(std::uint64_t value) { return constant::from_bits(value, width); }

    operand some() { return random() % 8 == 0 ? number(random() % 9) : pick(values); }

    void product() {
        const operand by = random() % 6 == 0   ? some()
                           : random() % 5 == 0 ? number(std::uint64_t{1} << random() % width)
                                               : number(pick(std::vector<std::uint64_t>{0, 1, 2, 3, 4, 5, 6, 7, 8, 9, 16, 17, 255}));
        const bool left = random() % 4 == 0;
        const operand value = some();
        std::vector<souper::attribute> facts;
        if (random() % 8 == 0) {
            facts.push_back(souper::sign_bits{1});
        }
        values.push_back(build.inst(op::mul, {left ? by : value, left ? value : by}, {}, width, facts));
    }

    void statement(id block) {
        switch (random() % 10) {
        case 0:
            truths.push_back(build.inst(pick(std::vector<op>{op::eq, op::ult, op::slt}), {pick(values), some()}, {}, 1));
            break;
        case 1:
            if (!truths.empty()) {
                build.pc(pick(truths), constant{-1, 1});
            }
            build.pc(pick(values), some());
            break;
        case 2:
            values.push_back(build.phi(block, {some(), some()}, {}, width));
            build.blockpc(block, 1, pick(values), some());
            break;
        case 3:
            values.push_back(build.inst(op::trunc, {build.inst(op::sext, {pick(values)}, {}, 64)}, {}, width));
            break;
        case 4:
            values.push_back(truths.empty() ? operand(build.inst(op::ctpop, {pick(values)}, {}, width))
                                            : operand(build.inst(op::select, {pick(truths), some(), some()}, {}, width)));
            break;
        case 5:
            values.push_back(build.inst(pick(std::vector<op>{op::add, op::sub, op::xor_, op::lshr, op::udiv, op::addnsw, op::shl}),
                                        {some(), pick(values)}, {}, width));
            break;
        default:
            product();
        }
    }

    std::mt19937_64 random{1};
    souper::builder build;
    std::uint32_t width = 8;
    std::vector<operand> values, truths;
};

int make(souper::kind k) {
    maker from;
    std::vector<item> items;
    for (int count = 0; count < 2000; count++) {
        items.push_back(from.one(k));
    }
    std::cout << souper::write(k, items) << std::flush;
    return std::cout ? 0 : 3;
}

std::vector<item> read(souper::kind k, const char *path) {
    std::ifstream file(path, std::ios::binary);
    const std::string text(std::istreambuf_iterator<char>(file), {});
    return souper::read(k, text);
}

int same(souper::kind k, const char *before, const char *after) {
    const auto items = read(k, before), changed = read(k, after);
    expect(items.size() == changed.size() && !items.empty(), "as many items", nullptr);
    std::size_t products = 0, defined = 0;
    for (std::size_t index = 0; index < std::min(items.size(), changed.size()); index++) {
        products += reducible(items[index]);
        expect(reducible(changed[index]) == 0, "no product is left", nullptr);
        for (std::uint64_t seed = 0; seed < 20; seed++) {
            const auto values = interpreter(items[index], seed).observed();
            defined += static_cast<std::size_t>(std::count_if(values.begin(), values.end(), [](const bits &b) { return b.has_value(); }));
            expect(values == interpreter(changed[index], seed).observed(), "the values of an item", nullptr);
        }
    }
    expect(products > 1000 && defined > 1000, "products and values that are defined", nullptr);
    return summary("the values before and after a pass");
}

} // namespace

int main(int argc, char **argv) {
    if (const auto k = souper::kind_named(argc > 2 ? argv[2] : "")) {
        if (argc == 3 && argv[1] == std::string("make")) {
            return make(*k);
        }
        if (argc == 5 && argv[1] == std::string("same")) {
            return same(*k, argv[3], argv[4]);
        }
    }
    std::cerr << "usage: evaluate make KIND, or evaluate same KIND BEFORE AFTER\n";
    return 2;
}
