// Strength reduction: reads items from standard input, and writes them with shifts and sums in the place of products by 3, 5 and 9, and
// with shifts in that of products by powers of two.
//
//     strength lhs|rhs|rep <ITEMS
//
// Products of a width of at most 64 bits are looked at. embed/tests/evaluate.cpp compares the values before and after.
#include "souper.hpp"

#include <iostream>
#include <iterator>
#include <map>
#include <string>

namespace {

using souper::assignment;
using souper::constant;
using souper::id;
using souper::instruction;
using souper::op;
using souper::operand;

// The product of a value by 2 to a power, and the value once more if `plus`.
struct product {
    operand value;
    std::uint32_t power;
    bool plus;
};

std::optional<product> product_of(const operand &value, const operand &by, std::uint32_t width) {
    const auto *factor = std::get_if<constant>(&by);
    const std::uint64_t mask = UINT64_MAX >> (64 - width), bits = factor ? static_cast<std::uint64_t>(factor->value) & mask : 0;
    for (std::uint32_t power = 0; power < width; power++) {
        const std::uint64_t shifted = std::uint64_t{1} << power;
        if (bits == shifted || (bits == shifted + 1 && power >= 1 && power <= 3)) {
            return product{value, power, bits != shifted};
        }
    }
    return std::nullopt;
}

// What a statement multiplies, if it is a product by such a constant.
std::optional<product> product_of(const souper::statement &s) {
    const auto *assigned = std::get_if<assignment>(&s);
    const auto *mul = assigned ? std::get_if<instruction>(&assigned->value) : nullptr;
    const std::uint32_t width = assigned ? assigned->width.value_or(0) : 0;
    if (!mul || mul->operation != op::mul || width == 0 || width > 64) {
        return std::nullopt;
    }
    const auto right = product_of(mul->operands[0], mul->operands[1], width);
    return right ? right : product_of(mul->operands[1], mul->operands[0], width);
}

void reduce(souper::item &i) {
    std::map<id, operand> same; // the products by 1
    const std::size_t count = i.statements.size();
    for (std::size_t position = 0; position < count; position++) {
        const auto found = product_of(i.statements[position]);
        if (!found) {
            continue;
        }
        auto &assigned = std::get<assignment>(i.statements[position]);
        const instruction shift{op::shl, {found->value, constant::from_bits(found->power, *assigned.width)}};
        if (found->power == 0 && std::holds_alternative<id>(found->value)) {
            same.emplace(id{position}, found->value);
        } else if (!found->plus) {
            assigned.value = shift;
        } else {
            // The shift is a statement more. Without a name, it gets one from `sort`, which puts it before the sum.
            assigned.value = instruction{op::add, {id{i.statements.size()}, found->value}};
            i.statements.push_back(assignment{{}, assigned.width, shift});
        }
    }
    souper::replace_uses(i, same);
    souper::sort(i);
}

} // namespace

int main(int argc, char **argv) {
    const auto kind = argc == 2 ? souper::kind_named(argv[1]) : std::nullopt;
    if (!kind) {
        std::cerr << "usage: strength lhs|rhs|rep <ITEMS\n";
        return 2;
    }
    const std::string text(std::istreambuf_iterator<char>(std::cin), {});
    try {
        auto items = souper::read(*kind, text);
        for (auto &one : items) {
            reduce(one);
        }
        std::cout << souper::write(*kind, items) << std::flush;
    } catch (const souper::refused &refusal) {
        std::cerr << "line " << refusal.location.value_or(souper::location{0, refusal.line, 0}).line << " is refused\n";
        return 1;
    } catch (const souper::not_utf8 &error) {
        std::cerr << error.what() << '\n';
        return 1;
    }
    return std::cout ? 0 : 3;
}
