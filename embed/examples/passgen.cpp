// Makes a pass of LLVM out of replacements: prints a C++ function for each, which matches its left-hand side and builds its right
// side. passgen_pass.cpp is the pass that includes what this prints.
//
//     passgen FILE > rules.inc
//
// A replacement holds under its conditions: path conditions, attributes, the widths of its values. The functions test widths
// alone, so a replacement with another condition is refused, and so is one with a node that has no pattern; the status is then 1.
#include "souper.hpp"

#include <algorithm>
#include <cstdio>
#include <fstream>
#include <iostream>
#include <iterator>
#include <sstream>
#include <string>
#include <string_view>
#include <unistd.h>

namespace {

using souper::assignment;
using souper::constant;
using souper::id;
using souper::instruction;
using souper::item;
using souper::op;
using souper::operand;

// Why there is no function for a replacement.
class unsupported : public std::runtime_error {
    using std::runtime_error::runtime_error;
};

// The operations.

struct binary {
    const char *name;
    bool commutes = false, no_unsigned_wrap = false, no_signed_wrap = false, is_exact = false;
};

std::optional<binary> arithmetic_of(op operation) {
    switch (operation) {
    case op::add:
        return binary{"Add", true};
    case op::addnsw:
        return binary{"Add", true, false, true};
    case op::addnuw:
        return binary{"Add", true, true, false};
    case op::addnw:
        return binary{"Add", true, true, true};
    case op::sub:
        return binary{"Sub"};
    case op::subnsw:
        return binary{"Sub", false, false, true};
    case op::subnuw:
        return binary{"Sub", false, true, false};
    case op::subnw:
        return binary{"Sub", false, true, true};
    case op::mul:
        return binary{"Mul", true};
    case op::mulnsw:
        return binary{"Mul", true, false, true};
    case op::mulnuw:
        return binary{"Mul", true, true, false};
    case op::mulnw:
        return binary{"Mul", true, true, true};
    default:
        return {};
    }
}

std::optional<binary> binary_of(op operation) {
    switch (operation) {
    case op::udiv:
        return binary{"UDiv"};
    case op::udivexact:
        return binary{"UDiv", false, false, false, true};
    case op::sdiv:
        return binary{"SDiv"};
    case op::sdivexact:
        return binary{"SDiv", false, false, false, true};
    case op::urem:
        return binary{"URem"};
    case op::srem:
        return binary{"SRem"};
    case op::and_:
        return binary{"And", true};
    case op::or_:
        return binary{"Or", true};
    case op::xor_:
        return binary{"Xor", true};
    case op::shl:
        return binary{"Shl"};
    case op::shlnsw:
        return binary{"Shl", false, false, true};
    case op::shlnuw:
        return binary{"Shl", false, true, false};
    case op::shlnw:
        return binary{"Shl", false, true, true};
    case op::lshr:
        return binary{"LShr"};
    case op::lshrexact:
        return binary{"LShr", false, false, false, true};
    case op::ashr:
        return binary{"AShr"};
    case op::ashrexact:
        return binary{"AShr", false, false, false, true};
    default:
        return arithmetic_of(operation);
    }
}

bool divides(op operation) {
    switch (operation) {
    case op::udiv:
    case op::udivexact:
    case op::sdiv:
    case op::sdivexact:
    case op::urem:
    case op::srem:
        return true;
    default:
        return false;
    }
}

// The predicate of a comparison; empty of another operation.
std::string predicate_of(op operation) {
    switch (operation) {
    case op::eq:
        return "llvm::ICmpInst::ICMP_EQ";
    case op::ne:
        return "llvm::ICmpInst::ICMP_NE";
    case op::ult:
        return "llvm::ICmpInst::ICMP_ULT";
    case op::slt:
        return "llvm::ICmpInst::ICMP_SLT";
    case op::ule:
        return "llvm::ICmpInst::ICMP_ULE";
    case op::sle:
        return "llvm::ICmpInst::ICMP_SLE";
    default:
        return {};
    }
}

// The name of a cast; empty of another operation.
std::string cast_of(op operation) {
    return operation == op::zext ? "ZExt" : operation == op::sext ? "SExt" : operation == op::trunc ? "Trunc" : "";
}

// The name of an intrinsic function with one width; empty of another operation.
std::string intrinsic_of(op operation) {
    switch (operation) {
    case op::ctpop:
    case op::bswap:
    case op::bitreverse:
    case op::cttz:
    case op::ctlz:
    case op::fshl:
    case op::fshr:
    case op::sadd_sat:
    case op::uadd_sat:
    case op::ssub_sat:
    case op::usub_sat: {
        std::string name(souper::word(operation));
        std::replace(name.begin(), name.end(), '.', '_');
        return "llvm::Intrinsic::" + name;
    }
    default:
        return {};
    }
}

// An intrinsic function of LLVM with a second operand, whether the result for 0 is poison.
bool has_flag(op operation) {
    return operation == op::cttz || operation == op::ctlz;
}

// The conditions.

void require_no_condition(const souper::statement &s) {
    const auto *assigned = std::get_if<assignment>(&s);
    if (assigned == nullptr) {
        throw unsupported("a path condition");
    }
    if (!assigned->attributes.empty()) {
        throw unsupported("an attribute of " + assigned->name);
    }
    if (std::holds_alternative<souper::var>(assigned->value)) {
        return;
    }
    const auto *computed = std::get_if<instruction>(&assigned->value);
    if (computed == nullptr) {
        throw unsupported("a value that is neither a variable nor an instruction: " + assigned->name);
    }
    const op operation = computed->operation;
    if (!binary_of(operation) && predicate_of(operation).empty() && cast_of(operation).empty() && intrinsic_of(operation).empty()
        && operation != op::select) {
        throw unsupported("the instruction " + std::string(souper::word(operation)));
    }
}

// The replaced value, and what it is replaced by.
std::pair<operand, operand> roots_of(const item &i) {
    const auto *both = std::get_if<souper::infer_result>(&i.last);
    const auto *pair = std::get_if<souper::cand>(&i.last);
    if (!(both != nullptr ? both->replaced.attributes : pair->attributes).empty()) {
        throw unsupported("an attribute of the last line");
    }
    return both != nullptr ? std::pair<operand, operand>(both->replaced.value, both->by.value)
                           : std::pair(pair->replaced, pair->by);
}

// Widths: those of the text, and those that follow from them.

using width = std::optional<std::uint32_t>;

class widths {
public:
    // Writes the width of each value and constant into the item.
    explicit widths(item &of) : i(of) {
        do {
            changed = false;
            for (auto &s : i.statements) {
                of_assignment(std::get<assignment>(s));
            }
            of_roots();
        } while (changed);
        for (auto &s : i.statements) {
            require(std::get<assignment>(s));
        }
    }

private:
    width *of(operand &o) {
        const id *used = std::get_if<id>(&o);
        return used != nullptr ? &std::get<assignment>(i.statements[used->position]).width : &std::get<constant>(o).width;
    }

    // All have one width, if one of them has.
    void same(const std::vector<width *> &all) {
        const auto known = std::find_if(all.begin(), all.end(), [](const width *w) { return w->has_value(); });
        if (known == all.end()) {
            return;
        }
        for (width *w : all) {
            if (w->has_value() && *w != **known) {
                throw unsupported("values of two widths where LLVM has one");
            }
            changed = changed || !w->has_value();
            *w = **known;
        }
    }

    void of_assignment(assignment &assigned) {
        auto *computed = std::get_if<instruction>(&assigned.value);
        if (computed == nullptr || !cast_of(computed->operation).empty()) {
            return;
        }
        width one = 1;
        std::vector<width *> all;
        for (auto &o : computed->operands) {
            all.push_back(of(o));
        }
        if (computed->operation == op::select) {
            same({&one, all[0]});
            all.erase(all.begin());
        }
        if (predicate_of(computed->operation).empty()) {
            all.push_back(&assigned.width);
        } else {
            same({&one, &assigned.width});
        }
        same(all);
    }

    void of_roots() {
        if (auto *pair = std::get_if<souper::cand>(&i.last)) {
            same({of(pair->replaced), of(pair->by)});
        } else if (auto *both = std::get_if<souper::infer_result>(&i.last)) {
            operand replaced = both->replaced.value;
            same({of(replaced), of(both->by.value)});
        }
    }

    void require(assignment &assigned) {
        if (!assigned.width) {
            throw unsupported("a value without a width: " + assigned.name);
        }
        auto *computed = std::get_if<instruction>(&assigned.value);
        if (computed == nullptr) {
            return;
        }
        for (auto &o : computed->operands) {
            if (!of(o)->has_value()) {
                throw unsupported("a constant without a width, in " + assigned.name);
            }
        }
        const bool narrows = computed->operation == op::trunc;
        if (!cast_of(computed->operation).empty()
            && (narrows ? *assigned.width >= **of(computed->operands[0]) : *assigned.width <= **of(computed->operands[0]))) {
            throw unsupported("a cast that LLVM does not have: " + assigned.name);
        }
        if (computed->operation == op::bswap && *assigned.width % 16 != 0) {
            throw unsupported("a width that bswap does not have: " + assigned.name);
        }
    }

    item &i;
    bool changed = false;
};

// A constant in C++, as an llvm::APInt.
std::string number(const constant &c) {
    const std::uint32_t bits = c.width.value();
    const auto one = static_cast<souper::int128>(1);
    if (bits < 128 && (c.value < -(one << (bits - 1)) || (bits < 127 && c.value >= one << bits))) {
        throw unsupported("a constant that is too large for its width");
    }
    std::ostringstream out;
    out << "number(" << bits << ", {";
    for (unsigned bit = 0; bit < bits; bit += 64) {
        out << (bit == 0 ? "" : ", ") << "0x" << std::hex << static_cast<std::uint64_t>(c.value >> std::min(bit, 127u))
            << std::dec << "u";
    }
    out << "})";
    return out.str();
}

// The function of a replacement.

class rule {
public:
    explicit rule(const item &replacement) : i(replacement) {
        constexpr std::size_t most = 64;
        if (i.statements.size() > most) {
            throw unsupported("more than 64 statements");
        }
        for (const auto &s : i.statements) {
            require_no_condition(s);
        }
        widths set(i);
        std::tie(replaced, by) = roots_of(i);
        require_roots();
        left = paths_from(replaced);
        right = paths_from(by);
        require_right_side();
    }

    void print(std::ostream &out, std::size_t index) {
        std::ostringstream variables, body;
        const std::string whole = pattern(replaced);
        for (std::size_t position = 0; position < i.statements.size(); position++) {
            if (is_bound(position)) {
                variables << "    llvm::Value *v" << position << " = nullptr;\n";
            }
            if (right[position] > 0 && !is_taken(position)) {
                body << "    llvm::Value *r" << position << " = " << build(position) << ";\n";
            }
        }
        out << "static llvm::Value *rule_" << index
            << "(llvm::Value *root, [[maybe_unused]] llvm::IRBuilder<> &b) {\n    using namespace llvm::PatternMatch;\n"
            << variables.str() << "    if (!match(root, " << whole << ")) {\n        return nullptr;\n    }\n"
            << body.str() << "    return " << built(by) << ";\n}\n\n";
    }

private:
    const assignment &at(id position) const { return std::get<assignment>(i.statements[position.position]); }

    const instruction *computed(std::size_t position) const { return std::get_if<instruction>(&at(id{position}).value); }

    // How many paths of uses lead from a root to each statement: 0, 1, or 2 for more.
    std::vector<unsigned> paths_from(const operand &root) const {
        std::vector<unsigned> paths(i.statements.size(), 0);
        if (const auto *first = std::get_if<id>(&root)) {
            paths[first->position] = 1;
        }
        for (std::size_t position = i.statements.size(); position-- > 0;) {
            souper::for_each_use(i.statements[position],
                                 [&](id used) { paths[used.position] = std::min(2u, paths[used.position] + paths[position]); });
        }
        return paths;
    }

    void require_roots() const {
        const auto *root = std::get_if<id>(&replaced);
        if (root == nullptr || computed(root->position) == nullptr) {
            throw unsupported("a replaced value that is no instruction");
        }
    }

    // Undefined values. A value that is undef may be another one at each use, and one that is poison may be used where a select
    // does not choose it: then the right side is built of values that are frozen. A division by a frozen value may be one by 0.
    void require_right_side() {
        for (std::size_t position = 0; position < i.statements.size(); position++) {
            const bool is_select = computed(position) != nullptr && computed(position)->operation == op::select;
            freezes = freezes || (left[position] > 0 && is_select) || (computed(position) == nullptr && right[position] > 1);
        }
        for (std::size_t position = 0; position < i.statements.size(); position++) {
            if (right[position] == 0 || is_taken(position)) {
                continue;
            }
            if (computed(position) == nullptr && left[position] == 0) {
                throw unsupported("a variable that the left-hand side does not have: " + at(id{position}).name);
            }
            if (computed(position) != nullptr && divides(computed(position)->operation)) {
                throw unsupported("a division in the right side");
            }
        }
        if (right[std::get<id>(replaced).position] > 0) {
            throw unsupported("a right side that uses the replaced value");
        }
    }

    // Whether the right side takes the value from the left-hand side as it is.
    bool is_taken(std::size_t position) const { return left[position] > 0 && !freezes; }

    // Whether the function has a variable for the matched value.
    bool is_bound(std::size_t position) const {
        return left[position] > 0
            && (computed(position) == nullptr || left[position] > 1 || (right[position] > 0 && is_taken(position)));
    }

    std::string pattern(const operand &o) {
        const auto *used = std::get_if<id>(&o);
        if (used == nullptr) {
            return "m_SpecificInt(" + number(std::get<constant>(o)) + ")";
        }
        const std::size_t position = used->position;
        const std::string variable = "v" + std::to_string(position);
        if (std::find(matched.begin(), matched.end(), position) != matched.end()) {
            return "m_Deferred(" + variable + ")";
        }
        std::string inner = computed(position) == nullptr ? "m_Value(" + variable + ")" : pattern_of(*computed(position));
        if (computed(position) != nullptr && is_bound(position)) {
            inner = "m_CombineAnd(" + inner + ", m_Value(" + variable + "))";
        }
        matched.push_back(position);
        return "of_width(" + std::to_string(at(*used).width.value()) + ", " + inner + ")";
    }

    std::string pattern_of(const instruction &c) {
        std::string operands;
        for (const auto &o : c.operands) {
            operands += (operands.empty() ? "" : ", ") + pattern(o);
        }
        if (const auto b = binary_of(c.operation)) {
            const std::string plain = std::string(b->commutes ? "m_c_" : "m_") + b->name + "(" + operands + ")";
            return b->is_exact                             ? "m_Exact(" + plain + ")"
                : b->no_unsigned_wrap || b->no_signed_wrap ? "no_wrap(" + flags(*b) + ", " + plain + ")"
                                                           : plain;
        }
        if (!predicate_of(c.operation).empty()) {
            return "compare(" + predicate_of(c.operation) + ", " + operands + ")";
        }
        if (!cast_of(c.operation).empty()) {
            return "m_" + cast_of(c.operation) + "(" + operands + ")";
        }
        if (c.operation == op::select) {
            return "m_Select(" + operands + ")";
        }
        return "m_Intrinsic<" + intrinsic_of(c.operation) + ">(" + operands + (has_flag(c.operation) ? ", m_Value())" : ")");
    }

    static std::string flags(const binary &b) {
        return std::string(b.no_unsigned_wrap ? "true" : "false") + ", " + (b.no_signed_wrap ? "true" : "false");
    }

    // The value of an operand of the right side.
    std::string built(const operand &o) const {
        const auto *used = std::get_if<id>(&o);
        if (used == nullptr) {
            return "b.getInt(" + number(std::get<constant>(o)) + ")";
        }
        return (is_taken(used->position) ? "v" : "r") + std::to_string(used->position);
    }

    std::string build(std::size_t position) const {
        const instruction *c = computed(position);
        if (c == nullptr) {
            return "frozen(v" + std::to_string(position) + ", b)";
        }
        std::string operands;
        for (const auto &o : c->operands) {
            operands += (operands.empty() ? "" : ", ") + built(o);
        }
        const std::string type = "b.getIntNTy(" + std::to_string(at(id{position}).width.value()) + ")";
        if (const auto b = binary_of(c->operation)) {
            const bool wraps = b->no_unsigned_wrap || b->no_signed_wrap;
            return std::string("b.Create") + b->name + "(" + operands
                + (b->is_exact ? ", \"\", true"
                       : wraps ? ", \"\", " + flags(*b)
                               : "")
                + ")";
        }
        if (!predicate_of(c->operation).empty()) {
            return "b.CreateICmp(" + predicate_of(c->operation) + ", " + operands + ")";
        }
        if (!cast_of(c->operation).empty()) {
            return "b.Create" + cast_of(c->operation) + "(" + operands + ", " + type + ")";
        }
        if (c->operation == op::select) {
            return "b.CreateSelect(" + operands + ")";
        }
        return "b.CreateIntrinsic(" + intrinsic_of(c->operation) + ", {" + type + "}, {" + operands
            + (has_flag(c->operation) ? ", b.getFalse()" : "") + "})";
    }

    item i;
    operand replaced, by;
    std::vector<unsigned> left, right;
    std::vector<std::size_t> matched;
    bool freezes = false;
};

void print_comment(const std::string &text) {
    std::istringstream lines(text);
    for (std::string line; std::getline(lines, line);) {
        std::cout << (line.empty() ? "" : "//     " + line + "\n");
    }
}

// Prints the function of each item, and the list of them; returns whether none is refused.
bool print_rules(const std::vector<item> &items) {
    bool all = true;
    std::string names;
    for (std::size_t index = 0; index < items.size(); index++) {
        try {
            std::ostringstream function;
            rule(items[index]).print(function, index);
            print_comment(souper::write(souper::kind::rep, items[index]));
            std::cout << function.str();
            names += "rule_" + std::to_string(index) + ", ";
        } catch (const unsupported &reason) {
            std::cerr << "replacement " << index << " is refused: it has " << reason.what() << "\n";
            all = false;
        }
    }
    std::cout << "static llvm::Value *(*const rules[])(llvm::Value *, llvm::IRBuilder<> &) = {" << names << "nullptr};\n";
    return all;
}

// The text; at a terminal what that may obey is another character.
std::string visible(std::string_view text) {
    if (!isatty(STDERR_FILENO)) {
        return std::string(text);
    }
    std::string all;
    for (std::size_t at = 0; at < text.size(); at++) {
        const auto byte = static_cast<unsigned char>(text[at]);
        const std::string_view two = text.substr(at, 2), three = text.substr(at, 3);
        if ((byte < 0x20 && byte != '\n') || byte == 0x7f) {
            all.append("\xe2\x90").append(1, static_cast<char>(byte == 0x7f ? 0xa1 : 0x80 + byte));
        } else if (two >= "\xc2\x80" && two < "\xc2\xa0") {
            all.append("\xef\xbf\xbd");
            at += 1;
        } else if ((three >= "\xe2\x80\xaa" && three <= "\xe2\x80\xae") || (three >= "\xe2\x81\xa6" && three <= "\xe2\x81\xa9")) {
            all.append("\xef\xbf\xbd");
            at += 2;
        } else {
            all.append(1, text[at]);
        }
    }
    return all;
}

} // namespace

int main(int argc, char **argv) {
    std::ifstream file(argc == 2 ? argv[1] : "", std::ios::binary);
    const std::string text(std::istreambuf_iterator<char>(file), {});
    if (!file.is_open()) {
        std::cerr << "usage: passgen FILE > rules.inc\n";
        return 2;
    }
    try {
        const auto items = souper::canonical(souper::kind::rep, souper::read(souper::kind::rep, text));
        return print_rules(items) ? 0 : 1;
    } catch (const std::exception &error) {
        std::cerr << visible(error.what()) << "\n";
        return 1;
    }
}
