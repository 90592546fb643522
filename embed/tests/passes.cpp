// What passes over items call: users of values, values that are replaced at once, statements that are inserted, moved and sorted.
#include "souper.hpp"

extern "C" {
#include "records.h"
}

#include <map>
#include <numeric>
#include <random>
#include <string>
#include <unordered_map>

namespace {

using souper::constant;
using souper::id;
using souper::item;
using souper::kind;
using souper::op;
using souper::operand;
using map = std::map<id, operand>;

// A variable, a block, a phi, a condition on the block, a sum, a condition.
const char *const branching = "%x = var %b = block 2 %p = phi %b, %x, 1 blockpc %b 1 %x 0 %y = add %p, %x pc %y %p ";
const id x{0}, b{1}, p{2}, on_block{3}, y{4}, condition{5};

item read_one(kind k, const std::string &text) { return souper::read(k, text).front(); }

void is(const item &i, const std::string &text) { expect(i == read_one(souper::kind_of(i), text), text.c_str(), nullptr); }

souper::assignment unnamed(op operation, std::vector<operand> operands, std::optional<std::uint32_t> width = {}) {
    return {{}, width, souper::instruction{operation, std::move(operands)}};
}

// Users.

std::vector<id> all_of(const souper::users &users, id used) { return {users.of(used).begin(), users.of(used).end()}; }

void users() {
    const souper::users of(read_one(kind::rep, branching + std::string("infer %y result %x")));
    expect(all_of(of, x) == std::vector<id>{p, on_block, y} && all_of(of, b) == std::vector<id>{p, on_block}, "users of values", nullptr);
    expect(all_of(of, p) == std::vector<id>{y, condition} && all_of(of, y) == std::vector<id>{condition}, "users of others", nullptr);
    expect(of.of(on_block).empty() && of.of(id{6}).empty() && of.of(id{SIZE_MAX}).empty(), "no users", nullptr);
    expect(of.in_last_lines(x) && of.in_last_lines(y) && !of.in_last_lines(p) && !of.in_last_lines(id{6}), "in last lines", nullptr);
    const souper::users twice(read_one(kind::lhs, "%x = var %y = mul %x, %x infer %y"));
    expect(twice.of(x).size() == 1 && twice.of(x)[0] == id{1}, "one that uses it twice", nullptr);
    const souper::users none(item{{souper::pc{id{7}, id{SIZE_MAX}}}, souper::result{id{7}}});
    expect(none.of(id{0}).empty() && !none.in_last_lines(id{7}), "uses of no statement", nullptr);
}

void uses_of_last_lines() {
    const auto uses = [](kind k, const char *last) {
        std::vector<id> all;
        souper::for_each_use(read_one(k, branching + std::string(last)).last, [&all](id used) { all.push_back(used); });
        return all;
    };
    expect(uses(kind::lhs, "infer %p") == std::vector<id>{p} && uses(kind::rhs, "result %p") == std::vector<id>{p}, "one use", nullptr);
    expect(uses(kind::rep, "infer %y result %p") == std::vector<id>{y, p} && uses(kind::rep, "cand %y %p") == std::vector<id>{y, p},
           "two uses", nullptr);
    expect(uses(kind::rhs, "result 1").empty() && uses(kind::rep, "cand 1 2").empty(), "constants", nullptr);
}

// Many values that are replaced at once.

template <typename Pairs> void becomes(kind k, const std::string &last, const Pairs &pairs, const std::string &wanted) {
    item i = read_one(k, branching + last);
    souper::replace_uses(i, pairs);
    is(i, wanted);
}

void replaced_at_once() {
    item i = read_one(kind::lhs, branching + std::string("infer %y"));
    souper::replace_uses(i, std::unordered_map<id, operand>{{x, constant{7}}});
    is(i, "%x = var %b = block 2 %p = phi %b, 7, 1 blockpc %b 1 7 0 %y = add %p, 7 pc %y %p infer %y");
    const std::string chain = "%x = var %b = block 2 %p = phi %b, %x, 1 blockpc %b 1 %x 0 %y = add %x, %x pc %x %x ";
    becomes(kind::lhs, "infer %y", map{{y, p}, {p, x}}, chain + "infer %x");
    becomes(kind::lhs, "infer %y", map{{p, x}, {y, p}}, chain + "infer %x");
    becomes(kind::rep, "cand %y %p", std::vector<std::pair<id, operand>>{{y, p}, {p, x}}, chain + "cand %x %x");
    const std::string by_5 = "%x = var %b = block 2 %p = phi %b, 5, 1 blockpc %b 1 5 0 %y = add 5, 5 pc 5 5 ";
    const map to_5{{y, p}, {p, x}, {x, constant{5}}};
    becomes(kind::lhs, "infer %y (harvestedFromUse)", to_5, by_5 + "infer %y (harvestedFromUse)");
    becomes(kind::rhs, "result %p", to_5, by_5 + "result 5");
    becomes(kind::rep, "infer %p result %p", to_5, by_5 + "infer %p result 5");
    becomes(kind::rep, "cand %p %x", to_5, by_5 + "cand 5 5");
    // Blocks, values by themselves, and ids past the end.
    const std::string same = branching + std::string("infer %y");
    becomes(kind::lhs, "infer %y", map{{b, x}, {x, x}, {id{6}, x}, {id{SIZE_MAX}, x}}, same);
    becomes(kind::lhs, "infer %y", map{}, same);
    item past = read_one(kind::rhs, "%x = var result %x");
    souper::replace_uses(past, map{{x, id{SIZE_MAX}}});
    expect(past.last == souper::last_lines(souper::result{id{SIZE_MAX}}), "by an id past the end", nullptr);
}

void cycles() {
    const auto is_refused = [](const map &pairs, std::size_t position) {
        const item before = read_one(kind::lhs, branching + std::string("infer %y"));
        item i = before;
        souper::error e;
        const std::string shown = "statement " + std::to_string(position) + ": the replacements of a value come back to it";
        const bool done = souper::try_replace_uses(i, pairs, e);
        expect(!done && i == before && e.what == souper::status::cycle && e.index == position && e.message == shown, shown.c_str(),
               nullptr);
        try {
            souper::replace_uses(i, pairs);
            expect(false, "the exception of a cycle", nullptr);
        } catch (const std::invalid_argument &error) {
            expect(error.what() == shown && i == before, "the exception of a cycle", nullptr);
        }
    };
    is_refused({{x, p}, {p, x}}, 0);
    is_refused({{x, p}, {p, y}, {y, p}}, 2);
    is_refused({{x, constant{1}}, {p, y}, {y, p}}, 2);
}

// Statements that are inserted and moved.

void inserted() {
    item i = read_one(kind::lhs, "%x:i8 = var %y:i8 = mul %x, 3:i8 pc %y 0 infer %y");
    const id shifted = souper::insert_before(i, id{1}, unnamed(op::shl, {x, constant{1, 8}}, 8));
    std::get<souper::assignment>(i.statements[2]).value = souper::instruction{op::add, {shifted, x}};
    expect(shifted == id{1}, "the id of what is inserted", nullptr);
    is(i, "%x:i8 = var %1:i8 = shl %x, 1:i8 %y:i8 = add %1, %x pc %y 0 infer %y");
    expect(souper::insert_before(i, id{9}, souper::pc{id{2}, constant{1}}) == id{4}, "at the end", nullptr);
    expect(souper::insert_before(i, id{0}, souper::assignment{"%first"}) == id{0}, "at the beginning", nullptr);
    is(i, "%first = var %x:i8 = var %1:i8 = shl %x, 1:i8 %y:i8 = add %1, %x pc %y 0 pc %y 1 infer %y");
    item whole = read_one(kind::rep, branching + std::string("cand %y %p"));
    souper::insert_before(whole, p, unnamed(op::freeze, {x}));
    is(whole, "%x = var %b = block 2 %2 = freeze %x %p = phi %b, %x, 1 blockpc %b 1 %x 0 %y = add %p, %x pc %y %p cand %y %p");
    // What it uses may stand after it.
    item later = read_one(kind::lhs, "%x = var %y = var infer %y");
    souper::insert_before(later, id{0}, unnamed(op::add, {id{1}, id{0}}));
    expect(later.statements[0] == souper::statement(souper::assignment{"%0", {}, souper::instruction{op::add, {id{2}, id{1}}}}),
           "uses after it", nullptr);
    item past{{souper::pc{id{1}, id{SIZE_MAX}}}, souper::result{id{1}}};
    souper::insert_before(past, id{0}, souper::assignment{"%x"});
    expect(past == item{{souper::assignment{"%x"}, souper::pc{id{2}, id{SIZE_MAX}}}, souper::result{id{2}}}, "ids past the end", nullptr);
}

void names() {
    item i = read_one(kind::lhs, "%2 = var %x = add %2, 1 infer %x");
    souper::insert_before(i, id{2}, unnamed(op::add, {id{1}, id{0}}));
    souper::insert_before(i, id{0}, souper::assignment{});
    is(i, "%0 = var %2 = var %x = add %2, 1 %3 = add %x, %2 infer %x");
    i.statements.push_back(souper::assignment{});
    i.statements.push_back(souper::assignment{"%4"});
    i.statements.push_back(souper::assignment{});
    i.statements.push_back(souper::assignment{"%007"});
    souper::sort(i);
    is(i, "%0 = var %2 = var %x = add %2, 1 %3 = add %x, %2 %5 = var %4 = var %6 = var %007 = var infer %x");
}

void moved() {
    const auto moves = [](std::size_t which, std::size_t place, std::size_t now, const char *wanted) {
        item i = read_one(kind::rep, "%a = var %b = var %c = var %d = var pc %a %b cand %c %d");
        expect(souper::move_before(i, id{which}, id{place}) == id{now}, wanted, nullptr);
        is(i, wanted);
    };
    moves(0, 2, 1, "%b = var %a = var %c = var %d = var pc %a %b cand %c %d");
    moves(0, 4, 3, "%b = var %c = var %d = var %a = var pc %a %b cand %c %d");
    moves(3, 0, 0, "%d = var %a = var %b = var %c = var pc %a %b cand %c %d");
    moves(3, 2, 2, "%a = var %b = var %d = var %c = var pc %a %b cand %c %d");
    moves(2, 9, 4, "%a = var %b = var %d = var pc %a %b %c = var cand %c %d");
    for (const std::size_t place : {1U, 2U}) {
        moves(1, place, 1, "%a = var %b = var %c = var %d = var pc %a %b cand %c %d");
    }
    moves(5, 0, 5, "%a = var %b = var %c = var %d = var pc %a %b cand %c %d");
}

// Statements that are sorted.

void sorted() {
    item i = read_one(kind::lhs, "%x:i8 = var %y:i8 = mul %x, 3:i8 pc %y 0 %z:i8 = mul %y, 5:i8 infer %z");
    i.statements.push_back(unnamed(op::shl, {id{5}, constant{2, 8}}, 8));
    i.statements.push_back(unnamed(op::freeze, {x}, 8));
    std::get<souper::assignment>(i.statements[1]).value = souper::instruction{op::add, {id{4}, x}};
    expect(souper::sort(i) == std::vector<id>{id{0}, id{3}, id{4}, id{5}, id{2}, id{1}}, "the new ids", nullptr);
    is(i, "%x:i8 = var %1:i8 = freeze %x %2:i8 = shl %1, 2:i8 %y:i8 = add %2, %x pc %y 0 %z:i8 = mul %y, 5:i8 infer %z");
    const item before = i;
    expect(souper::sort(i)[5] == id{5} && i == before, "an item in order", nullptr);
}

void sorted_cycle() {
    const souper::instruction of_1{op::freeze, {id{1}}}, of_0{op::freeze, {id{0}}}, of_none{op::add, {id{3}, id{SIZE_MAX}}};
    item i{{souper::assignment{"%a", {}, of_1}, souper::assignment{"%b", {}, of_0}, souper::assignment{"%c", {}, of_none}},
           souper::infer{id{0}}};
    expect(souper::sort(i) == std::vector<id>{id{1}, id{0}, id{2}}, "a cycle", nullptr);
    const souper::statement third = souper::assignment{"%c", {}, of_none};
    expect(i.last == souper::last_lines(souper::infer{id{1}}) && i.statements[2] == third, "uses of no statement", nullptr);
    try {
        souper::write(i);
        expect(false, "a cycle has no text", nullptr);
    } catch (const souper::not_well_formed &error) {
        expect(error.why && error.why->reason == souper::flaw_reason::use_before_definition, "a cycle has no text", nullptr);
    }
    // A path condition is no value, and stays.
    item used{{souper::assignment{"%a", {}, souper::instruction{op::freeze, {id{2}}}}, souper::pc{constant{1}, id{0}},
               souper::pc{constant{2}, id{0}}},
              souper::infer{id{0}}};
    const item as_before = used;
    souper::sort(used);
    expect(used == as_before, "a use of a condition", nullptr);
}

// Items whose statements are shuffled are in order again, and the same graphs.
void shuffled() {
    std::mt19937 random(1);
    for (int turn = 0; turn < 200; turn++) {
        souper::builder build;
        std::vector<operand> values{build.var(), build.var()};
        while (values.size() < 30) {
            const auto one = [&] { return values[random() % values.size()]; };
            values.push_back(build.inst(op::select, {one(), one(), one()}, {}, 1 + random() % 9));
        }
        const item whole = build.infer_result(std::get<id>(values[random() % 30]), values[random() % 30]);
        std::vector<std::size_t> order(whole.statements.size());
        std::iota(order.begin(), order.end(), 0);
        std::shuffle(order.begin(), order.end(), random);
        item i = whole;
        std::vector<id> ids(order.size());
        for (std::size_t position = 0; position < order.size(); position++) {
            ids[order[position]] = id{position};
            i.statements[position] = whole.statements[order[position]];
        }
        souper::detail::renumber(i, [&](id used) { return ids[used.position]; });
        souper::sort(i);
        expect(souper::write(i) == souper::write(whole), "a shuffled item", nullptr);
    }
}

// A chain in which each statement is behind its user, and as many replacements: no step is quadratic, and no stack deep.
void large() {
    constexpr std::size_t count = 200000;
    item i{{}, souper::infer{id{0}}};
    map by;
    for (std::size_t position = 0; position + 1 < count; position++) {
        i.statements.push_back(unnamed(op::freeze, {id{position + 1}}));
        by.emplace(id{position}, id{position + 1});
    }
    i.statements.push_back(souper::assignment{});
    item replaced = i;
    expect(souper::sort(i)[0] == id{count - 1} && souper::users(i).of(id{7})[0] == id{8}, "a long chain", nullptr);
    expect(std::get<souper::assignment>(i.statements.back()).name == "%" + std::to_string(count - 1), "its names", nullptr);
    souper::replace_uses(replaced, by);
    const souper::last_lines last = souper::infer{id{count - 1}};
    expect(souper::users(replaced).of(id{count - 1}).size() == count - 1 && replaced.last == last, "a long chain of replacements", nullptr);
}

} // namespace

int main() {
    users();
    uses_of_last_lines();
    replaced_at_once();
    cycles();
    inserted();
    names();
    moved();
    sorted();
    sorted_cycle();
    shuffled();
    large();
    return summary("C++: passes over items");
}
