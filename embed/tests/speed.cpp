// What the calls of souper.hpp take for a text of left-hand sides, beside souper_format alone.
//
//     speed FILE [STORE]     FILE: left-hand sides; STORE: replacements, for `find`
//
// Prints for each call the nanoseconds for each byte of FILE, the best of nine turns; of `both` with the end of the items.
#include "souper.hpp"

#include <chrono>
#include <cstdio>
#include <fstream>
#include <iterator>
#include <string>

namespace {

constexpr souper::kind lhs = souper::kind::lhs;

std::string file(const char *path) {
    std::ifstream in(path, std::ios::binary);
    return std::string(std::istreambuf_iterator<char>(in), {});
}

class clock_of {
public:
    explicit clock_of(std::size_t count) noexcept : bytes(static_cast<double>(count)) {}

    template <typename Call> void operator()(const char *name, Call call) const {
        double best = 1e9;
        for (int turn = 0; turn < 9; turn++) {
            const auto begin = std::chrono::steady_clock::now();
            call();
            best = std::min(best, std::chrono::duration<double>(std::chrono::steady_clock::now() - begin).count());
        }
        std::printf("%-24s %8.2f\n", name, 1e9 * best / bytes);
        std::fflush(stdout);
    }

private:
    double bytes;
};

} // namespace

int main(int argc, char **argv) {
    if (argc < 2) {
        std::fprintf(stderr, "usage: speed FILE [STORE]\n");
        return 2;
    }
    const std::string text = file(argv[1]);
    const clock_of time(text.size());
    const auto items = souper::read(lhs, text);
    const std::string code = souper::encode(items);
    std::vector<std::string> each;
    for (const auto &one : items) {
        each.push_back(souper::write(one));
    }
    const auto of = [](const std::string &bytes) { return reinterpret_cast<const std::uint8_t *>(bytes.data()); };
    std::string room(8 * text.size(), 'x');
    auto *const out = reinterpret_cast<std::uint8_t *>(room.data());
    std::uint32_t status = 0;
    std::size_t size = 0;
    std::vector<souper::item> read;
    time("souper_format", [&] { status |= souper_format(SOUPER_LHS, of(text), text.size(), out, room.size()).status; });
    time("souper_read", [&] { status |= souper_read(SOUPER_LHS, of(text), text.size(), out, room.size()).status; });
    time("souper_write", [&] { status |= souper_write(SOUPER_LHS, of(code), code.size(), out, room.size()).status; });
    time("souper_key", [&] { status |= souper_key(SOUPER_LHS, SOUPER_KEY, of(text), text.size(), out, room.size()).status; });
    time("format", [&] { size += souper::format(lhs, text).size(); });
    time("read", [&] { read = souper::read(lhs, text); });
    time("write", [&] { size += souper::write(lhs, items).size(); });
    time("both", [&] { size += souper::write(lhs, souper::read(lhs, text)).size(); });
    time("decode", [&] { read = souper::decode(lhs, code); });
    time("encode", [&] { size += souper::encode(items).size(); });
    time("key", [&] { size += souper::key(lhs, text).size(); });
    time("records", [&] { size += souper::records(lhs, text).size(); });
    const auto one_by_one = [&](const char *name, auto call) {
        time(name, [&] {
            for (const auto &one : each) {
                size += call(one).size();
            }
        });
    };
    one_by_one("format, one by one", [](const std::string &one) { return souper::format(lhs, one); });
    one_by_one("read, one by one", [](const std::string &one) { return souper::read(lhs, one); });
    one_by_one("key, one by one", [](const std::string &one) { return souper::key(lhs, one); });
    one_by_one("records, one by one", [](const std::string &one) { return souper::records(lhs, one); });
    time("write, one by one", [&] {
        for (const auto &one : items) {
            size += souper::write(one).size();
        }
    });
    if (argc > 2) {
        const std::string store = file(argv[2]);
        time("find", [&] { size += souper::find(store, text).size(); });
    }
    return status == 0 && size > 0 ? 0 : 1;
}
