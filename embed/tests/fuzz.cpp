// A target of libFuzzer: bytes as a code of each kind, as oracle.hpp judges them.
//
//     clang++ -std=c++17 -g -O1 -fsanitize=fuzzer,address,undefined -Iembed embed/tests/fuzz.cpp heap.o libsouper_c.a -o fuzz
//     ./fuzz -runs=100000 -max_len=512 FOLDER
#include "oracle.hpp"

#include <cstdio>
#include <cstdlib>

extern "C" int LLVMFuzzerTestOneInput(const std::uint8_t *data, std::size_t size) {
    const std::string code(reinterpret_cast<const char *>(data), size);
    for (const souper::kind k : {souper::kind::lhs, souper::kind::rhs, souper::kind::rep}) {
        const char *wrong = oracle::decodes(k, code);
        wrong = wrong != nullptr ? wrong : oracle::writes(k, code);
        if (wrong != nullptr) {
            std::fprintf(stderr, "kind %u: %s does not hold\n", static_cast<unsigned>(k), wrong);
            std::abort();
        }
    }
    return 0;
}
