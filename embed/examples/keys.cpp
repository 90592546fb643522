// Keys left-hand sides by their graphs: reads files of one left-hand side each, and prints which files have the same one.
#include "souper.hpp"

#include <fstream>
#include <iostream>
#include <iterator>
#include <map>
#include <string>
#include <string_view>
#include <unistd.h>
#include <vector>

// The text; at a terminal what that may obey is another character.
static std::string visible(std::string_view text) {
    if (!isatty(STDERR_FILENO)) {
        return std::string(text);
    }
    std::string all;
    for (std::size_t at = 0; at < text.size(); at++) {
        const auto byte = static_cast<unsigned char>(text[at]);
        const std::string_view two = text.substr(at, 2), three = text.substr(at, 3);
        if ((byte < 0x20 && byte != '\n') || byte == 0x7f) {
            all.append("\xe2\x90").append(1, static_cast<char>(byte == 0x7f ? 0xa1 : 0x80 + byte));
        } else if (two >= "\xc2\x80" && two < "\xc2\xa0") {
            all.append("\xef\xbf\xbd");
            at += 1;
        } else if ((three >= "\xe2\x80\xaa" && three <= "\xe2\x80\xae") || (three >= "\xe2\x81\xa6" && three <= "\xe2\x81\xa9")) {
            all.append("\xef\xbf\xbd");
            at += 2;
        } else {
            all.append(1, text[at]);
        }
    }
    return all;
}

int main(int argc, char **argv) {
    std::map<std::string, std::vector<std::string>> files_of;
    int status = 0;
    for (int i = 1; i < argc; i++) {
        std::ifstream file(argv[i], std::ios::binary);
        const std::string text(std::istreambuf_iterator<char>(file), {});
        if (!file.is_open()) {
            std::cerr << visible(argv[i]) << ": cannot be read\n";
            status = 1;
            continue;
        }
        try {
            files_of[souper::format(souper::kind::lhs, text)].push_back(argv[i]);
        } catch (const souper::refused &refusal) {
            const auto at = refusal.location.value_or(souper::location{refusal.offset, refusal.line, refusal.column});
            std::cerr << visible(argv[i]) << ":" << at.line << ":" << at.column << ": " << visible(refusal.message()) << "\n";
            std::cerr << (refusal.hint().empty() ? "" : "hint: " + visible(refusal.hint()) + "\n");
            status = 1;
        } catch (const souper::not_utf8 &error) {
            std::cerr << visible(argv[i]) << ": " << error.what() << "\n";
            status = 1;
        }
    }
    for (const auto &[key, files] : files_of) {
        std::cout << files.size() << ":";
        for (const auto &file : files) {
            std::cout << " " << file;
        }
        std::cout << "\n";
    }
    return status;
}
