// What holds of any bytes as a code, by the decoder of souper.hpp, by souper_write, and by the checker of texts. A test returns
// null, or what does not hold. And what an exception shows of a text.
#ifndef ORACLE_HPP
#define ORACLE_HPP

#include "souper.hpp"

#include <algorithm>
#include <memory>
#include <string>

namespace oracle {

inline const std::uint8_t *bytes(const std::string &text) {
    return reinterpret_cast<const std::uint8_t *>(text.data());
}

// The code is copied to memory of its own length, so that a sanitizer sees a read past its end.
inline bool decode(souper::kind k, std::string_view code, std::vector<souper::item> &items, souper::error &e) {
    const std::unique_ptr<char[]> exact(new char[code.size()]);
    std::copy(code.begin(), code.end(), exact.get());
    return souper::try_decode(k, {exact.get(), code.size()}, items, e);
}

// The bytes are the code of the values that they are decoded to, or are none.
inline const char *decodes(souper::kind k, std::string_view code) {
    std::vector<souper::item> items;
    souper::error e;
    std::string again;
    if (decode(k, code, items, e)) {
        return souper::try_encode(items, again, e) && again == code ? nullptr : "the code of the values";
    }
    return e.what == souper::status::no_code && items.empty() && e.offset <= code.size() ? nullptr
                                                                                         : "the error of a code that is none";
}

inline SouperOutcome write(souper::kind k, const std::string &code, std::string &text) {
    SouperOutcome outcome;
    text.assign(code.size(), '\xaa');
    const auto call = [&] {
        return souper_write(static_cast<std::uint32_t>(k), bytes(code), code.size(),
                            reinterpret_cast<std::uint8_t *>(text.data()), text.size());
    };
    while ((outcome = call()).status == SOUPER_SHORT) {
        text.resize(outcome.length, '\xaa');
    }
    return outcome;
}

// The outcome of souper_write agrees with the decoder, and what it writes is canonical.
inline const char *writes(souper::kind k, const std::string &code) {
    std::string text;
    std::vector<souper::item> items;
    souper::error e;
    const SouperOutcome outcome = write(k, code, text);
    const bool decoded = decode(k, code, items, e);
    switch (outcome.status) {
    case SOUPER_DONE:
        text.resize(outcome.length);
        if (souper_check(static_cast<std::uint32_t>(k), bytes(text), text.size()).status != SOUPER_DONE) {
            return "that the text is canonical";
        }
        return decoded ? nullptr : "that what is written is decoded";
    case SOUPER_NO_CODE:
        if (decoded) {
            return "that what is decoded has a code";
        }
        return outcome.length == e.index && outcome.offset == e.offset ? nullptr : "the place of a code that is none";
    case SOUPER_NOT_WELL_FORMED:
        return decoded && outcome.length < items.size() && outcome.offset < code.size()
            ? nullptr
            : "the place of an item that is not well formed";
    default:
        return "a status of the list";
    }
}

// What is shown of a text that is at fault there, by the output of souper_format for it.
inline std::string located(std::string_view output, std::string_view text, const souper::location &at) {
    const std::size_t place = output.find(": ") + 2, frame = output.find("\n     |\n", place);
    for (std::size_t line = 1; line < at.line; line++) {
        text.remove_prefix(text.find('\n') + 1);
    }
    std::string source(text.substr(0, text.find('\n')));
    if (source.size() < text.size() && !source.empty() && source.back() == '\r') {
        source.pop_back();
    }
    const std::string number = std::to_string(at.line), width(number.size() < 4 ? 4 - number.size() : 0, ' ');
    return "unknown:" + number + ":" + std::to_string(at.column) + ": " + std::string(output.substr(place, frame - place)) + "\n     |\n" + width
        + number + " | " + source + "\n     | " + std::string(at.column - 1, ' ') + "^";
}

} // namespace oracle

#endif
