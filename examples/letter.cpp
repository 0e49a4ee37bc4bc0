// Shows the text of a letter in reading order: letter < FILE. It ends with status 1 if the letter is refused, and with 2
// if it cannot be read.
#include <cstdio>
#include <iostream>
#include <stdexcept>
#include <string>
#include <vector>
#ifdef _WIN32
#include <fcntl.h>
#include <io.h>
#endif
#include "odif.h"

using Octets = std::vector<std::uint8_t>;

// A refusal as an exception, with its number, its place and its sentence.
struct Refused : std::runtime_error {
    std::uint32_t number, place;
    Refused(std::uint32_t number, std::uint32_t place)
        : std::runtime_error("refused, number " + std::to_string(number) + " at octet " + std::to_string(place) + ": "
                             + odif_sentence(number)),
          number(number), place(place) {}
};

// The text of a side: the contents of its units in reading order, and where each of them stands there.
struct Text {
    Octets octets;
    std::vector<odif_line> lines;

    // Asks odif_layout_text or odif_logical_text, which judge the stream once. No two parts that are lent overlap.
    Text(decltype(odif_layout_text) ask, const Octets &stream) : octets(stream.size()), lines(ODIF_MOST_ELEMENTS) {
        std::vector<std::uint32_t> table(ODIF_ROW_WIDTH * ODIF_MOST_ELEMENTS);
        odif_text_read shown = ask(stream.data(), stream.size(), table.data(), table.size(), lines.data(), lines.size(),
                               octets.data(), octets.size());
        if (shown.number != 0) throw Refused(shown.number, shown.place);
        lines.resize(shown.lines);
        octets.resize(shown.length);
    }
};

int main() {
#ifdef _WIN32 // octets, and not lines
    _setmode(_fileno(stdin), _O_BINARY);
    _setmode(_fileno(stdout), _O_BINARY);
#endif
    Octets stream(ODIF_STREAM_LIMIT + 1);
    stream.resize(std::fread(stream.data(), 1, stream.size(), stdin));
    if (std::ferror(stdin)) {
        std::perror("letter");
        return 2;
    }
    try {
        Text text(odif_layout_text, stream);
        if (text.lines.empty()) text = Text(odif_logical_text, stream);
        for (const odif_line &line : text.lines) {
            std::string content(text.octets.begin() + line.first, text.octets.begin() + line.past);
            if (content.empty() || content.back() != '\n') content.push_back('\n');
            std::cout << content;
        }
    } catch (const Refused &refused) {
        std::cerr << refused.what() << '\n';
        return 1;
    }
    return std::cout.flush() ? 0 : 2;
}
