// Prints what the second reader makes of streams that come as lines of hexadecimal digits, after
// their limits as seven numbers: `refused` with the number of the message, or how the stream ended,
// the bytes that it takes, and the rows of its batches.
#include "reader.h"

#include <iostream>
#include <sstream>

int main() {
    for (std::string line; std::getline(std::cin, line);) {
        std::istringstream words(line);
        second::Limits limits;
        std::string digits;
        words >> limits.metadata >> limits.body >> limits.slots >> limits.fields >> limits.depth >>
            limits.text >> limits.pairs >> digits;
        std::vector<uint8_t> bytes;
        for (size_t i = 0; i + 1 < digits.size(); i += 2)
            bytes.push_back(std::stoi(digits.substr(i, 2), nullptr, 16));
        second::Stream stream = second::read({bytes.data(), bytes.size()}, limits);
        if (!stream.is_accepted) {
            std::cout << "refused " << stream.messages << "\n";
            continue;
        }
        std::cout << (stream.is_marked ? "mark " : "closed ") << stream.taken;
        for (const second::Batch &batch : stream.batches) std::cout << " " << batch.rows;
        std::cout << "\n";
    }
}
