// What programs over frames in memory share. Reads the lines `frame CHANNEL HEX` of standard input, and then goes over the
// frames ten times: `read` reads each, `reassemble` puts fragments together too. Writes how many frames there are, how many
// UDP messages stood in one frame or were put together, and the nanoseconds of the fastest turn over all frames. Decoding is
// not timed.
#pragma once

#include <algorithm>
#include <chrono>
#include <cstdint>
#include <iostream>
#include <string>
#include <string_view>
#include <vector>

using Frames = std::vector<std::vector<std::uint8_t>>;

inline int value_of(char digit) {
    return digit <= '9' ? digit - '0' : (digit | 0x20) - 'a' + 10;
}

inline Frames frames_of(std::istream& input) {
    Frames frames;
    for (std::string line; std::getline(input, line);) {
        std::string_view digits(line);
        digits.remove_prefix(digits.rfind(' ') + 1);
        std::vector<std::uint8_t> frame;
        for (std::size_t i = 0; i + 1 < digits.size(); i += 2) {
            frame.push_back(static_cast<std::uint8_t>(value_of(digits[i]) << 4 | value_of(digits[i + 1])));
        }
        frames.push_back(std::move(frame));
    }
    return frames;
}

// Runs the job that is named on the command line; `turn` goes over the frames once and returns how many messages came.
template <typename Turn>
int run(int argc, char** argv, Turn turn) {
    const std::string_view job = argc == 2 ? argv[1] : "";
    if (job != "read" && job != "reassemble") {
        std::cerr << "usage: " << argv[0] << " read|reassemble\n";
        return 2;
    }
    std::ios::sync_with_stdio(false);
    const Frames frames = frames_of(std::cin);
    std::uint64_t messages = 0;
    std::int64_t best = INT64_MAX;
    for (int round = 0; round < 10; round++) {
        const auto began = std::chrono::steady_clock::now();
        messages = turn(frames, job == "reassemble");
        const auto took = std::chrono::steady_clock::now() - began;
        best = std::min<std::int64_t>(best, std::chrono::nanoseconds(took).count());
    }
    std::cout << frames.size() << ' ' << messages << ' ' << best << '\n';
    return 0;
}
