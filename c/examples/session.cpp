// Answers the lines of standard input, each as it comes, from C++.
#include "netlines.h"
#include <iostream>
#include <new>
#include <stdexcept>
#include <string>
#include <vector>

// A session that closes itself.
class Session {
    netlines_session session{};
    std::vector<std::uint8_t> output = std::vector<std::uint8_t>(4096);

    // Calls until the output has room, with a chunk that was taken already from the second time on.
    template <class Call> std::string answered(Call call) {
        std::size_t written = 0;
        std::uint32_t status;
        while ((status = call(output.data(), output.size(), &written)) == NETLINES_NO_ROOM) output.resize(written);
        if (status == NETLINES_NO_MEMORY) throw std::bad_alloc();
        if (status != NETLINES_ANSWERED) throw std::logic_error("the session has ended");
        return std::string(output.begin(), output.begin() + static_cast<std::ptrdiff_t>(written));
    }

  public:
    Session() {
        if (netlines_open(&session) != NETLINES_ANSWERED) throw std::bad_alloc();
    }
    Session(const Session &) = delete;
    Session &operator=(const Session &) = delete;
    ~Session() { netlines_close(&session); }

    std::string feed(const std::string &chunk) {
        auto len = chunk.size();
        return answered([&](std::uint8_t *room, std::size_t room_len, std::size_t *written) {
            const auto *bytes = reinterpret_cast<const std::uint8_t *>(chunk.data());
            const auto status = netlines_feed(&session, bytes, len, room, room_len, written);
            len = 0;
            return status;
        });
    }
    std::string finish() {
        return answered([&](std::uint8_t *room, std::size_t room_len, std::size_t *written) {
            return netlines_finish(&session, room, room_len, written);
        });
    }
};

int main() {
    Session session;
    for (std::string line; std::getline(std::cin, line);)
        std::cout << session.feed(line) << session.feed(std::cin.eof() ? "" : "\n");
    std::cout << session.finish();
    return 0;
}
