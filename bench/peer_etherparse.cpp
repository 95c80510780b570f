// The frames by libetherparse: `read` judges the checksum of each, `reassemble` gives fragments to a pool too. A message
// counts where its checksum is right.
#include "peer.hpp"

#include "etherparse.h"

#include <array>

namespace {

constexpr std::uint32_t RIGHT = 1, NOT_WHOLE = 3;

std::array<std::uint8_t, 65535> message;

bool completes(ep_pool& pool, const std::vector<std::uint8_t>& frame) {
    return ep_pool_add(&pool, frame.data(), frame.size(), 0, 0, message.data(), message.size()).status == EP_COMPLETED;
}

std::uint64_t turn(const Frames& frames, bool reassembles) {
    std::uint64_t messages = 0;
    ep_pool pool{};
    ep_pool_new(&pool);
    for (const auto& frame : frames) {
        const std::uint32_t verdict = ep_verdict_ethernet(frame.data(), frame.size());
        messages += verdict == RIGHT || (reassembles && verdict == NOT_WHOLE && completes(pool, frame));
    }
    ep_pool_free(&pool);
    return messages;
}

}  // namespace

int main(int argc, char** argv) {
    return run(argc, argv, turn);
}
