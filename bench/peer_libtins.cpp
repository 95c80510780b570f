// The frames by libtins: `read` slices each into its layers, `reassemble` hands each to `IPv4Reassembler` too.
#include "peer.hpp"

#include <tins/tins.h>

namespace {

std::uint64_t turn(const Frames& frames, bool reassembles) {
    std::uint64_t messages = 0;
    Tins::IPv4Reassembler reassembler;
    for (const auto& frame : frames) {
        Tins::EthernetII packet(frame.data(), static_cast<std::uint32_t>(frame.size()));
        if (!reassembles || reassembler.process(packet) != Tins::IPv4Reassembler::FRAGMENTED) {
            messages += packet.find_pdu<Tins::UDP>() != nullptr;
        }
    }
    return messages;
}

}  // namespace

int main(int argc, char** argv) {
    return run(argc, argv, turn);
}
