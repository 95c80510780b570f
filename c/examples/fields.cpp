// Prints the fields of a frame, from C++.
#include "etherparse.h"
#include "netlines.h"
#include <array>
#include <iostream>
#include <string>
#include <vector>

static std::string answers(const std::string &text) {
    std::vector<std::uint8_t> output(text.size() + 64);
    std::size_t written = 0;
    const auto *bytes = reinterpret_cast<const std::uint8_t *>(text.data());
    while (netlines_answers(bytes, text.size(), output.data(), output.size(), &written) == NETLINES_NO_ROOM)
        output.resize(written);
    return std::string(output.begin(), output.begin() + static_cast<std::ptrdiff_t>(written));
}

int main() {
    const std::array<std::uint8_t, 28> packet = {0x45, 0,  0, 28, 0, 7, 0,  0, 0x40, 0x11, 0x66, 0xc8, 10, 0,
                                                 0,    1, 10, 0,  0, 2, 0x9c, 0x40, 0, 53,   0,    8,    0,  0};
    const ep_packet fields = ep_slice_ip(packet.data(), packet.size());
    if (fields.refusal.kind != 0) return 1;
    std::cout << "port " << fields.udp.source_port << " to " << fields.udp.destination_port << '\n'
              << answers("frame 0 0200000000020200000000010806\n");
    return 0;
}
