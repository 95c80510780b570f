// The bytes of one direction of a TCP connection, from segments in the wrong order, from C++.
#include "etherparse.h"
#include <cstdint>
#include <iostream>
#include <new>
#include <stdexcept>
#include <string>

// A stream that frees itself.
class Stream {
  public:
    explicit Stream(std::size_t window) {
        if (ep_stream_new(&raw, window) != EP_DONE) throw std::bad_alloc();
    }
    Stream(const Stream &) = delete;
    Stream &operator=(const Stream &) = delete;
    ~Stream() { ep_stream_free(&raw); }

    void add(std::uint32_t sequence_number, const ep_segment_flags &flags, const std::string &payload) {
        const auto *bytes = reinterpret_cast<const std::uint8_t *>(payload.data());
        const ep_stream_added added = ep_stream_add(&raw, sequence_number, &flags, bytes, payload.size());
        if (added.status == EP_NO_MEMORY) throw std::bad_alloc();
        if (added.status != EP_DONE) throw std::runtime_error("segment refused");
    }

    std::string read() {
        std::string text(progress().available, 0);
        text.resize(ep_stream_read(&raw, reinterpret_cast<std::uint8_t *>(&text[0]), text.size()));
        return text;
    }

    ep_stream_progress progress() { return ep_stream_progress_of(&raw); }

  private:
    ep_stream raw = {};
};

int main() {
    ep_segment_flags syn = {}, ack = {}, fin = {};
    syn.syn = ack.ack = fin.ack = fin.fin = true;
    Stream stream(65536);
    stream.add(99, syn, "");
    stream.add(106, fin, "world");
    std::cout << "gap " << stream.progress().gap.start << " to " << stream.progress().gap.end << '\n';
    stream.add(100, ack, "hello ");
    std::cout << stream.read() << '\n' << (stream.progress().is_finished ? "finished" : "more may come") << '\n';
    try {
        stream.add(111, ack, "!");
    } catch (const std::runtime_error &error) {
        std::cout << error.what() << '\n';
    }
    return 0;
}
