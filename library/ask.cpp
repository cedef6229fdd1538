// A caller in C++: asks about three nodes, of which one lies, then has the certificate checked.
#include "quorum.h"
#include <iostream>
#include <string>
#include <string_view>
#include <vector>

using namespace std::string_view_literals;

namespace {

struct Answer {
    int status;
    std::string text, certificate;
};

// Takes the words parted by zero bytes, and gives what they ask for a room that is ample.
Answer ask(std::string_view words, std::string_view config, std::string_view cert = {}) {
    auto bytes = [](std::string_view it) { return reinterpret_cast<const uint8_t *>(it.data()); };
    for (std::vector<uint8_t> room(1 << 16);;) {
        quorum_end end;
        quorum_answer(bytes(words), words.size(), bytes(config), config.size(), nullptr, 0, nullptr, 0, bytes(cert), cert.size(),
                      room.data(), room.size(), &end);
        if (end.status == 7 && end.wanting != SIZE_MAX) {
            room.resize(end.wanting);
            continue;
        }
        return {end.status, {room.end() - end.text, room.end()}, {room.begin(), room.begin() + end.cert}};
    }
}

} // namespace

int main() {
    constexpr auto config =
        R"([{"publicKey":"a","quorumSet":{"threshold":2,"validators":["a","b","c"]}},)"
        R"({"publicKey":"b","quorumSet":{"threshold":2,"validators":["a","b","c"]}},)"
        R"({"publicKey":"c","quorumSet":{"threshold":2,"validators":["a","b","c"]}}])"sv;
    auto asked = ask("intersect\0config\0made\0--faulty\0a"sv, config);
    auto checked = ask("check\0config\0cert"sv, config, asked.certificate);
    std::cout << asked.text << asked.certificate << checked.text;
    return asked.status == 1 && checked.status == 0 ? 0 : 1;
}
