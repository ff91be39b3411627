/* Two players in one process, in C++: the quickstart of examples/c with handles that free themselves. */
#include <array>
#include <cstdio>
#include <memory>
#include <stdexcept>
#include <zirmegat.h>

namespace {

struct Free {
    void operator()(zmg_session *session) const { zmg_session_free(session); }
};
using Session = std::unique_ptr<zmg_session, Free>;

void must(zmg_status status) {
    if (status != ZMG_OK) throw std::runtime_error(zmg_status_text(status));
}

struct Player {
    Player(zmg_session *session, const zmg_address &place) : session(session), place(place), world() {}

    void run() {
        zmg_row row;
        while (zmg_session_run(session.get(), world.data(), &row) == ZMG_RUN_RAN)
            for (std::size_t p = 0; p < world.size(); p++)
                world[p] = static_cast<std::int16_t>(world[p] + row.commands[p].forward);
    }

    void turn(const Player &other, const zmg_command &command, std::uint32_t now) {
        zmg_session_poll(session.get(), now);
        while (zmg_session_wants_input(session.get(), now)) must(zmg_session_give(session.get(), &command, now));
        run();
        send_all(other, now);
    }

    void send_all(const Player &other, std::uint32_t now) const {
        std::uint8_t bytes[ZMG_DATAGRAM_SIZE]; /* an engine sends them by UDP */
        zmg_address to;
        while (std::size_t length = zmg_session_transmit(session.get(), &to, bytes, sizeof bytes)) {
            zmg_session_receive(other.session.get(), &place, bytes, length, now);
            other.send_all(*this, now); /* a reply goes before the next datagram comes */
        }
    }

    Session session;
    zmg_address place;
    std::array<std::int16_t, 4> world;
};

Player host(const zmg_key &key, const zmg_random &random, const zmg_address &place) {
    zmg_host_config config;
    zmg_host_config_init(&config);
    config.key = key;
    config.random = random;
    zmg_session *session = nullptr;
    must(zmg_session_host(&session, &config));
    return Player(session, place);
}

Player join(const zmg_key &key, const zmg_random &random, const zmg_address &host, const zmg_address &place) {
    zmg_join_config config;
    zmg_join_config_init(&config);
    config.key = key;
    config.random = random;
    config.host = host;
    zmg_session *session = nullptr;
    must(zmg_session_join(&session, &config, 0));
    return Player(session, place);
}

}  // namespace

int main() {
    zmg_key key = zmg_key(); /* from a file, and random bytes from the system */
    zmg_random mine = zmg_random(), yours = zmg_random();
    key.bytes[0] = mine.bytes[0] = yours.bytes[1] = 1;
    zmg_address here = zmg_address(), there = zmg_address();
    here.bytes[0] = 1;
    there.bytes[0] = 2;
    Player first = host(key, mine, here), second = join(key, yours, here, there);
    const zmg_command walk = {0, 25, 0, 0, 0}, run = {0, 50, 0, 0, 0};
    for (std::uint32_t now = 0; now < 10000; now += 10) {
        first.turn(second, walk, now);
        second.turn(first, run, now);
    }
    std::printf("player 0 sees %d %d\nplayer 1 sees %d %d\n", first.world[0], first.world[1], second.world[0],
                second.world[1]);
}
