// Asks a server of memcached's text protocol, and tells how many commands a second it answers and how long the slowest hundredth takes.
//   load PORT                               stores 100,000 keys, with values of 100 bytes
//   load PORT CONNECTIONS DEPTH SECONDS     asks for them
// Each connection sends DEPTH commands at once and waits for all their answers: nine of ten are gets, one a set. The time of a command is
// that of its batch.
#include <algorithm>
#include <arpa/inet.h>
#include <chrono>
#include <cstdint>
#include <cstdio>
#include <cstdlib>
#include <cstring>
#include <netinet/in.h>
#include <netinet/tcp.h>
#include <string>
#include <string_view>
#include <sys/epoll.h>
#include <sys/socket.h>
#include <unistd.h>
#include <utility>
#include <vector>

using Clock = std::chrono::steady_clock;

namespace {

constexpr std::uint32_t keys = 100'000;

void expect(bool fact, const char *what) {
    if (fact) return;
    std::fprintf(stderr, "load: not so: %s\n", what);
    std::exit(1);
}

int connected(int port) {
    sockaddr_in at{};
    at.sin_family = AF_INET;
    at.sin_port = htons(std::uint16_t(port));
    at.sin_addr.s_addr = htonl(INADDR_LOOPBACK);
    int fd = socket(AF_INET, SOCK_STREAM, 0), one = 1;
    expect(fd >= 0 && connect(fd, reinterpret_cast<sockaddr *>(&at), sizeof at) == 0, "the server listens");
    setsockopt(fd, IPPROTO_TCP, TCP_NODELAY, &one, sizeof one);
    return fd;
}

void send_all(int fd, std::string_view text) {
    while (!text.empty()) {
        ssize_t count = send(fd, text.data(), text.size(), MSG_NOSIGNAL);
        expect(count > 0, "the server takes what is sent");
        text.remove_prefix(std::size_t(count));
    }
}

std::string set_line(std::uint32_t key, const std::string &value, const char *noreply) {
    return "set key:" + std::to_string(key) + " 0 0 " + std::to_string(value.size()) + noreply + "\r\n" + value + "\r\n";
}

// Counts the answers to gets and sets in a stream that may be cut anywhere. A value has no CR in it.
class Answers {
  public:
    std::size_t count(std::string_view text) {
        std::size_t found = 0;
        for (char byte : text) {
            line_.push_back(byte);
            if (byte != '\n') {
                if (line_.size() > 8) line_.resize(8);  // enough to tell the lines that end an answer
                continue;
            }
            bool is_error = line_.starts_with("SERVER_E") || line_.starts_with("CLIENT_E") || line_.starts_with("ERROR");
            expect(!is_error, "a command is answered");
            found += line_.starts_with("END\r") || line_.starts_with("STORED\r");
            line_.clear();
        }
        return found;
    }

  private:
    std::string line_;
};

struct Connection {
    int fd;
    std::size_t left = 0;  // answers
    Clock::time_point sent;
    Answers answers;
};

class Load {
  public:
    Load(int port, std::size_t depth) : port_(port), depth_(depth), value_(100, 'v') {}

    void store_all() {
        int fd = connected(port_);
        std::string text;
        for (std::uint32_t key = 0; key < keys; key++) {
            text += set_line(key, value_, " noreply");
            if (text.size() > 60'000) send_all(fd, std::exchange(text, {}));
        }
        send_all(fd, text + "get none\r\n");
        Answers answers;
        char buffer[4096];
        for (bool is_done = false; !is_done;) {
            ssize_t count = recv(fd, buffer, sizeof buffer, 0);
            expect(count > 0, "the server answers");
            is_done = answers.count({buffer, std::size_t(count)}) > 0;
        }
        close(fd);
    }

    void run(std::size_t connections, double seconds) {
        int poll = epoll_create1(0);
        std::vector<Connection> all(connections);
        for (Connection &connection : all) {
            connection.fd = connected(port_);
            epoll_event event{EPOLLIN, {.ptr = &connection}};
            epoll_ctl(poll, EPOLL_CTL_ADD, connection.fd, &event);
            send_batch(connection);
        }
        Clock::time_point begin = Clock::now(), now = begin;
        while (std::chrono::duration<double>(now - begin).count() < seconds) {
            epoll_event events[64];
            int count = epoll_wait(poll, events, 64, 1000);
            expect(count > 0, "the server answers within a second");
            now = Clock::now();
            for (int i = 0; i < count; i++) take(*static_cast<Connection *>(events[i].data.ptr), now);
        }
        for (Connection &connection : all) close(connection.fd);
        close(poll);
        std::sort(times_.begin(), times_.end());
        double slow = times_[times_.size() - 1 - times_.size() / 100];
        std::printf("commands %zu a second %.0f slowest hundredth us %.0f\n", times_.size() * depth_,
                    double(times_.size() * depth_) / std::chrono::duration<double>(now - begin).count(), slow);
    }

  private:
    std::uint32_t drawn(std::uint32_t below) {
        state_ = state_ * 6364136223846793005u + 1442695040888963407u;
        return std::uint32_t((state_ >> 32) * below >> 32);
    }

    void send_batch(Connection &connection) {
        std::string text;
        for (std::size_t i = 0; i < depth_; i++) {
            std::uint32_t key = drawn(keys);
            if (drawn(10) == 0)
                text += set_line(key, value_, "");
            else
                text += "get key:" + std::to_string(key) + "\r\n";
        }
        connection.left = depth_;
        connection.sent = Clock::now();
        send_all(connection.fd, text);
    }

    void take(Connection &connection, Clock::time_point now) {
        char buffer[65536];
        ssize_t count = recv(connection.fd, buffer, sizeof buffer, 0);
        expect(count > 0, "the server stays");
        connection.left -= connection.answers.count({buffer, std::size_t(count)});
        if (connection.left) return;
        times_.push_back(std::chrono::duration<double, std::micro>(now - connection.sent).count());
        send_batch(connection);
    }

    int port_;
    std::size_t depth_;
    std::string value_;
    std::uint64_t state_ = 7;
    std::vector<double> times_;
};

}  // namespace

int main(int words, char **word) {
    if (words != 2 && words != 5) return std::fprintf(stderr, "load PORT [CONNECTIONS DEPTH SECONDS]\n"), 2;
    Load load(std::atoi(word[1]), words == 5 ? std::strtoul(word[3], nullptr, 10) : 1);
    if (words == 2)
        load.store_all();
    else
        load.run(std::strtoul(word[2], nullptr, 10), std::atof(word[4]));
}
