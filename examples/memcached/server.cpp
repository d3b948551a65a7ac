// A server of memcached's text protocol: a thread and a shard for each of -t, over epoll and the library.
//   server [-p PORT] [-t THREADS] [-m MEBIBYTES] [-l ADDRESS]
// It listens on 127.0.0.1, unless told, and stops where it is told to by SIGTERM or SIGINT.
#include "common.hpp"
#include "worker.hpp"

#include <algorithm>
#include <arpa/inet.h>
#include <csignal>
#include <cstdio>
#include <cstdlib>
#include <future>
#include <sys/resource.h>
#include <sys/socket.h>
#include <thread>
#include <unistd.h>

using shardcache::Code;

namespace {

struct Options {
    int port = 11211;
    std::size_t threads = 1;
    std::uint64_t mebibytes = 64;
    const char *address = "127.0.0.1";
};

bool read_options(int words, char **word, Options &options) {
    for (int option; (option = getopt(words, word, "p:t:m:l:")) != -1;) {
        switch (option) {
        case 'p': options.port = std::atoi(optarg); break;
        case 't': options.threads = std::strtoul(optarg, nullptr, 10); break;
        case 'm': options.mebibytes = std::strtoull(optarg, nullptr, 10); break;
        case 'l': options.address = optarg; break;
        default: return false;
        }
    }
    return optind == words && options.threads >= 1 && options.threads <= 64 && options.port > 0 && options.port < 65536;
}

// The pages of each shard, in whole segments.
std::uint32_t pages_of(const Options &options) {
    std::uint64_t pages = (options.mebibytes << 20) / SC_PAGE / options.threads / SC_SEGMENT_PAGES * SC_SEGMENT_PAGES;
    return std::uint32_t(std::clamp<std::uint64_t>(pages, SC_FEWEST_PAGES, SC_MOST_PAGES));
}

int open_listener(const Options &options) {
    sockaddr_in at{};
    at.sin_family = AF_INET;
    at.sin_port = htons(std::uint16_t(options.port));
    if (inet_pton(AF_INET, options.address, &at.sin_addr) != 1) return -1;
    int listener = socket(AF_INET, SOCK_STREAM | SOCK_NONBLOCK | SOCK_CLOEXEC, 0), one = 1;
    setsockopt(listener, SOL_SOCKET, SO_REUSEADDR, &one, sizeof one);
    if (bind(listener, reinterpret_cast<sockaddr *>(&at), sizeof at) == 0 && listen(listener, 1024) == 0) return listener;
    close(listener);
    return -1;
}

void allow_many_connections() {
    rlimit limit;
    if (getrlimit(RLIMIT_NOFILE, &limit) != 0) return;
    limit.rlim_cur = limit.rlim_max;
    setrlimit(RLIMIT_NOFILE, &limit);
}

// Makes the workers, each with a mailbox and a handle of each other's.
bool make_workers(Server &server, std::size_t count, int listener) {
    for (std::size_t i = 0; i < count; i++) {
        auto &worker = server.workers.emplace_back(std::make_unique<Worker>(server, i));
        if (worker->open_mailbox() != Code::Done || !worker->listen_to_wakes()) return false;
    }
    for (auto &owner : server.workers)
        for (auto &other : server.workers)
            if (owner->share_mailbox(*other) != Code::Done) return false;
    return server.workers[0]->accept_from(listener);
}

// A worker's thread: its shard is opened and closed on it.
void work(Worker &worker, std::uint32_t pages, std::promise<Code> opened) {
    Code code = worker.open_shard(pages);
    opened.set_value(code);
    if (code != Code::Done) return;
    worker.serve();
    if (Code closed = worker.close_shard(); closed != Code::Done) std::fprintf(stderr, "server: close: %s\n", name(closed).data());
}

}  // namespace

int main(int words, char **word) {
    Options options;
    if (!read_options(words, word, options)) {
        std::fprintf(stderr, "server [-p PORT] [-t THREADS] [-m MEBIBYTES] [-l ADDRESS]\n");
        return 2;
    }
    sigset_t stops;
    sigemptyset(&stops);
    sigaddset(&stops, SIGTERM);
    sigaddset(&stops, SIGINT);
    pthread_sigmask(SIG_BLOCK, &stops, nullptr);  // of all threads: they are waited for below
    allow_many_connections();

    int listener = open_listener(options);
    if (listener < 0) {
        std::perror("server: listen");
        return 1;
    }
    std::uint32_t pages = pages_of(options);
    Server server;
    server.bytes = std::uint64_t(pages) * SC_PAGE * options.threads;
    if (!make_workers(server, options.threads, listener)) {
        std::fprintf(stderr, "server: no memory, or no files\n");
        return 1;
    }
    std::vector<std::thread> threads;
    std::vector<std::future<Code>> opened;
    for (auto &worker : server.workers) {
        std::promise<Code> promise;
        opened.push_back(promise.get_future());
        threads.emplace_back(work, std::ref(*worker), pages, std::move(promise));
    }
    int status = 0;
    for (auto &code : opened) {
        Code answer = code.get();
        if (answer == Code::Done) continue;
        std::fprintf(stderr, "server: open: %s\n", name(answer).data());
        status = 1;
    }
    if (status == 0) {
        std::fprintf(stderr, "server: %s:%d, %zu shards of %u pages\n", options.address, options.port, options.threads, pages);
        int which;
        sigwait(&stops, &which);
    }
    server.is_stopping = true;
    for (auto &worker : server.workers) worker->wake();
    for (auto &thread : threads) thread.join();
    close(listener);
    if (status == 0) std::fprintf(stderr, "server: stopped\n");
    return status;
}
