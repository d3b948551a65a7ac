// A client's connection, and its requests on their way to the owners of their keys and back.
#ifndef CONNECTION_HPP
#define CONNECTION_HPP

#include "buffers.hpp"
#include "command.hpp"
#include "reader.hpp"
#include "shard.hpp"

#include <string>
#include <unistd.h>

class Worker;
struct Connection;

// A command that is not answered at once: another shard does it, or one before it on its connection is not answered yet.
struct Request {
    Command command;
    Worker *home = nullptr;            // whose connection it came over
    Connection *connection = nullptr;  // null for the part of a whole
    Request *whole = nullptr;          // what it is a part of, where all shards do one
    std::size_t parts_left = 0;        // of a whole
    Request *next = nullptr;           // the one behind it on its connection
    bool is_executed = false;          // by the owner of its key
    bool is_done = false;              // it may be answered; only its home says so
    int greeted = -1;                  // a connection that goes to another worker, where it is one
    std::string answer;
    Counts counts;  // what stats tells
};

struct Connection {
    static constexpr std::size_t most_waiting = 64, most_unsent = 1 << 18;

    explicit Connection(int fd) : fd(fd) {}
    ~Connection() {
        if (fd >= 0) close(fd);
    }

    // Whether it has so many answers to wait for, or to be taken by the client, that no more is read of it.
    bool is_full() const { return waiting >= most_waiting || output.left() > most_unsent; }

    void add(Request &request) {
        waiting++;
        (last ? last->next : first) = &request;
        last = &request;
    }
    Request *take_first() {
        Request *request = first;
        first = request->next;
        if (!first) last = nullptr;
        waiting--;
        return request;
    }

    int fd;
    std::uint32_t events = 0;      // what epoll waits for
    std::size_t wanted = 0;        // so many bytes have to be there for the next step
    std::size_t waiting = 0;       // requests in the list
    std::size_t outstanding = 0;   // of them, those that another thread has
    bool has_ended = false;        // the client sends no more
    bool quits = false;            // what comes is not read; it is closed once all is answered
    bool is_stuck = false;         // the client takes no more at present
    bool is_dead = false;          // it is closed, and stays only until its requests are home
    bool is_touched = false;       // an answer came home
    Reader reader;
    Input input;
    Output output;
    Request *first = nullptr, *last = nullptr;  // in the order in which they are answered
};

#endif
