// A thread with its shard and its connections.
#ifndef WORKER_HPP
#define WORKER_HPP

#include "connection.hpp"
#include "common.hpp"
#include "shard.hpp"
#include "shardcache.hpp"

#include <atomic>
#include <deque>
#include <memory>
#include <mutex>
#include <sys/epoll.h>
#include <unordered_map>
#include <vector>

class Worker {
  public:
    Worker(Server &server, std::size_t index);
    ~Worker();

    // Before any thread runs: opens what others push to, and then, behind that of all, a handle of each other's.
    shardcache::Code open_mailbox();
    shardcache::Code share_mailbox(Worker &with);
    bool listen_to_wakes();
    bool accept_from(int listener);

    // On the worker's own thread.
    shardcache::Code open_shard(std::uint32_t pages) { return shard_.open(pages, server_.started); }
    void serve();
    shardcache::Code close_shard() { return shard_.close(); }

    // From any thread, and from a signal handler.
    void wake();

  private:
    // The way to another worker: its mailbox, and what found no place in that.
    struct Way {
        shardcache::Mailbox<Request> mailbox;
        std::deque<Request *> held;
        bool is_new = false;  // something was pushed since the other was woken
    };

    Request &take_request();
    void put_back(Request &request);

    void post(Worker &to, Request &request);
    void push_held_and_wake();
    bool holds_any() const;
    std::size_t take_messages(std::size_t most);
    void take_message(Request &request);
    void come_home(Request &request);
    int wait_time(bool may_have_more);

    std::unique_lock<Shard> use_of(Worker &owner, const Connection &connection);
    void perform(Connection &connection, const Command &command);
    void ask_all(Connection &connection, const Command &command);
    void say(Connection &connection, std::string_view text);
    bool step(Connection &connection);
    void answer_those_done(Connection &connection);
    bool send_answers(Connection &connection);
    void go_on(Connection &connection);
    void go_on_with_touched();
    void wait_for(Connection &connection);
    void read_from(Connection &connection);

    void accept_some();
    void greet(int fd);
    void bury(Connection &connection);
    void drop_dead();
    void handle(const epoll_event &event);
    void set_now();

    Server &server_;
    const std::size_t index_;
    Shard shard_;
    int poll_ = -1, wake_ = -1, listener_ = -1;
    std::atomic<bool> is_asleep_{false};
    shardcache::Mailbox<Request> inbox_;
    std::vector<Way> ways_;
    std::deque<Request> requests_;  // all that were ever made here
    std::vector<Request *> idle_;
    std::unordered_map<Connection *, std::unique_ptr<Connection>> connections_;
    std::vector<Connection *> touched_, dead_;
    std::size_t all_connections_ = 0;
    std::int64_t now_ = 0, accepts_again_ = 0;
};

#endif
