#include "worker.hpp"

#include <array>
#include <cerrno>
#include <netinet/in.h>
#include <netinet/tcp.h>
#include <sys/eventfd.h>
#include <sys/socket.h>
#include <unistd.h>

using shardcache::Code;

namespace {

constexpr std::uint32_t mailbox_places = 4096;
constexpr std::size_t most_messages = 4096;  // that are taken before the connections have their turn
constexpr std::size_t most_accepted = 64;
constexpr std::size_t kept_answer = 2048;  // the room for an answer that a request keeps
constexpr std::size_t whole_send = 16384;  // with so much to send nothing more is waited for

}  // namespace

Worker::Worker(Server &server, std::size_t index)
    : server_(server), index_(index), poll_(epoll_create1(EPOLL_CLOEXEC)), wake_(eventfd(0, EFD_NONBLOCK | EFD_CLOEXEC)) {}

Worker::~Worker() {
    close(poll_);
    close(wake_);
}

Code Worker::open_mailbox() { return inbox_.open(mailbox_places); }

Code Worker::share_mailbox(Worker &with) { return inbox_.share(with.ways_.emplace_back().mailbox); }

// Each wake is an event of its own, so that nobody has to read what was written.
bool Worker::listen_to_wakes() {
    epoll_event event{EPOLLIN | EPOLLET, {.ptr = &wake_}};
    return epoll_ctl(poll_, EPOLL_CTL_ADD, wake_, &event) == 0;
}

bool Worker::accept_from(int listener) {
    listener_ = listener;
    epoll_event event{EPOLLIN, {.ptr = &listener_}};
    return epoll_ctl(poll_, EPOLL_CTL_ADD, listener_, &event) == 0;
}

void Worker::wake() {
    std::uint64_t one = 1;
    [[maybe_unused]] ssize_t count = write(wake_, &one, sizeof one);
}

void Worker::set_now() {
    now_ = seconds_now();
    if (accepts_again_ && now_ >= accepts_again_) {
        accepts_again_ = 0;
        epoll_event event{EPOLLIN, {.ptr = &listener_}};
        epoll_ctl(poll_, EPOLL_CTL_MOD, listener_, &event);
    }
}

void Worker::serve() {
    std::array<epoll_event, 256> events;
    while (!server_.is_stopping.load(std::memory_order_relaxed)) {
        set_now();
        bool may_have_more = take_messages(most_messages) == most_messages;
        go_on_with_touched();
        push_held_and_wake();
        int count = epoll_wait(poll_, events.data(), int(events.size()), wait_time(may_have_more));
        is_asleep_.store(false);
        set_now();
        for (int i = 0; i < count; i++) handle(events[i]);
        go_on_with_touched();
        push_held_and_wake();
        drop_dead();
    }
}

// How long to wait for an event. Who pushes a message asks behind that whether its owner sleeps, and who goes to sleep looks behind
// saying so whether a message came: one of the two sees the other.
int Worker::wait_time(bool may_have_more) {
    if (may_have_more || holds_any()) return 0;
    is_asleep_.exchange(true);
    if (take_messages(1) == 0) return 1000;
    is_asleep_.store(false);
    go_on_with_touched();
    push_held_and_wake();
    return 0;
}

void Worker::handle(const epoll_event &event) {
    if (event.data.ptr == &wake_) return;
    if (event.data.ptr == &listener_) {
        accept_some();
    } else {
        Connection &connection = *static_cast<Connection *>(event.data.ptr);
        if (connection.is_dead) return;
        if (event.events & (EPOLLERR | EPOLLHUP)) return bury(connection);
        if (event.events & EPOLLIN)
            read_from(connection);
        else
            go_on(connection);
    }
}

// ---- connections ----

void Worker::accept_some() {
    for (std::size_t i = 0; i < most_accepted; i++) {
        int fd = accept4(listener_, nullptr, nullptr, SOCK_NONBLOCK | SOCK_CLOEXEC);
        if (fd < 0 && (errno == EMFILE || errno == ENFILE)) {  // until the clock's next second
            accepts_again_ = now_ + 1;
            epoll_event event{0, {.ptr = &listener_}};
            epoll_ctl(poll_, EPOLL_CTL_MOD, listener_, &event);
        }
        if (fd < 0) return;
        int one = 1;
        setsockopt(fd, IPPROTO_TCP, TCP_NODELAY, &one, sizeof one);
        Worker &to = *server_.workers[server_.greeted++ % server_.workers.size()];
        if (&to == this) {
            greet(fd);
        } else {
            Request &request = take_request();
            request.greeted = fd;
            post(to, request);
        }
    }
}

void Worker::greet(int fd) {
    auto connection = std::make_unique<Connection>(fd);
    connection->events = EPOLLIN;
    epoll_event event{EPOLLIN, {.ptr = connection.get()}};
    if (epoll_ctl(poll_, EPOLL_CTL_ADD, fd, &event) != 0) return;
    all_connections_++;
    connections_.emplace(connection.get(), std::move(connection));
}

void Worker::read_from(Connection &connection) {
    std::span<char> room = connection.input.room(connection.outstanding == 0, connection.wanted);
    if (!room.empty()) {
        ssize_t count = recv(connection.fd, room.data(), room.size(), 0);
        if (count < 0 && errno != EAGAIN && errno != EINTR) return bury(connection);
        if (count == 0) connection.has_ended = true;
        if (count > 0) connection.input.came(std::size_t(count));
    }
    go_on(connection);
}

// Does what may be done of what came, sends what may be sent, and says what to wait for.
void Worker::go_on(Connection &connection) {
    if (connection.is_dead) return;
    bool was_full;
    do {
        while (!connection.quits && !connection.is_full() && step(connection)) {
        }
        was_full = connection.is_full();
        if (!send_answers(connection)) return bury(connection);
    } while (was_full && !connection.is_full());
    if (connection.has_ended && !connection.is_full()) connection.quits = true;  // what is left is no whole command
    if (connection.outstanding == 0) connection.input.tidy();
    if (connection.quits && !connection.first && connection.output.left() == 0) return bury(connection);
    wait_for(connection);
}

// False where more has to come.
bool Worker::step(Connection &connection) {
    std::string_view input = connection.input.bytes();
    if (input.empty() || input.size() < connection.wanted) return false;
    Step step = connection.reader.next(input);
    connection.input.use(step.used);
    connection.wanted = step.wanted;
    connection.quits = step.quits;
    if (step.command) perform(connection, *step.command);
    if (!step.says.empty()) say(connection, step.says);
    return step.used > 0;
}

void Worker::say(Connection &connection, std::string_view text) {
    if (!connection.first) {
        connection.output.text += text;
        return;
    }
    Request &request = take_request();
    request.answer = text;
    request.is_done = true;
    connection.add(request);
}

void Worker::answer_those_done(Connection &connection) {
    while (connection.first && connection.first->is_done) {
        Request &request = *connection.take_first();
        if (!request.command.noreply && !connection.is_dead) connection.output.text += request.answer;
        put_back(request);
    }
}

// False where the connection is broken. Little is sent only where no more answers are on their way.
bool Worker::send_answers(Connection &connection) {
    if (connection.waiting && connection.output.left() < whole_send) return true;
    Output::Sent sent = connection.output.send_to(connection.fd);
    connection.is_stuck = sent == Output::Sent::Some;
    return sent != Output::Sent::Broken;
}

void Worker::wait_for(Connection &connection) {
    bool has_no_room = connection.outstanding && connection.input.is_full();
    bool reads = !connection.quits && !connection.has_ended && !connection.is_full() && !has_no_room;
    std::uint32_t events = 0;
    if (reads) events |= EPOLLIN;
    if (connection.is_stuck) events |= EPOLLOUT;
    if (events == connection.events) return;
    epoll_event event{events, {.ptr = &connection}};
    epoll_ctl(poll_, EPOLL_CTL_MOD, connection.fd, &event);
    connection.events = events;
}

void Worker::bury(Connection &connection) {
    close(connection.fd);
    connection.fd = -1;
    connection.is_dead = true;
    dead_.push_back(&connection);
}

// Connections that are closed go once no other thread has a request of theirs.
void Worker::drop_dead() {
    std::erase_if(dead_, [&](Connection *connection) {
        answer_those_done(*connection);
        if (connection->outstanding) return false;
        while (connection->first) put_back(*connection->take_first());
        connections_.erase(connection);
        return true;
    });
}

// ---- requests ----

Request &Worker::take_request() {
    if (idle_.empty()) idle_.push_back(&requests_.emplace_back());
    Request &request = *idle_.back();
    idle_.pop_back();
    request.home = this;
    return request;
}

void Worker::put_back(Request &request) {
    std::string answer = std::move(request.answer);
    answer.clear();
    if (answer.capacity() > kept_answer) answer = {};
    request = {};
    request.answer = std::move(answer);
    idle_.push_back(&request);
}

// For its own shard a worker waits. Another's it uses where nobody does at the moment, which costs less than to wake that one's worker,
// but behind no command of its connection that is still on its way: the two could change places.
std::unique_lock<Shard> Worker::use_of(Worker &owner, const Connection &connection) {
    if (&owner == this) return std::unique_lock(shard_);
    if (connection.outstanding > 0) return {};
    return std::unique_lock(owner.shard_, std::try_to_lock);
}

void Worker::perform(Connection &connection, const Command &command) {
    if (is_for_all(command.verb)) return ask_all(connection, command);
    Worker &owner = server_.owner_of(command.key);
    std::unique_lock use = use_of(owner, connection);
    if (use && !connection.first) {
        std::string &text = connection.output.text;
        std::size_t len = text.size();
        owner.shard_.execute(command, now_, text);
        if (command.noreply) text.resize(len);
        return;
    }
    Request &request = take_request();
    request.command = command;
    request.connection = &connection;
    connection.add(request);
    if (use) {
        owner.shard_.execute(command, now_, request.answer);
        request.is_done = true;
    } else {
        connection.outstanding++;
        post(owner, request);
    }
}

// Each shard does a part. Its own comes first, so that commands behind it find it done, as they do at the others.
void Worker::ask_all(Connection &connection, const Command &command) {
    Request &whole = take_request();
    whole.command = command;
    whole.connection = &connection;
    whole.parts_left = server_.workers.size();
    connection.add(whole);
    connection.outstanding++;
    for (auto &worker : server_.workers) {
        Request &part = take_request();
        part.command = command;
        part.whole = &whole;
        if (worker.get() == this)
            take_message(part);
        else
            post(*worker, part);
    }
}

void Worker::post(Worker &to, Request &request) {
    Way &way = ways_[to.index_];
    way.is_new = true;
    if (!way.held.empty() || !way.mailbox.push(&request)) way.held.push_back(&request);
}

// One wake for all that was pushed to a worker.
void Worker::push_held_and_wake() {
    for (std::size_t i = 0; i < ways_.size(); i++) {
        Way &way = ways_[i];
        if (!way.is_new) continue;
        while (!way.held.empty() && way.mailbox.push(way.held.front())) way.held.pop_front();
        way.is_new = !way.held.empty();
        if (server_.workers[i]->is_asleep_.exchange(false)) server_.workers[i]->wake();
    }
}

bool Worker::holds_any() const {
    for (const Way &way : ways_)
        if (!way.held.empty()) return true;
    return false;
}

// How many came.
std::size_t Worker::take_messages(std::size_t most) {
    std::size_t taken = 0;
    while (taken < most) {
        Request *request = inbox_.try_pop();
        if (!request) break;
        take_message(*request);
        taken++;
    }
    return taken;
}

// A request that is to be done here, or one of this worker that was done.
void Worker::take_message(Request &request) {
    if (!request.is_executed) {
        request.is_executed = true;
        if (request.greeted >= 0) {
            greet(request.greeted);
        } else {
            std::scoped_lock use(shard_);
            shard_.execute(request.command, now_, request.answer);
            if (request.command.verb == Verb::Stats) {
                request.counts = shard_.counts();
                request.counts.connections = connections_.size();
                request.counts.all_connections = all_connections_;
            }
        }
        if (request.home != this) return post(*request.home, request);
    }
    come_home(request);
}

void Worker::come_home(Request &request) {
    Request *done = &request;
    if (request.whole) {
        done = request.whole;
        done->counts.add(request.counts);
        put_back(request);
        if (--done->parts_left) return;
        done->answer = done->command.verb == Verb::Stats        ? stats_text(server_, done->counts)
                       : done->command.verb == Verb::ResetStats ? "RESET\r\n"
                                                                : "OK\r\n";
    }
    Connection *connection = done->connection;
    if (!connection) return put_back(*done);  // a greeting
    done->is_done = true;
    connection->outstanding--;
    if (connection->is_touched) return;
    connection->is_touched = true;
    touched_.push_back(connection);
}

// One send of a connection for all that came home.
void Worker::go_on_with_touched() {
    for (std::size_t i = 0; i < touched_.size(); i++) {
        Connection &connection = *touched_[i];
        connection.is_touched = false;
        answer_those_done(connection);
        go_on(connection);
    }
    touched_.clear();
}
