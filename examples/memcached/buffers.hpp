// What came from a client and is not done with, and what goes to it and is not sent.
#ifndef BUFFERS_HPP
#define BUFFERS_HPP

#include <algorithm>
#include <cerrno>
#include <cstddef>
#include <cstring>
#include <memory>
#include <span>
#include <string>
#include <string_view>
#include <sys/socket.h>

// Bytes that came. Commands point to them, so they stay where they are until nobody else reads them.
class Input {
  public:
    std::string_view bytes() const { return {data_.get() + from_, to_ - from_}; }
    bool is_full() const { return data_ && to_ == room_; }
    void use(std::size_t count) { from_ += count; }

    // Where more may be read to, if so many bytes are wanted at last. None where there is no room and nothing may be moved.
    std::span<char> room(bool may_move, std::size_t wanted) {
        if (!data_ || (is_full() && may_move)) make_room(wanted);
        return {data_.get() + to_, room_ - to_};
    }
    void came(std::size_t count) { to_ += count; }

    // To be called where nothing points to the bytes: moves what is left to the front. A client that is silent has no memory.
    void tidy() {
        if (from_ == to_) {
            if (room_ > least) *this = Input();
            from_ = to_ = 0;
        } else if (from_) {
            std::memmove(data_.get(), data_.get() + from_, to_ - from_);
            to_ -= from_;
            from_ = 0;
        }
    }

  private:
    // A command has less than half of `most`, so there is always room for one.
    static constexpr std::size_t least = 2048, most = 32768;

    void make_room(std::size_t wanted) {
        tidy();
        if (data_ && to_ < room_ && wanted <= room_) return;
        std::size_t room = std::min(std::max({least, 2 * room_, wanted}), most);
        if (room == room_) return;
        std::unique_ptr<char[]> data(new char[room]);
        if (to_) std::memcpy(data.get(), data_.get(), to_);
        data_ = std::move(data);
        room_ = room;
    }

    std::unique_ptr<char[]> data_;
    std::size_t room_ = 0, from_ = 0, to_ = 0;
};

// Answers that go out.
class Output {
  public:
    enum class Sent { All, Some, Broken };

    std::string text;  // of which the first bytes may have been sent

    std::size_t left() const { return text.size() - sent_; }

    // Sends as much as the connection takes.
    Sent send_to(int fd) {
        while (left()) {
            ssize_t count = ::send(fd, text.data() + sent_, left(), MSG_NOSIGNAL);
            if (count < 0 && errno == EINTR) continue;
            if (count < 0 && errno != EAGAIN) return Sent::Broken;
            if (count < 0) {
                text.erase(0, sent_);
                sent_ = 0;
                return Sent::Some;
            }
            sent_ += std::size_t(count);
        }
        sent_ = 0;
        text.clear();
        if (text.capacity() > 65536) text = {};
        return Sent::All;
    }

  private:
    std::size_t sent_ = 0;
};

#endif
