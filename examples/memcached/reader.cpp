#include "reader.hpp"

#include <algorithm>
#include <array>
#include <climits>

using namespace std::literals;
using std::string_view;

namespace {

constexpr auto error = "ERROR\r\n"sv, bad_format = "CLIENT_ERROR bad command line format\r\n"sv,
               bad_expiry = "CLIENT_ERROR invalid exptime argument\r\n"sv;
constexpr std::size_t most_line = 2048;

struct Name {
    string_view text;
    Verb verb;
};

constexpr Name storing[] = {{"set", Verb::Set},       {"add", Verb::Add},         {"replace", Verb::Replace},
                          {"append", Verb::Append}, {"prepend", Verb::Prepend}, {"cas", Verb::Cas}};

}  // namespace

// A whole line: its words, of which the last is not noreply, and how long it is with its end.
struct Reader::Line {
    std::array<string_view, 8> words;
    std::size_t count = 0, len;
    bool noreply = false;

    Line(string_view text, std::size_t len) : len(len) {
        while (count < words.size()) {
            std::size_t begin = text.find_first_not_of(' ');
            if (begin == text.npos) break;
            text.remove_prefix(begin);
            words[count++] = text.substr(0, text.find(' '));
            text.remove_prefix(words[count - 1].size());
        }
        if (count > 1 && words[count - 1] == "noreply" && words[0] != "stats" && words[0] != "version") {
            noreply = true;
            count--;
        }
    }

    // Who wants no reply gets none of an error either: it would be taken for the next command's.
    Step says(string_view text) const { return {.used = len, .says = noreply ? ""sv : text}; }
    Step asks(Command command) const {
        command.noreply = noreply;
        return {.used = len, .command = command};
    }
};

Step Reader::next(string_view input) {
    switch (at_) {
    case At::Line: return line(input);
    case At::Keys: return key(input);
    case At::RestOfLine: return rest_of_line(input);
    case At::RestOfValue: return rest_of_value(input);
    }
    return {};
}

Step Reader::line(string_view input) {
    if (input[0] == '\x80') return {.quits = true};  // the binary protocol: its clients would wait for an answer until they give up
    if (input.starts_with("get ")) return begin_keys(Verb::Get, 0, 4);
    if (input.starts_with("gets ")) return begin_keys(Verb::Gets, 0, 5);
    if (input.starts_with("gat ") || input.starts_with("gats ")) {
        std::size_t begin = input.find(' ') + 1, end = input.find_first_of(" \r\n", begin);
        std::int64_t expires = 0;
        if (end != input.npos && read_number(input.substr(begin, end - begin), expires))
            return begin_keys(input[3] == 's' ? Verb::Gats : Verb::Gat, expires, end);
        if (end != input.npos) {
            at_ = At::RestOfLine;
            return {.used = end, .says = bad_expiry};
        }
    }
    std::size_t end = input.find('\n');
    if (end == input.npos) {
        if (input.size() <= most_line) return {};
        at_ = At::RestOfLine;
        return {.used = input.size(), .says = "CLIENT_ERROR line too long\r\n"};
    }
    string_view text = input.substr(0, end);
    if (text.ends_with('\r')) text.remove_suffix(1);
    return command(Line(text, end + 1), input);
}

Step Reader::command(const Line &line, string_view input) {
    string_view verb = line.words[0], first = line.words[1], second = line.words[2];
    if (line.count == 0) return line.says(error);
    for (const Name &name : storing)
        if (verb == name.text) return put(line, input, name.verb);
    if (verb == "delete") {
        if (line.count == 1) return line.says(error);
        if (line.count > 3 || (line.count == 3 && second != "0"))
            return line.says("CLIENT_ERROR bad command line format.  Usage: delete <key> [noreply]\r\n");
        return first.size() > most_key ? line.says(bad_format) : line.asks({.verb = Verb::Delete, .key = first});
    }
    if (verb == "incr" || verb == "decr") {
        Command command{.verb = verb == "incr" ? Verb::Incr : Verb::Decr, .key = first};
        if (line.count != 3) return line.says(error);
        if (first.size() > most_key) return line.says(bad_format);
        if (!read_number(second, command.number)) return line.says("CLIENT_ERROR invalid numeric delta argument\r\n");
        return line.asks(command);
    }
    if (verb == "touch") {
        Command command{.verb = Verb::Touch, .key = first};
        if (line.count != 3) return line.says(error);
        if (first.size() > most_key) return line.says(bad_format);
        return read_number(second, command.expires) ? line.asks(command) : line.says(bad_expiry);
    }
    if (verb == "flush_all") {
        Command command{.verb = Verb::FlushAll};
        if (line.count > 2 || (line.count == 2 && !read_number(first, command.expires))) return line.says(bad_format);
        return line.asks(command);
    }
    if (verb == "version") return line.says("VERSION 1.6.0-shardcache\r\n");  // clients want digits in front
    if (verb == "verbosity") return line.says(line.count == 2 || (line.count == 1 && line.noreply) ? "OK\r\n"sv : error);
    if (verb == "stats") {
        if (line.count == 1) return line.asks({.verb = Verb::Stats});
        if (first == "reset") return line.asks({.verb = Verb::ResetStats});
        return line.says(first == "items" || first == "slabs" || first == "settings" ? "END\r\n"sv : error);
    }
    if (verb == "quit") return {.used = line.len, .quits = true};
    return line.says(error);
}

Step Reader::put(const Line &line, string_view input, Verb verb) {
    Command command{.verb = verb, .noreply = line.noreply, .key = line.words[1]};
    std::size_t words = verb == Verb::Cas ? 6 : 5;
    std::uint64_t len = 0;
    if (line.count < words) return line.says(error);
    if (line.count > words || command.key.size() > most_key || !read_number(line.words[2], command.flags) ||
        !read_number(line.words[3], command.expires) || !read_number(line.words[4], len) ||
        (verb == Verb::Cas && !read_number(line.words[5], command.number)))
        return line.says(bad_format);
    if (len > INT_MAX - 2) return line.says("CLIENT_ERROR bad data chunk\r\n");
    if (len > most_value) {
        at_ = At::RestOfValue;
        left_ = len + 2;
        Step step = line.says("SERVER_ERROR object too large for cache\r\n");
        // The value that the key had must not outlive a newer one that could not be stored.
        if (verb == Verb::Set) step.command = Command{.verb = Verb::Delete, .noreply = true, .key = command.key};
        return step;
    }
    std::size_t whole = line.len + len + 2;
    if (input.size() < whole) return {.wanted = whole};
    command.value = input.substr(line.len, len);
    if (input.substr(line.len + len, 2) == "\r\n") return {.used = whole, .command = command};
    at_ = At::RestOfLine;
    Step step = line.says("CLIENT_ERROR bad data chunk\r\n");
    step.used = line.len + len;
    return step;
}

Step Reader::begin_keys(Verb verb, std::int64_t expires, std::size_t used) {
    get_ = Command{.verb = verb, .expires = expires};
    had_key_ = false;
    at_ = At::Keys;
    return {.used = used};
}

// The next key of a line, which may be longer than all that is kept of an input.
Step Reader::key(string_view input) {
    std::size_t begin = input.find_first_not_of(' ');
    if (begin == input.npos) return {.used = input.size()};
    input.remove_prefix(begin);
    if (input[0] == '\n' || input.starts_with("\r\n")) {
        at_ = At::Line;
        return {.used = begin + (input[0] == '\n' ? 1 : 2), .says = had_key_ ? "END\r\n"sv : error};
    }
    std::size_t len = input.find_first_of(" \r\n");
    if (std::min(len, input.size()) > most_key) {
        at_ = At::RestOfLine;
        return {.used = begin + most_key, .says = bad_format};
    }
    if (len == input.npos || input == "\r") return {.used = begin};
    if (len == 0) return {.used = begin + 1};  // a CR without its LF
    had_key_ = true;
    get_.key = input.substr(0, len);
    return {.used = begin + len, .command = get_};
}

Step Reader::rest_of_line(string_view input) {
    std::size_t end = input.find('\n');
    if (end == input.npos) return {.used = input.size()};
    at_ = At::Line;
    return {.used = end + 1};
}

Step Reader::rest_of_value(string_view input) {
    std::size_t used = std::min<std::uint64_t>(input.size(), left_);
    left_ -= used;
    if (left_ == 0) at_ = At::Line;
    return {.used = used};
}
