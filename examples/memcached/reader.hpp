// Reads commands off what a client sent, however it is cut.
#ifndef READER_HPP
#define READER_HPP

#include "command.hpp"

#include <optional>
#include <string_view>

// What a step over the input found. Where it used nothing and does not quit, more has to come.
struct Step {
    std::size_t used = 0;    // so many bytes of the input are done with
    std::size_t wanted = 0;  // so many have to be there for the next step
    std::optional<Command> command = {};
    std::string_view says = {};  // what is answered, behind the command's answer
    bool quits = false;     // nothing that comes behind is read
};

class Reader {
  public:
    // One step over an input that is not empty.
    Step next(std::string_view input);

  private:
    struct Line;

    Step line(std::string_view input);
    Step command(const Line &line, std::string_view input);
    Step begin_keys(Verb verb, std::int64_t expires, std::size_t used);
    Step key(std::string_view input);
    Step put(const Line &line, std::string_view input, Verb verb);
    Step rest_of_line(std::string_view input);
    Step rest_of_value(std::string_view input);

    enum class At { Line, Keys, RestOfLine, RestOfValue } at_ = At::Line;
    Command get_;  // what is asked of each key of a line
    bool had_key_ = false;
    std::uint64_t left_ = 0;  // of a value that is passed over, with its end
};

#endif
