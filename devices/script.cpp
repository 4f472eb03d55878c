#include "script.h"

#include <algorithm>
#include <charconv>
#include <fstream>
#include <iostream>
#include <sstream>
#include <string_view>
#include <utility>

namespace adapter {

namespace {

constexpr int unsupported_status = 77, trouble_status = 3, words_status = 2;
constexpr std::size_t numbers_of_a_vertex = 7;
constexpr double subpixels = 65536.0;

const std::map<std::string, Word, std::less<>> words{
    {"vb", Word::vb}, {"ib", Word::ib}, {"topology", Word::topology}, {"raster", Word::raster},
    {"scissor", Word::scissor}, {"ds", Word::ds}, {"blend", Word::blend}, {"predicate", Word::predicate},
    {"draw", Word::draw}, {"drawi", Word::drawi}, {"clearc", Word::clearc}, {"cleards", Word::cleards},
    {"begin", Word::begin}, {"end", Word::end}, {"finish", Word::finish}, {"exec", Word::exec},
    {"flush", Word::flush}, {"query", Word::query}, {"pixel", Word::pixel}};

std::int64_t number_of(std::string_view text) {
    std::int64_t number = 0;
    if (text.starts_with('d')) text.remove_prefix(1);
    const auto [end, error] = std::from_chars(text.begin(), text.end(), number);
    if (error != std::errc{} || end != text.end()) throw std::runtime_error("no number: " + std::string(text));
    return number;
}

Command command_of(const std::string& text, int line) {
    std::istringstream stream(text);
    std::string actor, word, number;
    stream >> actor >> word;
    const auto found = words.find(word);
    if (found == words.end()) throw std::runtime_error("line " + std::to_string(line) + ": no command " + word);
    Command command{line, actor == "i" ? immediate : static_cast<int>(number_of(actor)), found->second, {}};
    while (stream >> number) command.numbers.push_back(number_of(number));
    return command;
}

template <std::size_t N>
void copy_numbers(const Command& command, std::array<std::int64_t, N>& to) {
    to.fill(0);
    std::copy_n(command.numbers.begin(), std::min(N, command.numbers.size()), to.begin());
}

void write_number(std::ostream& file, std::uint32_t number, int bytes) {
    for (int k = 0; k < bytes; k++) file.put(static_cast<char>(number >> 8 * k & 255));
}

std::ofstream opened(const std::filesystem::path& path) {
    std::ofstream file(path, std::ios::binary);
    if (!file) throw std::runtime_error("cannot write " + path.string());
    return file;
}

void write_image(const std::filesystem::path& path, const Script& script, const Pixels& pixels) {
    auto file = opened(path);
    for (const char byte : {0, 0, 2, 0, 0, 0, 0, 0, 0, 0, 0, 0}) file.put(byte);
    write_number(file, script.width, 2);
    write_number(file, script.height, 2);
    write_number(file, 0x2820, 2);
    for (const Pixel& pixel : pixels)
        for (const int channel : {2, 1, 0, 3}) file.put(static_cast<char>(pixel.colour[channel]));
}

// Four bytes a pixel, the least first: 24 bits of depth, then the stencil.
void write_planes(const std::filesystem::path& path, const Pixels& pixels) {
    auto file = opened(path);
    for (const Pixel& pixel : pixels) write_number(file, pixel.depth | std::uint32_t{pixel.stencil} << 24, 4);
}

struct Words {
    std::vector<std::filesystem::path> files;
    Options options;
};

Words words_of(int count, char** given, const Adapter& adapter) {
    Words found;
    for (int k = 1; k < count; k++) {
        const std::string word = given[k];
        const auto is_option = [&](const std::string& suffix) {
            return std::find(adapter.options.begin(), adapter.options.end(), word + suffix) != adapter.options.end();
        };
        if (word == "--planes" || is_option("=")) {
            if (k + 1 == count) throw std::invalid_argument(word + " wants a value");
            found.options[word] = given[++k];
        } else if (is_option("")) {
            found.options[word] = "";
        } else {
            found.files.emplace_back(word);
        }
    }
    if (found.files.size() != 2 || found.files[0].string().starts_with("--")) throw std::invalid_argument("");
    return found;
}

std::string usage(const Adapter& adapter) {
    std::string text = std::string("usage: ") + adapter.name + " SCRIPT OUT.tga [--planes FILE]";
    for (const std::string& option : adapter.options)
        text += " [" + (option.ends_with("=") ? option.substr(0, option.size() - 1) + " VALUE" : option) + "]";
    return text;
}

// The contexts of a script, whose lists are played in the order of execution.
class Player {
public:
    Player(Renderer& renderer, std::ostream& answers) : renderer_(renderer), answers_(answers) {}

    void take(const Command& command) {
        if (command.actor == immediate)
            take_immediate(command);
        else if (command.word == Word::finish)
            finish(contexts_.at(command.actor), command.at(0) != 0);
        else
            record(contexts_.at(command.actor), command);
    }

    void run() { renderer_.run(); }

private:
    struct List {
        State opening;
        std::vector<const Command*> commands;
    };
    struct Context {
        State state;
        List recorded;
        std::vector<List> finished;
    };

    static void record(Context& context, const Command& command) {
        context.state.set(command);
        context.recorded.commands.push_back(&command);
    }

    static void finish(Context& context, bool keeps) {
        context.finished.push_back(std::exchange(context.recorded, List{}));
        if (!keeps) context.state = State{};
        context.recorded.opening = context.state;
    }

    void take_immediate(const Command& command) {
        switch (command.word) {
        case Word::exec: return execute(command);
        case Word::flush: return run();
        case Word::query:
            run();
            return answer_count(answers_, command.at(0), renderer_.count(static_cast<int>(command.at(0))));
        case Word::pixel: {
            run();
            const auto x = static_cast<std::uint32_t>(command.at(0)), y = static_cast<std::uint32_t>(command.at(1));
            return answer_pixel(answers_, command, renderer_.read(x, y, 1, 1).at(0));
        }
        default: return perform(state_, command);
        }
    }

    void execute(const Command& command) {
        run();
        const List& list = contexts_.at(command.at(0)).finished.at(command.at(1));
        State state = list.opening;
        for (const Command* recorded : list.commands) perform(state, *recorded);
        run();
        if (command.at(2) == 0) state_ = State{};
    }

    void perform(State& state, const Command& command) {
        const int query = command.numbers.empty() ? 0 : static_cast<int>(command.at(0));
        if (state.set(command)) return;
        switch (command.word) {
        case Word::draw:
        case Word::drawi:
            if (command.at(0) > 0 && state.vertices != nullptr) renderer_.draw(state, command);
            return;
        case Word::begin:
            if (std::exchange(is_open_, true)) throw Unsupported("overlapping queries");
            return renderer_.begin(query);
        case Word::end: is_open_ = false; return renderer_.end(query);
        default: return renderer_.clear(state, command);
        }
    }

    Renderer& renderer_;
    std::ostream& answers_;
    State state_;
    std::array<Context, 8> contexts_;
    bool is_open_ = false;
};

}  // namespace

bool Script::has(const std::function<bool(const Command&)>& is_one) const {
    return std::any_of(commands.begin(), commands.end(), is_one);
}

bool has_bias(const Script& script) {
    return script.has([](const Command& it) { return it.word == Word::raster && it.numbers.size() > 3; });
}

namespace {

constexpr std::int64_t probe_bias = 4096, probe_depth = 1000000;

}  // namespace

Script bias_probe() {
    const std::int64_t low = -65536, high = 4 * 65536;
    return {1, 1, {{2, immediate, Word::vb, {low, low, probe_depth, 0, 0, 0, 0, high, low, probe_depth, 0, 0, 0, 0, low,
                                             high, probe_depth, 0, 0, 0, 0}},
                   {3, immediate, Word::topology, {list_of_triangles}},
                   {4, immediate, Word::raster, {1, 0, 0, probe_bias}},
                   {5, immediate, Word::draw, {3, 0}}}};
}

double bias_unit(const Pixel& pixel) {
    const double unit = static_cast<double>(pixel.depth - std::int64_t{probe_depth}) / probe_bias;
    if (unit <= 0 || pixel.depth == deepest) throw Unsupported("a depth bias");
    if (unit < 0.99 || unit > 1.01) tell("note: a depth bias of 1 is " + std::to_string(unit) + " units, and is scaled");
    return unit;
}

Script read_script(const std::filesystem::path& path) {
    std::ifstream file(path);
    std::string text;
    Script script;
    if (!(file >> text >> script.width >> script.height) || text != "target")
        throw std::runtime_error("cannot read " + path.string());
    std::getline(file, text);
    for (int line = 2; std::getline(file, text); line++) script.commands.push_back(command_of(text, line));
    return script;
}

std::vector<Vertex> vertices_of(const Command& vb) {
    std::vector<Vertex> found(vb.numbers.size() / numbers_of_a_vertex);
    auto number = vb.numbers.begin();
    for (Vertex& vertex : found) {
        vertex.x = static_cast<float>(static_cast<double>(*number++) / subpixels);
        vertex.y = static_cast<float>(static_cast<double>(*number++) / subpixels);
        vertex.z = depth_of(*number++);
        for (std::uint8_t& channel : vertex.colour) channel = static_cast<std::uint8_t>(*number++);
    }
    return found;
}

std::vector<std::uint16_t> indices_of(const Command& ib) { return {ib.numbers.begin(), ib.numbers.end()}; }

bool State::set(const Command& command) {
    switch (command.word) {
    case Word::vb: vertices = command.numbers.empty() ? nullptr : &command; return true;
    case Word::ib: indices = command.numbers.empty() ? nullptr : &command; return true;
    case Word::topology: topology = static_cast<int>(command.at(0)); return true;
    case Word::raster: copy_numbers(command, raster); return true;
    case Word::scissor: copy_numbers(command, scissor); return true;
    case Word::ds: copy_numbers(command, tests); return true;
    case Word::blend: copy_numbers(command, blend); return true;
    case Word::predicate:
        predicate.reset();
        if (!command.numbers.empty()) predicate = {static_cast<int>(command.at(0)), static_cast<int>(command.at(1))};
        return true;
    default: return false;
    }
}

void answer_count(std::ostream& answers, std::int64_t query, std::uint64_t count) {
    answers << "query " << query << ' ' << count << '\n';
}

void answer_pixel(std::ostream& answers, const Command& question, const Pixel& pixel) {
    answers << "pixel " << question.at(0) << ' ' << question.at(1);
    for (const int channel : pixel.colour) answers << ' ' << channel;
    answers << ' ' << pixel.depth << ' ' << int{pixel.stencil} << '\n';
}

void play(const Script& script, Renderer& renderer, std::ostream& answers) {
    Player player(renderer, answers);
    for (const Command& command : script.commands) player.take(command);
    player.run();
}

void tell(const std::string& line) { std::cerr << line << std::endl; }

int run_adapter(int count, char** given, const Adapter& adapter) {
    try {
        const Words found = words_of(count, given, adapter);
        const Script script = read_script(found.files[0]);
        std::ostringstream answers;
        const Pixels pixels = adapter.play(script, found.options, answers);
        std::cout << answers.str() << std::flush;
        write_image(found.files[1], script, pixels);
        if (const auto planes = found.options.find("--planes"); planes != found.options.end())
            write_planes(planes->second, pixels);
        return 0;
    } catch (const Unsupported& missing) {
        tell(std::string("not supported: ") + missing.what());
        return unsupported_status;
    } catch (const std::invalid_argument& wrong) {
        tell(std::string(wrong.what()) + (*wrong.what() ? "\n" : "") + usage(adapter));
        return words_status;
    } catch (const std::exception& error) {
        tell(std::string(adapter.name) + ": " + error.what());
        return trouble_status;
    }
}

}  // namespace adapter
