// What all adapters share: scripts, the state behind each draw, and what an adapter writes.
#pragma once

#include <array>
#include <cstdint>
#include <filesystem>
#include <functional>
#include <map>
#include <memory>
#include <optional>
#include <ostream>
#include <stdexcept>
#include <string>
#include <vector>

namespace adapter {

// The device, or the interface, can't do what a script asks: status 77, and no picture.
struct Unsupported : std::runtime_error {
    using std::runtime_error::runtime_error;
};

enum class Word {
    vb, ib, topology, raster, scissor, ds, blend, predicate, draw, drawi, clearc, cleards, begin, end, finish, exec,
    flush, query, pixel
};

constexpr int immediate = -1;
constexpr std::uint32_t deepest = 16777215;
constexpr int list_of_triangles = 4, strip_of_triangles = 5;

// A line of a script behind the first. `actor` is `immediate`, or the number of a deferred context.
struct Command {
    int line = 0;
    int actor = immediate;
    Word word = Word::flush;
    std::vector<std::int64_t> numbers;

    std::int64_t at(std::size_t place) const { return numbers.at(place); }
};

struct Pixel {
    std::array<std::uint8_t, 4> colour{};
    std::uint32_t depth = 0;
    std::uint8_t stencil = 0;
};

struct Script {
    std::uint32_t width = 0, height = 0;
    std::vector<Command> commands;

    bool has(const std::function<bool(const Command&)>& is_one) const;
};

// Whether a script sets a depth bias.
bool has_bias(const Script& script);

// A script of one pixel with a bias, and how many units of 24 bits a bias of 1 adds by what it leaves. Vulkan and OpenGL
// let drivers say what a unit is, so that it has to be measured.
Script bias_probe();
double bias_unit(const Pixel& pixel);

// Reads a script that the device takes. What it would refuse isn't looked for.
Script read_script(const std::filesystem::path& file);

// A corner as interfaces take it: x and y in pixels, z from 0 to 1.
struct Vertex {
    float x, y, z;
    std::array<std::uint8_t, 4> colour;
};

std::vector<Vertex> vertices_of(const Command& vb);
std::vector<std::uint16_t> indices_of(const Command& ib);

// A stored depth as interfaces take it.
inline float depth_of(std::int64_t units) { return static_cast<float>(static_cast<double>(units) / deepest); }

// The settings of a context, with their defaults.
struct State {
    const Command* vertices = nullptr;
    const Command* indices = nullptr;
    int topology = 0;
    std::array<std::int64_t, 4> raster{3, 0, 0, 0};
    std::array<std::int64_t, 4> scissor{};
    std::array<std::int64_t, 15> tests{1, 1, 2, 0, 255, 255, 1, 1, 1, 8, 1, 1, 1, 8, 0};
    std::array<std::int64_t, 3> blend{0, 4, 15};
    std::optional<std::array<int, 2>> predicate;

    // Takes a line that sets something; false where it is another one.
    bool set(const Command& command);
    bool cuts(const Command& draw) const { return draw.word == Word::drawi && topology == strip_of_triangles; }
};

// What stands in the target, row by row from the top.
using Pixels = std::vector<Pixel>;

// An interface that has one context: it takes draws in their order of execution, each with its state.
class Renderer {
public:
    virtual ~Renderer() = default;
    virtual void draw(const State& state, const Command& command) = 0;
    virtual void clear(const State& state, const Command& command) = 0;
    virtual void begin(int query) = 0;
    virtual void end(int query) = 0;
    virtual void run() = 0;
    virtual std::uint64_t count(int query) = 0;
    virtual Pixels read(std::uint32_t x, std::uint32_t y, std::uint32_t width, std::uint32_t height) = 0;
};

// Plays a script on such an interface: deferred contexts are played here, and one query is open at a time.
void play(const Script& script, Renderer& renderer, std::ostream& answers);

// Plays a script on a renderer that is made for it; where it has biases, another measures a unit of them before.
template <typename Made, typename... Given>
Pixels played(const Script& script, std::ostream& answers, const Given&... given) {
    double unit = 1;
    if (has_bias(script)) {
        const Script probe = bias_probe();
        Made measuring(probe, given...);
        play(probe, measuring, answers);
        unit = bias_unit(measuring.read(0, 0, 1, 1).at(0));
    }
    Made renderer(script, given..., unit);
    play(script, renderer, answers);
    return renderer.read(0, 0, script.width, script.height);
}

void answer_count(std::ostream& answers, std::int64_t query, std::uint64_t count);
void answer_pixel(std::ostream& answers, const Command& question, const Pixel& pixel);

using Options = std::map<std::string, std::string>;

// What an adapter is for the shared main: its options (those that take a value end with =), and how it plays.
struct Adapter {
    const char* name;
    std::vector<std::string> options;
    std::function<Pixels(const Script&, const Options&, std::ostream& answers)> play;
};

// `ADAPTER SCRIPT OUT.tga [--planes FILE] [OPTIONS]`; gives the status.
int run_adapter(int count, char** words, const Adapter& adapter);

// A line for people on standard error, as `device: llvmpipe`.
void tell(const std::string& line);

}  // namespace adapter
