// Plays a script by OpenGL 3.3 without a display, by EGL: opengl SCRIPT OUT.tga [--planes FILE]
#include "opengl_context.h"

#include <cstddef>

using namespace adapter;

namespace {

constexpr std::size_t queries = 64;
constexpr std::array<GLenum, 8> comparisons{
    GL_NEVER, GL_LESS, GL_EQUAL, GL_LEQUAL, GL_GREATER, GL_NOTEQUAL, GL_GEQUAL, GL_ALWAYS};
constexpr std::array<GLenum, 8> operations{
    GL_KEEP, GL_ZERO, GL_REPLACE, GL_INCR, GL_DECR, GL_INVERT, GL_INCR_WRAP, GL_DECR_WRAP};
constexpr std::array<GLenum, 16> logic_operations{
    GL_CLEAR, GL_SET, GL_COPY, GL_COPY_INVERTED, GL_NOOP, GL_INVERT, GL_AND, GL_NAND, GL_OR, GL_NOR, GL_XOR, GL_EQUIV,
    GL_AND_REVERSE, GL_AND_INVERTED, GL_OR_REVERSE, GL_OR_INVERTED};

class OpenGLRenderer : public Renderer {
public:
    explicit OpenGLRenderer(const Script& script, double unit_of_bias = 1) : unit_of_bias_(unit_of_bias) {
        tell(std::string("device: ") + text(GL_RENDERER) + ", OpenGL " + text(GL_VERSION));
        make_target(script);
        const bool has_clip_control = has_extension("GL_ARB_clip_control");
        if (has_clip_control) glClipControl(GL_LOWER_LEFT, GL_ZERO_TO_ONE);
        const GLuint shaders = program();
        glUseProgram(shaders);
        glUniform2f(glGetUniformLocation(shaders, "depth"), has_clip_control ? 1 : 2, has_clip_control ? 0 : -1);
        GLuint array = 0;
        glGenVertexArrays(1, &array);
        glBindVertexArray(array);
        glEnableVertexAttribArray(0);
        glEnableVertexAttribArray(1);
        glProvokingVertex(GL_FIRST_VERTEX_CONVENTION);
        glViewport(-4096, -4096, 8192, 8192);
        glPrimitiveRestartIndex(65535);
        make_queries();
        clear_colour({0, 0, 0, 0});
        clear_tests(1, 0);
    }

    OpenGLRenderer(const OpenGLRenderer&) = delete;
    OpenGLRenderer& operator=(const OpenGLRenderer&) = delete;
    // (llvmpipe frees an open query with its context, while its threads may still count for it)
    ~OpenGLRenderer() override { glFinish(); }

    void draw(const State& state, const Command& command) override {
        const Condition condition(*this, state);
        set(state);
        const auto mode = state.topology == list_of_triangles ? GL_TRIANGLES : GL_TRIANGLE_STRIP;
        const auto count = static_cast<GLsizei>(command.at(0));
        set_enabled(GL_PRIMITIVE_RESTART, state.cuts(command));
        glBindBuffer(GL_ARRAY_BUFFER, buffer_of(*state.vertices));
        glVertexAttribPointer(0, 3, GL_FLOAT, GL_FALSE, sizeof(Vertex), nullptr);
        glVertexAttribIPointer(1, 4, GL_UNSIGNED_BYTE, sizeof(Vertex), place(offsetof(Vertex, colour)));
        if (command.word == Word::draw) return glDrawArrays(mode, static_cast<GLint>(command.at(1)), count);
        glBindBuffer(GL_ELEMENT_ARRAY_BUFFER, buffer_of(*state.indices));
        glDrawElementsBaseVertex(mode, count, GL_UNSIGNED_SHORT, place(2 * static_cast<std::size_t>(command.at(1))),
                                 static_cast<GLint>(command.at(2)));
    }

    void clear(const State& state, const Command& command) override {
        const Condition condition(*this, state);
        glDisable(GL_SCISSOR_TEST);
        const auto value = [&](int at) { return static_cast<GLuint>(command.at(at)); };
        if (command.word == Word::clearc)
            clear_colour({value(0), value(1), value(2), value(3)});
        else
            clear_tests(depth_of(command.at(0)), static_cast<GLint>(command.at(1)));
    }

    void begin(int query) override { glBeginQuery(GL_SAMPLES_PASSED, queries_.at(query)); }
    void end(int) override { glEndQuery(GL_SAMPLES_PASSED); }
    void run() override { glFlush(); }

    std::uint64_t count(int query) override {
        GLuint64 counted = 0;
        glGetQueryObjectui64v(queries_.at(query), GL_QUERY_RESULT, &counted);
        return counted;
    }

    Pixels read(std::uint32_t x, std::uint32_t y, std::uint32_t width, std::uint32_t height) override {
        const std::size_t count = std::size_t{width} * height;
        std::vector<std::array<std::uint8_t, 4>> colours(count);
        std::vector<std::uint32_t> tests(count);
        const auto read = [&](GLenum format, GLenum type, void* to) {
            glReadPixels(static_cast<GLint>(x), static_cast<GLint>(y), static_cast<GLsizei>(width),
                         static_cast<GLsizei>(height), format, type, to);
        };
        read(GL_RGBA_INTEGER, GL_UNSIGNED_BYTE, colours.data());
        read(GL_DEPTH_STENCIL, GL_UNSIGNED_INT_24_8, tests.data());
        check(glGetError() == GL_NO_ERROR, "OpenGL tells an error");
        Pixels pixels(count);
        for (std::size_t at = 0; at < count; at++)
            pixels[at] = {colours[at], tests[at] >> 8, static_cast<std::uint8_t>(tests[at] & 255)};
        return pixels;
    }

private:
    // What is drawn within it is left out where the state's predicate says so.
    class Condition {
    public:
        Condition(const OpenGLRenderer& renderer, const State& state) : is_set_(state.predicate.has_value()) {
            if (!is_set_) return;
            const auto [query, value] = *state.predicate;
            if (value != 0 && !has_extension("GL_ARB_conditional_render_inverted"))
                throw Unsupported("predicates of the value 1");
            glBeginConditionalRender(renderer.queries_.at(query), value != 0 ? GL_QUERY_WAIT_INVERTED : GL_QUERY_WAIT);
        }
        Condition(const Condition&) = delete;
        Condition& operator=(const Condition&) = delete;
        ~Condition() {
            if (is_set_) glEndConditionalRender();
        }

    private:
        bool is_set_;
    };

    static const char* text(GLenum name) { return reinterpret_cast<const char*>(glGetString(name)); }
    static const void* place(std::size_t offset) { return reinterpret_cast<const void*>(offset); }

    static void make_target(const Script& script) {
        GLuint frame = 0;
        std::array<GLuint, 2> planes{};
        glGenFramebuffers(1, &frame);
        glGenRenderbuffers(2, planes.data());
        glBindFramebuffer(GL_FRAMEBUFFER, frame);
        const auto add = [&](GLuint plane, GLenum format, GLenum attachment) {
            glBindRenderbuffer(GL_RENDERBUFFER, plane);
            glRenderbufferStorage(GL_RENDERBUFFER, format, static_cast<GLsizei>(script.width),
                                  static_cast<GLsizei>(script.height));
            glFramebufferRenderbuffer(GL_FRAMEBUFFER, attachment, GL_RENDERBUFFER, plane);
        };
        add(planes[0], GL_RGBA8UI, GL_COLOR_ATTACHMENT0);
        add(planes[1], GL_DEPTH24_STENCIL8, GL_DEPTH_STENCIL_ATTACHMENT);
        if (glCheckFramebufferStatus(GL_FRAMEBUFFER) != GL_FRAMEBUFFER_COMPLETE)
            throw Unsupported("targets of RGBA8UI with DEPTH24_STENCIL8");
    }

    // The result of a query that was never begun is 0: so each counts nothing once.
    void make_queries() {
        glGenQueries(queries, queries_.data());
        for (const GLuint query : queries_) {
            glBeginQuery(GL_SAMPLES_PASSED, query);
            glEndQuery(GL_SAMPLES_PASSED);
        }
    }

    static void clear_colour(const std::array<GLuint, 4>& colour) {
        glColorMask(GL_TRUE, GL_TRUE, GL_TRUE, GL_TRUE);
        glClearBufferuiv(GL_COLOR, 0, colour.data());
    }

    static void clear_tests(float depth, GLint stencil) {
        glDepthMask(GL_TRUE);
        glStencilMask(255);
        glClearBufferfi(GL_DEPTH_STENCIL, 0, depth, stencil);
    }

    void set(const State& state) const {
        const auto& tests = state.tests;
        const auto number = [](std::int64_t value) { return static_cast<GLint>(value); };
        set_enabled(GL_CULL_FACE, state.raster[0] != 1);
        glCullFace(state.raster[0] == 2 ? GL_FRONT : GL_BACK);
        // (the target's first row is OpenGL's lowest, so that what is clockwise there isn't so here)
        glFrontFace(state.raster[1] != 0 ? GL_CW : GL_CCW);
        set_enabled(GL_POLYGON_OFFSET_FILL, state.raster[3] != 0);
        glPolygonOffset(0, static_cast<float>(static_cast<double>(state.raster[3]) / unit_of_bias_));
        set_enabled(GL_SCISSOR_TEST, state.raster[2] != 0);
        const auto& cut = state.scissor;
        glScissor(number(cut[0]), number(cut[1]), number(cut[2] - cut[0]), number(cut[3] - cut[1]));
        set_enabled(GL_DEPTH_TEST, tests[0] != 0);
        glDepthMask(tests[1] != 0);
        glDepthFunc(comparisons.at(tests[2] - 1));
        set_enabled(GL_STENCIL_TEST, tests[3] != 0);
        glStencilMask(static_cast<GLuint>(tests[5]));
        for (const std::size_t at : {6, 10}) {
            const GLenum face = at == 6 ? GL_FRONT : GL_BACK;
            glStencilFuncSeparate(face, comparisons.at(tests.at(at + 3) - 1), number(tests[14]),
                                  static_cast<GLuint>(tests[4]));
            glStencilOpSeparate(face, operations.at(tests.at(at) - 1), operations.at(tests.at(at + 1) - 1),
                                operations.at(tests.at(at + 2) - 1));
        }
        set_enabled(GL_COLOR_LOGIC_OP, state.blend[0] != 0);
        glLogicOp(logic_operations.at(state.blend[1]));
        const auto written = [&](int channel) { return static_cast<GLboolean>(state.blend[2] >> channel & 1); };
        glColorMask(written(0), written(1), written(2), written(3));
    }

    GLuint buffer_of(const Command& command) {
        GLuint& buffer = buffers_[&command];
        if (buffer != 0) return buffer;
        glGenBuffers(1, &buffer);
        const auto fill = [&](GLenum target, const auto& content) {
            glBindBuffer(target, buffer);
            glBufferData(target, static_cast<GLsizeiptr>(content.size() * sizeof content[0]), content.data(),
                         GL_STATIC_DRAW);
        };
        if (command.word == Word::vb)
            fill(GL_ARRAY_BUFFER, vertices_of(command));
        else
            fill(GL_ELEMENT_ARRAY_BUFFER, indices_of(command));
        return buffer;
    }

    double unit_of_bias_;
    Current current_;
    std::array<GLuint, queries> queries_{};
    std::map<const Command*, GLuint> buffers_;
};

Pixels play_script(const Script& script, const Options&, std::ostream& answers) {
    return played<OpenGLRenderer>(script, answers);
}

}  // namespace

int main(int count, char** words) { return run_adapter(count, words, {"opengl", {}, play_script}); }
