// A context of OpenGL 3.3 without a surface, and its shaders.
#pragma once
#define GL_GLEXT_PROTOTYPES
#include <EGL/egl.h>
#include <EGL/eglext.h>
#include <GL/gl.h>
#include <GL/glext.h>

#include <string_view>

#include "script.h"

namespace adapter {

// The viewport is 8192 pixels wide with (0, 0) in its middle, and its first row is the target's.
constexpr const char* vertex_shader = R"(#version 330 core
layout(location = 0) in vec3 place;
layout(location = 1) in uvec4 colour;
flat out uvec4 leading;
uniform vec2 depth;
void main() {
    gl_Position = vec4(place.xy / 4096.0, place.z * depth.x + depth.y, 1.0);
    leading = colour;
})";
constexpr const char* fragment_shader = R"(#version 330 core
flat in uvec4 leading;
out uvec4 colour;
void main() { colour = leading; })";

inline void check(bool holds, const char* what) {
    if (!holds) throw std::runtime_error(what);
}

inline void set_enabled(GLenum what, bool on) { (on ? glEnable : glDisable)(what); }

inline bool has_extension(std::string_view name) {
    GLint count = 0;
    glGetIntegerv(GL_NUM_EXTENSIONS, &count);
    for (GLint at = 0; at < count; at++)
        if (name == reinterpret_cast<const char*>(glGetStringi(GL_EXTENSIONS, at))) return true;
    return false;
}

// A context without a surface, which is current as long as it is there.
class Current {
public:
    Current() {
        const auto display =
            reinterpret_cast<PFNEGLGETPLATFORMDISPLAYEXTPROC>(eglGetProcAddress("eglGetPlatformDisplayEXT"));
        check(display != nullptr, "EGL has no platforms");
        display_ = display(EGL_PLATFORM_SURFACELESS_MESA, EGL_DEFAULT_DISPLAY, nullptr);
        check(eglInitialize(display_, nullptr, nullptr) && eglBindAPI(EGL_OPENGL_API), "EGL can't be begun");
        const EGLint wanted[] = {EGL_CONTEXT_MAJOR_VERSION, 3, EGL_CONTEXT_MINOR_VERSION, 3,
                                 EGL_CONTEXT_OPENGL_PROFILE_MASK, EGL_CONTEXT_OPENGL_CORE_PROFILE_BIT, EGL_NONE};
        context_ = eglCreateContext(display_, EGL_NO_CONFIG_KHR, EGL_NO_CONTEXT, wanted);
        check(context_ != EGL_NO_CONTEXT, "there is no OpenGL 3.3");
        check(eglMakeCurrent(display_, EGL_NO_SURFACE, EGL_NO_SURFACE, context_), "OpenGL wants a surface");
    }
    Current(const Current&) = delete;
    Current& operator=(const Current&) = delete;
    ~Current() {
        eglMakeCurrent(display_, EGL_NO_SURFACE, EGL_NO_SURFACE, EGL_NO_CONTEXT);
        eglDestroyContext(display_, context_);
        eglTerminate(display_);
    }

private:
    EGLDisplay display_ = EGL_NO_DISPLAY;
    EGLContext context_ = EGL_NO_CONTEXT;
};

inline GLuint program() {
    const GLuint made = glCreateProgram();
    const auto add = [made](GLenum kind, const char* source) {
        const GLuint shader = glCreateShader(kind);
        glShaderSource(shader, 1, &source, nullptr);
        glCompileShader(shader);
        glAttachShader(made, shader);
        glDeleteShader(shader);
    };
    add(GL_VERTEX_SHADER, vertex_shader);
    add(GL_FRAGMENT_SHADER, fragment_shader);
    glLinkProgram(made);
    GLint linked = 0;
    glGetProgramiv(made, GL_LINK_STATUS, &linked);
    check(linked != 0, "the shaders can't be linked");
    return made;
}

}  // namespace adapter
