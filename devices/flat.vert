#version 450
layout(location = 0) in vec3 place;
layout(location = 1) in uvec4 colour;
layout(location = 0) flat out uvec4 leading;

// the viewport is 8192 pixels wide, with (0, 0) in its middle
void main() {
    gl_Position = vec4(place.xy / 4096.0, place.z, 1.0);
    leading = colour;
}
