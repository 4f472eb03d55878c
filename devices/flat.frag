#version 450
layout(location = 0) flat in uvec4 leading;
layout(location = 0) out uvec4 colour;

void main() {
    colour = leading;
}
