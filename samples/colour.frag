#version 450

layout(location = 0) in vec3 colour;
layout(location = 0) out vec4 shade;

void main() {
    shade = vec4(colour, 1.0);
}
