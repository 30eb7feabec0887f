#version 450
// A moved, rotated triangle with a colour at each corner.
layout(push_constant) uniform Push { mat4 view; float angle; } push;
layout(location = 0) in vec2 position;
layout(location = 1) in vec3 colour;
layout(location = 0) out vec3 shade;
void main() {
    float s = sin(push.angle), c = cos(push.angle);
    gl_Position = push.view * vec4(mat2(c, s, -s, c) * position, 0.0, 1.0);
    shade = colour;
}
