#version 450
// Specialization constants and operations on them.
layout(local_size_x_id = 0, local_size_y_id = 1) in;
layout(constant_id = 2) const int width = 16;
layout(constant_id = 3) const bool bright = true;
layout(constant_id = 4) const float gain = 1.5;
const int area = width * width + 3;
const uint half_width = uint(width) >> 1;
layout(set = 0, binding = 0, rgba8) uniform image2D picture;
void main() {
    ivec2 at = ivec2(gl_GlobalInvocationID.xy);
    if (at.x * at.y >= area || uint(at.x) == half_width) return;
    vec4 pixel = imageLoad(picture, at);
    imageStore(picture, at, bright ? pixel * gain : pixel);
}
