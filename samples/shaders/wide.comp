#version 450
#extension GL_EXT_shader_explicit_arithmetic_types : require
// Literals of every width that is read: 8, 16, 32 and 64 bits, floats of 16, 32 and 64, a switch of 64 bits.
layout(local_size_x = 1) in;
layout(std430, set = 0, binding = 0) buffer All { int64_t a; float64_t d; int32_t b; int16_t c; int8_t e; float16_t h; } all;
void main() {
    switch (all.b) {
    case 1: all.a = 0x123456789ABCDEFL; break;
    case -7: all.a = -1L; break;
    default: all.a += 2L;
    }
    all.d = all.d * 0.1LF + 1.0e300LF;
    all.c = int16_t(-300s) + all.c;
    all.e = int8_t(5) - all.e;
    all.h = all.h * 0.5hf;
}
