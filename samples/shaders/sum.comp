#version 450
// A sum over a work group in shared memory, then an atomic add.
layout(local_size_x = 64) in;
layout(std430, set = 0, binding = 0) readonly buffer In { uint values[]; };
layout(std430, set = 0, binding = 1) buffer Out { uint total; };
shared uint part[64];
void main() {
    uint me = gl_LocalInvocationID.x;
    part[me] = values[gl_GlobalInvocationID.x];
    barrier();
    for (uint step = 32u; step > 0u; step >>= 1) {
        if (me < step) part[me] += part[me + step];
        barrier();
    }
    if (me == 0u) atomicAdd(total, part[0]);
}
