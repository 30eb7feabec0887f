#version 450
// Lights in a loop, a texture, a helper function, a discard.
struct Light { vec3 at; float power; };
layout(set = 0, binding = 0) uniform Lights { Light light[4]; int count; } lights;
layout(set = 0, binding = 1) uniform sampler2D albedo;
layout(location = 0) in vec3 normal;
layout(location = 1) in vec3 place;
layout(location = 2) in vec2 uv;
layout(location = 0) out vec4 colour;
float falloff(float d, float power) { return power / (1.0 + d * d); }
void main() {
    vec4 base = textureLod(albedo, uv, 1.0);
    if (base.a < 0.5) discard;
    float sum = 0.05;
    for (int i = 0; i < lights.count; i++) {
        vec3 to = lights.light[i].at - place;
        sum += max(0.0, dot(normalize(normal), normalize(to))) * falloff(length(to), lights.light[i].power);
    }
    colour = vec4(base.rgb * sum, base.a);
}
