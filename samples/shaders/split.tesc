#version 450
// A patch of three corners, split by distance.
layout(vertices = 3) out;
layout(location = 0) in vec3 place[];
layout(location = 0) out vec3 corner[];
void main() {
    corner[gl_InvocationID] = place[gl_InvocationID];
    if (gl_InvocationID == 0) {
        gl_TessLevelInner[0] = 4.0;
        gl_TessLevelOuter[0] = distance(place[1], place[2]);
        gl_TessLevelOuter[1] = distance(place[2], place[0]);
        gl_TessLevelOuter[2] = distance(place[0], place[1]);
    }
}
