/* Shows KTX files of ASTC blocks by a driver of OpenGL ES 3, without a window, as raw texels of eight bits.

       driver IN.ktx OUT.raw ..

   Each texel is sampled at its middle, unfiltered. For sRGB the stored bytes are read, which needs a driver that
   can skip the conversion to linear.
   Status 77: no driver, or no support for these blocks. */
#include <EGL/egl.h>
#include <EGL/eglext.h>
#include <GLES3/gl3.h>
#include <GLES2/gl2ext.h>
#include <stdint.h>
#include <stdio.h>
#include <stdlib.h>
#include <string.h>

static const char VERTEX[] =
    "#version 300 es\n"
    "void main() { vec2 place = vec2(gl_VertexID & 1, gl_VertexID >> 1) * 4.0 - 1.0; gl_Position = vec4(place, 0.0, 1.0); }\n";
static const char FRAGMENT[] =
    "#version 300 es\n"
    "precision highp float; precision highp int; precision highp sampler2D;\n"
    "uniform sampler2D picture; out vec4 shown;\n"
    "void main() { shown = texture(picture, gl_FragCoord.xy / vec2(textureSize(picture, 0))); }\n";

static void stop(int status, const char *why) {
    fprintf(stderr, "driver: %s\n", why);
    exit(status);
}

static uint32_t word(const unsigned char *bytes) {
    return bytes[0] | bytes[1] << 8 | bytes[2] << 16 | (uint32_t)bytes[3] << 24;
}

static unsigned char *whole_file(const char *name, size_t *length) {
    FILE *file = fopen(name, "rb");
    unsigned char *bytes;
    long size;
    if (!file || fseek(file, 0, SEEK_END) || (size = ftell(file)) < 68 || fseek(file, 0, SEEK_SET)) stop(2, "the input can't be read");
    bytes = malloc((size_t)size);
    if (!bytes || fread(bytes, 1, (size_t)size, file) != (size_t)size) stop(2, "the input can't be read");
    fclose(file);
    *length = (size_t)size;
    return bytes;
}

/* A display without a window: of EGL_MESA_platform_surfaceless where EGL has it, or else the default one. */
static EGLDisplay begun_display(void) {
    const char *extensions = eglQueryString(EGL_NO_DISPLAY, EGL_EXTENSIONS);
    PFNEGLGETPLATFORMDISPLAYEXTPROC platform = (PFNEGLGETPLATFORMDISPLAYEXTPROC)eglGetProcAddress("eglGetPlatformDisplayEXT");
    EGLDisplay display = EGL_NO_DISPLAY;
    if (platform && extensions && strstr(extensions, "EGL_MESA_platform_surfaceless"))
        display = platform(EGL_PLATFORM_SURFACELESS_MESA, EGL_DEFAULT_DISPLAY, NULL);
    if (display != EGL_NO_DISPLAY && eglInitialize(display, NULL, NULL)) return display;
    display = eglGetDisplay(EGL_DEFAULT_DISPLAY);
    if (display == EGL_NO_DISPLAY || !eglInitialize(display, NULL, NULL)) stop(77, "EGL has no display");
    return display;
}

static void begin(void) {
    const EGLint wanted[] = {EGL_SURFACE_TYPE, 0, EGL_RENDERABLE_TYPE, EGL_OPENGL_ES3_BIT, EGL_NONE};
    const EGLint version[] = {EGL_CONTEXT_CLIENT_VERSION, 3, EGL_NONE};
    EGLDisplay display = begun_display();
    EGLConfig config = NULL;
    EGLint count = 0;
    EGLContext context;
    eglBindAPI(EGL_OPENGL_ES_API);
    if (!eglChooseConfig(display, wanted, &config, 1, &count) || count < 1) config = EGL_NO_CONFIG_KHR;
    context = eglCreateContext(display, config, EGL_NO_CONTEXT, version);
    if (context == EGL_NO_CONTEXT || !eglMakeCurrent(display, EGL_NO_SURFACE, EGL_NO_SURFACE, context)) stop(77, "no context of OpenGL ES 3 without a surface");
}

static int has(const char *extension) {
    GLint count = 0, k;
    glGetIntegerv(GL_NUM_EXTENSIONS, &count);
    for (k = 0; k < count; k++)
        if (!strcmp((const char *)glGetStringi(GL_EXTENSIONS, (GLuint)k), extension)) return 1;
    return 0;
}

static GLuint texture(int srgb) {
    GLuint name;
    glGenTextures(1, &name);
    glBindTexture(GL_TEXTURE_2D, name);
    glTexParameteri(GL_TEXTURE_2D, GL_TEXTURE_MIN_FILTER, GL_NEAREST);
    glTexParameteri(GL_TEXTURE_2D, GL_TEXTURE_MAG_FILTER, GL_NEAREST);
    glTexParameteri(GL_TEXTURE_2D, GL_TEXTURE_MAX_LEVEL, 0);
    if (srgb) glTexParameteri(GL_TEXTURE_2D, GL_TEXTURE_SRGB_DECODE_EXT, GL_SKIP_DECODE_EXT);
    return name;
}

static void use_program(void) {
    const char *texts[] = {VERTEX, FRAGMENT};
    GLuint program = glCreateProgram();
    GLint linked = 0;
    int k;
    for (k = 0; k < 2; k++) {
        GLuint shader = glCreateShader(k ? GL_FRAGMENT_SHADER : GL_VERTEX_SHADER);
        glShaderSource(shader, 1, &texts[k], NULL);
        glCompileShader(shader);
        glAttachShader(program, shader);
    }
    glLinkProgram(program);
    glGetProgramiv(program, GL_LINK_STATUS, &linked);
    if (!linked) stop(77, "the shaders aren't taken");
    glUseProgram(program);
}

/* Draws a file's picture into a texture of eight bits, and writes what stands there. */
static void show(const char *in, const char *to) {
    size_t length, at;
    unsigned char *file = whole_file(in, &length), *texels;
    uint32_t format = word(file + 28), width = word(file + 36), height = word(file + 40);
    GLuint target, frame, source;
    FILE *out;
    at = 64 + (size_t)word(file + 60);
    if (at + 4 > length || at + 4 + word(file + at) > length) stop(2, "the input is cut off");
    if (format >= 0x93D0 && !has("GL_EXT_texture_sRGB_decode")) stop(77, "this driver doesn't tell stored bytes of sRGB");
    target = texture(0);
    glTexStorage2D(GL_TEXTURE_2D, 1, GL_RGBA8, (GLsizei)width, (GLsizei)height);
    glGenFramebuffers(1, &frame);
    glBindFramebuffer(GL_FRAMEBUFFER, frame);
    glFramebufferTexture2D(GL_FRAMEBUFFER, GL_COLOR_ATTACHMENT0, GL_TEXTURE_2D, target, 0);
    source = texture(format >= 0x93D0);
    glCompressedTexImage2D(GL_TEXTURE_2D, 0, format, (GLsizei)width, (GLsizei)height, 0, (GLsizei)word(file + at), file + at + 4);
    glViewport(0, 0, (GLsizei)width, (GLsizei)height);
    glDrawArrays(GL_TRIANGLES, 0, 3);
    texels = malloc((size_t)width * height * 4);
    if (!texels) stop(2, "out of memory");
    glReadPixels(0, 0, (GLsizei)width, (GLsizei)height, GL_RGBA, GL_UNSIGNED_BYTE, texels);
    if (glGetError() != GL_NO_ERROR) stop(1, "the driver refuses the picture");
    out = fopen(to, "wb");
    if (!out || fwrite(texels, 4, (size_t)width * height, out) != (size_t)width * height || fclose(out)) stop(2, "the output can't be written");
    glDeleteTextures(1, &source);
    glDeleteTextures(1, &target);
    glDeleteFramebuffers(1, &frame);
    free(texels);
    free(file);
}

int main(int count, char **words) {
    int k;
    if (count < 3 || count % 2 == 0) stop(2, "driver IN.ktx OUT.raw ..");
    begin();
    if (!has("GL_KHR_texture_compression_astc_ldr")) stop(77, "this driver takes no ASTC");
    fprintf(stderr, "%s, %s\n", glGetString(GL_RENDERER), glGetString(GL_VERSION));
    glDisable(GL_DITHER);
    use_program();
    for (k = 1; k < count; k += 2) show(words[k], words[k + 1]);
    return 0;
}
