/* Between Gate.java and libekhurtza: each function takes Gate's direct buffers apart into pointer and length, and calls its namesake. A buffer that is
 * not direct has no address; it is handed on with length 0, which the library refuses. */
#include <jni.h>

#include "ekhurtza.h"

struct slice {
    void *first;
    size_t bytes;
};

static struct slice lent(JNIEnv *env, jobject buffer) {
    void *first = (*env)->GetDirectBufferAddress(env, buffer);
    jlong bytes = (*env)->GetDirectBufferCapacity(env, buffer);
    struct slice none = {NULL, 0};
    struct slice whole = {first, (size_t)bytes};
    return first == NULL || bytes < 0 ? none : whole;
}

/* refusal in the upper half, number in the lower: neither passes 65,536 */
static jlong packed(struct ekhurtza_answer answer) { return (jlong)(answer.refusal << 32 | answer.number); }

/* pointer and length of a slice in elements of a type */
#define SLICE(type, slice) (type *)(slice).first, (slice).bytes / sizeof(type)

/* the three slices of a gate */
#define GATE struct slice reg = lent(env, reg_buffer), book = lent(env, book_buffer), places = lent(env, places_buffer)
#define LENT SLICE(uint32_t, reg), SLICE(uint64_t, book), SLICE(uint64_t, places)
#define GATE_BUFFERS jobject reg_buffer, jobject book_buffer, jobject places_buffer

JNIEXPORT jlong JNICALL Java_Gate_open(JNIEnv *env, jclass gate, GATE_BUFFERS) {
    GATE;
    (void)gate;
    return (jlong)ekhurtza_open(LENT);
}

JNIEXPORT jlong JNICALL Java_Gate_load(JNIEnv *env, jclass gate, GATE_BUFFERS, jobject text_buffer) {
    GATE;
    struct slice text = lent(env, text_buffer);
    (void)gate;
    return (jlong)ekhurtza_load(LENT, SLICE(uint8_t, text));
}

JNIEXPORT jlong JNICALL Java_Gate_call(JNIEnv *env, jclass gate, GATE_BUFFERS, jlong code, jlong a, jlong b, jlong c, jlong d) {
    GATE;
    (void)gate;
    return packed(ekhurtza_call(LENT, (uint64_t)code, (uint64_t)a, (uint64_t)b, (uint64_t)c, (uint64_t)d));
}

JNIEXPORT jlong JNICALL Java_Gate_listing(JNIEnv *env, jclass gate, GATE_BUFFERS, jobject text_buffer) {
    GATE;
    struct slice text = lent(env, text_buffer);
    (void)gate;
    return packed(ekhurtza_listing(LENT, SLICE(uint8_t, text)));
}

JNIEXPORT jlong JNICALL Java_Gate_room(JNIEnv *env, jclass gate, GATE_BUFFERS, jlong group, jobject words_buffer) {
    GATE;
    struct slice words = lent(env, words_buffer);
    (void)gate;
    return (jlong)ekhurtza_room(LENT, (uint64_t)group, SLICE(uint64_t, words));
}

JNIEXPORT jlong JNICALL Java_Gate_readRow(JNIEnv *env, jclass gate, jobject text_buffer, jlong k, jobject words_buffer) {
    struct slice text = lent(env, text_buffer), words = lent(env, words_buffer);
    (void)gate;
    return (jlong)ekhurtza_read_row(SLICE(uint8_t, text), (uint64_t)k, SLICE(uint64_t, words));
}

JNIEXPORT jlong JNICALL Java_Gate_callLine(JNIEnv *env, jclass gate, jlong code, jlong a, jlong b, jlong c, jlong d, jobject line_buffer) {
    struct slice line = lent(env, line_buffer);
    (void)gate;
    return (jlong)ekhurtza_call_line((uint64_t)code, (uint64_t)a, (uint64_t)b, (uint64_t)c, (uint64_t)d, SLICE(uint8_t, line));
}
