/* The stack that each call needs, on a thread with a painted stack: what the call reaches below a function that does nothing
 * with the same arguments, its return address, and the room for result and arguments by value. The header's figure must be
 * at least that and at most twice that, or LEAST, so that there is room for what calls it. Then every call again on a thread
 * that has twice the header's figure and no more. */
#define _GNU_SOURCE
#include "plays.h"
#include <pthread.h>
#include <signal.h>
#include <stdio.h>
#include <string.h>
#include <sys/mman.h>
#include <unistd.h>

enum { GUARD = 1 << 16, STACK = 1 << 18, ROOM = 1 << 15, KNOWN = 5000, LEAST = 64 };

static uint8_t *low; /* the stack's lowest byte; no access below it */
static const char *playing;

static void overflowed(int signal) {
    static const char words[] = "boundary: FAILED: fault, as of a stack too small, in ";
    (void)signal;
    if (write(1, words, sizeof words - 1) < 0 || write(1, playing, strlen(playing)) < 0 || write(1, "\n", 1) < 0)
        _exit(2);
    _exit(1);
}

typedef struct {
    size_t room;
    void (*play)(void);
} stage;

/* The thread: its own frame takes the stack down to where only `room` bytes are left. */
static void *enter(void *given) {
    static uint8_t alternate[1 << 16];
    const stack_t signals = {.ss_sp = alternate, .ss_size = sizeof alternate};
    const stage *s = given;
    uint8_t here;
    if (sigaltstack(&signals, NULL) != 0)
        fail("no signal stack");
    volatile uint8_t sink[(uintptr_t)&here - (uintptr_t)low - s->room];
    sink[0] = 0;
    s->play();
    return sink[0] == 0 ? NULL : given;
}

static void on_thread(size_t room, void (*play)(void), const char *name) {
    stage s = {room, play};
    pthread_attr_t attributes;
    pthread_t thread;
    playing = name;
    if (pthread_attr_init(&attributes) != 0 || pthread_attr_setstack(&attributes, low, STACK) != 0
        || pthread_create(&thread, &attributes, enter, &s) != 0 || pthread_join(thread, NULL) != 0)
        fail("no thread");
    pthread_attr_destroy(&attributes);
}

/* How far down the stack was written; with two paints, so that no byte written passes for paint. */
static size_t depth(void (*play)(void), const char *name) {
    static const uint8_t paints[2] = {0x5a, 0xa5};
    size_t untouched = ROOM;
    for (int i = 0; i < 2; i++) {
        size_t at = 0;
        memset(low, paints[i], STACK);
        on_thread(ROOM, play, name);
        while (at < untouched && low[at] == paints[i])
            at++;
        untouched = at;
    }
    return ROOM - untouched;
}

static void play_nothing(void) {}

static void play_known(void) {
    volatile uint8_t frame[KNOWN];
    for (int i = KNOWN - 1; i >= 0; i--)
        frame[i] = (uint8_t)i;
    met = frame[0];
}

/* A frame of a known size is measured as that. */
static void try_meter(void) {
    size_t nothing = depth(play_nothing, "nothing"), known = depth(play_known, "a known frame") - nothing;
    if (nothing == 0 || nothing > 256 || known < KNOWN || known > KNOWN + 64)
        fail("the meter: %zu bytes for nothing, %zu for a frame of %d", nothing, known, KNOWN);
}

static size_t measure(const measured *call) {
    use_engine(false);
    size_t baseline = depth(call->play, call->numbers->name);
    use_engine(true);
    met = 0;
    size_t reached = depth(call->play, call->numbers->name);
    all_met(call->numbers, met);
    return reached - baseline + sizeof(void *) + call->by_value;
}

static void measure_all(void) {
    bool right = true;
    size_t used[CALLS];
    for (int i = 0; i < CALLS; i++)
        used[i] = measure(&calls[i]);
    printf("boundary: bytes of stack, measured/header:");
    for (int i = 0; i < CALLS; i++) {
        printf(" %s %zu/%zu", calls[i].numbers->name, used[i], calls[i].header);
        right = right && used[i] <= calls[i].header && (calls[i].header <= 2 * used[i] || calls[i].header == LEAST);
    }
    printf("\n");
    if (!right)
        fail("a figure of the header is under what was measured, or over twice that and not %d", LEAST);
}

int main(void) {
    struct sigaction action = {.sa_handler = overflowed, .sa_flags = SA_ONSTACK};
    uint8_t *guard = mmap(NULL, GUARD + STACK, PROT_READ | PROT_WRITE, MAP_PRIVATE | MAP_ANONYMOUS, -1, 0);
    if (guard == MAP_FAILED || mprotect(guard, GUARD, PROT_NONE) != 0 || sigaction(SIGSEGV, &action, NULL) != 0)
        fail("no stack");
    low = guard + GUARD;
    make_inputs();
    try_meter();
    measure_all();
    fflush(stdout);
    for (int i = 0; i < CALLS; i++)
        on_thread(2 * calls[i].header, calls[i].play, calls[i].numbers->name);
    printf("boundary: each of %d calls on a thread with twice the header's stack and no more: no overflow\n", CALLS);
    return 0;
}
