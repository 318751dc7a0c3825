/* Plays something on a stack of its own and says how many bytes of that stack were written, from its top down. */
#include <stddef.h>
#include <stdint.h>
#include <ucontext.h>

enum { CELLS = 8192 };
static const uint64_t PAINT = 0xA5C3A5C3A5C3A5C3;

static _Alignas(16) uint64_t stack[CELLS];
static ucontext_t host, player;
static void (*play)(void *);
static void *played;
static size_t written;

/* What is written is looked for here, since the way back to the host writes on this stack too. */
static void start(void) {
    play(played);
    size_t untouched = 0;
    while (untouched < CELLS && stack[untouched] == PAINT) untouched++;
    written = (CELLS - untouched) * sizeof stack[0];
}

size_t stack_written(void (*how)(void *), void *what) {
    play = how;
    played = what;
    for (size_t i = 0; i < CELLS; i++) stack[i] = PAINT;
    getcontext(&player);
    player.uc_stack.ss_sp = stack;
    player.uc_stack.ss_size = sizeof stack;
    player.uc_link = &host;
    makecontext(&player, start, 0);
    swapcontext(&host, &player);
    return written;
}
