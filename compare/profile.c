/* Where a frame's time goes, function by function: profile FILE ROUNDS decodes a stream so many times and prints, a
 * thousand times a second of processor time, the address that was being executed. steps/profile names the addresses. */
#define _GNU_SOURCE
#include "tag.h"
#include <signal.h>
#include <stdio.h>
#include <stdlib.h>
#include <sys/time.h>
#include <ucontext.h>

static uint8_t stream[TAG_STREAM];
static float memory[TAG_MEMORY], output[TAG_OUTPUT];
static uintptr_t seen[1 << 20];
static volatile size_t count;

static void look(int number, siginfo_t *information, void *context) {
    const ucontext_t *c = context;
    (void)number, (void)information;
    if (count == sizeof seen / sizeof seen[0])
        return;
#if defined __aarch64__
    seen[count++] = c->uc_mcontext.pc;
#elif defined __x86_64__
    seen[count++] = (uintptr_t)c->uc_mcontext.gregs[REG_RIP];
#else
#error "where does this processor keep the address that it executes?"
#endif
}

static void play(size_t length) {
    struct tag_state s;
    struct tag_frame frame;
    tag_state_open(&s, stream, length, memory, TAG_MEMORY, 0);
    while (tag_state_decode(&s, stream, length, memory, TAG_MEMORY, output, TAG_OUTPUT, &frame) == TAG_SUCCEEDED) {
    }
}

int main(int words, char **word) {
    FILE *file = words == 3 ? fopen(word[1], "rb") : NULL;
    if (file == NULL)
        return 2;
    size_t length = fread(stream, 1, sizeof stream, file);
    fclose(file);
    struct sigaction action = {.sa_sigaction = look, .sa_flags = SA_SIGINFO | SA_RESTART};
    struct itimerval every = {{0, 1000}, {0, 1000}};
    sigaction(SIGPROF, &action, NULL);
    setitimer(ITIMER_PROF, &every, NULL);
    for (int round = atoi(word[2]); round > 0; round--)
        play(length);
    every.it_value.tv_usec = 0;
    setitimer(ITIMER_PROF, &every, NULL);
    for (size_t i = 0; i < count; i++)
        printf("%016zx\n", (size_t)seen[i]);
    return 0;
}
