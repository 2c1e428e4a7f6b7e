/*
 * board: how many instructions the events take on a microcontroller, in QEMU. The work is that of
 * bench/dongle.c, whose functions are taken in here. For each letter it prints a line: the letter, how
 * many bytes were written in 110 rounds, which is what dongle prints, and the instructions of the last
 * 100; for e also such a line for each event.
 *
 * RISC-V counts its instructions itself. On the board with a Cortex-M4 QEMU must be given -icount shift=10:
 * then each instruction takes 1024 ns of the board's time, and a counter of the board, which goes on every
 * 40 ns, tells how many there were.
 *
 * What is counted are the events alone. Each call is made twice, by the same instructions: first of an
 * empty function in the event's place, then of the event. What the second takes more is counted. So
 * neither the loops count, nor the passing of arguments, nor the reading of the counter.
 */
#include "donglora.h"

#include <stdio.h>
#include <string.h>

/* The counter, and how many ns its step and an instruction take. */
#ifdef __riscv
#define STEP_NS        1
#define INSTRUCTION_NS 1
static inline __attribute__((always_inline)) uint32_t counter(void)
{
    uint32_t n;

    __asm__ volatile(".option arch, +zicsr\ncsrr %0, minstret" : "=r"(n));
    return n;
}
#else
#define STEP_NS        40
#define INSTRUCTION_NS 1024
static inline __attribute__((always_inline)) uint32_t counter(void)
{
    return *(const volatile uint32_t *)0x40028018;
}
#endif

#define ROUNDS    110
#define UNCOUNTED 10

enum event { BYTE, TICK, DISCONNECT, CLEAR, BUSY, SENT, CONFIGURED, FAULT, PACKET, REQUEST, EVENTS };

static const char *const names[EVENTS] = {
    "byte", "tick", "disconnect", "clear", "busy", "sent", "configured", "fault", "packet", "request",
};

/* The instructions of each event so far. */
static uint32_t spent[EVENTS];

/* The empty function: its return alone. */
static __attribute__((naked, noinline)) void nothing(void)
{
#ifdef __riscv
    __asm__ volatile("ret");
#else
    __asm__ volatile("bx lr");
#endif
}

/* The call of nothing and that of an event took so many steps of the counter. */
static void spend(enum event event, uint32_t empty, uint32_t whole)
{
    spent[event] += 1 + ((whole - empty) * STEP_NS + INSTRUCTION_NS / 2) / INSTRUCTION_NS;
}

/* The index is volatile: so it is one instruction that makes both calls. */
#define COUNTED(event, function, ...)                                                           \
    do {                                                                                        \
        __typeof__(&function) const both[] = {(__typeof__(&function))nothing, function};        \
        uint32_t took[2];                                                                       \
        volatile int which;                                                                     \
        for (which = 0; which < 2; which++) {                                                   \
            __typeof__(&function) call = both[which];                                           \
            uint32_t began = counter();                                                         \
            call(__VA_ARGS__);                                                                  \
            took[which] = counter() - began;                                                    \
        }                                                                                       \
        spend(event, took[0], took[1]);                                                         \
    } while (0)

/* The events of dongle's rounds. */
#define donglora_byte(...)       COUNTED(BYTE, donglora_byte, __VA_ARGS__)
#define donglora_tick(...)       COUNTED(TICK, donglora_tick, __VA_ARGS__)
#define donglora_disconnect(...) COUNTED(DISCONNECT, donglora_disconnect, __VA_ARGS__)
#define donglora_clear(...)      COUNTED(CLEAR, donglora_clear, __VA_ARGS__)
#define donglora_busy(...)       COUNTED(BUSY, donglora_busy, __VA_ARGS__)
#define donglora_sent(...)       COUNTED(SENT, donglora_sent, __VA_ARGS__)
#define donglora_configured(...) COUNTED(CONFIGURED, donglora_configured, __VA_ARGS__)
#define donglora_fault(...)      COUNTED(FAULT, donglora_fault, __VA_ARGS__)
#define donglora_packet(...)     COUNTED(PACKET, donglora_packet, __VA_ARGS__)
#define donglora_request(...)    COUNTED(REQUEST, donglora_request, __VA_ARGS__)

#define main dongle_main
#include "dongle.c"
#undef main

/* Takes 2 n instructions and its return. */
static __attribute__((naked, noinline)) void spin(uint32_t n __attribute__((unused)))
{
#ifdef __riscv
    __asm__ volatile("1: addi a0, a0, -1\n bnez a0, 1b\n ret");
#else
    __asm__ volatile(".syntax unified\n1: subs r0, #1\n bne 1b\n bx lr");
#endif
}

/* No instruction was counted yet. */
static void forget(void)
{
    memset(spent, 0, sizeof spent);
}

/* Whether the counter tells the instructions of a loop, exactly. */
static int is_exact(void)
{
    uint32_t n;

    for (n = 1; n <= 100000; n *= 10) {
        forget();
        COUNTED(BYTE, spin, n);
        if (spent[BYTE] != 2 * n + 1) {
            printf("board: %lu instructions are counted as %lu: was QEMU given -icount shift=10?\n",
                   2 * (unsigned long)n + 1, (unsigned long)spent[BYTE]);
            return 0;
        }
    }
    return 1;
}

/* Prints what 100 rounds took: in all, and for e of each event. */
static void print(int what, uint64_t written)
{
    unsigned long all = 0;
    int i;

    for (i = 0; i < EVENTS; i++) {
        all += spent[i];
        if (what == 'e')
            printf("%s %llu %lu\n", names[i], (unsigned long long)written, (unsigned long)spent[i]);
    }
    printf("%c %llu %lu\n", what, (unsigned long long)written, all);
}

int main(void)
{
    const struct bytes all = all_bytes();
    const struct bytes ping = frame_of(DONGLORA_PING, NULL, 0);
    const struct bytes tx = tx_of(1, &all);
    const char *what;
    int i;

    if (!is_exact())
        return 1;
    for (what = "btpxkde"; *what != 0; what++) {
        struct count c = {0, 0};
        donglora_power_up(control, run, commands, packets);
        c = ready(*what, c);
        for (i = 0; i < ROUNDS; i++) {
            if (i == UNCOUNTED)
                forget();
            c = turn(*what, c, &ping, &tx, &all);
        }
        if (c.numbers != DONGLORA_TAKEN || answer.order != last_order(*what))
            return 1;
        print(*what, c.written);
    }
    return 0;
}
