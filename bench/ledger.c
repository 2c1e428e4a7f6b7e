/*
 * ledger ROUNDS OPEN: with so many TX open, so many rounds of a PING that is opened and answered. Each round
 * the ledger gives a tag and a line, and tells the command of the OK. The same by a table in plain C, where the
 * first argument is "plain". It prints a sum, the same for both.
 */
#include "donglora.h"

#include <stdio.h>
#include <stdlib.h>
#include <string.h>

/* Plain C: a table of open commands, and the last tag. */
static struct {
    uint8_t open, command;
    uint16_t tag;
} table[16];

static uint16_t last;

static int owner(uint16_t tag)
{
    for (int i = 0; i < 16; i++)
        if (table[i].open && table[i].tag == tag)
            return i;
    return -1;
}

static __attribute__((noinline)) uint16_t plain_open(uint8_t command, uint8_t *line)
{
    for (uint8_t i = 0; i < 16; i++) {
        if (table[i].open)
            continue;
        do
            last++;
        while (last == 0 || owner(last) >= 0);
        table[i].open = 1;
        table[i].command = command;
        table[i].tag = last;
        *line = i;
        return last;
    }
    return 0;
}

static __attribute__((noinline)) uint8_t plain_answer(uint16_t tag)
{
    int i = owner(tag);

    if (i < 0)
        return 0;
    table[i].open = 0;
    return table[i].command;
}

int main(int count, char **words)
{
    int plain = count == 4 && strcmp(words[1], "plain") == 0;
    unsigned long rounds, before, sum = 0;
    uint32_t ledger[DONGLORA_LEDGER_WORDS];
    uint16_t tag = 0;
    uint8_t line = 0;

    if (count < 3)
        return 1;
    rounds = strtoul(words[count - 2], NULL, 10);
    before = strtoul(words[count - 1], NULL, 10);
    donglora_ledger_new(ledger);
    for (unsigned long i = 0; i < before; i++) {
        plain_open(DONGLORA_TX, &line);
        donglora_ledger_open(ledger, DONGLORA_TX, &tag, &line);
    }
    for (unsigned long i = 0; i < rounds; i++) {
        if (plain) {
            tag = plain_open(DONGLORA_PING, &line);
            sum += tag + line + plain_answer(tag);
        } else {
            donglora_ledger_open(ledger, DONGLORA_PING, &tag, &line);
            sum += tag + line + donglora_ledger_answer(ledger, DONGLORA_OK, tag).command;
        }
    }
    printf("%lu\n", sum);
    return 0;
}
