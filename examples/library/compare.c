/* compare IMAGE ANSWERS microframes|runs|events N OUT: makes N microframes, or N in runs of some events a call, or N events a call each, over
 * the words of a memory image (docs/FORMATS.md) and a bus that gives the answers of a file, each where the transaction that it answers is asked, writes the words to OUT,
 * and prints how many events that were, and how many transactions no record answers.
 *
 * ANSWERS has a record for each transaction, numbers with the low byte first: the token's packet identifier, address and endpoint (a byte
 * each), 0 plain, 1 start-split or 2 complete-split, the answer's kind and packet identifier, two bytes of its length, and its bytes. */
#include "ehci_bus.h"

#include <stdio.h>
#include <stdlib.h>

static uint8_t *file_of(const char *name, size_t *len) {
    FILE *file = fopen(name, "rb");
    uint8_t *bytes = malloc(1 << 24);
    if (!file || !bytes)
        exit(2);
    *len = fread(bytes, 1, 1 << 24, file);
    fclose(file);
    return bytes;
}

static uint32_t word_of(const uint8_t *at) { return at[0] | at[1] << 8 | at[2] << 16 | (uint32_t)at[3] << 24; }

struct records {
    const uint8_t *bytes;
    size_t len, at;
    unsigned differ; /* transactions that no record answers */
};

static struct ehci_answer bus(void *user, const struct ehci_ask *ask, const uint8_t *out, uint8_t *data) {
    struct records *records = user;
    const uint8_t *it = records->bytes + records->at;
    (void)out;
    if (records->at + 8 > records->len || it[0] != ask->pid || it[1] != ask->address || it[2] != ask->endpoint || it[3] != ask->split) {
        records->differ++;
        return ehci_silent();
    }
    uint16_t len = (uint16_t)(it[6] | it[7] << 8);
    records->at += 8u + len;
    if (it[4] == EHCI_DATA) {
        memcpy(data, it + 8, len);
        return ehci_data(it[5], len);
    }
    return it[4] == EHCI_HANDSHAKE ? ehci_handshake(it[5]) : ehci_silent();
}

/* A controller as the program's after the stores: it runs, and both schedules are on. */
static void set_registers(struct ehci_whole *hc, const uint8_t *image) {
    ehci_whole_reset(hc);
    ehci_whole_write(hc, 0x0c, word_of(image + 8));
    ehci_whole_write(hc, 0x14, word_of(image + 12));
    ehci_whole_write(hc, 0x18, word_of(image + 16));
    ehci_whole_write(hc, 0x00, 0x00080031);
}

static unsigned long make_microframes(struct ehci *hc, uint32_t *words, uint32_t n, struct records *records, int count) {
    unsigned long total = 0;
    for (int i = 0; i < count; i++) {
        uint32_t events;
        if (ehci_microframe_on(hc, words, n, bus, records, &events) != EHCI_MADE)
            exit(1);
        total += events;
    }
    return total;
}

/* As many events a call as are left of a number from 1 to 23, so that runs end anywhere in a microframe. */
static unsigned long make_runs(struct ehci_whole *hc, uint32_t *words, uint32_t n, struct records *records, int count) {
    unsigned long total = 0;
    for (uint32_t turn = 0; count > 0; turn++) {
        uint32_t events = 1 + turn * 7 % 23;
        uint32_t ran = ehci_run_on(hc, words, n, bus, records, &events);
        if (ran != EHCI_END && ran != EHCI_RUN_ON)
            exit(1);
        total += events;
        count -= ran == EHCI_END;
    }
    return total;
}

static unsigned long make_events(struct ehci_whole *hc, uint32_t *words, uint32_t n, struct records *records, int count) {
    for (int i = 0; i < count; i++)
        if (ehci_step_on(hc, words, n, bus, records) > EHCI_END)
            exit(1);
    return (unsigned long)count;
}

int main(int argc, char **argv) {
    size_t len;
    struct records records = {0, 0, 0, 0};
    struct ehci_whole hc;
    if (argc != 6)
        return 2;
    uint8_t *image = file_of(argv[1], &len);
    records.bytes = file_of(argv[2], &records.len);
    uint32_t n = word_of(image + 20);
    uint32_t *words = malloc(4 * (size_t)n);
    FILE *file = fopen(argv[5], "wb");
    if (!words || !file || len != 24 + 4 * (size_t)n)
        return 2;
    for (uint32_t i = 0; i < n; i++)
        words[i] = word_of(image + 24 + 4 * (size_t)i);
    set_registers(&hc, image);
    int count = atoi(argv[4]);
    unsigned long total = strcmp(argv[3], "events") == 0 ? make_events(&hc, words, n, &records, count)
                          : strcmp(argv[3], "runs") == 0 ? make_runs(&hc, words, n, &records, count)
                                                         : make_microframes(&hc.registers, words, n, &records, count);
    for (uint32_t i = 0; i < n; i++)
        for (int j = 0; j < 4; j++)
            fputc(words[i] >> 8 * j & 0xff, file);
    fclose(file);
    printf("%lu %u\n", total, records.differ);
    free(image), free((void *)records.bytes), free(words);
    return 0;
}
