/* What a microframe costs from C, in processor time: idle, and with eight packets of 512 bytes of a bulk IN, over 32 KiB and over 1 MiB; and
 * those packets over 32 KiB and over 64 MiB an event a call, a transaction a call, and in one call whose answers were written down before. */
#include "ehci_bus.h"

#include <stdio.h>
#include <time.h>

static uint32_t ram[16777216];
static unsigned long packets;

static struct ehci_answer bus(void *user, const struct ehci_ask *ask, const uint8_t *out, uint8_t *data) {
    (void)user, (void)out;
    packets++;
    memset(data, 7, 512);
    return ehci_data(ask->toggle, ask->limit < 512 ? ask->limit : 512);
}

static void set(uint32_t at, uint32_t word) { ram[at / 4] = word; }

static double now(void) { return 1e6 * clock() / CLOCKS_PER_SEC; }

static void lists(void) {
    for (int frame = 0; frame < 1024; frame++)
        ram[frame] = 1;
    set(0x1000, 0x1042), set(0x1004, 0x0040a000), set(0x1008, 0x40000000), set(0x1010, 1), set(0x1014, 1), set(0x1018, 0x40);
    set(0x1040, 0x1002), set(0x1044, 0x02002103), set(0x1048, 0x40000000), set(0x1050, 1), set(0x1054, 1), set(0x1058, 0x40);
}

static void refill(void) {
    set(0x10a0, 1), set(0x10a4, 1), set(0x10a8, 4096u << 16 | 0x0d80), set(0x10ac, 0x3000), set(0x10b0, 0x4000);
    set(0x1050, 0x10a0), set(0x1058, 0);
}

static void measure(size_t words, int busy, int turns) {
    struct ehci hc;
    uint32_t events;
    lists();
    ehci_reset(&hc);
    ehci_write(&hc, 0x18, 0x1000);
    ehci_write(&hc, 0x00, 0x00080021);
    packets = 0;
    double began = now();
    for (int turn = 0; turn < turns; turn++) {
        if (busy)
            refill();
        if (ehci_microframe_on(&hc, ram, words, bus, 0, &events) != EHCI_MADE)
            return;
    }
    printf("%zu bytes, %.0f packets a microframe: %.0f us\n", 4 * words, (double)packets / turns, (now() - began) / turns);
}

static void tell(const char *how, size_t words, int turns, unsigned long events, double took) {
    printf("%zu bytes, %.0f packets a microframe of %.0f events, %s: %.2f us, %.0f ns an event\n", 4 * words, (double)packets / turns,
           (double)events / turns, how, took / turns, 1000 * took / events);
}

static void begin(struct ehci_whole *hc) {
    lists();
    ehci_whole_reset(hc);
    ehci_whole_write(hc, 0x18, 0x1000);
    ehci_whole_write(hc, 0x00, 0x00080021);
    packets = 0;
}

static void measure_events(size_t words, int turns) {
    static struct ehci_whole hc;
    unsigned long events = 0;
    begin(&hc);
    double began = now();
    for (int turn = 0; turn < turns; turn++) {
        uint32_t kind;
        refill();
        while ((kind = ehci_step_on(&hc, ram, words, bus, 0)) < EHCI_END)
            events++;
        if (kind != EHCI_END)
            return;
        events++;
    }
    tell("an event a call", words, turns, events, now() - began);
}

static void measure_asked_runs(size_t words, int turns) {
    static struct ehci_whole hc;
    unsigned long events = 0;
    begin(&hc);
    double began = now();
    for (int turn = 0; turn < turns; turn++) {
        uint32_t made = EHCI_MOST_EVENTS;
        refill();
        if (ehci_run_on(&hc, ram, words, bus, 0, &made) != EHCI_END)
            return;
        events += made;
    }
    tell("a transaction a call", words, turns, events, now() - began);
}

static void measure_runs(size_t words, int turns) {
    static struct ehci_whole hc;
    static uint8_t bytes[4096], out[1024];
    struct ehci_answer answers[8];
    struct ehci_ask ask;
    unsigned long events = 0;
    begin(&hc);
    memset(bytes, 7, sizeof bytes);
    double began = now();
    for (int turn = 0; turn < turns; turn++) {
        uint32_t made = EHCI_MOST_EVENTS;
        size_t used;
        refill();
        for (int i = 0; i < 8; i++) {
            answers[i] = ehci_data(i % 2 ? EHCI_DATA1 : EHCI_DATA0, 512);
            answers[i].start = 512u * (uint32_t)i;
        }
        if (ehci_run(&hc, ram, words, answers, 8, bytes, sizeof bytes, &made, &used, &ask, out, sizeof out) != EHCI_END)
            return;
        packets += used;
        events += made;
    }
    tell("one call", words, turns, events, now() - began);
}

int main(void) {
    measure(8192, 0, 4000);
    measure(8192, 1, 2000);
    measure(262144, 0, 200);
    measure(262144, 1, 100);
    measure_events(8192, 1000);
    measure_events(16777216, 1000);
    measure_asked_runs(8192, 5000);
    measure_asked_runs(16777216, 5000);
    measure_runs(8192, 20000);
    measure_runs(16777216, 20000);
    return 0;
}
