/* What the calls do at their edges: each line says what came, and whether nothing else changed. */
#include "ehci_bus.h"
#include "schedule.h"

#include <stdio.h>

static struct ehci hc;
static struct ehci_whole whole;
static struct ehci_ask ask;
static uint8_t out[1024];
static const uint8_t bytes[4] = {1, 2, 3, 4};

/* A ring at 1000h of one queue head with the qTD at 1080h; `head` is bit 15 of its characteristics. */
static void begin(uint32_t link, uint32_t head, uint32_t command) {
    memset(ram, 0, sizeof ram);
    for (int frame = 0; frame < 1024; frame++)
        ram[frame] = 1;
    queue_head(0x1000, link, 0x02002103 | head, 0x40000000, 0x1080);
    qtd(0x1080, 1, 512u << 16 | 0x0d80, 0x2000);
    ehci_reset(&hc);
    ehci_write(&hc, 0x18, 0x1000);
    ehci_write(&hc, 0x00, command);
}

/* Makes a call, and prints what came of it. */
static void call(const char *name, size_t n, const struct ehci_answer *answers, size_t count, size_t room, uint32_t most) {
    static uint32_t before[8192];
    static const char *results[] = {"halted", "made", "wants bus", "long", "unfit", "no memory"};
    struct ehci then = hc;
    memcpy(before, ram, sizeof ram);
    uint32_t ran = ehci_microframe(&hc, ram, n, answers, count, bytes, sizeof bytes, &most, &ask, out, room);
    bool same = memcmp(before, ram, sizeof ram) == 0 && memcmp(&then, &hc, sizeof hc) == 0;
    printf("%s: %s, %s, USBSTS %04x, token %08x\n", name, results[ran], same ? "same" : "changed", ehci_read(&hc, 4), get(0x1018));
}

/* Makes a call of several events, and prints what came of it. */
static void run(const char *name, const struct ehci_answer *answers, size_t count, size_t room, uint32_t most) {
    static uint32_t before[8192];
    static const char *results[] = {"idle", "", "", "", "", "", "", "end", "wants bus", "unfit", "on"};
    static struct ehci_whole then;
    uint32_t events = most;
    size_t used;
    then = whole;
    memcpy(before, ram, sizeof ram);
    uint32_t ran = ehci_run(&whole, ram, 8192, answers, count, bytes, sizeof bytes, &events, &used, &ask, out, room);
    bool same = memcmp(before, ram, sizeof ram) == 0 && memcmp(&then, &whole, sizeof whole) == 0;
    printf("%s: %s, %s, %u events, %zu answers, USBSTS %04x, token %08x\n", name, results[ran], same ? "same" : "changed", events, used,
           ehci_read(&whole.registers, 4), get(0x1018));
}

static void begin_whole(uint32_t command) {
    begin(0x1002, 0x8000, 0x00080020);
    ehci_whole_reset(&whole);
    ehci_whole_write(&whole, 0x18, 0x1000);
    ehci_whole_write(&whole, 0x00, command);
}

int main(void) {
    const struct ehci_answer nak = ehci_handshake(EHCI_NAK);
    const struct ehci_answer wrong[] = {{9, EHCI_NAK, 0, 0}, ehci_handshake(0), {EHCI_DATA, EHCI_DATA0, 5, 0}, {EHCI_DATA, EHCI_DATA0, 1, 4}};
    begin(0x1002, 0x8000, 0x00080020);
    call("not running", 8192, &nak, 1, 1024, 1000);
    begin(0x1002, 0x8000, 0x00080021);
    call("too few words", 1000, &nak, 1, 1024, 1000);
    call("no whole pages", 8191, &nak, 1, 1024, 1000);
    call("little room", 8192, &nak, 1, 1023, 1000);
    call("no answer", 8192, &nak, 0, 1024, 1000);
    printf("asks %u of %u.%u, at most %u bytes\n", ask.pid, ask.address, ask.endpoint, ask.limit);
    call("few events", 8192, &nak, 1, 1024, 3);
    call("silence three times", 8192, wrong, 4, 1024, 1000);
    begin(0x1002, 0x8000, 0x00080021);
    call("data that are not whole", 8192, wrong + 2, 2, 1024, 1000);
    begin(0x1002, 0, 0x00080021);
    set(0x1018, 0x40);
    call("a ring without a head", 8192, &nak, 1, 1024, 1000);
    begin(0x1002, 0x8000, 0x00080021);
    ehci_write(&hc, 0x14, 0x8000);
    call("a frame list past the words", 8192, &nak, 1, 1024, 1000);
    call("after it", 8192, &nak, 1, 1024, 1000);
    printf("no register: %08x\n", ehci_read(&hc, 0x1c));
    begin_whole(0x00080020);
    run("a run that is not running", &nak, 1, 1024, 1000);
    begin_whole(0x00080021);
    run("a run with little room", &nak, 1, 1023, 1000);
    run("a run of no event", &nak, 1, 1024, 0);
    run("a run of two events", &nak, 1, 1024, 2);
    run("a run without an answer", &nak, 0, 1024, 1000);
    run("and again", &nak, 0, 1024, 1000);
    run("a run with it", &nak, 1, 1024, 1000);
    begin_whole(0x00080021);
    run("a run with answers to spare", wrong, 4, 1024, 1000);
    begin_whole(0x00080021);
    ehci_whole_write(&whole, 0x14, 0x8000);
    run("a run over a frame list past the words", &nak, 1, 1024, 1000);
    run("a run after it", &nak, 1, 1024, 1000);
    return 0;
}
