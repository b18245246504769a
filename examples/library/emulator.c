/* A tiny emulator around the controller, a microframe a call, over the world of world.h. */
#include "world.h"

static void run(struct ehci *hc, struct world *world, unsigned last, unsigned done[4]) {
    while (world->microframe < last) {
        uint32_t events;
        world->microframe++;
        if (ehci_microframe_on(hc, ram, 8192, bus, world, &events) != EHCI_MADE)
            return;
        for (int i = 0; i < 4; i++)
            if (done[i] == 0 && (get(tokens[i]) & 0x80) == 0)
                done[i] = world->microframe;
        if (ehci_interrupts(hc))
            ehci_write(hc, 0x04, ehci_read(hc, 0x04) & 0x3f); /* the guest's handler clears what stands */
    }
}

/* Goes back to a snapshot, which is a copy of three variables, and makes the rest again: whether it ends with the same. */
static bool comes_again(const struct ehci *hc, struct ehci then, struct world world, const uint32_t *words) {
    static uint32_t end[8192];
    unsigned done[4] = {1, 1, 1, 1};
    memcpy(end, ram, sizeof end);
    memcpy(ram, words, sizeof ram);
    run(&then, &world, MICROFRAMES, done);
    return memcmp(end, ram, sizeof end) == 0 && memcmp(hc, &then, sizeof then) == 0;
}

static void start(struct ehci_whole *hc) {
    ehci_whole_reset(hc);
    ehci_whole_write(hc, 0x08, 0x3f);       /* USBINTR */
    ehci_whole_write(hc, 0x14, 0);          /* PERIODICLISTBASE */
    ehci_whole_write(hc, 0x18, 0x1000);     /* ASYNCLISTADDR */
    ehci_whole_write(hc, 0x40, 1);          /* CONFIGFLAG */
    ehci_whole_write(hc, 0x00, 0x00080031); /* USBCMD: Run, both schedules */
}

/* Makes it all again, an event a call: whether it ends with the same words. */
static bool comes_by_events(void) {
    static uint32_t end[8192];
    static struct world world = {0, EHCI_DATA0, EHCI_DATA0, 0, 0, {0}, false, 0};
    struct ehci_whole hc;
    memcpy(end, ram, sizeof end);
    memset(ram, 0, sizeof ram);
    write_schedule();
    start(&hc);
    for (world.microframe = 1; world.microframe <= MICROFRAMES; world.microframe++) {
        uint32_t kind;
        while ((kind = ehci_step_on(&hc, ram, 8192, bus, &world)) < EHCI_END)
            if (kind == EHCI_IDLE)
                return false;
        if (ehci_interrupts(&hc.registers))
            ehci_whole_write(&hc, 0x04, ehci_read(&hc.registers, 0x04) & 0x3f);
    }
    return memcmp(end, ram, sizeof end) == 0;
}

int main(void) {
    static struct world world = {0, EHCI_DATA0, EHCI_DATA0, 0, 0, {0}, false, 0}, world_then;
    static uint32_t ram_then[8192];
    struct ehci hc, then;
    unsigned done[4] = {0, 0, 0, 0};
    write_schedule();
    ehci_reset(&hc);
    ehci_write(&hc, 0x08, 0x3f);       /* USBINTR */
    ehci_write(&hc, 0x14, 0);          /* PERIODICLISTBASE */
    ehci_write(&hc, 0x18, 0x1000);     /* ASYNCLISTADDR */
    ehci_write(&hc, 0x40, 1);          /* CONFIGFLAG */
    ehci_write(&hc, 0x00, 0x00080031); /* USBCMD: Run, both schedules */
    run(&hc, &world, 2, done);
    then = hc, world_then = world;
    memcpy(ram_then, ram, sizeof ram);
    run(&hc, &world, MICROFRAMES, done);
    print_done(done, &world);
    printf("from a snapshot of microframe 2: %s\n", comes_again(&hc, then, world_then, ram_then) ? "same" : "different");
    printf("an event a call: %s\n", comes_by_events() ? "same" : "different");
    printf("FRINDEX %04x USBSTS %04x\n", ehci_read(&hc, 0x0c), ehci_read(&hc, 0x04));
    return 0;
}
