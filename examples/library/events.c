/* The emulator of emulator.c, an event a call. The device's model may take its time: where a transaction is asked, the emulator keeps the
 * ask, goes on with other work, and calls again once the model has answered. Between these calls all of the controller is saved and
 * restored, so that a snapshot may be taken while a transaction is under way. */
#include "world.h"

/* What waits for the device's model. */
struct pending {
    bool is;
    struct ehci_ask ask;
    uint8_t out[1024];
};

static struct ehci_whole hc;
static struct world world = {0, EHCI_DATA0, EHCI_DATA0, 0, 0, {0}, false, 0};
static unsigned done[4], snapshots, waits;

/* A save and a load, by way of the bytes of a file. */
static void save_and_load(void) {
    static unsigned char file[sizeof hc + sizeof ram];
    memcpy(file, &hc, sizeof hc);
    memcpy(file + sizeof hc, ram, sizeof ram);
    memset(&hc, 0xa5, sizeof hc);
    memset(ram, 0xa5, sizeof ram);
    memcpy(&hc, file, sizeof hc);
    memcpy(ram, file + sizeof hc, sizeof ram);
    snapshots++;
}

/* One turn of the emulator: an event without an answer, or with that of the pending transaction. */
static uint32_t turn(struct pending *pending) {
    struct ehci_answer answer = ehci_silent();
    uint8_t bytes[1024];
    bool given = pending->is;
    if (given)
        answer = bus(&world, &pending->ask, pending->out, bytes);
    pending->is = false;
    uint32_t kind = ehci_step(&hc, ram, 8192, &answer, given, bytes, sizeof bytes, &pending->ask, pending->out, sizeof pending->out);
    if (kind == EHCI_STEP_WANTS_BUS) {
        pending->is = true;
        waits++;
        save_and_load();
    }
    return kind;
}

static void run(void) {
    struct pending pending = {false, {0}, {0}};
    for (uint32_t kind = EHCI_IDLE; kind != EHCI_END || world.microframe < MICROFRAMES;) {
        kind = turn(&pending);
        if (kind == EHCI_BEGIN_MICROFRAME)
            world.microframe++;
        if (kind == EHCI_IDLE || kind > EHCI_STEP_WANTS_BUS)
            return;
        for (int i = 0; kind == EHCI_END && i < 4; i++)
            if (done[i] == 0 && (get(tokens[i]) & 0x80) == 0)
                done[i] = world.microframe;
        if (kind == EHCI_END && ehci_interrupts(&hc.registers))
            ehci_whole_write(&hc, 0x04, ehci_read(&hc.registers, 0x04) & 0x3f); /* the guest's handler clears what stands */
    }
}

int main(void) {
    write_schedule();
    ehci_whole_reset(&hc);
    ehci_whole_write(&hc, 0x08, 0x3f);       /* USBINTR */
    ehci_whole_write(&hc, 0x14, 0);          /* PERIODICLISTBASE */
    ehci_whole_write(&hc, 0x18, 0x1000);     /* ASYNCLISTADDR */
    ehci_whole_write(&hc, 0x40, 1);          /* CONFIGFLAG */
    ehci_whole_write(&hc, 0x00, 0x00080031); /* USBCMD: Run, both schedules */
    run();
    print_done(done, &world);
    printf("transactions that waited: %s, each over a snapshot: %s\n", waits > 0 ? "some" : "none", waits == snapshots ? "yes" : "no");
    return 0;
}
