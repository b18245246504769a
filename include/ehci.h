/* ehci.h: a verified EHCI host controller (Enhanced Host Controller Interface 1.0) for emulators, a microframe or
 * an event a call.
 *
 * All state is plain data of the caller: copy it, compare it, save it, restore it. No call calls back, none keeps a pointer, none
 * touches anything but what it is passed, and each ends, whatever words stand in memory. What is said of a call here is proved of its
 * body; docs/LIBRARY.md shows the use in an emulator.
 *
 * Link with libehci.a, which calls malloc, realloc and free (ehci_microframe makes one copy of the words at a time), and C's memory
 * functions.
 */
#ifndef EHCI_H
#define EHCI_H

#include <stdbool.h>
#include <stddef.h>
#include <stdint.h>

#ifdef __cplusplus
extern "C" {
#endif

/* All of a controller between two microframes: the words of its operational registers (EHCI 1.0, 2.3), and where in the ring it goes on.
 * `ring` is ASYNCLISTADDR as the driver wrote it; `cursor` the byte address of the queue head at which the walk of the ring goes on, 0 for
 * `ring`. PORTSC isn't there: the one root port is connected, enabled and powered for ever. */
struct ehci {
    uint32_t command, status, interrupt_enable, frame_index, list, ring, configured, cursor;
};

/* Packet identifiers (USB 2.0, 8.3.1). */
enum {
    EHCI_OUT = 1, EHCI_IN = 9, EHCI_SETUP = 13, EHCI_PING = 4,
    EHCI_DATA0 = 3, EHCI_DATA1 = 11, EHCI_DATA2 = 7, EHCI_MDATA = 15,
    EHCI_ACK = 2, EHCI_NAK = 10, EHCI_STALL = 14, EHCI_NYET = 6, EHCI_ERR = 12
};
enum { EHCI_FULL, EHCI_LOW, EHCI_HIGH };                           /* speed */
enum { EHCI_CONTROL, EHCI_ISO, EHCI_BULK, EHCI_INTERRUPT };        /* kind */
enum { EHCI_PLAIN, EHCI_START, EHCI_COMPLETE };                    /* split */
enum { EHCI_ALL, EHCI_BEGIN, EHCI_MIDDLE, EHCI_LAST };             /* part of the data of a start-split of an isochronous OUT */

/* One transaction that the controller asks of the bus. `toggle` is the identifier of the data that are sent or expected, `limit` the most
 * bytes that the host can take, `out_len` how many bytes it sends. A split goes to the translator of `hub` for its `port`. */
struct ehci_ask {
    uint8_t pid, address, endpoint, speed, kind, toggle, split, hub, port, part;
    uint16_t limit, out_len;
};

/* What the host hears in one transaction: a handshake, a data packet of `len` bytes (at most 1,024) from bytes[start] on, or nothing that
 * it can use. So it hears nothing also of another kind, of a `pid` that no packet has, and of data that aren't whole among the bytes. */
enum { EHCI_SILENT, EHCI_HANDSHAKE, EHCI_DATA };
struct ehci_answer {
    uint8_t kind, pid;
    uint16_t len;
    uint32_t start;
};

/* A controller after a reset: halted, with a threshold of 8 microframes (2.3). */
void ehci_reset(struct ehci *);

/* What a driver reads at an offset in bytes from the first operational register, 00h USBCMD to 44h PORTSC; all ones where there is none.
 * The capability registers are the emulator's: one port, 64-bit addressing 0, programmable frame list 1, no park mode. */
uint32_t ehci_read(const struct ehci *, uint32_t offset);

/* A driver's write of a word there: each bit takes it as its row of 2.3 says; nothing changes where there is no register. HCReset resets
 * at once; it and a write of ASYNCLISTADDR have the walk of the ring begin anew. */
void ehci_write(struct ehci *, uint32_t offset, uint32_t word);

/* Whether the interrupt line is up: a bit of USBSTS stands whose bit of USBINTR stands (4.15). The interrupt threshold isn't kept: the
 * line is up as soon as the microframe is made. */
bool ehci_interrupts(const struct ehci *);

enum {
    EHCI_HALTED,      /* Run is 0 */
    EHCI_MADE,        /* a microframe was made */
    EHCI_WANTS_BUS,   /* a transaction is asked that has no answer */
    EHCI_LONG,        /* the microframe has more events than were allowed */
    EHCI_UNFIT,       /* the number of words, or of bytes of room, is out of its range */
    EHCI_NO_MEMORY    /* there was no memory for a copy of the words */
};

/* Makes one microframe (4.6 to 4.12), of at most `*events` events, over `n` words of memory from address 0 on, all of which the controller
 * may read and write, and a bus that gives these answers, one to each transaction in its turn.
 *
 * EHCI_MADE: FRINDEX was stepped, the periodic list and then the ring were walked, each event one row of the controller's table, each
 * transaction with its own answer; `*events` tells how many events that were. Where a structure can't be read, or an address lies past the
 * last word, the microframe ended in a host system error: USBSTS has it, and Run is 0 (4.15.2.4).
 * EHCI_WANTS_BUS: after that many answers the controller asks `*ask`, and sends the first `ask->out_len` bytes of `out`; it would make no
 * other transaction there. Call again with the same answers and one more.
 * EHCI_LONG: a ring without a head, or a chain that is a circle, has no end. A microframe over a driver's own lists has some hundred events,
 * and 100,000 are enough for any but the largest.
 *
 * But for EHCI_MADE the state and the words stay as they were. `n` is 1,024 to 262,144, in steps of 1,024; `out` has room for 1,024
 * bytes or more. No two of what is passed overlap; `answers`, `bytes` and `ask` are never null. */
uint32_t ehci_microframe(struct ehci *, uint32_t *words, size_t n, const struct ehci_answer *answers, size_t count, const uint8_t *bytes,
                         size_t len, uint32_t *events, struct ehci_ask *ask, uint8_t *out, size_t room);

/* ---- One event a call, or several ---- */

/* What follows is the state in the middle of a microframe, as words that a chip holds and numbers. A caller copies it, saves it, restores
 * it; what it has to look at is `registers`, with the calls above. A number that names nothing counts as 0. */

/* What was heard in the last transaction, as in struct ehci_answer, with its bytes. */
struct ehci_heard {
    uint8_t kind, pid;
    uint16_t len;
    uint8_t bytes[1024];
};

/* The copy of a queue head (3.6): its address, its words, what its transaction came to (1 bytes moved, 2 a repetition, 3 NAK, 4 a wait, 5 an
 * error, 6 a halt by STALL, 7 by errors, 8 by a babble, 9 by a miss, 10 by a cancel; 0 it wasn't made), how many were made in this visit. */
struct ehci_queue {
    uint32_t at, words[12];
    uint8_t settled, made;
    uint16_t moved;
};

/* The copy of an iTD (3.3): its address, its words, the word of the microframe with what was recorded; the number of the microframe, the
 * transactions made, the packets to come; 1 whole, 2 ended by an error, 0 it goes on; the bytes moved. */
struct ehci_itd {
    uint32_t at, words[16], slot;
    uint8_t number, made, rest, ended;
    uint16_t moved, spare;
};

/* The copy of a siTD (3.4): its address, its words; 1 bytes moved, 2 none, 3 an error, 0 its transaction wasn't made. */
struct ehci_sitd {
    uint32_t at, words[7];
    uint16_t settled, moved;
};

/* What is in hand of a frame's chain: 1 a queue head, 2 an iTD, 3 a siTD, 0 nothing. */
struct ehci_hand {
    uint32_t kind;
    struct ehci_queue queue;
    struct ehci_itd itd;
    struct ehci_sitd sitd;
};

/* The walk of a frame's chain (4.6): the time left in picoseconds, the link that comes next or is in hand, FRINDEX of the microframe, the
 * bytes that an iTD in hand received. */
struct ehci_frame {
    uint64_t left;
    uint32_t cursor;
    uint16_t index, got_len;
    struct ehci_hand hand;
    struct ehci_heard heard;
    uint8_t got[3072];
};

/* The walk of the ring (4.8): the time left, the link that comes next or is in hand, which counts where `begun` is 1 (else that is
 * ASYNCLISTADDR); when NAKs are counted anew (4.9): 0 from the head of the ring on, 1 now, 2 in the next microframe; whether this is the
 * first event of the part; whether a queue head is in hand. */
struct ehci_ring {
    uint64_t left;
    uint32_t cursor;
    uint8_t begun, mode, first, holds;
    struct ehci_queue queue;
    struct ehci_heard heard;
};

/* All of a controller between two events: its registers, of which `cursor` counts for nothing, and the walks. `part` is 0 between two
 * microframes, 1 in the periodic part, 2 in the asynchronous part. ehci_read and ehci_interrupts take `&whole.registers`. */
struct ehci_whole {
    struct ehci registers;
    uint32_t part;
    struct ehci_frame frame;
    struct ehci_ring ring;
};

/* A controller after a reset: halted, between two microframes. */
void ehci_whole_reset(struct ehci_whole *);

/* A driver's write between two events, as ehci_write's: HCReset has all begin anew, a write of ASYNCLISTADDR the walk of the ring. */
void ehci_whole_write(struct ehci_whole *, uint32_t offset, uint32_t word);

enum {
    EHCI_IDLE,              /* Run is 0: nothing changed */
    EHCI_BEGIN_MICROFRAME,  /* a microframe began (4.6) */
    EHCI_FETCH,             /* a structure was read into the copy in hand (4.10.1) */
    EHCI_ADVANCE,           /* the overlay was made from a qTD and written (4.10.2) */
    EHCI_TRANSACT,          /* one transaction was made (4.10.3) */
    EHCI_WRITE_BACK,        /* what it came to was written (4.10.4) */
    EHCI_SKIP,              /* there was nothing to do at the structure in hand */
    EHCI_END,               /* the microframe is over, or a host system error ended it */
    EHCI_STEP_WANTS_BUS,    /* a transaction is asked that has no answer */
    EHCI_STEP_UNFIT,        /* more words than 4 GiB - 32 bytes have, too little room, or no controller has this state */
    EHCI_RUN_ON             /* of ehci_run: as many events as were allowed were made, and the microframe isn't over */
};

/* Makes one event: the row of the controller's table over the registers and the words that are passed, which are memory from address 0 on.
 * They are as many as the caller likes, up to 1,073,741,816, and the event is made in them as they stand: nothing is copied. The controller
 * reaches each whole block of eight words, and what lies past them is a host system error. `answers` has no answer or one; a row asks at
 * most once.
 *
 * Up to EHCI_END: the event was made, the state is that of the controller after it, and the words are those that the row leaves.
 * EHCI_STEP_WANTS_BUS: the row asks `*ask`, and sends the first `ask->out_len` bytes of `out`. Call again with the answer, at once or later:
 * the state is the whole of it, so what asks may wait, and be saved, as long as it likes.
 *
 * From EHCI_STEP_WANTS_BUS on the state and the words stay as they were. `out` has room for 1,024 bytes or more. What is said of pointers at
 * ehci_microframe holds. */
uint32_t ehci_step(struct ehci_whole *, uint32_t *words, size_t n, const struct ehci_answer *answers, size_t count, const uint8_t *bytes,
                   size_t len, struct ehci_ask *ask, uint8_t *out, size_t room);

/* Makes events as ehci_step does, in the words as they stand, each transaction with its own answer in its turn: until one ends the
 * microframe, the next asks what has no answer, or `*events` were made. The state and the words are those that so many calls of ehci_step
 * leave, and what is in the struct is read and written once. `*events` tells how many were made, `*used` how many answers they took; the
 * others were not looked at.
 *
 * EHCI_IDLE: Run is 0, and nothing changed; both numbers are 0.
 * EHCI_END: the last of these events was the End of the microframe, or a host system error ended it.
 * EHCI_STEP_WANTS_BUS: all answers were taken, so that `*used` is `count`, and the next event asks `*ask`, and sends the first
 * `ask->out_len` bytes of `out`. It isn't made: the state and the words are those before it. Call again with its answer.
 * EHCI_STEP_UNFIT: as of ehci_step; nothing changed, and both numbers are 0.
 * EHCI_RUN_ON: `*events` were made, and the microframe isn't over. Of a ring without a head that is so however many are allowed.
 *
 * What is said of words, `out` and pointers at ehci_step holds. */
uint32_t ehci_run(struct ehci_whole *, uint32_t *words, size_t n, const struct ehci_answer *answers, size_t count, const uint8_t *bytes,
                  size_t len, uint32_t *events, size_t *used, struct ehci_ask *ask, uint8_t *out, size_t room);

#ifdef __cplusplus
}
#endif
#endif
