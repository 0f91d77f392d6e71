/*
 * negotiated: seats and devices where a capability was not negotiated, in sessions that no call script reaches: with
 * the last ids, and with the words of a seat that somebody else has written. Scripts are in tests/negotiated. What is
 * answered was worked out by hand from the scope.
 *
 * The last line has the number of tests and of failures; the exit status is 1 where there are failures.
 */
#include "session.h"

/* Places of the control words: crates/control/src/layout.rt. */
enum { NEXT_ID = 2, SEAT_CAPABILITIES = 21, DEVICE_CAPABILITIES = 34 };
enum { KEYS = BOZTERRUN_CAPABILITY_KEYBOARD, TOUCH = BOZTERRUN_CAPABILITY_TOUCH, BOTH = KEYS | TOUCH, ALL = 127 };

static unsigned long tests, failures;
static bozterrun_session before;
static uint64_t seat;

static void check(bool holds, const char *what)
{
    tests++;
    if (!holds) {
        failures++;
        printf("FAILED: %s\n", what);
    }
}

/* A session whose client knows the keyboard and no other capability, and a seat that is given these. */
static void begin(uint64_t capabilities)
{
    static const char *const names[] = {"ei_connection", "ei_callback", "ei_pingpong", "ei_keyboard"};
    bozterrun_handshake handshake;
    must("handshake_new", bz_handshake_new(&handshake, 7, out, sizeof out, NULL));
    for (unsigned i = 0; i < 4; i++) {
        must("interface_version", bz_handshake_interface_version(&handshake, names[i], strlen(names[i]), 1));
    }
    must("finish", bz_handshake_finish(&handshake, &session, out, sizeof out, NULL));
    must("add_seat", bz_add_seat(&session, NULL, 0, capabilities, out, sizeof out, NULL, &seat));
}

/* A device with these capabilities, in so many bytes: its answer, its id, and the bytes that it wrote. */
static uint64_t id;
static size_t count;

static uint32_t add_device(uint64_t capabilities, size_t room)
{
    return bz_add_device(&session, seat, NULL, 0, BOZTERRUN_DEVICE_TYPE_VIRTUAL, capabilities, out, room, &count, &id);
}

static void refused(const char *what, uint32_t answer, uint32_t wanted)
{
    check(answer == wanted, what);
    check(memcmp(&session, &before, sizeof session) == 0, what);
}

static bool has(uint64_t device, uint64_t capability)
{
    uint64_t truth = 2;
    must("has_capability", bz_has_capability(&session, device, capability, &truth));
    return truth == 1;
}

/* 20 counts the ids of what is made: two of the three that a keyboard and a touchscreen take. */
static void last_ids(void)
{
    begin(BOTH);
    check(session.control[SEAT_CAPABILITIES] == KEYS, "the seat keeps what was negotiated");
    session.control[NEXT_ID] = UINT64_MAX - 2;
    check(add_device(BOTH, sizeof out) == BOZTERRUN_ACCEPTED, "two ids are left");
    check(id == UINT64_MAX - 2 && session.control[NEXT_ID] == UINT64_MAX, "and are taken");
    check(has(id, KEYS) && !has(id, TOUCH), "by the device and its keyboard");
    session.control[NEXT_ID] = UINT64_MAX - 1;
    before = session;
    refused("one id is left, two are needed", add_device(BOTH, sizeof out), BOZTERRUN_IDS_SPENT);
    check(add_device(TOUCH, sizeof out) == BOZTERRUN_ACCEPTED, "a device without an interface takes one");
    check(id == UINT64_MAX - 1 && count == 46, "in 46 bytes");

    /* The same, with a client that knows both. */
    begin_session(0, BOTH);
    check(session.control[SEAT_CAPABILITIES] == BOTH, "the seat keeps both");
    session.control[NEXT_ID] = UINT64_MAX - 2;
    before = session;
    refused("two ids are left, three are needed", add_device(BOTH, sizeof out), BOZTERRUN_IDS_SPENT);
}

/* A seat's words may say anything: no device gets an interface without a version, while Bind goes by the words. */
static void damaged_seats(void)
{
    static const uint64_t words[] = {BOTH, ALL, UINT64_MAX};
    for (unsigned i = 0; i < 3; i++) {
        begin(KEYS);
        session.control[SEAT_CAPABILITIES] = words[i];
        before = session;
        refused("68 bytes are too few", add_device(ALL, 68), BOZTERRUN_SHORT_OUT);
        check(add_device(ALL, 69) == BOZTERRUN_ACCEPTED && count == 69, "69 bytes are enough");
        check(session.control[DEVICE_CAPABILITIES] == KEYS, "the device was made with its keyboard alone");
        for (uint64_t bit = 1; bit < 128; bit *= 2) {
            check(has(id, bit) == (bit == KEYS), "and has it alone");
        }
        const uint64_t next = id + 2;
        check(add_device(TOUCH, 46) == BOZTERRUN_ACCEPTED && count == 46, "46 bytes are enough without a touchscreen");
        check(id == next, "which takes no id");
        check(bz_seat_bind(&session, seat, TOUCH) == BOZTERRUN_ACCEPTED, "Bind goes by what is stored");
        before = session;
        refused("but for a bit above bit 6", bz_seat_bind(&session, seat, 128), BOZTERRUN_INVALID_CAPABILITIES);
    }
}

int main(void)
{
    last_ids();
    damaged_seats();
    printf("negotiated: %lu tests, %lu failed\n", tests, failures);
    return failures != 0;
}
