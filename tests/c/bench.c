/*
 * bench WORKLOAD N: the turn of a workload N times, through the inline functions, and how many requests were given.
 *
 * The turns are those of crates/bench and of the oracle's benchmark:
 *   keys     one device: key press, key release, frame, next_request 4 times (7 calls)
 *   touches  one device: down, motion, up, frame, next_request 5 times (9 calls)
 *   texts    one device: a text of 20 digits, frame, next_request 3 times (5 calls)
 *   eight    as keys, on each of eight devices in turn, every device with all seven interfaces (7 calls)
 *   deep     as keys, while 198 requests stay queued: next_request 3 times (6 calls)
 * and three of its own, over 32 requests:
 *   single32 one device: 31 keys and their frame, each a call, next_request 33 times
 *   read32   the same 32 gathered in a read and handed over in one call, next_request 33 times
 *   messages 31 keys and their frame as a client's 772 bytes, the same in each turn: 32 calls, each with what is left of
 *            them, next_request 33 times
 * The last next_request of a turn finds none, but for deep. What is left is taken at the end. Time is measured from
 * outside, by the difference of two N.
 */
#include "session.h"

static uint64_t device, given;

static void take(unsigned most)
{
    bozterrun_request request;
    char text[BOZTERRUN_NAME_LENGTH];
    for (unsigned i = 0; i < most; i++) {
        given += bz_next_request(&session, &request, text, sizeof text) == BOZTERRUN_ACCEPTED;
    }
}

static void send_keys(uint64_t of, uint64_t keyboard, uint64_t i)
{
    bz_keyboard_key(&session, keyboard, (uint32_t)(i % 256), BOZTERRUN_PRESS);
    bz_keyboard_key(&session, keyboard, (uint32_t)(i % 256), BOZTERRUN_RELEASED);
    bz_device_frame(&session, of, 7, i);
}

static void keys(uint64_t i)
{
    send_keys(device, device + 1, i);
    take(4);
}

static void touches(uint64_t i)
{
    const uint32_t touch = (uint32_t)i;
    const float x = (float)(i % 65536);
    bz_touchscreen_down(&session, device + 1, touch, x, 2.0F);
    bz_touchscreen_motion(&session, device + 1, touch, x, 2.0F);
    bz_touchscreen_up(&session, device + 1, touch);
    bz_device_frame(&session, device, 7, i);
    take(5);
}

static void texts(uint64_t i)
{
    bz_text_utf8(&session, device + 1, "01234567890123456789", 20);
    bz_device_frame(&session, device, 7, i);
    take(3);
}

static void eight(uint64_t i)
{
    const uint64_t of = device + 8 * (i % 8);
    send_keys(of, of + 3, i);
    take(4);
}

static void deep(uint64_t i)
{
    send_keys(device, device + 1, i);
    take(3);
}

static void single32(uint64_t i)
{
    for (uint32_t k = 0; k < 31; k++) {
        bz_keyboard_key(&session, device + 1, (uint32_t)(i + k) % 256,
                        k % 2 == 0 ? BOZTERRUN_PRESS : BOZTERRUN_RELEASED);
    }
    bz_device_frame(&session, device, 7, i);
    take(33);
}

static void read32(uint64_t i)
{
    static bozterrun_record records[32];
    static bozterrun_point points[32];
    bozterrun_read read;
    bz_read_begin(&read, records, points, 32, NULL, 0);
    for (uint32_t k = 0; k < 31; k++) {
        bz_read_keyboard_key(&read, device + 1, (uint32_t)(i + k) % 256,
                             k % 2 == 0 ? BOZTERRUN_PRESS : BOZTERRUN_RELEASED);
    }
    bz_read_device_frame(&read, device, 7, i);
    bz_handle_requests(&session, &read, 5, NULL, 0, NULL, NULL, NULL, NULL);
    take(33);
}

/* What a client sends in a turn of messages: 31 of 24 bytes and one of 28. */
static uint8_t bytes[31 * 24 + 28];

static void put(size_t at, uint64_t value, size_t count)
{
    for (size_t k = 0; k < count; k++) {
        bytes[at + k] = (uint8_t)(value >> 8 * k);
    }
}

static void put_messages(void)
{
    for (uint64_t k = 0; k < 31; k++) {
        const size_t at = 24 * (size_t)k;
        put(at, device + 1, 8);
        put(at + 8, 24, 4);
        put(at + 12, 1, 4);
        put(at + 16, k, 4);
        put(at + 20, 1 - k % 2, 4);
    }
    put(744, device, 8);
    put(752, 28, 4);
    put(756, 3, 4);
    put(760, 7, 4);
    put(764, 500, 8);
}

static void messages(uint64_t i)
{
    (void)i;
    for (size_t at = 0, taken; at < sizeof bytes; at += taken) {
        if (bz_pending_request(&session, bytes + at, sizeof bytes - at, 5, NULL, 0, &taken, NULL, NULL) !=
            BOZTERRUN_ACCEPTED) {
            return;
        }
    }
    take(33);
}

static const struct {
    const char *name;
    void (*turn)(uint64_t);
    unsigned devices;
    uint64_t capabilities;
} workloads[] = {
    {"keys", keys, 1, BOZTERRUN_CAPABILITY_KEYBOARD}, {"touches", touches, 1, BOZTERRUN_CAPABILITY_TOUCH},
    {"texts", texts, 1, BOZTERRUN_CAPABILITY_TEXT},   {"eight", eight, 8, 127},
    {"deep", deep, 1, BOZTERRUN_CAPABILITY_KEYBOARD}, {"single32", single32, 1, BOZTERRUN_CAPABILITY_KEYBOARD},
    {"read32", read32, 1, BOZTERRUN_CAPABILITY_KEYBOARD}, {"messages", messages, 1, BOZTERRUN_CAPABILITY_KEYBOARD},
};

int main(int count, char **words)
{
    for (size_t w = 0; count == 3 && w < sizeof workloads / sizeof workloads[0]; w++) {
        if (strcmp(words[1], workloads[w].name) != 0) {
            continue;
        }
        const uint64_t turns = strtoull(words[2], NULL, 10);
        device = begin_session(workloads[w].devices, workloads[w].capabilities);
        put_messages();
        for (uint64_t i = 0; workloads[w].turn == deep && i < 66; i++) {
            send_keys(device, device + 1, i);
        }
        for (uint64_t i = 0; i < turns; i++) {
            workloads[w].turn(i);
        }
        take(256);
        printf("%s: %llu requests given\n", words[1], (unsigned long long)given);
        return 0;
    }
    fprintf(stderr, "usage: bench keys|touches|texts|eight|deep|single32|read32|messages N\n");
    return 2;
}
