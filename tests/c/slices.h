/*
 * What bad_use.c and scribble.c lend: every slice ends at a page that may be neither read nor written, and what lies
 * before it is known, so that a read or a write outside a slice is seen. And a table of all exported calls.
 */
#ifndef SLICES_H
#define SLICES_H

#ifndef _GNU_SOURCE
#define _GNU_SOURCE
#endif
#include "bozterrun.h"
#include <inttypes.h>
#include <signal.h>
#include <stdio.h>
#include <stdlib.h>
#include <string.h>
#include <sys/mman.h>
#include <unistd.h>

/* ---- Slices ---- */

enum {
    HANDSHAKE, NAME, CONTROL, WORDS, REALS, TEXTS, OUT, BUFFER, TEXT, RECORDS, POINTS, MESSAGE, FINISH, /* slices */
    EVENT, SENT, NUMBERS, COORDINATES,        /* an event record, an event's message; arrays */
    COUNT, VALUE, FIRST, SECOND, CASE, BEGUN, /* one number each */
    SLICES
};

/* The records of the read that is handed over: a Sync, a key, and a text that is a part of TEXT. */
enum { READ_SYNC, READ_KEY, READ_TEXT, READ_RECORDS };

/* The messages: a Sync in the session, and in the handshake its Finish. */
enum { SYNC_LENGTH = 28, FINISH_LENGTH = 16 };

/* A seat that is destroyed, as an event record and as its message. */
enum { EVENT_LENGTH = 14, SENT_LENGTH = 20 };

enum { PAGE = 4096, BEFORE_BYTE = 0xa5, LENT_BYTE = 0xee };

typedef struct {
    const char *name;
    size_t element, usual; /* the bytes of an element, and how many there are in good use */
    size_t length;         /* how many are lent now */
    uint8_t *first, *end;  /* the readable pages */
    uint8_t *kept;         /* a copy of them */
    const void *image;     /* what a fresh slice holds; bytes of LENT_BYTE where there is none */
} slice;

static slice slices[SLICES] = {
    {"handshake", 8, BOZTERRUN_HANDSHAKE_LENGTH, 0, NULL, NULL, NULL, NULL},
    {"name", 1, BOZTERRUN_NAME_LENGTH, 0, NULL, NULL, NULL, NULL},
    {"control", 8, BOZTERRUN_CONTROL_LENGTH, 0, NULL, NULL, NULL, NULL},
    {"words", 8, BOZTERRUN_WORDS_LENGTH, 0, NULL, NULL, NULL, NULL},
    {"reals", 4, BOZTERRUN_REALS_LENGTH, 0, NULL, NULL, NULL, NULL},
    {"texts", 1, BOZTERRUN_TEXTS_LENGTH, 0, NULL, NULL, NULL, NULL},
    {"out", 1, BOZTERRUN_OUT_LENGTH, 0, NULL, NULL, NULL, NULL},
    {"buffer", 1, BOZTERRUN_NAME_LENGTH, 0, NULL, NULL, NULL, NULL},
    {"text", 1, 20, 0, NULL, NULL, NULL, NULL},
    {"records", 8, READ_RECORDS * BOZTERRUN_RECORD_LENGTH, 0, NULL, NULL, NULL, NULL},
    {"points", 4, READ_RECORDS * BOZTERRUN_POINT_LENGTH, 0, NULL, NULL, NULL, NULL},
    {"message", 1, SYNC_LENGTH, 0, NULL, NULL, NULL, NULL},
    {"handshake's message", 1, FINISH_LENGTH, 0, NULL, NULL, NULL, NULL},
    {"event record", 1, EVENT_LENGTH, 0, NULL, NULL, NULL, NULL},
    {"event's message", 1, SENT_LENGTH, 0, NULL, NULL, NULL, NULL},
    {"numbers", 8, 5, 0, NULL, NULL, NULL, NULL},
    {"coordinates", 4, 2, 0, NULL, NULL, NULL, NULL},
    {"count", 8, 1, 0, NULL, NULL, NULL, NULL},
    {"value", 8, 1, 0, NULL, NULL, NULL, NULL},
    {"first told number", 4, 1, 0, NULL, NULL, NULL, NULL},
    {"second told number", 4, 1, 0, NULL, NULL, NULL, NULL},
    {"case", 4, 1, 0, NULL, NULL, NULL, NULL},
    {"begun", 4, 1, 0, NULL, NULL, NULL, NULL},
};

static size_t slice_bytes(const slice *s)
{
    return s->length * s->element;
}

static uint8_t *slice_data(size_t which)
{
    return slices[which].end - slice_bytes(&slices[which]);
}

/* Room for a slice twice as long as usual, or 1,024 bytes, between two pages that nobody may touch. */
static void slices_make(void)
{
    for (size_t i = 0; i < SLICES; i++) {
        slice *const s = &slices[i];
        const size_t wanted = 2 * s->usual * s->element > 1024 ? 2 * s->usual * s->element : 1024;
        const size_t room = (wanted + PAGE - 1) / PAGE * PAGE;
        uint8_t *const pages = mmap(NULL, room + 2 * PAGE, PROT_READ | PROT_WRITE, MAP_PRIVATE | MAP_ANONYMOUS, -1, 0);
        if (pages == MAP_FAILED || mprotect(pages, PAGE, PROT_NONE) != 0 ||
            mprotect(pages + PAGE + room, PAGE, PROT_NONE) != 0) {
            perror("mmap");
            exit(2);
        }
        s->first = pages + PAGE;
        s->end = s->first + room;
        s->length = s->usual;
        s->kept = malloc(room);
        if (s->kept == NULL) {
            perror("malloc");
            exit(2);
        }
        memset(s->first, BEFORE_BYTE, room);
    }
}

/* The slice with this length, as much of its image in it as goes. */
static void slice_lend(size_t which, size_t length)
{
    slice *const s = &slices[which];
    if (length != s->length) {
        memset(s->first, BEFORE_BYTE, (size_t)(s->end - s->first));
    }
    s->length = length;
    uint8_t *const data = slice_data(which);
    const size_t usual = s->usual * s->element;
    if (s->image == NULL) {
        memset(data, LENT_BYTE, slice_bytes(s));
    } else {
        memcpy(data, s->image, slice_bytes(s) < usual ? slice_bytes(s) : usual);
    }
}

static void slices_lend(void)
{
    for (size_t i = 0; i < SLICES; i++) {
        slice_lend(i, slices[i].usual);
    }
}

static void slice_keep(size_t which)
{
    memcpy(slices[which].kept, slice_data(which), slice_bytes(&slices[which]));
}

static void slices_keep(void)
{
    for (size_t i = 0; i < SLICES; i++) {
        slice_keep(i);
    }
}

static bool slice_same(size_t which)
{
    return memcmp(slices[which].kept, slice_data(which), slice_bytes(&slices[which])) == 0;
}

/* The first slice that a call has changed, SLICES where there is none. The numbers that it tells do not count. */
static size_t slices_changed(void)
{
    for (size_t i = 0; i < COUNT; i++) {
        if (!slice_same(i)) {
            return i;
        }
    }
    return SLICES;
}

/* Whether something was written before a slice: bytes equal to their neighbours. */
static bool slice_overrun(size_t which)
{
    const uint8_t *const first = slices[which].first;
    const size_t before = (size_t)(slice_data(which) - first);
    return before > 0 && (first[0] != BEFORE_BYTE || memcmp(first, first + 1, before - 1) != 0);
}

/* The first slice before which something was written, SLICES where there is none. */
static size_t slices_overrun(void)
{
    for (size_t i = 0; i < SLICES; i++) {
        if (slice_overrun(i)) {
            return i;
        }
    }
    return SLICES;
}

static uint64_t number_at(size_t which)
{
    uint64_t n = 0;
    memcpy(&n, slice_data(which), slices[which].element);
    return n;
}

#define BYTES(which) slice_data(which), slices[which].length
#define WORDS_OF(which) (uint64_t *)(void *)slice_data(which), slices[which].length
#define REALS_OF(which) (float *)(void *)slice_data(which), slices[which].length
#define PLACE_OF(type, which) (type *)(void *)slice_data(which)
#define L_HANDSHAKE WORDS_OF(HANDSHAKE), BYTES(NAME)
#define L_CONTROL WORDS_OF(CONTROL)
#define L_ROWS L_CONTROL, WORDS_OF(WORDS), REALS_OF(REALS)
#define L_SESSION L_ROWS, BYTES(TEXTS)
#define L_OUT BYTES(OUT), PLACE_OF(size_t, COUNT)

/* ---- The calls ---- */

/* What the calls are made with: good numbers, which a test may exchange for others. */
typedef struct {
    uint64_t seat, device; /* with all seven interfaces */
    uint64_t capability, mask;
    uint32_t state, context_type, device_type, reason, given, opcode, version, touch;
    uint32_t interface; /* of an event's object */
} arguments;

static arguments with;

static uint64_t interface_of(uint64_t place)
{
    return with.device + 1 + place;
}

#define CALL(name, ...) \
    static uint32_t call_##name(void) \
    { \
        return bozterrun_##name(__VA_ARGS__); \
    }

CALL(handshake_new, L_HANDSHAKE, 7, L_OUT)
CALL(handshake_handshake_version, L_HANDSHAKE, 1)
CALL(handshake_name, L_HANDSHAKE, BYTES(TEXT))
CALL(handshake_context_type, L_HANDSHAKE, with.context_type)
CALL(handshake_interface_version, L_HANDSHAKE, BYTES(TEXT), 1)
CALL(handshake_other, L_HANDSHAKE, BYTES(TEXT))
CALL(handshake_finish, L_HANDSHAKE, L_CONTROL, L_OUT)
CALL(handshake_pending_request, L_HANDSHAKE, L_CONTROL, BYTES(FINISH), BYTES(OUT), PLACE_OF(size_t, VALUE),
     PLACE_OF(size_t, COUNT), PLACE_OF(uint32_t, BEGUN), PLACE_OF(uint32_t, CASE), PLACE_OF(uint32_t, FIRST),
     PLACE_OF(uint32_t, SECOND))
CALL(handshake_client, L_HANDSHAKE, PLACE_OF(uint32_t, FIRST), PLACE_OF(size_t, COUNT), PLACE_OF(uint32_t, SECOND))
CALL(pointer_motion_relative, L_ROWS, interface_of(0), 1.0F, -2.0F)
CALL(pointer_absolute_motion_absolute, L_ROWS, interface_of(1), 3.0F, 4.0F)
CALL(keyboard_key, L_ROWS, interface_of(2), 30, with.state)
CALL(touchscreen_down, L_ROWS, interface_of(3), with.touch, 1.0F, 2.0F)
CALL(touchscreen_motion, L_ROWS, interface_of(3), 1, 1.0F, 2.0F)
CALL(touchscreen_up, L_ROWS, interface_of(3), 1)
CALL(touchscreen_cancel, L_ROWS, interface_of(3), with.version, 1, PLACE_OF(uint32_t, FIRST),
     PLACE_OF(uint32_t, SECOND))
CALL(scroll_scroll, L_ROWS, interface_of(4), 5.0F, 6.0F)
CALL(scroll_scroll_discrete, L_ROWS, interface_of(4), -120, 120)
CALL(scroll_scroll_stop, L_ROWS, interface_of(4), 1, 0, 1)
CALL(button_button, L_ROWS, interface_of(5), 272, with.state)
CALL(text_keysym, L_ROWS, interface_of(6), 97, with.state)
CALL(text_utf8, L_SESSION, interface_of(6), BYTES(TEXT))
CALL(device_release, L_ROWS, with.device, 500)
CALL(device_start_emulating, L_ROWS, with.device, 7, 1, 501)
CALL(device_stop_emulating, L_ROWS, with.device, 7, 502)
CALL(device_ready, L_ROWS, with.device, 503)
CALL(device_frame, L_ROWS, with.device, 7, 504)
CALL(seat_bind, L_ROWS, with.seat, 127)
CALL(seat_request_device, L_ROWS, with.seat, 4)
CALL(seat_release, L_ROWS, with.seat, L_OUT)
CALL(interface_release, L_CONTROL, with.capability, interface_of(2), L_OUT)
CALL(connection_sync, L_CONTROL, 9, with.version - 1, L_OUT, PLACE_OF(uint32_t, FIRST), PLACE_OF(uint32_t, SECOND))
CALL(connection_disconnect, L_ROWS)
CALL(pingpong_done, L_CONTROL)
CALL(unexpected_handshake, L_CONTROL, with.opcode, 1, BYTES(TEXT))
CALL(handle_requests, L_SESSION, WORDS_OF(RECORDS), REALS_OF(POINTS), BYTES(TEXT), 506, BYTES(OUT),
     PLACE_OF(size_t, VALUE), PLACE_OF(size_t, COUNT), PLACE_OF(uint32_t, FIRST), PLACE_OF(uint32_t, SECOND))
CALL(pending_request, L_SESSION, BYTES(MESSAGE), 507, BYTES(OUT), PLACE_OF(size_t, VALUE), PLACE_OF(size_t, COUNT),
     PLACE_OF(uint32_t, CASE), PLACE_OF(uint32_t, FIRST), PLACE_OF(uint32_t, SECOND))
CALL(next_request, L_SESSION, PLACE_OF(uint64_t, NUMBERS), PLACE_OF(float, COORDINATES), BYTES(BUFFER))
CALL(add_seat, L_CONTROL, with.given, BYTES(TEXT), with.mask, L_OUT, PLACE_OF(uint64_t, VALUE))
CALL(add_device, L_CONTROL, with.seat, with.given, BYTES(TEXT), with.device_type, with.mask, L_OUT,
     PLACE_OF(uint64_t, VALUE))
CALL(remove_seat, L_ROWS, with.seat, L_OUT)
CALL(remove_device, L_ROWS, with.device, L_OUT)
CALL(resumed, L_CONTROL, with.device, L_OUT)
CALL(paused, L_CONTROL, with.device, L_OUT)
CALL(start_emulating, L_CONTROL, with.device, 3, L_OUT)
CALL(stop_emulating, L_CONTROL, with.device, L_OUT)
CALL(frame, L_CONTROL, with.device, 505, L_OUT)
CALL(disconnected, L_ROWS, with.reason, with.given, BYTES(TEXT), L_OUT)
CALL(last_serial, L_CONTROL, PLACE_OF(uint64_t, VALUE))
CALL(has_interface, L_CONTROL, BYTES(TEXT), PLACE_OF(uint64_t, VALUE))
CALL(interface_version, L_CONTROL, BYTES(TEXT), PLACE_OF(uint64_t, VALUE))
CALL(has_capability, L_CONTROL, with.device, with.capability, PLACE_OF(uint64_t, VALUE))
CALL(write_message, with.interface, BYTES(EVENT), L_OUT)
CALL(read_message, with.interface, BYTES(SENT), L_OUT)

/* Which slices a call is lent that make a handshake or a session; 0 where it knows neither. */
enum {
    M_HANDSHAKE = 1 << HANDSHAKE | 1 << NAME,
    M_CONTROL = 1 << CONTROL,
    M_ROWS = M_CONTROL | 1 << WORDS | 1 << REALS,
    M_SESSION = M_ROWS | 1 << TEXTS
};

/*
 * The calls. `good` is what each answers on the session with two devices that session_make makes, `writes` how many
 * bytes it then writes to out (next_request: to its buffer), by the table of records in docs/REFERENCE.md: a seat or a
 * device with a name of 20 bytes and seven capabilities, a seat with one device of seven interfaces. `told` are the
 * numbers that it tells; the value of a read is how many were accepted, that of a message how many bytes it took. What
 * a read writes, its first record writes.
 */
enum {
    TELLS_COUNT = 1,
    TELLS_VALUE = 2,
    TELLS_TWO = 4,
    TELLS_CASE = 8,
    TELLS_BEGUN = 16,
    TELLS_MESSAGE = TELLS_COUNT | TELLS_VALUE | TELLS_TWO | TELLS_CASE
};

typedef struct {
    const char *name;
    uint32_t (*make)(void);
    unsigned lent;
    uint32_t good;
    size_t writes;
    unsigned told;
} call;

#define ROW(name, lent, good, writes, told) {#name, call_##name, lent, good, writes, told}
static const call calls[] = {
    ROW(handshake_new, M_HANDSHAKE, 0, 14, TELLS_COUNT),
    ROW(handshake_handshake_version, M_HANDSHAKE, 0, 0, 0),
    ROW(handshake_name, M_HANDSHAKE, 0, 0, 0),
    ROW(handshake_context_type, M_HANDSHAKE, 0, 0, 0),
    ROW(handshake_interface_version, M_HANDSHAKE, 0, 0, 0),
    ROW(handshake_other, M_HANDSHAKE, BOZTERRUN_NON_HANDSHAKE_EVENT, 0, 0),
    ROW(handshake_finish, M_HANDSHAKE | M_CONTROL, 0, 12 * 15 + 26, TELLS_COUNT),
    ROW(handshake_pending_request, M_HANDSHAKE | M_CONTROL, 0, 12 * 15 + 26, TELLS_MESSAGE | TELLS_BEGUN),
    ROW(handshake_client, M_HANDSHAKE, 0, 0, TELLS_COUNT | TELLS_TWO),
    ROW(pointer_motion_relative, M_ROWS, 0, 0, 0),
    ROW(pointer_absolute_motion_absolute, M_ROWS, 0, 0, 0),
    ROW(keyboard_key, M_ROWS, 0, 0, 0),
    ROW(touchscreen_down, M_ROWS, 0, 0, 0),
    ROW(touchscreen_motion, M_ROWS, 0, 0, 0),
    ROW(touchscreen_up, M_ROWS, 0, 0, 0),
    ROW(touchscreen_cancel, M_ROWS, 0, 0, TELLS_TWO),
    ROW(scroll_scroll, M_ROWS, 0, 0, 0),
    ROW(scroll_scroll_discrete, M_ROWS, 0, 0, 0),
    ROW(scroll_scroll_stop, M_ROWS, 0, 0, 0),
    ROW(button_button, M_ROWS, 0, 0, 0),
    ROW(text_keysym, M_ROWS, 0, 0, 0),
    ROW(text_utf8, M_SESSION, 0, 0, 0),
    ROW(device_release, M_ROWS, 0, 0, 0),
    ROW(device_start_emulating, M_ROWS, 0, 0, 0),
    ROW(device_stop_emulating, M_ROWS, 0, 0, 0),
    ROW(device_ready, M_ROWS, 0, 0, 0),
    ROW(device_frame, M_ROWS, 0, 0, 0),
    ROW(seat_bind, M_ROWS, 0, 0, 0),
    ROW(seat_request_device, M_ROWS, 0, 0, 0),
    ROW(seat_release, M_ROWS, 0, 9 * 14, TELLS_COUNT),
    ROW(interface_release, M_CONTROL, 0, 14, TELLS_COUNT),
    ROW(connection_sync, M_CONTROL, 0, 18, TELLS_COUNT | TELLS_TWO),
    ROW(connection_disconnect, M_ROWS, 0, 0, 0),
    ROW(pingpong_done, M_CONTROL, 0, 0, 0),
    ROW(unexpected_handshake, M_CONTROL, BOZTERRUN_UNEXPECTED_HANDSHAKE_EVENT, 0, 0),
    ROW(handle_requests, M_SESSION, 0, 18, TELLS_COUNT | TELLS_VALUE | TELLS_TWO),
    ROW(pending_request, M_SESSION, 0, 18, TELLS_MESSAGE),
    ROW(next_request, M_SESSION, 0, 20, 0),
    ROW(add_seat, M_CONTROL, 0, 22 + 30 + 7 * 19 + 10, TELLS_COUNT | TELLS_VALUE),
    ROW(add_device, M_CONTROL, 0, 22 + 30 + 14 + 7 * 23 + 10, TELLS_COUNT | TELLS_VALUE),
    ROW(remove_seat, M_ROWS, 0, 9 * 14, TELLS_COUNT),
    ROW(remove_device, M_ROWS, 0, 8 * 14, TELLS_COUNT),
    ROW(resumed, M_CONTROL, 0, 14, TELLS_COUNT),
    ROW(paused, M_CONTROL, 0, 14, TELLS_COUNT),
    ROW(start_emulating, M_CONTROL, 0, 18, TELLS_COUNT),
    ROW(stop_emulating, M_CONTROL, 0, 14, TELLS_COUNT),
    ROW(frame, M_CONTROL, 0, 22, TELLS_COUNT),
    ROW(disconnected, M_ROWS, 0, 18 * 14 + 19 + 20, TELLS_COUNT),
    ROW(last_serial, M_CONTROL, 0, 0, TELLS_VALUE),
    ROW(has_interface, M_CONTROL, 0, 0, TELLS_VALUE),
    ROW(interface_version, M_CONTROL, BOZTERRUN_NONE, 0, TELLS_VALUE),
    ROW(has_capability, M_CONTROL, 0, 0, TELLS_VALUE),
    ROW(write_message, 0, 0, SENT_LENGTH, TELLS_COUNT),
    ROW(read_message, 0, 0, EVENT_LENGTH, TELLS_COUNT),
};
enum { CALLS = sizeof calls / sizeof calls[0] };

/* ---- A handshake and a session ---- */

static const char text_usual[] = "01234567890123456789";

/* A handshake that knows every interface; neither name nor context type was said. */
static bozterrun_handshake handshake_image;
static bozterrun_session session_image;
static bozterrun_record records_image[READ_RECORDS];
static bozterrun_point points_image[READ_RECORDS];

/* On the connection, opcode 0: the callback 9, version 1. On the handshake, opcode 1. */
static const uint8_t sync_image[SYNC_LENGTH] = {0, 0, 0, 0, 0, 0, 0, 255, 28, 0, 0, 0, 0,
                                                0, 0, 0, 9, 0, 0, 0, 0,   0,  0, 0, 1};
static const uint8_t finish_image[FINISH_LENGTH] = {0, 0, 0, 0, 0, 0, 0, 0, 16, 0, 0, 0, 1};

/* Kind 5 on the object 0xff00000000000001, serial 8; as a message opcode 0. */
static const uint8_t event_image[EVENT_LENGTH] = {0x28, 14, 255, 0, 0, 0, 0, 0, 0, 1, 0, 0, 0, 8};
static const uint8_t sent_image[SENT_LENGTH] = {1, 0, 0, 0, 0, 0, 0, 255, 20, 0, 0, 0, 0, 0, 0, 0, 8};

static void must(const char *what, uint32_t answer)
{
    if (answer != BOZTERRUN_ACCEPTED) {
        printf("%s: %s\n", what, bz_refusal_name(answer));
        exit(2);
    }
}

/*
 * A session with two seats and two devices, or four and eight. The oldest queued request is a text of 20 bytes; more
 * texts and keys are queued behind it; each device has pending requests and holds touches 1 and 2; the texts that
 * stand are fewer than 32. `with` then holds good arguments, the device that of this place.
 */
static void session_make(unsigned devices, unsigned place)
{
    static uint8_t out[BOZTERRUN_OUT_LENGTH];
    bozterrun_session *const s = &session_image;
    uint64_t seat[8], device[8];
    memset(&handshake_image, 0, sizeof handshake_image);
    memset(s, 0, sizeof *s);
    must("handshake_new", bz_handshake_new(&handshake_image, 7, out, sizeof out, NULL));
    for (uint32_t i = 1; i <= 12; i++) {
        const char *const name = bz_interface_name(i);
        must("interface_version", bz_handshake_interface_version(&handshake_image, name, strlen(name), 3));
    }
    bozterrun_handshake finished = handshake_image;
    must("finish", bz_handshake_finish(&finished, s, out, sizeof out, NULL));
    for (unsigned i = 0; i < devices; i++) {
        if (i < 4) {
            must("add_seat", bz_add_seat(s, "counter", 7, 127, out, sizeof out, NULL, &seat[i]));
        } else {
            seat[i] = seat[i - 4];
        }
        must("add_device", bz_add_device(s, seat[i], NULL, 0, 2, 127, out, sizeof out, NULL, &device[i]));
    }
    for (unsigned i = 0; i < devices; i++) {
        const uint64_t d = device[i];
        must("utf8", bz_text_utf8(s, d + 7, text_usual, 20));
        must("key", bz_keyboard_key(s, d + 3, 30, BOZTERRUN_PRESS));
        must("down", bz_touchscreen_down(s, d + 4, 1, 1.0F, 2.0F));
        must("frame", bz_device_frame(s, d, 7, 100 + i));
        must("down", bz_touchscreen_down(s, d + 4, 2, 3.0F, 4.0F));
        must("scroll_discrete", bz_scroll_scroll_discrete(s, d + 5, -1, 1));
        must("utf8", bz_text_utf8(s, d + 7, "pending \xe2\x82\xac", 11));
        must("button", bz_button_button(s, d + 6, 272, BOZTERRUN_PRESS));
    }
    const arguments good = {.seat = seat[place], .device = device[place], .capability = BOZTERRUN_CAPABILITY_KEYBOARD,
                            .mask = 127, .state = BOZTERRUN_PRESS, .context_type = BOZTERRUN_CONTEXT_TYPE_SENDER,
                            .device_type = BOZTERRUN_DEVICE_TYPE_PHYSICAL, .reason = BOZTERRUN_REASON_PROTOCOL,
                            .given = 1, .opcode = BOZTERRUN_OPCODE_NAME, .version = 2, .touch = 9,
                            .interface = BOZTERRUN_INTERFACE_SEAT};
    with = good;
    bozterrun_read read;
    bz_read_begin(&read, records_image, points_image, READ_RECORDS, NULL, 0);
    bz_read_connection_sync(&read, 9, 1);
    bz_read_keyboard_key(&read, interface_of(2), 30, BOZTERRUN_PRESS);
    bz_read_text_utf8(&read, interface_of(6), NULL, 0);
    records_image[READ_TEXT].start = 3;
    records_image[READ_TEXT].length = 5;
    slices[RECORDS].image = records_image;
    slices[POINTS].image = points_image;
    slices[MESSAGE].image = sync_image;
    slices[FINISH].image = finish_image;
    slices[EVENT].image = event_image;
    slices[SENT].image = sent_image;
    slices[HANDSHAKE].image = handshake_image.words;
    slices[NAME].image = handshake_image.name;
    slices[CONTROL].image = s->control;
    slices[WORDS].image = s->words;
    slices[REALS].image = s->reals;
    slices[TEXTS].image = s->texts;
    slices[TEXT].image = text_usual;
}

/* ---- Where it went wrong ---- */

static char where[200] = "the beginning";

/* A crash or an endless loop is told with its place. */
static void on_signal(int number)
{
    static const char head[] = "FAILED by a signal at: ";
    if (write(1, head, sizeof head - 1) < 0 || write(1, where, strlen(where)) < 0 || write(1, "\n", 1) < 0) {
        _exit(8);
    }
    _exit(number == SIGALRM ? 10 : 9);
}

static void watch(void)
{
    signal(SIGSEGV, on_signal);
    signal(SIGBUS, on_signal);
    signal(SIGILL, on_signal);
    signal(SIGFPE, on_signal);
    signal(SIGALRM, on_signal);
}

#endif
