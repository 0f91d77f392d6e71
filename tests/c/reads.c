/*
 * reads: whole reads, gathered and handed over through the inline functions. What each is to answer was worked out by
 * hand from the scope; and each of the 36 requests has to do in a read what its single call does, byte for byte.
 *
 * The last line has the number of tests and of failures; the exit status is 1 where there are failures.
 */
#include "session.h"

enum { RECORDS = 80, TEXTS = 4096, OUT = 4096 };

static unsigned long tests, failures;
static uint64_t seat, device; /* with all seven interfaces behind it */

static bozterrun_record records[RECORDS];
static bozterrun_point points[RECORDS];
static uint8_t texts[TEXTS], written[OUT];
static bozterrun_read gathered;
static bozterrun_session fresh;

/* What the last read answered. */
static size_t accepted, count;
static uint32_t interface, version;

static void check(bool holds, const char *what)
{
    tests++;
    if (!holds) {
        failures++;
        if (failures <= 20) {
            printf("FAILED: %s\n", what);
        }
    }
}

/* The session with its seat and its device, and an empty read. */
static bozterrun_read *begin(void)
{
    session = fresh;
    bz_read_begin(&gathered, records, points, RECORDS, texts, sizeof texts);
    memset(written, 0xee, sizeof written);
    return &gathered;
}

/* An empty read over texts that lie there already. */
static bozterrun_read *begin_over(const void *bytes, size_t length)
{
    begin();
    memcpy(texts, bytes, length);
    gathered.texts_length = length;
    return &gathered;
}

static bool add_part(uint64_t request, uint64_t object, uint64_t start, uint64_t length)
{
    bozterrun_record record = {{{0}}};
    record.request = request;
    record.object = object;
    record.start = start;
    record.length = length;
    return bz_read_record(&gathered, &record, 0, 0);
}

static bool add_utf8(uint64_t start, uint64_t length)
{
    return add_part(BOZTERRUN_READ_TEXT_UTF8, device + 7, start, length);
}

static uint32_t hand_over(size_t out_length)
{
    return bz_handle_requests(&session, &gathered, 77, written, out_length, &accepted, &count, &interface, &version);
}

/* Hands the read over: so many are accepted, with this answer and no event. */
static void handed(const char *what, size_t so_many, uint32_t answer)
{
    const uint32_t told = hand_over(sizeof written);
    check(told == answer && accepted == so_many && count == 0, what);
    check(written[0] == 0xee && memcmp(written, written + 1, sizeof written - 1) == 0, "out has changed");
    if (answer != BOZTERRUN_INVALID_INTERFACE_VERSION) {
        check(interface == 0 && version == 0, "an interface or a version is told");
    }
}

/* The next delivered request is this one. */
static void given(const char *what, uint32_t kind, uint64_t time, uint64_t extra, uint64_t flag)
{
    bozterrun_request r;
    uint8_t buffer[BOZTERRUN_NAME_LENGTH];
    const uint32_t answer = bz_next_request(&session, &r, buffer, sizeof buffer);
    check(answer == BOZTERRUN_ACCEPTED && bz_request_kind(&r) == kind && r.device == device && r.time == time &&
              r.extra == extra && r.flag == flag,
          what);
}

static void given_text(const char *what, const char *text)
{
    bozterrun_request r;
    uint8_t buffer[BOZTERRUN_NAME_LENGTH];
    const uint32_t answer = bz_next_request(&session, &r, buffer, sizeof buffer);
    check(answer == BOZTERRUN_ACCEPTED && bz_request_kind(&r) == BOZTERRUN_REQUEST_TEXT_UTF8 &&
              r.length == strlen(text) && memcmp(buffer, text, strlen(text)) == 0,
          what);
}

static void given_no_more(void)
{
    bozterrun_request r;
    check(bz_next_request(&session, &r, NULL, 0) == BOZTERRUN_NONE, "more is queued");
}

/* ---- By hand ---- */

static void try_empty(void)
{
    begin();
    handed("no record", 0, BOZTERRUN_ACCEPTED);
    begin_over("\x80", 1);
    handed("no record, and texts that are none", 0, BOZTERRUN_ACCEPTED);
    begin();
    session.control[3] = 5; /* seats: one too many */
    handed("no record, on a damaged session", 0, BOZTERRUN_BAD_STATE);
    check(add_utf8(9, 9), "room");
    handed("a bad part, on a damaged session", 0, BOZTERRUN_BAD_STATE);
}

static void try_keys(void)
{
    bozterrun_read *r = begin();
    check(bz_read_keyboard_key(r, device + 3, 30, BOZTERRUN_PRESS), "room");
    check(bz_read_keyboard_key(r, device + 3, 30, BOZTERRUN_RELEASED), "room");
    check(bz_read_device_frame(r, device, 7, 500), "room");
    handed("two keys and their frame", 3, BOZTERRUN_ACCEPTED);
    given("the press", BOZTERRUN_REQUEST_KEYBOARD_KEY, 500, 30, 1);
    given("the release", BOZTERRUN_REQUEST_KEYBOARD_KEY, 500, 30, 0);
    given("the frame", BOZTERRUN_REQUEST_FRAME, 500, 7, 0);
    given_no_more();
}

static void try_refused(void)
{
    bozterrun_read *r = begin();
    bz_read_keyboard_key(r, device + 3, 30, BOZTERRUN_PRESS);
    bz_read_seat_bind(r, seat, 128);
    bz_read_keyboard_key(r, device + 3, 31, BOZTERRUN_PRESS);
    handed("a bad bind between two keys", 1, BOZTERRUN_INVALID_CAPABILITIES);
    must("frame", bz_device_frame(&session, device, 7, 9));
    given("the first key", BOZTERRUN_REQUEST_KEYBOARD_KEY, 9, 30, 1);
    given("the frame", BOZTERRUN_REQUEST_FRAME, 9, 7, 0);
    given_no_more();

    /* What is behind the refused record, handed over. */
    gathered = bz_read_rest(&gathered, accepted + 1);
    check(gathered.count == 1, "the rest");
    handed("the rest", 1, BOZTERRUN_ACCEPTED);
    must("frame", bz_device_frame(&session, device, 7, 10));
    given("the second key", BOZTERRUN_REQUEST_KEYBOARD_KEY, 10, 31, 1);

    begin_over("\x80", 1);
    bz_read_seat_bind(&gathered, seat, 128);
    add_utf8(0, 1);
    add_utf8(0, 2);
    handed("what is behind a refusal is not tried", 0, BOZTERRUN_INVALID_CAPABILITIES);
}

static void try_out(void)
{
    static const uint8_t first[18] = {0x78, 0x12, 0, 0, 0, 0, 0, 0, 0, 5};
    static const uint8_t second[18] = {0x78, 0x12, 0, 0, 0, 0, 0, 0, 0, 6};
    for (size_t length = 18; length <= 36; length++) {
        bozterrun_read *r = begin();
        bz_read_connection_sync(r, 5, 1);
        bz_read_connection_sync(r, 6, 1);
        const bool both = length == 36;
        check(hand_over(length) == (both ? BOZTERRUN_ACCEPTED : BOZTERRUN_SHORT_OUT), "two syncs: the answer");
        check(accepted == 1 + (size_t)both && count == 18 + 18 * (size_t)both, "two syncs: what is told");
        check(memcmp(written, first, 18) == 0, "the first callback");
        check(!both || memcmp(written + 18, second, 18) == 0, "the second callback");
        check(written[count] == 0xee && memcmp(written + count, written + count + 1, sizeof written - count - 1) == 0,
              "two syncs: what is behind them");
    }
    bozterrun_read *r = begin();
    bz_read_connection_sync(r, 5, 1);
    check(hand_over(17) == BOZTERRUN_SHORT_OUT && accepted == 0 && count == 0 && written[0] == 0xee, "17 bytes");
}

static void try_parts(void)
{
    begin_over("abcd", 4);
    add_utf8(0, 2);
    add_utf8(1, 3);
    add_utf8(0, 4);
    handed("parts that overlap", 3, BOZTERRUN_ACCEPTED);
    must("frame", bz_device_frame(&session, device, 7, 9));
    given_text("0+2", "ab");
    given_text("1+3", "bcd");
    given_text("0+4", "abcd");

    static const struct {
        uint64_t start, length;
        uint32_t answer;
    } parts[] = {
        {3, 2, BOZTERRUN_BAD_PART},          {4, 0, BOZTERRUN_INVALID_TEXT_LENGTH},
        {5, 0, BOZTERRUN_BAD_PART},          {UINT64_MAX, 2, BOZTERRUN_BAD_PART},
        {2, UINT64_MAX, BOZTERRUN_BAD_PART}, {UINT64_MAX, UINT64_MAX, BOZTERRUN_BAD_PART},
    };
    for (size_t i = 0; i < sizeof parts / sizeof parts[0]; i++) {
        begin_over("abcd", 4);
        add_utf8(parts[i].start, parts[i].length);
        handed("a part at the end of the texts, or past it", 0, parts[i].answer);
        check(memcmp(&session, &fresh, sizeof session) == 0, "the session has changed");
    }
    begin();
    add_part(BOZTERRUN_READ_KEYBOARD_KEY, device + 3, 9, 9);
    handed("the part of a key", 1, BOZTERRUN_ACCEPTED);
    begin();
    add_part(BOZTERRUN_READ_TEXT_UTF8, device + 3, 0, 1);
    handed("a bad part, on a keyboard", 0, BOZTERRUN_BAD_PART);
    begin_over("\x80", 1);
    add_part(BOZTERRUN_READ_TEXT_UTF8, device + 3, 0, 1);
    handed("no UTF-8, on a keyboard", 0, BOZTERRUN_BAD_UTF8);
    begin_over("a", 1);
    add_part(BOZTERRUN_READ_TEXT_UTF8, device + 3, 0, 1);
    handed("a text, on a keyboard", 1, BOZTERRUN_ACCEPTED);
    begin();
    add_part(BOZTERRUN_READ_HANDSHAKE_NAME, 0, 0, 1);
    handed("a name with a bad part", 0, BOZTERRUN_BAD_PART);
    begin();
    add_part(BOZTERRUN_READ_HANDSHAKE_INTERFACE_VERSION, 0, 1, 0);
    handed("an interface version with a bad part", 0, BOZTERRUN_BAD_PART);
}

static void try_limits(void)
{
    bozterrun_read *r = begin();
    for (uint32_t i = 0; i < 65; i++) {
        bz_read_keyboard_key(r, device + 3, i, BOZTERRUN_PRESS);
    }
    handed("65 keys", 64, BOZTERRUN_FULL_PENDING);
    bz_read_clear(r);
    bz_read_keyboard_key(r, device + 3, 99, BOZTERRUN_PRESS);
    handed("one more", 0, BOZTERRUN_FULL_PENDING);
    must("frame", bz_device_frame(&session, device, 7, 9));
    for (uint32_t i = 0; i < 64; i++) {
        given("one of 64 keys", BOZTERRUN_REQUEST_KEYBOARD_KEY, 9, i, 1);
    }

    r = begin();
    for (unsigned i = 0; i < 31; i++) {
        bz_read_text_utf8(r, device + 7, "a", 1);
    }
    handed("31 texts", 31, BOZTERRUN_ACCEPTED);
    bz_read_clear(r);
    bz_read_text_utf8(r, device + 7, "b", 1);
    bz_read_text_utf8(r, device + 7, "c", 1);
    handed("two more", 1, BOZTERRUN_FULL_TEXTS);
}

static void try_details(void)
{
    bozterrun_read *r = begin();
    bz_read_touchscreen_down(r, device + 4, 1, 1.0F, 2.0F);
    bz_read_touchscreen_cancel(r, device + 4, 1, 1);
    handed("a cancel at version 1", 1, BOZTERRUN_INVALID_INTERFACE_VERSION);
    check(interface == BOZTERRUN_INTERFACE_TOUCHSCREEN && version == 1, "what is told of it");

    r = begin();
    bz_read_connection_sync(r, 5, 7);
    handed("a sync with a callback of version 7", 0, BOZTERRUN_INVALID_INTERFACE_VERSION);
    check(interface == BOZTERRUN_INTERFACE_CALLBACK && version == 7, "what is told of it");

    r = begin();
    bz_read_handshake_name(r, "a", 1);
    handed("a handshake's name", 0, BOZTERRUN_UNEXPECTED_HANDSHAKE_EVENT);

    static const uint8_t destroyed[14] = {0x28, 0x0e, 0xff, 0, 0, 0, 0, 0, 0, 5, 0, 0, 0, 8};
    r = begin();
    bz_read_keyboard_key(r, device + 3, 30, BOZTERRUN_PRESS);
    bz_read_keyboard_release(r, device + 3);
    bz_read_keyboard_key(r, device + 3, 30, BOZTERRUN_RELEASED);
    check(hand_over(sizeof written) == BOZTERRUN_ACCEPTED && accepted == 3 && count == 14, "a key on what is released");
    check(memcmp(written, destroyed, 14) == 0, "destroyed");
}

/* ---- Each request, in a read and alone ---- */

#define EACH(single, read_call) \
    do { \
        uint8_t alone[OUT]; \
        size_t written_alone = 0; \
        memset(alone, 0xee, sizeof alone); \
        session = busy; \
        const uint32_t answer = single; \
        const bozterrun_session after = session; \
        begin(); \
        session = busy; \
        check(read_call, "room"); \
        check(hand_over(sizeof written) == answer && accepted == (answer == BOZTERRUN_ACCEPTED), #read_call); \
        check(count == written_alone && memcmp(alone, written, sizeof alone) == 0, #read_call ": its events"); \
        check(memcmp(&session, &after, sizeof after) == 0, #read_call ": the session"); \
        requests++; \
        changing += memcmp(&busy, &after, sizeof after) != 0; \
        writing += count != 0; \
    } while (0)
#define ALONE alone, sizeof alone, &written_alone

static void try_each(void)
{
    bozterrun_session *const s = &session;
    bozterrun_read *const r = &gathered;
    const float x = 3.25F, y = -42.0F;
    const uint64_t clock = 77;
    unsigned requests = 0, changing = 0, writing = 0;
    begin();
    must("down", bz_touchscreen_down(s, device + 4, 2, 1.0F, 2.0F));
    must("key", bz_keyboard_key(s, device + 3, 30, BOZTERRUN_PRESS));
    const bozterrun_session busy = session;
    EACH(bz_unexpected_handshake(s, 0, 1, NULL, 0), bz_read_handshake_handshake_version(r, 1));
    EACH(bz_unexpected_handshake(s, 1, 0, NULL, 0), bz_read_handshake_finish(r));
    EACH(bz_unexpected_handshake(s, 2, 2, NULL, 0), bz_read_handshake_context_type(r, 2));
    EACH(bz_unexpected_handshake(s, 3, 0, "\xff", 1), bz_read_handshake_name(r, "\xff", 1));
    EACH(bz_unexpected_handshake(s, 4, 1, "ei_text", 7), bz_read_handshake_interface_version(r, "ei_text", 7, 1));
    EACH(bz_connection_sync(s, 0x1122334455667788, 1, ALONE, NULL, NULL),
         bz_read_connection_sync(r, 0x1122334455667788, 1));
    EACH(bz_connection_disconnect(s), bz_read_connection_disconnect(r));
    EACH(bz_pingpong_done(s), bz_read_pingpong_done(r));
    EACH(bz_seat_release(s, seat, ALONE), bz_read_seat_release(r, seat));
    EACH(bz_seat_bind(s, seat, 0x55), bz_read_seat_bind(r, seat, 0x55));
    EACH(bz_seat_request_device(s, seat, 0x2a), bz_read_seat_request_device(r, seat, 0x2a));
    EACH(bz_device_release(s, device, clock), bz_read_device_release(r, device));
    EACH(bz_device_start_emulating(s, device, 0xfffffffe, 0xfffffffd, clock),
         bz_read_device_start_emulating(r, device, 0xfffffffe, 0xfffffffd));
    EACH(bz_device_stop_emulating(s, device, 0xfffffffc, clock),
         bz_read_device_stop_emulating(r, device, 0xfffffffc));
    EACH(bz_device_frame(s, device, 7, 0xfedcba9876543210), bz_read_device_frame(r, device, 7, 0xfedcba9876543210));
    EACH(bz_device_ready(s, device, clock), bz_read_device_ready(r, device));
    EACH(bz_interface_release(s, BOZTERRUN_CAPABILITY_POINTER, device + 1, ALONE),
         bz_read_pointer_release(r, device + 1));
    EACH(bz_pointer_motion_relative(s, device + 1, x, y), bz_read_pointer_motion_relative(r, device + 1, x, y));
    EACH(bz_interface_release(s, BOZTERRUN_CAPABILITY_POINTER_ABSOLUTE, device + 2, ALONE),
         bz_read_pointer_absolute_release(r, device + 2));
    EACH(bz_pointer_absolute_motion_absolute(s, device + 2, x, y),
         bz_read_pointer_absolute_motion_absolute(r, device + 2, x, y));
    EACH(bz_interface_release(s, BOZTERRUN_CAPABILITY_SCROLL, device + 5, ALONE),
         bz_read_scroll_release(r, device + 5));
    EACH(bz_scroll_scroll(s, device + 5, x, y), bz_read_scroll_scroll(r, device + 5, x, y));
    EACH(bz_scroll_scroll_discrete(s, device + 5, -120, INT32_MIN),
         bz_read_scroll_scroll_discrete(r, device + 5, -120, INT32_MIN));
    EACH(bz_scroll_scroll_stop(s, device + 5, 1, 0, 1), bz_read_scroll_scroll_stop(r, device + 5, 1, 0, 1));
    EACH(bz_interface_release(s, BOZTERRUN_CAPABILITY_BUTTON, device + 6, ALONE),
         bz_read_button_release(r, device + 6));
    EACH(bz_button_button(s, device + 6, 272, BOZTERRUN_PRESS),
         bz_read_button_button(r, device + 6, 272, BOZTERRUN_PRESS));
    EACH(bz_interface_release(s, BOZTERRUN_CAPABILITY_KEYBOARD, device + 3, ALONE),
         bz_read_keyboard_release(r, device + 3));
    EACH(bz_keyboard_key(s, device + 3, UINT32_MAX, BOZTERRUN_RELEASED),
         bz_read_keyboard_key(r, device + 3, UINT32_MAX, BOZTERRUN_RELEASED));
    EACH(bz_interface_release(s, BOZTERRUN_CAPABILITY_TOUCH, device + 4, ALONE),
         bz_read_touchscreen_release(r, device + 4));
    EACH(bz_touchscreen_down(s, device + 4, 3, x, y), bz_read_touchscreen_down(r, device + 4, 3, x, y));
    EACH(bz_touchscreen_motion(s, device + 4, 2, x, y), bz_read_touchscreen_motion(r, device + 4, 2, x, y));
    EACH(bz_touchscreen_up(s, device + 4, 2), bz_read_touchscreen_up(r, device + 4, 2));
    EACH(bz_touchscreen_cancel(s, device + 4, 2, 2, NULL, NULL), bz_read_touchscreen_cancel(r, device + 4, 2, 2));
    EACH(bz_interface_release(s, BOZTERRUN_CAPABILITY_TEXT, device + 7, ALONE), bz_read_text_release(r, device + 7));
    EACH(bz_text_keysym(s, device + 7, 0xff0d, BOZTERRUN_PRESS),
         bz_read_text_keysym(r, device + 7, 0xff0d, BOZTERRUN_PRESS));
    EACH(bz_text_utf8(s, device + 7, "zw\xc3\xb6lf", 6), bz_read_text_utf8(r, device + 7, "zw\xc3\xb6lf", 6));
    /* All but a handshake's five, Sync and Pingpong's Done change the session; Sync and eight Releases write. */
    check(requests == 36 && changing == 29 && writing == 9, "how many requests there are");
}

/* ---- Gathering ---- */

/* Where there is no room nothing changes. */
static void try_room(void)
{
    bozterrun_read r;
    bozterrun_record record = {{{0}}};
    memset(&r, 0x5a, sizeof r);
    bz_read_begin(&r, records, points, 2, texts, 5);
    check(r.count == 0 && r.texts_length == 0, "a fresh read");
    check(bz_read_text_utf8(&r, 9, "abc", 3), "a text of 3 bytes");
    bozterrun_read before = r;
    check(!bz_read_text_utf8(&r, 9, "def", 3), "one of 3 more, with room for 2");
    check(!bz_read_text_utf8(&r, 9, "def", SIZE_MAX), "one as long as can be");
    check(memcmp(&r, &before, sizeof r) == 0, "the read has changed");
    check(bz_read_text_utf8(&r, 9, "de", 2), "one of 2");
    check(records[1].start == 3 && records[1].length == 2 && memcmp(texts, "abcde", 5) == 0, "where the texts lie");
    before = r;
    check(!bz_read_pingpong_done(&r) && !bz_read_text_utf8(&r, 9, "", 0), "a third record, with room for 2");
    check(!bz_read_scroll_scroll(&r, 9, 1.0F, 2.0F) && !bz_read_record(&r, &record, 0, 0), "a third record");
    check(memcmp(&r, &before, sizeof r) == 0, "the read has changed");

    bozterrun_read rest = bz_read_rest(&r, 1);
    check(rest.count == 1 && rest.records == records + 1 && rest.points == points + 1, "the rest behind one");
    check(rest.texts == r.texts && rest.texts_length == 5 && rest.capacity == 1, "its texts and its room");
    rest = bz_read_rest(&r, 99);
    check(rest.count == 0, "the rest behind more than there are");

    bz_read_clear(&r);
    check(r.count == 0 && r.texts_length == 0 && r.capacity == 2 && r.texts_capacity == 5, "an emptied read");
    bz_read_begin(&r, records, points, 1, NULL, 5);
    check(!bz_read_text_utf8(&r, 9, "a", 1), "a text, with no texts");
    check(bz_read_text_utf8(&r, 9, NULL, 5) && records[0].length == 0, "the empty text");
}

static void try_null(void)
{
    bozterrun_read r;
    bozterrun_record record = {{{0}}};
    bz_read_begin(NULL, records, points, 9, texts, 9);
    bz_read_clear(NULL);
    check(bz_read_rest(NULL, 0).count == 0, "the rest of none");
    check(!bz_read_record(NULL, &record, 0, 0) && !bz_read_pingpong_done(NULL), "a record for no read");
    check(!bz_read_text_utf8(NULL, 9, "a", 1) && !bz_read_scroll_scroll(NULL, 9, 1.0F, 2.0F), "a record for no read");
    bz_read_begin(&r, NULL, points, 9, texts, 9);
    check(!bz_read_pingpong_done(&r) && !bz_read_text_utf8(&r, 9, "a", 1), "no records");
    bz_read_begin(&r, records, NULL, 9, texts, 9);
    check(!bz_read_pingpong_done(&r) && !bz_read_record(&r, &record, 0, 0), "no points");
    bz_read_begin(&r, records, points, 9, texts, 9);
    check(!bz_read_record(&r, NULL, 0, 0) && r.count == 0, "no record");

    /* An empty read needs no arrays, and nobody has to be told anything. */
    begin();
    bz_read_begin(&r, NULL, NULL, 0, NULL, 0);
    check(bz_handle_requests(&session, &r, 77, NULL, 9, NULL, NULL, NULL, NULL) == BOZTERRUN_ACCEPTED, "an empty read");
    accepted = count = 99;
    interface = version = 99;
    check(bz_handle_requests(NULL, &r, 77, written, 9, &accepted, &count, &interface, &version) == BOZTERRUN_BAD_STATE,
          "no session");
    check(accepted == 0 && count == 0 && interface == 0 && version == 0, "what is told of none");
    accepted = count = 99;
    check(bz_handle_requests(&session, NULL, 77, written, 9, &accepted, &count, NULL, NULL) == BOZTERRUN_BAD_STATE,
          "no read");
    check(accepted == 0 && count == 0, "what is told of none");
    bz_read_connection_sync(begin(), 5, 1);
    check(bz_handle_requests(&session, &gathered, 77, NULL, 1000, &accepted, NULL, NULL, NULL) == BOZTERRUN_SHORT_OUT &&
              accepted == 0,
          "no out");
    check(memcmp(&session, &fresh, sizeof session) == 0, "the session has changed");
}

int main(void)
{
    device = begin_session(1, 127);
    seat = device - 1;
    fresh = session;
    try_empty();
    try_keys();
    try_refused();
    try_out();
    try_parts();
    try_limits();
    try_details();
    try_each();
    try_room();
    try_null();
    printf("reads: %lu tests, %lu failed\n", tests, failures);
    return failures != 0;
}
