/*
 * text_store: what becomes of a session's texts. Each call here is made on a session whose memory was 0xee before it
 * began, and the texts are compared byte by byte with what they were: a frame, a flush, a delivery, a removal and a
 * refusal leave every byte; a text that is taken is written to one slot, and no other byte of the texts is.
 *
 * The last line has the number of tests and of failures; the exit status is 1 where there are failures.
 */
#include "session.h"

enum { SLOT = 256, SLOTS = BOZTERRUN_TEXTS_LENGTH / SLOT, LONGEST = 254, KEYS = 64, QUEUE = 256 };

static const uint64_t both = BOZTERRUN_CAPABILITY_KEYBOARD | BOZTERRUN_CAPABILITY_TEXT;

static unsigned long tests, failures;
static bozterrun_session before;
static uint64_t device; /* its keyboard and its text interface follow it */

static void check(bool holds, const char *what)
{
    tests++;
    if (!holds) {
        failures++;
        if (failures <= 20) {
            printf("FAILED: %s\n", what);
        }
    }
}

static void begin(unsigned devices)
{
    memset(&session, 0xee, sizeof session);
    device = begin_session(devices, both);
    before = session;
}

static bool same_texts(void)
{
    return memcmp(session.texts, before.texts, sizeof session.texts) == 0;
}

/* A call with this answer, which leaves the texts as they were. */
static void keeps(const char *what, uint32_t answer, uint32_t wanted)
{
    check(answer == wanted, what);
    check(same_texts(), what);
    before = session;
}

/* A refused or ignored one, which leaves all four slices. */
static void leaves(const char *what, uint32_t answer, uint32_t wanted)
{
    check(answer == wanted, what);
    check(memcmp(&session, &before, sizeof session) == 0, what);
}

/*
 * A text that was taken: the slot that it was put in. Its bytes, and none besides, were written. So that the slot can
 * be told, no test sends a text twice.
 */
static size_t stored(const char *what, uint32_t answer, const uint8_t *text, size_t length)
{
    size_t slot = 0;
    while (slot < SLOTS - 1 && memcmp(session.texts + SLOT * slot, before.texts + SLOT * slot, SLOT) == 0) {
        slot++;
    }
    check(answer == BOZTERRUN_ACCEPTED, what);
    memcpy(before.texts + SLOT * slot, text, length);
    check(same_texts(), what);
    before = session;
    return slot;
}

static size_t send(const char *what, uint64_t interface, const uint8_t *text, size_t length)
{
    return stored(what, bz_text_utf8(&session, interface, text, length), text, length);
}

static size_t send_two(const char *text, uint64_t interface)
{
    return send("a text of two bytes", interface, (const uint8_t *)text, 2);
}

/* A text of the longest length, another one for each number. */
static const uint8_t *longest(unsigned number)
{
    static uint8_t text[LONGEST];
    memset(text, 'a', sizeof text);
    text[0] = (uint8_t)('A' + number % 26);
    text[1] = (uint8_t)('a' + number / 26);
    return text;
}

/* The next delivered request is of this kind and has this time; a text is this one. */
static void given(const char *what, uint32_t kind, uint64_t time, const uint8_t *text, size_t length)
{
    bozterrun_request request;
    uint8_t buffer[LONGEST];
    keeps(what, bz_next_request(&session, &request, buffer, sizeof buffer), BOZTERRUN_ACCEPTED);
    check(bz_request_kind(&request) == kind, what);
    check(kind == BOZTERRUN_REQUEST_READY || kind == BOZTERRUN_REQUEST_DEVICE_CLOSED ||
              kind == BOZTERRUN_REQUEST_DEVICE_START_EMULATING || kind == BOZTERRUN_REQUEST_DEVICE_STOP_EMULATING ||
              request.time == time,
          what);
    if (kind == BOZTERRUN_REQUEST_TEXT_UTF8) {
        check(request.length == length && memcmp(buffer, text, length) == 0, what);
    }
}

static void given_two(const char *what, uint64_t time, const char *text)
{
    given(what, BOZTERRUN_REQUEST_TEXT_UTF8, time, (const uint8_t *)text, 2);
}

/* ---- By hand ---- */

static void try_frame(void)
{
    begin(1);
    check(session.texts[0] == 0xee && memcmp(session.texts, session.texts + 1, sizeof session.texts - 1) == 0,
          "a session's beginning writes texts");
    const size_t slot = send_two("ab", device + 2);
    check(memcmp(session.texts + SLOT * slot, "ab\xee\xee", 4) == 0, "what lies behind a text has changed");
    keeps("frame", bz_device_frame(&session, device, 7, 5), BOZTERRUN_ACCEPTED);
    given_two("the framed text", 5, "ab");
    given("its Frame", BOZTERRUN_REQUEST_FRAME, 5, NULL, 0);
    keeps("frame with nothing pending", bz_device_frame(&session, device, 7, 6), BOZTERRUN_ACCEPTED);
    for (uint32_t key = 0; key < KEYS; key++) {
        keeps("key", bz_keyboard_key(&session, device + 1, key, BOZTERRUN_PRESS), BOZTERRUN_ACCEPTED);
    }
    keeps("frame of 64 keys", bz_device_frame(&session, device, 7, 7), BOZTERRUN_ACCEPTED);
}

static void flushed(const char *what, const char *text, uint32_t answer, uint32_t kind)
{
    keeps(what, answer, BOZTERRUN_ACCEPTED);
    given_two(what, 70, text);
    given(what, BOZTERRUN_REQUEST_FRAME, 70, NULL, 0);
    given(what, kind, 0, NULL, 0);
}

static void try_flushes(void)
{
    begin(1);
    send_two("ab", device + 2);
    flushed("ready", "ab", bz_device_ready(&session, device, 70), BOZTERRUN_REQUEST_READY);
    send_two("cd", device + 2);
    flushed("start_emulating", "cd", bz_device_start_emulating(&session, device, 7, 1, 70),
            BOZTERRUN_REQUEST_DEVICE_START_EMULATING);
    send_two("ef", device + 2);
    flushed("stop_emulating", "ef", bz_device_stop_emulating(&session, device, 7, 70),
            BOZTERRUN_REQUEST_DEVICE_STOP_EMULATING);
    send_two("gh", device + 2);
    flushed("release", "gh", bz_device_release(&session, device, 70), BOZTERRUN_REQUEST_DEVICE_CLOSED);
}

static void try_full_texts(void)
{
    bool used[SLOTS] = {false};
    begin(1);
    size_t first = 0;
    for (unsigned i = 0; i < SLOTS; i++) {
        const size_t slot = send("one of 32 texts", device + 2, longest(i), LONGEST);
        check(!used[slot], "two texts in a slot");
        used[slot] = true;
        first = i == 0 ? slot : first;
    }
    leaves("a 33rd text, pending", bz_text_utf8(&session, device + 2, longest(40), LONGEST), BOZTERRUN_FULL_TEXTS);
    keeps("frame of 32 texts", bz_device_frame(&session, device, 7, 9), BOZTERRUN_ACCEPTED);
    leaves("a 33rd text, queued", bz_text_utf8(&session, device + 2, longest(40), LONGEST), BOZTERRUN_FULL_TEXTS);
    given("the first of 32", BOZTERRUN_REQUEST_TEXT_UTF8, 9, longest(0), LONGEST);
    check(send("a text in the place of a delivered one", device + 2, longest(41), LONGEST) == first, "a used slot");
    for (unsigned i = 1; i < SLOTS; i++) {
        given("the others of 32", BOZTERRUN_REQUEST_TEXT_UTF8, 9, longest(i), LONGEST);
    }
}

/* 192 queued and 64 pending need one entry more than there are; 191 and 64 fit. */
static void try_full_queue(void)
{
    for (unsigned queued = QUEUE - KEYS - 1; queued <= QUEUE - KEYS; queued++) {
        begin(1);
        for (unsigned i = 0; i < queued; i++) {
            keeps("disconnect", bz_connection_disconnect(&session), BOZTERRUN_ACCEPTED);
        }
        for (unsigned i = 0; i < KEYS / 2; i++) {
            send("a text of 32", device + 2, longest(i), LONGEST);
            keeps("a key of 32", bz_keyboard_key(&session, device + 1, i, BOZTERRUN_PRESS), BOZTERRUN_ACCEPTED);
        }
        if (queued == QUEUE - KEYS) {
            leaves("frame, the queue full", bz_device_frame(&session, device, 7, 9), BOZTERRUN_FULL_QUEUE);
            leaves("ready, the queue full", bz_device_ready(&session, device, 9), BOZTERRUN_FULL_QUEUE);
        } else {
            keeps("frame of 32 texts and 32 keys", bz_device_frame(&session, device, 7, 9), BOZTERRUN_ACCEPTED);
        }
    }
}

static void try_two_devices(void)
{
    begin(2);
    const uint64_t other = device + 3; /* behind the first device's two interfaces */
    const size_t slot = send_two("ab", device + 2);
    check(send_two("cd", other + 2) != slot, "one slot for two texts");
    keeps("frame of the other", bz_device_frame(&session, other, 7, 5), BOZTERRUN_ACCEPTED);
    given_two("the other's text first", 5, "cd");
    for (unsigned i = 1; i < SLOTS; i++) {
        send("one of 31 more", other + 2, longest(i), LONGEST);
    }
    leaves("a 33rd text", bz_text_utf8(&session, other + 2, (const uint8_t *)"ef", 2), BOZTERRUN_FULL_TEXTS);
    keeps("remove the first", bz_remove_device(&session, device, out, sizeof out, NULL), BOZTERRUN_ACCEPTED);
    check(send_two("ef", other + 2) == slot, "a lost text's slot is not free");
}

static void try_refused(void)
{
    begin(1);
    const uint64_t text = device + 2;
    leaves("no byte", bz_text_utf8(&session, text, (const uint8_t *)"", 0), BOZTERRUN_INVALID_TEXT_LENGTH);
    uint8_t long_text[LONGEST + 1];
    memset(long_text, 'a', sizeof long_text);
    leaves("255 bytes", bz_text_utf8(&session, text, long_text, sizeof long_text), BOZTERRUN_INVALID_TEXT_LENGTH);
    leaves("no UTF-8", bz_text_utf8(&session, text, (const uint8_t *)"\x80", 1), BOZTERRUN_BAD_UTF8);
    leaves("no interface", bz_text_utf8(&session, device + 99, (const uint8_t *)"ab", 2), BOZTERRUN_ACCEPTED);
    for (uint32_t key = 0; key < KEYS; key++) {
        keeps("keysym", bz_text_keysym(&session, text, key, BOZTERRUN_PRESS), BOZTERRUN_ACCEPTED);
    }
    leaves("64 pending", bz_text_utf8(&session, text, (const uint8_t *)"ab", 2), BOZTERRUN_FULL_PENDING);
    session.control[3] = 5; /* seats: one too many */
    before = session;
    leaves("a damaged session", bz_text_utf8(&session, text, (const uint8_t *)"ab", 2), BOZTERRUN_BAD_STATE);
}

/* A text and its frame, in one read and as two messages. */
static void try_reads_and_messages(void)
{
    bozterrun_record records[4];
    bozterrun_point points[4];
    bozterrun_read read;
    uint8_t texts[4];
    size_t accepted, taken;
    uint32_t interface, version;
    bozterrun_details details;
    begin(1);
    bz_read_begin(&read, records, points, 4, texts, sizeof texts);
    check(bz_read_text_utf8(&read, device + 2, (const uint8_t *)"ab", 2), "the read is full");
    check(bz_read_device_frame(&read, device, 7, 5), "the read is full");
    uint32_t answer = bz_handle_requests(&session, &read, 70, out, sizeof out, &accepted, NULL, &interface, &version);
    stored("a read with a text", answer, (const uint8_t *)"ab", 2);
    check(accepted == 2, "not both are accepted");
    bz_read_begin(&read, records, points, 4, texts, sizeof texts);
    check(bz_read_keyboard_key(&read, device + 1, 30, BOZTERRUN_PRESS), "the read is full");
    check(bz_read_device_frame(&read, device, 7, 6), "the read is full");
    answer = bz_handle_requests(&session, &read, 70, out, sizeof out, &accepted, NULL, &interface, &version);
    keeps("a read without a text", answer, BOZTERRUN_ACCEPTED);
    /* object, length, opcode; Utf8's text of two bytes with its closing zero, Frame's serial and time */
    uint8_t utf8[24] = {[8] = 24, [12] = 2, [16] = 3, [20] = 'c', 'd'};
    uint8_t frame[28] = {[8] = 28, [12] = 3, [16] = 7, [20] = 9};
    for (unsigned i = 0; i < 8; i++) {
        utf8[i] = (uint8_t)((device + 2) >> (8 * i));
        frame[i] = (uint8_t)(device >> (8 * i));
    }
    answer = bz_pending_request(&session, utf8, sizeof utf8, 70, out, sizeof out, &taken, NULL, &details);
    stored("a text's message", answer, (const uint8_t *)"cd", 2);
    answer = bz_pending_request(&session, frame, sizeof frame, 70, out, sizeof out, &taken, NULL, &details);
    keeps("a frame's message", answer, BOZTERRUN_ACCEPTED);
    check(taken == sizeof frame, "not the whole message is taken");
    given_two("the read's text", 5, "ab");
}

int main(void)
{
    try_frame();
    try_flushes();
    try_full_texts();
    try_full_queue();
    try_two_devices();
    try_refused();
    try_reads_and_messages();
    printf("text_store: %lu tests, %lu failures\n", tests, failures);
    return failures != 0;
}
