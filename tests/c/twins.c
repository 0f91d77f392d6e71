/*
 * twins SEED LENGTH: a session of 40 rounds over every timed request, one by one, then in a read, then as messages,
 * which is the same for every SEED but for its payload. It prints every answer without the payload, so two seeds must
 * print the same.
 *
 * Payload is what docs/PROMISES.md and model/specs/Payload have for it: keys, buttons, keysyms and their states,
 * coordinates, amounts, the axes of a stop, and the bytes of a text. Texts have LENGTH bytes (1 to 254); those of an
 * even SEED are ASCII, those of an odd one have characters of all widths. Coordinates are odd patterns half of the
 * time. tests/timing.py counts the instructions of each call over several seeds.
 */
#include "session.h"
#include "utf8.h"
#include <inttypes.h>

static uint64_t device;

static float random_real(void)
{
    static const uint32_t odd[] = {0x7f800000, 0xff800000, 0x7fc00000, 0xffc00001, 0x7f800001, 0xffbfffff,
                                   0x80000000, 0x00000000, 0x00000001, 0x80000001, 0x7f7fffff, 0x3f800000};
    const uint64_t any = next_random();
    const uint32_t bits = (any & 1) != 0 ? odd[(any >> 1) % (sizeof odd / sizeof odd[0])] : (uint32_t)(any >> 32);
    float f;
    memcpy(&f, &bits, sizeof f);
    return f;
}

static uint32_t random_32(void)
{
    return (uint32_t)next_random();
}

static uint32_t random_state_of_press(void)
{
    return (uint32_t)below(2);
}

static void tell(const char *call, uint32_t answer)
{
    printf("%s %" PRIu32 "\n", call, answer);
}

/*
 * A round. Touch ids, is_cancel and times are no payload, so they hang on the round alone. The touch of two rounds ago
 * goes up or is cancelled in turn.
 */
static void send_round(unsigned round, const char *makeup, size_t length)
{
    bozterrun_session *const s = &session;
    uint8_t text[BOZTERRUN_NAME_LENGTH];
    const uint32_t touch = round % 7, held = (round + 5) % 7, none = 99;
    const float x = random_real();
    tell("key", bz_keyboard_key(s, device + 3, random_32(), random_state_of_press()));
    tell("button", bz_button_button(s, device + 6, random_32(), random_state_of_press()));
    tell("motion", bz_pointer_motion_relative(s, device + 1, x, random_real()));
    tell("absolute motion", bz_pointer_absolute_motion_absolute(s, device + 2, random_real(), x));
    tell("scroll", bz_scroll_scroll(s, device + 5, x, random_real()));
    tell("discrete", bz_scroll_scroll_discrete(s, device + 5, (int32_t)random_32(), (int32_t)random_32()));
    tell("stop", bz_scroll_scroll_stop(s, device + 5, (uint32_t)below(3), (uint32_t)below(3), round % 2));
    tell("keysym", bz_text_keysym(s, device + 7, random_32(), random_state_of_press()));
    tell("down", bz_touchscreen_down(s, device + 4, touch, x, random_real()));
    tell("touch motion", bz_touchscreen_motion(s, device + 4, touch, random_real(), x));
    tell("touch motion", bz_touchscreen_motion(s, device + 4, none, random_real(), x));
    tell("up", bz_touchscreen_up(s, device + 4, round % 2 == 0 ? held : none));
    tell("cancel", bz_touchscreen_cancel(s, device + 4, 2, round % 2 == 0 ? none : held, NULL, NULL));
    fill_text(text, length, makeup);
    tell("utf8", bz_text_utf8(s, device + 7, text, length));
    tell("frame", bz_device_frame(s, device, 7, 1000 + round));
}

/* The same again in a read, but for the cancel: the touch of the round before goes up. */
static void read_round(unsigned round, const char *makeup, size_t length)
{
    static bozterrun_record records[16];
    static bozterrun_point points[16];
    static uint8_t texts[BOZTERRUN_NAME_LENGTH];
    bozterrun_read r;
    uint8_t text[BOZTERRUN_NAME_LENGTH];
    size_t accepted, written;
    const float x = random_real();
    bz_read_begin(&r, records, points, 16, texts, sizeof texts);
    bz_read_keyboard_key(&r, device + 3, random_32(), random_state_of_press());
    bz_read_button_button(&r, device + 6, random_32(), random_state_of_press());
    bz_read_pointer_motion_relative(&r, device + 1, x, random_real());
    bz_read_pointer_absolute_motion_absolute(&r, device + 2, random_real(), x);
    bz_read_scroll_scroll(&r, device + 5, x, random_real());
    bz_read_scroll_scroll_discrete(&r, device + 5, (int32_t)random_32(), (int32_t)random_32());
    bz_read_scroll_scroll_stop(&r, device + 5, (uint32_t)below(3), (uint32_t)below(3), round % 2);
    bz_read_text_keysym(&r, device + 7, random_32(), random_state_of_press());
    bz_read_touchscreen_down(&r, device + 4, 50 + round, x, random_real());
    bz_read_touchscreen_motion(&r, device + 4, 50 + round, random_real(), x);
    bz_read_touchscreen_up(&r, device + 4, 49 + round);
    fill_text(text, length, makeup);
    bz_read_text_utf8(&r, device + 7, text, length);
    bz_read_connection_sync(&r, round, 1);
    bz_read_device_frame(&r, device, 7, 2000 + round);
    tell("read", bz_handle_requests(&session, &r, 5, out, sizeof out, &accepted, &written, NULL, NULL));
    printf("accepted %zu, %zu bytes\n", accepted, written);
}

/* ---- Messages ---- */

static uint8_t message[BOZTERRUN_MESSAGE_LENGTH];
static size_t message_length;

static void put(uint64_t n, size_t width)
{
    memcpy(message + message_length, &n, width); /* little-endian, as the machine */
    message_length += width;
}

static void put_real(float f)
{
    memcpy(message + message_length, &f, sizeof f);
    message_length += sizeof f;
}

static void begin_message(uint64_t object, uint32_t opcode)
{
    message_length = 0;
    put(object, 8);
    put(0, 4);
    put(opcode, 4);
}

static void send_message(const char *call)
{
    size_t taken, written;
    bozterrun_details details;
    const uint32_t length = (uint32_t)message_length;
    memcpy(message + 8, &length, sizeof length);
    tell(call, bz_pending_request(&session, message, message_length, 6, out, sizeof out, &taken, &written, &details));
    printf("taken %zu, %zu bytes, case %" PRIu32 "\n", taken, written, details.parse_error);
}

/* And as messages, a Sync behind them. */
static void message_round(unsigned round, const char *makeup, size_t length)
{
    const float x = random_real();
    begin_message(device + 3, 1);
    put(random_32(), 4);
    put(random_state_of_press(), 4);
    send_message("key");
    begin_message(device + 6, 1);
    put(random_32(), 4);
    put(random_state_of_press(), 4);
    send_message("button");
    begin_message(device + 1, 1);
    put_real(x);
    put_real(random_real());
    send_message("motion");
    begin_message(device + 2, 1);
    put_real(random_real());
    put_real(x);
    send_message("absolute motion");
    begin_message(device + 5, 1);
    put_real(x);
    put_real(random_real());
    send_message("scroll");
    begin_message(device + 5, 2);
    put(random_32(), 4);
    put(random_32(), 4);
    send_message("discrete");
    begin_message(device + 5, 3);
    put(below(3), 4);
    put(below(3), 4);
    put(round % 2, 4);
    send_message("stop");
    begin_message(device + 7, 1);
    put(random_32(), 4);
    put(random_state_of_press(), 4);
    send_message("keysym");
    begin_message(device + 4, 1);
    put(150 + round, 4);
    put_real(x);
    put_real(random_real());
    send_message("down");
    begin_message(device + 4, 2);
    put(150 + round, 4);
    put_real(random_real());
    put_real(x);
    send_message("touch motion");
    begin_message(device + 4, round % 2 == 0 ? 3 : 4);
    put(149 + round, 4);
    send_message("up or cancel");
    begin_message(device + 7, 2);
    put(length + 1, 4);
    fill_text(message + message_length, length, makeup);
    memset(message + message_length + length, 0, 4);
    message_length += (length + 4) / 4 * 4;
    send_message("utf8");
    begin_message(0xff00000000000000, 0);
    put(1 + round, 8);
    put(1, 4);
    send_message("sync");
    begin_message(device, 3);
    put(7, 4);
    put(3000 + round, 8);
    send_message("frame");
}

/* What is given, but for its payload. */
static void take_round(void)
{
    bozterrun_request r;
    uint8_t buffer[BOZTERRUN_NAME_LENGTH];
    uint32_t answer;
    while ((answer = bz_next_request(&session, &r, buffer, sizeof buffer)) == BOZTERRUN_ACCEPTED) {
        printf("given kind %" PRIu64 " device %" PRIx64 " time %" PRIu64, r.kind, r.device, r.time);
        if (r.kind == BOZTERRUN_REQUEST_TEXT_UTF8) {
            printf(" length %u", r.length);
        } else if (r.kind >= BOZTERRUN_REQUEST_TOUCH_DOWN && r.kind <= BOZTERRUN_REQUEST_TOUCH_CANCEL) {
            printf(" touch %" PRIu32, r.touch_id);
        }
        printf("\n");
    }
    tell("next_request", answer);
}

int main(int count, char **words)
{
    const uint64_t seed = count > 2 ? strtoull(words[1], NULL, 10) : 0;
    const size_t length = count > 2 ? strtoul(words[2], NULL, 10) : 0;
    uint64_t serial;
    if (count != 3 || length < 1 || length > BOZTERRUN_NAME_LENGTH) {
        fprintf(stderr, "usage: twins SEED LENGTH\n");
        return 2;
    }
    random_state = seed;
    device = begin_session(1, 127);
    for (unsigned round = 0; round < 40; round++) {
        const char *const makeup = seed % 2 == 0 ? "ascii" : "mixed";
        send_round(round, makeup, length);
        take_round();
        read_round(round, makeup, length);
        take_round();
        message_round(round, makeup, length);
        take_round();
        tell("last_serial", bz_last_serial(&session, &serial));
        printf("serial %" PRIu64 "\n", serial);
    }
    return 0;
}
