/*
 * A counter station in one program: a client shakes hands, a clerk keys a token of twenty digits and types a line, and
 * the client goes. The client's side, which would come from a socket, is played by main.
 *
 *   gcc -std=c11 -O2 -Iinclude examples/station.c crates/bozterrun/out/libbozterrun.a -o station && ./station
 *
 * It writes what examples/station.out has: `sent` is what the client is told, the other lines are what was delivered.
 */
#include "bozterrun.h"
#include <inttypes.h>
#include <stdio.h>
#include <stdlib.h>
#include <string.h>

static bozterrun_session session;
static uint8_t out[BOZTERRUN_OUT_LENGTH];
static uint64_t seat, keyboard_device, text_device;
static uint32_t last_serial; /* the last one that the client was told */
static char token[21];

/* Nothing is refused here. A station would tell a client that breaks a rule by bz_disconnected, and go on. */
static void must(const char *call, uint32_t answer)
{
    if (answer != BOZTERRUN_ACCEPTED) {
        printf("%s: %s. %s\n", call, bz_refusal_name(answer), bz_refusal_text(answer));
        exit(1);
    }
}

static void name_event(uint32_t kind, unsigned times)
{
    static const char *const names[] = {
        "", "seat", "name", "capability", "done", "destroyed", "device", "device type", "interface", "resumed",
        "paused", "start emulating", "stop emulating", "frame", "disconnected", "callback done", "handshake version",
        "interface version", "connection"};
    if (times > 1) {
        printf(" %s x%u,", names[kind], times);
    } else if (times == 1) {
        printf(" %s,", names[kind]);
    }
}

/* The event records that a call wrote. A station sends them, each as its bz_write_message; here they are named. */
static void send_events(size_t count)
{
    bozterrun_event event;
    uint32_t kind = 0;
    unsigned times = 0;
    size_t at = 0;
    printf("sent");
    while (bz_next_event(out, count, &at, &event)) {
        if (event.kind != kind) {
            name_event(kind, times);
            times = 0;
        }
        kind = event.kind;
        times++;
        if (kind == BOZTERRUN_EVENT_RESUMED) {
            last_serial = event.serial;
        }
    }
    name_event(kind, times);
    printf(" %zu bytes\n", count);
}

/* A delivered request. Keys and texts come before the frame that gave them their time. */
static void act(const bozterrun_request *r, const char *text)
{
    static const char digits[] = "1234567890"; /* of the keys 2 to 11 */
    size_t count;
    switch (bz_request_kind(r)) {
    case BOZTERRUN_REQUEST_BIND: /* the client wants the seat's capabilities: it gets a device for each */
        printf("bind of %" PRIu64 "\n", r->capabilities);
        must("add_device", bz_add_device(&session, r->seat, "keys", 4, BOZTERRUN_DEVICE_TYPE_VIRTUAL,
                                         BOZTERRUN_CAPABILITY_KEYBOARD, out, sizeof out, &count, &keyboard_device));
        send_events(count);
        must("add_device", bz_add_device(&session, r->seat, NULL, 0, BOZTERRUN_DEVICE_TYPE_VIRTUAL,
                                         BOZTERRUN_CAPABILITY_TEXT, out, sizeof out, &count, &text_device));
        send_events(count);
        break;
    case BOZTERRUN_REQUEST_READY: /* the client knows the device: from now on it may send */
        printf("device %" PRIx64 " is ready\n", r->device);
        must("resumed", bz_resumed(&session, r->device, out, sizeof out, &count));
        send_events(count);
        break;
    case BOZTERRUN_REQUEST_DEVICE_START_EMULATING:
        printf("device %" PRIx64 " starts, sequence %" PRIu32 "\n", r->device, r->sequence);
        break;
    case BOZTERRUN_REQUEST_KEYBOARD_KEY:
        printf("key %" PRIu32 " %s, ", r->key, r->state == BOZTERRUN_PRESS ? "press" : "released");
        if (r->state == BOZTERRUN_PRESS && r->key >= 2 && r->key <= 11 && strlen(token) < 20) {
            token[strlen(token)] = digits[r->key - 2];
        }
        break;
    case BOZTERRUN_REQUEST_TEXT_UTF8:
        printf("text \"%.*s\", ", (int)r->length, text);
        break;
    case BOZTERRUN_REQUEST_FRAME:
        printf("frame at %" PRIu64 "\n", r->time);
        break;
    case BOZTERRUN_REQUEST_DISCONNECT:
        printf("the client disconnects\n");
        must("disconnected", bz_disconnected(&session, BOZTERRUN_REASON_DISCONNECTED, "bye", 3, out, sizeof out,
                                             &count));
        send_events(count);
        break;
    default: /* kinds that this client does not send */
        break;
    }
}

/* The loop's inner part: behind each message of the client, all that is queued, oldest first. */
static void deliver(const char *call, uint32_t answer)
{
    bozterrun_request request;
    char text[BOZTERRUN_NAME_LENGTH];
    must(call, answer);
    while ((answer = bz_next_request(&session, &request, text, sizeof text)) == BOZTERRUN_ACCEPTED) {
        act(&request, text);
    }
    if (answer != BOZTERRUN_NONE) {
        must("next_request", answer);
    }
}

int main(void)
{
    static const char keyed[] = "40212793481106225835", line[] = "tariff 7, 40 kWh à 0,31 €";
    bozterrun_handshake handshake;
    size_t count, length;
    if (bz_check() != 0) {
        printf("bozterrun.h is not the library's: place %zu\n", bz_check());
        return 1;
    }

    /* The handshake. The client knows every interface, in versions at least as new as the server's. */
    must("handshake_new", bz_handshake_new(&handshake, 7, out, sizeof out, &count));
    send_events(count);
    must("handshake_version", bz_handshake_handshake_version(&handshake, 1));
    must("name", bz_handshake_name(&handshake, "tariff counter 3", 16));
    must("context_type", bz_handshake_context_type(&handshake, BOZTERRUN_CONTEXT_TYPE_SENDER));
    for (uint32_t i = BOZTERRUN_INTERFACE_CONNECTION; i <= BOZTERRUN_INTERFACE_TEXT; i++) {
        const char *name = bz_interface_name(i);
        must("interface_version", bz_handshake_interface_version(&handshake, name, strlen(name), 3));
    }
    must("finish", bz_handshake_finish(&handshake, &session, out, sizeof out, &count));
    send_events(count);
    must("client", bz_handshake_client(&handshake, NULL, &length, NULL));
    printf("client \"%.*s\"\n", (int)length, (const char *)handshake.name);

    /* The station announces a seat; the client binds it, and is ready for the devices that it gets. */
    must("add_seat", bz_add_seat(&session, "counter 3", 9, BOZTERRUN_CAPABILITY_KEYBOARD | BOZTERRUN_CAPABILITY_TEXT,
                                 out, sizeof out, &count, &seat));
    send_events(count);
    deliver("bind", bz_seat_bind(&session, seat, BOZTERRUN_CAPABILITY_KEYBOARD | BOZTERRUN_CAPABILITY_TEXT));
    deliver("ready", bz_device_ready(&session, keyboard_device, 900));
    deliver("ready", bz_device_ready(&session, text_device, 901));
    deliver("start_emulating", bz_device_start_emulating(&session, keyboard_device, last_serial, 1, 902));
    deliver("start_emulating", bz_device_start_emulating(&session, text_device, last_serial, 2, 903));

    /* The clerk keys the token. A device's interfaces have the ids behind its own: each of these has but one. */
    for (uint32_t i = 0; i < 20; i++) {
        const uint32_t key = keyed[i] == '0' ? 11 : (uint32_t)(keyed[i] - '0') + 1;
        must("key", bz_keyboard_key(&session, keyboard_device + 1, key, BOZTERRUN_PRESS));
        must("key", bz_keyboard_key(&session, keyboard_device + 1, key, BOZTERRUN_RELEASED));
        deliver("frame", bz_device_frame(&session, keyboard_device, last_serial, 1000 + 100 * i));
    }
    printf("token %s\n", token);
    must("utf8", bz_text_utf8(&session, text_device + 1, line, sizeof line - 1));
    deliver("frame", bz_device_frame(&session, text_device, last_serial, 3500));

    deliver("disconnect", bz_connection_disconnect(&session));
    return 0;
}
