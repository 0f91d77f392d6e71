/* What several of the tests begin with: a session whose client knows every interface, and one seat. */
#ifndef SESSION_H
#define SESSION_H

#include "bozterrun.h"
#include <stdio.h>
#include <stdlib.h>
#include <string.h>

static bozterrun_session session;
static uint8_t out[BOZTERRUN_OUT_LENGTH];

static void must(const char *what, uint32_t answer)
{
    if (answer != BOZTERRUN_ACCEPTED) {
        fprintf(stderr, "%s: %s\n", what, bz_refusal_name(answer));
        exit(2);
    }
}

/* The first device; the others follow it, behind its interfaces. */
static uint64_t begin_session(unsigned devices, uint64_t capabilities)
{
    bozterrun_handshake handshake;
    uint64_t seat, first = 0, device;
    must("handshake_new", bz_handshake_new(&handshake, 7, out, sizeof out, NULL));
    for (uint32_t i = BOZTERRUN_INTERFACE_CONNECTION; i <= BOZTERRUN_INTERFACE_TEXT; i++) {
        const char *const name = bz_interface_name(i);
        must("interface_version", bz_handshake_interface_version(&handshake, name, strlen(name), 9));
    }
    must("finish", bz_handshake_finish(&handshake, &session, out, sizeof out, NULL));
    must("add_seat", bz_add_seat(&session, NULL, 0, capabilities, out, sizeof out, NULL, &seat));
    for (unsigned i = 0; i < devices; i++) {
        must("add_device", bz_add_device(&session, seat, NULL, 0, BOZTERRUN_DEVICE_TYPE_VIRTUAL, capabilities, out,
                                         sizeof out, NULL, &device));
        first = i == 0 ? device : first;
    }
    return first;
}

#endif
