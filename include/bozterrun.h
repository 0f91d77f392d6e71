/*
 * Bozterrun: the input server of counter stations, for C11 and C++. Link with libbozterrun.a (x86-64 Linux).
 *
 * The model.
 *   - A session lies in memory that the caller owns: a bozterrun_session, 46,848 bytes. So does the handshake that it
 *     begins with. The library allocates nothing, locks nothing, blocks nowhere and keeps nothing between two calls.
 *   - The client's messages are handed over as the bytes that were received, one message a call (bz_pending_request,
 *     in the handshake bz_handshake_pending_request); or the caller decodes them, and each becomes one call, or a
 *     record of a read, which hands over many in one call. What the client is to be sent comes back as event records
 *     in `out`: bz_next_event reads them, and bz_write_message turns each into the bytes of its message. What the clerk
 *     did comes back from bz_next_request.
 *   - A call answers 0 (BOZTERRUN_ACCEPTED) or the number of a refusal. After a refusal the session, the handshake and
 *     every lent buffer are as they were, byte for byte (of the bits of a NaN that is tested, not proved). Four calls
 *     say where they part from that: bz_handshake_new, bz_handshake_finish, bz_handshake_pending_request, and
 *     bz_handle_requests, which keeps what it accepted. 64 to 66 are no refusals of the protocol: BOZTERRUN_NONE,
 *     BOZTERRUN_BAD_ARGUMENT, BOZTERRUN_WAIT. They too leave everything as it was.
 *   - A client's request on an object that is not known is accepted and does nothing. A message's bytes say which
 *     object they are for: where none with that id is alive they are refused (BOZTERRUN_NO_OBJECT).
 *   - Any thread may make a call, one at a time on one session. Calls on different sessions share nothing.
 *   - Nothing that a caller hands in makes the library read or write outside what it was lent. That is proved of the
 *     library; it is up to the caller that each pointer is valid for its length, that uint64_t and float are aligned,
 *     and that no two slices of one call overlap.
 *
 * The names. bozterrun_X is a function of the library: a slice is a pointer, never NULL, and its length. bz_X below it
 * is the same call over the structs, and what programs call. Types begin with bozterrun_, numbers with BOZTERRUN_.
 *
 * What holds for every bz_X. A NULL session, handshake, request or read answers BOZTERRUN_BAD_STATE, before all else.
 * A NULL name or explanation is one that is not given. Any other NULL text is the empty text. A NULL out or buffer has
 * length 0. Texts are void pointers, so that char and uint8_t arrays pass alike; they need no zero at the end and may
 * have one within. `count` gets the number of bytes that were written to out; `id`, `serial`, `truth`, `version` and
 * the like what was asked for. They are written at every answer, with 0 where there is nothing to tell, and may be
 * NULL. "Refuses" lists the refusals in the order in which they are tested. Every call on a session or a handshake may
 * refuse BOZTERRUN_BAD_STATE: first of all, but for BOZTERRUN_BAD_ARGUMENT. bz_write_message and bz_read_message know
 * neither. Every other bz_read_.. gathers a read and calls no function of the library.
 *
 * A session, from its beginning: bz_check, bz_handshake_new, the client's messages (bz_handshake_..), at its Finish
 * bz_handshake_finish; then bz_add_seat, bz_add_device, bz_resumed; then the client's requests, each, or each read of
 * them, followed by bz_next_request until it answers BOZTERRUN_NONE; at last bz_disconnected. examples/station.c is a
 * whole program.
 *
 * Bytes in and bytes out. What was received goes to bz_handshake_pending_request until that says that the session has
 * begun, and then to bz_pending_request; each record that a call wrote to out goes through bz_write_message to the
 * client. That asks for the interface of the object that the record is on, which its kind tells, or a record before it:
 *   - 16 to 18 are on 0, the handshake; 1 and 14 on 1, the connection; 15 on 2, a callback; 3 and 6 on 4, a seat; 7 to
 *     13 on 5, a device.
 *   - 2 and 4 are on that of the seat or the device: 4 where a record 1 brought the object's id, 5 where a 6 did.
 *   - 5 is on that of the object that is destroyed: likewise, or where a record 8 brought its id the interface there.
 * So a caller keeps the ids that records 1, 6 and 8 bring, each with its interface, until a record 5 is on them.
 */
#ifndef BOZTERRUN_H
#define BOZTERRUN_H

#include <stdbool.h>
#include <stddef.h>
#include <stdint.h>
#include <string.h>

#if !defined(__BYTE_ORDER__) || __BYTE_ORDER__ != __ORDER_LITTLE_ENDIAN__
#error "bozterrun_request reads the low bytes of its numbers: the library is for little-endian machines"
#endif

#ifdef __cplusplus
extern "C" {
#define BZ_ASSERT(truth, text) static_assert(truth, text)
#else
#define BZ_ASSERT(truth, text) _Static_assert(truth, text)
#endif

/* ---------------------------------------------------------------------------------------------------------------- */
/* Numbers. docs/REFERENCE.md has the same ones.                                                                    */
/* ---------------------------------------------------------------------------------------------------------------- */

/* What a call answers. */
enum bozterrun_answer {
    BOZTERRUN_ACCEPTED = 0,

    /* What a client can cause. Call bz_disconnected with BOZTERRUN_REASON_PROTOCOL, or go on: the session can. */
    BOZTERRUN_UNEXPECTED_HANDSHAKE_EVENT = 1, /* a handshake's request in a running session */
    BOZTERRUN_INVALID_INTERFACE_VERSION = 2,  /* Sync with a callback version not 1, touch Cancel below version 2 */
    BOZTERRUN_INVALID_CAPABILITIES = 3,       /* Bind or RequestDevice with a capability that the seat has not */
    BOZTERRUN_TOO_MANY_TOUCHES = 4,           /* touch Down while 16 touches are held */
    BOZTERRUN_DUPLICATED_TOUCH_DOWN = 5,      /* touch Down for a touch that is held */
    BOZTERRUN_INVALID_TEXT_LENGTH = 6,        /* a text of no byte, or of more than 254 */
    BOZTERRUN_NON_HANDSHAKE_EVENT = 7,        /* another interface's request during the handshake */
    BOZTERRUN_DUPLICATE_EVENT = 8,            /* a second name or context type during the handshake */
    BOZTERRUN_MISSING_INTERFACE = 9,          /* Finish without ei_connection, ei_pingpong or ei_callback */

    /* What a client or the station can cause: mend the text, or treat the client as above. */
    BOZTERRUN_BAD_UTF8 = 10,  /* a text that is not UTF-8 */
    BOZTERRUN_NAME_LONG = 11, /* a name or an explanation of more than 254 bytes */

    /* What the station can cause. */
    BOZTERRUN_UNKNOWN_HANDLE = 12,   /* no such seat or device stands: removed, gone with its seat, or never added */
    BOZTERRUN_BAD_CAPABILITIES = 13, /* a bit above bit 6 in the mask of an added seat or device */

    /* Limits. Nothing is lost: make room, then make the same call again. */
    BOZTERRUN_FULL_SEATS = 14,   /* 4 seats stand: remove one */
    BOZTERRUN_FULL_DEVICES = 15, /* 8 devices stand: remove one */
    BOZTERRUN_FULL_PENDING = 16, /* the device has 64 requests that wait for a frame */
    BOZTERRUN_FULL_QUEUE = 17,   /* 256 requests are queued, or would be more: take some with bz_next_request */
    BOZTERRUN_FULL_TEXTS = 18,   /* 32 texts stand, pending and queued: take some with bz_next_request */
    BOZTERRUN_SHORT_OUT = 19,    /* out, or the text buffer of bz_next_request, is too short: lend more */
    BOZTERRUN_IDS_SPENT = 20,    /* no object ids are left: begin a new session */

    /* The slices are no session's or no handshake's: somebody else wrote to them, or they have another length. */
    BOZTERRUN_BAD_STATE = 21,

    /* What the caller of bz_handle_requests can cause. */
    BOZTERRUN_BAD_PART = 22, /* a record's part goes past the end of the read's texts */

    /* What a client can cause by the bytes of its messages. */
    BOZTERRUN_MALFORMED = 23,  /* no message: bozterrun_details has the case and its numbers (bz_read_message: none) */
    BOZTERRUN_NO_OBJECT = 24,  /* no object with the addressed id is alive */
    BOZTERRUN_INVALID_ID = 25, /* Sync with an id that is not above all that the client gave before, or the server's */

    /* What the caller of bz_write_message can cause. */
    BOZTERRUN_UNSENDABLE = 26, /* bytes that are no event record, or one that an object of the interface cannot send */

    /* No refusals. */
    BOZTERRUN_NONE = 64,         /* nothing is queued, or the interface was not negotiated */
    BOZTERRUN_BAD_ARGUMENT = 65, /* a number that is no case of its enum; tested before all else, nothing is touched */
    BOZTERRUN_WAIT = 66          /* the message is not yet whole: call again when more bytes are there */
};

/* What is wrong with a message that is refused with BOZTERRUN_MALFORMED: the first that is met. Behind each its numbers
 * in bozterrun_details. */
enum bozterrun_parse_error {
    BOZTERRUN_PARSE_ERROR_END_OF_MESSAGE = 1,  /* an argument needs more bytes than the message has */
    BOZTERRUN_PARSE_ERROR_UTF8 = 2,            /* a text that is not UTF-8 */
    BOZTERRUN_PARSE_ERROR_INVALID_OPCODE = 3,  /* interface (0: the handshake's), opcode: there is none */
    BOZTERRUN_PARSE_ERROR_INVALID_VARIANT = 4, /* variant: a context type or a state that there is not */
    BOZTERRUN_PARSE_ERROR_HEADER_LENGTH = 5,   /* length: below 16 or above 1,024 */
    BOZTERRUN_PARSE_ERROR_MESSAGE_LENGTH = 6,  /* read, header: the header's length and what is left over; the length */
    BOZTERRUN_PARSE_ERROR_INVALID_NULL = 7     /* a text that is null */
};

/* The kinds of delivered requests. bozterrun_request says which fields each has. */
enum bozterrun_request_kind {
    BOZTERRUN_REQUEST_DISCONNECT = 0,
    BOZTERRUN_REQUEST_BIND = 1,
    BOZTERRUN_REQUEST_DEVICE_CLOSED = 2,
    BOZTERRUN_REQUEST_REQUEST_DEVICE = 3,
    BOZTERRUN_REQUEST_FRAME = 4,
    BOZTERRUN_REQUEST_READY = 5,
    BOZTERRUN_REQUEST_DEVICE_START_EMULATING = 6,
    BOZTERRUN_REQUEST_DEVICE_STOP_EMULATING = 7,
    BOZTERRUN_REQUEST_POINTER_MOTION = 8,
    BOZTERRUN_REQUEST_POINTER_MOTION_ABSOLUTE = 9,
    BOZTERRUN_REQUEST_BUTTON = 10,
    BOZTERRUN_REQUEST_SCROLL_DELTA = 11,
    BOZTERRUN_REQUEST_SCROLL_STOP = 12,
    BOZTERRUN_REQUEST_SCROLL_CANCEL = 13,
    BOZTERRUN_REQUEST_SCROLL_DISCRETE = 14,
    BOZTERRUN_REQUEST_KEYBOARD_KEY = 15,
    BOZTERRUN_REQUEST_TOUCH_DOWN = 16,
    BOZTERRUN_REQUEST_TOUCH_UP = 17,
    BOZTERRUN_REQUEST_TOUCH_MOTION = 18,
    BOZTERRUN_REQUEST_TOUCH_CANCEL = 19,
    BOZTERRUN_REQUEST_TEXT_KEYSYM = 20,
    BOZTERRUN_REQUEST_TEXT_UTF8 = 21
};

/* The kinds of event records. bozterrun_event says which fields each has. */
enum bozterrun_event_kind {
    BOZTERRUN_EVENT_SEAT = 1,
    BOZTERRUN_EVENT_NAME = 2,
    BOZTERRUN_EVENT_CAPABILITY = 3,
    BOZTERRUN_EVENT_DONE = 4,
    BOZTERRUN_EVENT_DESTROYED = 5,
    BOZTERRUN_EVENT_DEVICE = 6,
    BOZTERRUN_EVENT_DEVICE_TYPE = 7,
    BOZTERRUN_EVENT_INTERFACE = 8,
    BOZTERRUN_EVENT_RESUMED = 9,
    BOZTERRUN_EVENT_PAUSED = 10,
    BOZTERRUN_EVENT_START_EMULATING = 11,
    BOZTERRUN_EVENT_STOP_EMULATING = 12,
    BOZTERRUN_EVENT_FRAME = 13,
    BOZTERRUN_EVENT_DISCONNECTED = 14,
    BOZTERRUN_EVENT_CALLBACK_DONE = 15,
    BOZTERRUN_EVENT_HANDSHAKE_VERSION = 16,
    BOZTERRUN_EVENT_INTERFACE_VERSION = 17,
    BOZTERRUN_EVENT_CONNECTION = 18
};

/* The interfaces, and behind each the version that the server offers. bz_interface_name has their names. */
enum bozterrun_interface {
    BOZTERRUN_INTERFACE_CONNECTION = 1,       /* 1 */
    BOZTERRUN_INTERFACE_CALLBACK = 2,         /* 1 */
    BOZTERRUN_INTERFACE_PINGPONG = 3,         /* 1 */
    BOZTERRUN_INTERFACE_SEAT = 4,             /* 2 */
    BOZTERRUN_INTERFACE_DEVICE = 5,           /* 3 */
    BOZTERRUN_INTERFACE_POINTER = 6,          /* 1 */
    BOZTERRUN_INTERFACE_POINTER_ABSOLUTE = 7, /* 1 */
    BOZTERRUN_INTERFACE_SCROLL = 8,           /* 1 */
    BOZTERRUN_INTERFACE_BUTTON = 9,           /* 1 */
    BOZTERRUN_INTERFACE_KEYBOARD = 10,        /* 1 */
    BOZTERRUN_INTERFACE_TOUCHSCREEN = 11,     /* 2 */
    BOZTERRUN_INTERFACE_TEXT = 12             /* 1 */
};

/* The capabilities of seats and devices: a mask has one bit for each. The ids of a device's interfaces follow its own,
 * in the order of these bits: a device 7 with keyboard and text has the keyboard 8 and the text interface 9. */
enum bozterrun_capability {
    BOZTERRUN_CAPABILITY_POINTER = 1,
    BOZTERRUN_CAPABILITY_POINTER_ABSOLUTE = 2,
    BOZTERRUN_CAPABILITY_KEYBOARD = 4,
    BOZTERRUN_CAPABILITY_TOUCH = 8,
    BOZTERRUN_CAPABILITY_SCROLL = 16,
    BOZTERRUN_CAPABILITY_BUTTON = 32,
    BOZTERRUN_CAPABILITY_TEXT = 64
};

enum bozterrun_context_type { BOZTERRUN_CONTEXT_TYPE_RECEIVER = 1, BOZTERRUN_CONTEXT_TYPE_SENDER = 2 };

enum bozterrun_device_type { BOZTERRUN_DEVICE_TYPE_VIRTUAL = 1, BOZTERRUN_DEVICE_TYPE_PHYSICAL = 2 };

enum bozterrun_reason {
    BOZTERRUN_REASON_DISCONNECTED = 0,
    BOZTERRUN_REASON_ERROR = 1,
    BOZTERRUN_REASON_MODE = 2,
    BOZTERRUN_REASON_PROTOCOL = 3,
    BOZTERRUN_REASON_VALUE = 4,
    BOZTERRUN_REASON_TRANSPORT = 5
};

/* The state of a key, a button or a keysym. */
enum bozterrun_state { BOZTERRUN_RELEASED = 0, BOZTERRUN_PRESS = 1 };

/* The handshake's requests by their opcodes, for bz_unexpected_handshake. */
enum bozterrun_opcode {
    BOZTERRUN_OPCODE_HANDSHAKE_VERSION = 0,
    BOZTERRUN_OPCODE_FINISH = 1,
    BOZTERRUN_OPCODE_CONTEXT_TYPE = 2,
    BOZTERRUN_OPCODE_NAME = 3,
    BOZTERRUN_OPCODE_INTERFACE_VERSION = 4
};

/* The requests of a read, by interface and opcode. bozterrun_record says which numbers each has. */
enum bozterrun_read_request {
    BOZTERRUN_READ_HANDSHAKE_VERSION = 0,
    BOZTERRUN_READ_HANDSHAKE_FINISH = 1,
    BOZTERRUN_READ_HANDSHAKE_CONTEXT_TYPE = 2,
    BOZTERRUN_READ_HANDSHAKE_NAME = 3,
    BOZTERRUN_READ_HANDSHAKE_INTERFACE_VERSION = 4,
    BOZTERRUN_READ_CONNECTION_SYNC = 5,
    BOZTERRUN_READ_CONNECTION_DISCONNECT = 6,
    BOZTERRUN_READ_PINGPONG_DONE = 7,
    BOZTERRUN_READ_SEAT_RELEASE = 8,
    BOZTERRUN_READ_SEAT_BIND = 9,
    BOZTERRUN_READ_SEAT_REQUEST_DEVICE = 10,
    BOZTERRUN_READ_DEVICE_RELEASE = 11,
    BOZTERRUN_READ_DEVICE_START_EMULATING = 12,
    BOZTERRUN_READ_DEVICE_STOP_EMULATING = 13,
    BOZTERRUN_READ_DEVICE_FRAME = 14,
    BOZTERRUN_READ_DEVICE_READY = 15,
    BOZTERRUN_READ_POINTER_RELEASE = 16,
    BOZTERRUN_READ_POINTER_MOTION_RELATIVE = 17,
    BOZTERRUN_READ_POINTER_ABSOLUTE_RELEASE = 18,
    BOZTERRUN_READ_POINTER_ABSOLUTE_MOTION_ABSOLUTE = 19,
    BOZTERRUN_READ_SCROLL_RELEASE = 20,
    BOZTERRUN_READ_SCROLL_SCROLL = 21,
    BOZTERRUN_READ_SCROLL_SCROLL_DISCRETE = 22,
    BOZTERRUN_READ_SCROLL_SCROLL_STOP = 23,
    BOZTERRUN_READ_BUTTON_RELEASE = 24,
    BOZTERRUN_READ_BUTTON_BUTTON = 25,
    BOZTERRUN_READ_KEYBOARD_RELEASE = 26,
    BOZTERRUN_READ_KEYBOARD_KEY = 27,
    BOZTERRUN_READ_TOUCHSCREEN_RELEASE = 28,
    BOZTERRUN_READ_TOUCHSCREEN_DOWN = 29,
    BOZTERRUN_READ_TOUCHSCREEN_MOTION = 30,
    BOZTERRUN_READ_TOUCHSCREEN_UP = 31,
    BOZTERRUN_READ_TOUCHSCREEN_CANCEL = 32,
    BOZTERRUN_READ_TEXT_RELEASE = 33,
    BOZTERRUN_READ_TEXT_KEYSYM = 34,
    BOZTERRUN_READ_TEXT_UTF8 = 35
};

/* The lengths of the slices, in elements. */
enum bozterrun_length {
    BOZTERRUN_HANDSHAKE_LENGTH = 17,
    BOZTERRUN_NAME_LENGTH = 254, /* also the most bytes of a name, an explanation or a text */
    BOZTERRUN_CONTROL_LENGTH = 224,
    BOZTERRUN_WORDS_LENGTH = 3840,
    BOZTERRUN_REALS_LENGTH = 1536,
    BOZTERRUN_TEXTS_LENGTH = 8192,
    BOZTERRUN_RECORD_LENGTH = 8,     /* of each record of a read, among the records */
    BOZTERRUN_POINT_LENGTH = 2,      /* and among the points */
    BOZTERRUN_HEADER_LENGTH = 16,    /* of a message: the object's id, the length, the opcode */
    BOZTERRUN_MESSAGE_LENGTH = 1024, /* the most bytes of a client's message, with its header */
    BOZTERRUN_OUT_LENGTH = 1225,     /* enough `out` for any call but a read, if only calls have changed the session */
    BOZTERRUN_EVENT_MESSAGE_LENGTH = 284, /* the most bytes of an event's message: enough for bz_write_message */
    BOZTERRUN_EVENT_RECORD_LENGTH = 273   /* and of an event record: enough for bz_read_message */
};

/* ---------------------------------------------------------------------------------------------------------------- */
/* What the caller owns.                                                                                            */
/* ---------------------------------------------------------------------------------------------------------------- */

/* A handshake. bz_handshake_new begins it, whatever the memory held. The client's name lies at the front of `name`;
 * bz_handshake_client says how long it is. */
typedef struct bozterrun_handshake {
    uint64_t words[BOZTERRUN_HANDSHAKE_LENGTH];
    uint8_t name[BOZTERRUN_NAME_LENGTH];
} bozterrun_handshake;

/* A session. bz_handshake_finish begins it, whatever the memory held. It may be copied with its bytes. */
typedef struct bozterrun_session {
    uint64_t control[BOZTERRUN_CONTROL_LENGTH];
    uint64_t words[BOZTERRUN_WORDS_LENGTH];
    float reals[BOZTERRUN_REALS_LENGTH];
    uint8_t texts[BOZTERRUN_TEXTS_LENGTH];
} bozterrun_session;

/*
 * A delivered request: five numbers and two coordinates, with a name for each use. The fields of each kind, in the
 * order of the crate's struct; what is not listed for a kind says nothing there:
 *
 *   DISCONNECT
 *   BIND, REQUEST_DEVICE                 seat, capabilities
 *   DEVICE_CLOSED, READY                 device
 *   FRAME                                device, last_serial, time
 *   DEVICE_START_EMULATING               device, last_serial, sequence
 *   DEVICE_STOP_EMULATING                device, last_serial
 *   POINTER_MOTION, SCROLL_DELTA         device, time, x, y
 *   POINTER_MOTION_ABSOLUTE              device, time, x, y
 *   BUTTON                               device, time, button, state
 *   SCROLL_STOP, SCROLL_CANCEL           device, time, stop_x, stop_y
 *   SCROLL_DISCRETE                      device, time, discrete_x, discrete_y
 *   KEYBOARD_KEY                         device, time, key, state
 *   TOUCH_DOWN, TOUCH_MOTION             device, time, touch_id, x, y
 *   TOUCH_UP, TOUCH_CANCEL               device, time, touch_id
 *   TEXT_KEYSYM                          device, time, keysym, state
 *   TEXT_UTF8                            device, time, length; the text is in the buffer
 *
 * In memory that something else than a call has damaged a row may hold any numbers. They mean a request all the same:
 * a kind above 21 is a DISCONNECT, a state or a stop that is not 1 is a release or no stop, and of the narrower fields
 * the low bits count, which is what the fields below read. So bz_request_kind(&r) is what to switch on, and
 * `r.state == BOZTERRUN_PRESS` how a press is told.
 */
typedef struct bozterrun_request {
    __extension__ union {
        uint64_t numbers[5];
        __extension__ struct {
            uint64_t kind; /* the whole number */
            __extension__ union {
                uint64_t device;
                uint64_t seat;
            };
            __extension__ union {
                uint64_t time;
                uint64_t capabilities;
            };
            __extension__ union {
                uint64_t extra; /* the whole number */
                uint32_t last_serial;
                uint32_t button;
                uint32_t key;
                uint32_t keysym;
                uint32_t touch_id;
                int32_t discrete_x;
                uint64_t stop_x; /* 1: the x axis has stopped */
                uint8_t length;  /* of the text */
            };
            __extension__ union {
                uint64_t flag; /* the whole number */
                uint32_t sequence;
                uint64_t state; /* 1: a press */
                int32_t discrete_y;
                uint64_t stop_y; /* 1: the y axis has stopped */
            };
        };
    };
    __extension__ union {
        float coordinates[2];
        __extension__ struct {
            float x;
            float y;
        };
    };
} bozterrun_request;

/*
 * A client's request as a record of a read: eight numbers, and a point beside them. The numbers of each request; what
 * is not listed for one says nothing there:
 *
 *   HANDSHAKE_VERSION, _INTERFACE_VERSION      first: version; the latter with a text
 *   HANDSHAKE_CONTEXT_TYPE                     first: context type
 *   HANDSHAKE_NAME                             a text
 *   CONNECTION_SYNC                            first: the callback's id, second: its version
 *   SEAT_BIND, _REQUEST_DEVICE                 object, first: capabilities
 *   DEVICE_START_EMULATING                     object, first: last serial, second: sequence
 *   DEVICE_STOP_EMULATING                      object, first: last serial
 *   DEVICE_FRAME                               object, first: last serial, second: timestamp
 *   POINTER_MOTION_RELATIVE, SCROLL_SCROLL     object; the point
 *   POINTER_ABSOLUTE_MOTION_ABSOLUTE           object; the point
 *   SCROLL_SCROLL_DISCRETE                     object, first and second: x and y, the bits of an int32_t
 *   SCROLL_SCROLL_STOP                         object, first, second and third: x, y and is_cancel
 *   BUTTON_BUTTON, KEYBOARD_KEY, TEXT_KEYSYM   object, first: button, key or keysym, second: state
 *   TOUCHSCREEN_DOWN, _MOTION                  object, first: touch id; the point
 *   TOUCHSCREEN_UP                             object, first: touch id
 *   TOUCHSCREEN_CANCEL                         object, version, first: touch id
 *   TEXT_UTF8                                  object; a text
 *   any other                                  object, where the request is on one
 *
 * A text is the part of the read's texts that begins at byte `start` and has `length` bytes. Of a number that the
 * protocol has in 32 bits the low 32 count.
 */
typedef struct bozterrun_record {
    __extension__ union {
        uint64_t numbers[BOZTERRUN_RECORD_LENGTH];
        __extension__ struct {
            uint64_t request; /* BOZTERRUN_READ_.. */
            uint64_t object;
            uint64_t version;
            uint64_t first;
            uint64_t second;
            uint64_t third;
            uint64_t start;
            uint64_t length;
        };
    };
} bozterrun_record;

/* The coordinates beside a record. */
typedef struct bozterrun_point {
    __extension__ union {
        float coordinates[BOZTERRUN_POINT_LENGTH];
        __extension__ struct {
            float x;
            float y;
        };
    };
} bozterrun_point;

/*
 * A read: a client's requests, gathered to be handed over in one call. The arrays are the caller's, and stay where they
 * are as long as the read is used; bz_read_begin says how long they are.
 */
typedef struct bozterrun_read {
    bozterrun_record *records;
    bozterrun_point *points;
    uint8_t *texts;
    size_t capacity;       /* of records, and of points */
    size_t texts_capacity; /* of texts, in bytes */
    size_t count;          /* how many records were gathered */
    size_t texts_length;   /* how many bytes of texts */
} bozterrun_read;

/*
 * What is told of a message besides its answer. With BOZTERRUN_MALFORMED: which case, and the numbers that
 * bozterrun_parse_error lists for it. With BOZTERRUN_INVALID_INTERFACE_VERSION: interface and version. All else is 0.
 */
typedef struct bozterrun_details {
    uint32_t parse_error; /* BOZTERRUN_PARSE_ERROR_.. */
    __extension__ union {
        uint32_t first;
        uint32_t interface;
        uint32_t variant;
        uint32_t length;
        uint32_t read;
    };
    __extension__ union {
        uint32_t second;
        uint32_t opcode;
        uint32_t version;
        uint32_t header;
    };
} bozterrun_details;

BZ_ASSERT(sizeof(float) == 4 && sizeof(size_t) == 8, "the library's f32 and usize");
BZ_ASSERT(sizeof(bozterrun_session) == 46848, "the four slices and nothing between them");
BZ_ASSERT(sizeof(bozterrun_request) == 48, "five numbers and two coordinates");
BZ_ASSERT(sizeof(bozterrun_record) == 64 && sizeof(bozterrun_point) == 8, "arrays of numbers without a gap");
BZ_ASSERT(offsetof(bozterrun_record, length) == 56 && offsetof(bozterrun_point, y) == 4, "fields over numbers");
BZ_ASSERT(offsetof(bozterrun_request, state) == 32 && offsetof(bozterrun_request, y) == 44, "fields over numbers");

/* What the inline functions lend: a session's slices with their lengths, and for NULL no byte at all. */
#define BZ_CONTROL(session) (session)->control, BOZTERRUN_CONTROL_LENGTH
#define BZ_ROWS(session) \
    BZ_CONTROL(session), (session)->words, BOZTERRUN_WORDS_LENGTH, (session)->reals, BOZTERRUN_REALS_LENGTH
#define BZ_SESSION(session) BZ_ROWS(session), (session)->texts, BOZTERRUN_TEXTS_LENGTH
#define BZ_HANDSHAKE(handshake) \
    (handshake)->words, BOZTERRUN_HANDSHAKE_LENGTH, (handshake)->name, BOZTERRUN_NAME_LENGTH
#define BZ_TEXT(text, length) \
    ((text) != NULL ? (const uint8_t *)(text) : (const uint8_t *)bz_no_bytes), ((text) != NULL ? (length) : 0)
#define BZ_OUT(out, length) ((out) != NULL ? (uint8_t *)(out) : bz_no_bytes), ((out) != NULL ? (length) : 0)
#define BZ_OR(pointer, spare) ((pointer) != NULL ? (pointer) : (spare))

static uint8_t bz_no_bytes[1]; /* lent with length 0, so nobody reads or writes it */

/* The answer where there is no session. */
static inline uint32_t bz_no_session(size_t *count, uint64_t *value)
{
    if (count != NULL) {
        *count = 0;
    }
    if (value != NULL) {
        *value = 0;
    }
    return BOZTERRUN_BAD_STATE;
}

/* ---------------------------------------------------------------------------------------------------------------- */
/* The handshake.                                                                                                   */
/* ---------------------------------------------------------------------------------------------------------------- */

/*
 * Begins a handshake and writes handshake version 1, 14 bytes. `serial` is the first serial of the session to come.
 * Refuses BOZTERRUN_SHORT_OUT; the handshake is begun all the same.
 */
uint32_t bozterrun_handshake_new(uint64_t *handshake, size_t handshake_length, uint8_t *name, size_t name_length,
                                 uint32_t serial, uint8_t *out, size_t out_length, size_t *count);

static inline uint32_t bz_handshake_new(bozterrun_handshake *handshake, uint32_t serial, uint8_t *out,
                                        size_t out_length, size_t *count)
{
    size_t spare;
    if (handshake == NULL) {
        return bz_no_session(count, NULL);
    }
    return bozterrun_handshake_new(BZ_HANDSHAKE(handshake), serial, BZ_OUT(out, out_length), BZ_OR(count, &spare));
}

/* The client's HandshakeVersion. It changes nothing. */
uint32_t bozterrun_handshake_handshake_version(uint64_t *handshake, size_t handshake_length, uint8_t *name,
                                               size_t name_length, uint32_t version);

static inline uint32_t bz_handshake_handshake_version(bozterrun_handshake *handshake, uint32_t version)
{
    if (handshake == NULL) {
        return BOZTERRUN_BAD_STATE;
    }
    return bozterrun_handshake_handshake_version(BZ_HANDSHAKE(handshake), version);
}

/*
 * The client's Name. The text may not lie in the handshake itself.
 * Refuses BOZTERRUN_BAD_UTF8; BOZTERRUN_NAME_LONG; BOZTERRUN_DUPLICATE_EVENT where it has said one.
 */
uint32_t bozterrun_handshake_name(uint64_t *handshake, size_t handshake_length, uint8_t *name, size_t name_length,
                                  const uint8_t *text, size_t text_length);

static inline uint32_t bz_handshake_name(bozterrun_handshake *handshake, const void *text, size_t text_length)
{
    if (handshake == NULL) {
        return BOZTERRUN_BAD_STATE;
    }
    return bozterrun_handshake_name(BZ_HANDSHAKE(handshake), BZ_TEXT(text, text_length));
}

/*
 * The client's ContextType: BOZTERRUN_CONTEXT_TYPE_RECEIVER or BOZTERRUN_CONTEXT_TYPE_SENDER.
 * Answers BOZTERRUN_BAD_ARGUMENT for another number. Refuses BOZTERRUN_DUPLICATE_EVENT where it has said one.
 */
uint32_t bozterrun_handshake_context_type(uint64_t *handshake, size_t handshake_length, uint8_t *name,
                                          size_t name_length, uint32_t context_type);

static inline uint32_t bz_handshake_context_type(bozterrun_handshake *handshake, uint32_t context_type)
{
    if (handshake == NULL) {
        return BOZTERRUN_BAD_STATE;
    }
    return bozterrun_handshake_context_type(BZ_HANDSHAKE(handshake), context_type);
}

/*
 * The client's InterfaceVersion: it knows the interface of this name. The lower of its version and the server's is
 * negotiated; a later one for the same name counts in place of the first; a name that no interface has is ignored.
 * Refuses BOZTERRUN_BAD_UTF8.
 */
uint32_t bozterrun_handshake_interface_version(uint64_t *handshake, size_t handshake_length, uint8_t *name,
                                               size_t name_length, const uint8_t *text, size_t text_length,
                                               uint32_t version);

static inline uint32_t bz_handshake_interface_version(bozterrun_handshake *handshake, const void *text,
                                                      size_t text_length, uint32_t version)
{
    if (handshake == NULL) {
        return BOZTERRUN_BAD_STATE;
    }
    return bozterrun_handshake_interface_version(BZ_HANDSHAKE(handshake), BZ_TEXT(text, text_length), version);
}

/*
 * A request of any other interface, with its text if it is a Utf8. It has no place in a handshake.
 * Refuses always: BOZTERRUN_BAD_UTF8 by the text, else BOZTERRUN_NON_HANDSHAKE_EVENT.
 */
uint32_t bozterrun_handshake_other(uint64_t *handshake, size_t handshake_length, uint8_t *name, size_t name_length,
                                   const uint8_t *text, size_t text_length);

static inline uint32_t bz_handshake_other(bozterrun_handshake *handshake, const void *text, size_t text_length)
{
    if (handshake == NULL) {
        return BOZTERRUN_BAD_STATE;
    }
    return bozterrun_handshake_other(BZ_HANDSHAKE(handshake), BZ_TEXT(text, text_length));
}

/*
 * The client's Finish. Where it is accepted the session begins: no seats, no devices, nothing queued. Writes an
 * interface version for each negotiated interface, then the connection: 206 bytes at most.
 * Refuses BOZTERRUN_IDS_SPENT; BOZTERRUN_SHORT_OUT; BOZTERRUN_MISSING_INTERFACE, which writes the interface versions
 * and their count all the same. Refused, it leaves handshake and session as they were.
 */
uint32_t bozterrun_handshake_finish(uint64_t *handshake, size_t handshake_length, uint8_t *name, size_t name_length,
                                    uint64_t *control, size_t control_length, uint8_t *out, size_t out_length,
                                    size_t *count);

static inline uint32_t bz_handshake_finish(bozterrun_handshake *handshake, bozterrun_session *session, uint8_t *out,
                                           size_t out_length, size_t *count)
{
    size_t spare;
    if (handshake == NULL || session == NULL) {
        return bz_no_session(count, NULL);
    }
    return bozterrun_handshake_finish(BZ_HANDSHAKE(handshake), BZ_CONTROL(session), BZ_OUT(out, out_length),
                                      BZ_OR(count, &spare));
}

/*
 * The first message of the bytes, read as the handshake's and handed on as the call that it stands for; bytes behind
 * it are not read. Messages are those of the ei protocol, little-endian. `taken` gets how many bytes it had: drop them,
 * and call again with the rest. A Finish that is accepted begins the session, which nothing else writes to, and `begun`
 * gets 1: from then on the bytes go to bz_pending_request. `count` and `details` are as there.
 * Answers BOZTERRUN_WAIT where the message is not whole: its length is told by bytes 8 to 11. Refuses
 * BOZTERRUN_NO_OBJECT; BOZTERRUN_MALFORMED, by its length; then it waits; BOZTERRUN_MALFORMED; BOZTERRUN_INVALID_ID;
 * and what the call refuses that the message stands for: BOZTERRUN_NAME_LONG; BOZTERRUN_DUPLICATE_EVENT;
 * BOZTERRUN_IDS_SPENT; BOZTERRUN_SHORT_OUT; BOZTERRUN_MISSING_INTERFACE, which writes the interface versions and their
 * count all the same. After a Finish that was accepted a message on the connection is BOZTERRUN_NON_HANDSHAKE_EVENT.
 * Nothing is taken by a message that waits or is refused.
 */
uint32_t bozterrun_handshake_pending_request(uint64_t *handshake, size_t handshake_length, uint8_t *name,
                                             size_t name_length, uint64_t *control, size_t control_length,
                                             const uint8_t *message, size_t message_length, uint8_t *out,
                                             size_t out_length, size_t *taken, size_t *count, uint32_t *begun,
                                             uint32_t *parse_error, uint32_t *first, uint32_t *second);

static inline uint32_t bz_handshake_pending_request(bozterrun_handshake *handshake, bozterrun_session *session,
                                                    const void *message, size_t message_length, uint8_t *out,
                                                    size_t out_length, size_t *taken, size_t *count, uint32_t *begun,
                                                    bozterrun_details *details)
{
    size_t spare_taken = 0, spare_count = 0;
    uint32_t spare_begun = 0;
    bozterrun_details spare_details;
    bozterrun_details *const d = BZ_OR(details, &spare_details);
    if (handshake == NULL || session == NULL) {
        *BZ_OR(taken, &spare_taken) = 0;
        *BZ_OR(begun, &spare_begun) = 0;
        memset(d, 0, sizeof *d);
        return bz_no_session(count, NULL);
    }
    return bozterrun_handshake_pending_request(
        BZ_HANDSHAKE(handshake), BZ_CONTROL(session), BZ_TEXT(message, message_length), BZ_OUT(out, out_length),
        BZ_OR(taken, &spare_taken), BZ_OR(count, &spare_count), BZ_OR(begun, &spare_begun), &d->parse_error, &d->first,
        &d->second);
}

/*
 * Who the client says it is: whether it gave a name (1 or 0), the length of the name, which lies at the front of
 * `name`, and its context type, 0 where it said none. Where that is refused, all three are 0.
 */
uint32_t bozterrun_handshake_client(const uint64_t *handshake, size_t handshake_length, const uint8_t *name,
                                    size_t name_length, uint32_t *given, size_t *length, uint32_t *context_type);

static inline uint32_t bz_handshake_client(const bozterrun_handshake *handshake, uint32_t *given, size_t *length,
                                           uint32_t *context_type)
{
    uint32_t spare_given = 0, spare_type = 0;
    size_t spare_length = 0;
    if (handshake == NULL) {
        *BZ_OR(given, &spare_given) = 0;
        *BZ_OR(context_type, &spare_type) = 0;
        return bz_no_session(length, NULL);
    }
    return bozterrun_handshake_client(BZ_HANDSHAKE(handshake), BZ_OR(given, &spare_given),
                                      BZ_OR(length, &spare_length), BZ_OR(context_type, &spare_type));
}

/* ---------------------------------------------------------------------------------------------------------------- */
/* The client's timed requests. Each waits in its device's pending list until the client's frame, and gets its time.*/
/* ---------------------------------------------------------------------------------------------------------------- */

/*
 * The pointer moves by x and y.
 * Refuses BOZTERRUN_FULL_PENDING.
 */
uint32_t bozterrun_pointer_motion_relative(uint64_t *control, size_t control_length, uint64_t *words,
                                           size_t words_length, float *reals, size_t reals_length, uint64_t pointer,
                                           float x, float y);

static inline uint32_t bz_pointer_motion_relative(bozterrun_session *session, uint64_t pointer, float x, float y)
{
    if (session == NULL) {
        return BOZTERRUN_BAD_STATE;
    }
    return bozterrun_pointer_motion_relative(BZ_ROWS(session), pointer, x, y);
}

/*
 * The pointer moves to x and y.
 * Refuses BOZTERRUN_FULL_PENDING.
 */
uint32_t bozterrun_pointer_absolute_motion_absolute(uint64_t *control, size_t control_length, uint64_t *words,
                                                    size_t words_length, float *reals, size_t reals_length,
                                                    uint64_t pointer_absolute, float x, float y);

static inline uint32_t bz_pointer_absolute_motion_absolute(bozterrun_session *session, uint64_t pointer_absolute,
                                                           float x, float y)
{
    if (session == NULL) {
        return BOZTERRUN_BAD_STATE;
    }
    return bozterrun_pointer_absolute_motion_absolute(BZ_ROWS(session), pointer_absolute, x, y);
}

/*
 * A scroll by x and y.
 * Refuses BOZTERRUN_FULL_PENDING.
 */
uint32_t bozterrun_scroll_scroll(uint64_t *control, size_t control_length, uint64_t *words, size_t words_length,
                                 float *reals, size_t reals_length, uint64_t scroll, float x, float y);

static inline uint32_t bz_scroll_scroll(bozterrun_session *session, uint64_t scroll, float x, float y)
{
    if (session == NULL) {
        return BOZTERRUN_BAD_STATE;
    }
    return bozterrun_scroll_scroll(BZ_ROWS(session), scroll, x, y);
}

/*
 * A scroll by steps of a wheel.
 * Refuses BOZTERRUN_FULL_PENDING.
 */
uint32_t bozterrun_scroll_scroll_discrete(uint64_t *control, size_t control_length, uint64_t *words,
                                          size_t words_length, float *reals, size_t reals_length, uint64_t scroll,
                                          int32_t x, int32_t y);

static inline uint32_t bz_scroll_scroll_discrete(bozterrun_session *session, uint64_t scroll, int32_t x, int32_t y)
{
    if (session == NULL) {
        return BOZTERRUN_BAD_STATE;
    }
    return bozterrun_scroll_scroll_discrete(BZ_ROWS(session), scroll, x, y);
}

/*
 * Scrolling stops on the axes whose number is not 0, or is cancelled where is_cancel is not 0.
 * Refuses BOZTERRUN_FULL_PENDING.
 */
uint32_t bozterrun_scroll_scroll_stop(uint64_t *control, size_t control_length, uint64_t *words, size_t words_length,
                                      float *reals, size_t reals_length, uint64_t scroll, uint32_t x, uint32_t y,
                                      uint32_t is_cancel);

static inline uint32_t bz_scroll_scroll_stop(bozterrun_session *session, uint64_t scroll, uint32_t x, uint32_t y,
                                             uint32_t is_cancel)
{
    if (session == NULL) {
        return BOZTERRUN_BAD_STATE;
    }
    return bozterrun_scroll_scroll_stop(BZ_ROWS(session), scroll, x, y, is_cancel);
}

/*
 * A button goes down (BOZTERRUN_PRESS) or up (BOZTERRUN_RELEASED). `interface` is the id of the button interface.
 * Answers BOZTERRUN_BAD_ARGUMENT for another state. Refuses BOZTERRUN_FULL_PENDING.
 */
uint32_t bozterrun_button_button(uint64_t *control, size_t control_length, uint64_t *words, size_t words_length,
                                 float *reals, size_t reals_length, uint64_t interface, uint32_t button,
                                 uint32_t state);

static inline uint32_t bz_button_button(bozterrun_session *session, uint64_t interface, uint32_t button,
                                        uint32_t state)
{
    if (session == NULL) {
        return BOZTERRUN_BAD_STATE;
    }
    return bozterrun_button_button(BZ_ROWS(session), interface, button, state);
}

/*
 * A key goes down (BOZTERRUN_PRESS) or up (BOZTERRUN_RELEASED).
 * Answers BOZTERRUN_BAD_ARGUMENT for another state. Refuses BOZTERRUN_FULL_PENDING.
 */
uint32_t bozterrun_keyboard_key(uint64_t *control, size_t control_length, uint64_t *words, size_t words_length,
                                float *reals, size_t reals_length, uint64_t keyboard, uint32_t key, uint32_t state);

static inline uint32_t bz_keyboard_key(bozterrun_session *session, uint64_t keyboard, uint32_t key, uint32_t state)
{
    if (session == NULL) {
        return BOZTERRUN_BAD_STATE;
    }
    return bozterrun_keyboard_key(BZ_ROWS(session), keyboard, key, state);
}

/*
 * A keysym goes down (BOZTERRUN_PRESS) or up (BOZTERRUN_RELEASED). `interface` is the id of the text interface.
 * Answers BOZTERRUN_BAD_ARGUMENT for another state. Refuses BOZTERRUN_FULL_PENDING.
 */
uint32_t bozterrun_text_keysym(uint64_t *control, size_t control_length, uint64_t *words, size_t words_length,
                               float *reals, size_t reals_length, uint64_t interface, uint32_t keysym,
                               uint32_t state);

static inline uint32_t bz_text_keysym(bozterrun_session *session, uint64_t interface, uint32_t keysym, uint32_t state)
{
    if (session == NULL) {
        return BOZTERRUN_BAD_STATE;
    }
    return bozterrun_text_keysym(BZ_ROWS(session), interface, keysym, state);
}

/*
 * A text of 1 to 254 bytes. `interface` is the id of the text interface. The session keeps a copy.
 * Refuses BOZTERRUN_BAD_UTF8; BOZTERRUN_INVALID_TEXT_LENGTH; BOZTERRUN_FULL_PENDING; BOZTERRUN_FULL_TEXTS.
 */
uint32_t bozterrun_text_utf8(uint64_t *control, size_t control_length, uint64_t *words, size_t words_length,
                             float *reals, size_t reals_length, uint8_t *texts, size_t texts_length,
                             uint64_t interface, const uint8_t *text, size_t text_length);

static inline uint32_t bz_text_utf8(bozterrun_session *session, uint64_t interface, const void *text,
                                    size_t text_length)
{
    if (session == NULL) {
        return BOZTERRUN_BAD_STATE;
    }
    return bozterrun_text_utf8(BZ_SESSION(session), interface, BZ_TEXT(text, text_length));
}

/*
 * A touch goes down.
 * Refuses BOZTERRUN_TOO_MANY_TOUCHES; BOZTERRUN_DUPLICATED_TOUCH_DOWN; BOZTERRUN_FULL_PENDING.
 */
uint32_t bozterrun_touchscreen_down(uint64_t *control, size_t control_length, uint64_t *words, size_t words_length,
                                    float *reals, size_t reals_length, uint64_t touchscreen, uint32_t touch_id,
                                    float x, float y);

static inline uint32_t bz_touchscreen_down(bozterrun_session *session, uint64_t touchscreen, uint32_t touch_id,
                                           float x, float y)
{
    if (session == NULL) {
        return BOZTERRUN_BAD_STATE;
    }
    return bozterrun_touchscreen_down(BZ_ROWS(session), touchscreen, touch_id, x, y);
}

/*
 * A touch moves. One that is not held does nothing.
 * Refuses BOZTERRUN_FULL_PENDING.
 */
uint32_t bozterrun_touchscreen_motion(uint64_t *control, size_t control_length, uint64_t *words, size_t words_length,
                                      float *reals, size_t reals_length, uint64_t touchscreen, uint32_t touch_id,
                                      float x, float y);

static inline uint32_t bz_touchscreen_motion(bozterrun_session *session, uint64_t touchscreen, uint32_t touch_id,
                                             float x, float y)
{
    if (session == NULL) {
        return BOZTERRUN_BAD_STATE;
    }
    return bozterrun_touchscreen_motion(BZ_ROWS(session), touchscreen, touch_id, x, y);
}

/*
 * A touch goes up. One that is not held does nothing.
 * Refuses BOZTERRUN_FULL_PENDING.
 */
uint32_t bozterrun_touchscreen_up(uint64_t *control, size_t control_length, uint64_t *words, size_t words_length,
                                  float *reals, size_t reals_length, uint64_t touchscreen, uint32_t touch_id);

static inline uint32_t bz_touchscreen_up(bozterrun_session *session, uint64_t touchscreen, uint32_t touch_id)
{
    if (session == NULL) {
        return BOZTERRUN_BAD_STATE;
    }
    return bozterrun_touchscreen_up(BZ_ROWS(session), touchscreen, touch_id);
}

/*
 * A touch is cancelled; `version` is that of the touchscreen object that the client's message was for. One that is not
 * held does nothing.
 * Refuses BOZTERRUN_INVALID_INTERFACE_VERSION at a version below 2, and then tells the interface and the version;
 * BOZTERRUN_FULL_PENDING. At any other answer the two told numbers are 0.
 */
uint32_t bozterrun_touchscreen_cancel(uint64_t *control, size_t control_length, uint64_t *words, size_t words_length,
                                      float *reals, size_t reals_length, uint64_t touchscreen, uint32_t version,
                                      uint32_t touch_id, uint32_t *refused_interface, uint32_t *refused_version);

static inline uint32_t bz_touchscreen_cancel(bozterrun_session *session, uint64_t touchscreen, uint32_t version,
                                             uint32_t touch_id, uint32_t *refused_interface,
                                             uint32_t *refused_version)
{
    uint32_t spare_interface = 0, spare_version = 0;
    if (session == NULL) {
        *BZ_OR(refused_interface, &spare_interface) = 0;
        *BZ_OR(refused_version, &spare_version) = 0;
        return BOZTERRUN_BAD_STATE;
    }
    return bozterrun_touchscreen_cancel(BZ_ROWS(session), touchscreen, version, touch_id,
                                        BZ_OR(refused_interface, &spare_interface),
                                        BZ_OR(refused_version, &spare_version));
}

/* ---------------------------------------------------------------------------------------------------------------- */
/* The client's other requests.                                                                                     */
/* ---------------------------------------------------------------------------------------------------------------- */

/*
 * The client's frame: what the device has pending is queued with this device and this time, then the frame itself.
 * With nothing pending it does nothing.
 * Refuses BOZTERRUN_FULL_QUEUE.
 */
uint32_t bozterrun_device_frame(uint64_t *control, size_t control_length, uint64_t *words, size_t words_length,
                                float *reals, size_t reals_length, uint64_t device, uint32_t last_serial,
                                uint64_t timestamp);

static inline uint32_t bz_device_frame(bozterrun_session *session, uint64_t device, uint32_t last_serial,
                                       uint64_t timestamp)
{
    if (session == NULL) {
        return BOZTERRUN_BAD_STATE;
    }
    return bozterrun_device_frame(BZ_ROWS(session), device, last_serial, timestamp);
}

/*
 * The client releases a device, or says that it is ready, starts or stops emulating on it. What the device has pending
 * is closed by a frame at `clock` first; then the request is queued.
 * Each refuses BOZTERRUN_FULL_QUEUE.
 */
uint32_t bozterrun_device_release(uint64_t *control, size_t control_length, uint64_t *words, size_t words_length,
                                  float *reals, size_t reals_length, uint64_t device, uint64_t clock);

static inline uint32_t bz_device_release(bozterrun_session *session, uint64_t device, uint64_t clock)
{
    if (session == NULL) {
        return BOZTERRUN_BAD_STATE;
    }
    return bozterrun_device_release(BZ_ROWS(session), device, clock);
}

uint32_t bozterrun_device_ready(uint64_t *control, size_t control_length, uint64_t *words, size_t words_length,
                                float *reals, size_t reals_length, uint64_t device, uint64_t clock);

static inline uint32_t bz_device_ready(bozterrun_session *session, uint64_t device, uint64_t clock)
{
    if (session == NULL) {
        return BOZTERRUN_BAD_STATE;
    }
    return bozterrun_device_ready(BZ_ROWS(session), device, clock);
}

uint32_t bozterrun_device_start_emulating(uint64_t *control, size_t control_length, uint64_t *words,
                                          size_t words_length, float *reals, size_t reals_length, uint64_t device,
                                          uint32_t last_serial, uint32_t sequence, uint64_t clock);

static inline uint32_t bz_device_start_emulating(bozterrun_session *session, uint64_t device, uint32_t last_serial,
                                                 uint32_t sequence, uint64_t clock)
{
    if (session == NULL) {
        return BOZTERRUN_BAD_STATE;
    }
    return bozterrun_device_start_emulating(BZ_ROWS(session), device, last_serial, sequence, clock);
}

uint32_t bozterrun_device_stop_emulating(uint64_t *control, size_t control_length, uint64_t *words,
                                         size_t words_length, float *reals, size_t reals_length, uint64_t device,
                                         uint32_t last_serial, uint64_t clock);

static inline uint32_t bz_device_stop_emulating(bozterrun_session *session, uint64_t device, uint32_t last_serial,
                                                uint64_t clock)
{
    if (session == NULL) {
        return BOZTERRUN_BAD_STATE;
    }
    return bozterrun_device_stop_emulating(BZ_ROWS(session), device, last_serial, clock);
}

/*
 * The client binds capabilities of a seat, or asks for a device with them. A seat has none that was not negotiated.
 * Each refuses BOZTERRUN_INVALID_CAPABILITIES; BOZTERRUN_FULL_QUEUE.
 */
uint32_t bozterrun_seat_bind(uint64_t *control, size_t control_length, uint64_t *words, size_t words_length,
                             float *reals, size_t reals_length, uint64_t seat, uint64_t capabilities);

static inline uint32_t bz_seat_bind(bozterrun_session *session, uint64_t seat, uint64_t capabilities)
{
    if (session == NULL) {
        return BOZTERRUN_BAD_STATE;
    }
    return bozterrun_seat_bind(BZ_ROWS(session), seat, capabilities);
}

uint32_t bozterrun_seat_request_device(uint64_t *control, size_t control_length, uint64_t *words,
                                       size_t words_length, float *reals, size_t reals_length, uint64_t seat,
                                       uint64_t capabilities);

static inline uint32_t bz_seat_request_device(bozterrun_session *session, uint64_t seat, uint64_t capabilities)
{
    if (session == NULL) {
        return BOZTERRUN_BAD_STATE;
    }
    return bozterrun_seat_request_device(BZ_ROWS(session), seat, capabilities);
}

/*
 * The client releases a seat. A seat that stands goes with its devices, as at bz_remove_seat: what they have pending is
 * dropped, what is queued stays. Writes destroyed, 14 bytes, for each object, 910 bytes at most: device by device its
 * interfaces that are not yet released and the device, then the seat. One that is not known writes nothing.
 * Refuses BOZTERRUN_SHORT_OUT.
 */
uint32_t bozterrun_seat_release(uint64_t *control, size_t control_length, uint64_t *words, size_t words_length,
                                float *reals, size_t reals_length, uint64_t seat, uint8_t *out, size_t out_length,
                                size_t *count);

static inline uint32_t bz_seat_release(bozterrun_session *session, uint64_t seat, uint8_t *out, size_t out_length,
                                       size_t *count)
{
    size_t spare;
    if (session == NULL) {
        return bz_no_session(count, NULL);
    }
    return bozterrun_seat_release(BZ_ROWS(session), seat, BZ_OUT(out, out_length), BZ_OR(count, &spare));
}

/*
 * The client releases a device's interface, the one for this capability (BOZTERRUN_CAPABILITY_..). Writes destroyed,
 * 14 bytes. The device lists it no longer: requests on it do nothing, and it is not destroyed again with the device.
 * What is pending stays, and so does the device. One that is not known, or released, writes nothing.
 * Answers BOZTERRUN_BAD_ARGUMENT where the capability is not one of the seven. Refuses BOZTERRUN_SHORT_OUT.
 */
uint32_t bozterrun_interface_release(uint64_t *control, size_t control_length, uint64_t capability,
                                     uint64_t interface, uint8_t *out, size_t out_length, size_t *count);

static inline uint32_t bz_interface_release(bozterrun_session *session, uint64_t capability, uint64_t interface,
                                            uint8_t *out, size_t out_length, size_t *count)
{
    size_t spare;
    if (session == NULL) {
        return bz_no_session(count, NULL);
    }
    return bozterrun_interface_release(BZ_CONTROL(session), capability, interface, BZ_OUT(out, out_length),
                                       BZ_OR(count, &spare));
}

/*
 * The client's Sync with a callback object of this id and version. Writes callback done, 18 bytes.
 * Refuses BOZTERRUN_INVALID_INTERFACE_VERSION at a version that is not 1, and then tells the interface and the
 * version; BOZTERRUN_SHORT_OUT. At any other answer the two told numbers are 0.
 */
uint32_t bozterrun_connection_sync(const uint64_t *control, size_t control_length, uint64_t callback,
                                   uint32_t version, uint8_t *out, size_t out_length, size_t *count,
                                   uint32_t *refused_interface, uint32_t *refused_version);

static inline uint32_t bz_connection_sync(const bozterrun_session *session, uint64_t callback, uint32_t version,
                                          uint8_t *out, size_t out_length, size_t *count,
                                          uint32_t *refused_interface, uint32_t *refused_version)
{
    size_t spare;
    uint32_t spare_interface = 0, spare_version = 0;
    if (session == NULL) {
        *BZ_OR(refused_interface, &spare_interface) = 0;
        *BZ_OR(refused_version, &spare_version) = 0;
        return bz_no_session(count, NULL);
    }
    return bozterrun_connection_sync(BZ_CONTROL(session), callback, version, BZ_OUT(out, out_length),
                                     BZ_OR(count, &spare), BZ_OR(refused_interface, &spare_interface),
                                     BZ_OR(refused_version, &spare_version));
}

/*
 * The client's Disconnect. It is queued; seats and devices stand until the station's bz_disconnected.
 * Refuses BOZTERRUN_FULL_QUEUE.
 */
uint32_t bozterrun_connection_disconnect(uint64_t *control, size_t control_length, uint64_t *words,
                                         size_t words_length, float *reals, size_t reals_length);

static inline uint32_t bz_connection_disconnect(bozterrun_session *session)
{
    if (session == NULL) {
        return BOZTERRUN_BAD_STATE;
    }
    return bozterrun_connection_disconnect(BZ_ROWS(session));
}

/* The client's answer to a ping. It changes nothing. */
uint32_t bozterrun_pingpong_done(const uint64_t *control, size_t control_length);

static inline uint32_t bz_pingpong_done(const bozterrun_session *session)
{
    if (session == NULL) {
        return BOZTERRUN_BAD_STATE;
    }
    return bozterrun_pingpong_done(BZ_CONTROL(session));
}

/*
 * A handshake's request in a running session, by its opcode (BOZTERRUN_OPCODE_..), with its number and its text if it
 * has one.
 * Answers BOZTERRUN_BAD_ARGUMENT for another opcode. Refuses always: BOZTERRUN_BAD_UTF8 by the text of a name or an
 * interface version, BOZTERRUN_NAME_LONG by that of a name, else BOZTERRUN_UNEXPECTED_HANDSHAKE_EVENT.
 */
uint32_t bozterrun_unexpected_handshake(const uint64_t *control, size_t control_length, uint32_t opcode,
                                        uint32_t value, const uint8_t *text, size_t text_length);

static inline uint32_t bz_unexpected_handshake(const bozterrun_session *session, uint32_t opcode, uint32_t value,
                                               const void *text, size_t text_length)
{
    if (session == NULL) {
        return BOZTERRUN_BAD_STATE;
    }
    return bozterrun_unexpected_handshake(BZ_CONTROL(session), opcode, value, BZ_TEXT(text, text_length));
}

/* ---------------------------------------------------------------------------------------------------------------- */
/* The client's bytes.                                                                                              */
/* ---------------------------------------------------------------------------------------------------------------- */

/*
 * The first message of the bytes, handed on as the one request that it stands for; bytes behind it are not read.
 * Messages are those of the ei protocol, little-endian: the object's id in 64 bits, the length in 32 with the 16 of the
 * header, the opcode in 32, the arguments. `taken` gets how many bytes the message had: drop them, and call again with
 * the rest. `count` gets how many bytes of events were written to `out`, `details` what refusals tell besides. `clock`
 * is what the request's own call takes.
 * Answers BOZTERRUN_WAIT where the message is not whole: its length is told by bytes 8 to 11, and is at most
 * BOZTERRUN_MESSAGE_LENGTH. Refuses BOZTERRUN_NO_OBJECT; BOZTERRUN_MALFORMED, by its length; then it waits;
 * BOZTERRUN_MALFORMED, by its opcode and arguments; BOZTERRUN_INVALID_ID; and the refusals of the request's own call in
 * their order. (A text that is not UTF-8 is BOZTERRUN_MALFORMED here.) Nothing is taken by a message that waits or is
 * refused. After a limit (16 to 19) make room and call again with the same bytes; after another refusal disconnect the
 * client, or drop the message: as many bytes as its header says.
 */
uint32_t bozterrun_pending_request(uint64_t *control, size_t control_length, uint64_t *words, size_t words_length,
                                   float *reals, size_t reals_length, uint8_t *texts, size_t texts_length,
                                   const uint8_t *message, size_t message_length, uint64_t clock, uint8_t *out,
                                   size_t out_length, size_t *taken, size_t *count, uint32_t *parse_error,
                                   uint32_t *first, uint32_t *second);

static inline uint32_t bz_pending_request(bozterrun_session *session, const void *message, size_t message_length,
                                          uint64_t clock, uint8_t *out, size_t out_length, size_t *taken,
                                          size_t *count, bozterrun_details *details)
{
    size_t spare_taken = 0, spare_count = 0;
    bozterrun_details spare_details;
    bozterrun_details *const d = BZ_OR(details, &spare_details);
    if (session == NULL) {
        *BZ_OR(taken, &spare_taken) = 0;
        memset(d, 0, sizeof *d);
        return bz_no_session(count, NULL);
    }
    return bozterrun_pending_request(BZ_SESSION(session), BZ_TEXT(message, message_length), clock,
                                     BZ_OUT(out, out_length), BZ_OR(taken, &spare_taken), BZ_OR(count, &spare_count),
                                     &d->parse_error, &d->first, &d->second);
}

/* ---------------------------------------------------------------------------------------------------------------- */
/* A read: many of the client's requests in one call.                                                               */
/* ---------------------------------------------------------------------------------------------------------------- */

/*
 * Begins a read over these arrays: `capacity` records and as many points, and so many bytes for texts. What they hold
 * does not count. Where records or points are NULL there is room for no record, where texts is NULL for no byte.
 */
static inline void bz_read_begin(bozterrun_read *read, bozterrun_record *records, bozterrun_point *points,
                                 size_t capacity, void *texts, size_t texts_capacity)
{
    if (read == NULL) {
        return;
    }
    read->records = records;
    read->points = points;
    read->texts = (uint8_t *)texts;
    read->capacity = records != NULL && points != NULL ? capacity : 0;
    read->texts_capacity = texts != NULL ? texts_capacity : 0;
    read->count = 0;
    read->texts_length = 0;
}

/* Empties the read, to gather the next one in the same arrays. */
static inline void bz_read_clear(bozterrun_read *read)
{
    if (read != NULL) {
        read->count = 0;
        read->texts_length = 0;
    }
}

/*
 * What is left of a read behind so many records: that which is to be handed over next, once a refusal is dealt with.
 * It is a read over the same arrays, with the same texts.
 */
static inline bozterrun_read bz_read_rest(const bozterrun_read *read, size_t records)
{
    bozterrun_read rest = {NULL, NULL, NULL, 0, 0, 0, 0};
    if (read == NULL) {
        return rest;
    }
    rest = *read;
    if (records > read->count) {
        records = read->count;
    }
    if (records > 0) {
        rest.records += records;
        rest.points += records;
        rest.capacity -= records;
        rest.count -= records;
    }
    return rest;
}

/*
 * Adds a record as it is, with a point: true, or false where there is no room or a pointer is NULL, and then the read
 * is as it was. This is also the way to lend texts without a copy: let `texts` be the bytes as they were received,
 * `texts_length` their number, and the records have parts of them, which may overlap and need not cover the texts.
 */
static inline bool bz_read_record(bozterrun_read *read, const bozterrun_record *record, float x, float y)
{
    if (read == NULL || record == NULL || read->count >= read->capacity) {
        return false;
    }
    read->records[read->count] = *record;
    read->points[read->count].x = x;
    read->points[read->count].y = y;
    read->count += 1;
    return true;
}

/* The same from a request's numbers: those of one without a point, of one with a point, and of one with a text. */
static inline bool bz_read_with_numbers(bozterrun_read *read, uint64_t request, uint64_t object, uint64_t version,
                                        uint64_t first, uint64_t second, uint64_t third)
{
    bozterrun_record record;
    record.request = request;
    record.object = object;
    record.version = version;
    record.first = first;
    record.second = second;
    record.third = third;
    record.start = 0;
    record.length = 0;
    return bz_read_record(read, &record, 0, 0);
}

static inline bool bz_read_with_point(bozterrun_read *read, uint64_t request, uint64_t object, uint64_t first,
                                      float x, float y)
{
    bozterrun_record record;
    record.request = request;
    record.object = object;
    record.version = 0;
    record.first = first;
    record.second = 0;
    record.third = 0;
    record.start = 0;
    record.length = 0;
    return bz_read_record(read, &record, x, y);
}

static inline bool bz_read_with_text(bozterrun_read *read, uint64_t request, uint64_t object, uint64_t first,
                                     const void *text, size_t text_length)
{
    const size_t length = text != NULL ? text_length : 0;
    bozterrun_record record;
    if (read == NULL || read->texts_length > read->texts_capacity ||
        length > read->texts_capacity - read->texts_length) {
        return false;
    }
    record.request = request;
    record.object = object;
    record.version = 0;
    record.first = first;
    record.second = 0;
    record.third = 0;
    record.start = read->texts_length;
    record.length = length;
    if (!bz_read_record(read, &record, 0, 0)) {
        return false;
    }
    if (length > 0) {
        memcpy(read->texts + read->texts_length, text, length);
    }
    read->texts_length += length;
    return true;
}

/*
 * One for each of the 36 requests, with the arguments of its single call but for the session, the clock and `out`,
 * which come with bz_handle_requests. Each adds a record and copies its text, if it has one, behind those gathered
 * before: true, or false where records or texts have no room or the read is NULL, and then the read is as it was. A
 * text may not lie in the texts of the read itself. Nothing else is tested here: bz_handle_requests tells what a
 * record is refused with. Those of a handshake are refused always, as at bz_unexpected_handshake.
 */
static inline bool bz_read_handshake_handshake_version(bozterrun_read *read, uint32_t version)
{
    return bz_read_with_numbers(read, BOZTERRUN_READ_HANDSHAKE_VERSION, 0, 0, version, 0, 0);
}

static inline bool bz_read_handshake_finish(bozterrun_read *read)
{
    return bz_read_with_numbers(read, BOZTERRUN_READ_HANDSHAKE_FINISH, 0, 0, 0, 0, 0);
}

static inline bool bz_read_handshake_context_type(bozterrun_read *read, uint32_t context_type)
{
    return bz_read_with_numbers(read, BOZTERRUN_READ_HANDSHAKE_CONTEXT_TYPE, 0, 0, context_type, 0, 0);
}

static inline bool bz_read_handshake_name(bozterrun_read *read, const void *text, size_t text_length)
{
    return bz_read_with_text(read, BOZTERRUN_READ_HANDSHAKE_NAME, 0, 0, text, text_length);
}

static inline bool bz_read_handshake_interface_version(bozterrun_read *read, const void *text, size_t text_length,
                                                       uint32_t version)
{
    return bz_read_with_text(read, BOZTERRUN_READ_HANDSHAKE_INTERFACE_VERSION, 0, version, text, text_length);
}

static inline bool bz_read_connection_sync(bozterrun_read *read, uint64_t callback, uint32_t version)
{
    return bz_read_with_numbers(read, BOZTERRUN_READ_CONNECTION_SYNC, 0, 0, callback, version, 0);
}

static inline bool bz_read_connection_disconnect(bozterrun_read *read)
{
    return bz_read_with_numbers(read, BOZTERRUN_READ_CONNECTION_DISCONNECT, 0, 0, 0, 0, 0);
}

static inline bool bz_read_pingpong_done(bozterrun_read *read)
{
    return bz_read_with_numbers(read, BOZTERRUN_READ_PINGPONG_DONE, 0, 0, 0, 0, 0);
}

static inline bool bz_read_seat_release(bozterrun_read *read, uint64_t seat)
{
    return bz_read_with_numbers(read, BOZTERRUN_READ_SEAT_RELEASE, seat, 0, 0, 0, 0);
}

static inline bool bz_read_seat_bind(bozterrun_read *read, uint64_t seat, uint64_t capabilities)
{
    return bz_read_with_numbers(read, BOZTERRUN_READ_SEAT_BIND, seat, 0, capabilities, 0, 0);
}

static inline bool bz_read_seat_request_device(bozterrun_read *read, uint64_t seat, uint64_t capabilities)
{
    return bz_read_with_numbers(read, BOZTERRUN_READ_SEAT_REQUEST_DEVICE, seat, 0, capabilities, 0, 0);
}

static inline bool bz_read_device_release(bozterrun_read *read, uint64_t device)
{
    return bz_read_with_numbers(read, BOZTERRUN_READ_DEVICE_RELEASE, device, 0, 0, 0, 0);
}

static inline bool bz_read_device_start_emulating(bozterrun_read *read, uint64_t device, uint32_t last_serial,
                                                  uint32_t sequence)
{
    return bz_read_with_numbers(read, BOZTERRUN_READ_DEVICE_START_EMULATING, device, 0, last_serial, sequence, 0);
}

static inline bool bz_read_device_stop_emulating(bozterrun_read *read, uint64_t device, uint32_t last_serial)
{
    return bz_read_with_numbers(read, BOZTERRUN_READ_DEVICE_STOP_EMULATING, device, 0, last_serial, 0, 0);
}

static inline bool bz_read_device_frame(bozterrun_read *read, uint64_t device, uint32_t last_serial,
                                        uint64_t timestamp)
{
    return bz_read_with_numbers(read, BOZTERRUN_READ_DEVICE_FRAME, device, 0, last_serial, timestamp, 0);
}

static inline bool bz_read_device_ready(bozterrun_read *read, uint64_t device)
{
    return bz_read_with_numbers(read, BOZTERRUN_READ_DEVICE_READY, device, 0, 0, 0, 0);
}

static inline bool bz_read_pointer_release(bozterrun_read *read, uint64_t pointer)
{
    return bz_read_with_numbers(read, BOZTERRUN_READ_POINTER_RELEASE, pointer, 0, 0, 0, 0);
}

static inline bool bz_read_pointer_motion_relative(bozterrun_read *read, uint64_t pointer, float x, float y)
{
    return bz_read_with_point(read, BOZTERRUN_READ_POINTER_MOTION_RELATIVE, pointer, 0, x, y);
}

static inline bool bz_read_pointer_absolute_release(bozterrun_read *read, uint64_t pointer_absolute)
{
    return bz_read_with_numbers(read, BOZTERRUN_READ_POINTER_ABSOLUTE_RELEASE, pointer_absolute, 0, 0, 0, 0);
}

static inline bool bz_read_pointer_absolute_motion_absolute(bozterrun_read *read, uint64_t pointer_absolute, float x,
                                                            float y)
{
    return bz_read_with_point(read, BOZTERRUN_READ_POINTER_ABSOLUTE_MOTION_ABSOLUTE, pointer_absolute, 0, x, y);
}

static inline bool bz_read_scroll_release(bozterrun_read *read, uint64_t scroll)
{
    return bz_read_with_numbers(read, BOZTERRUN_READ_SCROLL_RELEASE, scroll, 0, 0, 0, 0);
}

static inline bool bz_read_scroll_scroll(bozterrun_read *read, uint64_t scroll, float x, float y)
{
    return bz_read_with_point(read, BOZTERRUN_READ_SCROLL_SCROLL, scroll, 0, x, y);
}

static inline bool bz_read_scroll_scroll_discrete(bozterrun_read *read, uint64_t scroll, int32_t x, int32_t y)
{
    return bz_read_with_numbers(read, BOZTERRUN_READ_SCROLL_SCROLL_DISCRETE, scroll, 0, (uint32_t)x, (uint32_t)y, 0);
}

static inline bool bz_read_scroll_scroll_stop(bozterrun_read *read, uint64_t scroll, uint32_t x, uint32_t y,
                                              uint32_t is_cancel)
{
    return bz_read_with_numbers(read, BOZTERRUN_READ_SCROLL_SCROLL_STOP, scroll, 0, x, y, is_cancel);
}

static inline bool bz_read_button_release(bozterrun_read *read, uint64_t interface)
{
    return bz_read_with_numbers(read, BOZTERRUN_READ_BUTTON_RELEASE, interface, 0, 0, 0, 0);
}

static inline bool bz_read_button_button(bozterrun_read *read, uint64_t interface, uint32_t button, uint32_t state)
{
    return bz_read_with_numbers(read, BOZTERRUN_READ_BUTTON_BUTTON, interface, 0, button, state, 0);
}

static inline bool bz_read_keyboard_release(bozterrun_read *read, uint64_t keyboard)
{
    return bz_read_with_numbers(read, BOZTERRUN_READ_KEYBOARD_RELEASE, keyboard, 0, 0, 0, 0);
}

static inline bool bz_read_keyboard_key(bozterrun_read *read, uint64_t keyboard, uint32_t key, uint32_t state)
{
    return bz_read_with_numbers(read, BOZTERRUN_READ_KEYBOARD_KEY, keyboard, 0, key, state, 0);
}

static inline bool bz_read_touchscreen_release(bozterrun_read *read, uint64_t touchscreen)
{
    return bz_read_with_numbers(read, BOZTERRUN_READ_TOUCHSCREEN_RELEASE, touchscreen, 0, 0, 0, 0);
}

static inline bool bz_read_touchscreen_down(bozterrun_read *read, uint64_t touchscreen, uint32_t touch_id, float x,
                                            float y)
{
    return bz_read_with_point(read, BOZTERRUN_READ_TOUCHSCREEN_DOWN, touchscreen, touch_id, x, y);
}

static inline bool bz_read_touchscreen_motion(bozterrun_read *read, uint64_t touchscreen, uint32_t touch_id, float x,
                                              float y)
{
    return bz_read_with_point(read, BOZTERRUN_READ_TOUCHSCREEN_MOTION, touchscreen, touch_id, x, y);
}

static inline bool bz_read_touchscreen_up(bozterrun_read *read, uint64_t touchscreen, uint32_t touch_id)
{
    return bz_read_with_numbers(read, BOZTERRUN_READ_TOUCHSCREEN_UP, touchscreen, 0, touch_id, 0, 0);
}

static inline bool bz_read_touchscreen_cancel(bozterrun_read *read, uint64_t touchscreen, uint32_t version,
                                              uint32_t touch_id)
{
    return bz_read_with_numbers(read, BOZTERRUN_READ_TOUCHSCREEN_CANCEL, touchscreen, version, touch_id, 0, 0);
}

static inline bool bz_read_text_release(bozterrun_read *read, uint64_t interface)
{
    return bz_read_with_numbers(read, BOZTERRUN_READ_TEXT_RELEASE, interface, 0, 0, 0, 0);
}

static inline bool bz_read_text_keysym(bozterrun_read *read, uint64_t interface, uint32_t keysym, uint32_t state)
{
    return bz_read_with_numbers(read, BOZTERRUN_READ_TEXT_KEYSYM, interface, 0, keysym, state, 0);
}

static inline bool bz_read_text_utf8(bozterrun_read *read, uint64_t interface, const void *text, size_t text_length)
{
    return bz_read_with_text(read, BOZTERRUN_READ_TEXT_UTF8, interface, 0, text, text_length);
}

/*
 * Hands a read over: its requests one after another, each as its single call would take it, up to the first that is
 * refused. `accepted` gets how many were accepted, those that do nothing among them: it is also the place of the
 * refused record. `count` gets how many bytes of events they wrote to `out`, one behind another from its first byte;
 * each request has what is left of it. `clock` is the time for all.
 * Answers 0 where no record was refused, else what the first was refused with. That record and those behind it leave
 * no trace; what was accepted before it stays done and written. To go on, deal with the refusal and hand over
 * bz_read_rest(&read, accepted), or with accepted + 1 what is behind the refused record.
 * Answers BOZTERRUN_BAD_ARGUMENT where any record is no request, or has a state that is neither a press nor a release;
 * the library's function also where its slices hold no whole records. Refuses BOZTERRUN_BAD_STATE, which is tested
 * once, before the first record; then, record by record, BOZTERRUN_BAD_PART where it has a text whose part goes past
 * the end of the texts, and the refusals of its single call in their order. With BOZTERRUN_INVALID_INTERFACE_VERSION
 * the interface and the version are told; at any other answer these two numbers are 0.
 */
uint32_t bozterrun_handle_requests(uint64_t *control, size_t control_length, uint64_t *words, size_t words_length,
                                   float *reals, size_t reals_length, uint8_t *texts, size_t texts_length,
                                   const uint64_t *records, size_t records_length, const float *points,
                                   size_t points_length, const uint8_t *lent, size_t lent_length, uint64_t clock,
                                   uint8_t *out, size_t out_length, size_t *accepted, size_t *count,
                                   uint32_t *refused_interface, uint32_t *refused_version);

static inline uint32_t bz_handle_requests(bozterrun_session *session, const bozterrun_read *read, uint64_t clock,
                                          uint8_t *out, size_t out_length, size_t *accepted, size_t *count,
                                          uint32_t *refused_interface, uint32_t *refused_version)
{
    static const bozterrun_record no_record = {{{0}}};
    static const bozterrun_point no_point = {{{0}}};
    size_t spare_accepted = 0, spare_count = 0;
    uint32_t spare_interface = 0, spare_version = 0;
    if (session == NULL || read == NULL) {
        *BZ_OR(accepted, &spare_accepted) = 0;
        *BZ_OR(refused_interface, &spare_interface) = 0;
        *BZ_OR(refused_version, &spare_version) = 0;
        return bz_no_session(count, NULL);
    }
    const bool any = read->records != NULL && read->points != NULL;
    const size_t records = any ? read->count : 0;
    return bozterrun_handle_requests(
        BZ_SESSION(session), any ? read->records->numbers : no_record.numbers, records * BOZTERRUN_RECORD_LENGTH,
        any ? read->points->coordinates : no_point.coordinates, records * BOZTERRUN_POINT_LENGTH,
        BZ_TEXT(read->texts, read->texts_length), clock, BZ_OUT(out, out_length), BZ_OR(accepted, &spare_accepted),
        BZ_OR(count, &spare_count), BZ_OR(refused_interface, &spare_interface), BZ_OR(refused_version, &spare_version));
}

/* ---------------------------------------------------------------------------------------------------------------- */
/* Delivery.                                                                                                        */
/* ---------------------------------------------------------------------------------------------------------------- */

/*
 * The oldest queued request, taken out of the queue: its fields in `request`, the text of a TEXT_UTF8 at the front of
 * `buffer`, as many bytes as `length` says. 254 bytes are enough.
 * Timed requests come in frames: one or more of one device, with one time, then that device's FRAME with that time.
 * Nothing else comes between them, no FRAME comes by itself, and no request comes twice.
 * Answers BOZTERRUN_NONE where nothing is queued. Refuses BOZTERRUN_SHORT_OUT where the buffer is shorter than the
 * text: the request is then still the oldest. At any answer but 0 request and buffer are as they were.
 */
uint32_t bozterrun_next_request(uint64_t *control, size_t control_length, const uint64_t *words, size_t words_length,
                                const float *reals, size_t reals_length, const uint8_t *texts, size_t texts_length,
                                uint64_t numbers[5], float coordinates[2], uint8_t *buffer, size_t buffer_length);

static inline uint32_t bz_next_request(bozterrun_session *session, bozterrun_request *request, void *buffer,
                                       size_t buffer_length)
{
    if (session == NULL || request == NULL) {
        return BOZTERRUN_BAD_STATE;
    }
    return bozterrun_next_request(BZ_SESSION(session), request->numbers, request->coordinates,
                                  BZ_OUT(buffer, buffer_length));
}

/* The kind of a delivered request, BOZTERRUN_REQUEST_DISCONNECT to BOZTERRUN_REQUEST_TEXT_UTF8. */
static inline uint32_t bz_request_kind(const bozterrun_request *request)
{
    if (request->kind > BOZTERRUN_REQUEST_TEXT_UTF8) {
        return BOZTERRUN_REQUEST_DISCONNECT;
    }
    return (uint32_t)request->kind;
}

/* ---------------------------------------------------------------------------------------------------------------- */
/* The station's calls.                                                                                             */
/* ---------------------------------------------------------------------------------------------------------------- */

/*
 * Adds a seat with those of these capabilities whose interfaces were negotiated, if only with version 0; `id` is what
 * it is called from then on. Others are left out, so that a client that binds them is refused; a seat may be left none.
 * In the library's own function the name counts where `given` is 1. Writes the seat, its name, its capabilities, done:
 * 429 bytes at most. The seat says version 1 where ei_seat was not negotiated.
 * The library's function answers BOZTERRUN_BAD_ARGUMENT where `given` is above 1. Refuses BOZTERRUN_BAD_UTF8;
 * BOZTERRUN_NAME_LONG; BOZTERRUN_BAD_CAPABILITIES; BOZTERRUN_FULL_SEATS; BOZTERRUN_IDS_SPENT; BOZTERRUN_SHORT_OUT.
 */
uint32_t bozterrun_add_seat(uint64_t *control, size_t control_length, uint32_t given, const uint8_t *name,
                            size_t name_length, uint64_t capabilities, uint8_t *out, size_t out_length, size_t *count,
                            uint64_t *id);

static inline uint32_t bz_add_seat(bozterrun_session *session, const void *name, size_t name_length,
                                   uint64_t capabilities, uint8_t *out, size_t out_length, size_t *count,
                                   uint64_t *id)
{
    size_t spare;
    uint64_t spare_id;
    if (session == NULL) {
        return bz_no_session(count, id);
    }
    return bozterrun_add_seat(BZ_CONTROL(session), name != NULL, BZ_TEXT(name, name_length), capabilities,
                              BZ_OUT(out, out_length), BZ_OR(count, &spare), BZ_OR(id, &spare_id));
}

/*
 * Adds a device to a seat, with an interface for each of these capabilities that the seat has too, and so for none
 * that was not negotiated. `id` is what it is called from then on; the ids of its interfaces follow. In the library's
 * own function the name counts where `given` is 1. Writes the device, its name, its type, its interfaces, done: 471
 * bytes at most. The device says version 1 where ei_device was not negotiated.
 * Answers BOZTERRUN_BAD_ARGUMENT for a type that is no BOZTERRUN_DEVICE_TYPE_.., the library's function also where
 * `given` is above 1. Refuses BOZTERRUN_BAD_UTF8; BOZTERRUN_NAME_LONG; BOZTERRUN_BAD_CAPABILITIES;
 * BOZTERRUN_UNKNOWN_HANDLE; BOZTERRUN_FULL_DEVICES; BOZTERRUN_IDS_SPENT; BOZTERRUN_SHORT_OUT.
 */
uint32_t bozterrun_add_device(uint64_t *control, size_t control_length, uint64_t seat, uint32_t given,
                              const uint8_t *name, size_t name_length, uint32_t device_type, uint64_t capabilities,
                              uint8_t *out, size_t out_length, size_t *count, uint64_t *id);

static inline uint32_t bz_add_device(bozterrun_session *session, uint64_t seat, const void *name, size_t name_length,
                                     uint32_t device_type, uint64_t capabilities, uint8_t *out, size_t out_length,
                                     size_t *count, uint64_t *id)
{
    size_t spare;
    uint64_t spare_id;
    if (session == NULL) {
        return bz_no_session(count, id);
    }
    return bozterrun_add_device(BZ_CONTROL(session), seat, name != NULL, BZ_TEXT(name, name_length), device_type,
                                capabilities, BZ_OUT(out, out_length), BZ_OR(count, &spare), BZ_OR(id, &spare_id));
}

/*
 * Removes a seat with its devices, or a device. What a removed device has pending is dropped, what is queued stays.
 * Writes destroyed for each object but the interfaces that were released: 910 bytes at most for a seat, 112 for a
 * device.
 * Each refuses BOZTERRUN_UNKNOWN_HANDLE; BOZTERRUN_SHORT_OUT.
 */
uint32_t bozterrun_remove_seat(uint64_t *control, size_t control_length, uint64_t *words, size_t words_length,
                               float *reals, size_t reals_length, uint64_t seat, uint8_t *out, size_t out_length,
                               size_t *count);

static inline uint32_t bz_remove_seat(bozterrun_session *session, uint64_t seat, uint8_t *out, size_t out_length,
                                      size_t *count)
{
    size_t spare;
    if (session == NULL) {
        return bz_no_session(count, NULL);
    }
    return bozterrun_remove_seat(BZ_ROWS(session), seat, BZ_OUT(out, out_length), BZ_OR(count, &spare));
}

uint32_t bozterrun_remove_device(uint64_t *control, size_t control_length, uint64_t *words, size_t words_length,
                                 float *reals, size_t reals_length, uint64_t device, uint8_t *out, size_t out_length,
                                 size_t *count);

static inline uint32_t bz_remove_device(bozterrun_session *session, uint64_t device, uint8_t *out, size_t out_length,
                                        size_t *count)
{
    size_t spare;
    if (session == NULL) {
        return bz_no_session(count, NULL);
    }
    return bozterrun_remove_device(BZ_ROWS(session), device, BZ_OUT(out, out_length), BZ_OR(count, &spare));
}

/*
 * Tell the client that the device is resumed, paused, starts or stops emulating, or that a frame has ended, with the
 * next serial: 14, 14, 18, 14 and 22 bytes. Paused also forgets which touches are held; what is pending stays.
 * Each refuses BOZTERRUN_UNKNOWN_HANDLE; BOZTERRUN_SHORT_OUT.
 */
uint32_t bozterrun_resumed(uint64_t *control, size_t control_length, uint64_t device, uint8_t *out,
                           size_t out_length, size_t *count);

static inline uint32_t bz_resumed(bozterrun_session *session, uint64_t device, uint8_t *out, size_t out_length,
                                  size_t *count)
{
    size_t spare;
    if (session == NULL) {
        return bz_no_session(count, NULL);
    }
    return bozterrun_resumed(BZ_CONTROL(session), device, BZ_OUT(out, out_length), BZ_OR(count, &spare));
}

uint32_t bozterrun_paused(uint64_t *control, size_t control_length, uint64_t device, uint8_t *out, size_t out_length,
                          size_t *count);

static inline uint32_t bz_paused(bozterrun_session *session, uint64_t device, uint8_t *out, size_t out_length,
                                 size_t *count)
{
    size_t spare;
    if (session == NULL) {
        return bz_no_session(count, NULL);
    }
    return bozterrun_paused(BZ_CONTROL(session), device, BZ_OUT(out, out_length), BZ_OR(count, &spare));
}

uint32_t bozterrun_start_emulating(uint64_t *control, size_t control_length, uint64_t device, uint32_t sequence,
                                   uint8_t *out, size_t out_length, size_t *count);

static inline uint32_t bz_start_emulating(bozterrun_session *session, uint64_t device, uint32_t sequence,
                                          uint8_t *out, size_t out_length, size_t *count)
{
    size_t spare;
    if (session == NULL) {
        return bz_no_session(count, NULL);
    }
    return bozterrun_start_emulating(BZ_CONTROL(session), device, sequence, BZ_OUT(out, out_length),
                                     BZ_OR(count, &spare));
}

uint32_t bozterrun_stop_emulating(uint64_t *control, size_t control_length, uint64_t device, uint8_t *out,
                                  size_t out_length, size_t *count);

static inline uint32_t bz_stop_emulating(bozterrun_session *session, uint64_t device, uint8_t *out, size_t out_length,
                                         size_t *count)
{
    size_t spare;
    if (session == NULL) {
        return bz_no_session(count, NULL);
    }
    return bozterrun_stop_emulating(BZ_CONTROL(session), device, BZ_OUT(out, out_length), BZ_OR(count, &spare));
}

uint32_t bozterrun_frame(uint64_t *control, size_t control_length, uint64_t device, uint64_t time, uint8_t *out,
                         size_t out_length, size_t *count);

static inline uint32_t bz_frame(bozterrun_session *session, uint64_t device, uint64_t time, uint8_t *out,
                                size_t out_length, size_t *count)
{
    size_t spare;
    if (session == NULL) {
        return bz_no_session(count, NULL);
    }
    return bozterrun_frame(BZ_CONTROL(session), device, time, BZ_OUT(out, out_length), BZ_OR(count, &spare));
}

/*
 * Takes every seat out with its devices and says so, then tells the client why, with the last serial: 1,225 bytes at
 * most. Requests that are queued stay queued. In the library's own function the explanation counts where `given` is 1.
 * Answers BOZTERRUN_BAD_ARGUMENT for a reason that is no BOZTERRUN_REASON_.., the library's function also where
 * `given` is above 1. Refuses BOZTERRUN_BAD_UTF8; BOZTERRUN_NAME_LONG; BOZTERRUN_SHORT_OUT.
 */
uint32_t bozterrun_disconnected(uint64_t *control, size_t control_length, uint64_t *words, size_t words_length,
                                float *reals, size_t reals_length, uint32_t reason, uint32_t given,
                                const uint8_t *explanation, size_t explanation_length, uint8_t *out,
                                size_t out_length, size_t *count);

static inline uint32_t bz_disconnected(bozterrun_session *session, uint32_t reason, const void *explanation,
                                       size_t explanation_length, uint8_t *out, size_t out_length, size_t *count)
{
    size_t spare;
    if (session == NULL) {
        return bz_no_session(count, NULL);
    }
    return bozterrun_disconnected(BZ_ROWS(session), reason, explanation != NULL,
                                  BZ_TEXT(explanation, explanation_length), BZ_OUT(out, out_length),
                                  BZ_OR(count, &spare));
}

/* The serial of the last event, a number of 32 bits. */
uint32_t bozterrun_last_serial(const uint64_t *control, size_t control_length, uint64_t *serial);

static inline uint32_t bz_last_serial(const bozterrun_session *session, uint64_t *serial)
{
    uint64_t spare;
    if (session == NULL) {
        return bz_no_session(NULL, serial);
    }
    return bozterrun_last_serial(BZ_CONTROL(session), BZ_OR(serial, &spare));
}

/*
 * Whether the interface of this name was negotiated: 1 or 0.
 * Refuses BOZTERRUN_BAD_UTF8.
 */
uint32_t bozterrun_has_interface(const uint64_t *control, size_t control_length, const uint8_t *name,
                                 size_t name_length, uint64_t *truth);

static inline uint32_t bz_has_interface(const bozterrun_session *session, const void *name, size_t name_length,
                                        uint64_t *truth)
{
    uint64_t spare;
    if (session == NULL) {
        return bz_no_session(NULL, truth);
    }
    return bozterrun_has_interface(BZ_CONTROL(session), BZ_TEXT(name, name_length), BZ_OR(truth, &spare));
}

/*
 * The version that was negotiated for the interface of this name.
 * Answers BOZTERRUN_NONE where none was. Refuses BOZTERRUN_BAD_UTF8.
 */
uint32_t bozterrun_interface_version(const uint64_t *control, size_t control_length, const uint8_t *name,
                                     size_t name_length, uint64_t *version);

static inline uint32_t bz_interface_version(const bozterrun_session *session, const void *name, size_t name_length,
                                            uint64_t *version)
{
    uint64_t spare;
    if (session == NULL) {
        return bz_no_session(NULL, version);
    }
    return bozterrun_interface_version(BZ_CONTROL(session), BZ_TEXT(name, name_length), BZ_OR(version, &spare));
}

/*
 * Whether the device lists an interface for this capability (BOZTERRUN_CAPABILITY_..): 1, or 0 for none and for one
 * that the client has released.
 * Answers BOZTERRUN_BAD_ARGUMENT where the capability is not one of the seven. Refuses BOZTERRUN_UNKNOWN_HANDLE.
 */
uint32_t bozterrun_has_capability(const uint64_t *control, size_t control_length, uint64_t device,
                                  uint64_t capability, uint64_t *truth);

static inline uint32_t bz_has_capability(const bozterrun_session *session, uint64_t device, uint64_t capability,
                                         uint64_t *truth)
{
    uint64_t spare;
    if (session == NULL) {
        return bz_no_session(NULL, truth);
    }
    return bozterrun_has_capability(BZ_CONTROL(session), device, capability, BZ_OR(truth, &spare));
}

/* ---------------------------------------------------------------------------------------------------------------- */
/* Event records.                                                                                                   */
/* ---------------------------------------------------------------------------------------------------------------- */

/*
 * An event that the client is to be sent, on the object of this id (0 is the handshake). The fields of each kind; what
 * is not listed for a kind is 0:
 *
 *   SEAT, DEVICE                          id, version
 *   NAME                                  text
 *   CAPABILITY                            mask, interface
 *   DONE
 *   DESTROYED, RESUMED, PAUSED            serial
 *   STOP_EMULATING                        serial
 *   DEVICE_TYPE                           device_type
 *   INTERFACE                             id, interface, version
 *   START_EMULATING                       serial, sequence
 *   FRAME                                 serial, time
 *   DISCONNECTED                          serial, reason, given (1: there is an explanation), text
 *   CALLBACK_DONE                         value
 *   HANDSHAKE_VERSION                     version
 *   INTERFACE_VERSION                     interface, version
 *   CONNECTION                            id, serial, version
 *
 * A text lies where the record lies and has no zero at its end; `text` is NULL at other kinds.
 */
typedef struct bozterrun_event {
    uint64_t object;
    uint64_t id;
    uint64_t mask;
    uint64_t time;
    uint64_t value;
    const uint8_t *text;
    size_t text_length;
    uint32_t kind;
    uint32_t interface;
    uint32_t version;
    uint32_t serial;
    uint32_t sequence;
    uint32_t device_type;
    uint32_t reason;
    uint32_t given;
} bozterrun_event;

/* A number of so many bytes, the most significant first. */
static inline uint64_t bz_big_endian(const uint8_t *bytes, size_t length)
{
    uint64_t n = 0;
    for (size_t i = 0; i < length; i++) {
        n = n << 8 | bytes[i];
    }
    return n;
}

static inline uint32_t bz_big_endian_32(const uint8_t *bytes)
{
    return (uint32_t)bz_big_endian(bytes, 4);
}

/* The bytes of a record of this kind, without its text; 0 where there is no such kind. */
static inline size_t bz_event_length(uint32_t kind)
{
    static const uint8_t lengths[19] = {0, 22, 10, 19, 10, 14, 22, 14, 23, 14, 14, 18, 14, 22, 19, 18, 14, 15, 26};
    return kind < 19 ? lengths[kind] : 0;
}

/*
 * Reads the record at `*at` of the first `count` bytes of `out` and moves `*at` behind it. Begin with 0. False where
 * there is none: at the end `*at` is then `count`, and before bytes that are no whole record it stays where they begin.
 * No byte past `count` is read.
 */
static inline bool bz_next_event(const uint8_t *out, size_t count, size_t *at, bozterrun_event *event)
{
    if (out == NULL || at == NULL || event == NULL || count < *at || count - *at < 10) {
        return false;
    }
    const uint8_t *const record = out + *at;
    const uint8_t *const fields = record + 10;
    const uint32_t kind = record[0] >> 3;
    const size_t length = (size_t)bz_big_endian(record, 2) & 2047;
    const size_t fixed = bz_event_length(kind);
    const bool has_text = kind == BOZTERRUN_EVENT_NAME || kind == BOZTERRUN_EVENT_DISCONNECTED;
    if (fixed == 0 || length < fixed || count - *at < length || (!has_text && length != fixed)) {
        return false;
    }
    bozterrun_event e = {0, 0, 0, 0, 0, NULL, 0, 0, 0, 0, 0, 0, 0, 0, 0};
    e.kind = kind;
    e.object = bz_big_endian(record + 2, 8);
    if (has_text) {
        e.text = record + fixed;
        e.text_length = length - fixed;
    }
    switch (kind) {
    case BOZTERRUN_EVENT_SEAT:
    case BOZTERRUN_EVENT_DEVICE:
        e.id = bz_big_endian(fields, 8);
        e.version = bz_big_endian_32(fields + 8);
        break;
    case BOZTERRUN_EVENT_CAPABILITY:
        e.mask = bz_big_endian(fields, 8);
        e.interface = fields[8];
        break;
    case BOZTERRUN_EVENT_DESTROYED:
    case BOZTERRUN_EVENT_RESUMED:
    case BOZTERRUN_EVENT_PAUSED:
    case BOZTERRUN_EVENT_STOP_EMULATING:
        e.serial = bz_big_endian_32(fields);
        break;
    case BOZTERRUN_EVENT_DEVICE_TYPE:
        e.device_type = bz_big_endian_32(fields);
        break;
    case BOZTERRUN_EVENT_INTERFACE:
        e.id = bz_big_endian(fields, 8);
        e.interface = fields[8];
        e.version = bz_big_endian_32(fields + 9);
        break;
    case BOZTERRUN_EVENT_START_EMULATING:
        e.serial = bz_big_endian_32(fields);
        e.sequence = bz_big_endian_32(fields + 4);
        break;
    case BOZTERRUN_EVENT_FRAME:
        e.serial = bz_big_endian_32(fields);
        e.time = bz_big_endian(fields + 4, 8);
        break;
    case BOZTERRUN_EVENT_DISCONNECTED:
        e.serial = bz_big_endian_32(fields);
        e.reason = bz_big_endian_32(fields + 4);
        e.given = fields[8] >> 7;
        if ((fields[8] & 127) != 0 || (e.given == 0 && e.text_length != 0)) {
            return false;
        }
        break;
    case BOZTERRUN_EVENT_CALLBACK_DONE:
        e.value = bz_big_endian(fields, 8);
        break;
    case BOZTERRUN_EVENT_HANDSHAKE_VERSION:
        e.version = bz_big_endian_32(fields);
        break;
    case BOZTERRUN_EVENT_INTERFACE_VERSION:
        e.interface = fields[0];
        e.version = bz_big_endian_32(fields + 1);
        break;
    case BOZTERRUN_EVENT_CONNECTION:
        e.id = bz_big_endian(fields, 8);
        e.serial = bz_big_endian_32(fields + 8);
        e.version = bz_big_endian_32(fields + 12);
        break;
    default: /* DONE and NAME */
        break;
    }
    *event = e;
    *at += length;
    return true;
}

/* ---------------------------------------------------------------------------------------------------------------- */
/* Event records as the protocol's messages. These calls know no session and no handshake.                          */
/* ---------------------------------------------------------------------------------------------------------------- */

/*
 * Writes the message of one event record, which is what the client is sent: 284 bytes at most. The record has to be
 * exactly what is lent. `interface` is that of the object that it is on, 0 for the handshake: the comment at the top
 * says how it is known. What a call wrote is sendable on its object, but for a text of the caller's own with a zero
 * byte: give names and explanations without one.
 * Refuses BOZTERRUN_UNSENDABLE, for a wrong length, a kind that the interface lacks, an interface, a reason or a device
 * type that has no such number, a bit set that is zero in every record, and a text that is longer than 254 bytes, no
 * UTF-8, not given, or has a zero byte within; then BOZTERRUN_SHORT_OUT.
 */
uint32_t bozterrun_write_message(uint32_t interface, const uint8_t *record, size_t record_length, uint8_t *out,
                                 size_t out_length, size_t *count);

static inline uint32_t bz_write_message(uint32_t interface, const void *record, size_t record_length, uint8_t *out,
                                        size_t out_length, size_t *count)
{
    size_t spare;
    return bozterrun_write_message(interface, BZ_TEXT(record, record_length), BZ_OUT(out, out_length),
                                   BZ_OR(count, &spare));
}

/*
 * The other way, for a client that tests a station: writes the record of one message to an object of this interface,
 * 273 bytes at most. It takes exactly what bz_write_message writes, so that writing what it read gives the same bytes.
 * There is no BOZTERRUN_WAIT: bytes 8 to 11 of a message tell its length.
 * Refuses BOZTERRUN_MALFORMED, here without a case, for bytes that are no message that bz_write_message makes for the
 * interface; then BOZTERRUN_SHORT_OUT.
 */
uint32_t bozterrun_read_message(uint32_t interface, const uint8_t *message, size_t message_length, uint8_t *out,
                                size_t out_length, size_t *count);

static inline uint32_t bz_read_message(uint32_t interface, const void *message, size_t message_length, uint8_t *out,
                                       size_t out_length, size_t *count)
{
    size_t spare;
    return bozterrun_read_message(interface, BZ_TEXT(message, message_length), BZ_OUT(out, out_length),
                                  BZ_OR(count, &spare));
}

/* ---------------------------------------------------------------------------------------------------------------- */
/* Names, sentences, and the test at a program's start.                                                             */
/* ---------------------------------------------------------------------------------------------------------------- */

/* The protocol's name of an interface, "" where there is no such number. */
static inline const char *bz_interface_name(uint32_t interface)
{
    static const char *const names[13] = {
        "",          "ei_connection", "ei_callback",         "ei_pingpong",    "ei_seat",
        "ei_device", "ei_pointer",    "ei_pointer_absolute", "ei_scroll",      "ei_button",
        "ei_keyboard", "ei_touchscreen", "ei_text"};
    return interface < 13 ? names[interface] : "";
}

/* The name of an answer as docs/REFERENCE.md has it, and a sentence for a person. */
static inline const char *bz_refusal_name(uint32_t answer)
{
    static const char *const names[27] = {
        "Accepted",            "UnexpectedHandshakeEvent", "InvalidInterfaceVersion", "InvalidCapabilities",
        "TooManyTouches",      "DuplicatedTouchDown",      "InvalidTextLength",       "NonHandshakeEvent",
        "DuplicateEvent",      "MissingInterface",         "BadUtf8",                 "NameLong",
        "UnknownHandle",       "BadCapabilities",          "FullSeats",               "FullDevices",
        "FullPending",         "FullQueue",                "FullTexts",               "ShortOut",
        "IdsSpent",            "BadState",                 "BadPart",                 "Malformed",
        "NoObject",            "InvalidId",                "Unsendable"};
    if (answer == BOZTERRUN_NONE) {
        return "None";
    }
    if (answer == BOZTERRUN_BAD_ARGUMENT) {
        return "BadArgument";
    }
    if (answer == BOZTERRUN_WAIT) {
        return "Wait";
    }
    return answer < 27 ? names[answer] : "Unknown";
}

static inline const char *bz_refusal_text(uint32_t answer)
{
    static const char *const texts[27] = {
        "The call was accepted.",
        "The client sent a handshake's request in a running session.",
        "The client used a version that the interface does not have.",
        "The client asked for a capability that the seat does not have.",
        "The client put a touch down while 16 touches are held.",
        "The client put a touch down that is held already.",
        "The client sent a text of no byte, or of more than 254.",
        "The client sent another request during the handshake.",
        "The client said its name or its context type twice.",
        "The client does not know ei_connection, ei_pingpong or ei_callback.",
        "The text is not UTF-8.",
        "The name or the explanation has more than 254 bytes.",
        "There is no such seat or device.",
        "The mask has a bit that is no capability.",
        "Four seats stand already.",
        "Eight devices stand already.",
        "The device has 64 requests that wait for a frame.",
        "The queue of 256 requests has no room.",
        "Thirty-two texts stand already.",
        "The lent buffer is too short.",
        "No object ids are left.",
        "The memory that was lent holds no session or no handshake.",
        "A record's part goes past the end of the texts of its read.",
        "The bytes are no message.",
        "The client sent a message to an object that is not alive.",
        "The client gave a new object an id that it may not have.",
        "The bytes are no event record that an object of the interface can send."};
    if (answer == BOZTERRUN_NONE) {
        return "There is none.";
    }
    if (answer == BOZTERRUN_BAD_ARGUMENT) {
        return "An argument is no case of its enum.";
    }
    if (answer == BOZTERRUN_WAIT) {
        return "The message is not yet whole.";
    }
    return answer < 27 ? texts[answer] : "This is no answer of the library.";
}

/* The name of a case of BOZTERRUN_MALFORMED as docs/REFERENCE.md has it, "" where there is no such number, and a
 * sentence for a person. */
static inline const char *bz_parse_error_name(uint32_t parse_error)
{
    static const char *const names[8] = {"",               "EndOfMessage", "Utf8",          "InvalidOpcode",
                                         "InvalidVariant", "HeaderLength", "MessageLength", "InvalidNull"};
    return parse_error < 8 ? names[parse_error] : "";
}

static inline const char *bz_parse_error_text(uint32_t parse_error)
{
    static const char *const texts[8] = {"",
                                         "The message ends within an argument.",
                                         "A text of the message is not UTF-8.",
                                         "The interface has no request with this opcode.",
                                         "An argument is no case of its enum in the protocol.",
                                         "The header says less than its own bytes, or more than a message may have.",
                                         "Bytes are left behind the last argument.",
                                         "A text of the message is null."};
    return parse_error < 8 ? texts[parse_error] : "";
}

/* The lengths of the slices as the library has them. */
size_t bozterrun_handshake_length(void);
size_t bozterrun_name_length(void);
size_t bozterrun_control_length(void);
size_t bozterrun_words_length(void);
size_t bozterrun_reals_length(void);
size_t bozterrun_texts_length(void);

/* The number at a place of the library's table, 0 past its end. bz_check knows its order. */
uint64_t bozterrun_number(size_t place);

/*
 * Whether this header is the library's: 0, or the place, from 1 on, of the first number or length that differs. Places
 * 1 to 129 are the library's table, 130 to 135 the lengths in the order above, 136 says that the table goes on. Call it
 * once at the start.
 */
static inline size_t bz_check(void)
{
    static const uint16_t numbers[129] = {
        BOZTERRUN_UNEXPECTED_HANDSHAKE_EVENT,
        BOZTERRUN_INVALID_INTERFACE_VERSION,
        BOZTERRUN_INVALID_CAPABILITIES,
        BOZTERRUN_TOO_MANY_TOUCHES,
        BOZTERRUN_DUPLICATED_TOUCH_DOWN,
        BOZTERRUN_INVALID_TEXT_LENGTH,
        BOZTERRUN_NON_HANDSHAKE_EVENT,
        BOZTERRUN_DUPLICATE_EVENT,
        BOZTERRUN_MISSING_INTERFACE,
        BOZTERRUN_BAD_UTF8,
        BOZTERRUN_NAME_LONG,
        BOZTERRUN_UNKNOWN_HANDLE,
        BOZTERRUN_BAD_CAPABILITIES,
        BOZTERRUN_FULL_SEATS,
        BOZTERRUN_FULL_DEVICES,
        BOZTERRUN_FULL_PENDING,
        BOZTERRUN_FULL_QUEUE,
        BOZTERRUN_FULL_TEXTS,
        BOZTERRUN_SHORT_OUT,
        BOZTERRUN_IDS_SPENT,
        BOZTERRUN_BAD_STATE,
        BOZTERRUN_BAD_PART,
        BOZTERRUN_MALFORMED,
        BOZTERRUN_NO_OBJECT,
        BOZTERRUN_INVALID_ID,
        BOZTERRUN_UNSENDABLE,
        BOZTERRUN_NONE,
        BOZTERRUN_BAD_ARGUMENT,
        BOZTERRUN_WAIT,
        BOZTERRUN_REQUEST_DISCONNECT,
        BOZTERRUN_REQUEST_BIND,
        BOZTERRUN_REQUEST_DEVICE_CLOSED,
        BOZTERRUN_REQUEST_REQUEST_DEVICE,
        BOZTERRUN_REQUEST_FRAME,
        BOZTERRUN_REQUEST_READY,
        BOZTERRUN_REQUEST_DEVICE_START_EMULATING,
        BOZTERRUN_REQUEST_DEVICE_STOP_EMULATING,
        BOZTERRUN_REQUEST_POINTER_MOTION,
        BOZTERRUN_REQUEST_POINTER_MOTION_ABSOLUTE,
        BOZTERRUN_REQUEST_BUTTON,
        BOZTERRUN_REQUEST_SCROLL_DELTA,
        BOZTERRUN_REQUEST_SCROLL_STOP,
        BOZTERRUN_REQUEST_SCROLL_CANCEL,
        BOZTERRUN_REQUEST_SCROLL_DISCRETE,
        BOZTERRUN_REQUEST_KEYBOARD_KEY,
        BOZTERRUN_REQUEST_TOUCH_DOWN,
        BOZTERRUN_REQUEST_TOUCH_UP,
        BOZTERRUN_REQUEST_TOUCH_MOTION,
        BOZTERRUN_REQUEST_TOUCH_CANCEL,
        BOZTERRUN_REQUEST_TEXT_KEYSYM,
        BOZTERRUN_REQUEST_TEXT_UTF8,
        BOZTERRUN_INTERFACE_CONNECTION,
        BOZTERRUN_INTERFACE_CALLBACK,
        BOZTERRUN_INTERFACE_PINGPONG,
        BOZTERRUN_INTERFACE_SEAT,
        BOZTERRUN_INTERFACE_DEVICE,
        BOZTERRUN_INTERFACE_POINTER,
        BOZTERRUN_INTERFACE_POINTER_ABSOLUTE,
        BOZTERRUN_INTERFACE_SCROLL,
        BOZTERRUN_INTERFACE_BUTTON,
        BOZTERRUN_INTERFACE_KEYBOARD,
        BOZTERRUN_INTERFACE_TOUCHSCREEN,
        BOZTERRUN_INTERFACE_TEXT,
        BOZTERRUN_CAPABILITY_POINTER,
        BOZTERRUN_CAPABILITY_POINTER_ABSOLUTE,
        BOZTERRUN_CAPABILITY_KEYBOARD,
        BOZTERRUN_CAPABILITY_TOUCH,
        BOZTERRUN_CAPABILITY_SCROLL,
        BOZTERRUN_CAPABILITY_BUTTON,
        BOZTERRUN_CAPABILITY_TEXT,
        BOZTERRUN_CONTEXT_TYPE_RECEIVER,
        BOZTERRUN_CONTEXT_TYPE_SENDER,
        BOZTERRUN_DEVICE_TYPE_VIRTUAL,
        BOZTERRUN_DEVICE_TYPE_PHYSICAL,
        BOZTERRUN_REASON_DISCONNECTED,
        BOZTERRUN_REASON_ERROR,
        BOZTERRUN_REASON_MODE,
        BOZTERRUN_REASON_PROTOCOL,
        BOZTERRUN_REASON_VALUE,
        BOZTERRUN_REASON_TRANSPORT,
        BOZTERRUN_READ_HANDSHAKE_VERSION,
        BOZTERRUN_READ_HANDSHAKE_FINISH,
        BOZTERRUN_READ_HANDSHAKE_CONTEXT_TYPE,
        BOZTERRUN_READ_HANDSHAKE_NAME,
        BOZTERRUN_READ_HANDSHAKE_INTERFACE_VERSION,
        BOZTERRUN_READ_CONNECTION_SYNC,
        BOZTERRUN_READ_CONNECTION_DISCONNECT,
        BOZTERRUN_READ_PINGPONG_DONE,
        BOZTERRUN_READ_SEAT_RELEASE,
        BOZTERRUN_READ_SEAT_BIND,
        BOZTERRUN_READ_SEAT_REQUEST_DEVICE,
        BOZTERRUN_READ_DEVICE_RELEASE,
        BOZTERRUN_READ_DEVICE_START_EMULATING,
        BOZTERRUN_READ_DEVICE_STOP_EMULATING,
        BOZTERRUN_READ_DEVICE_FRAME,
        BOZTERRUN_READ_DEVICE_READY,
        BOZTERRUN_READ_POINTER_RELEASE,
        BOZTERRUN_READ_POINTER_MOTION_RELATIVE,
        BOZTERRUN_READ_POINTER_ABSOLUTE_RELEASE,
        BOZTERRUN_READ_POINTER_ABSOLUTE_MOTION_ABSOLUTE,
        BOZTERRUN_READ_SCROLL_RELEASE,
        BOZTERRUN_READ_SCROLL_SCROLL,
        BOZTERRUN_READ_SCROLL_SCROLL_DISCRETE,
        BOZTERRUN_READ_SCROLL_SCROLL_STOP,
        BOZTERRUN_READ_BUTTON_RELEASE,
        BOZTERRUN_READ_BUTTON_BUTTON,
        BOZTERRUN_READ_KEYBOARD_RELEASE,
        BOZTERRUN_READ_KEYBOARD_KEY,
        BOZTERRUN_READ_TOUCHSCREEN_RELEASE,
        BOZTERRUN_READ_TOUCHSCREEN_DOWN,
        BOZTERRUN_READ_TOUCHSCREEN_MOTION,
        BOZTERRUN_READ_TOUCHSCREEN_UP,
        BOZTERRUN_READ_TOUCHSCREEN_CANCEL,
        BOZTERRUN_READ_TEXT_RELEASE,
        BOZTERRUN_READ_TEXT_KEYSYM,
        BOZTERRUN_READ_TEXT_UTF8,
        BOZTERRUN_RECORD_LENGTH,
        BOZTERRUN_POINT_LENGTH,
        BOZTERRUN_PARSE_ERROR_END_OF_MESSAGE,
        BOZTERRUN_PARSE_ERROR_UTF8,
        BOZTERRUN_PARSE_ERROR_INVALID_OPCODE,
        BOZTERRUN_PARSE_ERROR_INVALID_VARIANT,
        BOZTERRUN_PARSE_ERROR_HEADER_LENGTH,
        BOZTERRUN_PARSE_ERROR_MESSAGE_LENGTH,
        BOZTERRUN_PARSE_ERROR_INVALID_NULL,
        BOZTERRUN_HEADER_LENGTH,
        BOZTERRUN_MESSAGE_LENGTH,
        BOZTERRUN_EVENT_MESSAGE_LENGTH,
        BOZTERRUN_EVENT_RECORD_LENGTH,
    };
    for (size_t place = 0; place < 129; place++) {
        if (bozterrun_number(place) != numbers[place]) {
            return place + 1;
        }
    }
    const bool equal[6] = {
        bozterrun_handshake_length() == BOZTERRUN_HANDSHAKE_LENGTH, bozterrun_name_length() == BOZTERRUN_NAME_LENGTH,
        bozterrun_control_length() == BOZTERRUN_CONTROL_LENGTH,     bozterrun_words_length() == BOZTERRUN_WORDS_LENGTH,
        bozterrun_reals_length() == BOZTERRUN_REALS_LENGTH,         bozterrun_texts_length() == BOZTERRUN_TEXTS_LENGTH,
    };
    for (size_t place = 0; place < 6; place++) {
        if (!equal[place]) {
            return 130 + place;
        }
    }
    return bozterrun_number(129) == 0 ? 0 : 136;
}

#undef BZ_ASSERT
#undef BZ_CONTROL
#undef BZ_ROWS
#undef BZ_SESSION
#undef BZ_HANDSHAKE
#undef BZ_TEXT
#undef BZ_OUT
#undef BZ_OR

#ifdef __cplusplus
}
#endif

#endif
