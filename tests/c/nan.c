/*
 * nan [PAIRS]: do the bits of an f32 come out that went in?
 *
 * Odd patterns in all pairs (NaNs quiet and signalling, of both signs, with payloads; infinities, zeros, denormals, the
 * largest numbers), then PAIRS (1000000) random pairs of NaNs, each through pointer motion, absolute motion, scroll,
 * touch down and touch motion. What the proofs say of a NaN is that it stays one; that it keeps its bits is of this
 * build. The exit status is 1 where bits differ or a request does not come.
 */
#include "random.h"
#include "session.h"

static uint64_t device;
static unsigned long same, other;

static float real_of(uint32_t bits)
{
    float f;
    memcpy(&f, &bits, sizeof f);
    return f;
}

static uint32_t bits_of(const float *f)
{
    uint32_t bits;
    memcpy(&bits, f, sizeof bits);
    return bits;
}

/* The five requests in one frame, delivered and compared. */
static void send_pair(uint32_t x, uint32_t y)
{
    static const uint64_t kinds[] = {BOZTERRUN_REQUEST_POINTER_MOTION, BOZTERRUN_REQUEST_POINTER_MOTION_ABSOLUTE,
                                     BOZTERRUN_REQUEST_SCROLL_DELTA, BOZTERRUN_REQUEST_TOUCH_DOWN,
                                     BOZTERRUN_REQUEST_TOUCH_MOTION};
    bozterrun_request r;
    must("motion", bz_pointer_motion_relative(&session, device + 1, real_of(x), real_of(y)));
    must("absolute motion", bz_pointer_absolute_motion_absolute(&session, device + 2, real_of(x), real_of(y)));
    must("scroll", bz_scroll_scroll(&session, device + 5, real_of(x), real_of(y)));
    must("touch down", bz_touchscreen_down(&session, device + 4, 1, real_of(x), real_of(y)));
    must("touch motion", bz_touchscreen_motion(&session, device + 4, 1, real_of(x), real_of(y)));
    must("touch up", bz_touchscreen_up(&session, device + 4, 1));
    must("frame", bz_device_frame(&session, device, 7, 1));
    for (unsigned i = 0; i < 5; i++) {
        must("next_request", bz_next_request(&session, &r, NULL, 0));
        if (r.kind == kinds[i] && bits_of(&r.x) == x && bits_of(&r.y) == y) {
            same++;
        } else {
            other++;
            if (other <= 10) {
                printf("kind %u: %08x %08x came as kind %u: %08x %08x\n", (unsigned)kinds[i], x, y, (unsigned)r.kind,
                       bits_of(&r.x), bits_of(&r.y));
            }
        }
    }
    while (bz_next_request(&session, &r, NULL, 0) == BOZTERRUN_ACCEPTED) {
        /* the touch's up and the frame */
    }
}

/* Exponent all ones, some bit behind it set. */
static uint32_t random_nan(void)
{
    const uint32_t bits = (uint32_t)next_random() | 0x7f800000;
    return (bits & 0x007fffff) != 0 ? bits : bits + 1;
}

int main(int count, char **words)
{
    static const uint32_t odd[] = {
        0x7fc00000, 0xffc00000, 0x7fffffff, 0xffffffff, 0x7fc00001, 0xffc12345, 0x7fedcba9, /* quiet */
        0x7f800001, 0xff800001, 0x7fbfffff, 0xffbfffff, 0x7fa00000, 0xffa5a5a5, 0x7f812345, /* signalling */
        0x7f800000, 0xff800000, 0x00000000, 0x80000000, 0x00000001, 0x80000001, 0x007fffff, /* no NaNs */
        0x807fffff, 0x7f7fffff, 0xff7fffff, 0x00800000, 0x3f800000};
    const unsigned long pairs = count > 1 ? strtoul(words[1], NULL, 10) : 1000000;
    device = begin_session(1, 127);
    for (size_t i = 0; i < sizeof odd / sizeof odd[0]; i++) {
        for (size_t j = 0; j < sizeof odd / sizeof odd[0]; j++) {
            send_pair(odd[i], odd[j]);
        }
    }
    const unsigned long fixed = same;
    for (unsigned long i = 0; i < pairs; i++) {
        const uint32_t x = random_nan();
        send_pair(x, random_nan());
    }
    printf("nan: %lu odd and %lu random deliveries of NaNs came with the same bits, %lu did not\n", fixed,
           same - fixed, other);
    return other != 0;
}
