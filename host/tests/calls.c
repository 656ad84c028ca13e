/* Calls every function of the library, with buffers of exactly the length that is passed or declared, with longer ones, and without
   pointers where the length is 0. */
#define _DEFAULT_SOURCE /* MAP_ANONYMOUS */
#include "thumb_layout.h"
#include <math.h>
#include <stdio.h>
#include <stdlib.h>
#include <string.h>
#include <sys/mman.h>
#include <unistd.h>

static int failures = 0;

static void expect(int line, long got, long want)
{
    if (got != want) {
        fprintf(stderr, "calls.c:%d: %ld, not %ld\n", line, got, want);
        failures++;
    }
}

#define EXPECT(got, want) expect(__LINE__, (got), (want))

/* document 01's example: a screen of 1,000 by 1,000 */
static const uint8_t standard[] = {1, 0, 8, 0x44, 0x7A, 0, 0, 0x44, 0x7A, 0, 0};

static const uint8_t psp[] = {1, 0, 8, 0x44, 0x7A, 0, 0, 0x44, 0x7A, 0, 0, 3, 0, 1, 1};

static const uint8_t analog[] = {1, 0, 8, 0x44, 0x7A, 0, 0, 0x44, 0x7A, 0, 0, 3, 0, 1, 2};

/* A layout into `room` bytes: the answer, and that no byte past it has changed. */
static void layout(int line, const uint8_t *order, size_t length, size_t room, int viewport, long want)
{
    uint8_t *out = malloc(room ? room : 1);
    if (!out)
        abort();
    memset(out, 0xAA, room);
    long got = viewport ? tl_viewport_layout(order, length, 0, 0, out, room) : tl_layout(order, length, out, room);
    expect(line, got, want);
    for (size_t i = got < 0 ? 0 : (size_t)got; i < room; i++)
        expect(line, out[i], 0xAA);
    free(out);
}

static void orders(void)
{
    for (int viewport = 0; viewport < 2; viewport++) {
        layout(__LINE__, standard, sizeof standard, 285, viewport, 285);
        layout(__LINE__, standard, sizeof standard, 300, viewport, 285);
        layout(__LINE__, standard, sizeof standard, 284, viewport, -8);
        layout(__LINE__, psp, sizeof psp, 265, viewport, 265);
        layout(__LINE__, standard, sizeof standard - 1, 285, viewport, -1);
        layout(__LINE__, standard, 0, 285, viewport, -4);
    }
    EXPECT(tl_layout(NULL, 0, NULL, 0), -4);
    EXPECT(tl_layout(standard, sizeof standard, NULL, 0), -8);
    EXPECT(tl_viewport_layout(standard, sizeof standard, -1, 0, NULL, 0), -6);
    EXPECT(tl_viewport_layout(standard, sizeof standard, 0, NAN, NULL, 0), -6);
    EXPECT(tl_viewport_layout(NULL, 0, NAN, NAN, NULL, 0), -4);
    /* the example's triangle is 63.9 wide at 876, 830 */
    EXPECT(tl_touch(standard, sizeof standard, 908, 862, 0), TL_TRI);
    EXPECT(tl_touch(standard, sizeof standard, NAN, INFINITY, 0xFFFF), 0);
    EXPECT(tl_touch(NULL, 0, 0, 0, 0), -4);
}

/* A film sheet into `room` bytes: the text that it starts with, zeros up to 1,024, and that no later byte has changed. */
static void film(int line, const uint8_t *order, size_t length, size_t room, const char *start, long want)
{
    uint8_t *sheet = malloc(room);
    if (!sheet)
        abort();
    memset(sheet, 0xAA, room);
    long got = tl_film(order, length, sheet);
    expect(line, got, want);
    expect(line, memcmp(sheet, start, strlen(start)), 0);
    for (size_t i = (size_t)got; i < room; i++)
        expect(line, sheet[i], i < TL_SHEET ? 0 : 0xAA);
    free(sheet);
}

static void films(void)
{
    film(__LINE__, standard, sizeof standard, TL_SHEET, "FILM 16\nGAME 0 180 10000 7500\n", 348);
    film(__LINE__, standard, sizeof standard, TL_SHEET + 40, "FILM 16\n", 348);
    film(__LINE__, standard, sizeof standard - 1, TL_SHEET, "REFUSED 1\n", 10);
    film(__LINE__, NULL, 0, TL_SHEET, "REFUSED 4\n", 10);
}

/* That the controls of an analog layout, which has all of them, have these masks, and their lines on the sheet these names. */
static void buttons(void)
{
    static const struct {
        unsigned mask;
        const char *name;
    } controls[] = {
        {TL_TRI, "TRI"}, {TL_O, "O"}, {TL_X, "X"}, {TL_SQ, "SQ"}, {TL_L1, "L1"}, {TL_L2, "L2"},
        {TL_R2, "R2"}, {TL_R1, "R1"}, {TL_SELECT, "SELECT"}, {TL_START, "START"}, {TL_L3, "L3"}, {TL_R3, "R3"}};
    uint8_t layout[TL_LAYOUT_MOST] = {0};
    char sheet[TL_SHEET + 1] = {0};
    EXPECT(tl_layout(analog, sizeof analog, layout, sizeof layout), TL_LAYOUT_ANALOG);
    EXPECT(tl_film(analog, sizeof analog, (uint8_t *)sheet) > 0, 1);
    const uint8_t *mask = layout + TL_LAYOUT_ANALOG - 2 * 12;
    const char *line = sheet;
    for (int skipped = 0; skipped < 3; skipped++) /* the head, GAME, DPAD */
        line = strchr(line, '\n') + 1;
    for (int i = 0; i < 12; i++) {
        EXPECT(mask[2 * i] << 8 | mask[2 * i + 1], controls[i].mask);
        EXPECT(strcspn(line, " "), strlen(controls[i].name));
        EXPECT(strncmp(line, controls[i].name, strlen(controls[i].name)), 0);
        line = strchr(line, '\n') + 1;
    }
    /* the example's d-pad is 160 wide, its centre at 92, 910 */
    EXPECT(tl_touch(standard, sizeof standard, 92, 850, 0), TL_DPAD_UP);
    EXPECT(tl_touch(standard, sizeof standard, 92, 970, 0), TL_DPAD_DOWN);
    EXPECT(tl_touch(standard, sizeof standard, 32, 910, 0), TL_DPAD_LEFT);
    EXPECT(tl_touch(standard, sizeof standard, 152, 910, 0), TL_DPAD_RIGHT);
    EXPECT(tl_touch(standard, sizeof standard, 152, 970, 0), TL_DPAD_RIGHT | TL_DPAD_DOWN);
}

/* Settings; a list has as many numbers as its length says. */
struct settings {
    float numbers[9];
    uint8_t mode, fit;
    float cutouts[4 * 17];
    size_t cutouts_len;
    float saved[4 * 33];
    size_t saved_len;
};

/* a screen of 1,000 by 1,000, and what an order with nothing else means */
static const struct settings plain = {.numbers = {1000, 1000, 0, 0, 1000, 1000, 1, 0.5f, 0.5f}, .fit = 1};

enum { HEAP, PAGE, PLACES };

/* A copy of so many bytes, NULL of none, behind which nothing may be touched: a block of the heap, which the sanitizers watch, or
   one that ends with its page, where the library's own loads and stores would end the program. */
static void *lend(const void *from, size_t size, int place)
{
    size_t page = (size_t)sysconf(_SC_PAGESIZE);
    char *block = NULL;
    if (size == 0)
        return NULL;
    if (place == HEAP) {
        block = malloc(size);
    } else {
        char *pages = mmap(NULL, 2 * page, PROT_READ | PROT_WRITE, MAP_PRIVATE | MAP_ANONYMOUS, -1, 0);
        if (size <= page && pages != MAP_FAILED && mprotect(pages + page, page, PROT_NONE) == 0)
            block = pages + page - size;
    }
    if (!block)
        abort();
    return memcpy(block, from, size);
}

static void give_back(void *block, size_t size, int place)
{
    size_t page = (size_t)sysconf(_SC_PAGESIZE);
    if (place == HEAP)
        free(block);
    else if (block)
        munmap((char *)block + size - page, 2 * page);
}

/* The order of settings into `room` bytes: the answer, that no byte past it has changed, and that the lists and numbers have not.
   The order goes to `order`, if there is one. */
static void write_order(int line, const struct settings *s, size_t room, long want, uint8_t *order)
{
    uint8_t fill[TL_ORDER_MOST + 40];
    size_t cutouts_size = s->cutouts_len * sizeof(float), saved_size = s->saved_len * sizeof(float);
    memset(fill, 0xAA, sizeof fill);
    for (int place = 0; place < PLACES; place++) {
        float *numbers = lend(s->numbers, sizeof s->numbers, place);
        float *cutouts = lend(s->cutouts, cutouts_size, place);
        float *saved = lend(s->saved, saved_size, place);
        uint8_t *out = lend(fill, room, place);
        long got = tl_write_order(numbers, s->mode, s->fit, cutouts, s->cutouts_len, saved, s->saved_len, out, room);
        expect(line, got, want);
        for (size_t i = got < 0 ? 0 : (size_t)got; i < room; i++)
            expect(line, out[i], 0xAA);
        expect(line, memcmp(numbers, s->numbers, sizeof s->numbers), 0);
        expect(line, cutouts ? memcmp(cutouts, s->cutouts, cutouts_size) : 0, 0);
        expect(line, saved ? memcmp(saved, s->saved, saved_size) : 0, 0);
        if (order && got > 0)
            memcpy(order, out, (size_t)got);
        give_back(numbers, sizeof s->numbers, place);
        give_back(cutouts, cutouts_size, place);
        give_back(saved, saved_size, place);
        give_back(out, room, place);
    }
}

/* That settings have this order, in an output of its length and in longer ones, and not in one that is a byte shorter; and that the
   order has a layout. */
static void has_order(int line, const struct settings *s, const uint8_t *want, size_t length)
{
    uint8_t order[TL_ORDER_MOST + 40] = {0};
    size_t rooms[] = {length, length + 1, sizeof order};
    for (int i = 0; i < 3; i++) {
        memset(order, 0, sizeof order);
        write_order(line, s, rooms[i], (long)length, order);
        expect(line, memcmp(order, want, length), 0);
    }
    write_order(line, s, length - 1, -TL_SHEET_TOO_SMALL, NULL);
    write_order(line, s, 0, -TL_SHEET_TOO_SMALL, NULL);
    uint8_t out[TL_LAYOUT_MOST] = {0};
    expect(line, tl_layout(order, length, out, sizeof out),
           s->mode & 1 ? TL_LAYOUT_PSP : s->mode & 2 ? TL_LAYOUT_ANALOG : TL_LAYOUT_STANDARD);
}

static void set_bits(float *number, uint32_t bits) { memcpy(number, &bits, sizeof *number); }

static void written_orders(void)
{
    has_order(__LINE__, &plain, standard, sizeof standard);

    /* every field */
    static const uint8_t full[] = {
        1, 0, 8, 0x44, 0x7A, 0, 0, 0x44, 0x7A, 0, 0,                                      /* 1000, 1000 */
        2, 0, 16, 0, 0, 0, 0, 0x41, 0xC0, 0, 0, 0x44, 0x48, 0, 0, 0x44, 0x9D, 0, 0,       /* 0, 24, 800, 1256 */
        3, 0, 1, 6,                                                                       /* analog, allow_overlap */
        4, 0, 1, 0,                                                                       /* unset */
        5, 0, 12, 0x3F, 0x40, 0, 0, 0, 0, 0, 0, 0x3E, 0x80, 0, 0,                         /* 0.75, 0, 0.25 */
        6, 0, 16, 0, 0, 0, 0, 0xC2, 0x70, 0, 0, 0, 0, 0, 0, 0xC6, 0, 0, 0,                /* 0, -60, 0, -8192 */
        7, 0, 80, 0x7F, 0xC0, 0, 0, 0x7F, 0xC0, 0, 0, 0x7F, 0xC0, 0, 0, 0x7F, 0xC0, 0, 0, /* a NaN */
        0x7F, 0xC0, 0, 0, 0x7F, 0xC0, 0, 0, 0x7F, 0xC0, 0, 0, 0x7F, 0xC0, 0, 0,           /* an infinity */
        0x3D, 0xCC, 0xCC, 0xCD, 0, 0, 0, 0, 0x7F, 0x7F, 0xFF, 0xFF, 0, 0, 0, 1,           /* 0.1, 0, the largest, the least */
        0x7F, 0xC0, 0, 0, 0x7F, 0xC0, 0, 0, 0x7F, 0xC0, 0, 0, 0x7F, 0xC0, 0, 0,           /* minus infinity */
        0x7F, 0xC0, 0, 0, 0x7F, 0xC0, 0, 0, 0x7F, 0xC0, 0, 0, 0x7F, 0xC0, 0, 0,           /* a NaN that signals */
    };
    static const uint32_t saved[] = {
        0x3DCCCCCD, 0xFFFFABCD, 0, 0x3DCCCCCD,
        0x7F800000, 0x80000000, 0, 0,
        0x3DCCCCCD, 0x80000000, 0x7F7FFFFF, 1,
        0, 0, 0, 0xFF800000,
        0x7F800001, 0, 0, 0,
    };
    struct settings s = {
        .numbers = {1000, 1000, -0.0f, 24, 800, 1256, 0.75f, -0.0f, 0.25f},
        .mode = 6,
        .cutouts = {-0.0f, -60, -0.0f, -8192},
        .cutouts_len = 4,
        .saved_len = 20,
    };
    for (size_t i = 0; i < s.saved_len; i++)
        set_bits(&s.saved[i], saved[i]);
    has_order(__LINE__, &s, full, sizeof full);

    /* negative zeros where a field then has the value which its absence means, and where it has not */
    static const uint8_t zeros[] = {1, 0, 8, 0, 0, 0, 0, 0, 0, 0, 0};
    static const uint8_t no_game[] = {1, 0, 8, 0, 0, 0, 0, 0, 0, 0, 0, 5, 0, 12, 0, 0, 0, 0, 0, 0, 0, 0, 0, 0, 0, 0};
    s = plain;
    for (int i = 0; i < 4; i++)
        s.numbers[i] = -0.0f;
    s.numbers[4] = s.numbers[5] = 1;
    has_order(__LINE__, &s, zeros, sizeof zeros);
    for (int i = 6; i < 9; i++)
        s.numbers[i] = -0.0f;
    has_order(__LINE__, &s, no_game, sizeof no_game);

    /* each byte of mode and fit */
    for (uint8_t mode = 0; mode < 8; mode++) {
        for (uint8_t fit = 0; fit < 3; fit++) {
            uint8_t order[sizeof standard + 8];
            size_t length = sizeof standard;
            memcpy(order, standard, sizeof standard);
            const uint8_t fields[2][4] = {{3, 0, 1, mode}, {4, 0, 1, fit}};
            const int left_out[2] = {mode == 0, fit == 1};
            for (int i = 0; i < 2; i++) {
                if (!left_out[i]) {
                    memcpy(order + length, fields[i], 4);
                    length += 4;
                }
            }
            s = plain;
            s.mode = mode;
            s.fit = fit;
            has_order(__LINE__, &s, order, length);
        }
    }

    /* the longest: every field, 16 cutouts and 32 saved rectangles, of zeros but for one number each */
    uint8_t longest[TL_ORDER_MOST] = {
        1, 0, 8, 0x44, 0x7A, 0, 0, 0x44, 0x7A, 0, 0, 2, 0, 16, 0, 0, 0, 0, 0, 0, 0, 0, 0, 0, 0, 0, 0, 0, 0, 0,
        3, 0, 1, 2, 4, 0, 1, 2, 5, 0, 12, 0, 0, 0, 0, 0, 0, 0, 0, 0, 0, 0, 0, 6, 1, 0};
    s = (struct settings){.numbers = {1000, 1000}, .mode = 2, .fit = 2, .cutouts_len = 4 * 16, .saved_len = 4 * 32};
    s.cutouts[4 * 16 - 1] = s.saved[4 * 32 - 1] = 1;
    longest[56 + 252] = longest[56 + 256 + 3 + 508] = 0x3F;
    longest[56 + 253] = longest[56 + 256 + 3 + 509] = 0x80;
    longest[56 + 256] = 7;
    longest[56 + 257] = 2;
    has_order(__LINE__, &s, longest, sizeof longest);

    /* lists of no rectangle need no pointer, and may have one */
    uint8_t out[sizeof standard];
    EXPECT(tl_write_order(plain.numbers, 0, 1, s.cutouts, 0, s.saved, 0, out, sizeof out), sizeof standard);
    EXPECT(tl_write_order(plain.numbers, 0, 1, NULL, 0, NULL, 0, out, sizeof out), sizeof standard);
    EXPECT(tl_write_order(plain.numbers, 0, 1, NULL, 0, NULL, 0, NULL, 0), -TL_SHEET_TOO_SMALL);
}

/* That settings are refused so, in any output. */
static void refused(int line, const struct settings *s, long number)
{
    size_t rooms[] = {0, 1, TL_ORDER_MOST + 40};
    for (int i = 0; i < 3; i++)
        write_order(line, s, rooms[i], -number, NULL);
}

static void refused_settings(void)
{
    /* every fault, mended one by one in the order of the answers */
    struct settings s = {.numbers = {-1, NAN, 8193, NAN, -1, INFINITY, NAN, -8193, 8193}, .mode = 8, .fit = 3};
    s.cutouts_len = 4 * 17 - 1;
    s.saved_len = 4 * 33 - 3;
    s.cutouts[5] = NAN;
    refused(__LINE__, &s, TL_BAD_CALL);
    s.cutouts_len++;
    refused(__LINE__, &s, TL_BAD_CALL);
    s.saved_len += 3;
    refused(__LINE__, &s, TL_OFF_THE_SCALE);
    memcpy(s.numbers, plain.numbers, 2 * sizeof(float));
    refused(__LINE__, &s, TL_OFF_THE_SCALE);
    memcpy(s.numbers, plain.numbers, 6 * sizeof(float));
    refused(__LINE__, &s, TL_ODD_MARK);
    s.mode = 7;
    refused(__LINE__, &s, TL_ODD_MARK);
    s.fit = 2;
    refused(__LINE__, &s, TL_OFF_THE_SCALE);
    memcpy(s.numbers, plain.numbers, sizeof s.numbers);
    refused(__LINE__, &s, TL_OVERFULL);
    s.cutouts_len -= 4;
    refused(__LINE__, &s, TL_OFF_THE_SCALE);
    s.cutouts[5] = 0;
    refused(__LINE__, &s, TL_OVERFULL);
    s.saved_len -= 4;
    write_order(__LINE__, &s, 0, -TL_SHEET_TOO_SMALL, NULL);
    write_order(__LINE__, &s, TL_ORDER_MOST, 11 + 4 + 4 + 3 + 16 * 16 + 3 + 16 * 32, NULL);

    /* every wrong length by itself */
    for (size_t length = 0; length < 4 * 17; length++) {
        s = plain;
        s.cutouts_len = length;
        if (length % 4 != 0)
            refused(__LINE__, &s, TL_BAD_CALL);
        s.cutouts_len = 0;
        s.saved_len = length;
        if (length % 4 != 0)
            refused(__LINE__, &s, TL_BAD_CALL);
    }

    /* every byte of mode and fit by itself */
    for (int byte = 0; byte < 256; byte++) {
        s = plain;
        s.mode = (uint8_t)byte;
        if (byte > 7)
            refused(__LINE__, &s, TL_ODD_MARK);
        s = plain;
        s.fit = (uint8_t)byte;
        if (byte > 2)
            refused(__LINE__, &s, TL_ODD_MARK);
    }

    /* every number by itself: its limits, the next beyond them, and what is not finite; then a cutout's */
    static const uint32_t beyond[] = {0x46000001, 0xC6000001, 0x7F800000, 0xFF800000, 0x7FC00000, 0xFFFFABCD};
    for (int i = 0; i < 13; i++) {
        int size = i == 0 || i == 1 || i == 4 || i == 5;
        s = plain;
        s.cutouts_len = 4;
        float *number = i < 9 ? &s.numbers[i] : &s.cutouts[i - 9];
        for (int j = 0; j < 6; j++) {
            set_bits(number, beyond[j]);
            refused(__LINE__, &s, TL_OFF_THE_SCALE);
        }
        if (size) {
            set_bits(number, 0x80000001);
            refused(__LINE__, &s, TL_OFF_THE_SCALE);
        }
        /* the field of the picture or of the game is then written too; every picture differs from the screen's */
        long length = (long)sizeof standard + 3 + 16 + (i < 6 ? 19 : i < 9 ? 15 : 0);
        *number = 8192;
        write_order(__LINE__, &s, TL_ORDER_MOST, length, NULL);
        *number = size ? 0 : -8192;
        write_order(__LINE__, &s, TL_ORDER_MOST, length, NULL);
    }
}

enum { PRESS, MOVE, LIFT };

/* What a finger's call must answer, and what it must make of the tracker: each touch is asked of tl_touch. */
static tl_masks expected(tl_tracker *t, const uint8_t *order, size_t length, int call, uint8_t finger, float x, float y)
{
    uint16_t last = finger < 10 && call != PRESS ? t->fingers[finger].mask : 0;
    int32_t mask = tl_touch(order, length, x, y, last);
    if (mask >= 0 && finger > 9)
        mask = -TL_NO_SUCH_FINGER;
    else if (mask >= 0 && (t->fingers[finger].held != 0) == (call == PRESS))
        mask = -TL_WRONG_STATE;
    tl_masks masks = {mask, mask};
    if (mask < 0)
        return masks;
    t->fingers[finger].held = call != LIFT;
    t->fingers[finger].mask = call == LIFT ? 0 : (uint16_t)mask;
    masks.mask = t->fingers[finger].mask;
    masks.combined = 0;
    for (int i = 0; i < 10; i++)
        masks.combined |= t->fingers[i].held ? t->fingers[i].mask : 0;
    return masks;
}

/* A finger's call: its answer, and every byte of the tracker, wherever tracker and order lie. */
static void finger_call(int line, tl_tracker *t, const uint8_t *order, size_t length, int call, int finger, float x, float y)
{
    tl_tracker before = *t;
    tl_masks want = expected(t, order, length, call, (uint8_t)finger, x, y);
    for (int place = 0; place < PLACES; place++) {
        tl_tracker *tracker = lend(&before, sizeof before, place);
        uint8_t *lent = lend(order, length, place);
        tl_masks got = call == PRESS  ? tl_press(tracker, lent, length, (uint8_t)finger, x, y)
                       : call == MOVE ? tl_move(tracker, lent, length, (uint8_t)finger, x, y)
                                      : tl_lift(tracker, lent, length, (uint8_t)finger);
        expect(line, got.mask, want.mask);
        expect(line, got.combined, want.combined);
        expect(line, memcmp(tracker, t, sizeof *t), 0);
        give_back(tracker, sizeof before, place);
        give_back(lent, length, place);
    }
}

static void fingers(void)
{
    EXPECT(sizeof(tl_tracker), 40);
    tl_tracker t = {{{0, 0}}};
    tl_masks masks = tl_press(&t, standard, sizeof standard, 0, 152, 910);
    EXPECT(masks.mask, TL_DPAD_RIGHT);
    masks = tl_press(&t, standard, sizeof standard, 9, 908, 862);
    EXPECT(masks.mask, TL_TRI);
    EXPECT(masks.combined, TL_TRI | TL_DPAD_RIGHT);
    masks = tl_lift(&t, standard, sizeof standard, 0);
    EXPECT(masks.mask, 0);
    EXPECT(masks.combined, TL_TRI);
    masks = tl_lift(&t, NULL, 0, 9);
    EXPECT(masks.mask, -TL_NO_SCREEN);
    EXPECT(masks.combined, -TL_NO_SCREEN);

    /* TRI and O are about as near: a finger that had TRI keeps it, and a new one gets O */
    EXPECT(tl_move(&t, standard, sizeof standard, 9, 934, 888).mask, TL_TRI);
    EXPECT(tl_press(&t, standard, sizeof standard, 8, 934, 888).mask, TL_O);

    /* every finger in every state, from any memory, on orders that change, one of them refused */
    static const struct {
        const uint8_t *order;
        size_t length;
    } orders[] = {{standard, sizeof standard}, {psp, sizeof psp}, {analog, sizeof analog}, {standard, sizeof standard - 1}, {standard, 0}};
    static const float points[][2] = {{152, 910}, {908, 862}, {934, 888}, {956, 910}, {NAN, 0}, {0, INFINITY}, {464, 968}};
    static const uint16_t memory[] = {0, 1, 0x100, 0xFFFF};
    for (int fill = 0; fill < 4; fill++) {
        for (int i = 0; i < 10; i++) {
            t.fingers[i].held = memory[fill];
            t.fingers[i].mask = (uint16_t)(0x1234 * i + fill);
        }
        for (int step = 0; step < 3000; step++) {
            int order = step / 7 % 5, point = step / 3 % 7;
            int finger = step % 11 == 0 ? 10 + step % 246 : step * step % 10;
            finger_call(__LINE__, &t, orders[order].order, orders[order].length, step * 7 / 5 % 3, finger, points[point][0], points[point][1]);
        }
    }
}

static void safe_area(void)
{
    int32_t content[8] = {800, 600, 800, 600, 10, 20, 30, 8193};
    float area[5] = {-1, -1, -1, -1, -1};
    EXPECT(tl_safe_content(content, area), -6);
    for (int i = 0; i < 5; i++)
        EXPECT(area[i] == -1, 1);
    content[7] = 40;
    EXPECT(tl_safe_content(content, area), 0);
    EXPECT(area[0] == 10 && area[1] == 20 && area[2] == 760 && area[3] == 540 && area[4] == -1, 1);

    int32_t margins[12] = {1, 2, 3, 4, 0, 5, 0, 0, 9, 9, 9, -8193};
    int32_t edges[5] = {-1, -1, -1, -1, -1};
    EXPECT(tl_safe_edges(margins, 1, edges), -6);
    for (int i = 0; i < 5; i++)
        EXPECT(edges[i], -1);
    margins[11] = 9;
    EXPECT(tl_safe_edges(margins, 0xFE, edges), 0);
    EXPECT(edges[0] == 1 && edges[1] == 9 && edges[2] == 3 && edges[3] == 9 && edges[4] == -1, 1);
    EXPECT(tl_safe_edges(margins, 0, edges), 0);
    EXPECT(edges[0] == 9 && edges[1] == 9 && edges[2] == 9 && edges[3] == 9, 1);
}

int main(void)
{
    orders();
    films();
    buttons();
    written_orders();
    refused_settings();
    fingers();
    safe_area();
    if (failures == 0)
        puts("calls: ok");
    return failures != 0;
}
