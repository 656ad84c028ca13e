/* Thumb control layouts for film tablets: the functions of libthumb_layout.a.

   Build the library with `tools/prove staticlib thumb_layout` at the repository's root; it comes to target/staticlib/ and links into
   x86-64 Linux programs. It needs memcpy, memmove and memset of the C library, and nothing else.

   Each function is proved, for every input, to give the answer and the output that its definition gives
   (crates/thumb_layout/specs/Interface.antt). This header is written by hand; `host/run` compares its declarations with the source
   (host/rust/tests/declarations.rs).

   Answers
     0 or more: what the function says below.
     Below 0: minus the number of a refusal, or of TL_BAD_CALL, and then no element of a lent output has changed, nor a tracker.

   What the caller sees to
     - A pointer comes with a length in elements, and points to that many; with length 0 it may be NULL. One that is declared with a
       number in brackets has no length: it points to that many elements or more, and exactly so many are read or written.
     - Elements are aligned and initialised; those of an output too, since they stay as they are where the function writes nothing.
     - An output, or a tracker, overlaps no other argument, and no other thread touches it during the call.
     - Floats are computed as C starts a program: rounding to nearest, no flushing to zero.

   There is no state but the caller's trackers: nothing else is kept between calls, nothing is allocated, and threads may call at the
   same time.
   A call takes under 24 KB of stack; that is measured (docs/SPEED.md), not proved. */
#ifndef THUMB_LAYOUT_H
#define THUMB_LAYOUT_H

#include <stddef.h>
#include <stdint.h>

#ifdef __cplusplus
extern "C" {
#endif

/* The refusals. The first faulty field of an order, or of settings, decides; 9 and 10, of a finger's call, come after the order's. */
enum tl_refusal {
    TL_CUT_OFF = 1,         /* a header or value runs past the end */
    TL_OUT_OF_TURN = 2,     /* a tag that is not 1 to 7, or not above the one before */
    TL_BAD_LENGTH = 3,      /* a field of another length than it must have */
    TL_NO_SCREEN = 4,       /* the order ends without a screen */
    TL_ODD_MARK = 5,        /* a reserved bit set, or a fit above 2 */
    TL_OFF_THE_SCALE = 6,   /* a number outside its limits */
    TL_OVERFULL = 7,        /* over 16 cutouts or 32 saved rectangles */
    TL_SHEET_TOO_SMALL = 8, /* an output shorter than what is written */
    TL_NO_SUCH_FINGER = 9,  /* a finger above 9 */
    TL_WRONG_STATE = 10     /* a press of a held finger, or a move or lift of one that is not held */
};

/* A wrong call, and no refusal of an order: numbers of rectangles that are not four for each. It comes before every refusal. */
enum { TL_BAD_CALL = 100 };

/* The bits of a button mask, by the names of the film sheet. A psp has none above TL_R1, only analog has L3 and R3. */
enum tl_button {
    TL_X = 1 << 0,
    TL_SQ = 1 << 1,
    TL_SELECT = 1 << 2,
    TL_START = 1 << 3,
    TL_DPAD_UP = 1 << 4,
    TL_DPAD_DOWN = 1 << 5,
    TL_DPAD_LEFT = 1 << 6,
    TL_DPAD_RIGHT = 1 << 7,
    TL_O = 1 << 8,
    TL_TRI = 1 << 9,
    TL_L1 = 1 << 10,
    TL_R1 = 1 << 11,
    TL_L2 = 1 << 12,
    TL_R2 = 1 << 13,
    TL_L3 = 1 << 14,
    TL_R3 = 1 << 15
};

/* Bytes of a layout: standard, analog, psp. An output of TL_LAYOUT_MOST bytes has room for any. */
enum { TL_LAYOUT_STANDARD = 285, TL_LAYOUT_ANALOG = 353, TL_LAYOUT_PSP = 265, TL_LAYOUT_MOST = 353 };

/* Bytes of a film sheet. */
enum { TL_SHEET = 1024 };

/* Bytes of the longest order that is written. */
enum { TL_ORDER_MOST = 827 };

/* The layout of an order, written to `out`. README.md, "The interface for hosts", describes an order's fields.
   Fields of the layout: a tag of one byte, a length of two bytes (high byte first), the value. Tag 1 is the game, four f32 of four
   bytes each (high byte first): x, y, w, h. Tag 2 has the elements, 16 bytes each: the d-pad, the controls, pause, playback, speed,
   mute, then the sticks. Tag 3 has a button mask of two bytes for each control, one bit of tl_button.
   Answers: the number of bytes written, 285, 353 or 265; later bytes of `out` stay. Or -1 to -8. */
int32_t tl_layout(const uint8_t *order, size_t order_len, uint8_t *out, size_t out_len);

/* The buttons (tl_button) that a touch at x, y presses on the order's layout; `previous` is the mask of the touch before.
   Any x and y, also infinities and NaN.
   Answers: the mask, 0 to 65,535. Or -1 to -7. */
int32_t tl_touch(const uint8_t *order, size_t order_len, float x, float y, uint16_t previous);

/* Ten fingers, 0 to 9, on one film: of each whether it is held (0 is no, anything else yes) and its last mask. All zeros is a fresh
   tracker, which holds no finger; whatever else lies there is a tracker too. It is lent to each call and changed where it lies.
   Each finger's masks depend on its own calls alone, and on the orders of these. */
typedef struct {
    uint16_t held, mask;
} tl_finger;

typedef struct {
    tl_finger fingers[10];
} tl_tracker;

/* What a finger's call answers: the finger's mask and the combined mask (tl_button), each 0 to 65,535. The combined mask has the bits
   of all held fingers. On a refusal both are minus its number, and the tracker is as it was. */
typedef struct {
    int32_t mask, combined;
} tl_masks;

/* A finger is put down at x, y, on the order's layout; any x and y, also infinities and NaN. It is held from then on, with the mask of
   a touch there whose previous mask is 0.
   Answers: that mask, and the combined mask. Or -1 to -7 of the order, then -9, then -10 if the finger is held. */
tl_masks tl_press(tl_tracker *t, const uint8_t *order, size_t order_len, uint8_t finger, float x, float y);

/* A held finger moves to x, y, as in tl_press; the previous mask is the finger's own last one. The order may be another one than before.
   Answers: as tl_press, but -10 if the finger is not held. */
tl_masks tl_move(tl_tracker *t, const uint8_t *order, size_t order_len, uint8_t finger, float x, float y);

/* A held finger is lifted: its place in the tracker becomes zeros. The order is read, and its layout does not matter.
   Answers: 0, and the combined mask of the others. Or as tl_move. */
tl_masks tl_lift(tl_tracker *t, const uint8_t *order, size_t order_len, uint8_t finger);

/* The layout of a viewport, written as tl_layout does: the order's screen (tag 1) is the place of the controls, its tag 2 the picture;
   tags 3 to 7 as in any order. Both tops lie in -8,192 to 8,192, and reusable_top is at least 0; else -6, if the order has no fault.
   Answers: the number of bytes written. Or -1 to -8. */
int32_t tl_viewport_layout(const uint8_t *order, size_t order_len, float reusable_top, float covered_top, uint8_t *out, size_t out_len);

/* The film sheet of an order: lines of ASCII text, with zeros after the text's end up to the 1,024th byte. A line has a name and x, y, w, h
   in tenths; x, y and the edges x + w, y + h are the exact ones, rounded, so that elements that touch are cut on one line.
   A refused order has a sheet too, the line REFUSED with the refusal's number, and its answer is that text's length.
   Answers: the text's length, at most 788. Nothing is refused. */
int32_t tl_film(const uint8_t *order, size_t order_len, uint8_t sheet[1024]);

/* The order of settings, written to `out`: the shortest that is read as these settings, after two replacements. Negative zero becomes
   plus zero; a saved rectangle with a number that is not finite becomes four times the NaN 7FC00000. A field that then has the value
   which its absence means is left out (README.md has these values); the screen never is.
   numbers: screen w, h, picture x, y, w, h, game_scale, game_offset x, y.
   mode, fit: the bytes of tags 3 and 4.
   cutouts, saved: x, y, w, h of each rectangle; the lengths count numbers.
   Answers: the number of bytes written, at most 827; later bytes of `out` stay. Or -100 (TL_BAD_CALL) if cutouts_len or saved_len is
   no multiple of 4. Or the refusal that such an order would get, in the order of the tags: -6 for screen and picture, -5 for mode and
   fit, -6 for game_scale and game_offset, -7 and then -6 for cutouts, -7 for saved. Or, after these, -8. */
int32_t tl_write_order(const float numbers[9], uint8_t mode, uint8_t fit, const float *cutouts, size_t cutouts_len, const float *saved,
                       size_t saved_len, uint8_t *out, size_t out_len);

/* The part of a screen inside the system's edges.
   numbers: size w, h, the size w, h at which the edges were measured, the edges left, top, right, bottom.
   area: x, y, w, h.
   Answers: 0. Or -6 if a number is outside -8,192 to 8,192. */
int32_t tl_safe_content(const int32_t numbers[8], float area[4]);

/* The edges of decoration, navigation and a camera merged: at each side the widest.
   numbers: left, top, right, bottom of decoration, of navigation, of the camera.
   local_side_camera: 0, or anything else for a camera at a side that is an obstacle of its own; then it has no edge left and right.
   edges: left, top, right, bottom.
   Answers: 0. Or -6 if a number is outside -8,192 to 8,192. */
int32_t tl_safe_edges(const int32_t numbers[12], uint8_t local_side_camera, int32_t edges[4]);

#ifdef __cplusplus
}
#endif

#endif
