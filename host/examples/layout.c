/* Prints the layout of an order: layout FILE.
   A line for the game and each element: its name, then x, y, w, h. A refused order gives one line. */
#include "thumb_layout.h"
#include <errno.h>
#include <stdio.h>
#include <stdlib.h>
#include <string.h>

/* No byte past these changes what an order says: `first-bytes` in crates/film_sheet/proofs/FirstBytes.antt. */
enum { MOST = 70000 };

static const char *const words[] = {
    "", "cut off", "out of turn", "bad length", "no screen", "odd mark", "off the scale", "overfull", "sheet too small"};

static const struct {
    unsigned mask;
    const char *name;
} buttons[] = {
    {TL_TRI, "TRI"}, {TL_O, "O"}, {TL_X, "X"}, {TL_SQ, "SQ"}, {TL_L1, "L1"}, {TL_L2, "L2"},
    {TL_R2, "R2"}, {TL_R1, "R1"}, {TL_SELECT, "SELECT"}, {TL_START, "START"}, {TL_L3, "L3"}, {TL_R3, "R3"}};

static unsigned short_at(const uint8_t *p) { return (unsigned)p[0] << 8 | p[1]; }

static double number_at(const uint8_t *p)
{
    uint32_t bits = (uint32_t)short_at(p) << 16 | short_at(p + 2);
    float number;
    memcpy(&number, &bits, sizeof number);
    return number;
}

static void print_line(const char *name, const uint8_t *rect)
{
    printf("%-6s %10.3f %10.3f %10.3f %10.3f\n", name, number_at(rect), number_at(rect + 4), number_at(rect + 8), number_at(rect + 12));
}

static const char *button(unsigned mask)
{
    for (size_t i = 0; i < sizeof buttons / sizeof *buttons; i++)
        if (mask == buttons[i].mask)
            return buttons[i].name;
    return "?";
}

static void print_layout(const uint8_t *layout)
{
    static const char *const rest[] = {"PAUSE", "PLAY", "SPEED", "MUTE", "LEFT", "RIGHT"};
    const uint8_t *game = layout + 3;
    unsigned elements = short_at(game + 17) / 16;
    const uint8_t *element = game + 19;
    const uint8_t *masks = element + 16 * elements + 3;
    unsigned controls = short_at(masks - 2) / 2;
    print_line("GAME", game);
    print_line("DPAD", element);
    for (unsigned i = 0; i < controls; i++)
        print_line(button(short_at(masks + 2 * i)), element + 16 * (1 + i));
    for (unsigned i = 1 + controls; i < elements; i++)
        print_line(rest[i - 1 - controls], element + 16 * i);
}

/* The file's bytes, and how many: a block of exactly that size. NULL if it cannot be read. */
static uint8_t *read_file(const char *path, size_t *length)
{
    FILE *file = fopen(path, "rb");
    uint8_t *bytes = file ? malloc(MOST) : NULL;
    if (bytes) {
        *length = fread(bytes, 1, MOST, file);
        if (ferror(file)) {
            free(bytes);
            bytes = NULL;
        } else {
            uint8_t *exact = realloc(bytes, *length ? *length : 1);
            bytes = exact ? exact : bytes;
        }
    }
    if (file)
        fclose(file);
    return bytes;
}

int main(int count, char **arguments)
{
    if (count != 2) {
        fprintf(stderr, "usage: layout FILE\n");
        return 2;
    }
    size_t length = 0;
    uint8_t *order = read_file(arguments[1], &length);
    if (!order) {
        fprintf(stderr, "%s: %s\n", arguments[1], strerror(errno));
        return 2;
    }
    uint8_t layout[TL_LAYOUT_MOST] = {0};
    int32_t answer = tl_layout(order, length, layout, sizeof layout);
    free(order);
    if (answer < 0)
        printf("REFUSED %d: %s\n", (int)-answer, words[-answer]);
    else
        print_layout(layout);
    if (ferror(stdout) || fclose(stdout) != 0) {
        perror("layout");
        return 2;
    }
    return 0;
}
