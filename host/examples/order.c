/* Writes the order of settings to standard output; with no argument it says how they are given.
   A refused order has no bytes, and the status 1. */
#include "thumb_layout.h"
#include <stdio.h>
#include <stdlib.h>
#include <string.h>

static const char usage[] = "usage: order W H [psp] [analog] [overlap] [fit=unset|maximum|keep_clear]\n"
                            "    [picture=X,Y,W,H] [game=SCALE,X,Y] [cutout=X,Y,W,H].. [saved=X,Y,W,H]..\n";

static struct {
    float numbers[9];
    uint8_t mode, fit;
    float *cutouts, *saved; /* room for a rectangle an argument */
    size_t cutouts_len, saved_len;
} settings = {.numbers = {0, 0, 0, 0, 0, 0, 1, 0.5f, 0.5f}, .fit = 1};

/* So many numbers with commas between them, and nothing else; gives how many, or 0. */
static size_t read_numbers(const char *text, float *to, size_t count)
{
    for (size_t i = 0; i < count; i++) {
        char *end;
        to[i] = strtof(text, &end);
        if (end == text || *end != (i + 1 < count ? ',' : 0))
            return 0;
        text = end + 1;
    }
    return count;
}

/* Whether a setting is understood. */
static int set(const char *argument)
{
    static const char *const modes[] = {"psp", "analog", "overlap"};
    static const char *const fits[] = {"fit=unset", "fit=maximum", "fit=keep_clear"};
    for (int i = 0; i < 3; i++) {
        if (strcmp(argument, modes[i]) == 0)
            return settings.mode |= 1 << i;
        if (strcmp(argument, fits[i]) == 0) {
            settings.fit = (uint8_t)i;
            return 1;
        }
    }
    size_t name = strcspn(argument, "=") + 1, read = 0;
    if (strncmp(argument, "picture=", name) == 0)
        return read_numbers(argument + name, settings.numbers + 2, 4) != 0;
    if (strncmp(argument, "game=", name) == 0)
        return read_numbers(argument + name, settings.numbers + 6, 3) != 0;
    if (strncmp(argument, "cutout=", name) == 0)
        settings.cutouts_len += read = read_numbers(argument + name, settings.cutouts + settings.cutouts_len, 4);
    else if (strncmp(argument, "saved=", name) == 0)
        settings.saved_len += read = read_numbers(argument + name, settings.saved + settings.saved_len, 4);
    return read != 0;
}

int main(int count, char **arguments)
{
    float *numbers = settings.numbers;
    settings.cutouts = calloc((size_t)count + 1, 4 * sizeof(float));
    settings.saved = calloc((size_t)count + 1, 4 * sizeof(float));
    if (!settings.cutouts || !settings.saved) {
        perror("order");
        return 2;
    }
    int understood = count > 2 && read_numbers(arguments[1], numbers, 1) && read_numbers(arguments[2], numbers + 1, 1);
    /* what an absent picture means */
    numbers[4] = numbers[0] > 1 ? numbers[0] : 1;
    numbers[5] = numbers[1] > 1 ? numbers[1] : 1;
    for (int i = 3; understood && i < count; i++)
        understood = set(arguments[i]);
    if (!understood) {
        fputs(usage, stderr);
        return 2;
    }
    uint8_t order[TL_ORDER_MOST] = {0};
    int32_t answer = tl_write_order(numbers, settings.mode, settings.fit, settings.cutouts, settings.cutouts_len, settings.saved,
                                    settings.saved_len, order, sizeof order);
    free(settings.cutouts);
    free(settings.saved);
    if (answer < 0) {
        fprintf(stderr, "order: refusal %d\n", (int)-answer);
        return 1;
    }
    if (fwrite(order, 1, (size_t)answer, stdout) != (size_t)answer || fclose(stdout) != 0) {
        perror("order");
        return 2;
    }
    return 0;
}
