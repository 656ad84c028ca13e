/* Plays a run of fingers on the layout of the order on standard input: fingers RUN <ORDER.
   A line of the run is a call: press, move or lift, a finger, and for the first two a point. It is printed with what the call is
   answered: the finger's mask and the combined mask in hexadecimal, or the refusal. What the line has from an equals sign on is left
   out, so that a run with its answers is printed as it is, if they are right. So is a line that begins with #. */
#include "thumb_layout.h"
#include <stdio.h>
#include <string.h>

/* No byte past the first 70,000 changes what an order says: `first-bytes` in crates/film_sheet/proofs/FirstBytes.antt. */
static uint8_t order[70000];

/* The call of a line: whether it is one. */
static int call(tl_tracker *t, size_t length, const char *line, tl_masks *masks)
{
    char name[6], more;
    unsigned finger;
    float x, y;
    int parts = sscanf(line, "%5s %u %f %f %c", name, &finger, &x, &y, &more);
    if (parts < 2 || finger > 255)
        return 0;
    if (parts == 4 && strcmp(name, "press") == 0)
        *masks = tl_press(t, order, length, (uint8_t)finger, x, y);
    else if (parts == 4 && strcmp(name, "move") == 0)
        *masks = tl_move(t, order, length, (uint8_t)finger, x, y);
    else if (parts == 2 && strcmp(name, "lift") == 0)
        *masks = tl_lift(t, order, length, (uint8_t)finger);
    else
        return 0;
    return 1;
}

/* Whether each line is a call. */
static int play(FILE *run, size_t length)
{
    tl_tracker tracker = {{{0, 0}}};
    char line[200];
    while (fgets(line, sizeof line, run)) {
        tl_masks masks = {0, 0};
        if (line[0] == '#') {
            fputs(line, stdout);
            continue;
        }
        line[strcspn(line, "=\n")] = 0;
        for (size_t end = strlen(line); end > 0 && line[end - 1] == ' '; end--)
            line[end - 1] = 0;
        if (!call(&tracker, length, line, &masks)) {
            fprintf(stderr, "fingers: no call: %s\n", line);
            return 0;
        }
        if (masks.mask < 0)
            printf("%s = refusal %d\n", line, (int)-masks.mask);
        else
            printf("%s = %04X %04X\n", line, (unsigned)masks.mask, (unsigned)masks.combined);
    }
    return 1;
}

int main(int count, char **arguments)
{
    if (count != 2) {
        fprintf(stderr, "usage: fingers RUN <ORDER\n");
        return 2;
    }
    FILE *run = fopen(arguments[1], "r");
    if (!run) {
        perror(arguments[1]);
        return 2;
    }
    size_t length = fread(order, 1, sizeof order, stdin);
    if (!ferror(stdin) && !play(run, length))
        return 2;
    if (ferror(stdin) || ferror(run) || ferror(stdout) || fclose(stdout) != 0) {
        perror("fingers");
        return 2;
    }
    fclose(run);
    return 0;
}
