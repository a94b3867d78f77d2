/* Makes one call of the library so many times on a file's text: instructions count|print|resolve TIMES FILE. */
#include <stdio.h>
#include <stdlib.h>
#include <string.h>

#include "dumachik.h"

static uint8_t text[MFL_TEXT_LIMIT], out[MFL_TEXT_LIMIT];
static size_t length;

/* Document 01's K with AGE: parameters CL, V, KA; IIV CL, V; template cl=CL, v=V, ka=KA; WT continuous, SEX categorical, AGE continuous; and these
 * three as columns. */
static const char block[] = "CLVKACLVclCLvVkaKAWTSEXAGEWTSEXAGE";
static const uint32_t lists[] = {3, 2, 3, 3, 3, 1, 1, 0, 2, 2, 1, 3, 2, 5, 2, 7, 1, 8, 2, 10, 2, 12, 1, 13, 1, 14, 2, 16, 2,
                                 18, 2, 0, 20, 3, 1, 23, 3, 0, 26, 2, 28, 3, 31, 3};
static struct mfl_effect effects[MFL_EFFECT_ROOM];
static struct mfl_note notes[MFL_NOTE_ROOM];
static uint32_t work[MFL_WORKING];

static uint64_t count(void) { return mfl_count(text, length, MFL_CEILING); }
static uint64_t print(void) { return mfl_print(text, length, out, length, MFL_CEILING); }

static uint64_t resolve(void) {
    return mfl_resolve(text, length, (const uint8_t *)block, sizeof block - 1, lists, sizeof lists / sizeof *lists, out, MFL_GROUND_ROOM, effects,
                       MFL_EFFECT_ROOM, notes, MFL_NOTE_ROOM, work, MFL_WORKING, MFL_CEILING);
}

int main(int argc, char **argv) {
    FILE *file = argc == 4 ? fopen(argv[3], "rb") : NULL;
    if (!file) return 2;
    length = fread(text, 1, sizeof text, file);
    uint64_t (*call)(void) = !strcmp(argv[1], "count") ? count : !strcmp(argv[1], "print") ? print : resolve;
    uint64_t sum = 0;
    for (long left = atol(argv[2]); left > 0; left--) sum += call();
    /* so that no call is left out; and a context that is refused would be no measure */
    return sum == 1 || MFL_REFUSAL(call()) == 12;
}
