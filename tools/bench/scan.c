/* Times mfl_scan: the best of several rounds, in nanoseconds a byte, on texts of 1, 4 and 16 KiB. */
#include <stdint.h>
#include <stdio.h>
#include <string.h>
#include <time.h>

size_t mfl_scan(const uint8_t *text, size_t length);

static double now(void) {
    struct timespec t;
    clock_gettime(CLOCK_MONOTONIC, &t);
    return t.tv_sec * 1e9 + t.tv_nsec;
}

static void fill(uint8_t *text, size_t size, const char *unit) {
    size_t n = strlen(unit);
    for (size_t i = 0; i < size; i++) text[i] = unit[i % n];
}

static void measure(const char *what, const uint8_t *text, size_t size) {
    double best = 1e18;
    size_t found = 0;
    for (int round = 0; round < 30; round++) {
        int times = 200;
        double start = now();
        for (int i = 0; i < times; i++) found += mfl_scan(text, size);
        double each = (now() - start) / times;
        if (each < best) best = each;
    }
    printf("%-22s %6zu bytes  %8.0f ns  %.2f ns a byte  (answer %zu)\n", what, size, best, best / size, found / 6000);
}

int main(void) {
    static uint8_t text[16384];
    const char *space = "COVARIATE?(@IIV, @CONTINUOUS, [pow,lin]); PERIPHERALS(0..1)  # note\n";
    const char *marks = "((,))[];*+?@;\n";
    const char *words = "COVARIATE_NAME_THAT_IS_LONG ";
    for (size_t size = 1024; size <= 16384; size *= 4) {
        fill(text, size, space);
        measure("statements", text, size);
    }
    fill(text, 16384, marks);
    measure("marks alone", text, 16384);
    fill(text, 16384, words);
    measure("long words", text, 16384);
    fill(text, 16384, "1..2,1.5 ");
    measure("numbers", text, 16384);
    memset(text, ' ', 16384);
    measure("blanks", text, 16384);
    memset(text, 200, 16384);
    text[0] = '#';
    measure("one comment", text, 16384);
    return 0;
}
