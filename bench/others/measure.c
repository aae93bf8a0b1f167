/* The program around another reader.
 *
 *   PROGRAM            prints the reader's version
 *   PROGRAM COUNT      reads a text from standard input COUNT times, and prints
 *                      "accepted COORDINATES NANOSECONDS", the least time of all,
 *                      "refused 0 NANOSECONDS" or "not-offered 0 0"
 *   PROGRAM COUNT envelope
 *                      takes the geometry's envelope each time too, and prints its
 *                      lowest and highest X and its lowest and highest Y on a second line
 */
#define _POSIX_C_SOURCE 199309L
#include "measure.h"

#include <stdio.h>
#include <stdlib.h>
#include <time.h>

/* The longest text has 65,535 bytes; one more is for the zero that ends it. */
static char text[65536];

int takes_envelope;
double envelope[SIDES];

static long long now(void) {
    struct timespec t;
    clock_gettime(CLOCK_MONOTONIC, &t);
    return t.tv_sec * 1000000000LL + t.tv_nsec;
}

static long long least_time(long count) {
    long long least = -1;
    for (; count > 0; count--) {
        long long start = now();
        measured(text);
        long long took = now() - start;
        if (least < 0 || took < least)
            least = took;
    }
    return least;
}

/* So many digits tell one double from every other. */
static void print_envelope(void) {
    for (int i = 0; i < SIDES; i++)
        printf("%.17g ", envelope[i]);
    puts("");
}

int main(int argc, char **argv) {
    if (argc < 2) {
        puts(version());
        return 0;
    }
    fread(text, 1, sizeof text - 1, stdin);
    takes_envelope = argc > 2;
    long found = coordinates(text);
    if (found == NOT_OFFERED)
        puts("not-offered 0 0");
    else if (found == REFUSED)
        printf("refused 0 %lld\n", least_time(atol(argv[1])));
    else
        printf("accepted %ld %lld\n", found, least_time(atol(argv[1])));
    if (takes_envelope)
        print_envelope();
    return 0;
}
