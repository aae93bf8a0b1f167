/* What a reader beside ours gives, so that measure.c can measure it. */
#ifndef MEASURE_H
#define MEASURE_H

#ifdef __cplusplus
extern "C" {
#endif

enum { REFUSED = -1, NOT_OFFERED = -2 };

const char *version(void);

/* How many coordinates the geometry has, or one of the above. */
long coordinates(const char *text);

/* Reads the text and frees what came of it. Callgrind counts in this function. */
void measured(const char *text);

/* Whether `measured` also takes the geometry's envelope, and the one that it took last:
 * lowest and highest X, lowest and highest Y. Only GEOS is asked for it. */
enum { SIDES = 4 };
extern int takes_envelope;
extern double envelope[SIDES];

#ifdef __cplusplus
}
#endif

#endif
