/* The envelopes of GEOS, for tools/compare-boxes: reads WKT on standard input, a text a line, and
 * prints a line for each: the nodes of its geometry in preorder, a space between. A node is
 * MINX,MAXX,MINY,MAXY, the bits of each double in hex, or `empty`. Nodes are the geometry, the
 * members of a collection or multi geometry, and the rings of a polygon. A text that GEOS
 * doesn't read is answered `refused`. */
#include <geos_c.h>
#include <inttypes.h>
#include <stdarg.h>
#include <stdint.h>
#include <stdio.h>
#include <stdlib.h>
#include <string.h>

static void say_nothing(const char *format, ...)
{
    (void)format;
}

static void fail(const char *what)
{
    fprintf(stderr, "envelopes: %s\n", what);
    exit(1);
}

static void print_bits(double value, char before)
{
    uint64_t bits;
    memcpy(&bits, &value, sizeof bits);
    if (before != '\0') {
        putchar(before);
    }
    printf("%016" PRIx64, bits);
}

static void print_envelope(const GEOSGeometry *geometry)
{
    double low_x, high_x, low_y, high_y;
    if (GEOSisEmpty(geometry)) {
        fputs("empty", stdout);
        return;
    }
    if (!GEOSGeom_getXMin(geometry, &low_x) || !GEOSGeom_getXMax(geometry, &high_x)
        || !GEOSGeom_getYMin(geometry, &low_y) || !GEOSGeom_getYMax(geometry, &high_y)) {
        fail("GEOS has no envelope of a geometry that isn't empty");
    }
    print_bits(low_x, '\0');
    print_bits(high_x, ',');
    print_bits(low_y, ',');
    print_bits(high_y, ',');
}

static void print_rings(const GEOSGeometry *polygon)
{
    int ring, count = GEOSGetNumInteriorRings(polygon);
    if (GEOSisEmpty(polygon)) {
        return;
    }
    putchar(' ');
    print_envelope(GEOSGetExteriorRing(polygon));
    for (ring = 0; ring < count; ring++) {
        putchar(' ');
        print_envelope(GEOSGetInteriorRingN(polygon, ring));
    }
}

static void print_nodes(const GEOSGeometry *geometry)
{
    int part, count = GEOSGetNumGeometries(geometry);
    print_envelope(geometry);
    switch (GEOSGeomTypeId(geometry)) {
    case GEOS_POLYGON:
        print_rings(geometry);
        break;
    case GEOS_MULTIPOINT:
    case GEOS_MULTILINESTRING:
    case GEOS_MULTIPOLYGON:
    case GEOS_GEOMETRYCOLLECTION:
        for (part = 0; part < count; part++) {
            putchar(' ');
            print_nodes(GEOSGetGeometryN(geometry, part));
        }
        break;
    default:
        break;
    }
}

static void answer(GEOSWKTReader *reader, const char *text)
{
    GEOSGeometry *geometry = GEOSWKTReader_read(reader, text);
    if (geometry == NULL) {
        puts("refused");
        return;
    }
    print_nodes(geometry);
    putchar('\n');
    GEOSGeom_destroy(geometry);
}

int main(void)
{
    char *line = NULL;
    size_t room = 0;
    ssize_t length;
    GEOSWKTReader *reader;
    initGEOS(say_nothing, say_nothing);
    reader = GEOSWKTReader_create();
    while ((length = getline(&line, &room, stdin)) > 0) {
        if (line[length - 1] == '\n') {
            line[length - 1] = '\0';
        }
        answer(reader, line);
    }
    if (ferror(stdin) || fflush(stdout) != 0) {
        fail("the texts can't be read or the envelopes can't be written");
    }
    free(line);
    GEOSWKTReader_destroy(reader);
    finishGEOS();
    return 0;
}
