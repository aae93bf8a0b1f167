/* GEOS, by its C interface. */
#include "measure.h"

#include <geos_c.h>

static GEOSContextHandle_t handle(void) {
    static GEOSContextHandle_t only;
    if (!only)
        only = GEOS_init_r();
    return only;
}

static GEOSWKTReader *reader(void) {
    static GEOSWKTReader *only;
    if (!only)
        only = GEOSWKTReader_create_r(handle());
    return only;
}

const char *version(void) { return GEOSversion(); }

long coordinates(const char *text) {
    GEOSGeometry *geometry = GEOSWKTReader_read_r(handle(), reader(), text);
    if (!geometry)
        return REFUSED;
    long count = GEOSGetNumCoordinates_r(handle(), geometry);
    GEOSGeom_destroy_r(handle(), geometry);
    return count;
}

static void take_envelope(const GEOSGeometry *geometry) {
    GEOSGeom_getXMin_r(handle(), geometry, &envelope[0]);
    GEOSGeom_getXMax_r(handle(), geometry, &envelope[1]);
    GEOSGeom_getYMin_r(handle(), geometry, &envelope[2]);
    GEOSGeom_getYMax_r(handle(), geometry, &envelope[3]);
}

void measured(const char *text) {
    GEOSGeometry *geometry = GEOSWKTReader_read_r(handle(), reader(), text);
    if (!geometry)
        return;
    if (takes_envelope)
        take_envelope(geometry);
    GEOSGeom_destroy_r(handle(), geometry);
}
