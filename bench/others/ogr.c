/* OGR, the vector half of GDAL, by its C interface. */
#include "measure.h"

#include <cpl_error.h>
#include <gdal.h>
#include <ogr_api.h>

const char *version(void) { return GDALVersionInfo("RELEASE_NAME"); }

/* A refused text would be told on standard error. */
static OGRGeometryH read_quietly(const char *text) {
    OGRGeometryH geometry = NULL;
    char *rest = (char *)text;
    CPLPushErrorHandler(CPLQuietErrorHandler);
    OGRErr error = OGR_G_CreateFromWkt(&rest, NULL, &geometry);
    CPLPopErrorHandler();
    if (error == OGRERR_NONE)
        return geometry;
    OGR_G_DestroyGeometry(geometry);
    return NULL;
}

static long count_in(OGRGeometryH geometry) {
    int children = OGR_G_GetGeometryCount(geometry);
    if (children == 0)
        return OGR_G_IsEmpty(geometry) ? 0 : OGR_G_GetPointCount(geometry);
    long count = 0;
    for (int i = 0; i < children; i++)
        count += count_in(OGR_G_GetGeometryRef(geometry, i));
    return count;
}

long coordinates(const char *text) {
    OGRGeometryH geometry = read_quietly(text);
    if (!geometry)
        return REFUSED;
    long count = count_in(geometry);
    OGR_G_DestroyGeometry(geometry);
    return count;
}

void measured(const char *text) { OGR_G_DestroyGeometry(read_quietly(text)); }
