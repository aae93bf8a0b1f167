// Boost.Geometry. It reads a text into a type that its caller names, so the type is found
// by the text's name first. Boost 1.74, which Debian 12 has, reads no collection.
#include "measure.h"

#include <boost/geometry/algorithms/num_points.hpp>
#include <boost/geometry/geometries/geometries.hpp>
#include <boost/geometry/geometries/point_xy.hpp>
#include <boost/geometry/io/wkt/read.hpp>
#include <boost/version.hpp>
#include <cstring>
#include <string>

namespace geometry = boost::geometry;
using Point = geometry::model::d2::point_xy<double>;
using LineString = geometry::model::linestring<Point>;
using Polygon = geometry::model::polygon<Point>;
using MultiPoint = geometry::model::multi_point<Point>;

template <typename Geometry> static long count_in(const std::string &text) {
    Geometry read;
    try {
        geometry::read_wkt(text, read);
    } catch (const geometry::read_wkt_exception &) {
        return REFUSED;
    }
    return static_cast<long>(geometry::num_points(read));
}

static bool begins(const char *text, const char *name) {
    return std::strncmp(text, name, std::strlen(name)) == 0;
}

const char *version() { return BOOST_LIB_VERSION; }

long coordinates(const char *text) {
    if (begins(text, "POLYGON"))
        return count_in<Polygon>(text);
    if (begins(text, "MULTIPOINT"))
        return count_in<MultiPoint>(text);
    if (begins(text, "LINESTRING"))
        return count_in<LineString>(text);
    return NOT_OFFERED;
}

// Counting the points of what was read is nothing beside the reading.
void measured(const char *text) { coordinates(text); }
