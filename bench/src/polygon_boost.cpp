// Boost.Geometry's covered_by, which has the rim inside, over a flat list of events of two values.
#include <boost/geometry.hpp>
#include <boost/geometry/geometries/point_xy.hpp>
#include <boost/geometry/geometries/polygon.hpp>

#include <cstddef>
#include <cstdint>

namespace geometry = boost::geometry;

// The number of events within the polygon; vertices run counter-clockwise, the last is joined to the first.
template <typename Coordinate>
static std::uint64_t inside(const std::int32_t *vertices, std::size_t vertices_len,
                            const std::int32_t *events, std::size_t events_len) {
    using Point = geometry::model::d2::point_xy<Coordinate>;
    const bool clockwise = false, closed = false;
    geometry::model::polygon<Point, clockwise, closed> polygon;
    for (std::size_t i = 0; i < vertices_len; i += 2) {
        geometry::append(polygon.outer(), Point(vertices[i], vertices[i + 1]));
    }
    std::uint64_t count = 0;
    for (std::size_t i = 0; i < events_len; i += 2) {
        count += geometry::covered_by(Point(events[i], events[i + 1]), polygon);
    }
    return count;
}

extern "C" std::uint64_t inside_double(const std::int32_t *vertices, std::size_t vertices_len,
                                       const std::int32_t *events, std::size_t events_len) {
    return inside<double>(vertices, vertices_len, events, events_len);
}

extern "C" std::uint64_t inside_int64(const std::int32_t *vertices, std::size_t vertices_len,
                                      const std::int32_t *events, std::size_t events_len) {
    return inside<std::int64_t>(vertices, vertices_len, events, events_len);
}
