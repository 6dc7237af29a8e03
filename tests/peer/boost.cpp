// A peer of the program, with Boost.Polygon: boost KIND LAYOUT OUT
//
// Reads layer 1, datatype 0 of the cell TOP of a GDSII file, unites its shapes on doubled coordinates, cuts the union into
// trapezoids with level sides, writes them to OUT as OASIS records, and prints the processor's seconds of reading (the cells
// flattened), of the sweep and of writing, and how many trapezoids there are. KIND is 45, or 90 for layouts with level and upright edges
// alone. It reads what measure/make_layout and `generate` write: BOUNDARY, PATH of the types 0 and 2 with level and upright
// pieces, SREF and AREF without magnification. No rule of the format is looked at.
#include <boost/polygon/polygon.hpp>
#include <boost/version.hpp>

#include <algorithm>
#include <cstdint>
#include <cstdio>
#include <cstring>
#include <ctime>
#include <string>
#include <unordered_map>
#include <vector>

namespace poly = boost::polygon;
using Point = poly::point_data<int>;
using Polygon = poly::polygon_45_data<int>;

struct Shapes {
    std::vector<int> coordinates;          // x and y, one after another
    std::vector<size_t> ends;              // where each shape's coordinates end

    void close() { ends.push_back(coordinates.size()); }
};

struct Reference {
    std::string name;
    bool flip = false;
    int quarters = 0;
    int columns = 1, rows = 1;
    int at[6] = {0, 0, 0, 0, 0, 0};
};

struct Cell {
    Shapes shapes;
    std::vector<Reference> references;
};

using Cells = std::unordered_map<std::string, Cell>;

struct Element {
    int kind = 0, layer = 0, datatype = 0, path_type = 0, width = 0;
    std::vector<int> places;
    Reference reference;
};

// The processor's seconds so far, the system's part included.
static double now() {
    timespec time;
    clock_gettime(CLOCK_PROCESS_CPUTIME_ID, &time);
    return time.tv_sec + 1e-9 * time.tv_nsec;
}

static std::vector<unsigned char> bytes_of(const char *name) {
    std::vector<unsigned char> bytes;
    FILE *file = std::fopen(name, "rb");
    if (!file) return bytes;
    std::fseek(file, 0, SEEK_END);
    bytes.resize(std::ftell(file));
    std::rewind(file);
    if (std::fread(bytes.data(), 1, bytes.size(), file) != bytes.size()) bytes.clear();
    std::fclose(file);
    return bytes;
}

static int number16(const unsigned char *p) { return p[0] << 8 | p[1]; }

static int number32(const unsigned char *p) {
    return static_cast<int>(uint32_t(p[0]) << 24 | uint32_t(p[1]) << 16 | uint32_t(p[2]) << 8 | p[3]);
}

static double real64(const unsigned char *p) {
    double value = 0;
    for (int k = 7; k > 0; k--) value = (value + p[k]) / 256;
    for (int e = p[0] & 127; e > 64; e--) value *= 16;
    for (int e = p[0] & 127; e < 64; e++) value /= 16;
    return p[0] & 128 ? -value : value;
}

static std::string text(const unsigned char *p, size_t length) {
    std::string name(reinterpret_cast<const char *>(p), length);
    while (!name.empty() && name.back() == '\0') name.pop_back();
    return name;
}

static void add_box(Shapes &shapes, int x0, int y0, int x1, int y1) {
    for (int v : {x0, y0, x1, y0, x1, y1, x0, y1}) shapes.coordinates.push_back(v);
    shapes.close();
}

// The rectangles of a path, longer by half the width at its corners.
static void add_path(Shapes &shapes, const Element &element) {
    const std::vector<int> &p = element.places;
    int half = element.width / 2;
    for (size_t k = 0; k + 3 < p.size(); k += 2) {
        int before = k == 0 && element.path_type == 0 ? 0 : half;
        int after = k + 5 >= p.size() && element.path_type == 0 ? 0 : half;
        int dx = (p[k + 2] > p[k]) - (p[k + 2] < p[k]), dy = (p[k + 3] > p[k + 1]) - (p[k + 3] < p[k + 1]);
        int ax = p[k] - dx * before, ay = p[k + 1] - dy * before;
        int bx = p[k + 2] + dx * after, by = p[k + 3] + dy * after;
        int wide = dy ? half : 0, high = dx ? half : 0;
        add_box(shapes, std::min(ax, bx) - wide, std::min(ay, by) - high, std::max(ax, bx) + wide,
                std::max(ay, by) + high);
    }
}

static void add_element(Cell &cell, Element &element) {
    if (element.kind == 0x0A || element.kind == 0x0B) {
        std::copy(element.places.begin(), element.places.end(), element.reference.at);
        cell.references.push_back(element.reference);
    } else if (element.layer == 1 && element.datatype == 0) {
        if (element.kind == 0x09) {
            add_path(cell.shapes, element);
        } else if (element.kind == 0x08) {
            std::vector<int> &all = cell.shapes.coordinates;
            all.insert(all.end(), element.places.begin(), element.places.end() - 2);
            cell.shapes.close();
        }
    }
}

// What a record inside of an element says.
static void add_record(Element &element, int kind, const unsigned char *p, size_t length) {
    switch (kind) {
    case 0x0D: element.layer = number16(p); break;
    case 0x0E: element.datatype = number16(p); break;
    case 0x21: element.path_type = number16(p); break;
    case 0x0F: element.width = number32(p); break;
    case 0x12: element.reference.name = text(p, length); break;
    case 0x13: element.reference.columns = number16(p), element.reference.rows = number16(p + 2); break;
    case 0x1A: element.reference.flip = p[0] & 128; break;
    case 0x1C: element.reference.quarters = int(real64(p) / 90) & 3; break;
    case 0x10:
        for (size_t k = 0; k < length; k += 4) element.places.push_back(number32(p + k));
        break;
    }
}

static Cells cells_of(const std::vector<unsigned char> &bytes) {
    Cells cells;
    Cell *cell = nullptr;
    Element element;
    for (size_t at = 0; at + 4 <= bytes.size();) {
        size_t length = number16(&bytes[at]);
        int kind = bytes[at + 2];
        const unsigned char *content = &bytes[at] + 4;
        if (length < 4 || kind == 0x04) break;
        if (kind == 0x06) {
            cell = &cells[text(content, length - 4)];
        } else if ((kind >= 0x08 && kind <= 0x0C) || kind == 0x15 || kind == 0x2D) {
            element = Element();
            element.kind = kind;
        } else if (kind == 0x11) {
            add_element(*cell, element);
        } else {
            add_record(element, kind, content, length - 4);
        }
        at += length;
    }
    return cells;
}

// x and y, as `a * x + b * y + c` and `d * x + e * y + f`
struct Move {
    int a = 1, b = 0, c = 0, d = 0, e = 1, f = 0;
};

static Move followed(const Move &outer, const Reference &reference, int dx, int dy) {
    static const int turns[4][4] = {{1, 0, 0, 1}, {0, -1, 1, 0}, {-1, 0, 0, -1}, {0, 1, -1, 0}};
    const int *turn = turns[reference.quarters];
    int flip = reference.flip ? -1 : 1;
    int a = turn[0], b = flip * turn[1], d = turn[2], e = flip * turn[3];
    return {outer.a * a + outer.b * d, outer.a * b + outer.b * e, outer.a * dx + outer.b * dy + outer.c,
            outer.d * a + outer.e * d, outer.d * b + outer.e * e, outer.d * dx + outer.e * dy + outer.f};
}

// Where a place of an array is, in x (axis 0) or y (axis 1).
static int place(const Reference &it, int axis, int column, int row) {
    int at = it.at[axis];
    if (it.columns > 1) at += column * ((it.at[2 + axis] - it.at[axis]) / it.columns);
    if (it.rows > 1) at += row * ((it.at[4 + axis] - it.at[axis]) / it.rows);
    return at;
}

static void flatten(const Cells &cells, const std::string &name, const Move &move, Shapes &out) {
    const Cell &cell = cells.at(name);
    const std::vector<int> &p = cell.shapes.coordinates;
    size_t k = 0;
    for (size_t end : cell.shapes.ends) {
        for (; k < end; k += 2) {
            out.coordinates.push_back(2 * (move.a * p[k] + move.b * p[k + 1] + move.c));
            out.coordinates.push_back(2 * (move.d * p[k] + move.e * p[k + 1] + move.f));
        }
        out.close();
    }
    for (const Reference &it : cell.references) {
        for (int row = 0; row < it.rows; row++) {
            for (int column = 0; column < it.columns; column++) {
                flatten(cells, it.name, followed(move, it, place(it, 0, column, row), place(it, 1, column, row)), out);
            }
        }
    }
}

static bool is_box(const int *p, size_t count) {
    return count == 8 && ((p[0] == p[2] && p[3] == p[5] && p[4] == p[6] && p[7] == p[1]) ||
                          (p[1] == p[3] && p[2] == p[4] && p[5] == p[7] && p[6] == p[0]));
}

static std::vector<Polygon> united_45(const Shapes &shapes) {
    poly::polygon_45_set_data<int> set;
    size_t begin = 0;
    for (size_t end : shapes.ends) {
        const int *p = &shapes.coordinates[begin];
        if (is_box(p, end - begin)) {
            int x0 = std::min(p[0], p[4]), y0 = std::min(p[1], p[5]);
            set.insert(poly::rectangle_data<int>(x0, y0, std::max(p[0], p[4]), std::max(p[1], p[5])));
        } else {
            std::vector<Point> points;
            for (size_t k = 0; k < end - begin; k += 2) points.emplace_back(p[k], p[k + 1]);
            Polygon polygon;
            polygon.set(points.begin(), points.end());
            set.insert(polygon);
        }
        begin = end;
    }
    std::vector<Polygon> out;
    set.get_trapezoids(out, poly::HORIZONTAL);
    return out;
}

static std::vector<Polygon> united_90(const Shapes &shapes) {
    poly::polygon_90_set_data<int> set(poly::HORIZONTAL);
    size_t begin = 0;
    for (size_t end : shapes.ends) {
        const int *p = &shapes.coordinates[begin];
        std::vector<Point> points;
        for (size_t k = 0; k < end - begin; k += 2) points.emplace_back(p[k], p[k + 1]);
        poly::polygon_90_data<int> polygon;
        poly::set_points(polygon, points.begin(), points.end());
        set.insert(polygon);
        begin = end;
    }
    std::vector<poly::rectangle_data<int>> boxes;
    set.get_rectangles(boxes, poly::HORIZONTAL);
    std::vector<Polygon> out;
    for (const auto &box : boxes) {
        int x0 = poly::xl(box), y0 = poly::yl(box), x1 = poly::xh(box), y1 = poly::yh(box);
        Point points[4] = {{x0, y0}, {x1, y0}, {x1, y1}, {x0, y1}};
        Polygon polygon;
        polygon.set(points, points + 4);
        out.push_back(polygon);
    }
    return out;
}

static void put(std::string &out, uint64_t value) {
    for (; value > 127; value >>= 7) out.push_back(char(value | 128));
    out.push_back(char(value));
}

static void put_signed(std::string &out, int64_t value) { put(out, value < 0 ? 2 * -value + 1 : 2 * value); }

// A trapezoid with level sides as an OASIS record.
static void put_trapezoid(std::string &out, const Polygon &polygon) {
    int y0 = INT32_MAX, y1 = INT32_MIN;
    for (const Point &p : polygon) y0 = std::min(y0, p.y()), y1 = std::max(y1, p.y());
    int low[2] = {INT32_MAX, INT32_MIN}, high[2] = {INT32_MAX, INT32_MIN};
    for (const Point &p : polygon) {
        int *side = p.y() == y0 ? low : high;
        side[0] = std::min(side[0], p.x()), side[1] = std::max(side[1], p.x());
    }
    int left = std::min(low[0], high[0]), right = std::max(low[1], high[1]);
    int a = high[0] - low[0], b = high[1] - low[1];
    out.push_back(a == 0 && b == 0 ? 20 : a && b ? 23 : b == 0 ? 24 : 25);
    out.append("\x7B\x01\x00", 3);
    put(out, right - left), put(out, y1 - y0);
    if (a) put_signed(out, a);
    if (b) put_signed(out, b);
    put_signed(out, left), put_signed(out, y0);
}

static bool write_all(const char *name, const std::vector<Polygon> &trapezoids) {
    std::string out("%SEMI-OASIS\r\n\x01\x03" "1.0\x00\xD0\x0F\x00", 21);
    out.append(12, '\0').append("\x0E\x05SHOTS");
    for (const Polygon &polygon : trapezoids) put_trapezoid(out, polygon);
    out.append("\x02\xFC\x01", 3).append(253, '\0');
    FILE *file = std::fopen(name, "wb");
    if (!file) return false;
    bool is_whole = std::fwrite(out.data(), 1, out.size(), file) == out.size();
    return std::fclose(file) == 0 && is_whole;
}

int main(int count, char **words) {
    if (count != 4) {
        std::printf("Boost.Polygon %d.%d; words: 45 or 90, LAYOUT, OUT\n", BOOST_VERSION / 100000, BOOST_VERSION / 100 % 1000);
        return 1;
    }
    double start = now();
    Shapes shapes;
    flatten(cells_of(bytes_of(words[2])), "TOP", Move(), shapes);
    double read = now();
    bool is_plain = std::strcmp(words[1], "90") == 0;
    std::vector<Polygon> out = is_plain ? united_90(shapes) : united_45(shapes);
    double swept = now();
    if (!write_all(words[3], out)) return 1;
    double written = now();
    std::printf("read %.3f sweep %.3f write %.3f trapezoids %zu\n", read - start, swept - read, written - swept, out.size());
    return 0;
}
