// {fmt}'s own parser of format strings with a handler that collects its pieces, as a user of it would write one: in a list that is made anew for each text, or
// in one that is kept from text to text. It checks no UTF-8, keeps no spans and stops at the first error.
#define FMT_HEADER_ONLY
#include <fmt/format.h>

#include <cstddef>
#include <exception>
#include <vector>

namespace {

struct Piece {
    bool argument;
    int id;
    fmt::string_view text;
};

// Stops the parser at an error.
struct Stopped : std::exception {};

// What a spec says, kept as it is met.
struct Specs {
    fmt::basic_format_specs<char> kept;
    int width_argument = -1;
    int precision_argument = -1;
    fmt::string_view width_name;
    fmt::string_view precision_name;

    void on_fill(fmt::string_view fill) { kept.fill = fill; }
    void on_align(fmt::align_t align) { kept.align = align; }
    void on_sign(fmt::sign_t sign) { kept.sign = sign; }
    void on_hash() { kept.alt = true; }
    void on_localized() { kept.localized = true; }
    void on_zero() { kept.fill[0] = '0'; }
    void on_width(int width) { kept.width = width; }
    void on_dynamic_width(fmt::detail::auto_id) { width_argument = 0; }
    void on_dynamic_width(int id) { width_argument = id; }
    void on_dynamic_width(fmt::string_view name) { width_name = name; }
    void on_precision(int precision) { kept.precision = precision; }
    void on_dynamic_precision(fmt::detail::auto_id) { precision_argument = 0; }
    void on_dynamic_precision(int id) { precision_argument = id; }
    void on_dynamic_precision(fmt::string_view name) { precision_name = name; }
    void end_precision() {}
    void on_type(fmt::presentation_type type) { kept.type = type; }
    void on_error(const char *) { throw Stopped(); }
};

struct Collector {
    explicit Collector(std::vector<Piece> &list) : pieces(list) {}

    void on_text(const char *begin, const char *end) { pieces.push_back({false, 0, {begin, static_cast<std::size_t>(end - begin)}}); }
    int on_arg_id() { return next++; }
    int on_arg_id(int id) { return id; }
    int on_arg_id(fmt::string_view name) {
        named = name;
        return -1;
    }
    void on_replacement_field(int id, const char *) { add(id); }
    const char *on_format_specs(int id, const char *begin, const char *end) {
        add(id);
        Specs specs;
        return fmt::detail::parse_format_specs(begin, end, specs);
    }
    void on_error(const char *) { throw Stopped(); }

  private:
    std::vector<Piece> &pieces;
    int next = 0;
    fmt::string_view named;

    void add(int id) { pieces.push_back({true, id, named}); }
};

std::ptrdiff_t parsed(const char *text, std::size_t length, std::vector<Piece> &pieces) {
    Collector collector(pieces);
    try {
        fmt::detail::parse_format_string<false>(fmt::string_view(text, length), collector);
    } catch (const std::exception &) {
        return -1;
    }
    return static_cast<std::ptrdiff_t>(pieces.size());
}

}  // namespace

// How many pieces, or -1 where the parser stops at an error.
extern "C" std::ptrdiff_t peer_fmt(const char *text, std::size_t length) {
    std::vector<Piece> pieces;
    return parsed(text, length, pieces);
}

// The same, with the list kept.
extern "C" std::ptrdiff_t peer_fmt_kept(const char *text, std::size_t length) {
    static std::vector<Piece> pieces;
    pieces.clear();
    return parsed(text, length, pieces);
}
