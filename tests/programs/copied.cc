// What C++ copies without a call that the source shows, each to a global variable of its own.
#include <algorithm>
#include <array>
#include <string>
#include <vector>

struct plain { char byte[24]; };
struct with_base : plain { char more[7]; with_base() = default; with_base(const with_base &) = default; with_base &operator=(const with_base &) = default; };

plain from_copied, to_copied;
with_base from_default, to_default;
std::array<char, 24> from_array, to_array;
char from_std_copy[24], to_std_copy[24], to_std_fill[24], to_std_fill_n[24], from_copy_n[24], to_copy_n[24];
char from_string[24], to_string[24];
alignas(with_base) char to_constructed[sizeof(with_base)];

int main() {
    to_copied = from_copied;
    to_default = from_default;
    new (to_constructed) with_base(from_default);
    to_array = from_array;
    std::copy(from_std_copy, from_std_copy + 24, to_std_copy);
    std::copy_n(from_copy_n, 24, to_copy_n);
    std::fill(to_std_fill, to_std_fill + 24, 'x');
    std::fill_n(to_std_fill_n, 24, 'x');
    std::string text(from_string, 24);
    text.copy(to_string, 24);
}
