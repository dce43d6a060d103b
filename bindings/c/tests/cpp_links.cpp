// The headers as C++: the calls link, and the example of the header is answered as it says, the inline calls included.
#include "../pagzimul_inline.h"
#include <array>
#include <cstddef>
#include <cstdio>

int main() {
    constexpr uint64_t slots = 8;
    constexpr uint64_t number = 42;
    constexpr std::size_t count = 4096;
    std::array<uint64_t, count> words{};
    if (!pagzimul_fits(words.data(), words.size(), slots) || !pagzimul_start(words.data(), words.size(), slots)) {
        std::puts("C++: start refused enough words");
        return 1;
    }
    pagzimul_told made = pagzimul_new(words.data(), words.size(), slots, 0, 2, 1);
    pagzimul_told written = pagzimul_write(words.data(), words.size(), slots, 0, 0, number);
    pagzimul_told told = pagzimul_read(words.data(), words.size(), slots, 0, 0);
    pagzimul_told again = pagzimul_inline_read(words.data(), words.size(), slots, 0, 0);
    bool done = made.code == PAGZIMUL_DONE && written.code == PAGZIMUL_DONE && told.code == PAGZIMUL_DONE;
    if (!done || told.val != number || again.val != number || !pagzimul_is_sound(words.data(), words.size(), slots)) {
        std::puts("C++: the example of the header is answered otherwise");
        return 1;
    }
    std::puts("C++: the headers compile, link and answer");
    return 0;
}
