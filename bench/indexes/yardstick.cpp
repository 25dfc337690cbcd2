// The yardstick: the same rows as the crate `index_bench` has, as cells of five bytes (whether there is a number, and the number); an
// append makes the planes of each chunk of 8,064 rows in pages of 1,008 bytes, row by row; a comparison and a range read each page once
// and tell the rows apart by words, from the highest bit on. Each line is a call's name and its processor time in nanoseconds.
#include <array>
#include <cstdint>
#include <cstdio>
#include <cstring>
#include <ctime>
#include <vector>

constexpr size_t rows = 200000, page_bytes = 1008, chunk = 8064, page_words = 126, bits = 32, planes = bits + 1;
using Page = std::array<uint8_t, page_bytes>;
using Words = std::array<uint64_t, page_words>;
using Bits = std::vector<uint64_t>;

static uint64_t now() {
    timespec time;
    clock_gettime(CLOCK_THREAD_CPUTIME_ID, &time);
    return uint64_t(time.tv_sec) * 1000000000 + uint64_t(time.tv_nsec);
}

static std::vector<uint8_t> column(int64_t steps) {
    std::vector<uint8_t> cells;
    for (size_t row = 0; row < rows; row++) {
        uint8_t cell[5] = {};
        if (row % 97 != 5) {
            int32_t number = int32_t(int64_t(row) * steps % 200003 - 100000);
            cell[0] = 1;
            memcpy(cell + 1, &number, 4);
        }
        cells.insert(cells.end(), cell, cell + 5);
    }
    return cells;
}

static bool number_at(const std::vector<uint8_t>& cells, size_t row, int32_t& number) {
    memcpy(&number, &cells[row * 5 + 1], 4);
    return cells[row * 5] == 1;
}

static void set(Page& page, size_t row, uint32_t bit) {
    page[row / 8] |= uint8_t(bit << row % 8);
}

static std::vector<Page> hng_append(const std::vector<uint8_t>& cells) {
    size_t count = cells.size() / 5;
    std::vector<Page> pages;
    for (size_t first = 0; first < count; first += chunk) {
        std::vector<Page> made(planes);
        for (size_t row = 0; row < chunk && first + row < count; row++) {
            int32_t number;
            if (!number_at(cells, first + row, number)) continue;
            uint32_t key = uint32_t(number) ^ 0x80000000u;
            set(made[0], row, 1);
            for (size_t j = 0; j < bits; j++) set(made[j + 1], row, key >> j & 1);
        }
        pages.insert(pages.end(), made.begin(), made.end());
    }
    return pages;
}

static void load(const std::vector<Page>& pages, size_t at, Words& words) {
    Page page = pages[at];
    memcpy(words.data(), page.data(), page_bytes);
}

// The rows of lesser, equal and greater numbers, by one plane more.
static void narrow(const Words& plane, bool bit, Words& less, Words& equal, Words& greater) {
    for (size_t k = 0; k < page_words; k++) {
        if (bit) {
            less[k] |= equal[k] & ~plane[k];
            equal[k] &= plane[k];
        } else {
            greater[k] |= equal[k] & plane[k];
            equal[k] &= ~plane[k];
        }
    }
}

static void put(Bits& into, const Words& words) {
    into.insert(into.end(), words.begin(), words.end());
}

struct Three {
    Bits less, equal, greater;
};

static Three hng_compare(const std::vector<Page>& pages, int32_t number) {
    Three three;
    uint32_t key = uint32_t(number) ^ 0x80000000u;
    for (size_t at = 0; at < pages.size(); at += planes) {
        Words less{}, equal, greater{}, plane;
        load(pages, at, equal);
        for (size_t j = bits; j-- > 0;) {
            load(pages, at + j + 1, plane);
            narrow(plane, key >> j & 1, less, equal, greater);
        }
        put(three.less, less);
        put(three.equal, equal);
        put(three.greater, greater);
    }
    return three;
}

static Three hng_range(const std::vector<Page>& pages, int32_t low, int32_t high) {
    Three three;
    uint32_t from = uint32_t(low) ^ 0x80000000u, to = uint32_t(high) ^ 0x80000000u;
    for (size_t at = 0; at < pages.size(); at += planes) {
        Words below{}, equal, rest{}, less{}, same, above{}, within, plane;
        load(pages, at, equal);
        same = equal;
        for (size_t j = bits; j-- > 0;) {
            load(pages, at + j + 1, plane);
            narrow(plane, from >> j & 1, below, equal, rest);
            narrow(plane, to >> j & 1, less, same, above);
        }
        for (size_t k = 0; k < page_words; k++) within[k] = (equal[k] | rest[k]) & (less[k] | same[k]);
        put(three.less, below);
        put(three.equal, within);
        put(three.greater, above);
    }
    return three;
}

static std::vector<Page> cmp_append(const std::vector<uint8_t>& first, const std::vector<uint8_t>& second) {
    size_t count = first.size() / 5;
    std::vector<Page> pages;
    for (size_t from = 0; from < count; from += chunk) {
        std::vector<Page> made(3);
        for (size_t row = 0; row < chunk && from + row < count; row++) {
            int32_t a, b;
            if (!number_at(first, from + row, a) || !number_at(second, from + row, b)) continue;
            set(made[a < b ? 0 : a == b ? 1 : 2], row, 1);
        }
        pages.insert(pages.end(), made.begin(), made.end());
    }
    return pages;
}

static Bits cmp_at_most(const std::vector<Page>& pages) {
    Bits found;
    for (size_t at = 0; at < pages.size(); at += 3) {
        Words less, equal;
        load(pages, at, less);
        load(pages, at + 1, equal);
        for (size_t k = 0; k < page_words; k++) less[k] |= equal[k];
        put(found, less);
    }
    return found;
}

static size_t ones(const Bits& words) {
    size_t count = 0;
    for (uint64_t word : words) count += size_t(__builtin_popcountll(word));
    return count;
}

static void told(const char* call, uint64_t from, uint64_t to, size_t gave) {
    printf("%s %llu (%zu)\n", call, (unsigned long long)(to - from), gave);
}

int main() {
    std::vector<uint8_t> first = column(7919), second = column(31);
    uint64_t from = now();
    std::vector<Page> hng = hng_append(first);
    told("hng_append", from, now(), rows);
    from = now();
    Three compared = hng_compare(hng, 1234);
    told("hng_compare", from, now(), ones(compared.less));
    from = now();
    Three ranged = hng_range(hng, -50000, 1234);
    told("hng_range", from, now(), ones(ranged.equal));
    from = now();
    std::vector<Page> cmp = cmp_append(first, second);
    told("cmp_append", from, now(), rows);
    from = now();
    Bits related = cmp_at_most(cmp);
    told("cmp_relation", from, now(), ones(related));
    return hng[0][0] == 0 ? 1 : 0;
}
