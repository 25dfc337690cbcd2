// The yardstick: the same rows as the crate `column_bench` has, as cells of one width a column; an append numbers the cells of each
// column by a hash table of their bytes, writes the distinct cells into pages of 1,008 bytes and the codes, of as many bytes as they
// need, into others; a scan tests the distinct numbers and marks the rows of the codes that pass. Each line is a call's name and its
// processor time in nanoseconds.
#include <array>
#include <cstdint>
#include <cstdio>
#include <cstring>
#include <ctime>
#include <vector>

constexpr size_t rows = 200000, page_bytes = 1008;
using Page = std::array<uint8_t, page_bytes>;

struct Cells {
    size_t width;
    std::vector<uint8_t> bytes;
};

struct Column {
    std::vector<Page> codes, values;
    size_t distinct = 0, code_bytes = 1;
};

static uint64_t now() {
    timespec time;
    clock_gettime(CLOCK_THREAD_CPUTIME_ID, &time);
    return uint64_t(time.tv_sec) * 1000000000 + uint64_t(time.tv_nsec);
}

struct Key {
    uint64_t low, high;
};

// A cell of at most 16 bytes as two words.
static Key key_of(const uint8_t* cell, size_t width) {
    uint8_t padded[16] = {};
    memcpy(padded, cell, width);
    Key key;
    memcpy(&key, padded, 16);
    return key;
}

// Codes by first appearance, in an open table that doubles when it is half full.
static std::vector<uint32_t> numbered(const Cells& cells, std::vector<uint8_t>& distinct) {
    size_t count = cells.bytes.size() / cells.width, used = 0, size = 16;
    std::vector<Key> keys;
    std::vector<uint32_t> table(size, 0), codes;
    codes.reserve(count);
    auto place = [&](Key key) {
        uint64_t hash = (key.low ^ key.high * 0x9e3779b97f4a7c15ull) * 0xff51afd7ed558ccdull;
        return size_t(hash ^ hash >> 32) & (size - 1);
    };
    for (size_t i = 0; i < count; i++) {
        const uint8_t* cell = &cells.bytes[i * cells.width];
        Key key = key_of(cell, cells.width);
        size_t at = place(key);
        while (table[at] && (keys[table[at] - 1].low != key.low || keys[table[at] - 1].high != key.high)) at = (at + 1) & (size - 1);
        if (!table[at]) {
            keys.push_back(key);
            table[at] = uint32_t(++used);
            distinct.insert(distinct.end(), cell, cell + cells.width);
            if (used * 2 > size) {
                size *= 2;
                table.assign(size, 0);
                for (size_t k = 0; k < keys.size(); k++) {
                    size_t to = place(keys[k]);
                    while (table[to]) to = (to + 1) & (size - 1);
                    table[to] = uint32_t(k + 1);
                }
                at = place(key);
                while (keys[table[at] - 1].low != key.low || keys[table[at] - 1].high != key.high) at = (at + 1) & (size - 1);
            }
        }
        codes.push_back(table[at] - 1);
    }
    return codes;
}

static void put(std::vector<Page>& pages, const std::vector<uint8_t>& bytes, size_t width) {
    size_t per = page_bytes / width, count = bytes.size() / width;
    for (size_t first = 0; first < count; first += per) {
        size_t here = count - first < per ? count - first : per;
        Page page{};
        memcpy(page.data(), &bytes[first * width], here * width);
        pages.push_back(page);
    }
}

static Column appended(const Cells& cells) {
    Column column;
    std::vector<uint8_t> distinct;
    std::vector<uint32_t> codes = numbered(cells, distinct);
    column.distinct = distinct.size() / cells.width;
    column.code_bytes = column.distinct > 65536 ? 3 : column.distinct > 256 ? 2 : 1;
    put(column.values, distinct, cells.width);
    size_t w = column.code_bytes, per = page_bytes / w;
    for (size_t first = 0; first < codes.size(); first += per) {
        Page page{};
        for (size_t k = 0; k < per && first + k < codes.size(); k++) memcpy(&page[k * w], &codes[first + k], w);
        column.codes.push_back(page);
    }
    return column;
}

static std::vector<uint64_t> scan(const Column& column, int32_t below) {
    size_t per = page_bytes / 5, w = column.code_bytes, codes = page_bytes / w;
    std::vector<uint8_t> cells;
    for (size_t k = 0; k < column.distinct; k++) {
        const uint8_t* cell = &column.values[k / per][k % per * 5];
        cells.insert(cells.end(), cell, cell + 5);
    }
    std::vector<bool> hits(column.distinct);
    for (size_t k = 0; k < column.distinct; k++) {
        int32_t number;
        memcpy(&number, &cells[k * 5 + 1], 4);
        hits[k] = cells[k * 5] == 1 && number < below;
    }
    std::vector<uint64_t> bits((rows + 63) / 64);
    Page page;
    for (size_t p = 0; p < column.codes.size(); p++) {
        page = column.codes[p];
        for (size_t k = 0; k < codes && p * codes + k < rows; k++) {
            uint32_t code = 0;
            memcpy(&code, &page[k * w], w);
            size_t row = p * codes + k;
            if (hits[code]) bits[row / 64] |= uint64_t(1) << row % 64;
        }
    }
    return bits;
}

static size_t ones(const std::vector<uint64_t>& bits) {
    size_t count = 0;
    for (uint64_t word : bits) count += size_t(__builtin_popcountll(word));
    return count;
}

static void number(Cells& cells, int64_t value) {
    cells.bytes.push_back(1);
    for (size_t k = 0; k + 1 < cells.width; k++) cells.bytes.push_back(uint8_t(value >> 8 * k));
}

int main() {
    Cells cells[4] = {{5, {}}, {10, {}}, {5, {}}, {9, {}}};
    for (size_t i = 0; i < rows; i++) {
        number(cells[0], int64_t(i));
        char text[16];
        snprintf(text, sizeof text, "%05zu", i % 5000);
        cells[1].bytes.insert(cells[1].bytes.end(), {1, 5});
        cells[1].bytes.insert(cells[1].bytes.end(), text, text + 5);
        cells[1].bytes.insert(cells[1].bytes.end(), 3, 0);
        number(cells[2], int64_t(i % 100));
        number(cells[3], int64_t(i) * 1000003);
    }
    uint64_t from = now();
    std::vector<Column> columns;
    for (const Cells& column : cells) columns.push_back(appended(column));
    std::vector<Page> existence((rows + 8063) / 8064);
    for (size_t i = 0; i < rows; i++) existence[i / 8064][i % 8064 / 8] |= uint8_t(1 << i % 8);
    printf("append %llu (%zu)\n", (unsigned long long)(now() - from), columns[0].distinct);
    from = now();
    size_t many = ones(scan(columns[0], 100000));
    printf("scan_many %llu (%zu)\n", (unsigned long long)(now() - from), many);
    from = now();
    size_t few = ones(scan(columns[2], 50));
    printf("scan_few %llu (%zu)\n", (unsigned long long)(now() - from), few);
    return existence[0][0] == 255 ? 0 : 1;
}
