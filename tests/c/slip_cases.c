/*
 * Slips and sums: known sums, every cut of small files and random cuts of a long one, each refusal
 * with its place, rooms below, at and above the need, every bit of a slip turned, 1,000 and 1,001
 * entries; what is written reads back, what is read writes back; nothing else is touched.
 */
#include "slip_cases.h"

#include <stdbool.h>
#include <stdio.h>
#include <stdlib.h>
#include <string.h>
#include <sys/mman.h>

#include "answers.h"
#include "slices.h"
#include "tds.h"

static struct arena slip_arena, names_arena, entries_arena, out_arena;

/* The same numbers at every run. */
static uint32_t any(uint32_t below) {
    static uint32_t state = 2463534242u;
    state ^= state << 13;
    state ^= state >> 17;
    state ^= state << 5;
    return state % below;
}

/* ---- sums */

/* Byte by byte, as RFC 1146 says it. */
static uint32_t plain_sums(const uint8_t *file, size_t length) {
    uint32_t first = 0, second = 0;
    for (size_t i = 0; i < length; i++) {
        first = (first + file[i]) % 255;
        second = (second + first) % 255;
    }
    return first + 256 * second;
}

struct sums_case {
    const char *bytes;
    size_t length;
    uint32_t sums;
};

static const struct sums_case sums_cases[] = {
    {"", 0, 0},
    {"\0", 1, 0},
    {"\xFF", 1, 0},
    {"a", 1, 0x6161},
    {"abcde", 5, 0xC8F0},
    {"abcdef", 6, 0x2057},
    {"\1", 1, 0x0101},
    {"abcdefgh", 8, 0x0627},
    {"\7\0\11", 3, 30 * 256 + 16},
    {"\7\xFF\11", 3, 30 * 256 + 16},
};

/* The file in all ways of cutting it in two, and with empty parts before, between and behind. */
static void try_cuts(const uint8_t *file, size_t length) {
    uint64_t right = plain_sums(file, length) + 65536 * (uint64_t)length;
    for (size_t cut = 0; cut <= length; cut++) {
        uint64_t first = tds_sum_add(0, file, cut);
        uint64_t second = tds_sum_add(0, file + cut, length - cut);
        uint64_t added = tds_sum_add(tds_sum_add(first, NULL, 0), file + cut, length - cut);
        expect(added == right, "cut at %zu adds to another number", cut);
        expect(tds_sum_join(first, second) == right, "cut at %zu joins to another number", cut);
        expect(tds_sum_join(0, tds_sum_join(first, 0)) == first, "nothing changes the first part");
    }
}

static void try_sums(void) {
    EACH(i, sums_cases) {
        const struct sums_case *this = &sums_cases[i];
        const uint8_t *file = arena_hold(&slip_arena, this->bytes, this->length, AT_END);
        uint32_t length = (uint32_t)this->length;
        trying("the sums of case %zu", i);
        judge_answer(tds_sums(length == 0 ? NULL : file, length), this->sums);
        expect(this->sums == plain_sums(file, length), "the plain sums differ");
        judge_answer(tds_matches(file, length, length, this->sums), 0);
        judge_answer(tds_matches(file, length, length + 1, this->sums), REFUSAL(19, 0));
        judge_answer(tds_matches(file, length, length, this->sums ^ 1), REFUSAL(19, 1));
        judge_answer(tds_matches(file, length, length, this->sums ^ 256), REFUSAL(19, 1));
        judge_answer(tds_matches(file, length, length, this->sums + 65536), REFUSAL(19, 1));
        judge_answer(tds_matches(file, length, length + 1, 0xFFFFFFFF), REFUSAL(19, 0));
        judge_answer(tds_sum_matches(tds_sum_add(0, file, length), length, this->sums), 0);
        try_cuts(file, length);
    }
    trying("sums that no file has");
    judge_answer(tds_matches(NULL, 0, 0, 255), REFUSAL(19, 1));
    judge_answer(tds_matches(NULL, 0, 0, 255 * 256), REFUSAL(19, 1));
    trying("numbers that stand for something");
    judge_answer(tds_sum_add(0xFFFF, NULL, 0), 0);
    judge_answer(tds_sum_join(0xFFFF, 0xFFFF), 0);
    judge_answer(tds_sum_add(~(uint64_t)0, NULL, 0), 0xFFFFFFFFFFFF0000u);
    judge_answer(tds_sum_add(0xFFFFFFFFFFFF0000u, (const uint8_t *)"a", 1), 0xFFFFFFFFFFFF6161u);
    judge_answer(tds_sum_matches(0xFFFFFFFFFFFF0000u, 0xFFFFFFFF, 0), REFUSAL(19, 0));
}

/* Blocks of the sums are 128 bytes long: lengths around them, then one long file. */
static void try_long_sums(void) {
    size_t longest = TDS_LONGEST_FILE + 1;
    uint8_t *file = need_bytes(longest);
    uint64_t sum = 0;
    for (size_t i = 0; i < longest; i++) {
        file[i] = (uint8_t)any(256);
    }
    for (size_t length = 0; length < 520; length++) {
        trying("the sums of %zu bytes", length);
        judge_answer(tds_sums(file, length), plain_sums(file, length));
    }
    memset(file + 1000, 0xFF, 4000);
    trying("the sums of the longest file");
    judge_answer(tds_sums(file, longest - 1), plain_sums(file, longest - 1));
    judge_answer(tds_sums(file, longest), REFUSAL(1, 0));
    judge_answer(tds_matches(file, longest, (uint32_t)longest, plain_sums(file, longest)), 0);
    for (size_t at = 0, part; at < longest; at += part) {
        part = any(9000);
        part = part < longest - at ? part : longest - at;
        sum = tds_sum_add(sum, file + at, part);
    }
    judge_answer(tds_sum_matches(sum, (uint32_t)longest, plain_sums(file, longest)), 0);
    free(file);
}

/* Every bit of a file turned is found; a byte 0 turned into 255 is not. */
static void try_damage(void) {
    uint8_t file[300];
    uint32_t sums;
    for (size_t i = 0; i < sizeof file; i++) {
        file[i] = i % 3 == 0 ? 0 : (uint8_t)any(256);
    }
    sums = (uint32_t)tds_sums(file, sizeof file);
    for (size_t i = 0; i < 8 * sizeof file; i++) {
        trying("bit %zu turned", i);
        file[i / 8] ^= (uint8_t)(1 << i % 8);
        judge_answer(tds_matches(file, sizeof file, sizeof file, sums), REFUSAL(19, 1));
        file[i / 8] ^= (uint8_t)(1 << i % 8);
    }
    trying("0 turned into 255");
    file[3] = 255;
    judge_answer(tds_matches(file, sizeof file, sizeof file, sums), 0);
    file[3] = 0;
    trying("two bits turned, 255 bytes apart");
    file[12] ^= 16;
    file[12 + 255] ^= 16;
    judge_answer(tds_matches(file, sizeof file, sizeof file, sums),
                 (file[12] & 16) == (file[12 + 255] & 16) ? REFUSAL(19, 1) : 0);
}

/* ---- reading */

/* "a" of 258 bytes with sums 3 and 4, "bc" of 1 byte with sums 5 and 5: they stand at 7 and 15. */
static const uint8_t two[] = {1, 0, 0, 0, 19,  0,   2, 1, 'a', 0, 0, 1,
                              2, 3, 4, 2, 'b', 'c', 0, 0, 0,   1, 5, 5};
static const uint32_t two_numbers[] = {8, 1, 258, 1027, 16, 2, 1, 1285};

struct slip_case {
    const char *what;
    uint8_t bytes[40];
    size_t length;
    uint64_t answer;
};

static const struct slip_case slip_cases[] = {
    {"the smallest", {1, 0, 0, 0, 2, 0, 0}, 7, 0},
    {"nothing", {0}, 0, REFUSAL(18, 0)},
    {"six bytes", {1, 0, 0, 0, 1, 0}, 6, REFUSAL(18, 0)},
    {"version 2", {2, 0, 0, 0, 2, 0, 0}, 7, REFUSAL(18, 0)},
    {"a length of all but 7 bytes", {1, 0, 0, 0, 0, 0, 0}, 7, REFUSAL(18, 0)},
    {"a length of all", {1, 0, 0, 0, 7, 0, 0}, 7, REFUSAL(18, 0)},
    {"a length of 2 + 2^24", {1, 1, 0, 0, 2, 0, 0}, 7, REFUSAL(18, 0)},
    {"1,001 entries promised", {1, 0, 0, 0, 2, 3, 0xE9}, 7, REFUSAL(18, 0)},
    {"1,000 entries promised, none there", {1, 0, 0, 0, 2, 3, 0xE8}, 7, REFUSAL(18, 7)},
    {"a byte left over", {1, 0, 0, 0, 3, 0, 0, 0}, 8, REFUSAL(18, 7)},
    {"an entry without a name", {1, 0, 0, 0, 9, 0, 1, 0, 0, 0, 0, 0, 0, 0}, 14, REFUSAL(18, 7)},
    {"one entry", {1, 0, 0, 0, 10, 0, 1, 1, 'x', 0, 0, 0, 0, 0, 0}, 15, 1},
    {"the highest length and sums", {1, 0, 0, 0, 10, 0, 1, 1, '~', 0xFF, 0, 0, 0, 254, 254}, 15, 1},
    {"a zero for a name", {1, 0, 0, 0, 10, 0, 1, 1, 0, 0, 0, 0, 0, 0, 0}, 15, REFUSAL(24, 7)},
    {"a byte 31", {1, 0, 0, 0, 10, 0, 1, 1, 31, 0, 0, 0, 0, 0, 0}, 15, REFUSAL(24, 7)},
    {"a byte 127 in the second name",
     {1, 0, 0, 0, 19, 0, 2, 1, 32, 0, 0, 0, 0, 0, 0, 2, 126, 127, 0, 0, 0, 0, 0, 0},
     24,
     REFUSAL(24, 15)},
    {"a byte 127 and a byte left over",
     {1, 0, 0, 0, 11, 0, 1, 1, 127, 0, 0, 0, 0, 0, 0, 0},
     16,
     REFUSAL(18, 15)},
    {"a byte 127 and a bad sum behind it",
     {1, 0, 0, 0, 18, 0, 2, 1, 127, 0, 0, 0, 0, 0, 0, 1, 'x', 0, 0, 0, 0, 0, 255},
     23,
     REFUSAL(18, 15)},
    {"a name of one byte too many",
     {1, 0, 0, 0, 10, 0, 1, 2, 'x', 0, 0, 0, 0, 0, 0},
     15,
     REFUSAL(18, 7)},
    {"a first sum of 255", {1, 0, 0, 0, 10, 0, 1, 1, 'x', 0, 0, 0, 0, 255, 0}, 15, REFUSAL(18, 7)},
    {"a second sum of 255", {1, 0, 0, 0, 10, 0, 1, 1, 'x', 0, 0, 0, 0, 0, 255}, 15, REFUSAL(18, 7)},
    {"a name twice",
     {1, 0, 0, 0, 18, 0, 2, 1, 'x', 0, 0, 0, 0, 0, 0, 1, 'x', 0, 0, 0, 1, 1, 1},
     23,
     REFUSAL(18, 15)},
    {"a name and its beginning",
     {1, 0, 0, 0, 19, 0, 2, 2, 'x', 'y', 0, 0, 0, 0, 0, 0, 1, 'x', 0, 0, 0, 1, 1, 1},
     24,
     2},
    {"a missing entry", {1, 0, 0, 0, 10, 0, 2, 1, 'x', 0, 0, 0, 0, 0, 0}, 15, REFUSAL(18, 15)},
};

/* What a slip answers with much room; 0 entries or more are then to be written back. */
static void try_slip(const uint8_t *bytes, size_t length, uint64_t right) {
    size_t entries = TDS_REFUSED(right) ? 0 : (size_t)right;
    const size_t rooms[] = {0, 15, 16, 16 * entries, 16 * entries + 15, 16 * entries + 64};
    EACH(i, rooms) {
        for (int where = AT_START; where < WHERES; where++) {
            size_t room = rooms[i];
            const uint8_t *slip = arena_hold(&slip_arena, bytes, length, (enum where)where);
            uint8_t *row = arena_lend(&entries_arena, room, (enum where)where);
            uint64_t answer =
                TDS_REFUSED(right) || entries <= room / 16 ? right : REFUSAL(15, entries);
            judge_answer(
                tds_slip_read(length == 0 ? NULL : slip, length, room == 0 ? NULL : row, room),
                answer);
            expect(arena_alive(&entries_arena, row, TDS_REFUSED(answer) ? 0 : 16 * entries),
                   "something outside was changed");
        }
    }
}

/* An accepted slip, read and written again with itself as the names, is the same bytes. */
static void try_again(const uint8_t *bytes, size_t length, size_t entries) {
    uint8_t *row = need_bytes(16 * entries), *again = need_bytes(length);
    judge_answer(tds_slip_read(bytes, length, row, 16 * entries), entries);
    judge_answer(tds_slip_write(bytes, length, row, 16 * entries, again, length), length);
    expect(memcmp(bytes, again, length) == 0, "written again it is another slip");
    judge_answer(tds_slip_write(bytes, length, row, 16 * entries, again, length - 1),
                 REFUSAL(15, length));
    expect(memcmp(bytes, again, length) == 0, "a refusal changed what was there");
    free(row);
    free(again);
}

static void try_slip_cases(void) {
    uint8_t row[32];
    EACH(i, slip_cases) {
        const struct slip_case *this = &slip_cases[i];
        trying("the slip of %s", this->what);
        try_slip(this->bytes, this->length, this->answer);
        if (!TDS_REFUSED(this->answer)) {
            try_again(this->bytes, this->length, (size_t)this->answer);
        }
    }
    trying("the slip of two entries");
    try_slip(two, sizeof two, 2);
    try_again(two, sizeof two, 2);
    judge_answer(tds_slip_read(two, sizeof two, row, sizeof row), 2);
    EACH(i, two_numbers) {
        expect(tds_get4(row + 4 * i) == two_numbers[i], "number %zu is another", i);
    }
}

/* Every bit of a slip turned: refused with 18 or 24, or a slip that is written back as it is. */
static void try_turned(void) {
    uint8_t slip[sizeof two], row[32];
    memcpy(slip, two, sizeof two);
    for (size_t i = 0; i < 8 * sizeof two; i++) {
        uint64_t answer;
        trying("the slip with bit %zu turned", i);
        slip[i / 8] ^= (uint8_t)(1 << i % 8);
        answer = tds_slip_read(slip, sizeof slip, row, sizeof row);
        if (TDS_REFUSED(answer)) {
            expect((TDS_REFUSAL(answer) == TDS_SLIP && TDS_PLACE(answer) <= sizeof slip) ||
                       answer == (i / 8 == 8 ? REFUSAL(24, 7) : REFUSAL(24, 15)),
                   "refused with %d, %lu", TDS_REFUSAL(answer), (unsigned long)TDS_PLACE(answer));
            expect(i / 8 >= 5 || TDS_PLACE(answer) == 0, "the first bytes are refused elsewhere");
        } else {
            expect(i / 8 >= 7, "accepted with another beginning");
            try_again(slip, sizeof slip, (size_t)answer);
        }
        slip[i / 8] ^= (uint8_t)(1 << i % 8);
    }
}

/* ---- writing */

struct write_case {
    const char *what;
    const char *names;
    size_t names_length;
    uint32_t numbers[12];
    size_t bytes;     /* of the entries */
    uint64_t refusal; /* 0 if it is to be written */
};

static const struct write_case write_cases[] = {
    {"nothing", "", 0, {0}, 0, 0},
    {"two entries", "abc", 3, {0, 1, 258, 1027, 1, 2, 1, 1285}, 32, 0},
    {"names that overlap", "aab", 3, {0, 2, 0, 0, 1, 2, 0xFFFFFFFF, 0xFEFE}, 32, 0},
    {"no name", "abc", 3, {0, 0, 0, 0}, 16, REFUSAL(18, 0)},
    {"a name over the end", "abc", 3, {0, 1, 0, 0, 2, 2, 0, 0}, 32, REFUSAL(18, 1)},
    {"a name behind the end", "abc", 3, {4, 1, 0, 0}, 16, REFUSAL(18, 0)},
    {"a name far behind", "abc", 3, {0xFFFFFFFF, 0xFFFFFFFF, 0, 0}, 16, REFUSAL(18, 0)},
    {"a first sum of 255", "abc", 3, {0, 1, 0, 255}, 16, REFUSAL(18, 0)},
    {"a second sum of 255", "abc", 3, {0, 1, 0, 255 * 256}, 16, REFUSAL(18, 0)},
    {"sums over 65,535", "abc", 3, {0, 1, 0, 65536}, 16, REFUSAL(18, 0)},
    {"a name twice", "aba", 3, {0, 1, 0, 0, 1, 1, 0, 0, 2, 1, 5, 5}, 48, REFUSAL(18, 2)},
    {"a part of an entry", "abc", 3, {0, 1, 0, 0, 1, 1, 0, 0}, 31, REFUSAL(18, 1)},
    {"one byte of an entry", "", 0, {0}, 1, REFUSAL(18, 0)},
    {"a byte 31 in the second name", " ~\x1F", 3, {0, 2, 0, 0, 1, 2, 0, 0}, 32, REFUSAL(24, 1)},
    {"a byte 255 for a name", "\xFF", 1, {0, 1, 0, 0}, 16, REFUSAL(24, 0)},
    {"a byte 127 and a part of an entry", "\x7F", 1, {0, 1, 0, 0, 0}, 17, REFUSAL(18, 1)},
    {"a byte 127 before a bad entry", "\x7F", 1, {0, 1, 0, 0, 0, 0, 0, 0}, 32, REFUSAL(18, 1)},
    {"a bad entry before a part", "abc", 3, {0, 1, 0, 0, 0, 1, 0, 0, 9}, 33, REFUSAL(18, 1)},
};

static size_t row_of(const uint32_t *numbers, size_t bytes, uint8_t *row) {
    for (size_t i = 0; i < bytes; i++) {
        row[i] = (uint8_t)(numbers[i / 4] >> 8 * (i % 4));
    }
    return bytes;
}

/* One call with so much room; what is written reads back to the same entries. */
static void try_write(const struct write_case *this, size_t size, size_t room, enum where where) {
    uint8_t row[64], back[64];
    size_t bytes = row_of(this->numbers, this->bytes, row);
    uint64_t right = this->refusal != 0 ? this->refusal : room < size ? REFUSAL(15, size) : size;
    const uint8_t *names = arena_hold(&names_arena, this->names, this->names_length, where);
    const uint8_t *entries = arena_hold(&entries_arena, row, bytes, where);
    uint8_t *out = arena_lend(&out_arena, room, where);
    trying("tds_slip_write of %s into %zu bytes (%d)", this->what, room, where);
    judge_answer(tds_slip_write(this->names_length == 0 ? NULL : names, this->names_length,
                                bytes == 0 ? NULL : entries, bytes, room == 0 ? NULL : out, room),
                 right);
    expect(arena_alive(&out_arena, out, TDS_REFUSED(right) ? 0 : size), "something was changed");
    if (TDS_REFUSED(right)) {
        return;
    }
    judge_answer(tds_slip_read(out, size, back, sizeof back), bytes / 16);
    for (size_t i = 0; i < bytes / 16; i++) {
        const uint32_t *numbers = this->numbers + 4 * i;
        expect(tds_get_entry(back, i, TDS_ENTRY_NAME_LENGTH) == numbers[1] &&
                   memcmp(out + tds_get_entry(back, i, TDS_ENTRY_NAME), this->names + numbers[0],
                          numbers[1]) == 0,
               "name %zu reads back differently", i);
        expect(tds_get_entry(back, i, TDS_ENTRY_LENGTH) == numbers[2] &&
                   tds_get_entry(back, i, TDS_ENTRY_SUMS) == numbers[3],
               "length or sums %zu read back differently", i);
    }
}

static void try_write_cases(void) {
    EACH(i, write_cases) {
        const struct write_case *this = &write_cases[i];
        size_t size = 7;
        for (size_t k = 0; k < this->bytes / 16; k++) {
            size += 7 + this->numbers[4 * k + 1] % 256;
        }
        for (int where = AT_START; where < WHERES; where++) {
            const size_t rooms[] = {0, 6, size - 1, size, size + 1, size + 100};
            EACH(k, rooms) {
                try_write(this, size, rooms[k], (enum where)where);
            }
        }
    }
}

/* 1,000 entries with longest names that differ in their last bytes alone; 1,001; one repeated. */
static void try_many(void) {
    enum { MANY = TDS_MOST_ENTRIES + 1, LONG = TDS_LONGEST_NAME, ENTRY = 7 + LONG };
    static uint8_t names[MANY * LONG], row[MANY * TDS_ENTRY_BYTES], out[TDS_LONGEST_SLIP];
    memset(names, 'n', sizeof names);
    for (uint32_t i = 0; i < MANY; i++) {
        const uint32_t numbers[] = {i * LONG, LONG, i, 0};
        names[i * LONG + LONG - 2] = (uint8_t)(' ' + i / 64);
        names[i * LONG + LONG - 1] = (uint8_t)('>' + i % 64);
        row_of(numbers, TDS_ENTRY_BYTES, row + i * TDS_ENTRY_BYTES);
    }
    trying("1,000 entries");
    judge_answer(tds_slip_write(names, sizeof names, row, sizeof row - 16, out, sizeof out),
                 TDS_LONGEST_SLIP);
    judge_answer(tds_slip_read(out, sizeof out, row, 16 * 999), REFUSAL(15, 1000));
    try_again(out, sizeof out, 1000);
    trying("1,001 entries");
    judge_answer(tds_slip_write(names, sizeof names, row, sizeof row, NULL, 0), REFUSAL(18, 1000));
    judge_answer(tds_slip_write(names, sizeof names, row, sizeof row - 1, NULL, 0),
                 REFUSAL(18, 1000));
    trying("1,001 entries, of which number 5 is bad");
    row[5 * 16 + 14] = 1;
    judge_answer(tds_slip_write(names, sizeof names, row, sizeof row, NULL, 0), REFUSAL(18, 5));
    row[5 * 16 + 14] = 0;
    trying("the last of 1,000 names repeats the first");
    memcpy(names + 999 * LONG, names, LONG);
    judge_answer(tds_slip_write(names, sizeof names, row, sizeof row - 16, out, sizeof out),
                 REFUSAL(18, 999));
    memcpy(out + 7 + 999 * ENTRY + 1, out + 7 + 1, LONG);
    judge_answer(tds_slip_read(out, sizeof out, row, sizeof row), REFUSAL(18, 7 + 999 * ENTRY));
}

/* Names of 63, 64 and 255 bytes, which the layout allows and the label does not. */
static void try_long_names(void) {
    static const uint32_t lengths[] = {63, 64, 255};
    static uint8_t names[256], row[32], out[512], back[32];
    memset(names, 'n', sizeof names);
    EACH(i, lengths) {
        const uint32_t numbers[] = {0, 1, 0, 0, 1, lengths[i], 0, 0};
        size_t size = 7 + 8 + 7 + lengths[i];
        bool fits = lengths[i] <= TDS_LONGEST_NAME;
        row_of(numbers, sizeof row, row);
        trying("a slip with a name of %lu bytes", (unsigned long)lengths[i]);
        judge_answer(tds_slip_write(names, sizeof names, row, sizeof row, out, sizeof out),
                     fits ? size : REFUSAL(24, 1));
        judge_answer(tds_slip_write(names, sizeof names, row, sizeof row, NULL, 0),
                     fits ? REFUSAL(15, size) : REFUSAL(24, 1));
        memcpy(out, (const uint8_t[]){1, 0, 0, 0, 0, 0, 2, 1, 'm', 0, 0, 0, 0, 0, 0}, 15);
        out[3] = (uint8_t)((size - 5) / 256);
        out[4] = (uint8_t)(size - 5);
        out[15] = (uint8_t)lengths[i];
        memset(out + 16, 'n', lengths[i]);
        memset(out + 16 + lengths[i], 0, 6);
        judge_answer(tds_slip_read(out, size, back, sizeof back), fits ? 2 : REFUSAL(24, 15));
        judge_answer(tds_slip_read(out, size, NULL, 0), fits ? REFUSAL(15, 2) : REFUSAL(24, 15));
    }
}

void try_slips(void) {
    slip_arena = arena_make(4096);
    names_arena = arena_make(4096);
    entries_arena = arena_make(4096);
    out_arena = arena_make(4096);
    try_sums();
    try_long_sums();
    try_damage();
    try_slip_cases();
    try_turned();
    try_write_cases();
    try_many();
    try_long_names();
}
