/* Calls each call of temolunai.h with arbitrary arguments: fuzz CALLS SEED.
 *
 * What is passed ends where memory ends: behind it lies a page that nobody may touch. Before it lie bytes that must stay.
 * With a fault an output must stay too. Lengths that no memory has are passed where the call has no use for them. The last
 * line counts the calls, and those of them that answered a fault. */
#include <stdio.h>
#include <stdlib.h>
#include <string.h>
#include <sys/mman.h>
#include <temolunai.h>

enum { PAGE = 4096, PAGES = 20, MOST = PAGE * PAGES, BEFORE = 64, CANARY = 0xa5 };

static uint64_t state;

static uint32_t random32(void) {
    state = state * UINT64_C(6364136223846793005) + UINT64_C(1442695040888963407);
    return (uint32_t)(state >> 33) ^ (uint32_t)(state >> 60);
}

static uint32_t below(uint32_t count) { return random32() % count; }

static void fail(const char *what) {
    printf("fuzz: failed: %s\n", what);
    exit(1);
}

/* Memory that ends where a page that nobody may touch begins. */
struct memory {
    uint8_t *end;
    uint8_t *at;
    size_t size;
    uint8_t *copy;
};

static struct memory memory_of(void) {
    uint8_t *base = mmap(NULL, MOST + PAGE, PROT_READ | PROT_WRITE, MAP_PRIVATE | MAP_ANONYMOUS, -1, 0);
    if (base == MAP_FAILED || mprotect(base + MOST, PAGE, PROT_NONE) != 0) fail("mmap");
    return (struct memory){base + MOST, NULL, 0, malloc(MOST)};
}

/* The last `size` bytes of it, aligned down, filled as `fill` says; a null pointer for none, every other time. */
static void take(struct memory *it, size_t size, size_t align) {
    size = size > MOST - BEFORE - 8 ? MOST - BEFORE - 8 : size;
    it->size = size - size % align;
    it->at = it->end - it->size;
    memset(it->at - BEFORE, CANARY, BEFORE);
    for (size_t i = 0; i < it->size; i++) it->at[i] = (uint8_t)random32();
    memcpy(it->copy, it->at, it->size);
}

static void *at(const struct memory *it) { return it->size == 0 && below(2) ? NULL : it->at; }

static void check(const struct memory *it, bool kept, const char *what) {
    for (int i = 1; i <= BEFORE; i++)
        if (it->at[-i] != CANARY) fail(what);
    if (kept && memcmp(it->at, it->copy, it->size) != 0) fail(what);
}

static const uint32_t rates[] = {24, 25, 30, 29, 24, 25, 30, 29, 0, 26, 0xffffffff};
static const char *const labels[] = {"00:00:00:00", "23:59:59:24", "00:01:00;02", "00:01:00;00", "12:34:56:23", "24:00:00:00"};
static const char *const lines[] = {
    "TITLE: NIGHT\n", "FCM: NON-DROP FRAME\n", "FCM: DROP FRAME\r\n", "\n", "* FROM CLIP NAME: NEWS\n", "M2 BL 025.0 00:00:00:00\n",
    "001  C0000001 V     C        00:00:00:00 00:00:05:00 06:00:00:00 06:00:05:00\n",
    "002  C0000002 A     D    025 00:00:00:00 00:00:05:00 06:00:05:00 06:00:10:00\n",
    "003  BL       B     W001 010 01:00:00:00 01:00:01:00 23:59:59:00 00:00:00:00\n",
    "0004 BARS AA/V K B 010 00:00:00:00 00:00:05:00 06:00:00:00 06:00:05:01\n", "\xc3\xa4 \xff\n",
};
static const char umid[] = "060a2b340101010501010d211300000700112233445566778899aabbccddeeff";

static uint32_t rate(void) { return rates[below(sizeof rates / sizeof *rates)]; }

static uint32_t number(void) {
    switch (below(4)) {
    case 0: return random32();
    case 1: return below(2700000);
    case 2: return 0xffffffff - below(3);
    default: return below(100);
    }
}

static struct temolunai_range range(void) { return (struct temolunai_range){number(), number()}; }

/* A list that mostly is one. */
static size_t list_into(struct memory *it) {
    static char text[MOST];
    size_t size = 0;
    for (uint32_t count = below(200); count > 0; count--) {
        const char *line = lines[below(sizeof lines / sizeof *lines - (below(8) ? 1 : 0))];
        size_t length = strlen(line);
        if (size + length > MOST / 2) break;
        memcpy(text + size, line, length);
        size += length;
    }
    if (below(3) == 0)
        for (uint32_t count = below(4); count > 0 && size > 0; count--) text[below((uint32_t)size)] = (char)random32();
    if (below(5) == 0 && size > 0) size = below((uint32_t)size);
    take(it, size, 1);
    memcpy(it->at, text, size);
    return size;
}

static struct memory in, out, more, third, fourth;

static uint32_t call_labels(uint32_t which) {
    uint32_t fault = 0, given = rate();
    take(&in, 11 + (below(4) ? 0 : below(5)), 1);
    if (below(8)) memcpy(in.at, labels[below(6)], in.size < 11 ? in.size : 11);
    switch (which) {
    case 0: return temolunai_rate_from_text(at(&in), in.size) != 0;
    case 1: return temolunai_day_frames(given) == 0;
    case 2: return temolunai_nominal_frames_per_second(given) == 0;
    case 3: return temolunai_is_drop_frame(given);
    case 4: return temolunai_from_timecode(at(&in), below(16) ? in.size : SIZE_MAX - below(9), given).fault;
    case 5: return temolunai_label_frame((uint8_t)random32(), (uint8_t)below(70), (uint8_t)below(70), (uint8_t)below(33), given).fault;
    case 6: return temolunai_label(number(), given).fault;
    case 7:
        take(&out, below(16), 1);
        fault = temolunai_to_timecode(number(), given, at(&out), out.size);
        check(&out, fault != 0, "to_timecode");
        return fault;
    case 8:
        take(&in, 11 * below(50) + (below(9) ? 0 : below(11)), 1);
        for (size_t i = 0; i + 11 <= in.size; i += 11) memcpy(in.at + i, labels[below(6)], 11);
        take(&out, sizeof(struct temolunai_reading) * below(60), sizeof(struct temolunai_reading));
        fault = temolunai_from_timecodes(at(&in), below(16) ? in.size : SIZE_MAX / 11 * 11, given, at(&out), out.size / 8);
        check(&out, fault != 0, "from_timecodes");
        return fault;
    default:
        take(&in, 4 * below(50), 4);
        for (size_t i = 0; i + 4 <= in.size; i += 4) {
            uint32_t frame = below(50) ? below(2073600) : number();
            memcpy(in.at + i, &frame, 4);
        }
        take(&out, below(2) ? 11 * in.size / 4 : below(600), 1);
        fault = temolunai_to_timecodes(at(&in), below(16) ? in.size / 4 : SIZE_MAX / 4, given, at(&out), out.size);
        check(&out, fault != 0, "to_timecodes");
        return fault;
    }
}

static uint32_t call_ranges(uint32_t which) {
    struct temolunai_range one = range(), other = range();
    switch (which) {
    case 0: return temolunai_range_from_start_end_time(number(), number()).fault;
    case 1: return temolunai_extended_by(one, other).fault;
    case 2: return temolunai_end_time_exclusive(one) > UINT32_MAX;
    case 3: return temolunai_end_time_inclusive(one) > UINT32_MAX;
    case 4: return temolunai_contains(one, number());
    case 5: return temolunai_contains_range(one, other);
    case 6: return temolunai_intersects(one, other);
    case 7: return temolunai_overlaps(one, other);
    case 8: return temolunai_meets(one, other);
    case 9: return temolunai_before(one, other);
    case 10: return temolunai_clamped(one, number()) == 0;
    default: return temolunai_common_part(one, other).duration == 0;
    }
}

static uint32_t call_umids(uint32_t which) {
    uint32_t fault = 0;
    take(&in, below(3) ? 32 : below(70), 1);
    for (size_t i = 0; i < in.size && i < 32 && below(200); i++) {
        char digits[3] = {umid[2 * i], umid[2 * i + 1], 0};
        in.at[i] = (uint8_t)strtoul(digits, NULL, 16);
    }
    take(&out, below(2) ? 64 : below(70), 1);
    size_t length = below(16) || in.size == 64 ? in.size : SIZE_MAX - below(9);
    switch (which) {
    case 0: return temolunai_umid_fault(at(&in), length);
    case 1: return temolunai_umid_parts(at(&in), length).fault;
    case 2: fault = temolunai_umid_material_number(at(&in), length, at(&out), out.size); break;
    case 3:
        take(&in, below(4) ? 64 : below(140), 1);
        for (size_t i = 0; i < in.size && below(400); i++) in.at[i] = (uint8_t)umid[i % 64];
        fault = temolunai_umid_from_hex(at(&in), in.size, at(&out), out.size);
        break;
    case 4: fault = temolunai_umid_to_hex(at(&in), length, at(&out), out.size); break;
    default: fault = temolunai_umid_with_instance(at(&in), length, below(4) ? below(1 << 24) : number(), at(&out), out.size); break;
    }
    check(&out, fault != 0, "a UMID");
    return fault;
}

/* Reads a list into room that it mostly has, and gives what was read. */
static struct temolunai_list read_list(uint32_t given) {
    size_t size = list_into(&in);
    bool ignore = below(2);
    struct temolunai_list list = temolunai_list_read(at(&in), size, given, ignore, NULL, 0, NULL, 0, NULL, 0);
    size_t less = below(4) ? 0 : 1;
    take(&out, sizeof(struct temolunai_event) * (list.events - (list.events > less ? less : 0)), sizeof(struct temolunai_event));
    take(&more, sizeof(struct temolunai_place) * list.texts, sizeof(struct temolunai_place));
    take(&third, list.bytes, 1);
    list = temolunai_list_read(at(&in), size, given, ignore, at(&out), out.size / sizeof(struct temolunai_event), at(&more),
                               more.size / sizeof(struct temolunai_place), at(&third), third.size);
    check(&out, list.fault != 0, "the events of a list");
    check(&more, list.fault != 0, "the places of a list");
    check(&third, list.fault != 0, "the bytes of a list");
    if (list.fault == 0)
        for (size_t i = 0; i < list.texts; i++) {
            const struct temolunai_place *place = (const struct temolunai_place *)more.at + i;
            if (place->at > list.bytes || place->length > list.bytes - place->at) fail("a place beyond the bytes");
        }
    return list;
}

static uint32_t call_lists(uint32_t which) {
    uint32_t given = rate();
    if (which == 0 && below(16) == 0)
        return temolunai_list_read(in.at, SIZE_MAX / 2 - below(9), given, false, NULL, 0, NULL, 0, NULL, 0).fault;
    struct temolunai_list list = read_list(given);
    if (which == 0) return list.fault;
    struct temolunai_event *events = (struct temolunai_event *)out.at;
    struct temolunai_place *places = (struct temolunai_place *)more.at;
    size_t events_count = out.size / sizeof *events, places_count = more.size / sizeof *places;
    if (below(3) == 0 && events_count > 0) ((uint8_t *)events)[below((uint32_t)out.size)] = (uint8_t)random32();
    if (below(3) == 0 && places_count > 0) ((uint8_t *)places)[below((uint32_t)more.size)] = (uint8_t)random32();
    take(&fourth, below(2) ? MOST / 2 : below(2000), 1);
    take(&in, below(60), 1);
    if (below(8)) memset(in.at, 'T', in.size);
    struct temolunai_written written = temolunai_list_write(at(&in), in.size, given, events, events_count, places, places_count,
                                                            at(&third), third.size, at(&fourth), fourth.size);
    check(&fourth, written.fault != 0, "a written list");
    if (written.fault == 0 && written.bytes > fourth.size) fail("more bytes than room");
    return written.fault;
}

int main(int count, char **words) {
    if (count != 3) return 2;
    uint64_t calls = strtoull(words[1], NULL, 10), done = 0, faults = 0;
    state = strtoull(words[2], NULL, 10);
    in = memory_of(), out = memory_of(), more = memory_of(), third = memory_of(), fourth = memory_of();
    for (; done < calls; done++) {
        uint32_t which = below(30), fault;
        if (which < 10) fault = call_labels(which);
        else if (which < 22) fault = call_ranges(which - 10);
        else if (which < 28) fault = call_umids(which - 22);
        else fault = call_lists(which - 28);
        faults += fault != 0;
    }
    free(in.copy), free(out.copy), free(more.copy), free(third.copy), free(fourth.copy);
    printf("fuzz: %llu calls, %llu of them answered a fault or yes\n", (unsigned long long)done, (unsigned long long)faults);
    return 0;
}
