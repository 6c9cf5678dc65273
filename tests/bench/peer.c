// A server of a centre's messages in C over libsqlite3, beside which `.ci/bench peer` measures the office. It was
// written from docs/FORMATS.md, docs/LISTS.md and docs/SCHEMA.md: messages on standard input, answers on standard
// output, over a file of tables that is there. It does what is measured; any other route is 404 NotFound here.
//
// A request asks in one transaction what the office's command asks, by texts that are prepared once. Of a tape that is
// its channel, the last tape, the barcode's and the slot's; of an item its day, its neighbours, its source, and the
// smallest number that is free. Tables, lists and matches are walks of an index. A change is committed in the same
// transaction, with one sync of the log. Nothing of the file is kept between requests but SQLite's own pages, and which
// numbers of a day are known to be taken. A fault of memory or of SQLite ends the server.
#define _GNU_SOURCE
#include <ctype.h>
#include <sqlite3.h>
#include <stdbool.h>
#include <stdint.h>
#include <stdio.h>
#include <stdlib.h>
#include <string.h>
#include <unistd.h>

#include "peer_texts.h"
#include "peer_rows.h"

// Begins what is asked of a channel, where it is in the plan.
static bool begun(struct request *r)
{
    run(asked(BEGIN, 0, NULL));
    sqlite3_stmt *it = ASK(PLAN, r->channel);
    if (!row(it))
        return false;
    r->rate = rate_of(bytes(it, 0));
    r->start = whole(it, 1);
    r->slots = whole(it, 2);
    sqlite3_reset(it);
    return true;
}

static bool is_barcode(struct piece it)
{
    uint64_t number;
    bool reserved = is(it, "BL") || is(it, "BLACK") || is(it, "BARS") || is(it, "AX");
    return is_word(it) && !is_clip(it, &number) && !reserved;
}

static int add_tape(struct request *r)
{
    struct piece barcode;
    uint32_t slot;
    sqlite3_int64 last = 0, n;
    if (!READ(r->body, {.name = "barcode", .text = &barcode}, {.name = "slot", .number = &slot, .most = UINT32_MAX}))
        return 400;
    if (!begun(r))
        return 404;
    found(ASK(LAST_TAPE, r->channel), &last);
    sqlite3_stmt *it = ASK(OF_BARCODE, r->channel);
    sqlite3_bind_text(it, 2, barcode.at, (int)barcode.length, SQLITE_STATIC);
    bool known = found(it, &n), taken = found(ASK(IN_SLOT, r->channel, slot), &n);
    if (!is_barcode(barcode))
        return 44;
    if (!slot || slot > r->slots)
        return 41;
    if (known || taken)
        return known ? 43 : 42;
    if (last == ITEMS_MOST)
        return 48;
    it = ASK(ADD_TAPE, r->channel, last + 1, slot);
    sqlite3_bind_text(it, 4, barcode.at, (int)barcode.length, SQLITE_STATIC);
    run(it);
    return told("tape", (uint64_t)last + 1, NULL, 0);
}

// Each table has lines, and one behind them.
static int table_of_tapes(struct request *r)
{
    uint64_t all = 0, shelved = 0;
    if (!begun(r))
        return 404;
    for (sqlite3_stmt *it = ASK(TAPES, r->channel); row(it); all++) {
        char *to = count(space(64), whole(it, 0), 4, ' ');
        *to++ = ' ';
        to = put(to, bytes(it, 1), 8);
        bool is_out = sqlite3_column_type(it, 2) == SQLITE_NULL;
        to = is_out ? say(to, "  out") : count(say(to, " "), whole(it, 2), 4, ' ');
        shelved += !is_out;
        *to++ = '\n';
        end(to);
    }
    char *to = count(say(count(say(space(128), "TAPES "), all, 0, ' '), " SHELVED "), shelved, 0, ' ');
    end(say(count(say(to, " SLOTS "), r->slots, 0, ' '), "\n"));
    out.is_table = true;
    return 200;
}

static char *umid_of(char *to, struct piece it)
{
    for (size_t i = 0; i < it.length; i++) {
        *to++ = "0123456789abcdef"[(unsigned char)it.at[i] >> 4];
        *to++ = "0123456789abcdef"[it.at[i] & 15];
    }
    *to++ = ' ';
    return to;
}

static void last_line(const char *name, uint64_t all)
{
    end(say(count(say(say(space(128), name), " "), all, 0, ' '), "\n"));
    out.is_table = true;
}

static int table_of_clips(struct request *r)
{
    uint64_t all = 0;
    if (!begun(r))
        return 404;
    for (sqlite3_stmt *it = ASK(CLIPS, r->channel); row(it); all++) {
        char *to = count(say(space(256), "C"), whole(it, 0), 7, '0');
        to = label(say(to, whole(it, 1) ? " retired " : " active  "), r->rate, whole(it, 2));
        *to++ = ' ';
        to = count(to, whole(it, 3), 7, ' ');
        *to++ = ' ';
        to = count(to, whole(it, 4), 4, ' ');
        *to++ = ' ';
        to = put(umid_of(to, bytes(it, 5)), bytes(it, 6), 0);
        *to++ = '\n';
        end(to);
    }
    last_line("CLIPS", all);
    return 200;
}

static int table_of_offers(struct request *r)
{
    uint64_t all = 0;
    if (!begun(r))
        return 404;
    for (sqlite3_stmt *it = ASK(OFFERS, r->channel); row(it); all++) {
        char *to = count(space(128), whole(it, 0), 4, '0');
        to = count(say(to, " C"), whole(it, 1), 7, '0');
        *to++ = ' ';
        to = count(to, whole(it, 2), 3, '0');
        to = say(to, whole(it, 3) ? " withdrawn" : " open");
        if (sqlite3_column_type(it, 4) != SQLITE_NULL)
            to = window(say(to, " "), whole(it, 4), whole(it, 5));
        *to++ = '\n';
        end(to);
    }
    last_line("OFFERS", all);
    return 200;
}

static int table_of_lent(struct request *r)
{
    uint64_t all = 0;
    if (!begun(r))
        return 404;
    for (sqlite3_stmt *it = ASK(LENT, r->channel); row(it); all++) {
        const struct rate *rate = rate_of(bytes(it, 5));
        char *to = count(count(say(space(256), "L"), whole(it, 0), 3, '0'), whole(it, 1), 4, '0');
        to = say(to, whole(it, 2) ? " withdrawn " : " open      ");
        if (sqlite3_column_type(it, 3) != SQLITE_NULL)
            to = say(window(to, whole(it, 3), whole(it, 4)), " ");
        to = label(say(say(to, rate->name), " "), rate, whole(it, 6));
        *to++ = ' ';
        to = count(to, whole(it, 7), 7, ' ');
        *to++ = ' ';
        to = put(umid_of(to, bytes(it, 8)), bytes(it, 9), 0);
        *to++ = '\n';
        end(to);
    }
    last_line("LENT", all);
    return 200;
}

static int table_of_days(struct request *r)
{
    uint64_t all = 0;
    sqlite3_int64 batches = 0;
    if (!begun(r))
        return 404;
    for (sqlite3_stmt *it = ASK(DAYS, r->channel); row(it); all++) {
        uint32_t day = whole(it, 0);
        sqlite3_stmt *items = ASK(TOLD, r->channel, day);
        row(items);
        found(ASK(BATCHES, r->channel, day), &batches);
        char *to = say(count(space(64), day, 5, ' '), whole(it, 1) ? " SEALED " : " OPEN   ");
        to = say(count(to, whole(items, 0), 4, ' '), " ");
        to = say(count(to, whole(items, 1), 7, ' '), " ");
        end(say(count(to, (uint64_t)batches, 2, ' '), "\n"));
        sqlite3_reset(items);
    }
    last_line("DAYS", all);
    return 200;
}

// Days and their items.

// What a source names. A clip is asked for once in a request.
struct source {
    uint64_t reel, request;
    bool there, gone;
    uint32_t first, frames, first_day, last_day, title_length;
    const struct rate *rate;
    char title[64];
};
enum { KNOWN = 1 << 15 };
static struct source known[KNOWN];
static uint64_t requests;

static void ask_source(const struct request *r, struct source *source)
{
    uint64_t number = 0;
    struct piece reel = unpacked(&source->reel);
    bool own = *reel.at == 'C';
    is_clip(reel, &number);
    sqlite3_stmt *it = own ? ASK(CLIP, r->channel, (sqlite3_int64)number)
                           : ASK(GRANT, (sqlite3_int64)number / 10000, (sqlite3_int64)number % 10000, r->channel);
    source->there = row(it);
    if (!source->there)
        return;
    struct piece title = bytes(it, 3);
    source->gone = whole(it, 0);
    source->first = whole(it, 1);
    source->frames = whole(it, 2);
    source->title_length = (uint32_t)title.length;
    memcpy(source->title, title.at, title.length);
    source->rate = own ? r->rate : rate_of(bytes(it, 4));
    source->first_day = own ? 0 : whole(it, 5);
    source->last_day = own || sqlite3_column_type(it, 6) == SQLITE_NULL ? UINT32_MAX : whole(it, 6);
    sqlite3_reset(it);
}

static struct source *source_of(const struct request *r, uint64_t reel)
{
    size_t at = (reel * 0x9e3779b97f4a7c15u) >> 49;
    while (known[at].request == requests && known[at].reel != reel)
        at = (at + 1) % KNOWN;
    struct source *it = &known[at];
    if (it->request != requests) {
        it->request = requests;
        it->reel = reel;
        ask_source(r, it);
    }
    return it;
}

// The day, where it is there; or 71, or another code where it is sealed, or isn't.
static int day_of(struct request *r, bool sealed, int other)
{
    sqlite3_int64 is_sealed;
    if (!found(ASK(DAY, r->channel, r->day), &is_sealed))
        return 71;
    r->sealed = is_sealed;
    return other && r->sealed != sealed ? other : 0;
}

static int refused_at(const struct request *r, int code, uint32_t pos)
{
    *place(out.where, r, pos) = 0;
    return code;
}

// The tests of an item up to 80.
static int test_item(const struct request *r, struct item *it)
{
    if (!it->frames)
        return 87;
    if (it->frames > r->rate->day || it->pos + it->frames > r->rate->day)
        return 86;
    if (it->reel == BL || it->reel == BARS) {
        it->first = 0;
        return it->mix > it->frames ? 80 : 0;
    }
    struct source *from = it->reel ? source_of(r, it->reel) : NULL;
    if (!from || !from->there)
        return 77;
    if (from->gone)
        return (it->reel & 255) == 'C' ? 55 : 66;
    if (r->day < from->first_day || r->day > from->last_day)
        return 88;
    if (from->rate != r->rate)
        return 78;
    if (it->first < from->first || it->first + it->frames > from->first + from->frames)
        return 79;
    return it->mix > it->frames ? 80 : 0;
}

// The first of the item's frames that another one has, or the frame behind it.
static uint32_t overlap(const struct request *r, const struct item *it)
{
    sqlite3_int64 pos;
    sqlite3_stmt *before = ASK(BEFORE, r->channel, r->day, it->pos);
    uint32_t behind = it->pos + it->frames, ends = 0;
    if (row(before)) {
        ends = whole(before, 0) + whole(before, 1);
        sqlite3_reset(before);
    }
    bool next = found(ASK(BEHIND, r->channel, r->day, it->pos), &pos);
    if (ends > it->pos)
        return it->pos;
    return next && pos < behind ? (uint32_t)pos : behind;
}

// Of days, the number up to which all are taken: no command here takes an item out.
static struct {
    uint32_t channel, day, taken;
} numbered[1 << 10];

// The smallest number that no item of the day has.
static uint32_t free_number(const struct request *r)
{
    size_t at = (1000 * r->day + r->channel) % (sizeof numbered / sizeof *numbered);
    if (numbered[at].channel != r->channel || numbered[at].day != r->day) {
        numbered[at].channel = r->channel;
        numbered[at].day = r->day;
        numbered[at].taken = 0;
    }
    sqlite3_stmt *it = ASK(NUMBERS, r->channel, r->day, numbered[at].taken);
    while (row(it) && whole(it, 0) == numbered[at].taken + 1)
        numbered[at].taken++;
    sqlite3_reset(it);
    return numbered[at].taken + 1;
}

static void insert_item(const struct request *r, const struct item *it)
{
    struct piece reel = unpacked(&it->reel);
    sqlite3_stmt *to = ASK(ADD_ITEM, r->channel, r->day, it->n, it->pos, it->frames, it->first, it->mix);
    sqlite3_bind_text(to, 8, reel.at, (int)reel.length, SQLITE_STATIC);
    sqlite3_bind_text(to, 9, it->kind, -1, SQLITE_STATIC);
    run(to);
}

static int add_item(struct request *r)
{
    struct piece at, in, source;
    struct item it = {.kind = "C"};
    uint32_t frame;
    int code;
    if (!READ(r->body, {.name = "at", .text = &at}, {.name = "frames", .number = &it.frames, .most = UINT32_MAX},
              {.name = "in", .text = &in}, {.name = "mix", .number = &it.mix, .most = 999},
              {.name = "source", .text = &source}))
        return 400;
    if (!begun(r))
        return 404;
    if ((code = read_label(at, r->rate, &frame)) || (code = read_label(in, r->rate, &it.first)))
        return code;
    it.pos = place_of(r, frame);
    it.reel = reel_of(source);
    it.kind[0] = it.mix ? 'D' : 'C';
    if ((code = day_of(r, false, 73)) || (code = test_item(r, &it)))
        return code;
    uint32_t taken = overlap(r, &it);
    if (taken < it.pos + it.frames)
        return refused_at(r, 75, taken);
    it.n = free_number(r);
    if (it.n > ITEMS_MOST)
        return 83;
    insert_item(r, &it);
    return told("item", it.n, NULL, 0);
}

static int open_day(struct request *r)
{
    if (!READ(r->body, {.name = "day", .number = &r->day, .least = 1, .most = 99999}))
        return 400;
    if (!begun(r))
        return 404;
    if (!day_of(r, false, 0))
        return 72;
    run(ASK(OPEN, r->channel, r->day));
    return told("day", r->day, NULL, 0);
}

static int seal(struct request *r)
{
    uint32_t behind = 0, gap = UINT32_MAX, recalled = 0;
    int code;
    if (!begun(r))
        return 404;
    if ((code = day_of(r, false, 73)))
        return code;
    for (sqlite3_stmt *it = ASK(ITEMS, r->channel, r->day); row(it);) {
        struct piece reel = bytes(it, 5);
        if (*reel.at == 'L' && !recalled && source_of(r, packed(reel))->gone)
            recalled = whole(it, 0);
        if (whole(it, 1) != behind && gap == UINT32_MAX)
            gap = behind;
        behind = whole(it, 1) + whole(it, 2);
    }
    if (recalled) {
        *count(out.where, recalled, 0, ' ') = 0;
        return 81;
    }
    gap = gap == UINT32_MAX ? behind : gap;
    if (gap < r->rate->day)
        return refused_at(r, 76, gap);
    run(ASK(SEAL, r->channel, r->day));
    return told("day", r->day, NULL, 0);
}

static int plan_table(struct request *r)
{
    uint64_t all = 0, frames = 0;
    int code;
    if (!begun(r))
        return 404;
    if ((code = day_of(r, false, 0)))
        return code;
    end(say(count(say(space(64), "DAY "), r->day, 0, ' '), r->sealed ? " SEALED\n" : " OPEN\n"));
    for (sqlite3_stmt *it = ASK(ITEMS, r->channel, r->day); row(it); all++) {
        char *to = say(count(space(128), whole(it, 0), 4, ' '), " ");
        to = say(place(to, r, whole(it, 1)), " ");
        frames += whole(it, 2);
        to = say(count(to, whole(it, 2), 7, ' '), " ");
        to = say(put(to, bytes(it, 6), 4), " ");
        to = say(count(to, whole(it, 4), 3, '0'), " ");
        to = say(put(to, bytes(it, 5), 8), " ");
        end(say(label(to, r->rate, whole(it, 3)), "\n"));
    }
    char *to = say(count(say(space(128), "ITEMS "), all, 0, ' '), " FRAMES ");
    end(say(count(say(count(to, frames, 0, ' '), " OF "), r->rate->day, 0, ' '), "\n"));
    out.is_table = true;
    return 200;
}

#include "peer_lists.h"
#include "peer_aired.h"

// Messages.

// By the pieces of its path behind the channel; `#` is the day's number, `%` another one.
static const struct route {
    const char *method, *path[6];
    int (*answer)(struct request *);
} ROUTES[] = {
    {"POST", {"tapes"}, add_tape},
    {"GET", {"tapes"}, table_of_tapes},
    {"GET", {"clips"}, table_of_clips},
    {"GET", {"offers"}, table_of_offers},
    {"GET", {"lent"}, table_of_lent},
    {"GET", {"days"}, table_of_days},
    {"POST", {"days"}, open_day},
    {"GET", {"days", "#"}, plan_table},
    {"GET", {"days", "#", "match"}, match},
    {"GET", {"days", "#", "list"}, export_list},
    {"POST", {"days", "#", "items"}, add_item},
    {"POST", {"days", "#", "import", "strict"}, import_strict},
    {"POST", {"days", "#", "import", "ignore"}, import_ignore},
    {"POST", {"days", "#", "seal"}, seal},
    {"POST", {"days", "#", "asrun", "%"}, take_batch},
};

static const char *const NAMES[] = {
    [1] = "LabelForm", [2] = "LabelRange", [3] = "DropMark", [4] = "DroppedLabel", [22] = "FieldCount",
    [23] = "EventNumber", [24] = "EditKind", [25] = "BadLabel", [26] = "FrameMode", [27] = "SourceBackwards",
    [28] = "DurationMismatch", [30] = "TooManyEvents", [41] = "BadSlot", [42] = "SlotTaken", [43] = "BarcodeKnown",
    [44] = "BarcodeForm", [48] = "VaultFull", [55] = "ClipRetired", [66] = "Withdrawn", [71] = "NoDay",
    [72] = "DayKnown", [73] = "DaySealed",
    [74] = "NotSealed", [75] = "Overlap", [76] = "Gap", [77] = "NoSource", [78] = "RateDiffers", [79] = "SourceRange",
    [80] = "MixLong", [81] = "Recalled", [83] = "DayFull", [84] = "SpeedEvent", [85] = "KeyEvent",
    [86] = "PastDayEnd", [87] = "EmptyItem", [88] = "OutsideWindow", [89] = "WholeDay", [91] = "RowForm",
    [92] = "AiredTwice", [93] = "BatchDiffers", [94] = "BatchOrder", [95] = "BatchesFull", [400] = "BadMessage",
    [404] = "NotFound", [413] = "TooLarge", [501] = "NotImplemented"};

static bool path_number(struct piece it, uint32_t *n)
{
    uint64_t number;
    if (!read_number(it, 5, &number) || *it.at == '0')
        return false;
    *n = (uint32_t)number;
    return true;
}

static bool is_path(const char *const *path, const struct piece *pieces, int count, struct request *r)
{
    for (int i = 0; i < count; i++) {
        const char *word = path[i];
        if (!word)
            return false;
        uint32_t *number = *word == '#' ? &r->day : *word == '%' ? &r->n : NULL;
        if (number ? !path_number(pieces[i], number) : !is(pieces[i], word))
            return false;
    }
    return !path[count];
}

static int routed(struct piece method, struct piece path, struct request *r)
{
    struct piece pieces[7];
    int count = 0;
    for (char *at = path.at, *end = path.at + path.length; at < end && *at == '/' && count < 7; count++) {
        char *next = memchr(at + 1, '/', (size_t)(end - at - 1));
        pieces[count] = (struct piece){at + 1, (size_t)((next ? next : end) - at - 1)};
        at = next ? next : end;
    }
    if (count < 3 || !is(pieces[0], "ch") || !path_number(pieces[1], &r->channel) || r->channel > 999)
        return 404;
    for (size_t i = 0; i < sizeof ROUTES / sizeof *ROUTES; i++)
        if (is(method, ROUTES[i].method) && is_path(ROUTES[i].path, pieces + 2, count - 2, r))
            return ROUTES[i].answer(r);
    return 404;
}

// Does a message whose head and body are whole.
static int answered(struct piece method, struct piece path, struct piece body)
{
    struct request r = {.body = body};
    requests++;
    out.length = HEAD_ROOM;
    out.is_table = false;
    *out.where = 0;
    if (!is(method, "GET") && !is(method, "POST"))
        return 501;
    int code = routed(method, path, &r);
    if (!sqlite3_get_autocommit(db))
        run(asked(COMMIT, 0, NULL));
    return code;
}

// Writes an answer, its head in the room in front of its body.
static void write_answer(int code)
{
    static const char *const PHRASES[] = {"200 OK", "400 Bad Request", "404 Not Found", "409 Conflict",
                                          "413 Payload Too Large", "501 Not Implemented"};
    int phrase = code == 200 ? 0 : code == 400 ? 1 : code == 404 ? 2 : code == 413 ? 4 : code == 501 ? 5 : 3;
    char head[HEAD_ROOM];
    if (code != 200) {
        out.length = HEAD_ROOM;
        char *to = say(space(128), "{");
        if (*out.where)
            to = say(say(say(to, "\"at\":\""), out.where), "\",");
        end(say(say(say(count(say(to, "\"code\":"), (uint64_t)code, 0, ' '), ",\"refused\":\""), NAMES[code]), "\"}"));
    }
    char *to = say(say(say(head, "HTTP/1.1 "), PHRASES[phrase]), "\r\nContent-Length: ");
    to = say(count(to, out.length - HEAD_ROOM, 0, ' '), "\r\nContent-Type: ");
    to = say(to, code == 200 && out.is_table ? "text/plain\r\n\r\n" : "application/json\r\n\r\n");
    size_t length = (size_t)(to - head);
    char *at = out.at + HEAD_ROOM - length, *behind = out.at + out.length;
    memcpy(at, head, length);
    while (at < behind) {
        ssize_t wrote = write(1, at, (size_t)(behind - at));
        if (wrote <= 0)
            fail("write");
        at += wrote;
    }
}

// A head: what it asks, and how long its body is. Answers 0, or why it is none.
static int read_head(struct piece head, struct piece *method, struct piece *path, size_t *body)
{
    char *end = head.at + head.length, *line = memchr(head.at, '\r', head.length);
    char *blank = memchr(head.at, ' ', head.length);
    bool coded = false, sized = false;
    int fields = 0;
    uint64_t n = 0;
    if (!blank || blank > line)
        return 400;
    *method = (struct piece){head.at, (size_t)(blank - head.at)};
    *path = (struct piece){blank + 1, (size_t)(line - blank - 1)};
    if (path->length < 10 || (memcmp(line - 9, " HTTP/1.1", 9) && memcmp(line - 9, " HTTP/1.0", 9)))
        return 400;
    path->length -= 9;
    for (line += 2; line < end - 2; fields++) {
        char *next = memmem(line, (size_t)(end - line), "\r\n", 2), *colon = memchr(line, ':', (size_t)(next - line));
        if (!colon || fields == FIELDS_MOST)
            return 400;
        struct piece name = {line, (size_t)(colon - line)};
        struct piece value = trimmed((struct piece){colon + 1, (size_t)(next - colon - 1)});
        if (name.length == 14 && !strncasecmp(name.at, "Content-Length", 14)) {
            if (sized || !read_number(value, 18, &n))
                return 400;
            sized = true;
        }
        coded |= name.length == 17 && !strncasecmp(name.at, "Transfer-Encoding", 17);
        line = next + 2;
    }
    *body = n;
    return coded ? 501 : n > BODY_MOST ? 413 : 0;
}

// Answers the whole messages of the input, and says how many bytes they had; or ends behind one that ends the stream.
static size_t answer_all(char *input, size_t length)
{
    size_t at = 0, body = 0;
    while (at < length) {
        size_t room = length - at;
        char *ends = memmem(input + at, room < HEAD_MOST ? room : HEAD_MOST, "\r\n\r\n", 4);
        struct piece head = {input + at, ends ? (size_t)(ends + 4 - input) - at : 0}, method, path;
        int code = ends ? read_head(head, &method, &path, &body) : room < HEAD_MOST ? 0 : 400;
        if (code) {
            out.length = HEAD_ROOM;
            *out.where = 0;
            write_answer(code);
            exit(0);
        }
        if (!ends || room < head.length + body)
            break;
        write_answer(answered(method, path, (struct piece){ends + 4, body}));
        at += head.length + body;
    }
    return at;
}

static void open_tables(const char *file)
{
    // There is room for all pages of the file; the log and its syncs are those of the office.
    if (sqlite3_open_v2(file, &db, SQLITE_OPEN_READWRITE | SQLITE_OPEN_NOMUTEX, NULL) != SQLITE_OK ||
        sqlite3_exec(db, "PRAGMA locking_mode = EXCLUSIVE; PRAGMA journal_mode = WAL; PRAGMA synchronous = FULL; "
                         "PRAGMA cache_size = -1000000; SELECT version FROM office", NULL, NULL, NULL) != SQLITE_OK)
        fail(sqlite3_errmsg(db));
}

int main(int count, char **words)
{
    size_t length = 0, room = 1 << 16;
    char *input = grown(NULL, room);
    if (count != 2)
        fail("usage: peer FILE");
    open_tables(words[1]);
    space(HEAD_ROOM);
    for (ssize_t got; (got = read(0, input + length, room - length)) > 0;) {
        length += (size_t)got;
        size_t done = answer_all(input, length);
        memmove(input, input + done, length -= done);
        if (length == room)
            input = grown(input, room *= 2);
    }
    // As behind the office, what was done last stays in the log.
    return 0;
}
