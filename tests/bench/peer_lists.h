// Edit lists of the peer (docs/LISTS.md): a day as a list, and a list into a day.

// An event's line up to its source places, and a note with its title, where it has one.
struct line {
    uint64_t number, reel;
    const char *kind;
    uint32_t kind_length, mix, first, frames, pos;
};

static void put_event(const struct request *r, const struct line *it, const char *note)
{
    char *to = say(count(space(512), it->number, 3, '0'), it->number < 1000 ? "  " : " ");
    to = say(put(to, unpacked(&it->reel), 8), " V     ");
    to = say(put(to, (struct piece){(char *)it->kind, it->kind_length}, 4), " ");
    to = *it->kind == 'C' ? say(to, "    ") : say(count(to, it->mix, 3, '0'), " ");
    to = say(label(to, r->rate, it->first % r->rate->day), " ");
    to = say(label(to, r->rate, (it->first + it->frames) % r->rate->day), " ");
    to = say(place(to, r, it->pos), " ");
    to = say(place(to, r, it->pos + it->frames), "\n");
    if (it->reel != BL && it->reel != BARS) {
        struct source *from = source_of(r, it->reel);
        to = say(put(say(to, note), (struct piece){from->title, from->title_length}, 0), "\n");
    }
    end(to);
}

static int export_list(struct request *r)
{
    struct line before = {.reel = BL}, now = {0};
    int code;
    if (!begun(r))
        return 404;
    if ((code = day_of(r, false, 0)))
        return code;
    char *to = count(say(space(128), "TITLE: CH "), r->channel, 3, '0');
    to = count(say(to, " DAY "), r->day, 5, '0');
    end(say(to, r->rate->drop ? "\nFCM: DROP FRAME\n\n" : "\nFCM: NON-DROP FRAME\n\n"));
    for (sqlite3_stmt *it = ASK(ITEMS, r->channel, r->day); row(it); before = now) {
        struct piece kind = bytes(it, 6);
        now = (struct line){now.number + 1, packed(bytes(it, 5)), kind.at, (uint32_t)kind.length,
                            whole(it, 4), whole(it, 3), whole(it, 2), whole(it, 1)};
        if (now.frames == r->rate->day) {
            sqlite3_reset(it);
            return 89;
        }
        if (*now.kind != 'C') {
            bool joins = now.number > 1 && before.pos + before.frames == now.pos;
            struct line cut = {now.number, BL, "C", 1, 0, 0, 0, now.pos};
            cut.reel = joins ? before.reel : BL;
            cut.first = joins ? before.first + before.frames : 0;
            put_event(r, &cut, "* FROM CLIP NAME: ");
        }
        put_event(r, &now, *now.kind == 'C' ? "* FROM CLIP NAME: " : "* TO CLIP NAME: ");
    }
    out.is_table = true;
    return 200;
}

struct event {
    uint32_t line, mix, source, source_length, record, record_length;
    struct piece reel;
    char kind[5];
    bool picture, key, is_speed;
};
static struct event *events;
static size_t event_count, event_room;

static int list_fault(int code, uint32_t line, int cause)
{
    char *to = count(out.where, line, 0, ' ');
    if (cause)
        to = count(say(to, " "), (uint64_t)cause, 0, ' ');
    *to = 0;
    return code;
}

// The fields of an event's line, of which eleven are kept at most.
static int fields_of(struct piece line, struct piece *fields)
{
    int found = 0;
    char *at = line.at, *end = line.at + line.length;
    for (; at < end && found < 11; found++) {
        fields[found].at = at;
        while (at < end && *at != ' ' && *at != '\t')
            at++;
        fields[found].length = (size_t)(at - fields[found].at);
        while (at < end && (*at == ' ' || *at == '\t'))
            at++;
    }
    return found;
}

// The kind of an event, by its word and how many stand between it and the labels.
static bool read_kind(const struct piece *fields, int between, struct event *it)
{
    uint64_t wipe = 0, mix = 0;
    struct piece word = fields[3];
    it->kind[0] = *word.at;
    it->key = *word.at == 'K';
    if (it->key || is(word, "C"))
        return it->key || !between;
    if (between != 1 || !read_number(fields[4], 3, &mix))
        return false;
    it->mix = (uint32_t)mix;
    if (is(word, "D"))
        return true;
    if (*word.at != 'W' || !read_number((struct piece){word.at + 1, word.length - 1}, 3, &wipe))
        return false;
    *count(say(it->kind, "W"), wipe, 3, '0') = 0;
    return true;
}

// Reads an event's line, or says its first fault.
static int read_event(const struct request *r, struct piece line, uint32_t number, struct event *it)
{
    struct piece fields[11] = {{NULL, 0}};
    uint32_t place[4], day = r->rate->day;
    uint64_t of_event;
    int code, found = fields_of(line, fields);
    *it = (struct event){.line = number, .reel = fields[1]};
    if (found < 8 || found > 10)
        return list_fault(22, number, 0);
    if (!read_number(fields[0], 6, &of_event) || of_event > 9999)
        return list_fault(23, number, 0);
    if (!read_kind(fields, found - 8, it))
        return list_fault(24, number, 0);
    for (int i = 0; i < 4; i++)
        if ((code = read_label(fields[found - 4 + i], r->rate, &place[i])))
            return list_fault(25, number, code);
    if (place[1] < place[0] && place[1])
        return list_fault(27, number, 0);
    it->source = place[0];
    it->source_length = (place[1] < place[0] ? day : place[1]) - place[0];
    it->record = place[2];
    it->record_length = (place[3] + day - place[2]) % day;
    it->picture = is(fields[2], "B") || memchr(fields[2].at, 'V', fields[2].length);
    return 0;
}

// What the last event becomes, once all its notes are read.
static int end_event(const struct request *r, bool noted)
{
    struct event *it = event_count ? &events[event_count - 1] : NULL;
    if (!it || it->source_length == it->record_length)
        return 0;
    it->is_speed = noted;
    if (noted)
        return 0;
    if (!r->ignore)
        return list_fault(28, it->line, 0);
    it->record_length = it->source_length;
    return 0;
}

// Whether a line is the frame mode of another rate.
static bool is_other_mode(const struct request *r, struct piece line)
{
    if (line.length < 4 || memcmp(line.at, "FCM:", 4))
        return false;
    struct piece mode = trimmed((struct piece){line.at + 4, line.length - 4});
    return r->rate->drop ? is(mode, "NON-DROP FRAME") || is(mode, "NON DROP FRAME") : is(mode, "DROP FRAME");
}

// Reads a list's events, or says its first fault. Its texts aren't looked at but for their bytes of ASCII.
static int read_list(const struct request *r)
{
    char *at = r->body.at, *end = at + r->body.length;
    bool noted = false;
    uint32_t number = 0, counted = 0;
    int code;
    if (r->body.length >= 3 && !memcmp(at, "\xef\xbb\xbf", 3))
        at += 3;
    for (event_count = 0; at < end;) {
        char *feed = memchr(at, '\n', (size_t)(end - at));
        struct piece line = trimmed((struct piece){at, (size_t)((feed ? feed : end) - at)});
        at = feed ? feed + 1 : end;
        number++;
        if (line.length && is_digit(*line.at)) {
            if ((code = end_event(r, noted)))
                return code;
            noted = false;
            if (event_count == event_room)
                events = grown(events, (event_room = 2 * event_room + 64) * sizeof *events);
            if ((code = read_event(r, line, number, &events[event_count])))
                return code;
            struct event *it = &events[event_count++];
            counted += it->source_length || it->record_length;
            if (counted > ITEMS_MOST)
                return list_fault(30, number, 0);
        } else {
            noted |= line.length >= 2 && !memcmp(line.at, "M2", 2) && (line.length == 2 || isblank(line.at[2]));
            if (is_other_mode(r, line))
                return (code = end_event(r, noted)) ? code : list_fault(26, number, 0);
        }
    }
    return end_event(r, noted);
}

// The frames of a day that are taken, a bit each.
static uint64_t frames_taken[DAY_MOST / 64 + 1];

// The first frame from one to before another that is taken, or the other.
static uint32_t first_taken(uint32_t from, uint32_t to)
{
    for (uint32_t at = from; at < to; at = (at / 64 + 1) * 64) {
        uint64_t bits = frames_taken[at / 64] >> at % 64;
        if (bits) {
            at += (uint32_t)__builtin_ctzll(bits);
            return at < to ? at : to;
        }
    }
    return to;
}

static void take(uint32_t from, uint32_t to)
{
    for (uint32_t at = from; at < to;) {
        uint32_t next = (at / 64 + 1) * 64 < to ? (at / 64 + 1) * 64 : to;
        frames_taken[at / 64] |= (next - at == 64 ? UINT64_MAX : (UINT64_C(1) << (next - at)) - 1) << at % 64;
        at = next;
    }
}

// The numbers that a day's items have, and their frames.
static bool numbers_taken[ITEMS_MOST + 2];

static void take_items(const struct request *r)
{
    memset(frames_taken, 0, sizeof frames_taken);
    memset(numbers_taken, 0, sizeof numbers_taken);
    for (sqlite3_stmt *it = ASK(TAKEN, r->channel, r->day); row(it);) {
        numbers_taken[whole(it, 0)] = true;
        take(whole(it, 1), whole(it, 1) + whole(it, 2));
    }
}

// Tests an event's item, and takes its number and its frames.
static int take_event(const struct request *r, const struct event *event, struct item *it, uint32_t *n)
{
    if (event->key || event->is_speed)
        return list_fault(event->key ? 85 : 84, event->line, 0);
    uint32_t pos = place_of(r, event->record);
    *it = (struct item){0, pos, event->record_length, event->source, event->mix, reel_of(event->reel), ""};
    strcpy(it->kind, event->kind);
    int code = test_item(r, it);
    if (code)
        return list_fault(code, event->line, 0);
    uint32_t taken = first_taken(it->pos, it->pos + it->frames);
    if (taken < it->pos + it->frames)
        return refused_at(r, 75, taken);
    while (numbers_taken[*n])
        ++*n;
    if (*n > ITEMS_MOST)
        return list_fault(83, event->line, 0);
    numbers_taken[it->n = *n] = true;
    take(it->pos, it->pos + it->frames);
    return 0;
}

static int import(struct request *r)
{
    static struct item items[ITEMS_MOST + 1];
    uint32_t all = 0, skipped = 0, n = 1;
    int code;
    if (!begun(r))
        return 404;
    if ((code = day_of(r, false, 73)) || (code = read_list(r)))
        return code;
    take_items(r);
    for (size_t i = 0; i < event_count; i++) {
        const struct event *it = &events[i];
        if (!it->picture || (!it->record_length && !it->is_speed))
            skipped++;
        else if ((code = take_event(r, it, &items[all], &n)))
            return code;
        else
            all++;
    }
    for (uint32_t i = 0; i < all; i++)
        insert_item(r, &items[i]);
    return told("items", all, "skipped", skipped);
}

static int import_strict(struct request *r)
{
    return import(r);
}

static int import_ignore(struct request *r)
{
    r->ignore = true;
    return import(r);
}
