// What was aired, for the peer: batches that come in, and the match.

struct aired {
    uint32_t pos, frames, first;
    uint64_t reel;
};
static struct aired *aired;
static size_t aired_count, aired_room;

static struct aired *more_aired(void)
{
    if (aired_count == aired_room)
        aired = grown(aired, (aired_room = 2 * aired_room + 1024) * sizeof *aired);
    return &aired[aired_count++];
}

// A field of a record, without its quotes, and what is behind it.
static char *read_field(char *at, const char *end, struct piece *field)
{
    char *to = at;
    field->at = at;
    if (at < end && *at == '"') {
        for (at++; at < end && (*at != '"' || (at + 1 < end && at[1] == '"')); at++) {
            at += *at == '"';
            *to++ = *at;
        }
        at += at < end;
    }
    if (to == at) {
        while (at < end && *at != ',' && *at != '\n' && *at != '\r')
            at++;
        to = at;
    }
    while (at < end && *at != ',' && *at != '\n' && *at != '\r')
        *to++ = *at++;
    field->length = (size_t)(to - field->at);
    return at;
}

static int read_row(const struct request *r, const struct piece *fields, struct aired *it)
{
    uint32_t frame;
    uint64_t frames;
    if (read_label(fields[0], r->rate, &frame) || !read_number(fields[1], 7, &frames) || !frames)
        return 91;
    if (!is_word(fields[2]) || read_label(fields[3], r->rate, &it->first))
        return 91;
    it->frames = (uint32_t)frames;
    it->pos = place_of(r, frame);
    it->reel = is(fields[2], "BLACK") ? BL : packed(fields[2]);
    if (it->reel == BL || it->reel == BARS)
        it->first = 0;
    if (it->first + it->frames > r->rate->day)
        return 91;
    return it->pos + it->frames > r->rate->day ? 86 : 0;
}

// Reads the rows of a batch, or says the first one's fault.
static int read_batch(const struct request *r)
{
    char *at = r->body.at, *end = at + r->body.length;
    uint32_t record = 0;
    if (r->body.length >= 3 && !memcmp(at, "\xef\xbb\xbf", 3))
        at += 3;
    for (aired_count = 0; at < end;) {
        struct piece fields[5];
        int found = 0;
        if (*at == '\n' || *at == '\r') {
            at++;
            continue;
        }
        for (at = read_field(at, end, &fields[found++]); at < end && *at == ','; found += found < 5)
            at = read_field(at + 1, end, &fields[found < 5 ? found : 4]);
        record++;
        int code = found == 4 ? read_row(r, fields, more_aired()) : 91;
        if (code)
            return list_fault(code, record, 0);
    }
    return 0;
}

static struct aired aired_in(sqlite3_stmt *it)
{
    return (struct aired){whole(it, 0), whole(it, 1), whole(it, 2), packed(bytes(it, 3))};
}

// Whether the day's batch has just these rows.
static bool is_batch(const struct request *r)
{
    size_t same = 0, rows = 0;
    for (sqlite3_stmt *it = ASK(LINES, r->channel, r->day, r->n); row(it); rows++) {
        struct aired was = aired_in(it);
        same += rows < aired_count && was.pos == aired[rows].pos && was.frames == aired[rows].frames &&
                was.first == aired[rows].first && was.reel == aired[rows].reel;
    }
    return same == rows && rows == aired_count;
}

// The first frame that is aired twice, or the day's length.
static uint32_t aired_twice(const struct request *r)
{
    memset(frames_taken, 0, sizeof frames_taken);
    for (sqlite3_stmt *it = ASK(AIRED, r->channel, r->day); row(it);)
        take(whole(it, 0), whole(it, 0) + whole(it, 1));
    for (size_t i = 0; i < aired_count; i++) {
        uint32_t behind = aired[i].pos + aired[i].frames, taken = first_taken(aired[i].pos, behind);
        if (taken < behind)
            return taken;
        take(aired[i].pos, behind);
    }
    return r->rate->day;
}

static void insert_batch(const struct request *r)
{
    run(ASK(ADD_BATCH, r->channel, r->day, r->n));
    for (size_t i = 0; i < aired_count; i++) {
        const struct aired *it = &aired[i];
        struct piece reel = unpacked(&it->reel);
        sqlite3_int64 line = (sqlite3_int64)i + 1;
        sqlite3_stmt *to = ASK(ADD_LINE, r->channel, r->day, r->n, line, it->pos, it->frames, it->first);
        sqlite3_bind_text(to, 8, reel.at, (int)reel.length, SQLITE_STATIC);
        run(to);
    }
}

static int take_batch(struct request *r)
{
    sqlite3_int64 batches = 0;
    uint64_t frames = 0;
    int code;
    if (!begun(r))
        return 404;
    if ((code = day_of(r, true, 74)) || (code = read_batch(r)))
        return code;
    found(ASK(BATCHES, r->channel, r->day), &batches);
    if (r->n > batches) {
        if (r->n > BATCHES_MOST || r->n != batches + 1)
            return r->n > BATCHES_MOST ? 95 : 94;
        uint32_t twice = aired_twice(r);
        if (twice < r->rate->day)
            return refused_at(r, 92, twice);
        insert_batch(r);
    } else if (!is_batch(r))
        return 93;
    for (size_t i = 0; i < aired_count; i++)
        frames += aired[i].frames;
    return told("batch", r->n, "frames", frames);
}

static int by_place(const void *a, const void *b)
{
    uint32_t left = ((const struct aired *)a)->pos, right = ((const struct aired *)b)->pos;
    return (left > right) - (left < right);
}

enum status { OK, SLIP, WRONG, MISSED };
static const char *const STATUS[] = {"OK", "SLIP", "WRONG", "MISSED"};
static struct {
    enum status status;
    uint32_t pos, frames, all[4];
} stretch;

static void end_stretch(const struct request *r)
{
    if (!stretch.frames)
        return;
    char *to = say(place(space(64), r, stretch.pos), " ");
    to = say(count(to, stretch.frames, 0, ' '), " ");
    end(say(say(to, STATUS[stretch.status]), "\n"));
    stretch.all[stretch.status] += stretch.frames;
}

static void match_frames(const struct request *r, enum status status, uint32_t from, uint32_t to)
{
    if (!stretch.frames || stretch.status != status) {
        end_stretch(r);
        stretch.status = status;
        stretch.pos = from;
        stretch.frames = 0;
    }
    stretch.frames += to - from;
}

// Matches an item with the rows, by place, from one on; answers the first one that goes on behind it.
static size_t match_item(const struct request *r, struct aired item, size_t i)
{
    uint32_t at = item.pos, behind = item.pos + item.frames;
    while (at < behind) {
        while (i < aired_count && aired[i].pos + aired[i].frames <= at)
            i++;
        const struct aired *it = &aired[i];
        uint32_t next = i == aired_count || it->pos >= behind ? behind : it->pos;
        enum status status = MISSED;
        if (next <= at) {
            next = it->pos + it->frames < behind ? it->pos + it->frames : behind;
            bool in_place = item.reel == BL || item.reel == BARS || it->first - it->pos == item.first - item.pos;
            status = it->reel != item.reel ? WRONG : in_place ? OK : SLIP;
        }
        match_frames(r, status, at, next);
        at = next;
    }
    return i;
}

static int match(struct request *r)
{
    size_t i = 0;
    int code;
    if (!begun(r))
        return 404;
    if ((code = day_of(r, true, 74)))
        return code;
    aired_count = 0;
    for (sqlite3_stmt *it = ASK(AIRED, r->channel, r->day); row(it);)
        *more_aired() = aired_in(it);
    if (aired_count)
        qsort(aired, aired_count, sizeof *aired, by_place);
    memset(&stretch, 0, sizeof stretch);
    for (sqlite3_stmt *it = ASK(ITEMS, r->channel, r->day); row(it);)
        i = match_item(r, (struct aired){whole(it, 1), whole(it, 2), whole(it, 3), packed(bytes(it, 5))}, i);
    end_stretch(r);
    char *to = space(128);
    for (int status = OK; status <= MISSED; status++)
        to = say(count(say(say(to, STATUS[status]), " "), stretch.all[status], 0, ' '), status == MISSED ? "\n" : " ");
    end(to);
    out.is_table = true;
    return 200;
}
