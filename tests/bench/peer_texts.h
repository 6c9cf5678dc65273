// Texts of the peer: labels, numbers and reels, as they are written and read; the answer that is written next; and the
// members of a body of JSON.

enum { HEAD_MOST = 8192, FIELDS_MOST = 32, BODY_MOST = 1000000 };
enum { ITEMS_MOST = 9999, BATCHES_MOST = 64, DAY_MOST = 2592000 };

struct piece {
    char *at;
    size_t length;
};

struct rate {
    char name[3];
    bool drop;
    uint32_t base, day;
};

struct request {
    uint32_t channel, day, n, start, slots;
    const struct rate *rate;
    struct piece body;
    bool sealed, ignore;
};

struct item {
    uint32_t n, pos, frames, first, mix;
    uint64_t reel;
    char kind[5];
};

static const struct rate RATES[] = {
    {"24", false, 24, 2073600}, {"25", false, 25, 2160000}, {"30", false, 30, 2592000}, {"df", true, 30, 2589408}};

static void fail(const char *what)
{
    fprintf(stderr, "peer: %s\n", what);
    exit(1);
}

static void *grown(void *at, size_t bytes)
{
    at = realloc(at, bytes);
    if (!at)
        fail("memory");
    return at;
}

// What is written.

enum { HEAD_ROOM = 128 };
static struct {
    char *at;
    size_t length, room;
    bool is_table;
    char where[16];
} out;

// Room for so many bytes behind the answer's body.
static char *space(size_t more)
{
    if (out.length + more > out.room)
        out.at = grown(out.at, out.room = 2 * (out.length + more));
    return out.at + out.length;
}

static void end(const char *behind)
{
    out.length = (size_t)(behind - out.at);
}

static char *put(char *to, struct piece it, size_t width)
{
    memcpy(to, it.at, it.length);
    if (it.length < width)
        memset(to + it.length, ' ', width - it.length);
    return to + (it.length < width ? width : it.length);
}

static struct piece words(const char *it)
{
    return (struct piece){(char *)it, strlen(it)};
}

static char *say(char *to, const char *it)
{
    return put(to, words(it), 0);
}

// A number, right-aligned in so many places.
static char *count(char *to, uint64_t n, int width, char blank)
{
    char digits[20];
    int last = 20;
    do
        digits[--last] = (char)('0' + n % 10);
    while (n /= 10);
    for (; 20 - last < width; width--)
        *to++ = blank;
    memcpy(to, digits + last, (size_t)(20 - last));
    return to + 20 - last;
}

static char *two(char *to, uint32_t n)
{
    to[0] = (char)('0' + n / 10);
    to[1] = (char)('0' + n % 10);
    return to + 2;
}

static char *label(char *to, const struct rate *rate, uint32_t frame)
{
    if (rate->drop) {
        uint32_t rest = frame % 17982;
        frame += 18 * (frame / 17982) + (rest < 2 ? 0 : 2 * ((rest - 2) / 1798));
    }
    uint32_t seconds = frame / rate->base;
    to = two(to, seconds / 3600);
    *to++ = ':';
    to = two(to, seconds / 60 % 60);
    *to++ = ':';
    to = two(to, seconds % 60);
    *to++ = rate->drop ? ';' : ':';
    return two(to, frame % rate->base);
}

// The label of a place of the broadcast day.
static char *place(char *to, const struct request *r, uint32_t pos)
{
    return label(to, r->rate, (r->start + pos) % r->rate->day);
}

static char *window(char *to, uint32_t first, uint32_t last)
{
    to = count(to, first, 5, '0');
    *to++ = '-';
    return count(to, last, 5, '0');
}

// An object of one or two counts.
static int told(const char *name, uint64_t n, const char *second, uint64_t m)
{
    char *to = count(say(say(say(space(128), "{\""), name), "\":"), n, 0, ' ');
    if (second)
        to = count(say(say(say(to, ",\""), second), "\":"), m, 0, ' ');
    end(say(to, "}"));
    return 200;
}

// What is read.

static bool is_digit(char it)
{
    return it >= '0' && it <= '9';
}

static bool is(struct piece it, const char *word)
{
    return it.length == strlen(word) && !memcmp(it.at, word, it.length);
}

// Without a CR at its end, and the blanks around what is left.
static struct piece trimmed(struct piece it)
{
    if (it.length && it.at[it.length - 1] == '\r')
        it.length--;
    while (it.length && (it.at[it.length - 1] == ' ' || it.at[it.length - 1] == '\t'))
        it.length--;
    while (it.length && (*it.at == ' ' || *it.at == '\t'))
        it.at++, it.length--;
    return it;
}

// The frame of a label, or why it is none.
static int read_label(struct piece it, const struct rate *rate, uint32_t *frame)
{
    uint32_t part[4];
    bool marked = false;
    if (it.length != 11)
        return 1;
    for (int i = 0; i < 4; i++) {
        const char *at = it.at + 3 * i;
        if (!is_digit(at[0]) || !is_digit(at[1]) || (i < 3 && at[2] != ':' && at[2] != ';'))
            return 1;
        part[i] = (uint32_t)(10 * (at[0] - '0') + at[1] - '0');
        marked |= i < 3 && at[2] == ';';
    }
    if (part[0] > 23 || part[1] > 59 || part[2] > 59 || part[3] >= rate->base)
        return 2;
    if (marked && !rate->drop)
        return 3;
    uint32_t minutes = 60 * part[0] + part[1];
    if (rate->drop && part[3] < 2 && !part[2] && minutes % 10)
        return 4;
    *frame = (60 * minutes + part[2]) * rate->base + part[3] - (rate->drop ? 2 * (minutes - minutes / 10) : 0);
    return 0;
}

// The place of a frame in the broadcast day.
static uint32_t place_of(const struct request *r, uint32_t frame)
{
    return (frame + r->rate->day - r->start) % r->rate->day;
}

static const struct rate *rate_of(struct piece name)
{
    for (size_t i = 0; i < sizeof RATES / sizeof *RATES; i++)
        if (is(name, RATES[i].name))
            return &RATES[i];
    fail("rate");
    return NULL;
}

// A number of so many digits at most.
static bool read_number(struct piece it, size_t most, uint64_t *n)
{
    if (!it.length || it.length > most)
        return false;
    for (*n = 0; it.length; it.length--, it.at++) {
        if (!is_digit(*it.at))
            return false;
        *n = 10 * *n + (uint64_t)(*it.at - '0');
    }
    return true;
}

// Up to eight bytes as a number, by which reels are compared.
static uint64_t packed(struct piece it)
{
    uint64_t reel = 0;
    memcpy(&reel, it.at, it.length < 8 ? it.length : 8);
    return reel;
}

static struct piece unpacked(const uint64_t *reel)
{
    return (struct piece){(char *)reel, strnlen((const char *)reel, 8)};
}

#define BL ((uint64_t)'B' | (uint64_t)'L' << 8)
#define BARS (BL - ((uint64_t)'L' << 8) + ((uint64_t)'A' << 8) + ((uint64_t)'R' << 16) + ((uint64_t)'S' << 24))

// Whether it is a reel of a clip, own or lent.
static bool is_clip(struct piece it, uint64_t *number)
{
    return it.length == 8 && (*it.at == 'C' || *it.at == 'L') && read_number((struct piece){it.at + 1, 7}, 7, number);
}

// The reel that a source names, or 0.
static uint64_t reel_of(struct piece it)
{
    uint64_t number;
    if (is(it, "BL") || is(it, "BLACK"))
        return BL;
    return is(it, "BARS") || is_clip(it, &number) ? packed(it) : 0;
}

static bool is_word(struct piece it)
{
    if (!it.length || it.length > 8)
        return false;
    for (size_t i = 0; i < it.length; i++)
        if (!is_digit(it.at[i]) && (it.at[i] < 'A' || it.at[i] > 'Z'))
            return false;
    return true;
}

// A member of an object: a text, or a number up to one.
struct member {
    const char *name;
    struct piece *text;
    uint32_t *number;
    uint64_t least, most;
    bool there;
};

static char *blanks(char *at, const char *end)
{
    while (at < end && (*at == ' ' || *at == '\t' || *at == '\n' || *at == '\r'))
        at++;
    return at;
}

// A text, and what is behind it, or NULL. An escape of one letter is put in its place; one by number becomes a `?`,
// which no text that is asked here may have.
static char *read_text(char *at, const char *end, struct piece *text)
{
    static const char ESCAPES[] = "\"\\/bfnrt", BYTES[] = "\"\\/\b\f\n\r\t";
    if (at == end || *at++ != '"')
        return NULL;
    char *to = at;
    for (text->at = at; at < end && *at != '"'; at++) {
        if ((unsigned char)*at < 32)
            return NULL;
        bool escaped = *at == '\\';
        const char *escape = escaped && ++at < end ? memchr(ESCAPES, *at, sizeof ESCAPES - 1) : NULL;
        if (escaped && !escape && (end - at < 6 || *at != 'u' || strspn(at + 1, "0123456789abcdefABCDEF") < 4))
            return NULL;
        *to++ = !escaped ? *at : escape ? BYTES[escape - ESCAPES] : '?';
        at += escaped && !escape ? 4 : 0;
    }
    text->length = (size_t)(to - text->at);
    return at < end ? at + 1 : NULL;
}

static char *read_value(char *at, const char *end, struct member *member)
{
    struct piece digits = {at, 0};
    uint64_t n;
    member->there = true;
    if (member->text)
        return read_text(at, end, member->text);
    while (at < end && is_digit(*at))
        at++;
    digits.length = (size_t)(at - digits.at);
    if (!read_number(digits, 10, &n) || (digits.length > 1 && *digits.at == '0'))
        return NULL;
    if (n < member->least || n > member->most)
        return NULL;
    *member->number = (uint32_t)n;
    return at;
}

// Whether a body is an object of just these members.
static bool read_object(struct piece body, struct member *members, size_t count)
{
    char *at = body.at, *end = body.at + body.length;
    struct piece name;
    at = blanks(at, end);
    if (at == end || *at++ != '{')
        return false;
    do {
        size_t i = 0;
        at = read_text(blanks(at, end), end, &name);
        at = at ? blanks(at, end) : NULL;
        while (i < count && at && !is(name, members[i].name))
            i++;
        if (!at || i == count || at == end || *at++ != ':')
            return false;
        at = read_value(blanks(at, end), end, &members[i]);
        at = at ? blanks(at, end) : NULL;
    } while (at && at < end && *at++ == ',');
    for (size_t i = 0; i < count; i++)
        if (!members[i].there)
            return false;
    return at && at[-1] == '}' && blanks(at, end) == end;
}
#define READ(body, ...) \
    read_object(body, (struct member[]){__VA_ARGS__}, sizeof((struct member[]){__VA_ARGS__}) / sizeof(struct member))
