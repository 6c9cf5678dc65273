/* Timecode (SMPTE ST 12-1), basic UMIDs (SMPTE ST 330) and edit lists in a profile of CMX 3600.
 *
 * What each call answers is proved of the program that the archive was compiled from (crates/temolunai of the
 * repository); that these declarations fit it is tested. Link with `pkg-config --cflags --libs temolunai`.
 *
 * Bytes are passed as a pointer and how many there are; none are zero-terminated, and a null pointer with length 0 is no
 * bytes. Room for output is a pointer and how many values it has room for. Nothing is written beyond it, and with a fault
 * nothing is written at all. Outputs overlap nothing else that a call is given. No call keeps a pointer, and none has a
 * state: calls may be made from several threads at once. Only the two calls of lists take memory, by malloc. A length
 * that no value of the call has is refused before anything is read; one of which there is no memory can't be told from
 * one of which there is.
 *
 * A frame is a frame of the day, counted from 0. A rate is one of the numbers below. */
#ifndef TEMOLUNAI_H
#define TEMOLUNAI_H

#include <stdbool.h>
#include <stddef.h>
#include <stdint.h>

#ifdef __cplusplus
extern "C" {
#endif

/* Rates: how time addresses are counted. */
enum {
    TEMOLUNAI_24 = 24,
    TEMOLUNAI_25 = 25,
    TEMOLUNAI_30 = 30,
    TEMOLUNAI_DF = 29 /* drop-frame at 30000/1001 */
};

/* Faults. 0 is none. */
enum {
    TEMOLUNAI_DONE = 0,
    TEMOLUNAI_LABEL_FORM = 1,         /* not HH:MM:SS:FF, 11 bytes, with ':' or ';' between */
    TEMOLUNAI_LABEL_RANGE = 2,        /* hours over 23, minutes or seconds over 59, or frames not below the counting rate */
    TEMOLUNAI_DROP_MARK = 3,          /* ';' at a rate that drops no labels */
    TEMOLUNAI_DROPPED_LABEL = 4,      /* a label that drop-frame counting drops */
    TEMOLUNAI_FRAME_RANGE = 5,        /* a frame not below the frames of a day */
    TEMOLUNAI_NO_SUCH_RATE = 6,       /* a number that is no rate */
    TEMOLUNAI_NO_ROOM = 7,            /* an output is too small */
    TEMOLUNAI_NO_RANGE = 8,           /* an end before its start, or a duration of 2^32 frames or more */
    TEMOLUNAI_INSTANCE_RANGE = 9,     /* an instance number of 2^24 or more */
    TEMOLUNAI_TOO_LONG = 10,          /* a list of 2^32 bytes or more */
    TEMOLUNAI_LENGTH = 11,            /* a UMID that hasn't 32 bytes */
    TEMOLUNAI_EXTENDED = 12,          /* an extended UMID, of 64 bytes */
    TEMOLUNAI_NOT_UMID = 13,          /* a byte that is the same in each basic UMID differs */
    TEMOLUNAI_HEX_TEXT = 14,          /* not pairs of hexadecimal digits */
    TEMOLUNAI_NOT_TEXT = 21,          /* a line that isn't UTF-8 */
    TEMOLUNAI_FIELD_COUNT = 22,       /* an event with fewer than 8 fields or more than 10 */
    TEMOLUNAI_EVENT_NUMBER = 23,      /* an event's number isn't one to six digits, or is over 9,999 */
    TEMOLUNAI_EDIT_KIND = 24,         /* the words of an event's kind */
    TEMOLUNAI_BAD_LABEL = 25,         /* a label of an event; its own fault is told beside it */
    TEMOLUNAI_FRAME_MODE = 26,        /* drop-frame at a rate that drops no labels, or the other way round */
    TEMOLUNAI_SOURCE_BACKWARDS = 27,  /* the source ends before it begins */
    TEMOLUNAI_DURATION_MISMATCH = 28, /* source and record differ in length, and no note allows it */
    TEMOLUNAI_TOO_MANY_EVENTS = 30,   /* more than 9,999 events that aren't empty */
    TEMOLUNAI_NOT_WRITABLE = 31,      /* an event that can't be written */
    TEMOLUNAI_NO_TEXT = 32,           /* bytes that aren't UTF-8, or a place beyond the bytes */
    TEMOLUNAI_UNAVAILABLE = 100       /* memory ran out */
};

/* --- Labels and frames (SMPTE ST 12-1) --- */

/* A frame, or the fault why there is none; then `frame` is 0. */
struct temolunai_reading {
    uint32_t fault;
    uint32_t frame;
};

/* A label in its numbers, or the fault why there is none; then they are 0. */
struct temolunai_label_read {
    uint32_t fault;
    uint8_t hours;
    uint8_t minutes;
    uint8_t seconds;
    uint8_t frames;
};

/* The rate that the text "24", "25", "30" or "df" names; 0 for any other text. */
uint32_t temolunai_rate_from_text(const uint8_t *text, size_t text_length);

/* The frames of a day, 24 hours of labels: 2,073,600 at 24, 2,160,000 at 25, 2,592,000 at 30 and 2,589,408 at
 * drop-frame; 0 for a number that is no rate. */
uint32_t temolunai_day_frames(uint32_t rate);

/* How many frames are counted in a second: 24, 25 or 30, and 30 at drop-frame too; 0 for a number that is no rate. */
uint32_t temolunai_nominal_frames_per_second(uint32_t rate);

/* Whether labels are dropped. No frames are. */
bool temolunai_is_drop_frame(uint32_t rate);

/* The frame of a label's text. At drop-frame ':' and ';' are read in all three places, at other rates ':' alone. The
 * fault is the first of 6, 1, 2, 3, 4. */
struct temolunai_reading temolunai_from_timecode(const uint8_t *text, size_t text_length, uint32_t rate);

/* The frame of a label's numbers, or 6, 2 or 4. */
struct temolunai_reading temolunai_label_frame(uint8_t hours, uint8_t minutes, uint8_t seconds, uint8_t frames, uint32_t rate);

/* The label of a frame in its numbers, or 6 or 5. */
struct temolunai_label_read temolunai_label(uint32_t frame, uint32_t rate);

/* Writes the label of a frame, 11 bytes, with ';' before the frames at drop-frame. Gives 0, or 6, 7 or 5. */
uint32_t temolunai_to_timecode(uint32_t frame, uint32_t rate, uint8_t *out, size_t out_room);

/* Reads labels of 11 bytes that stand one behind another: a reading for each. Gives 0, or 6 for the rate, 1 where the
 * bytes are no multiple of 11, or 7 where there is room for fewer readings. */
uint32_t temolunai_from_timecodes(const uint8_t *texts, size_t texts_length, uint32_t rate, struct temolunai_reading *out,
                                  size_t out_room);

/* Writes the labels of frames, 11 bytes each, one behind another. Gives 0, or 6 for the rate, 7, or 5 where one of them is
 * no frame of the day. */
uint32_t temolunai_to_timecodes(const uint32_t *frames, size_t frames_length, uint32_t rate, uint8_t *out, size_t out_room);

/* --- Ranges of frames, by the names of OpenTimelineIO --- */

/* The first frame, and how many; 0 is an empty range. */
struct temolunai_range {
    uint32_t start;
    uint32_t duration;
};

/* A range, or the fault why there is none; then it is empty. */
struct temolunai_range_read {
    uint32_t fault;
    struct temolunai_range range;
};

/* The range from `start` up to `end`, which is exclusive; 8 where the end is before the start. */
struct temolunai_range_read temolunai_range_from_start_end_time(uint32_t start, uint32_t end);

/* The range from the earlier start up to the later end; 8 where its duration has no 32 bits. */
struct temolunai_range_read temolunai_extended_by(struct temolunai_range range, struct temolunai_range other);

/* The frame behind the last one. */
uint64_t temolunai_end_time_exclusive(struct temolunai_range range);

/* The last frame, or the start of a range without frames. */
uint64_t temolunai_end_time_inclusive(struct temolunai_range range);

/* Whether the frame is in the range. */
bool temolunai_contains(struct temolunai_range range, uint32_t frame);

/* Whether the other starts after this one does, and ends before this one does. So no range contains itself. */
bool temolunai_contains_range(struct temolunai_range range, struct temolunai_range other);

/* Whether each starts before the other ends. Ranges that only touch don't. */
bool temolunai_intersects(struct temolunai_range range, struct temolunai_range other);

/* Whether this one starts before the other does, and ends within the other. */
bool temolunai_overlaps(struct temolunai_range range, struct temolunai_range other);

/* Whether the other starts just where this one ends. */
bool temolunai_meets(struct temolunai_range range, struct temolunai_range other);

/* Whether this one ends before the other starts. Ranges that meet don't. */
bool temolunai_before(struct temolunai_range range, struct temolunai_range other);

/* The frame itself where the range has it, or else the first or the last frame of the range, whichever is nearer. A range
 * without frames gives its start. */
uint32_t temolunai_clamped(struct temolunai_range range, uint32_t frame);

/* The frames that both have, from the later start up to the earlier end; empty, at the later start, where there are none. */
struct temolunai_range temolunai_common_part(struct temolunai_range range, struct temolunai_range other);

/* --- Basic UMIDs (SMPTE ST 330): 32 bytes --- */

/* What a UMID says beside its material number, or the fault why it says nothing; then all is 0. */
struct temolunai_umid_read {
    uint32_t fault;
    uint32_t instance;              /* bytes 14 to 16, the most significant first */
    uint8_t version;                /* byte 8 */
    uint8_t material_type;          /* byte 11 */
    uint8_t material_number_method; /* the high four bits of byte 12 */
    uint8_t instance_number_method; /* the low four bits of byte 12 */
};

/* Whether bytes are a basic UMID: 0, or the first of 12, 11, 13. */
uint32_t temolunai_umid_fault(const uint8_t *bytes, size_t bytes_length);

/* The parts of a UMID; 12, 11 or 13 for bytes that are none. */
struct temolunai_umid_read temolunai_umid_parts(const uint8_t *bytes, size_t bytes_length);

/* Writes the material number of a UMID, 16 bytes. Gives 0, or 12, 11, 13 or 7. */
uint32_t temolunai_umid_material_number(const uint8_t *bytes, size_t bytes_length, uint8_t *out, size_t out_room);

/* Writes the 32 bytes of the UMID that 64 hexadecimal digits spell, in either case. Gives 0, or 14, 12, 11, 13 or 7. */
uint32_t temolunai_umid_from_hex(const uint8_t *text, size_t text_length, uint8_t *out, size_t out_room);

/* Writes the 64 hexadecimal digits of a UMID, in lower case. Gives 0, or 12, 11, 13 or 7. */
uint32_t temolunai_umid_to_hex(const uint8_t *bytes, size_t bytes_length, uint8_t *out, size_t out_room);

/* Writes the 32 bytes of a UMID with another instance number, below 2^24. Gives 0, or 9, 12, 11, 13 or 7. */
uint32_t temolunai_umid_with_instance(const uint8_t *bytes, size_t bytes_length, uint32_t number, uint8_t *out, size_t out_room);

/* --- Edit lists: docs/LISTS.md --- */

/* The place of a text among bytes: where it begins, and how many bytes it has. */
struct temolunai_place {
    size_t at;
    size_t length;
};

/* The duration of an event that has none. */
#define TEMOLUNAI_NO_DURATION UINT32_C(0xffffffff)

/* Which text of an event is which: places[event.first_text + TEMOLUNAI_REEL]. Its notes begin at TEMOLUNAI_NOTES. */
enum { TEMOLUNAI_REEL = 0, TEMOLUNAI_CHANNELS = 1, TEMOLUNAI_KIND = 2, TEMOLUNAI_NOTES = 3 };

/* Kinds of edits. */
enum { TEMOLUNAI_CUT = 1, TEMOLUNAI_DISSOLVE = 2, TEMOLUNAI_WIPE = 3, TEMOLUNAI_KEY = 4 };

/* An event. Places are frames of the day. */
struct temolunai_event {
    size_t first_text;     /* which text is its reel; its channels, its kind and its notes follow */
    size_t notes;          /* how many notes it has */
    uint32_t line;         /* counted from 1; not used when a list is written */
    uint32_t number;       /* at most 9,999 */
    uint32_t duration;     /* of a dissolve or a wipe, in frames, or TEMOLUNAI_NO_DURATION */
    uint32_t source_first; /* the first frame of the source */
    uint32_t source_end;   /* the end of the source, exclusive: at most the day's frames */
    uint32_t record_first; /* the first frame of the record */
    uint32_t length;       /* the frames of the record, which may go on past the day's end */
    uint32_t speed;        /* 1 where the source is played at another speed; not used when a list is written */
    uint32_t is_picture;   /* 1 where it is for the picture; not used when a list is written */
    uint32_t edit_type;    /* a kind of edit; not used when a list is written */
    uint32_t pattern;      /* the pattern of a wipe; not used when a list is written */
};

/* What a list has: how many events, texts and bytes of texts; or the fault, the line that has it, counted from 1, and for
 * 25 the label's own fault. */
struct temolunai_list {
    uint32_t fault;
    uint32_t line;
    uint32_t label;
    uint32_t has_title; /* 1 where the first text is the title */
    size_t head_notes;  /* how many notes stand before the first event: the next texts */
    size_t events;
    size_t texts;
    size_t bytes;
};

/* Reads an edit list. With `ignore_timecode_mismatch` an event whose source and record differ in length gets a record as
 * long as its source, unless a note says its speed. The fault is 0, or 6, 10, the list's first fault (21 to 30), 100, or
 * 7, and then `events`, `texts` and `bytes` say how much room is wanted: a first call without room tells it. */
struct temolunai_list temolunai_list_read(const uint8_t *text, size_t text_length, uint32_t rate, bool ignore_timecode_mismatch,
                                          struct temolunai_event *events, size_t events_room, struct temolunai_place *places,
                                          size_t places_room, uint8_t *bytes, size_t bytes_room);

/* What became of a list to be written. */
struct temolunai_written {
    uint32_t fault;
    size_t event; /* with 31: which event, counted from 0 */
    size_t bytes; /* how many bytes were written, or with 7 are wanted */
};

/* Writes an edit list of a title and events, whose texts stand at places among bytes. The fault is 0, or 6, 32, 31, 100
 * or 7. An event can be written where its number is at most 9,999, its duration at most 999 or none, its places lie in
 * the day, and it has its texts. For the list to be read back, texts are ASCII as docs/LISTS.md says. */
struct temolunai_written temolunai_list_write(const uint8_t *title, size_t title_length, uint32_t rate,
                                              const struct temolunai_event *events, size_t events_length,
                                              const struct temolunai_place *places, size_t places_length, const uint8_t *bytes,
                                              size_t bytes_length, uint8_t *out, size_t out_room);

#ifdef __cplusplus
}
#endif

#endif
