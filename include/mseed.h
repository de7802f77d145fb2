/* mseed.h: the auditor, the reader and the packer of mseed, for C and C++.
 *
 * The calls read an archive that lies in memory: miniSEED records (SEED Reference Manual 2.4) one after another. Each
 * call returns a code, writes its results where its caller says, and keeps nothing between calls: so threads may
 * call at once, on the same archive too, as long as each writes to memory of its own. Any bytes may be read: a call
 * returns, and never reads or writes outside of what it was given. What each call does is proved: see "The library for
 * C keeps to its rooms" in docs/promises/command.md of the sources.
 *
 * What the caller has to keep, at every call:
 *
 * - No pointer is NULL, also where its length is 0.
 * - A pointer is aligned for what it points to, and points to as many elements as its length says.
 * - What a call writes to (text, rows, samples, totals, progress, detail, packed, records, selected) overlaps nothing
 *   else that the call is given, and no other thread uses it meanwhile. What it only reads stays as it is meanwhile.
 * - A struct that is passed in is set before, also where the call only writes it: by memset to 0, say.
 * - No call is made from a signal handler, or in a child that a process with threads forked.
 *
 * Memory is requested of malloc by mseed_audit, mseed_audit_each and mseed_part, and given back before they return; the
 * others ask for none. Where malloc refuses, the call returns MSEED_NO_MEMORY and has written nothing.
 *
 * The library is for machines with 64-bit pointers whose bytes are little-endian (x86-64). Link with -lmseed_c, or by
 * pkg-config --cflags --libs mseed.
 */
#ifndef MSEED_H
#define MSEED_H

#include <stddef.h>
#include <stdint.h>

#ifdef __cplusplus
extern "C" {
#endif

/* What a call returns. The texts of mseed_why are those of the program mseed, where it has some. */
enum mseed_code
{
  /* Done. Of an audit: each channel is continuous. */
  MSEED_OK = 0,
  /* Of an audit: done, and some channel is broken. */
  MSEED_BROKEN = 1,
  /* Of an audit: done, and the archive doesn't end where a record ends; some channel may be broken, too. */
  MSEED_FAULT = 2,
  /* malloc refused; nothing was written. */
  MSEED_NO_MEMORY = 3,

  /* Why reading stopped: there is no row left; */
  MSEED_NO_ROW = 4,
  /* there are fewer places for samples than are needed; */
  MSEED_NO_ROOM = 5,
  /* more bytes are needed before it can be known what stands there: at the end of an archive, it is cut off. */
  MSEED_TRUNCATED = 6,

  /* No record begins there, whatever bytes follow: these aren't the first bytes of a data record; */
  MSEED_NOT_DATA = 16,
  /* the year and the day of its start can be read in neither byte order; */
  MSEED_ORDER = 17,
  /* a blockette begins within the header, or less than 4 bytes after the one that names it, or before that one; */
  MSEED_CHAIN = 18,
  /* no blockette 1000 gives the record's length; */
  MSEED_NO_1000 = 19,
  /* the length exponent isn't in 7 to 20: progress->needed, selected->needed or detail->first has it; */
  MSEED_LENGTH = 20,
  /* blockette 1000 lies outside of the record whose length it gives; */
  MSEED_OUTSIDE = 21,
  /* it is miniSEED 3. */
  MSEED_VERSION_3 = 22,

  /* The samples of a record can't be read: it has a blockette 100, whose rate, a float, isn't read, so that its header
   * alone doesn't say its rate; */
  MSEED_BLOCKETTE_100 = 32,
  /* an encoding that isn't read: detail->first has it; */
  MSEED_ENCODING = 33,
  /* Steim frames in little-endian words; */
  MSEED_LITTLE_STEIM = 34,
  /* the data begin within the header or after the record's end; */
  MSEED_DATA_OFFSET = 35,
  /* only so many differences or integers, fewer than the samples; */
  MSEED_SHORT = 36,
  /* a word that means nothing, by its frame, from 0, and its place in the frame, 1 to 15; */
  MSEED_BAD_WORD = 37,
  /* the sample at this index, from 0, is the first that leaves 32 bits; */
  MSEED_OVERFLOW = 38,
  /* the last sample isn't the record's constant for it: found, constant. */
  MSEED_LAST_DIFFERS = 39,

  /* A series can't be packed: it has no samples; */
  MSEED_EMPTY = 48,
  /* it has more than 500,000 samples a second; */
  MSEED_RATE_TOO_HIGH = 49,
  /* some sample's time, rounded to a ten-thousandth of a second, lies in no year from 1900 to 2100; */
  MSEED_TIME_OUT_OF_RANGE = 50,
  /* the sample at an index is the first that the encoding doesn't hold; */
  MSEED_SAMPLE_TOO_LARGE = 51,
  /* the difference of the sample at an index from the one before it is the first that the encoding doesn't hold. */
  MSEED_DIFFERENCE_TOO_LARGE = 52,

  /* A heading is refused: its length isn't 128, 256, 512, 1024, 2048 or 4096; */
  MSEED_BAD_LENGTH = 64,
  /* its encoding isn't 1, 3, 10 or 11; */
  MSEED_BAD_ENCODING = 65,
  /* its sequence number is over 999,999; */
  MSEED_BAD_SEQUENCE = 66,
  /* its factor or its multiplier is 0; */
  MSEED_BAD_RATE = 67,
  /* its start isn't in the years 1800 to 2199; */
  MSEED_BAD_START = 68,
  /* its leap is over 2; or it is 1 or 2, and leap_after isn't 1 to the number of samples. */
  MSEED_BAD_LEAP = 69,

  /* A request for records is refused: an end of the window isn't in the years 1800 to 2199; */
  MSEED_BAD_TIME = 80,
  /* the text isn't patterns of channels; */
  MSEED_BAD_PATTERNS = 81,
  /* the window's end isn't after its beginning. */
  MSEED_BAD_WINDOW = 82
};

/* The encodings that are read and written. */
enum mseed_encoding
{
  MSEED_INT16 = 1,
  MSEED_INT32 = 3,
  MSEED_STEIM1 = 10,
  MSEED_STEIM2 = 11
};

/* The counts of an audit, and the length of its text. */
typedef struct mseed_totals
{
  uint64_t records;  /* the records, those without samples too */
  uint64_t channels; /* the channels with samples */
  uint64_t broken;   /* those of them that are broken */
  uint64_t length;   /* the length of the whole text, in bytes */
} mseed_totals;

/* One record of an archive. */
typedef struct mseed_row
{
  uint64_t offset;    /* where it begins, in bytes from the archive's beginning */
  uint64_t length;    /* its length in bytes */
  uint64_t first;     /* the index of its first sample among all that are read */
  uint64_t samples;   /* the number of its samples, as its header says */
  int64_t start;      /* the time of its first sample in microseconds since 1970-01-01T00:00:00; 0 where time isn't 0 */
  uint32_t num;       /* its rate: num samples .. */
  uint32_t den;       /* .. in den seconds, not reduced; both 0 where it has none */
  uint32_t code;      /* MSEED_OK, also where it has no samples; or why its samples can't be read: then none were */
  int16_t factor;     /* the factor and the multiplier of its rate; both 0 where it has none */
  int16_t multiplier;
  uint8_t encoding;   /* how its samples are encoded */
  uint8_t quality;    /* its quality indicator: 'D', 'R', 'Q' or 'M' */
  uint8_t time;       /* 0, or which field of its start is the first out of its range: 1 year, 2 day, 3 hour, 4 minute,
                       * 5 second, 6 fraction */
  uint8_t leap;       /* its leap seconds: 0 none, 1 one that was inserted, 2 one that was left out, 3 both flags */
  uint8_t key[12];    /* network (2 bytes), station (5), location (2) and channel (3), as they stand in the header */
} mseed_row;

/* How far an archive was read. */
typedef struct mseed_progress
{
  uint64_t rows;   /* the rows that were written */
  uint64_t offset; /* where the next record begins: the archive's size, where all of it was read */
  uint64_t filled; /* the samples of these rows; by mseed_read those that were read */
  uint64_t needed; /* of MSEED_NO_ROOM: the places that the next record needs; of MSEED_TRUNCATED: the bytes, from the
                    * record's beginning; of MSEED_LENGTH: the exponent; else 0 */
} mseed_progress;

/* The numbers of a code of mseed_samples. */
typedef struct mseed_detail
{
  uint64_t first;   /* MSEED_OK: the samples; MSEED_NO_ROOM: the places, and MSEED_TRUNCATED: the bytes that are needed;
                     * MSEED_LENGTH: the exponent; MSEED_ENCODING: the encoding; MSEED_SHORT: how many there are;
                     * MSEED_BAD_WORD: the frame; MSEED_OVERFLOW: the index; else 0 */
  uint64_t second;  /* MSEED_BAD_WORD: the word; else 0 */
  int32_t found;    /* MSEED_LAST_DIFFERS: the last sample; else 0 */
  int32_t constant; /* MSEED_LAST_DIFFERS: the constant; else 0 */
} mseed_detail;

/* What a series has besides its samples, and how it is packed. */
typedef struct mseed_heading
{
  int64_t start;       /* the time of the first sample in microseconds since 1970-01-01T00:00:00 */
  uint64_t leap_after; /* how many samples stand before the leap second: 1 to all; not read where leap is 0 */
  uint32_t sequence;   /* the sequence number of the first record: 0 to 999,999 */
  uint16_t length;     /* the length of a record: 128, 256, 512, 1024, 2048 or 4096 */
  int16_t factor;      /* the rate: samples a second where positive, seconds a sample where negative .. */
  int16_t multiplier;  /* .. multiplied by this where positive, divided by it where negative */
  uint8_t encoding;    /* enum mseed_encoding */
  uint8_t leap;        /* 0: no leap second, 1: one that was inserted, 2: one that was left out */
  uint8_t key[12];     /* network (2 bytes), station (5), location (2) and channel (3), filled up with spaces;
                        * written as they are, whatever bytes they are */
} mseed_heading;

/* What packing came to. */
typedef struct mseed_packed
{
  uint64_t records; /* the records, each of the heading's length */
  uint64_t index;   /* of MSEED_SAMPLE_TOO_LARGE and MSEED_DIFFERENCE_TOO_LARGE: the sample's index; else 0 */
} mseed_packed;

/* A window of time, from an instant up to another, which isn't part of it. */
typedef struct mseed_window
{
  int64_t from;      /* the first instant in microseconds since 1970-01-01T00:00:00; not read where has_from is 0 */
  int64_t until;     /* the first instant after it; not read where has_until is 0 */
  uint8_t has_from;  /* 0: the window has no beginning */
  uint8_t has_until; /* 0: the window has no end */
} mseed_window;

/* What a selection came to. */
typedef struct mseed_selected
{
  uint64_t records;      /* the records that were read */
  uint64_t asked_for;    /* those of them that are asked for */
  uint64_t without_time; /* those of the channels that are asked for that have no valid start, and so stand in no
                          * window; 0 without a window */
  uint64_t length;       /* the length of all that are asked for, in bytes */
  uint64_t offset;       /* where the next record would begin: the archive's size, where all of it was read */
  uint64_t needed;       /* of MSEED_TRUNCATED: the bytes, from there on; of MSEED_LENGTH: the exponent; else 0 */
} mseed_selected;

/* Audits an archive as the program does: which channels are continuous, and where each of the others breaks first.
 *
 * Returns MSEED_OK, MSEED_BROKEN, MSEED_FAULT or MSEED_NO_MEMORY. The text of `mseed audit` is written to text, as much
 * of it as there is room for; totals->length is the length of the whole of it, so that a call with room 0 asks for the
 * length. It isn't ended by a NUL. What lies after the text stays as it was.
 */
uint32_t mseed_audit (const uint8_t *archive, size_t size, uint8_t *text, size_t room, mseed_totals *totals);

/* The same as `mseed audit --each`: a line for each record with a finding stands before the text. */
uint32_t mseed_audit_each (const uint8_t *archive, size_t size, uint8_t *text, size_t room, mseed_totals *totals);

/* The same as `mseed audit --part`: the part of the archive, which `mseed join` reads, in place of the text. */
uint32_t mseed_part (const uint8_t *archive, size_t size, uint8_t *text, size_t room, mseed_totals *totals);

/* The rows of the records from an offset on, without their samples: as many as there are places for.
 *
 * Returns MSEED_OK once all bytes are read, else why it stopped: MSEED_NO_ROW, MSEED_TRUNCATED or one of
 * MSEED_NOT_DATA to MSEED_VERSION_3. An offset past the end is the end. To go on, call again with progress->offset as
 * the offset. Each row's code is MSEED_OK, since no samples were read; its first counts the samples of the rows before
 * it. Rows after those that were written stay as they were. To go on after bytes that begin no record, as the tools do,
 * call with one row at each further multiple of 64 bytes, until one is written.
 */
uint32_t mseed_rows (const uint8_t *archive, size_t size, size_t offset, mseed_row *rows, size_t nrows,
                     mseed_progress *progress);

/* The rows of the records from an offset on, and their samples, one record's after another's.
 *
 * Returns what mseed_rows does, or MSEED_NO_ROOM. An offset past the end is the end. A record whose samples can't be
 * read has its row, with the code of the reason, and adds no samples: reading goes on after it, though there have to be
 * places for as many as its header says. Places after progress->filled may have been written to.
 */
uint32_t mseed_read (const uint8_t *archive, size_t size, size_t offset, mseed_row *rows, size_t nrows,
                     int32_t *samples, size_t room, mseed_progress *progress);

/* The samples of the one record that begins the bytes.
 *
 * Returns MSEED_OK, or why there are none; detail has the numbers of each. Places after the record's samples stay as
 * they were; where they can't be read, the places of as many samples as the record has may have been written to.
 */
uint32_t mseed_samples (const uint8_t *record, size_t size, int32_t *samples, size_t room, mseed_detail *detail);

/* Packs a series into records, as much of them as there is room for: packed->records times heading->length are all
 * bytes of them. A call with room 0 asks for the number. What lies after them stays as it was.
 *
 * Returns MSEED_OK; MSEED_BAD_LENGTH to MSEED_BAD_LEAP, the first that applies; or MSEED_EMPTY to
 * MSEED_DIFFERENCE_TOO_LARGE, the first that applies. Without MSEED_OK no record is written. packed is written with
 * MSEED_OK, and with MSEED_EMPTY to MSEED_DIFFERENCE_TOO_LARGE.
 */
uint32_t mseed_pack (const mseed_heading *heading, const int32_t *samples, size_t nsamples, uint8_t *records,
                     size_t room, mseed_packed *packed);

/* The records of an archive that are asked for, byte for byte and in their order, as `mseed select` writes them: as
 * many bytes of them as there is room for; selected->length is the length of all, so that a call with room 0 asks for
 * it. What lies after them stays as it was.
 *
 * channels are patterns of channels, with commas between them, each of four fields with underscores between them:
 * "XX_STA__BH?". * stands for any characters, none too, ? for one; -- as location is the empty one too. A text of
 * length 0 asks for every channel. A record is asked for where it is of such a channel and stands in the window: it
 * doesn't end before the window's beginning, and begins before the window's end.
 *
 * Returns MSEED_OK once all bytes are read, else why it stopped: MSEED_TRUNCATED or one of MSEED_NOT_DATA to
 * MSEED_VERSION_3; or MSEED_BAD_TIME, MSEED_BAD_PATTERNS or MSEED_BAD_WINDOW, the first that applies: then nothing is
 * written. What the records hold isn't judged.
 */
uint32_t mseed_select (const uint8_t *archive, size_t size, const uint8_t *channels, size_t nchannels,
                       const mseed_window *window, uint8_t *records, size_t room, mseed_selected *selected);

#ifdef __cplusplus
}
#endif

#if defined(__cplusplus) || (defined(__STDC_VERSION__) && __STDC_VERSION__ >= 199901L)
#define MSEED_INLINE static inline
#elif defined(__GNUC__)
#define MSEED_INLINE static __inline__
#else
#define MSEED_INLINE static
#endif

/* The text for a code, without its numbers; "unknown" for a number that is no code. */
MSEED_INLINE const char *
mseed_why (uint32_t code)
{
  switch (code)
  {
  case MSEED_OK: return "ok";
  case MSEED_BROKEN: return "broken";
  case MSEED_FAULT: return "fault";
  case MSEED_NO_MEMORY: return "no memory";
  case MSEED_NO_ROW: return "no row left";
  case MSEED_NO_ROOM: return "no room";
  case MSEED_TRUNCATED: return "truncated";
  case MSEED_NOT_DATA: return "notdata";
  case MSEED_ORDER: return "order";
  case MSEED_CHAIN: return "chain";
  case MSEED_NO_1000: return "no1000";
  case MSEED_LENGTH: return "length";
  case MSEED_OUTSIDE: return "outside";
  case MSEED_VERSION_3: return "version3";
  case MSEED_BLOCKETTE_100: return "blockette100";
  case MSEED_ENCODING: return "encoding";
  case MSEED_LITTLE_STEIM: return "littlesteim";
  case MSEED_DATA_OFFSET: return "dataoffset";
  case MSEED_SHORT: return "short";
  case MSEED_BAD_WORD: return "badword";
  case MSEED_OVERFLOW: return "overflow";
  case MSEED_LAST_DIFFERS: return "lastdiffers";
  case MSEED_EMPTY: return "does not fit 1";
  case MSEED_RATE_TOO_HIGH: return "does not fit 2";
  case MSEED_TIME_OUT_OF_RANGE: return "does not fit 3";
  case MSEED_SAMPLE_TOO_LARGE: return "does not fit 4";
  case MSEED_DIFFERENCE_TOO_LARGE: return "does not fit 5";
  case MSEED_BAD_LENGTH: return "bad length";
  case MSEED_BAD_ENCODING: return "bad encoding";
  case MSEED_BAD_SEQUENCE: return "bad sequence number";
  case MSEED_BAD_RATE: return "bad rate";
  case MSEED_BAD_START: return "bad start";
  case MSEED_BAD_LEAP: return "bad leap second";
  case MSEED_BAD_TIME: return "bad time";
  case MSEED_BAD_PATTERNS: return "bad patterns";
  case MSEED_BAD_WINDOW: return "bad window";
  default: return "unknown";
  }
}

#endif
