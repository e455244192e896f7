/*
 * The pay-run gatekeeper for a host in C or C++: the proved functions of target/staticlib/libhost.a (x86-64).
 *
 *   tools/archive                                         proves the crate and writes the archive
 *   cc host.c -I host target/staticlib/libhost.a          links it; it needs nothing but the C library
 *
 * A host keeps a monitor as GATEKEEPER_STATE_BYTES bytes of its own and lends them to each call. Every byte string of
 * that length is a monitor: a host can hand in a wrong length, but no wrong monitor. Or it keeps one as a
 * `struct gatekeeper_monitor`, which a call need not take apart. The answers are the same. Bytes are for a monitor that
 * is stored or sent, the struct is for speed.
 *
 * What a host owes each function: a pointer has the given number of bytes behind it, or a whole struct or number, and is
 * not null even where that number is 0; a struct and a number lie as their types are aligned; no two buffers of one call
 * overlap; and no other thread uses what is lent meanwhile. Every function returns.
 */
#ifndef GATEKEEPER_H
#define GATEKEEPER_H

#include <stdbool.h>
#include <stddef.h>
#include <stdint.h>

#ifdef __cplusplus
extern "C" {
#endif

/* An answer is there to be looked at: a compiler that knows how says where one is dropped. */
#if defined(__GNUC__)
#define GATEKEEPER_MUST_USE __attribute__((warn_unused_result))
#else
#define GATEKEEPER_MUST_USE
#endif

/* The small functions of this header. In C++ each is one and the same in all files of a host. */
#if defined(__cplusplus)
#define GATEKEEPER_INLINE inline
#else
#define GATEKEEPER_INLINE static inline
#endif

/* The version of this header and of the archive that belongs to it, and as the number that gatekeeper_version gives. */
#define GATEKEEPER_VERSION "8.0.0"
#define GATEKEEPER_VERSION_NUMBER (65536 * 8 + 256 * 0 + 0)

/* How much stack a call of any function here takes at most, in bytes: measured (tools/hosts), not proved. */
#define GATEKEEPER_STACK_BYTES 106496

/* Sizes, in bytes. */
#define GATEKEEPER_STATE_BYTES 2577    /* a monitor with its tally, its kept needs and its groups */
#define GATEKEEPER_RECORD_ROOM 62      /* room for every record */
#define GATEKEEPER_JOURNAL_BYTES 65536 /* the longest journal that is run */
#define GATEKEEPER_REPLY_ROOM 2752579  /* room for the reply to every journal */

/* How many there are of each. The numbers of subjects, places, levels and shop groups start at 0. An object has any number
 * of 64 bits, so that none is left to say that there is no object; up to version 5.0.0 it was 0 to 63. */
#define GATEKEEPER_SUBJECTS 32
#define GATEKEEPER_OBJECTS 64 /* files and pipes that may be live at a time; one number space */
#define GATEKEEPER_PLACES 16  /* places for handles, of each subject */
#define GATEKEEPER_LEVELS 16  /* 0 is the lowest */
#define GATEKEEPER_SHOPS 8    /* shop groups */
#define GATEKEEPER_STEPS 95   /* steps that a chain has at most */

/* The set of the shop marks of all groups. */
#define GATEKEEPER_ALL_SHOPS 255

/* The freeze that freezes no file: it is above every level. */
#define GATEKEEPER_NO_FREEZE 16

/*
 * Every subject, file and pipe has a label: a level, and a set of shop marks, for those of eight shop groups that are
 * vouched for. A set is a number, 0 to 255, and its bit i, of value 2 to the i-th, is the mark of group i. (The mark that
 * GATEKEEPER_MARK puts on a handle is another thing.)
 *
 *   at least    A label is at least another where its level is and its set includes the other's, and else it is below it.
 *               So of two labels each can be below the other: level 9 with the mark of group 0, and level 9 with that of
 *               group 1.
 *   to fall     What falls to a label takes the smaller level and the common set, whichever of the two is below the other.
 *   need        The need of a subject or an object has the highest level and all the marks of all files that it reaches
 *               through the handles that there are now; a file reaches itself. Where it reaches none, that is level 0 and
 *               no mark.
 *
 * Where every set is GATEKEEPER_ALL_SHOPS, everything goes by levels alone, as it did up to version 7.0.0. So a host of
 * then adds GATEKEEPER_ALL_SHOPS after the level of each GATEKEEPER_ADMIT and GATEKEEPER_REGISTER. And a journal of
 * then that drew no 11 and no 12 is replied to as before, but for the fifth field of its lowered lines, which is 0,
 * once 255 is added to the records of these two calls, if it stays within GATEKEEPER_JOURNAL_BYTES.
 */

/*
 * The bytes of a monitor, for a host that keeps them: subjects, objects, handles, the tally, the freeze, the kept needs,
 * the numbers of the objects, and the groups of the subjects. What stands in them is looked at with the functions below,
 * from gatekeeper_subject on.
 *
 *   at 0, 32 times     1 where the subject is live, its level, and its set of shop marks
 *   at 96, 64 times    a slot for an object: 1 for a file, 2 for a pipe, its level, and its set of shop marks
 *   at 288, 512 times  1 for a reading handle, 2 for a writing one, 3 for a mapping, its object's slot, and 1 where it
 *                      is marked; place p of subject s is the (16 s + p)th, three bytes at 288 + 3 (16 s + p)
 *   at 1824            handles made, eight bytes, the lowest first
 *   at 1832            handles gone, likewise
 *   at 1840            the freeze, one byte: the level from which on files are frozen; 16 and above: none is
 *   at 1841, 96 times  a kept need, two bytes, its set and then its level: of the 32 subjects, then of the 64 slots
 *   at 2033, 64 times  the number of the object that stands in the slot, eight bytes, the lowest first
 *   at 2545, 32 times  the group of the subject, one byte: live subjects with the same byte are in one group
 *
 * Any other first byte says that there is no such subject or handle, or that the slot is free; any other third byte of
 * a handle, that it is not marked. Every byte is a set. Where two slots in use have one number, the first counts, and
 * any other counts as free. A handle dangles where its subject is not live, or its slot is free or above 63: it counts
 * as an empty place. An allowed call frees such slots and empties such places. Which slot a new object gets is left
 * open, and so is which byte a group has, and what stands beside a subject that is not live and a slot that is free: a
 * host goes by numbers. The empty monitor has 16 as its freeze and 0 everywhere else: bytes that are all 0 have no
 * subject, object or handle either, but they freeze every file.
 *
 * On a monitor that started empty the need of a subject or a pipe is the lowest label that it may fall to while no handle
 * goes. A monitor is right if the kept need of each live subject and object is its need. The empty monitor is right, and a
 * call on a right monitor, refused or not, leaves a right one. No answer goes by a kept need: a call on a monitor that is
 * not right is answered by the rules all the same, and only what is kept may then be wrong.
 *
 * Bytes that version 7.0.0 kept have no sets: there are 2385 of them, which is a wrong length. They are subjects and slots
 * of two bytes, at 0 and 64; handles, counts and the freeze, from 192 on; 96 kept needs of one byte, at 1745; and numbers
 * and groups, at 1841 and 2353. With a third byte of 255 after the two of each subject and slot, in use or not, with two bytes of any
 * value in the place of each kept need, and after one gatekeeper_put_right, they are the same monitor, and right: calls on
 * it are answered as those on the one of then.
 * Bytes that version 6.0.0 or 6.1.0 kept have no groups either: there are 2353 of them. With the bytes 0 to 31 after them
 * they are bytes of version 7.0.0: each subject was in a group by itself.
 * Bytes that version 4.0.0, 4.1.0 or 5.0.0 kept have no numbers either: there are 1841 of them. With the numbers 0 to 63
 * after them, each in eight bytes, the lowest first, they are bytes of version 6.0.0: object i stood in slot i.
 * Bytes that version 2.0.0, 2.1.0 or 3.0.0 kept have no kept needs either: there are 1745 of them. With 96 bytes of any
 * value after them they are bytes of version 4.0.0.
 * Those of a version before these have neither marks nor a freeze either. With a byte 0 after the two of each handle,
 * and a byte of GATEKEEPER_NO_FREEZE after all, they are bytes of version 2.0.0.
 */

/* The calls, with the numbers that each takes, in their order. s, t and c are subjects, o is an object, a and b are the
 * pipes of a channel, p, q, r and w are places.
 *
 * A mapping is a reading handle on a file that its subject has mapped into memory. A host reports one with
 * GATEKEEPER_MAP in place of GATEKEEPER_OPEN_READ, and its end with GATEKEEPER_CLOSE. No call to read follows, so the
 * map itself is one: s falls at that moment. The memory shows what is written to the file later, so each write to it,
 * whoever makes it, is followed by one read by each subject that has it mapped, the lowest number first. The monitor
 * does that by itself, and the host carries out the write and nothing more. On a monitor that started empty no subject
 * falls at such a write: it fell when it mapped the file. In all else a mapping is a reading handle.
 *
 * A handle that is marked ends when its subject runs a program, and so does a mapping: the flow rule is asked of an
 * exec as if s had neither, and an exec that is not refused closes both. They count as gone, and a pipe ends with its
 * last handle. A host that carries the exec out closes the marked ones; mappings go with the memory that they are in.
 * A refused exec closes none. A new handle is not marked; a fork's are marked, and are mappings, as s's are; and no
 * call takes a mark off.
 *
 * A channel joins two subjects both ways, as a local socket does. It is two new pipes with four handles, and a connect
 * makes all of them or nothing: a from s to t, with s's label, and b from t to s, with t's. s writes a and t writes b, each
 * at its place q; t reads a and s reads b, each at its place p. The flow rule is asked once, of both directions
 * together, and nothing falls. From then on these are pipes and handles like any other: each handle is marked, copied
 * by a fork and closed by itself, and each pipe ends with its last handle. Where a step closes a socket that is its end
 * of a channel, the host closes both places.
 *
 * Subjects that share their memory are threads of one step: members of one group, and each other's mates. A host reports
 * one with GATEKEEPER_THREAD: c is a new member of s's group, with s's label and no handles. The members of a group have
 * one label and one need, and data flows among them freely: what one of them reads, maps or runs lowers all of them, and
 * the flow rule is asked as if what comes to one came to all. A handle is one member's own, at one of its own 16 places:
 * where threads share their descriptors, a host says of each which member holds it, and reads and writes as that one. An
 * admitted subject and a fork's child are in a group by themselves; a fork copies the handles of s, and none of its mates'.
 * An exit ends s alone. An exec of s that is not refused ends the mates of s as an exit does, before the program is run: the
 * flow rule is asked as if they and their handles were not there, and their handles count as gone; what the program is to
 * keep, s itself holds. A refused exec ends nobody. Two members may be connected.
 *
 * A freeze looks at levels only, whatever the sets are. It is one for all subjects, in the place of the one before it;
 * pipes, channels, opens for reading, maps and handles that are held go on as without it. */
enum gatekeeper_code {
    GATEKEEPER_ADMIT = 1,      /* s, level, set: a new subject from outside, without handles */
    GATEKEEPER_REGISTER = 2,   /* o, level, set: a new file from outside, whose label never changes */
    GATEKEEPER_CREATE = 3,     /* s, o: a new empty file with s's label, without a handle */
    GATEKEEPER_PIPE = 4,       /* s, o, r, w: a new pipe with s's label; place r reads it, w writes it */
    GATEKEEPER_OPEN_READ = 5,  /* s, o, p: a reading handle */
    GATEKEEPER_OPEN_WRITE = 6, /* s, o, p: a writing handle */
    GATEKEEPER_READ = 7,       /* s, p: s falls to the object's label */
    GATEKEEPER_WRITE = 8,      /* s, p: a pipe falls to s's label; who has a file mapped reads it */
    GATEKEEPER_FORK = 9,       /* s, c: a new subject: s's label, and s's handles, marks and mappings at their places */
    GATEKEEPER_EXEC = 10,      /* s, o: file o is run; s falls to its label; marked handles, mappings and mates end */
    GATEKEEPER_CLOSE = 11,     /* s, p: the place is empty */
    GATEKEEPER_EXIT = 12,      /* s: all its handles are closed, its number is free */
    GATEKEEPER_RETIRE = 13,    /* o: the file is gone, its number is free */
    GATEKEEPER_MAP = 14,       /* s, o, p: a mapping, and a read: s falls to the file's label */
    GATEKEEPER_MARK = 15,      /* s, p: the handle is marked: it ends when s runs a program; this is no shop mark */
    GATEKEEPER_FREEZE = 16,    /* level: files at or above it are frozen: no open for writing; with 16, none is */
    GATEKEEPER_CONNECT = 17,   /* s, t, a, b, p, q: a channel: new pipes a to t and b to s; place p reads, q writes */
    GATEKEEPER_THREAD = 18     /* s, c: a new subject in s's group: s's label, without handles */
};

/* How a call came out. */
enum gatekeeper_outcome {
    GATEKEEPER_ALLOWED = 'A',
    GATEKEEPER_LOWERED = 'L', /* allowed, and a read, write, exec or map made some level smaller, or some set, or both */
    GATEKEEPER_REFUSED = 'R'
};

/* Why a call, a record, a journal or a line is refused. Where several hold, the smallest number is given, but 14 goes
 * before all others, 12 before 2 to 10 and 15 to 17, 16 right after 2, 17 right after 3, and 15 just before 9. So an
 * open that is refused with 9 is one that no freeze forbids, and one that is refused with 15 may be refused with 9 once
 * the freeze is lifted. Up to version 4.1.0 an open that offends both was refused with 9. After 17 a host retires a file
 * or has a pipe end, by closing its last handle, and asks again. */
enum gatekeeper_refusal {
    GATEKEEPER_UNKNOWN_CODE = 1,      /* the code is none of 1 to 18 */
    GATEKEEPER_NO_SUBJECT = 2,        /* a subject that asks, or is to be connected, is out of range or not live */
    GATEKEEPER_NUMBER_TAKEN = 3,      /* a new subject is out of range or in use, a new object in use; a = b */
    GATEKEEPER_NO_OBJECT = 4,         /* the object is not live */
    GATEKEEPER_IS_PIPE = 5,           /* a pipe cannot be run, retired or mapped */
    GATEKEEPER_LEVEL_TOO_HIGH = 6,    /* the level is above 15, the set above 255, or a freeze above 16 */
    GATEKEEPER_PLACE_UNFIT = 7,       /* the place is above 15, taken, or empty where a handle is named; r = w, p = q */
    GATEKEEPER_WRONG_DIRECTION = 8,   /* a read on a writing handle, or a write on a reading one */
    GATEKEEPER_FLOW = 9,              /* something would have a label below its need: data could reach a file of a higher
                                       * level, or one with a shop mark that the data lacks */
    GATEKEEPER_STILL_OPEN = 10,       /* a handle is open on the file to be retired */
    GATEKEEPER_JOURNAL_BROKEN = 11,   /* journals only: a record's length is malformed or runs past the end */
    GATEKEEPER_RECORD_BROKEN = 12,    /* journals only: a number is malformed, missing or left over */
    GATEKEEPER_RECORD_TOO_LONG = 13,  /* gatekeeper_record only: the record is longer than the buffer */
    GATEKEEPER_JOURNAL_TOO_LONG = 14, /* journals only: above 65,536 bytes */
    GATEKEEPER_FROZEN = 15,           /* an open for writing of a file at or above the freeze */
    GATEKEEPER_SAME_SUBJECT = 16,     /* a connect of a subject to itself */
    GATEKEEPER_TOO_MANY_OBJECTS = 17, /* more than 64 objects would be live; a connect makes two */
    GATEKEEPER_LINE_BROKEN = 18,      /* lines only: the bytes are not a line */
    GATEKEEPER_TOO_MANY_STAGES = 19   /* lines only: a pipeline has more than eight stages */
};

/* What a refusal says, in plain words, for a log or a message: a text that stays. For any other number "no refusal", and
 * so for what is given for a wrong length: 0 by gatekeeper_value, GATEKEEPER_NOT_A_STATE by gatekeeper_line. */
GATEKEEPER_INLINE const char *gatekeeper_refusal_text(uint32_t refusal)
{
    switch (refusal) {
    case GATEKEEPER_UNKNOWN_CODE: return "no call has this code";
    case GATEKEEPER_NO_SUBJECT: return "the step that asks, or is to be connected, is not there";
    case GATEKEEPER_NUMBER_TAKEN: return "the number for the new thing cannot be used";
    case GATEKEEPER_NO_OBJECT: return "the file or pipe is not there";
    case GATEKEEPER_IS_PIPE: return "a pipe cannot be run, retired or mapped";
    case GATEKEEPER_LEVEL_TOO_HIGH: return "the level is above 15, the set above 255, or a freeze above 16";
    case GATEKEEPER_PLACE_UNFIT: return "the place does not fit";
    case GATEKEEPER_WRONG_DIRECTION: return "the handle is for the other direction";
    case GATEKEEPER_FLOW: return "data could reach a file of a higher level or with a shop mark that it lacks";
    case GATEKEEPER_STILL_OPEN: return "a handle is still open on the file";
    case GATEKEEPER_JOURNAL_BROKEN: return "the journal breaks off here";
    case GATEKEEPER_RECORD_BROKEN: return "the record is not well formed";
    case GATEKEEPER_RECORD_TOO_LONG: return "the record is longer than the buffer";
    case GATEKEEPER_JOURNAL_TOO_LONG: return "the journal is longer than 65,536 bytes";
    case GATEKEEPER_FROZEN: return "the file is frozen while the books are closed";
    case GATEKEEPER_SAME_SUBJECT: return "a step cannot be connected to itself";
    case GATEKEEPER_TOO_MANY_OBJECTS: return "only 64 files and pipes may be live: retire a file or end a pipe";
    case GATEKEEPER_LINE_BROKEN: return "the line is not well formed";
    case GATEKEEPER_TOO_MANY_STAGES: return "a pipeline has more than eight stages";
    default: return "no refusal";
    }
}

/* What an object is. */
enum gatekeeper_kind {
    GATEKEEPER_KIND_FILE = 1,
    GATEKEEPER_KIND_PIPE = 2
};

/* What a handle is for. */
enum gatekeeper_way {
    GATEKEEPER_WAY_READS = 1,
    GATEKEEPER_WAY_WRITES = 2,
    GATEKEEPER_WAY_MAPS = 3 /* a mapping, which reads */
};

/* The version of the archive that is linked. Where it is not GATEKEEPER_VERSION_NUMBER, the header is another one's. */
GATEKEEPER_MUST_USE
uint32_t gatekeeper_version(void);

/* GATEKEEPER_STATE_BYTES, for a host that sees no header. */
size_t gatekeeper_state_bytes(void);

/* Makes the lent bytes the empty monitor, with nothing made, nothing gone and nothing frozen, and returns true. Where
 * `len` is not GATEKEEPER_STATE_BYTES: false, and no byte is touched. */
GATEKEEPER_MUST_USE
bool gatekeeper_empty(uint8_t *state, size_t len);

/* Makes one call on the monitor that the lent bytes are, and counts the handles it makes and removes. `a` to `f` are
 * the call's numbers in their order; those that the code does not use are ignored. The answer is 256 times 256
 * times the number of shop marks lost, 256 times the outcome's letter, and the level or the number of the refusal: see the
 * four functions below. A refused call changes no byte. Where `len` is not GATEKEEPER_STATE_BYTES: 0, which allows nothing,
 * and no byte is touched.
 *
 * Before version 8.0.0 there were no sets: a host of then adds one, GATEKEEPER_ALL_SHOPS, to each GATEKEEPER_ADMIT and
 * GATEKEEPER_REGISTER, here and in gatekeeper_record, and where it divides an answer by 256 itself, calls the functions
 * below. Before version 6.0.0 the numbers had 32 bits: a host of then is built anew. Before version 3.0.0 a call had four
 * numbers: a host of then adds two zeros here and in gatekeeper_record. */
GATEKEEPER_MUST_USE
uint32_t gatekeeper_call(uint8_t *state, size_t len, uint64_t code, uint64_t a, uint64_t b, uint64_t c, uint64_t d,
                         uint64_t e, uint64_t f);

/* The outcome in an answer of gatekeeper_call: an `enum gatekeeper_outcome`, or 0 for a wrong length. What this
 * function and the next three read off an answer that is not 0 is the rules' answer, whatever the lent bytes were. */
GATEKEEPER_INLINE uint32_t gatekeeper_letter(uint32_t answer) { return answer / 256 % 256; }

/* Whether the host may carry the call out: true for an allowed and for a lowered call, and for nothing else. A host
 * asks this, and does not go on where it is false: a test for GATEKEEPER_REFUSED alone would let a wrong length
 * pass. */
GATEKEEPER_MUST_USE
GATEKEEPER_INLINE bool gatekeeper_allows(uint32_t answer)
{
    return gatekeeper_letter(answer) == GATEKEEPER_ALLOWED || gatekeeper_letter(answer) == GATEKEEPER_LOWERED;
}

/* The level in an answer of gatekeeper_call, or where it was refused the `enum gatekeeper_refusal`. On a monitor that
 * started empty a level is below GATEKEEPER_LEVELS, but for that of a freeze that is lifted: GATEKEEPER_NO_FREEZE.
 * After a read, an exec, a map and a connect it is s's, after a fork and a thread c's; after an open and a write it is the
 * object's, also where what the write made fall is a subject that has the file mapped. After a lowered call it may be what
 * it was before, where shop marks alone were lost. */
GATEKEEPER_INLINE uint32_t gatekeeper_value(uint32_t answer) { return answer % 256; }

/* How many shop marks the thing has lost whose level is given, 0 to 8. It is 0 where the call is not lowered, and where a
 * level alone fell; and after a write to a file, which stays as it is where a subject fell that has it mapped. */
GATEKEEPER_INLINE uint32_t gatekeeper_lost(uint32_t answer) { return answer / (256 * 256); }

/* Handles made and handles gone over all calls on this monitor, modulo 2 to the 64th. On a monitor that started empty
 * made minus gone are open; on any other made minus gone moves as the open ones do. 0 where `len` is not
 * GATEKEEPER_STATE_BYTES. */
uint64_t gatekeeper_made(const uint8_t *state, size_t len);
uint64_t gatekeeper_gone(const uint8_t *state, size_t len);

/* What the tables hold, for a host that shows it: a subject, the group that it is in, an object, and the handle at place p
 * of subject s. Any number may be given. 0 where it is out of range or not live, where the place is empty or its handle
 * dangles, and where `len` is not GATEKEEPER_STATE_BYTES. Else
 *
 *   of a subject   256 times 256 times its set, 256, and its level: see gatekeeper_level_of and gatekeeper_shops_of
 *   of a group     256, and the lowest number that a member of it has: see gatekeeper_first_of. Two subjects are in one
 *                  group where it is the same number, and not 0, for both
 *   of an object   256 times 256 times its set, 256 times its kind, and its level: see gatekeeper_kind_of,
 *                  gatekeeper_level_of and gatekeeper_shops_of
 *   of a handle    256 times its way, and 256 times 256 where it is marked: see gatekeeper_way_of and
 *                  gatekeeper_is_marked
 */
uint32_t gatekeeper_subject(const uint8_t *state, size_t len, uint64_t s);
uint32_t gatekeeper_group(const uint8_t *state, size_t len, uint64_t s);
uint32_t gatekeeper_object(const uint8_t *state, size_t len, uint64_t o);
uint32_t gatekeeper_handle(const uint8_t *state, size_t len, uint64_t s, uint64_t p);

/* The number of the object of the handle at place p of subject s, which is live. 0 where there is no handle, and where
 * `len` is not GATEKEEPER_STATE_BYTES. Since 0 is a number, too, a host asks gatekeeper_handle first whether there is
 * one. */
uint64_t gatekeeper_handle_object(const uint8_t *state, size_t len, uint64_t s, uint64_t p);

/* The lowest number of a live object from o on. 0 where there is none, and where `len` is not GATEKEEPER_STATE_BYTES.
 * Since 0 is a number, too, there is none where the number is below o, or not live. So a host lists its objects, the
 * lowest number first:
 *
 *   uint64_t from = 0, o;
 *   do {
 *       o = gatekeeper_object_from(state, len, from);
 *       if (o < from || gatekeeper_object(state, len, o) == 0) break;
 *       show(o);
 *       from = o + 1;
 *   } while (from != 0);
 */
uint64_t gatekeeper_object_from(const uint8_t *state, size_t len, uint64_t o);

/* The level, and the set of shop marks, in an answer of gatekeeper_subject or gatekeeper_object that is not 0, and in
 * one of gatekeeper_subject_need or gatekeeper_object_need. On a monitor that started empty the level is below
 * GATEKEEPER_LEVELS. */
GATEKEEPER_INLINE uint32_t gatekeeper_level_of(uint32_t thing) { return thing % 256; }
GATEKEEPER_INLINE uint32_t gatekeeper_shops_of(uint32_t thing) { return thing / (256 * 256); }

/* The lowest number of a member, in an answer of gatekeeper_group that is not 0. It is s itself where s has no mates, or
 * only such of higher numbers. */
GATEKEEPER_INLINE uint32_t gatekeeper_first_of(uint32_t group) { return group % 256; }

/* The kind in an answer of gatekeeper_object: an `enum gatekeeper_kind`, or 0 where there is no object. */
GATEKEEPER_INLINE uint32_t gatekeeper_kind_of(uint32_t object) { return object / 256 % 256; }

/* The way in an answer of gatekeeper_handle: an `enum gatekeeper_way`, or 0 where there is no handle. */
GATEKEEPER_INLINE uint32_t gatekeeper_way_of(uint32_t handle) { return handle / 256 % 256; }

/* Whether the handle in an answer of gatekeeper_handle is marked: it ends when its subject runs a program. */
GATEKEEPER_INLINE bool gatekeeper_is_marked(uint32_t handle) { return handle >= 256 * 256; }

/* The kept need of a subject and of an object: 256 times 256 times its set, and its level, see gatekeeper_level_of and
 * gatekeeper_shops_of. It is ready: nothing is worked out here. On a monitor that started empty the label is at least it,
 * and a subject or a pipe falls no lower while no handle goes; a file's is its label. 0 where the number is out of range or
 * not live, and where `len` is not GATEKEEPER_STATE_BYTES. Since 0 is a need, too, a host asks gatekeeper_subject or
 * gatekeeper_object first whether there is one. */
uint32_t gatekeeper_subject_need(const uint8_t *state, size_t len, uint64_t s);
uint32_t gatekeeper_object_need(const uint8_t *state, size_t len, uint64_t o);

/* Works the kept needs out anew, so that the monitor is right, and returns true; all other bytes stay as they are. A
 * host does this once with bytes that did not come from this version's functions, before it shows a need of theirs.
 * Where `len` is not GATEKEEPER_STATE_BYTES: false, and no byte is touched. */
GATEKEEPER_MUST_USE
bool gatekeeper_put_right(uint8_t *state, size_t len);

/* The level from which on files are frozen, for a host that shows it, or GATEKEEPER_NO_FREEZE where none is. 0, as if
 * every file were, where `len` is not GATEKEEPER_STATE_BYTES. */
uint32_t gatekeeper_frozen_from(const uint8_t *state, size_t len);

/*
 * A monitor as a struct. A call on it parses no bytes and lays none out, as gatekeeper_call does each time. A host
 * makes it empty once, lends it to each call, and reads the fields where it shows what they hold. A copy of it is a
 * monitor of its own. Between `sure` and `counts` are six bytes of padding, which mean nothing and may change at any
 * call: a host that compares two monitors does so field by field.
 *
 * Slots, their numbers, dangling handles, the freeze, the kept needs and the groups mean the same here as in the bytes.
 * Object o stands in the first slot in use that has the number o, and a handle's object has the number of its slot. Live
 * subjects whose bytes in `groups` are equal are in one group. What the other fields say with a value that no call makes
 * differs:
 *
 *                   here                                      in the bytes of gatekeeper_call
 *   live, mark      any but 0: live, marked                   1 alone: live, marked
 *   kind            any above 1: a pipe                       any above 2: a free slot
 *   way             2 and any above 3: it writes              any above 3: no handle
 *
 * So bytes of the one that hold such values are not to be copied into the other.
 *
 * What is promised goes by `sure`. Where it is 1, the monitor says of itself that no two slots in use have one number,
 * that no handle dangles, that its kept needs are right and that no label is below its need, and calls go by that:
 *
 *   1, and it is    So of every monitor that these functions have made, by calls from the empty one on or by
 *   so              gatekeeper_monitor_assure, and of a copy of one. Every answer is the rules', and `sure` stays 1.
 *   1, and it is    A call ends and touches nothing but the struct, and a refused call leaves it as it was. Nothing else
 *   not so          is promised of the answer.
 *   any other       For a host that fills the tables itself. Any bytes are a monitor, and every answer is the rules', as
 *                   for gatekeeper_call. But the call is slow, and `sure` stays what it is.
 *
 * So a host never sets `sure` to 1: it sets it to 0 where it changes another field, and lends the monitor to
 * gatekeeper_monitor_assure once it has filled the tables. It does so with a struct of version 7.0.0, too, which has no
 * `shops` and another kind of `needs`: it copies the other fields and sets every `shops` to 255. With one of version 6.0.0
 * or 6.1.0, which has no groups either, it sets group i to i as well, and with one of version 5.0.0, which has no numbers
 * either, number i to i.
 */
struct gatekeeper_monitor {
    uint64_t numbers[GATEKEEPER_OBJECTS]; /* the number of the object that stands in each slot */
    uint16_t needs[GATEKEEPER_SUBJECTS + GATEKEEPER_OBJECTS]; /* the kept needs, of the subjects, then of the slots: 256
                                                               * times the level, and the set; before version 8.0.0 the
                                                               * level alone, in bytes behind `freeze` */
    struct {
        uint8_t live; /* 0: there is no such subject */
        uint8_t level;
        uint8_t shops; /* its set of shop marks; since version 8.0.0 */
    } subjects[GATEKEEPER_SUBJECTS];
    struct {
        uint8_t kind; /* an `enum gatekeeper_kind`; 0: the slot is free */
        uint8_t level;
        uint8_t shops; /* its set of shop marks; since version 8.0.0 */
    } objects[GATEKEEPER_OBJECTS];
    struct {
        uint8_t way;  /* an `enum gatekeeper_way`; 0: the place is empty */
        uint8_t slot; /* of its object; up to version 5.0.0 this was `object`, the number */
        uint8_t mark; /* 0: it is not marked; no shop mark */
    } handles[GATEKEEPER_SUBJECTS * GATEKEEPER_PLACES]; /* place p of subject s is the (16 s + p)th */
    uint8_t freeze; /* the level from which on files are frozen; 16 and above: none is */
    uint8_t groups[GATEKEEPER_SUBJECTS]; /* live subjects with the same byte are in one group; since version 7.0.0 */
    uint8_t sure;       /* 1: calls go by what is kept, and look for nothing that dangles; a host sets it only to 0 */
    uint64_t counts[2]; /* handles over all calls, modulo 2 to the 64th: at GATEKEEPER_MADE, and at GATEKEEPER_GONE */
};

/* Where the handles made, and the handles gone, stand in `counts`. */
enum gatekeeper_count {
    GATEKEEPER_MADE = 0,
    GATEKEEPER_GONE = 1
};

/* The archive has the struct laid out so, and the one of a chain further below. A compiler that lays one out otherwise says
 * so. */
#if defined(__cplusplus) && __cplusplus >= 201103L
#define GATEKEEPER_HOLDS(what) static_assert(what, "a struct is not laid out as the archive has it")
#define GATEKEEPER_ALIGNMENT(type) alignof(type)
#elif !defined(__cplusplus) && defined(__STDC_VERSION__) && __STDC_VERSION__ >= 201112L
#define GATEKEEPER_HOLDS(what) _Static_assert(what, "a struct is not laid out as the archive has it")
#define GATEKEEPER_ALIGNMENT(type) _Alignof(type)
#endif
#ifdef GATEKEEPER_HOLDS
GATEKEEPER_HOLDS(sizeof(struct gatekeeper_monitor) == 2584);
GATEKEEPER_HOLDS(GATEKEEPER_ALIGNMENT(struct gatekeeper_monitor) == 8);
GATEKEEPER_HOLDS(offsetof(struct gatekeeper_monitor, numbers) == 0);
GATEKEEPER_HOLDS(offsetof(struct gatekeeper_monitor, needs) == 512);
GATEKEEPER_HOLDS(offsetof(struct gatekeeper_monitor, subjects) == 704);
GATEKEEPER_HOLDS(offsetof(struct gatekeeper_monitor, objects) == 800);
GATEKEEPER_HOLDS(offsetof(struct gatekeeper_monitor, handles) == 992);
GATEKEEPER_HOLDS(offsetof(struct gatekeeper_monitor, freeze) == 2528);
GATEKEEPER_HOLDS(offsetof(struct gatekeeper_monitor, groups) == 2529);
GATEKEEPER_HOLDS(offsetof(struct gatekeeper_monitor, sure) == 2561);
GATEKEEPER_HOLDS(offsetof(struct gatekeeper_monitor, counts) == 2568);
#endif

/* Makes the lent struct the empty monitor, with nothing made, nothing gone and nothing frozen, whatever stood there. A
 * struct that is all 0 has no subject, object or handle either, but it freezes every file, and a call on it is slow. */
void gatekeeper_monitor_empty(struct gatekeeper_monitor *monitor);

/* Makes a monitor that a host has filled itself, as from bytes that it kept, one that calls may rely on: slots in use
 * that have the number of one before them are freed, places whose handle dangles are emptied, the kept needs are worked
 * out anew, and `sure` is 1, and so is what is returned. Where some label is below its need, which calls never make, it
 * cannot be: then `sure` is 0, and 0 is returned. The other entries, the groups, the freeze and the counts stay as they
 * are. */
GATEKEEPER_MUST_USE
uint32_t gatekeeper_monitor_assure(struct gatekeeper_monitor *monitor);

/* Makes one call on the lent monitor, and counts the handles it makes and removes. Its numbers and its answer are those
 * of gatekeeper_call, and the functions that read that one's answer read this one's. There is no length that could be
 * wrong. A refused call changes no field. A host makes its calls with gatekeeper_monitor_step, below. */
GATEKEEPER_MUST_USE
uint32_t gatekeeper_monitor_call(struct gatekeeper_monitor *monitor, uint64_t code, uint64_t a, uint64_t b, uint64_t c,
                                 uint64_t d, uint64_t e, uint64_t f);

/* An open (code 5 or 6) and a close that change no need, done in place on the parts of one struct, each lent with its
 * size in bytes, but `numbers` with 64, `needs` with 96 and `counts` with 2: how many they are. They return what
 * gatekeeper_monitor_call returns. Or 0, and nothing is touched: the call is not that simple, `sure` is not 1, the code is
 * another, or a size is wrong. Then gatekeeper_monitor_call is to be made. With the right code and sizes, on a struct that
 * is as its `sure` of 1 says, 0 is not returned for what is refused with a number other than 9, nor for an open that
 * changes no need, nor for this close. By a handle data flows from its source to its end: from the object to the step
 * where it reads, and from the step to the object where it writes. What the handle's object demands by itself is the
 * object's label where the handle reads a file, and nothing otherwise. The close ends no pipe, and of the need of the
 * flow's end the set is within what is so demanded, and the level is at most what is so demanded, or below the level that
 * the flow's source needs. A host does not call them itself: gatekeeper_monitor_step does. */
GATEKEEPER_MUST_USE
uint32_t gatekeeper_quick_open(const uint64_t *numbers, size_t numbers_len, const uint8_t *subjects,
                               size_t subjects_len, const uint8_t *objects, size_t objects_len, uint8_t *handles,
                               size_t handles_len, const uint16_t *needs, size_t needs_len, uint64_t *counts,
                               size_t counts_len, uint8_t freeze, uint8_t sure, uint64_t code, uint64_t s, uint64_t o,
                               uint64_t p);
GATEKEEPER_MUST_USE
uint32_t gatekeeper_quick_close(const uint8_t *subjects, size_t subjects_len, const uint8_t *objects,
                                size_t objects_len, uint8_t *handles, size_t handles_len, const uint16_t *needs,
                                size_t needs_len, uint64_t *counts, size_t counts_len, uint8_t freeze, uint8_t sure,
                                uint64_t s, uint64_t p);

/* A part of the struct as its bytes, and how many. */
#if defined(__cplusplus)
#define GATEKEEPER_PART(part) reinterpret_cast<uint8_t *>(part), sizeof(part)
#else
#define GATEKEEPER_PART(part) (uint8_t *)(part), sizeof(part)
#endif

/* Makes one call on the lent monitor, which is as `sure` says of it: then it has the answer of gatekeeper_monitor_call,
 * and leaves the same tables and counts, for both ways that a call can take here are proved to go by the rules. It is
 * faster for an open or a close that changes no need; any other call goes to gatekeeper_monitor_call. */
GATEKEEPER_MUST_USE
GATEKEEPER_INLINE uint32_t gatekeeper_monitor_step(struct gatekeeper_monitor *monitor, uint64_t code, uint64_t a,
                                                   uint64_t b, uint64_t c, uint64_t d, uint64_t e, uint64_t f)
{
    /* tools/step writes this: from here */
    uint32_t answer = 0;
    if (code == GATEKEEPER_OPEN_READ || code == GATEKEEPER_OPEN_WRITE)
        answer = gatekeeper_quick_open(monitor->numbers, GATEKEEPER_OBJECTS,
                                       GATEKEEPER_PART(monitor->subjects), GATEKEEPER_PART(monitor->objects),
                                       GATEKEEPER_PART(monitor->handles), monitor->needs,
                                       GATEKEEPER_SUBJECTS + GATEKEEPER_OBJECTS, monitor->counts, 2, monitor->freeze,
                                       monitor->sure, code, a, b, c);
    else if (code == GATEKEEPER_CLOSE)
        answer = gatekeeper_quick_close(GATEKEEPER_PART(monitor->subjects), GATEKEEPER_PART(monitor->objects),
                                        GATEKEEPER_PART(monitor->handles), monitor->needs,
                                        GATEKEEPER_SUBJECTS + GATEKEEPER_OBJECTS, monitor->counts, 2, monitor->freeze,
                                        monitor->sure, a, b);
    return answer != 0 ? answer : gatekeeper_monitor_call(monitor, code, a, b, c, d, e, f);
    /* tools/step writes this: to here */
}
#undef GATEKEEPER_PART

/*
 * A line, as clerks type it, stands for a list of calls. It is one pipeline or several, with `;` between each two. A
 * pipeline is one to eight stages, with `|` between each two, which binds tighter than `;`. A stage is the number of a
 * program; `<` and the number of what it reads may follow, and then `>` and the number of what it writes. These are the
 * numbers of objects, in decimal, without a zero in front, up to 18446744073709551615. Spaces may stand before and
 * behind each number and each sign, and no other byte is in a line:
 *
 *   20 <1 | 21 | 22 >2 ; 23
 *
 * With a line come three numbers: the subject that is the shell, the first child's, and the first pipe's. In each
 * pipeline child i has the number child + i, and pipe i the number pipe + i, both modulo 2 to the 64th. These are the
 * calls of a pipeline of n stages, with stages, children and pipes counted from 0; with one stage there is no pipe:
 *
 *   first          the shell makes pipe 0 to pipe n - 2: place 2 i reads pipe i, and place 2 i + 1 writes it
 *   at stage i     the shell forks child i. The child closes those of the places 0 to 2 n - 3, in rising order, that it
 *                  does not use: it uses 2 i - 2, to read, and 2 i + 1, to write. It opens what `<` names at place 14,
 *                  for reading, and what `>` names at place 15, for writing. It runs its program.
 *   then           the shell closes the places 0 to 2 n - 3, in rising order
 *   at last        child 0 to child n - 1 exit
 *
 * All calls of a line are made, from left to right, whichever of them are refused: they are calls like any other. So
 * handles that the shell already has at these places are closed, and where the number of child i is in use, its fork is
 * refused, and the subject that has that number closes, opens, runs the program and exits, be it the shell. A host chooses
 * `child` and `pipe` so that enough numbers from there on are free: eight of subjects, all below 32, and seven of objects
 * are enough for every pipeline. One that would have all of a line or nothing lends a copy of its monitor, and goes on with
 * the copy where `refused` is 0.
 *
 * The host is not told which calls were refused, a line has no read and no write in it, and after it its children are
 * gone. A host that starts the programs makes the calls itself, one by one. `line_len` counts no newline and no 0 byte
 * that ends the text: both are bytes that no line has. A line makes up to nine calls for each of its bytes, 159 for a
 * pipeline: a host sets a limit to what it takes.
 */

/* What came of a line: how many of its calls were allowed, lowered and refused, each modulo 2 to the 64th. Where
 * `refusal` is not 0, no call was made, and these are 0. */
struct gatekeeper_line_outcome {
    uint64_t allowed;
    uint64_t lowered;
    uint64_t refused;
    uint64_t refusal; /* GATEKEEPER_LINE_BROKEN, GATEKEEPER_TOO_MANY_STAGES or GATEKEEPER_NOT_A_STATE; 0: its calls were made */
};

/* What gatekeeper_line has as `refusal` where `len` is not GATEKEEPER_STATE_BYTES. No refusal has this number. */
#define GATEKEEPER_NOT_A_STATE 255

/* Makes the calls of a line on the monitor that the lent bytes are, and counts the handles that they make and remove. A
 * line that is refused changes no byte. Where `len` is not GATEKEEPER_STATE_BYTES: GATEKEEPER_NOT_A_STATE, whatever the
 * line is, and no byte is touched. */
GATEKEEPER_MUST_USE
struct gatekeeper_line_outcome gatekeeper_line(uint8_t *state, size_t len, const uint8_t *line, size_t line_len,
                                               uint64_t shell, uint64_t child, uint64_t pipe);

/* The same on a lent struct, with the same outcome where the monitor is as its `sure` says. A line that is refused changes
 * no field, whatever it says. */
GATEKEEPER_MUST_USE
struct gatekeeper_line_outcome gatekeeper_monitor_line(struct gatekeeper_monitor *monitor, const uint8_t *line,
                                                       size_t line_len, uint64_t shell, uint64_t child, uint64_t pipe);

/*
 * Behind a refusal with GATEKEEPER_FLOW stands a chain. At its front is something live, a subject or an object, and at its
 * end a live file whose label the front's is not at least. Its steps are handles, by which what the front holds could get
 * into the file, had the call been let through:
 *
 *   - Each is open when the call is made, or is one that the call asks for. Such are handles of the calls 5, 6, 14 and 17.
 *   - By a reading handle, or a mapping, data flows from its object to its subject, and by a writing handle from its
 *     subject to its object. The first step takes from the front, each later one from what the one before it leads to, and
 *     the last one leads into the file. For this the members of a group are one.
 *   - A GATEKEEPER_EXEC asks of the program alone: then the front is that file, s has run it, and the first step takes from
 *     s. The marked handles, the mappings and the mates that the exec would end are in no step.
 *   - Had the call been let through, then a GATEKEEPER_READ on each reading handle and a GATEKEEPER_WRITE on each writing
 *     one, in the order of the steps, would not be refused, and the file would hold what the front held before the call,
 *     where whoever takes something in has that and nothing else from then on.
 *   - No such chain behind this call has fewer steps. There are at most GATEKEEPER_STEPS, after an exec one fewer.
 *
 * So to have the call allowed, a host breaks every such chain, by closing a handle of it, say. That each GATEKEEPER_FLOW
 * has one is proved for every monitor that started empty, and for any other in which no label is below its need and the
 * members of each group have one label.
 */
struct gatekeeper_chain {
    uint64_t low;                     /* the number of the thing at the front */
    uint64_t high;                    /* the number of the file at the end */
    uint16_t steps[GATEKEEPER_STEPS]; /* the first `count` of them count: place p of subject s is 16 s + p */
    uint8_t count;                    /* how many steps there are */
    uint8_t kind;                     /* of the front: an `enum gatekeeper_front` */
};

/* What stands at the front of a chain. */
enum gatekeeper_front {
    GATEKEEPER_FRONT_SUBJECT = 1,
    GATEKEEPER_FRONT_OBJECT = 2
};

#ifdef GATEKEEPER_HOLDS
GATEKEEPER_HOLDS(sizeof(struct gatekeeper_chain) == 208);
GATEKEEPER_HOLDS(GATEKEEPER_ALIGNMENT(struct gatekeeper_chain) == 8);
GATEKEEPER_HOLDS(offsetof(struct gatekeeper_chain, low) == 0);
GATEKEEPER_HOLDS(offsetof(struct gatekeeper_chain, high) == 8);
GATEKEEPER_HOLDS(offsetof(struct gatekeeper_chain, steps) == 16);
GATEKEEPER_HOLDS(offsetof(struct gatekeeper_chain, count) == 206);
GATEKEEPER_HOLDS(offsetof(struct gatekeeper_chain, kind) == 207);
#undef GATEKEEPER_HOLDS
#undef GATEKEEPER_ALIGNMENT
#endif

/* Writes the chain behind the GATEKEEPER_FLOW with which a call would be refused now over `chain`, and returns how many
 * steps it has, at least 1. Where the call would not be so refused, or `len` is not GATEKEEPER_STATE_BYTES: 0, and `chain`
 * keeps what it has. The code and the numbers are those of gatekeeper_call. No call is made: the monitor stays as it is.
 * New since version 8.0.0. */
GATEKEEPER_MUST_USE
uint32_t gatekeeper_why(const uint8_t *state, size_t len, uint64_t code, uint64_t a, uint64_t b, uint64_t c, uint64_t d,
                        uint64_t e, uint64_t f, struct gatekeeper_chain *chain);

/* The same of a lent struct, where the monitor is as its `sure` says. */
GATEKEEPER_MUST_USE
uint32_t gatekeeper_monitor_why(const struct gatekeeper_monitor *monitor, uint64_t code, uint64_t a, uint64_t b,
                                uint64_t c, uint64_t d, uint64_t e, uint64_t f, struct gatekeeper_chain *chain);

/* Runs a journal from an empty monitor and writes the reply over the front of `out`: a line for each record with its
 * position, code, A, L or R, and the level or refusal number, and after an L also the number of shop marks lost, 0 too;
 * then `end`, handles made, gone and open. Returns how many bytes the text has. Where it has more than `room`: 0, and
 * only its front stands in `out`, what lies behind it keeps its value. GATEKEEPER_REPLY_ROOM bytes are enough for every
 * journal. */
GATEKEEPER_MUST_USE
size_t gatekeeper_replay(const uint8_t *journal, size_t len, uint8_t *out, size_t room);

/* Writes the record of a call over the front of `out`: 256 and its length in bytes; what lies behind it keeps its
 * value. Else GATEKEEPER_UNKNOWN_CODE or GATEKEEPER_RECORD_TOO_LONG, and no byte is touched. GATEKEEPER_RECORD_ROOM
 * bytes are enough for every record. */
GATEKEEPER_MUST_USE
uint32_t gatekeeper_record(uint8_t *out, size_t room, uint64_t code, uint64_t a, uint64_t b, uint64_t c, uint64_t d,
                           uint64_t e, uint64_t f);

/* Reads the number at the front of some bytes, unsigned LEB128 as in a journal, into `value`, and returns how many bytes
 * it takes, 1 to 10. Where it is cut off, above 18,446,744,073,709,551,615, or longer than it need be: 0, and `value`
 * keeps what it has. */
GATEKEEPER_MUST_USE
uint32_t gatekeeper_number(const uint8_t *bytes, size_t len, uint64_t *value);

#ifdef __cplusplus
}
#endif

#endif
