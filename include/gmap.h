/* gmap.h - the map kernel: tables of darts, edited by rule schemes.
 *
 * Link libkernel.a, which tools/archive builds, or what `make install` puts in
 * place, by `pkg-config --cflags --libs gmap`. It calls nothing but the memory
 * functions of C (memset, memcpy, memmove, memcmp), allocates nothing, and keeps
 * nothing between calls.
 *
 * Every call takes any arguments whatever, tests them, and answers with one
 * 64-bit word that the functions at the end of this file take apart. Of several
 * refusals that apply, the one listed first at the call is given.
 * docs/RULES.md has the rules in full: when a table is well-formed, when a scheme
 * is accepted, what an edit does, and every byte of a scheme and of a map file.
 *
 * Buffers. A buffer is a pointer and its number of elements (words or bytes as
 * the pointer's type says). It must be readable over that length and, where it
 * is not const, writable; aligned for its type; never null, also where its
 * length is 0; and it must not overlap another buffer of the same call. A call
 * touches nothing beyond its buffers.
 *
 * Threads. Calls on different buffers may run at the same time. Calls that only
 * read a buffer (const) may share it; a call that writes a buffer needs it alone.
 *
 * Stack. A call needs at most GMAP_STACK bytes of stack below its caller's
 * frame: tests/c/stack.c runs every call on a painted stack, prints how deep
 * each went, and fails where one goes deeper than that. */
#ifndef GMAP_H
#define GMAP_H
#include <stddef.h>
#include <stdint.h>

#ifdef __cplusplus
extern "C" {
#endif

/* The version of this interface, 100 times its first number and its second: 3.0.
 * The second grows where something is added; the first where a program that was
 * written for the version before must be looked at again. With 3.0 that is one that
 * tells new darts by the states before an edit (see gmap_edit). */
#define GMAP_VERSION 300

/* ---- limits and sizes */

enum {
    GMAP_MAX_SLOTS = 1024,   /* slots of a table: 1 to this */
    GMAP_RECORD = 6,         /* words of a table for each slot */
    GMAP_STORE = 16,         /* words of a working store for each slot */
    GMAP_MAX_SCHEME = 548,   /* bytes of the longest scheme in the form */
    GMAP_MAX_FILE = 14345,   /* bytes of the longest map file */
    GMAP_STACK = 8192        /* bytes of stack that a call needs at most */
};

/* The words of a slot's record. A state is 1 (live) or 0 (unused); the other
 * words of an unused record may hold anything, and nothing depends on them. */
enum {
    GMAP_STATE = 0,
    GMAP_LINK = 1,           /* the links a0, a1, a2, a3 are words 1, 2, 3, 4 */
    GMAP_TAG = 5             /* the lot of the sheet; no constraint */
};

/* The words that gmap_count gives. A cell is the darts that some links lead to from
 * one of them: a vertex by all links but a0, an edge by all but a1, a face by all but
 * a2, a volume by all but a3, and a piece by all links. */
enum {
    GMAP_LIVE = 0,           /* live darts */
    GMAP_VERTICES = 1,
    GMAP_EDGES = 2,
    GMAP_FACES = 3,
    GMAP_PIECES = 4,
    GMAP_VOLUMES = 5,        /* 0 where n is 2 */
    GMAP_COUNTS = 6          /* how many they are */
};

/* ---- the numbers of the answers */

enum {
    GMAP_DONE = 0,
    GMAP_BAD_CALL = 1,         /* n, slots or the length of table or store */
    GMAP_BAD_FORM = 2,         /* scheme: bytes not in the form, or more or fewer hooks than darts */
    GMAP_BAD_HOOK = 3,         /* scheme: gmap_node is a hook, or the least node not reached from one */
    GMAP_BAD_INCIDENCE = 4,    /* scheme: arcs at gmap_node */
    GMAP_BAD_CYCLE = 5,        /* scheme: cycle of gmap_i and gmap_j at gmap_node */
    GMAP_OTHER_DIMENSION = 6,  /* scheme: made for another n than the table's */
    GMAP_BAD_TABLE = 7,        /* table not well-formed */
    GMAP_NO_DART = 8,          /* a dart not below slots, or not live */
    GMAP_NO_MATCH = 9,         /* the scheme's left side is not there at the dart or darts */
    GMAP_NO_ROOM = 10,         /* more new darts than unused slots and deleted darts */
    GMAP_BAD_FILE = 11,        /* file not in its form, or not of this n and slots */
    GMAP_SHORT_OUTPUT = 12     /* output shorter than the file, or than the counts */
};

/* ---- the calls
 *
 * n is 2 (sheets) or 3 (sheets that enclose volumes); slots is 1 to 1024;
 * table_len is 6 * slots; store_len is 16 * slots. Anything else is answer 1,
 * and a call that answers 1 writes nothing at all. */

/* Is the table well-formed for n?
 * Answers 0, 1, 7. Writes nothing. */
uint64_t gmap_check_table(uint32_t n, uint32_t slots, const uint32_t *table, size_t table_len);

/* Is the scheme in the form and accepted?
 * Answers 0, 2, 3, 4, 5. Writes nothing.
 * A scheme has one hook, which is node 0, or names a second one. Its first byte
 * says which: n, for gmap_edit, or n + 32, for gmap_edit2. The byte is 16 more
 * where the scheme names a donor for each added node: the node of its left side
 * whose dart gives the new dart its tag. */
uint64_t gmap_check_scheme(const uint8_t *scheme, size_t scheme_len);

/* Applies a scheme with one hook to the table at a dart.
 * Answers 0, 1, 2, 3, 4, 5, 6, 7, 8, 9, 10; 2 also for a scheme with two hooks.
 * Done carries gmap_orbit, gmap_added and gmap_deleted.
 * table: the edited map after 0, which is well-formed again; unchanged after any
 * refusal. New darts take the lowest slots among those that were unused and those
 * of the darts that this edit deletes; a deleted dart's record that none of them
 * takes becomes six zeros. Each has the tag that the dart of its donor had before
 * the edit, also where that dart is deleted in it and another has its slot; the
 * donor is node 0 where the scheme names none.
 * store: of any content on entry; all zero afterwards, save after 1.
 *
 * So a slot that is live before and after may hold another dart: how many darts
 * are new and how many are gone, the answer says, and the states do not. Before
 * version 3.0 new darts took unused slots alone, so an edit that deletes and adds
 * may give other slots now; map files are read and written as before.
 *
 * After 10 a part can be given more room. A link is a slot's number, whatever
 * the number of slots, so the records go to the beginning of a larger table as
 * they are, and every further state is 0:
 *
 *     memcpy(larger, table, sizeof *table * GMAP_RECORD * slots);
 *     memset(larger + GMAP_RECORD * slots, 0,
 *            sizeof *larger * GMAP_RECORD * (more - slots));
 *
 * The same edit is then made with `more` slots and a store of GMAP_STORE * more
 * words. A map file names its number of slots, so it is written anew. */
uint64_t gmap_edit(uint32_t n, uint32_t slots, uint32_t *table, size_t table_len,
                   uint32_t *store, size_t store_len,
                   const uint8_t *scheme, size_t scheme_len, uint32_t dart);

/* Applies a scheme with two hooks to the table at two darts, as where two flanges
 * are sewn and the operator points at a dart of each edge: node 0 falls on dart,
 * the second hook on other.
 * Answers 0, 1, 2, 3, 4, 5, 6, 7, 8, 9, 10 as gmap_edit, but 2 for a scheme with
 * one hook. 3 is also given with the second hook as gmap_node, 8 for either dart,
 * and 9 also where dart and other are the same dart, or their orbits share a dart
 * or are not of one shape.
 * Done carries gmap_orbit, gmap_added and gmap_deleted; the orbit is that of dart.
 * table, store: as gmap_edit leaves them. A new dart has its tag from the orbit of
 * dart where its donor is node 0 or is not named, and from the orbit of other where
 * its donor is the second hook. */
uint64_t gmap_edit2(uint32_t n, uint32_t slots, uint32_t *table, size_t table_len,
                    uint32_t *store, size_t store_len,
                    const uint8_t *scheme, size_t scheme_len, uint32_t dart, uint32_t other);

/* Loads a map file into the table, well-formed or not.
 * Answers 0, 1, 11; 11 also for a file of another n or number of slots than the
 * call's: gmap_file_n and gmap_file_slots say which table a file is for.
 * table: the file's records after 0, with unused records all zero; all zero
 * after 11; unchanged after 1. The old content is never consulted.
 *
 * A load tests the file's form alone. Links are stored as they stand in the
 * file, also a link that is not below slots; with n = 2 a live a3 is its own
 * slot. Whether the map is well-formed, gmap_check_table says. One that is not,
 * a broken map, stays in the table and can be shown: gmap_check_table, gmap_write
 * and gmap_count answer 7 to it, and so do gmap_edit and gmap_edit2, unless they
 * refuse the scheme first (2 to 6); all of them leave the table as loaded. A link
 * of a broken map may lead out of the table, so a program that follows links by
 * itself checks the table first, or tests each link before it follows it.
 *
 *     uint64_t answer = gmap_load(n, slots, table, table_len, file, file_len);
 *     if (gmap_number(answer) == GMAP_DONE)
 *         answer = gmap_check_table(n, slots, table, table_len); */
uint64_t gmap_load(uint32_t n, uint32_t slots, uint32_t *table, size_t table_len,
                   const uint8_t *file, size_t file_len);

/* Writes the table's map as a file.
 * Answers 0, 1, 7, 12; done carries gmap_length.
 * out: the file in its first gmap_length bytes after 0, the rest unchanged; all
 * unchanged after a refusal. gmap_file_length bytes are enough, and so is
 * GMAP_MAX_FILE for every map. */
uint64_t gmap_write(uint32_t n, uint32_t slots, const uint32_t *table, size_t table_len,
                    uint8_t *out, size_t out_len);

/* Counts the map's live darts and its cells.
 * Answers 0, 1, 7, 12; 12 where out has fewer than GMAP_COUNTS words.
 * out: after 0 the counts in its first GMAP_COUNTS words, at GMAP_LIVE to
 * GMAP_VOLUMES, the rest unchanged; all unchanged after a refusal.
 * store: of any content on entry; all zero afterwards, save after 1. */
uint64_t gmap_count(uint32_t n, uint32_t slots, const uint32_t *table, size_t table_len,
                    uint32_t *store, size_t store_len, uint32_t *out, size_t out_len);

/* ---- the beginning of a map file
 *
 * A file's first byte is n. The next two are its number of slots, the lower byte
 * first. These give what a file says, right or not, and 0 where it is shorter
 * than three bytes; gmap_load answers 1 to a 0. */

static inline uint32_t gmap_file_n(const uint8_t *file, size_t file_len) { return file_len < 3 ? 0 : file[0]; }
static inline uint32_t gmap_file_slots(const uint8_t *file, size_t file_len)
{
    return file_len < 3 ? 0 : (uint32_t)file[1] | (uint32_t)file[2] << 8;
}

/* ---- the answer word */

/* The number of the answer: 0 is done, 1 to 12 are refusals. */
static inline uint32_t gmap_number(uint64_t answer)
{
    return answer >> 63 ? (uint32_t)(answer & 255) : 0;
}

/* The number of an answer in words, for a person to read. */
static inline const char *gmap_words(uint32_t number)
{
    switch (number) {
    case GMAP_DONE: return "done";
    case GMAP_BAD_CALL: return "the table's dimension or size is not one the kernel takes";
    case GMAP_BAD_FORM: return "the scheme's bytes are damaged, or it is for another number of darts";
    case GMAP_BAD_HOOK: return "the scheme does not hang together at a node";
    case GMAP_BAD_INCIDENCE: return "the scheme has too many or too few arcs at a node";
    case GMAP_BAD_CYCLE: return "the scheme would tear the map at a node";
    case GMAP_OTHER_DIMENSION: return "the scheme is for maps of another dimension";
    case GMAP_BAD_TABLE: return "the map is not well-formed";
    case GMAP_NO_DART: return "there is no such dart";
    case GMAP_NO_MATCH: return "the scheme does not fit here";
    case GMAP_NO_ROOM: return "the table has too little room";
    case GMAP_BAD_FILE: return "the file is damaged, or for another size of table";
    case GMAP_SHORT_OUTPUT: return "the output is too short";
    default: return "an answer that this version does not know";
    }
}

/* The node of refusals 3, 4 and 5. */
static inline uint32_t gmap_node(uint64_t answer) { return (uint32_t)(answer >> 8 & 255); }

/* The pair of dimensions of refusal 5. */
static inline uint32_t gmap_i(uint64_t answer) { return (uint32_t)(answer >> 16 & 255); }
static inline uint32_t gmap_j(uint64_t answer) { return (uint32_t)(answer >> 24 & 255); }

/* What an edit that is done returns: the size of the orbit, darts added, darts deleted. */
static inline uint32_t gmap_orbit(uint64_t answer) { return (uint32_t)(answer & 2097151); }
static inline uint32_t gmap_added(uint64_t answer) { return (uint32_t)(answer >> 21 & 2097151); }
static inline uint32_t gmap_deleted(uint64_t answer) { return (uint32_t)(answer >> 42 & 2097151); }

/* What a write that is done returns: the number of bytes written. */
static inline uint64_t gmap_length(uint64_t answer) { return answer; }

/* The length of the file of a map with this many live darts, n being 2 or 3. */
static inline size_t gmap_file_length(uint32_t n, uint32_t live) { return 9 + (size_t)live * (6 + 2 * ((size_t)n + 1)); }

#ifdef __cplusplus
}
#endif
#endif
