/*
 * heap.h: a heap in one lent block of memory, for C and C++ (libheap.a).
 *
 * The heap lives in two buffers that the caller owns: the arena, out of which
 * blocks are granted, and the record, which says where everything is. The
 * library itself keeps nothing: no static data, no state between calls, no
 * memory of its own but the stack. Two heaps are two pairs of buffers.
 *
 *     static _Alignas(16) uint8_t arena[49152];
 *     static uint8_t record[HEAP_RECORD_BYTES];
 *
 *     heap_open(arena, sizeof arena, record, sizeof record, KEY,
 *               HEAP_LINKS_MIXED);
 *     struct heap_answer a =
 *         heap_grant(arena, sizeof arena, record, sizeof record, 600);
 *     if (a.no == HEAP_DONE)
 *         memset(arena + a.mem, 0, a.usable);
 *     heap_release(arena, sizeof arena, record, sizeof record, a.mem);
 *
 * KEY is a number of the firmware's own; THE KEY, below, says which to take,
 * and THE EDITION what stands behind it.
 *
 *
 * MEM
 *
 * A block is named by its mem: an offset in bytes from the arena's start, so
 * its bytes are at arena + mem. Mem 0 (HEAP_NULL) is null and names no block;
 * the lowest mem is 16. A mem is a multiple of 16. A pointer arena + mem is
 * therefore aligned to 16 bytes only if the arena is; the library itself asks
 * no alignment of either buffer.
 *
 * The usable bytes of a block are those from mem to mem + usable - 1. There
 * are at least as many as were asked for, often some more, and the holder may
 * use them all. Only usable bytes of a block that is held may be written by
 * the caller; every other byte of the arena, and the whole record, belong to
 * the library from heap_open on. A block's first contents are whatever its
 * bytes held before, and so are those of the bytes by which a resized block
 * has grown: nothing is cleared, but for the word where the key stood (below).
 *
 *
 * WHAT THE CALLER OWES
 *
 *   - arena and record point to arena_len and record_len bytes that may be
 *     read and written (by heap_audit and heap_write_image: read), file to
 *     file_len bytes likewise (by heap_read_image: read), and no pointer is
 *     null, not even with a length of 0;
 *   - the buffers of a call do not overlap;
 *   - during a call nobody else reads or writes its buffers: one call at a
 *     time on one arena, in one thread, and no interrupt handler that calls
 *     for the same arena or writes to one of its blocks. Calls on different
 *     pairs of buffers may run at the same time.
 *
 * Nothing else is asked. Any bytes in the buffers, any lengths and any numbers
 * are answered, and every call returns.
 *
 *
 * WHAT IS ANSWERED, AND WHAT IS LEFT IN THE BUFFERS
 *
 * no is 0 if the call did what it says, else the number of the first line of
 * this table that applies to the call. mem and usable are 0 in every answer
 * but that of a grant or a resize that was not refused; a resize that was a
 * release answers 0 in both.
 *
 *   no  given by                when
 *    1  every call              arena_len is not a multiple of 16 from 32 to
 *                               262,144, or record_len is not 1,584; no byte
 *                               of the buffers is looked at
 *    2  grant, resize           n is above 262,144
 *    3  grant, release, resize, the heap is not sound: heap_audit says where,
 *       emptying, joining       and heap_repair may mend it
 *    4  release, resize         mem is neither 0 nor a live block's: released
 *                               already, never granted, not a block's first
 *                               byte, or outside the arena
 *    5  grant, resize           there is no room for n bytes
 *    6  read_image              the file has fewer than 5 bytes, or does not
 *                               begin with the mark HPI
 *    7  read_image              the file is of a version that is not known
 *   11  repair                  heap_audit names the record or a tile: there is
 *                               nothing to mend the heap by
 *   12  open                    edition is neither 1 nor 2
 *
 * heap_read_image tests 6 and 7 before 1, and heap_write_image and
 * heap_read_image answer 1 for the file too: its buffer, or the length that
 * stands in it, is not the image's.
 *
 *   call             no      arena after it            record after it
 *   open             0       bytes 8 to 15 written     written anew
 *   open             1       as it was                 if record_len is 1,584:
 *                                                      closed (below);
 *                                                      else as it was
 *   open             12      as it was                 closed (below)
 *   grant            0       changed (below)           changed
 *   grant            1 to 3  as it was                 as it was
 *   grant            5       changed (below)           changed
 *   release          0       changed (below); as it    changed; as it was
 *                            was for mem 0             for mem 0
 *   release          1, 3, 4 as it was                 as it was
 *   resize           0       changed (below)           changed
 *   resize           1 to 4  as it was                 as it was
 *   resize           5       changed (below)           changed
 *   emptying         0       changed (below)           changed
 *   emptying         1, 3    as it was                 as it was
 *   joining          0       changed (below)           changed
 *   joining          1, 3    as it was                 as it was
 *   audit            any     as it was                 as it was
 *   repair           0       changed (below); as it    changed; as it was if
 *                            was if it was sound       it was sound
 *   repair           1, 11   as it was                 as it was
 *   write_image      any     as it was                 as it was
 *   read_image       0       the file's; of version 1  the file's; of version
 *                            or 2 also skip links, of  1 to 3 with edition 1,
 *                            1 also keys (below)       of 1 with the key 0
 *   read_image       6, 7, 1 as it was                 as it was
 *
 * The file that heap_read_image reads is as it was; that of heap_write_image is
 * the image with 0, and as it was with 1.
 *
 * "As it was" holds for every single byte. A call that changes the arena
 * writes headers, links, keys and free memory only: no usable byte of a block
 * that is live before and after the call changes, whatever the call and
 * whatever its answer. A block that is resized keeps so the first of its usable
 * bytes, wherever it is then: as many as it has both before and after. Bytes 0
 * to 7 of the arena are never written.
 *
 * A grant or a resize refused with 5 has already sorted free chunks into their
 * bins and joined those of the fast lists, and leaves that done. The cache
 * lists, the last remainder and the live blocks are as they were: the block
 * that was to be resized is live at its mem, with its usable bytes. The same
 * resize made again may succeed, by what was joined behind the block.
 *
 * A closed record says: length 0, every count 0, the key 0, the edition 0,
 * every other word all ones. On an arena of an allowed length every later
 * grant, release, resize, emptying and joining then answers 3, but for a grant
 * or a resize of more than 262,144 bytes, which answers 2, as on every heap;
 * audit names the record, and a repair answers 11.
 *
 *
 * THE RECORD
 *
 * 1,584 bytes, all numbers little-endian: 393 words of 32 bits, which are arena
 * length, top, last remainder, 64 cache heads, 64 cache counts, 10 fast heads,
 * then first and last chunk of bins 1 to 126, all ones meaning none; the key, a
 * number of 64 bits, in bytes 1,572 to 1,579; and the edition, a number of 32
 * bits, in bytes 1,580 to 1,583. Together with the arena's bytes they are the
 * heap: both may be stored, and moved to any other address, and used there. A
 * copy of one without the other is of no use.
 *
 *
 * THE KEY
 *
 * A released block that is kept in the cache (see heap_emptying) has the key in
 * its second word, bytes 8 to 15 from its mem on; when it is taken from there,
 * by a grant, a resize or an emptying, the word becomes 0. So a holder who goes
 * on writing to a block after its release is found by the next call, as long as
 * the block sits in the cache and what is written there is not the key: the
 * heap is then not sound, and audit names the cache list.
 *
 * Any number is a key, and no answer depends on which one it is. Take one that
 * the firmware's data and texts are unlikely to hold: a constant with no
 * pattern in it, drawn once for each product, or a random number at each start.
 * 0 is allowed but weak: memory that was cleared holds it everywhere, and so
 * does the word of a block just taken. The key is no secret, as it stands in
 * the record and in the arena; it finds mistakes, not attacks. Nothing else
 * ever changes it: a heap keeps its key until it is opened again, or another
 * is read in.
 *
 *
 * THE EDITION
 *
 * A released block that is kept in the cache or on a fast list has a link to
 * the next one of its list in its first word, bytes 0 to 7 from its mem on; the
 * last one has all ones there. Edition 1 (HEAP_LINKS_PLAIN) stores these links
 * as they are. Edition 2 (HEAP_LINKS_MIXED) stores each exclusive-or mem /
 * 4,096, the link's own position divided, all ones as well, as glibc does since
 * 2.32: what a holder writes there after its release, an offset or all ones
 * too, is then unlikely to be taken for a link. Below mem 4,096 the two store
 * the same. Heads in the record, the links of bins and skip links are never
 * mixed.
 *
 * No answer depends on the edition, no list, and no byte that a holder has
 * written; only what was never written may differ, as a block's first contents
 * do. It stands in the record, and a heap keeps it until it is opened again, or
 * another is read in; another number there than 1 and 2 is a fault of the
 * record. For new firmware take 2; 1 is for those who look at the arena and
 * expect links as they were before.
 *
 *
 * SKIP LINKS
 *
 * A free chunk of 1,024 bytes or more that is in a bin has two more links, for
 * those who look at the arena, as glibc's fd_nextsize and bk_nextsize: in
 * chunk c, which is mem - 16, the numbers of 64 bits at c + 32 and c + 40. In
 * bins 64 to 126 the first chunk of each size is linked in a ring, at c + 32 to
 * that of the next smaller size, at c + 40 to that of the next larger one, the
 * smallest and the largest being neighbours; a size that is alone in its bin
 * points to itself. The other chunks of a size, and those in bin 1, have all
 * ones in both. A chunk that is granted keeps what stands there, and no answer
 * depends on these links; but the heap is not sound if one of them is wrong,
 * and audit then names the bin.
 *
 *
 * THE IMAGE
 *
 * A heap in a file: the mark HPI (bytes 0 to 2), the version 4 (3 and 4), the
 * arena's length (5 to 8), the record (1,584 bytes from 9 on), the arena (from
 * 1,593 on), and nothing behind it. Numbers are little-endian. A heap that is
 * not sound is written like any other, and read back byte for byte with the
 * same audit: so a stuck logger's heap can be sent home and looked at there
 * (./heapimage). A heap that is read in and sound answers every later call as
 * the one that was written.
 *
 * Older images are read as well. In one of version 3, from before there were
 * editions, or 2, from before there were skip links, the record has 1,580
 * bytes, and the arena stands at 1,589; in one of version 1, from before there
 * was a key, the record has 1,572 bytes, and the arena stands at 1,581. The
 * buffer for the record has 1,584 bytes all the same; the edition is then 1,
 * and of version 1 the key 0, whether the heap is sound or not. The answer is
 * that of an audit by the rules of the image's version: version 1 asks for
 * neither keys nor skip links, version 2 for keys alone, none of them for an
 * edition. If that says sound, what the heap lacks is written, so that later
 * calls find it sound too: of versions 1 and 2 the skip links, and of version 1
 * the key, 0, in the second word of every cached chunk. The arena of one that
 * is not sound is copied and nothing more; the next call may then find wrong
 * keys and skip links as well.
 *
 *
 * SOUND AND NOT SOUND
 *
 * Every grant, release, resize, emptying and joining, if it is not refused with
 * 1 or 2, first checks the whole heap and refuses it, before the first write,
 * if it is not sound; so a stray write is found by the next such call and makes
 * no further harm. A heap that is not sound stays so until it is mended
 * (below), or opened again, or another is read in. A heap that was opened, and
 * whose holders write in their usable bytes only, is always sound. There is one
 * limit: an overrun or stray write that happens to leave a sound heap cannot be
 * told from a sound heap.
 *
 *
 * THE REPAIR
 *
 * After an answer 3 ask heap_audit. If it names a cache list, a fast list, a
 * bin or a flag, heap_repair makes the heap sound again, and the firmware goes
 * on with the blocks that it holds. If it names the record or a tile, a repair
 * has nothing to go by and answers 11; then only an open helps. Before either,
 * heap_write_image keeps the heap as it is for those who look for the cause.
 *
 * A repair walks each list up to its first bad chunk. The chunks reached so are
 * free; every other chunk but the top counts as held, also a free one that
 * stands behind a bad one. What counts as held is given to nobody else, and so
 * some free room may stay lost, until its mem is released by hand (./heapimage
 * shows what is live) or the arena is opened anew. A wrong count, last, skip
 * link or flag loses nothing. Held blocks keep their mems and all their usable
 * bytes, and are resized and released as usual. Free neighbours are joined,
 * those before the top with it, and what remains is in bin 1, the lowest first;
 * the cache and the fast lists are empty. Key and edition stay.
 *
 * There are two limits. What a stray write did inside a held block a repair can
 * not know; only its holder can tell. And a held block to which a stray write
 * has led a list, and which may stand there, counts as free. A heap_resize of a
 * block to the usable bytes that it has changes nothing, and right after the
 * repair answers 4 if the block is not held any more.
 *
 *
 * COST
 *
 * The check walks over all chunks, so a call takes time in proportion to
 * their number and to the arena's length; a resize that moves a block copies
 * its usable bytes as well, and a repair, linear in the arena too, takes the
 * time of two to four audits. A release that makes one free piece of 65,536
 * bytes or more, the top included, also joins the chunks of the fast lists, as
 * some grants and every joining do; so does a resize, or an emptying, with what
 * it releases. Give a call of grant, release, resize, emptying, joining, audit,
 * repair or read_image HEAP_STACK_BYTES of stack. The most that was measured is
 * 23,697, by a resize, and 21,985 by any other, over 600 random heaps, each
 * also damaged and repaired, and three where a release, a resize and an
 * emptying join the fast lists, of which 20,000 are marks, one for each 16
 * bytes of an arena in four sizes of array, of which a repair has the largest
 * alone, and 1,584 the record's words, which a resize that is a grant or a
 * release has twice. heap_open and heap_write_image need no marks; the most
 * measured is 664. An image is written or read in time in proportion to the
 * arena's length. No call is recursive, none takes memory from elsewhere, and
 * none calls back.
 *
 * libheap.a is x86-64 code by the System V calling convention. From whoever
 * links it, it needs memcpy and memset, and nothing else.
 */
#ifndef HEAP_H
#define HEAP_H

#include <stddef.h>
#include <stdint.h>

#ifdef __cplusplus
extern "C" {
#endif

/* The record's size in bytes; no other is accepted. */
#define HEAP_RECORD_BYTES 1584

/*
 * The size in bytes of the image, as it is written, of a heap whose arena has
 * arena_len bytes. One of version 2 or 3 has 4 bytes less, one of version 1 has
 * 12 bytes less.
 */
#define HEAP_IMAGE_BYTES(arena_len) (9 + HEAP_RECORD_BYTES + (arena_len))

/* The stack to give a call. */
#define HEAP_STACK_BYTES 24576

/* Allowed arena lengths: multiples of the step from the least to the most. */
#define HEAP_ARENA_MIN 32
#define HEAP_ARENA_MAX 262144
#define HEAP_ARENA_STEP 16

/* The largest n that is not refused with 2. */
#define HEAP_REQUEST_MAX 262144

/* The editions, for heap_open; THE EDITION, above, says which to take. */
#define HEAP_LINKS_PLAIN 1
#define HEAP_LINKS_MIXED 2

/* The mem that names no block. */
#define HEAP_NULL 0

/* The numbers in heap_answer.no and heap_fault.no. */
enum heap_no {
    HEAP_DONE = 0,
    HEAP_BAD_SHAPE = 1,
    HEAP_TOO_LARGE = 2,
    HEAP_NOT_SOUND = 3,
    HEAP_NOT_LIVE = 4,
    HEAP_NO_ROOM = 5,
    HEAP_NO_IMAGE = 6,
    HEAP_NO_VERSION = 7,
    HEAP_NOT_MENDED = 11,
    HEAP_NO_EDITION = 12
};

struct heap_answer {
    uint32_t no;     /* 0, or the refusal's number */
    uint32_t mem;    /* the block granted or resized, else 0 */
    uint32_t usable; /* the number of its usable bytes, else 0 */
};

/* The numbers in heap_fault.kind, and what heap_fault.number then is. */
enum heap_kind {
    HEAP_SOUND = 0,        /* 0 */
    HEAP_FAULT_RECORD = 1, /* 0: the record's length is not the arena's, or
                              its edition neither 1 nor 2 */
    HEAP_FAULT_TILE = 2,   /* offset of a chunk with a wrong size word, or of
                              the last chunk if it is not the record's top */
    HEAP_FAULT_CACHE = 3,  /* the cache list, 0 to 63: also for a key that is
                              not the record's */
    HEAP_FAULT_FAST = 4,   /* the fast list, 0 to 9 */
    HEAP_FAULT_BIN = 5,    /* the bin, 1 to 126: also for a wrong skip link */
    HEAP_FAULT_FLAG = 6    /* offset of a chunk that says something wrong of
                              the one before, or is free beside a free one */
};

struct heap_fault {
    uint32_t no;     /* 0, or the refusal's number: kind and number are 0 */
    uint32_t kind;   /* HEAP_SOUND, or the kind of the first fault */
    uint32_t number; /* where it is: an offset in the arena, or a list */
};

/*
 * Makes a heap without blocks of the two buffers, whatever they hold. On a
 * heap in use it forgets all blocks. The heap has the key from then on; any
 * number will do, and THE KEY, above, says which to take. It is of that edition
 * from then on, HEAP_LINKS_PLAIN or HEAP_LINKS_MIXED. Refused with 1 or 12.
 */
struct heap_answer heap_open(uint8_t *arena, size_t arena_len,
                             uint8_t *record, size_t record_len,
                             uint64_t key, uint32_t edition);

/*
 * Grants a block of at least n usable bytes; n may be 0. The block was not
 * live before, and overlaps no other. Refused with 1, 2, 3 or 5.
 */
struct heap_answer heap_grant(uint8_t *arena, size_t arena_len,
                              uint8_t *record, size_t record_len, uint64_t n);

/*
 * Takes a block back. Mem 0 does nothing and is answered with 0 on a sound
 * heap. Refused with 1, 3 or 4.
 */
struct heap_answer heap_release(uint8_t *arena, size_t arena_len,
                                uint8_t *record, size_t record_len,
                                uint64_t mem);

/*
 * Gives the block at mem at least n usable bytes, more than it has or fewer,
 * and answers its mem and its usable bytes as they are then. A block that is
 * large enough stays where it is, and so does one that finds what it lacks
 * right behind it; any other is moved, and its old mem names no block any
 * more. The first usable bytes go with it, as many as the smaller of its old
 * and its new number of them; no usable byte of another live block changes.
 *
 * Mem 0 is a grant of n bytes. Any other mem with n 0 is a release, answered
 * with 0, 0, 0. Refused with 1, 2, 3, 4 or 5: a live block at mem is then live
 * there as before, with all its usable bytes.
 */
struct heap_answer heap_resize(uint8_t *arena, size_t arena_len,
                               uint8_t *record, size_t record_len,
                               uint64_t mem, uint64_t n);

/*
 * Empties the cache. Released blocks are kept apart for a while, ready for the
 * next grant of their size: those of up to 1,032 usable bytes in the cache, as
 * long as it has fewer than seven of the size, else those of up to 120 in the
 * fast lists. An emptying moves the blocks of up to 120 usable bytes from the
 * cache to the fast lists, and joins the others with the free memory beside
 * them. Refused with 1 or 3.
 */
struct heap_answer heap_emptying(uint8_t *arena, size_t arena_len,
                                 uint8_t *record, size_t record_len);

/*
 * Joins what is in the fast lists with the free memory beside it, and clears
 * the last remainder. What is in the cache stays there, so it is the second
 * step: after an emptying and, with no grant, release or resize between, a
 * joining, neither refused, each stretch between held blocks is one free chunk,
 * and with no block held the heap answers every later call as if newly opened.
 * Such a call between the two does no harm, as the heap is sound there; it only
 * ends that promise, even if it is refused. Refused with 1 or 3.
 */
struct heap_answer heap_joining(uint8_t *arena, size_t arena_len,
                                uint8_t *record, size_t record_len);

/*
 * Says whether the heap is sound, or names its first fault, in the order:
 * record, chunks from offset 0, cache lists, fast lists, bins, flags from
 * offset 0. Writes nothing. Answers 1 in no for a bad shape.
 */
struct heap_fault heap_audit(const uint8_t *arena, size_t arena_len,
                             const uint8_t *record, size_t record_len);

/*
 * Makes a heap sound in which heap_audit names a list or a flag: THE REPAIR,
 * above, says which blocks are held then. Leaves a sound heap as it is. Refused
 * with 1, or with 11 if heap_audit names the record or a tile.
 */
struct heap_answer heap_repair(uint8_t *arena, size_t arena_len,
                               uint8_t *record, size_t record_len);

/*
 * Writes the heap's image, of version 4, whether the heap is sound or not.
 * Refused with 1, if arena or record has no allowed length, or file_len is not
 * HEAP_IMAGE_BYTES(arena_len); then nothing is written.
 */
struct heap_answer heap_write_image(const uint8_t *arena, size_t arena_len,
                                    const uint8_t *record, size_t record_len,
                                    uint8_t *file, size_t file_len);

/*
 * Reads an image of version 4: arena and record are then those that were
 * written, and the answer is what heap_audit says of them. Or an older one: THE
 * IMAGE, above, says what becomes of it. Refused with 6, 7 or 1, in that
 * order; then nothing is written. 1: file_len is under 9; the length in the
 * file is no allowed arena length; file_len is not the image's of that version
 * and length; arena_len is another length; record_len is not
 * HEAP_RECORD_BYTES.
 */
struct heap_fault heap_read_image(const uint8_t *file, size_t file_len,
                                  uint8_t *arena, size_t arena_len,
                                  uint8_t *record, size_t record_len);

#ifdef __cplusplus
}
#endif

#endif
