/* coding.h: a text as chunks, any k of which give the text back, and each of which proves its place
 * under one root of 32 bytes; and the same code over shards, with no root.
 *
 * The caller owns all buffers. A call takes memory while it works, and gives all of it back before
 * it returns; where there is none it answers BUZ_NO_MEMORY. There is no state between calls, and
 * any threads may call at once. Where a call is refused, no buffer of the caller's has changed; a
 * number that tells how much room is needed is written with BUZ_NO_ROOM alone.
 *
 * A pointer may be null where the length or the count beside it is 0: that is an empty input, or
 * no room. Nothing checks the rest: no other pointer may be null; no buffer that is written may
 * overlap another; malloc, realloc and free have to be of one family.
 *
 * What calls cost, n bytes of text in k + m shards of w = (n + 4) / k bytes, rounded up to an even
 * number. Where k and m are both at least 64, recoveries take about (k + m) * log2(k + m) * w
 * steps. Else they take k * m * w, and k * k beside it whatever w is: an empty text under k 65534
 * and m 1 takes 24 seconds. Rebuilding t shards takes k * t * w and k * k, and often less from k
 * 1024 on. Hashing takes (k + m) * w. Memory: some two to four times (k + m) * w. docs/SPEED.md has
 * times.
 *
 * The chunks' bytes are those in which the chain sends them; docs/FORMATS.md has them.
 */
#ifndef BUZ_CODING_H
#define BUZ_CODING_H

#include <stdbool.h>
#include <stddef.h>
#include <stdint.h>

/* The version of this header: 10000 times the first number, 100 times the second, and the third.
 * The first rises where a program has to change, the second where calls are added. */
#define BUZ_VERSION 10000
#define BUZ_VERSION_TEXT "1.0.0"

#define BUZ_ROOT_LEN 32
#define BUZ_STATUS_TEXT_LEN 32 /* room for what any status means, with the zero behind it */

#ifdef __cplusplus
extern "C" {
#endif

/* What a call answers. */
typedef enum buz_status {
    BUZ_OK = 0,
    BUZ_NO_MEMORY = 1,       /* memory ran out */
    BUZ_NO_CONFIG = 2,       /* k or m is 0 */
    BUZ_TOO_MANY_SHARDS = 3, /* k + m is above 65535 */
    BUZ_TOO_LONG = 4,        /* the text, or its shards together, are too long */
    BUZ_NO_ROOM = 5,         /* a buffer is too small */
    BUZ_NO_CHUNK = 6,        /* the bytes aren't those of a chunk */
    BUZ_BAD_INDEX = 7,       /* the chunk is another one, or there is no shard of this index */
    BUZ_BAD_WIDTH = 8,       /* a shard's width is 0, odd, or another than the first one's */
    BUZ_BAD_PROOF = 9,       /* the chunk doesn't stand under the root */
    BUZ_TOO_FEW = 10,        /* fewer than k chunks or shards */
    BUZ_DUPLICATE = 11,      /* two chunks or shards of one index */
    BUZ_INCONSISTENT = 12,   /* no text has these chunks and this root */
    BUZ_OTHER_ROOT = 13      /* never answered: each chunk is checked under the root given */
} buz_status;

/* A caller's bytes, which are read. */
typedef struct buz_bytes {
    const uint8_t *bytes;
    size_t length;
} buz_bytes;

/* A caller's bytes, which are written: `length` of them may be. */
typedef struct buz_room {
    uint8_t *bytes;
    size_t length;
} buz_room;

/* The version of the library: BUZ_VERSION of the header that it was made with. */
uint32_t buz_version(void);

/* Writes what a status means in English, as much of it as `room` bytes hold, with a zero behind it.
 * Returns how many bytes all of it has, with the zero: at most BUZ_STATUS_TEXT_LEN. */
size_t buz_status_text(uint32_t status, char *text, size_t room);

/* As many bytes as any chunk of a text of at most `size` bytes has, or more: 12, the shard, and 32
 * for each level of a tree over k + m leaves. 0 exactly where such a text isn't encoded. So (k +
 * m) * buz_chunk_len(k, m, size) bytes, a product that doesn't wrap, are room for buz_encode of
 * any text of at most `size` bytes. */
size_t buz_chunk_len(uint16_t k, uint16_t m, size_t size);

/* Encodes a text into k + m chunks, any k of which give it back.
 *
 * The chunks are written end to end at `chunks`, of which `room` bytes may be used, and the size of
 * each at `sizes`, of which `size_count` may be used: k + m are. What is behind them stays. `used`
 * tells how many bytes the chunks have together. Answers BUZ_OK or the first that holds:
 * BUZ_NO_CONFIG, BUZ_TOO_MANY_SHARDS, BUZ_TOO_LONG, BUZ_NO_ROOM where `room` is below
 * (k + m) * buz_chunk_len(k, m, length), which `used` then tells, or `size_count` below k + m.
 * BUZ_NO_MEMORY may come after these. Nothing is coded before them. */
buz_status buz_encode(uint16_t k, uint16_t m, const uint8_t *text, size_t length,
                      uint8_t *chunks, size_t room, size_t *used,
                      size_t *sizes, size_t size_count, uint8_t root[BUZ_ROOT_LEN]);

/* The root that buz_encode gives a text. Answers as buz_encode does, but for BUZ_NO_ROOM. */
buz_status buz_root(uint16_t k, uint16_t m, const uint8_t *text, size_t length,
                    uint8_t root[BUZ_ROOT_LEN]);

/* The index of the chunk that these bytes are, under whatever root: 0 to k - 1 carry the text.
 * Answers BUZ_OK, BUZ_NO_CHUNK or BUZ_NO_MEMORY. That the bytes are a chunk says nothing of where
 * they come from: buz_check does. */
buz_status buz_chunk_index(const uint8_t *chunk, size_t size, uint16_t *index);

/* Checks that bytes are the chunk at an index under a root. Nothing is written. Answers BUZ_OK or
 * the first that holds: BUZ_NO_CONFIG, BUZ_NO_CHUNK, BUZ_TOO_MANY_SHARDS, BUZ_BAD_INDEX where there
 * is no such index, BUZ_BAD_WIDTH, BUZ_BAD_PROOF for one of another number of chunks, BUZ_BAD_INDEX
 * for another chunk, BUZ_BAD_PROOF. BUZ_NO_MEMORY may come at any point. */
buz_status buz_check(uint16_t k, uint16_t m, const uint8_t root[BUZ_ROOT_LEN], uint16_t index,
                     const uint8_t *chunk, size_t size);

/* The text that has this root, from at least k of its chunks in any order.
 *
 * Writes the text at `text`, of which `room` bytes may be used, and its size. What is behind the
 * text stays. Answers BUZ_OK or the first that holds: BUZ_NO_CONFIG; BUZ_NO_ROOM where the first
 * chunk stands under the root, and even the shortest text with shards of its width, of w bytes,
 * has more than `room` bytes: k * (w - 2) - 3; `size` then tells k * w - 4, the size of the
 * longest; what buz_check answers to the first chunk that doesn't stand under the root at its own
 * index; then BUZ_TOO_MANY_SHARDS, BUZ_TOO_FEW, BUZ_BAD_WIDTH, BUZ_DUPLICATE, BUZ_INCONSISTENT as
 * the scheme has them, and BUZ_NO_ROOM where the text has more than `room` bytes; `size` then
 * tells how many. BUZ_NO_MEMORY may come at any point. Put chunks that may be forged through
 * buz_check before. k times the size of the largest chunk is always room enough. */
buz_status buz_decode(uint16_t k, uint16_t m, const uint8_t root[BUZ_ROOT_LEN],
                      const buz_bytes *chunks, size_t count,
                      uint8_t *text, size_t room, size_t *size);

/* The m recovery shards of k shards, with no root and no tree: those at the indices k to k + m - 1.
 *
 * Of `shards` the first k are read, all of one even width; of `recoveries` the first m are written,
 * as many bytes each as a shard has. What is behind them stays. A shard is a list of symbols of two
 * big-endian bytes. Answers BUZ_OK or the first that holds: BUZ_NO_CONFIG, BUZ_TOO_MANY_SHARDS,
 * BUZ_TOO_FEW, BUZ_BAD_WIDTH, BUZ_TOO_LONG where k + m shards are 2^63 bytes or more, BUZ_NO_ROOM
 * where there are fewer than m buffers or one is shorter than a shard. BUZ_NO_MEMORY may come after
 * these. */
buz_status buz_encode_shards(uint16_t k, uint16_t m, const buz_bytes *shards, size_t count,
                             buz_room *recoveries, size_t room_count);

/* Any shards, rebuilt from k of the k + m, with no root and no tree.
 *
 * Of `shards` the first k are read, all of one even width, which stand at the first k of `indices`.
 * Shard `targets[i]` is written in `buffers[i]`. A target may be a shard that is there, or come
 * twice. Answers BUZ_OK or the first that holds: BUZ_NO_CONFIG, BUZ_TOO_MANY_SHARDS, BUZ_TOO_FEW
 * where there are fewer than k shards, BUZ_BAD_WIDTH, BUZ_TOO_LONG, BUZ_NO_ROOM where there are
 * fewer buffers than targets or one is shorter than a shard, BUZ_TOO_LONG, BUZ_BAD_INDEX of a
 * target, what the first of all indices answers that isn't below k + m, BUZ_BAD_INDEX, or was given
 * before, BUZ_DUPLICATE, and BUZ_TOO_FEW where there are fewer than k. BUZ_NO_MEMORY may come after
 * BUZ_NO_ROOM. */
buz_status buz_rebuild_shards(uint16_t k, uint16_t m, const uint16_t *indices, size_t index_count,
                              const buz_bytes *shards, size_t count,
                              const uint16_t *targets, size_t target_count,
                              buz_room *buffers, size_t room_count);

/* An array of `count` pointers to `width` bytes each, as buz_bytes and as buz_room. */
static inline void buz_bytes_at(buz_bytes *bytes, const uint8_t *const *pointers, size_t count,
                                size_t width)
{
    for (size_t i = 0; i < count; i++) {
        bytes[i].bytes = pointers[i];
        bytes[i].length = width;
    }
}

static inline void buz_room_at(buz_room *room, uint8_t *const *pointers, size_t count,
                               size_t width)
{
    for (size_t i = 0; i < count; i++) {
        room[i].bytes = pointers[i];
        room[i].length = width;
    }
}

/* What the library takes memory by. A library that tools/coding_c installs has all three, over
 * malloc, realloc and free; so has the kit's liblibc_c.a. Who links libcoding_c.a with neither
 * supplies them. A block is aligned to 16 bytes, or to each power of two that divides its size.
 * Where there is no memory `ok` is false, and `block` any pointer but null. `align` is 16 at most.
 * A size of 0 asks for a block that can be given back. */
typedef struct rattle_tried {
    bool ok;
    void *block;
} rattle_tried;

rattle_tried rattle_alloc(size_t size, size_t align);
/* `kept` bytes of the block stay as they are. Where there is no memory the block is as it was. */
rattle_tried rattle_realloc(void *block, size_t kept, size_t size, size_t align);
void rattle_dealloc(void *block);

#ifdef __cplusplus
}
#endif

#endif
