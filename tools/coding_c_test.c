/* Tests of the coding calls from C. With WRAPPED every allocation of the library goes through the
 * wrappers below (-Wl,--wrap=malloc,--wrap=realloc,--wrap=free), which count what is held and can
 * fail the Nth. With OWN_HEAP the three functions by which the library takes memory are the ones
 * below, and no archive beside the library's own is linked. */
#include "coding.h"

#include <stdio.h>
#include <stdlib.h>
#include <string.h>

#ifdef WRAPPED
static long held, until_failure = -1;

void *__real_malloc(size_t);
void *__real_realloc(void *, size_t);
void __real_free(void *);

static int fails(void) { return until_failure >= 0 && until_failure-- == 0; }

void *__wrap_malloc(size_t n)
{
    void *p = fails() ? NULL : __real_malloc(n);
    held += p != NULL;
    return p;
}

void *__wrap_realloc(void *old, size_t n)
{
    void *p = fails() ? NULL : __real_realloc(old, n);
    held += old == NULL && p != NULL;
    return p;
}

void __wrap_free(void *p)
{
    held -= p != NULL;
    __real_free(p);
}
#endif

#ifdef OWN_HEAP
static uint8_t nothing;

rattle_tried rattle_alloc(size_t size, size_t align)
{
    void *block = malloc(size ? size : align);
    return (rattle_tried){ block != NULL, block ? block : &nothing };
}

rattle_tried rattle_realloc(void *old, size_t kept, size_t size, size_t align)
{
    void *block = realloc(old, size ? size : align);
    (void)kept;
    return (rattle_tried){ block != NULL, block ? block : &nothing };
}

void rattle_dealloc(void *block) { free(block); }
#endif

static int failures, tests;

#define CHECK(what) do { tests++; if (!(what)) { failures++; \
    printf("%s:%d: failed: %s\n", __FILE__, __LINE__, #what); } } while (0)

static uint32_t seed = 1;

static uint32_t next(void)
{
    seed = seed * 1664525u + 1013904223u;
    return seed >> 8;
}

typedef struct {
    uint16_t k, m;
    size_t length, room;
    uint8_t *text, *bytes, *back;
    size_t *sizes;
    buz_bytes *chunks;
    uint8_t root[BUZ_ROOT_LEN];
} Encoding;

static Encoding make(uint16_t k, uint16_t m, size_t length)
{
    Encoding e = { .k = k, .m = m, .length = length };
    size_t n = (size_t)k + m;
    e.room = n * buz_chunk_len(k, m, length);
    e.text = malloc(length + 1);
    e.back = malloc(length + 1);
    e.bytes = malloc(e.room);
    e.sizes = malloc(n * sizeof *e.sizes);
    e.chunks = malloc(n * sizeof *e.chunks);
    for (size_t i = 0; i < length; i++) e.text[i] = (uint8_t)next();
    size_t used = 0, at = 0;
    CHECK(buz_encode(k, m, e.text, length, e.bytes, e.room, &used, e.sizes, n, e.root) == BUZ_OK);
    for (size_t i = 0; i < n; i++) {
        e.chunks[i] = (buz_bytes){ e.bytes + at, e.sizes[i] };
        CHECK(e.sizes[i] <= buz_chunk_len(k, m, length));
        at += e.sizes[i];
    }
    CHECK(at == used && used <= e.room);
    return e;
}

static void let_go(Encoding *e)
{
    free(e->text); free(e->back); free(e->bytes); free(e->sizes); free(e->chunks);
}

static void shuffle(buz_bytes *a, size_t n)
{
    for (size_t i = n; i > 1; i--) {
        size_t j = next() % i;
        buz_bytes t = a[i - 1]; a[i - 1] = a[j]; a[j] = t;
    }
}

static void round_trip(uint16_t k, uint16_t m, size_t length)
{
    Encoding e = make(k, m, length);
    size_t n = (size_t)k + m, got = 77;
    uint8_t root[BUZ_ROOT_LEN] = { 0 };
    CHECK(buz_root(k, m, e.text, length, root) == BUZ_OK && memcmp(root, e.root, 32) == 0);
    for (size_t i = 0; i < n; i++) {
        uint16_t index = 7777;
        CHECK(buz_chunk_index(e.chunks[i].bytes, e.chunks[i].length, &index) == BUZ_OK);
        CHECK(index == i);
        CHECK(buz_check(k, m, e.root, index, e.chunks[i].bytes, e.chunks[i].length) == BUZ_OK);
        if (n > 1)
            CHECK(buz_check(k, m, e.root, (uint16_t)((i + 1) % n), e.chunks[i].bytes,
                            e.chunks[i].length) == BUZ_BAD_INDEX);
    }
    CHECK(buz_decode(k, m, e.root, e.chunks, n, e.back, length + 1, &got) == BUZ_OK);
    CHECK(got == length && memcmp(e.back, e.text, length) == 0);
    for (int round = 0; round < 4; round++) { /* all but k are lost */
        shuffle(e.chunks, n);
        got = 77;
        memset(e.back, 0xee, length + 1);
        CHECK(buz_decode(k, m, e.root, e.chunks, k, e.back, length + 1, &got) == BUZ_OK);
        CHECK(got == length && memcmp(e.back, e.text, length) == 0);
        CHECK(e.back[length] == 0xee); /* nothing behind the text is written */
    }
    got = 77;
    memset(e.back, 0xee, length + 1);
    CHECK(buz_decode(k, m, e.root, e.chunks, k - 1, e.back, length + 1, &got) == BUZ_TOO_FEW);
    CHECK(got == 77);
    if (length > 0) {
        CHECK(buz_decode(k, m, e.root, e.chunks, k, e.back, length - 1, &got) == BUZ_NO_ROOM);
        CHECK(got >= length && got <= length + 2u * k);
        CHECK(buz_decode(k, m, e.root, e.chunks, k, NULL, 0, &got) == BUZ_NO_ROOM);
        CHECK(got >= length && got <= length + 2u * k);
        got = 77;
    }
    if (k > 1) {
        buz_bytes second = e.chunks[1];
        e.chunks[1] = e.chunks[0];
        CHECK(buz_decode(k, m, e.root, e.chunks, k, e.back, length + 1, &got) == BUZ_DUPLICATE);
        e.chunks[1] = second;
    }
    CHECK(got == 77);
    for (size_t i = 0; i <= length; i++) if (e.back[i] != 0xee) { CHECK(0); break; }
    let_go(&e);
}

static void forged(void)
{
    Encoding e = make(3, 4, 1000);
    size_t got = 77, n = 7;
    for (size_t i = 0; i < n; i++) { /* each bit of each chunk */
        uint8_t *bytes = (uint8_t *)e.chunks[i].bytes;
        for (size_t bit = 0; bit < 8 * e.chunks[i].length; bit++) {
            bytes[bit / 8] ^= (uint8_t)(1 << bit % 8);
            uint32_t status = buz_check(3, 4, e.root, (uint16_t)i, bytes, e.chunks[i].length);
            if (status == BUZ_OK || status == BUZ_NO_MEMORY) { CHECK(0); }
            if (bit % 97 == 0 && i < 3)
                CHECK(buz_decode(3, 4, e.root, e.chunks, 3, e.back, 1000, &got) != BUZ_OK);
            bytes[bit / 8] ^= (uint8_t)(1 << bit % 8);
        }
        for (size_t cut = 0; cut < e.chunks[i].length; cut++)
            if (buz_check(3, 4, e.root, (uint16_t)i, bytes, cut) != BUZ_NO_CHUNK) { CHECK(0); }
    }
    for (size_t bit = 0; bit < 256; bit++) { /* each bit of the root */
        e.root[bit / 8] ^= (uint8_t)(1 << bit % 8);
        CHECK(buz_check(3, 4, e.root, 0, e.chunks[0].bytes, e.chunks[0].length) == BUZ_BAD_PROOF);
        CHECK(buz_decode(3, 4, e.root, e.chunks, 7, e.back, 1000, &got) == BUZ_BAD_PROOF);
        e.root[bit / 8] ^= (uint8_t)(1 << bit % 8);
    }
    CHECK(got == 77);
    let_go(&e);
}

static void refused(void)
{
    uint8_t text[64] = { 1 }, chunks[4096], root[32], was[4096];
    size_t sizes[8] = { 5, 5, 5, 5, 5, 5, 5, 5 }, used = 77;
    uint16_t index = 7777;
    memset(chunks, 0xee, sizeof chunks); memset(was, 0xee, sizeof was); memset(root, 0xee, 32);
    size_t room = 5 * buz_chunk_len(2, 3, 64);
    CHECK(buz_chunk_len(2, 3, 64) == 12 + 34 + 32 * 3); /* a shard of 34 bytes, 3 levels */
    CHECK(room <= sizeof chunks);
    CHECK(buz_chunk_len(0, 3, 64) == 0 && buz_chunk_len(2, 0, 64) == 0);
    CHECK(buz_chunk_len(65535, 1, 64) == 0 && buz_chunk_len(65534, 1, 64) > 0);
    CHECK(buz_chunk_len(2, 3, (size_t)1 << 32) == 0);
    CHECK(buz_encode(0, 3, text, 64, chunks, room, &used, sizes, 5, root) == BUZ_NO_CONFIG);
    CHECK(buz_encode(2, 0, text, 64, chunks, room, &used, sizes, 5, root) == BUZ_NO_CONFIG);
    CHECK(buz_encode(65535, 1, text, 64, chunks, room, &used, sizes, 5, root)
          == BUZ_TOO_MANY_SHARDS);
    CHECK(buz_root(0, 3, text, 64, root) == BUZ_NO_CONFIG);
    CHECK(buz_root(65535, 1, text, 64, root) == BUZ_TOO_MANY_SHARDS);
    CHECK(used == 77);
    CHECK(buz_encode(2, 3, text, 64, chunks, room - 1, &used, sizes, 5, root) == BUZ_NO_ROOM);
    CHECK(used == room);
    used = 77;
    CHECK(buz_encode(2, 3, text, 64, chunks, room, &used, sizes, 4, root) == BUZ_NO_ROOM);
    CHECK(used == room);
    CHECK(memcmp(chunks, was, sizeof was) == 0 && memcmp(root, was, 32) == 0 && sizes[0] == 5);
    CHECK(buz_encode(2, 3, text, 64, chunks, room, &used, sizes, 8, root) == BUZ_OK);
    CHECK(sizes[5] == 5 && sizes[7] == 5);
    CHECK(used == sizes[0] + sizes[1] + sizes[2] + sizes[3] + sizes[4]);
    CHECK(memcmp(chunks + used, was, sizeof was - used) == 0);
    CHECK(buz_check(2, 3, root, 5, chunks, sizes[0]) == BUZ_BAD_INDEX);
    CHECK(buz_check(0, 3, root, 0, chunks, sizes[0]) == BUZ_NO_CONFIG);
    CHECK(buz_check(2, 4, root, 0, chunks, sizes[0]) == BUZ_BAD_PROOF);
    CHECK(buz_check(2, 3, root, 0, chunks, sizes[0] + 1) == BUZ_NO_CHUNK);
    CHECK(buz_chunk_index(chunks, sizes[0] + 1, &index) == BUZ_NO_CHUNK && index == 7777);
}

/* null beside a length or a count of 0 is an empty input, or no room */
static void null(void)
{
    size_t room = 4 * buz_chunk_len(1, 3, 0), sizes[4], used = 77, got = 77;
    uint8_t *chunks = malloc(room), root[32], other[32], back[1];
    uint16_t index = 7777;
    CHECK(buz_encode(1, 3, NULL, 0, NULL, 0, &used, NULL, 0, root) == BUZ_NO_ROOM && used == room);
    CHECK(buz_encode(1, 3, NULL, 0, chunks, room, &used, sizes, 4, root) == BUZ_OK);
    CHECK(buz_root(1, 3, NULL, 0, other) == BUZ_OK && memcmp(root, other, 32) == 0);
    buz_bytes some[1] = { { chunks, sizes[0] } }, none[1] = { { NULL, 0 } };
    CHECK(buz_decode(1, 3, root, some, 1, NULL, 0, &got) == BUZ_OK && got == 0);
    CHECK(buz_decode(1, 3, root, NULL, 0, back, 1, &got) == BUZ_TOO_FEW);
    CHECK(buz_decode(1, 3, root, none, 1, back, 1, &got) == BUZ_NO_CHUNK && got == 0);
    CHECK(buz_check(1, 3, root, 0, NULL, 0) == BUZ_NO_CHUNK);
    CHECK(buz_chunk_index(NULL, 0, &index) == BUZ_NO_CHUNK && index == 7777);
    CHECK(buz_status_text(BUZ_OK, NULL, 0) == 3);
    CHECK(buz_encode_shards(1, 1, NULL, 0, NULL, 0) == BUZ_TOO_FEW);
    CHECK(buz_encode_shards(1, 1, none, 1, NULL, 0) == BUZ_BAD_WIDTH);
    buz_room nowhere[1] = { { NULL, 0 } };
    buz_bytes two[1] = { { chunks, 2 } };
    CHECK(buz_encode_shards(1, 1, two, 1, NULL, 0) == BUZ_NO_ROOM);
    CHECK(buz_encode_shards(1, 1, two, 1, nowhere, 1) == BUZ_NO_ROOM);
    CHECK(buz_rebuild_shards(1, 1, NULL, 0, two, 1, NULL, 0, NULL, 0) == BUZ_TOO_FEW);
    CHECK(buz_rebuild_shards(1, 1, &index, 1, two, 1, NULL, 0, NULL, 0) == BUZ_BAD_INDEX);
    index = 1;
    CHECK(buz_rebuild_shards(1, 1, &index, 1, two, 1, NULL, 0, NULL, 0) == BUZ_OK);
    free(chunks);
}

/* the shards of an encoding, without their chunks: recoveries are made again, and any rebuilt */
static void shards(uint16_t k, uint16_t m, size_t width)
{
    size_t n = (size_t)k + m, length = k * width - 4;
    Encoding e = make(k, m, length);
    uint8_t *rows = malloc(n * (width + 1)), **rooms = malloc(n * sizeof *rooms);
    const uint8_t **pointers = malloc(n * sizeof *pointers);
    buz_bytes *bytes = malloc(n * sizeof *bytes);
    buz_room *room = malloc(n * sizeof *room);
    uint16_t *indices = malloc(n * sizeof *indices), *targets = malloc(n * sizeof *targets);
    for (size_t i = 0; i < n; i++) { /* a chunk is the shard's width in 1 to 3 bytes, the shard, .. */
        pointers[i] = e.chunks[i].bytes + (width < 128 ? 1 : width < 16384 ? 2 : 3);
        rooms[i] = rows + i * (width + 1);
    }
    buz_bytes_at(bytes, pointers, n, width);
    buz_room_at(room, rooms, n, width + 1);
    memset(rows, 0xee, n * (width + 1));
    CHECK(buz_encode_shards(k, m, bytes, n, room, n) == BUZ_OK);
    for (size_t i = 0; i < n; i++) {
        CHECK(rooms[i][width] == 0xee);
        if (i < m) CHECK(memcmp(rooms[i], pointers[k + i], width) == 0);
        else CHECK(rooms[i][0] == 0xee);
    }
    for (int round = 0; round < 3; round++) { /* all from the last k, in some order */
        for (size_t i = 0; i < n; i++) targets[i] = indices[i] = (uint16_t)(n - 1 - i);
        if (round > 0)
            for (size_t i = n; i > 1; i--) {
                size_t j = next() % i;
                uint16_t t = indices[i - 1]; indices[i - 1] = indices[j]; indices[j] = t;
            }
        for (size_t i = 0; i < k; i++) bytes[i] = (buz_bytes){ pointers[indices[i]], width };
        memset(rows, 0xee, n * (width + 1));
        CHECK(buz_rebuild_shards(k, m, indices, k, bytes, k, targets, n, room, n) == BUZ_OK);
        for (size_t i = 0; i < n; i++)
            CHECK(rooms[i][width] == 0xee && memcmp(rooms[i], pointers[targets[i]], width) == 0);
    }
    memset(rows, 0xee, n * (width + 1));
    CHECK(buz_encode_shards(k, m, bytes, k - 1, room, n) == BUZ_TOO_FEW);
    CHECK(buz_encode_shards(k, m, bytes, k, room, m - 1) == BUZ_NO_ROOM);
    CHECK(buz_encode_shards(0, m, bytes, k, room, n) == BUZ_NO_CONFIG);
    CHECK(buz_encode_shards(k, 0, bytes, k, room, n) == BUZ_NO_CONFIG);
    CHECK(buz_encode_shards(k, 65535, bytes, k, room, n) == BUZ_TOO_MANY_SHARDS);
    room[m - 1].length = width - 1;
    CHECK(buz_encode_shards(k, m, bytes, k, room, n) == BUZ_NO_ROOM);
    CHECK(buz_rebuild_shards(k, m, indices, k, bytes, k, targets, n, room, n) == BUZ_NO_ROOM);
    room[m - 1].length = width;
    CHECK(buz_rebuild_shards(k, m, indices, k, bytes, k, targets, n, room, n - 1) == BUZ_NO_ROOM);
    CHECK(buz_rebuild_shards(k, m, indices, k - 1, bytes, k, targets, n, room, n) == BUZ_TOO_FEW);
    CHECK(buz_rebuild_shards(k, m, indices, k, bytes, k - 1, targets, n, room, n) == BUZ_TOO_FEW);
    targets[0] = (uint16_t)n;
    CHECK(buz_rebuild_shards(k, m, indices, k, bytes, k, targets, n, room, n) == BUZ_BAD_INDEX);
    targets[0] = 0;
    uint16_t last = indices[k - 1];
    indices[k - 1] = (uint16_t)n;
    CHECK(buz_rebuild_shards(k, m, indices, k, bytes, k, targets, n, room, n) == BUZ_BAD_INDEX);
    indices[k - 1] = indices[0];
    if (k > 1)
        CHECK(buz_rebuild_shards(k, m, indices, k, bytes, k, targets, n, room, n) == BUZ_DUPLICATE);
    indices[k - 1] = last;
    bytes[k - 1].length--;
    CHECK(buz_encode_shards(k, m, bytes, k, room, n) == BUZ_BAD_WIDTH);
    CHECK(buz_rebuild_shards(k, m, indices, k, bytes, k, targets, n, room, n) == BUZ_BAD_WIDTH);
    for (size_t i = 0; i < n * (width + 1); i++) if (rows[i] != 0xee) { CHECK(0); break; }
    free(rows); free(rooms); free(pointers); free(bytes); free(room); free(indices); free(targets);
    let_go(&e);
}

static void words(void)
{
    char text[BUZ_STATUS_TEXT_LEN];
    CHECK(buz_version() == BUZ_VERSION);
    CHECK(buz_status_text(BUZ_TOO_FEW, text, sizeof text) == 18);
    CHECK(strcmp(text, "not enough chunks") == 0);
    CHECK(buz_status_text(99, text, sizeof text) == 15 && strcmp(text, "unknown status") == 0);
    memset(text, 0x7e, sizeof text);
    CHECK(buz_status_text(BUZ_NO_ROOM, text, 4) == 17 && strcmp(text, "buf") == 0);
    CHECK(text[4] == 0x7e);
    for (uint32_t status = 0; status < 20; status++) {
        size_t size = buz_status_text(status, text, sizeof text);
        CHECK(size <= sizeof text && strlen(text) + 1 == size);
    }
}

#ifdef WRAPPED
/* the root, an index and shards, each request refused in turn */
static void refuse_shards(const Encoding *e)
{
    uint8_t root[32], rows[8][600], was = 0xee;
    uint16_t index = 7777, indices[5] = { 0, 1, 2, 3, 4 }, targets[2] = { 12, 0 };
    buz_bytes shards[5];
    buz_room room[8];
    long before = held, refused = 0;
    for (size_t i = 0; i < 5; i++) shards[i] = (buz_bytes){ e->text + 600 * i, 600 };
    for (size_t i = 0; i < 8; i++) room[i] = (buz_room){ rows[i], 600 };
    for (int call = 0; call < 4; call++) {
        buz_status status = BUZ_NO_MEMORY;
        memset(rows, 0xee, sizeof rows); memset(root, 0xee, 32);
        for (long steps = 0; status != BUZ_OK; steps++) {
            until_failure = steps;
            switch (call) {
            case 0: status = buz_root(5, 8, e->text, 3000, root); break;
            case 1:
                status = buz_chunk_index(e->chunks[0].bytes, e->chunks[0].length, &index);
                break;
            case 2: status = buz_encode_shards(5, 8, shards, 5, room, 8); break;
            case 3: status = buz_rebuild_shards(5, 8, indices, 5, shards, 5, targets, 2, room, 8);
            }
            until_failure = -1;
            CHECK(held == before);
            if (status == BUZ_OK) break;
            CHECK(status == BUZ_NO_MEMORY && root[0] == was && rows[0][0] == was && index == 7777);
            refused++;
        }
        if (call == 1) index = 7777;
    }
    printf("the other calls were refused at each of their %ld allocations\n", refused);
}

static void without_memory(void)
{
    Encoding e = make(5, 8, 3000);
    size_t n = 13, got = 77, used = 77;
    uint8_t *other = malloc(e.room), root[32];
    size_t sizes[13];
    buz_status status = BUZ_NO_MEMORY;
    long steps = 0, before = held;
    memset(other, 0xee, e.room); memset(root, 0xee, 32);
    for (; status != BUZ_OK; steps++) {
        until_failure = steps;
        status = buz_encode(5, 8, e.text, 3000, other, e.room, &used, sizes, n, root);
        until_failure = -1;
        CHECK(held == before);
        if (status == BUZ_OK) break;
        CHECK(status == BUZ_NO_MEMORY && root[0] == 0xee && other[0] == 0xee && used == 77);
    }
    CHECK(memcmp(root, e.root, 32) == 0);
    printf("encode was refused at each of its %ld allocations\n", steps);
    shuffle(e.chunks, n);
    long told = 0, reached = 1;
    for (steps = 0; reached; steps++) { /* what the look at the room asks for it can do without */
        until_failure = steps;
        got = 77;
        status = buz_decode(5, 8, e.root, e.chunks, n, e.back, 3000, &got);
        reached = until_failure < 0;
        until_failure = -1;
        CHECK(held == before);
        CHECK(status == BUZ_OK || (reached && status == BUZ_NO_MEMORY));
        CHECK(status == BUZ_OK ? got == 3000 && memcmp(e.back, e.text, 3000) == 0 : got == 77);
        told += status == BUZ_NO_MEMORY;
    }
    CHECK(told > 0);
    printf("decode was refused %ld allocations in turn, and told of %ld\n", steps - 1, told);
    refuse_shards(&e);
    free(other);
    let_go(&e);
    CHECK(held == 0);
}
#endif

int main(void)
{
    static const size_t lengths[] = { 0, 1, 2, 3, 64, 1000, 4093 };
    static const uint16_t shapes[][2] =
        { { 1, 1 }, { 1, 5 }, { 2, 1 }, { 2, 3 }, { 5, 8 }, { 34, 66 } };
    for (size_t s = 0; s < sizeof shapes / sizeof *shapes; s++)
        for (size_t l = 0; l < sizeof lengths / sizeof *lengths; l++)
            round_trip(shapes[s][0], shapes[s][1], lengths[l]);
    forged();
    refused();
    null();
    words();
    static const size_t widths[] = { 6, 200, 1002 };
    for (size_t s = 0; s < sizeof shapes / sizeof *shapes; s++)
        for (size_t w = 0; w < sizeof widths / sizeof *widths; w++)
            shards(shapes[s][0], shapes[s][1], widths[w]);
    shards(70, 90, 34);    /* by the transform */
    shards(1030, 1040, 6); /* rebuilt from the codeword of the originals given */
#ifdef WRAPPED
    without_memory();
#endif
    printf("%d checks, %d failed\n", tests, failures);
    return failures != 0;
}
