// Three kernels in plain C over the same field and the same code, to time the coder beside:
//   split-u16     one factor and one target at a time: two tables of 256 products a factor
//   split-pack8   eight targets at a time (four or two where fewer are left): their products lie side
//                 by side in a table's entries, so that one pair of look-ups serves all of them
//   fft-split     recoveries in n log n: the additive transform of Lin, Chung and Han, for any number of
//                 originals by a truncated inverse, a step by one factor's two tables
// It prints, for each shape and each of the two calls (extend: all recoveries; rebuild: the first k
// rows from the last k), the time of each of some runs in nanoseconds. A run takes memory for its
// answer, as a call of the coder does; the factors are made before. Before anything is timed, the
// bytes of both kernels are compared with each other.
#define _GNU_SOURCE
#include <stdint.h>
#include <stdio.h>
#include <stdlib.h>
#include <string.h>
#include <time.h>

typedef uint8_t u8;
typedef uint16_t u16;
typedef uint32_t u32;
typedef uint64_t u64;

enum { BLOCK = 4096 };

static void *room(size_t n) {
  void *p = aligned_alloc(64, (n + 127) / 64 * 64);
  if (!p) exit(7);
  memset(p, 0, (n + 127) / 64 * 64);
  return p;
}

// ---- the field: a tower of four steps, X * X = X * (the element adjoined before) + 1

static u32 times(int level, u32 a, u32 b) {
  if (level == 0) return a & b & 1;
  u32 half = 1u << (level - 1), low = (1u << half) - 1;
  u32 ah = a >> half, al = a & low, bh = b >> half, bl = b & low;
  u32 adjoined = level == 1 ? 1 : 1u << (half / 2);
  u32 high = times(level - 1, ah, bh);
  u32 upper = times(level - 1, ah, bl) ^ times(level - 1, al, bh) ^ times(level - 1, high, adjoined);
  return upper << half | (times(level - 1, al, bl) ^ high);
}

static u16 LOG[65536], EXP[131072];

static void field_init(void) {
  for (u32 g = 2;; g++) {
    u32 x = 1, n = 0;
    do { EXP[n++] = (u16)x; x = times(4, x, g); } while (x != 1 && n < 65535);
    if (n == 65535 && x == 1) break;
  }
  for (u32 i = 0; i < 65535; i++) { LOG[EXP[i]] = (u16)i; EXP[i + 65535] = EXP[i]; }
}

// ---- a job: k rows in, t rows out

typedef struct {
  int k, t;
  const int *present, *targets;
  u8 *const *src, *const *dst;
  u16 *factors;                      // t * k of them
  size_t width;
} Job;

// one weight a row, then one product and quotients a target
static void make_factors(Job *j) {
  int k = j->k;
  u32 *weights = malloc(sizeof *weights * (size_t)k);
  j->factors = malloc(2 * (size_t)k * (size_t)j->t);
  for (int a = 0; a < k; a++) {
    u32 sum = 0;
    for (int b = 0; b < k; b++) if (b != a) sum = (sum + LOG[j->present[a] ^ j->present[b]]) % 65535;
    weights[a] = 65535 - sum;
  }
  for (int t = 0; t < j->t; t++) {
    u32 all = 0;
    for (int a = 0; a < k; a++) all = (all + LOG[j->targets[t] ^ j->present[a]]) % 65535;
    for (int a = 0; a < k; a++)
      j->factors[(size_t)t * k + a] = EXP[(all + weights[a] + 65535 - LOG[j->targets[t] ^ j->present[a]]) % 65535];
  }
  free(weights);
}

// ---- one factor at a time

static __attribute__((noinline)) void split_tables(u16 f, u16 *t) {  // upper byte, then lower byte
  u16 p[16];
  for (int i = 0; i < 16; i++) p[i] = f ? EXP[(u32)LOG[f] + LOG[1u << i]] : 0;
  t[0] = t[256] = 0;
  for (u32 b = 0; b < 8; b++) for (u32 i = 0; i < 1u << b; i++) {
    t[(1u << b) + i] = t[i] ^ p[8 + b];
    t[256 + (1u << b) + i] = t[256 + i] ^ p[b];
  }
}

static __attribute__((noinline)) void split_add(u16 *d, const u16 *s, const u16 *t, size_t n) {
  for (size_t i = 0; i < n; i++) d[i] ^= t[s[i] >> 8] ^ t[256 + (s[i] & 255)];
}

static void split_u16(const Job *j) {
  size_t all = j->width / 2, block = all < BLOCK ? all : BLOCK, len = (block + 31) / 32 * 32;
  u16 *in = room((size_t)j->k * len * 2), *sums = room(len * 2), table[512];
  for (size_t o = 0; o < all; o += block) {
    size_t n = all - o < block ? all - o : block;
    for (int s = 0; s < j->k; s++) {
      const u8 *b = j->src[s] + 2 * o;
      for (size_t i = 0; i < n; i++) in[(size_t)s * len + i] = (u16)(b[2 * i] << 8 | b[2 * i + 1]);
    }
    for (int t = 0; t < j->t; t++) {
      memset(sums, 0, len * 2);
      for (int s = 0; s < j->k; s++) {
        split_tables(j->factors[(size_t)t * j->k + s], table);
        split_add(sums, in + (size_t)s * len, table, (n + 31) / 32 * 32);
      }
      u8 *d = j->dst[t] + 2 * o;
      for (size_t i = 0; i < n; i++) { d[2 * i] = (u8)(sums[i] >> 8); d[2 * i + 1] = (u8)sums[i]; }
    }
  }
  free(in);
  free(sums);
}

// ---- eight, four or two at a time: lanes of 16 bits in words

typedef struct { u64 a, b; } Two;

static inline u64 by_x1(u64 v) { u64 m = 0x5555555555555555ull, h = v >> 1 & m; return (h ^ (v & m)) << 1 | h; }
static inline u64 by_x2(u64 v) { u64 m = 0x3333333333333333ull, h = v >> 2 & m; return (by_x1(h) ^ (v & m)) << 2 | h; }
static inline u64 by_x3(u64 v) { u64 m = 0x0f0f0f0f0f0f0f0full, h = v >> 4 & m; return (by_x2(h) ^ (v & m)) << 4 | h; }
static inline u64 by_x4(u64 v) { u64 m = 0x00ff00ff00ff00ffull, h = v >> 8 & m; return (by_x3(h) ^ (v & m)) << 8 | h; }

static inline void bit_products(u64 f, u64 p[16]) {  // four factors times each bit
  p[0] = f; p[1] = by_x1(f); p[2] = by_x2(f); p[3] = by_x2(p[1]);
  for (int i = 0; i < 4; i++) p[4 + i] = by_x3(p[i]);
  for (int i = 0; i < 8; i++) p[8 + i] = by_x4(p[i]);
}

static __attribute__((noinline)) void tables_2(const u16 *c, int k, int left, int s, u32 *v) {
  u64 p[16];
  bit_products(c[s] | (left > 1 ? (u64)c[k + s] << 16 : 0), p);
  v[0] = v[256] = 0;
  for (u32 b = 0; b < 8; b++) for (u32 i = 0; i < 1u << b; i++) {
    v[(1u << b) + i] = v[i] ^ (u32)p[8 + b];
    v[256 + (1u << b) + i] = v[256 + i] ^ (u32)p[b];
  }
}

static __attribute__((noinline)) void tables_4(const u16 *c, int k, int left, int s, u64 *v) {
  u64 f = 0, p[16];
  for (int q = 0; q < 4 && q < left; q++) f |= (u64)c[(size_t)q * k + s] << 16 * q;
  bit_products(f, p);
  v[0] = v[256] = 0;
  for (u32 b = 0; b < 8; b++) for (u32 i = 0; i < 1u << b; i++) {
    v[(1u << b) + i] = v[i] ^ p[8 + b];
    v[256 + (1u << b) + i] = v[256 + i] ^ p[b];
  }
}

static __attribute__((noinline)) void tables_8(const u16 *c, int k, int left, int s, Two *v) {
  u64 f[2] = {0, 0}, p[2][16];
  for (int q = 0; q < 8 && q < left; q++) f[q / 4] |= (u64)c[(size_t)q * k + s] << 16 * (q % 4);
  bit_products(f[0], p[0]);
  bit_products(f[1], p[1]);
  v[0] = v[256] = (Two){0, 0};
  for (u32 b = 0; b < 8; b++) for (u32 i = 0; i < 1u << b; i++) {
    v[(1u << b) + i] = (Two){v[i].a ^ p[0][8 + b], v[i].b ^ p[1][8 + b]};
    v[256 + (1u << b) + i] = (Two){v[256 + i].a ^ p[0][b], v[256 + i].b ^ p[1][b]};
  }
}

static __attribute__((noinline)) void add_2(u32 *d, const u8 *a, const u32 *t, size_t n) {
  for (size_t i = 0; i < n; i++) d[i] ^= t[a[2 * i]] ^ t[256 + a[2 * i + 1]];
}

static __attribute__((noinline)) void add_4(u64 *d, const u8 *a, const u64 *t, size_t n) {
  for (size_t i = 0; i < n; i++) d[i] ^= t[a[2 * i]] ^ t[256 + a[2 * i + 1]];
}

static __attribute__((noinline)) void add_8(Two *d, const u8 *a, const Two *t, size_t n) {
  for (size_t i = 0; i < n; i++) {
    const Two *x = &t[a[2 * i]], *y = &t[256 + a[2 * i + 1]];
    u64 v = d[i].a ^ x->a ^ y->a, w = d[i].b ^ x->b ^ y->b;
    d[i].a = v;
    d[i].b = w;
  }
}

static void split_pack8(const Job *j) {
  size_t all = j->width / 2, block = all < BLOCK ? all : BLOCK;
  void *sums = room(block * 16), *table = room(512 * 16);
  for (size_t o = 0; o < all; o += block) {
    size_t n = all - o < block ? all - o : block;
    for (int t = 0, step; t < j->t; t += step) {
      const u16 *c = j->factors + (size_t)t * j->k;
      int left = j->t - t;
      step = left > 4 ? 8 : left > 2 ? 4 : 2;
      memset(sums, 0, n * (size_t)step * 2);
      for (int s = 0; s < j->k; s++) {
        const u8 *a = j->src[s] + 2 * o;
        if (step == 2) { tables_2(c, j->k, left, s, table); add_2(sums, a, table, n); }
        else if (step == 4) { tables_4(c, j->k, left, s, table); add_4(sums, a, table, n); }
        else { tables_8(c, j->k, left, s, table); add_8(sums, a, table, n); }
      }
      for (int q = 0; q < step && q < left; q++) {
        u8 *d = j->dst[t + q] + 2 * o;
        const u16 *v = (const u16 *)sums + q;
        for (size_t i = 0; i < n; i++) { u16 x = v[i * (size_t)step]; d[2 * i] = (u8)(x >> 8); d[2 * i + 1] = (u8)x; }
      }
    }
  }
  free(sums);
  free(table);
}

// ---- recoveries in n log n

static u16 VANISH[17][16];           // the polynomial that vanishes on the first 2^i elements, at bit j

static u16 product_of(u16 a, u16 b) { return a && b ? EXP[(u32)LOG[a] + LOG[b]] : 0; }

static void transform_init(void) {
  u16 raw[17][16];
  for (int j = 0; j < 16; j++) raw[0][j] = (u16)(1u << j);
  for (int i = 0; i < 16; i++) {
    u16 own = raw[i][i], over = EXP[65535 - LOG[own]];
    for (int j = 0; j < 16; j++) {
      VANISH[i][j] = product_of(raw[i][j], over);
      raw[i + 1][j] = product_of(raw[i][j], raw[i][j] ^ own);
    }
  }
}

static u16 twist(int i, u32 at) {
  u16 sum = 0;
  for (int j = 0; at >> j; j++) if (at >> j & 1) sum ^= VANISH[i][j];
  return sum;
}

typedef struct { size_t len; u16 table[512]; } Steps;

static void add_product(Steps *f, u16 *d, const u16 *s) { split_add(d, s, f->table, f->len); }

static __attribute__((noinline)) void add_row(Steps *f, u16 *d, const u16 *s) {
  u64 *x = (u64 *)d;
  const u64 *y = (const u64 *)s;
  for (size_t i = 0; i < f->len / 4; i++) x[i] ^= y[i];
}

// values of rows lo to hi from K coefficients, of which those from `filled` on are zero
static void to_values(Steps *f, u16 *x, int K, u32 from, int filled, int lo, int hi) {
  int i = 31 - __builtin_clz((unsigned)K);
  for (int h = K / 2; h; h /= 2) {
    i--;
    for (int b = 0; b < K; b += 2 * h) {
      if (b >= hi || b + 2 * h <= lo) continue;
      u16 w = twist(i, from + (u32)b);
      if (w) split_tables(w, f->table);
      for (int j = b; j < b + h; j++) {
        u16 *low = x + (size_t)j * f->len, *high = low + (size_t)h * f->len;
        if (h == K / 2 && j + h >= filled) { memcpy(high, low, f->len * 2); continue; }
        if (w) add_product(f, low, high);
        add_row(f, high, low);
      }
    }
  }
}

static void from_values(Steps *f, u16 *x, int K, u32 from) {
  int i = 0;
  for (int h = 1; h < K; h *= 2, i++) for (int b = 0; b < K; b += 2 * h) {
    u16 w = twist(i, from + (u32)b);
    if (w) split_tables(w, f->table);
    for (int j = b; j < b + h; j++) {
      u16 *low = x + (size_t)j * f->len, *high = low + (size_t)h * f->len;
      add_row(f, high, low);
      if (w) add_product(f, low, high);
    }
  }
}

// in: `known` values, then coefficients; out: K coefficients
static void from_known(Steps *f, u16 *x, int K, int known, u32 from) {
  if (known == 0) return;
  if (known == K) { from_values(f, x, K, from); return; }
  int h = K / 2, i = 31 - __builtin_clz((unsigned)h);
  u16 w = twist(i, from), *high = x + (size_t)h * f->len;
  if (known < h) {
    if (w) split_tables(w, f->table);
    for (int j = known; w && j < h; j++) add_product(f, x + (size_t)j * f->len, high + (size_t)j * f->len);
    from_known(f, x, h, known, from);
    if (w) split_tables(w, f->table);
    for (int j = 0; w && j < h; j++) add_product(f, x + (size_t)j * f->len, high + (size_t)j * f->len);
    return;
  }
  from_values(f, x, h, from);
  for (int j = known - h; j < h; j++) add_row(f, high + (size_t)j * f->len, x + (size_t)j * f->len);
  from_known(f, high, h, known - h, from + (u32)h);
  if (w) split_tables(w, f->table);
  for (int j = 0; j < h; j++) {
    add_row(f, high + (size_t)j * f->len, x + (size_t)j * f->len);
    if (w) add_product(f, x + (size_t)j * f->len, high + (size_t)j * f->len);
  }
}

static void fft_split(const Job *j) {
  int k = j->k, total = k + j->t, K = 1;
  while (K < k) K *= 2;
  size_t all = j->width / 2, block = (1u << 19) / (2 * (size_t)K);
  block = block < 512 ? 512 : block > 4096 ? 4096 : block;
  if (block > all) block = all;
  Steps steps, *f = &steps;
  f->len = (block + 31) / 32 * 32;
  u16 *x = room((size_t)K * f->len * 4), *y = x + (size_t)K * f->len;
  for (size_t o = 0; o < all; o += block) {
    size_t n = all - o < block ? all - o : block;
    for (int s = 0; s < k; s++) {
      const u8 *b = j->src[s] + 2 * o;
      for (size_t i = 0; i < n; i++) x[(size_t)s * f->len + i] = (u16)(b[2 * i] << 8 | b[2 * i + 1]);
    }
    memset(x + (size_t)k * f->len, 0, (size_t)(K - k) * f->len * 2);
    from_known(f, x, K, k, 0);
    for (int from = 0; from < total; from += K) {
      int lo = from < k ? k - from : 0, hi = total - from < K ? total - from : K;
      if (lo >= hi) continue;
      memcpy(y, x, (size_t)K * f->len * 2);
      to_values(f, y, K, (u32)from, k, lo, hi);
      for (int t = lo; t < hi; t++) {
        u8 *d = j->dst[from + t - k] + 2 * o;
        const u16 *v = y + (size_t)t * f->len;
        for (size_t i = 0; i < n; i++) { d[2 * i] = (u8)(v[i] >> 8); d[2 * i + 1] = (u8)v[i]; }
      }
    }
  }
  free(x);
}

// ---- shapes and times

typedef struct { char id; int k, m; size_t width; } Shape;

static const Shape SHAPES[] = {
  { 'A', 34, 66, 30842 }, { 'B', 2, 2, 524290 }, { 'C', 342, 682, 3068 }, { 'D', 30, 70, 559242 }, { 'E', 8, 17, 8194 },
  { 'F', 342, 682, 12 }, { 'G', 1024, 2048, 1026 },
};

static u64 now(void) {
  struct timespec t;
  clock_gettime(CLOCK_MONOTONIC, &t);
  return (u64)t.tv_sec * 1000000000ull + (u64)t.tv_nsec;
}

static void time_of(char id, const char *call, const char *name, void (*run)(const Job *), const Job *j, int runs) {
  u8 **rows = malloc(sizeof *rows * (size_t)j->t);
  for (int i = 0; i < runs; i++) {
    u64 start = now();
    u8 *answer = malloc((size_t)j->t * j->width);
    if (!answer) exit(7);
    for (int t = 0; t < j->t; t++) rows[t] = answer + (size_t)t * j->width;
    Job own = *j;
    own.dst = rows;
    run(&own);
    printf("%c %s %s %llu\n", id, call, name, (unsigned long long)(now() - start));
    free(answer);
  }
  free(rows);
}

int main(int argc, char **argv) {
  int runs = argc > 1 ? atoi(argv[1]) : 1;
  const char *only = argc > 2 ? argv[2] : "ABCDEFG";
  field_init();
  transform_init();
  for (const Shape *sh = SHAPES; sh < SHAPES + sizeof SHAPES / sizeof *SHAPES; sh++) {
    if (!strchr(only, sh->id)) continue;
    int k = sh->k, m = sh->m, n = k + m;
    size_t w = sh->width;
    u8 *all = room((size_t)n * w), *again = room((size_t)n * w), **row = malloc(sizeof *row * (size_t)n), **out = malloc(sizeof *out * (size_t)n);
    int *index = malloc(sizeof *index * (size_t)n);
    for (int i = 0; i < n; i++) { row[i] = all + (size_t)i * w; out[i] = again + (size_t)i * w; index[i] = i; }
    for (size_t i = 0; i < (size_t)k * w; i++) all[i] = (u8)((i * 2654435761ull) >> 16);
    Job extend = { k, m, index, index + k, row, row + k, NULL, w };
    Job rebuild = { k, k, index + m, index, row + m, out, NULL, w };
    make_factors(&extend);
    make_factors(&rebuild);
    split_pack8(&extend);
    Job other = extend;
    other.dst = out + k;
    split_u16(&other);
    split_pack8(&rebuild);
    int differ = memcmp(all, again, (size_t)n * w);
    memset(again + (size_t)k * w, 0, (size_t)m * w);
    fft_split(&other);
    if (differ || memcmp(all, again, (size_t)n * w)) { fprintf(stderr, "the kernels differ at %c\n", sh->id); return 1; }
    time_of(sh->id, "extend", "fft-split", fft_split, &extend, runs);
    if (sh->id != 'G') time_of(sh->id, "extend", "split-u16", split_u16, &extend, runs);
    time_of(sh->id, "extend", "split-pack8", split_pack8, &extend, runs);
    if (sh->id != 'G') time_of(sh->id, "rebuild", "split-u16", split_u16, &rebuild, runs);
    time_of(sh->id, "rebuild", "split-pack8", split_pack8, &rebuild, runs);
    free(all); free(again); free(row); free(out); free(index); free(extend.factors); free(rebuild.factors);
  }
  return 0;
}
