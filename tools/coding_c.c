// A caller of the coding scheme in C: encodes a text of 1 MiB into 34 + 66 chunks, loses 66 of them,
// forges one of those that are left, finds it, decodes the others, and times each call. It prints
// what came of it, and ends with status 1 at the first answer that is not the right one.
#include "coding.h"

#include <stdio.h>
#include <stdlib.h>
#include <string.h>
#include <time.h>

enum { K = 34, M = 66, N = K + M, LENGTH = 1 << 20, ROUNDS = 21 };

static uint8_t text[LENGTH], back[LENGTH], root[BUZ_ROOT_LEN];
static size_t sizes[N];
static buz_bytes chunks[N];

// ends the program where an answer isn't the one that is wanted
static void want(buz_status status, buz_status wanted, const char *call)
{
  if (status == wanted) return;
  char got[BUZ_STATUS_TEXT_LEN], meant[BUZ_STATUS_TEXT_LEN];
  buz_status_text(status, got, sizeof got);
  buz_status_text(wanted, meant, sizeof meant);
  printf("%s answered \"%s\", and not \"%s\"\n", call, got, meant);
  exit(1);
}

static double now(void)
{
  struct timespec at;
  clock_gettime(CLOCK_PROCESS_CPUTIME_ID, &at);
  return 1e3 * at.tv_sec + 1e-6 * at.tv_nsec;
}

static int less(const void *a, const void *b)
{
  double x = *(const double *)a, y = *(const double *)b;
  return (x > y) - (x < y);
}

static void tell(const char *call, double *times)
{
  qsort(times, ROUNDS, sizeof *times, less);
  printf("%-34s %7.2f ms at its median, %7.2f ms at its quickest\n", call, times[ROUNDS / 2],
         times[0]);
}

// encodes, and finds the chunks in what was written
static void encode(uint8_t *bytes, size_t room)
{
  size_t at = 0, used = 0;
  want(buz_encode(K, M, text, LENGTH, bytes, room, &used, sizes, N, root), BUZ_OK, "buz_encode");
  for (int i = 0; i < N; i++) {
    chunks[i] = (buz_bytes){ bytes + at, sizes[i] };
    at += sizes[i];
  }
}

static buz_status check(int index)
{
  return buz_check(K, M, root, (uint16_t)index, chunks[index].bytes, chunks[index].length);
}

// loses all chunks before `first` and behind the K that follow, and decodes these
static buz_status decode(int first)
{
  size_t length = 0;
  buz_status status = buz_decode(K, M, root, chunks + first, K, back, LENGTH, &length);
  if (status == BUZ_OK && (length != LENGTH || memcmp(text, back, LENGTH) != 0)) {
    printf("buz_decode gave another text\n");
    exit(1);
  }
  return status;
}

static void lose_and_forge(void)
{
  for (int i = 0; i < N; i++) want(check(i), BUZ_OK, "buz_check");
  want(decode(M), BUZ_OK, "buz_decode of recoveries");
  want(decode(0), BUZ_OK, "buz_decode of originals");
  printf("encoded into %d chunks, lost %d, decoded the others\n", N, M);
  uint8_t *forged = (uint8_t *)chunks[40].bytes + 1000;
  *forged ^= 1;
  want(check(40), BUZ_BAD_PROOF, "buz_check of a forged chunk");
  want(decode(20), BUZ_BAD_PROOF, "buz_decode with a forged chunk");
  char why[BUZ_STATUS_TEXT_LEN];
  buz_status_text(check(40), why, sizeof why);
  printf("forged one bit of chunk 40: %s\n", why);
  want(decode(41), BUZ_OK, "buz_decode without it");
  *forged ^= 1;
}

static void measure(uint8_t *bytes, size_t room, uint8_t *copy)
{
  double encoding[ROUNDS], checking[ROUNDS], recovering[ROUNDS], copying[ROUNDS];
  for (int i = 0; i < ROUNDS; i++) {
    double start = now();
    encode(bytes, room);
    double encoded = now();
    for (int j = 0; j < N; j++) want(check(j), BUZ_OK, "buz_check");
    double checked = now();
    want(decode(M), BUZ_OK, "buz_decode");
    double decoded = now();
    memcpy(copy, bytes, room);
    __asm__ volatile("" : : "r"(copy) : "memory");
    copying[i] = now() - decoded;
    encoding[i] = encoded - start;
    checking[i] = checked - encoded;
    recovering[i] = decoded - checked;
  }
  printf("k %d, m %d, %d bytes, %d rounds, the processor's time:\n", K, M, LENGTH, ROUNDS);
  tell("buz_encode", encoding);
  tell("buz_check of all chunks", checking);
  tell("buz_decode of recoveries alone", recovering);
  tell("copying all chunks, to compare", copying);
}

int main(void)
{
  size_t room = N * buz_chunk_len(K, M, LENGTH);
  uint8_t *bytes = calloc(room, 1), *copy = calloc(room, 1);
  if (!bytes || !copy) return 1;
  uint32_t next = 1;
  for (int i = 0; i < LENGTH; i++) {
    next = next * 1664525u + 1013904223u;
    text[i] = (uint8_t)(next >> 24);
  }
  encode(bytes, room);
  lose_and_forge();
  measure(bytes, room, copy);
  free(bytes);
  free(copy);
  return 0;
}
