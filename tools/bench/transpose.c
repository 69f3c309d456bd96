// A step of one half in plain C, to compare the program's steps with: both planes of half A under
// N/VONN and &/CENTERS, on a torus of 256 cells a side, by a table of 4,096 entries of two bits.
//
// Four words of 64 columns a row and plane, column 0 the highest bit of the first. For each eight
// columns the bytes of the twelve address lines are turned over, by eight-by-eight transposes of
// bits in words of 64, so that each byte belongs to a cell: its address, by which it looks up.
//
//     cc -O3 -march=x86-64-v2 -o transpose transpose.c && ./transpose

#include <stdint.h>
#include <stdio.h>
#include <stdlib.h>
#include <string.h>
#include <time.h>

enum { SIDE = 256, WORDS = SIDE / 64, LINES = 12, ENTRIES = 4096, STEPS = 2000, TIMES = 12 };

typedef uint64_t Plane[SIDE][WORDS];

// What a step reads and what it writes take turns.
static Plane planes[2][4];
static uint8_t table[ENTRIES];

// A row moved by a column: each cell takes the bit of the cell to its west, round the torus.
static void from_west(uint64_t to[WORDS], const uint64_t row[WORDS]) {
  for (int w = 0; w < WORDS; w++) {
    to[w] = row[w] >> 1 | row[(w + WORDS - 1) % WORDS] << 63;
  }
}

// The same from the east.
static void from_east(uint64_t to[WORDS], const uint64_t row[WORDS]) {
  for (int w = 0; w < WORDS; w++) {
    to[w] = row[w] << 1 | row[(w + 1) % WORDS] >> 63;
  }
}

// The twelve address lines of a row: of the lower plane the cell and its neighbours, of the upper
// plane the same, and the other half's two planes.
static void lines_of_row(uint64_t lines[LINES][WORDS], Plane *from, int y) {
  static const int place[2][5] = {{0, 2, 3, 4, 5}, {1, 6, 7, 8, 9}};
  int north = (y + SIDE - 1) % SIDE, south = (y + 1) % SIDE;
  for (int level = 0; level < 2; level++) {
    const int *at = place[level];
    size_t bytes = sizeof from[level][y];
    memcpy(lines[at[0]], from[level][y], bytes);
    memcpy(lines[at[1]], from[level][north], bytes);
    memcpy(lines[at[2]], from[level][south], bytes);
    from_west(lines[at[3]], from[level][y]);
    from_east(lines[at[4]], from[level][y]);
    memcpy(lines[10 + level], from[2 + level][y], bytes);
  }
}

// Turns over eight bytes of eight bits: bit i of byte k becomes bit k of byte i.
static inline uint64_t transposed(uint64_t x) {
  uint64_t t;
  t = (x ^ x >> 7) & 0x00aa00aa00aa00aaULL;
  x ^= t ^ t << 7;
  t = (x ^ x >> 14) & 0x0000cccc0000ccccULL;
  x ^= t ^ t << 14;
  t = (x ^ x >> 28) & 0x00000000f0f0f0f0ULL;
  return x ^ t ^ t << 28;
}

// One bit of each of eight bytes, that of byte 0 lowest.
static inline uint64_t gathered(uint64_t bytes) {
  return (bytes & 0x0101010101010101ULL) * 0x0102040810204080ULL >> 56;
}

// A step of half A, by transposes.
static void step(Plane *from, Plane *to) {
  uint64_t lines[LINES][WORDS];
  for (int y = 0; y < SIDE; y++) {
    lines_of_row(lines, from, y);
    for (int w = 0; w < WORDS; w++) {
      uint64_t lower = 0, upper = 0;
      for (int shift = 0; shift < 64; shift += 8) {
        uint64_t low = 0, high = 0, entries = 0;
        for (int i = 0; i < 8; i++) {
          low |= (lines[i][w] >> shift & 255) << (8 * i);
        }
        for (int i = 0; i < 4; i++) {
          high |= (lines[8 + i][w] >> shift & 255) << (8 * i);
        }
        low = transposed(low);
        high = transposed(high);
        for (int i = 0; i < 64; i += 8) {
          entries |= (uint64_t)table[(low >> i & 255) | (high >> i & 15) << 8] << i;
        }
        lower |= gathered(entries) << shift;
        upper |= gathered(entries >> 1) << shift;
      }
      to[0][y][w] = lower;
      to[1][y][w] = upper;
    }
  }
  memcpy(to[2], from[2], 2 * sizeof(Plane));
}

// The bit of a cell, round the torus.
static int bit(Plane plane, int x, int y) {
  x = (x + SIDE) % SIDE;
  y = (y + SIDE) % SIDE;
  return plane[y][x / 64] >> (63 - x % 64) & 1;
}

// The same step, cell by cell.
static void plain_step(Plane *from, Plane *to) {
  memcpy(to, from, 4 * sizeof(Plane));
  for (int y = 0; y < SIDE; y++) {
    for (int x = 0; x < SIDE; x++) {
      int seen[LINES] = {
          bit(from[0], x, y),     bit(from[1], x, y),     bit(from[0], x, y - 1),
          bit(from[0], x, y + 1), bit(from[0], x - 1, y), bit(from[0], x + 1, y),
          bit(from[1], x, y - 1), bit(from[1], x, y + 1), bit(from[1], x - 1, y),
          bit(from[1], x + 1, y), bit(from[2], x, y),     bit(from[3], x, y),
      };
      int address = 0;
      for (int i = 0; i < LINES; i++) {
        address |= seen[i] << i;
      }
      uint64_t cell = 1ULL << (63 - x % 64);
      for (int level = 0; level < 2; level++) {
        uint64_t *word = &to[level][y][x / 64];
        *word = table[address] >> level & 1 ? *word | cell : *word & ~cell;
      }
    }
  }
}

// A random word.
static uint64_t random_word(void) {
  static uint64_t state = 88172645463325252ULL;
  state ^= state << 13;
  state ^= state >> 7;
  return state ^= state << 17;
}

// Fills four planes with random cells.
static void fill_random(Plane *to) {
  for (int p = 0; p < 4; p++) {
    for (int y = 0; y < SIDE; y++) {
      for (int w = 0; w < WORDS; w++) {
        to[p][y][w] = random_word();
      }
    }
  }
}

// Fills the table: parity, or random entries.
static void fill_table(int is_parity) {
  for (int address = 0; address < ENTRIES; address++) {
    int parity = __builtin_popcount(address & 61) & 1;
    int other = random_word() >> 40 & 3;
    table[address] = is_parity ? parity | (address & 2) : other;
  }
}

// Microseconds of processor time, so that others on the machine count as little as may be.
static double now(void) {
  struct timespec time;
  clock_gettime(CLOCK_PROCESS_CPUTIME_ID, &time);
  return 1e6 * time.tv_sec + 1e-3 * time.tv_nsec;
}

int main(void) {
  static Plane wanted[2][4];
  for (int is_parity = 1; is_parity >= 0; is_parity--) {
    fill_table(is_parity);
    fill_random(planes[0]);
    memcpy(wanted[0], planes[0], sizeof wanted[0]);
    for (int i = 0; i < 8; i++) {
      step(planes[i % 2], planes[(i + 1) % 2]);
      plain_step(wanted[i % 2], wanted[(i + 1) % 2]);
      if (memcmp(planes[(i + 1) % 2], wanted[(i + 1) % 2], sizeof wanted[0]) != 0) {
        printf("step %d is not the one cell by cell\n", i + 1);
        return EXIT_FAILURE;
      }
    }
    double least = 0;
    for (int time = 0; time < TIMES; time++) {
      double start = now();
      for (int i = 0; i < STEPS; i++) {
        step(planes[i % 2], planes[(i + 1) % 2]);
      }
      double took = (now() - start) / STEPS;
      least = time == 0 || took < least ? took : least;
    }
    printf("256 %s: %.1f microseconds a step\n", is_parity ? "parity" : "without structure", least);
  }
  return EXIT_SUCCESS;
}
