// A step of one half in plain C by three methods, to compare the program's steps with. SIDE cells a
// side of the torus, 128, 256 or 512; a table of 4,096 entries of two bits; the other half keeps its
// planes. Column 0 is the highest bit of a row's first word.
//
//   naive      each cell gathers its twelve bits and looks up its entry
//   transpose  the twelve lines of a row as words, turned over by eight-by-eight transposes of bits
//              into addresses, by which it looks up; nothing is known of the table
//   bdd        the table as a decision diagram that both bits of an entry share, in an order of the
//              lines that is looked for, made into a short program of word operations, which is done
//              over bands of sixteen rows at once
//   hand       Life by whole words, written by hand: no table, a limit to compare with
//
// All are checked against naive first: over random planes, by both halves, on both grids, in all
// phases. Then each line that it prints is a table, a method and the nanoseconds of a step, the least
// of fifteen runs.
//
//     clang -O3 -march=x86-64-v2 -DSIDE=256 -o steps steps.c
//     ./steps                  all tables by all methods
//     ./steps check            only the checks
//     ./steps TABLE METHOD     only this figure, unchecked

#include <stddef.h>
#include <stdint.h>
#include <stdio.h>
#include <stdlib.h>
#include <string.h>
#include <time.h>

#ifndef SIDE
#define SIDE 256
#endif

enum {
  WORDS = SIDE / 64,        // of a row
  ROW_BYTES = 8 * WORDS,
  PLANE_BYTES = SIDE * ROW_BYTES,
  LINES = 12,               // of an address
  ENTRIES = 4096,
  BAND = 16,                // rows that a program does at once
  BAND_WORDS = BAND * WORDS,
  TIMES = 15,
  STATES = 3 * (512 / SIDE) * (512 / SIDE), // random planes of a check, the same number of cells at each side
};

typedef uint64_t Row[WORDS];
typedef struct { Row rows[4][SIDE]; } Planes;
typedef enum { MOORE, VONN, MARG, MARG_PH, MARG_HV } Hood;
typedef enum { CENTERS, PHASES, HV } Minor;
typedef struct { int half; Hood hood; Minor minor; int grid, phase; } Wiring;

static const uint64_t EVEN_COLUMNS = 0xaaaaaaaaaaaaaaaaULL, ODD_COLUMNS = 0x5555555555555555ULL;

static uint64_t seed = 1;
// The next random word, by splitmix64.
static uint64_t random_word(void) {
  uint64_t z = (seed += 0x9e3779b97f4a7c15ULL);
  z = (z ^ z >> 30) * 0xbf58476d1ce4e5b9ULL;
  z = (z ^ z >> 27) * 0x94d049bb133111ebULL;
  return z ^ z >> 31;
}

// Fills all planes with random cells.
static void fill(Planes *planes) {
  for (int q = 0; q < 4; q++) {
    for (int y = 0; y < SIDE; y++) {
      for (int w = 0; w < WORDS; w++) planes->rows[q][y][w] = random_word();
    }
  }
}

// The time in nanoseconds.
static double now(void) {
  struct timespec t;
  clock_gettime(CLOCK_MONOTONIC, &t);
  return t.tv_sec * 1e9 + t.tv_nsec;
}

// ---- Cell by cell

// The bit of a cell, round the torus.
static unsigned cell(const Planes *planes, int plane, int x, int y) {
  x &= SIDE - 1;
  y &= SIDE - 1;
  return planes->rows[plane][y][x >> 6] >> (63 - (x & 63)) & 1;
}

// The address of a cell: the twelve bits that it sees, looked up one by one.
static unsigned address_at(const Planes *planes, const Wiring *wiring, int x, int y) {
  int lower = wiring->half * 2, upper = lower + 1, other = 2 - lower;
  int horz = (x + wiring->grid) & 1, vert = (y + wiring->grid) & 1;
  unsigned address = cell(planes, lower, x, y) | cell(planes, upper, x, y) << 1;
  // North, south, west, east, and the corners.
  static const int columns[8] = {0, 0, -1, 1, -1, 1, -1, 1}, rows[8] = {-1, 1, 0, 0, -1, -1, 1, 1};
  // The places of a block, clockwise from its upper left cell.
  static const int place_column[4] = {0, 1, 1, 0}, place_row[4] = {0, 0, 1, 1};
  switch (wiring->hood) {
  case MOORE:
    for (int i = 0; i < 8; i++) address |= cell(planes, lower, x + columns[i], y + rows[i]) << (2 + i);
    break;
  case VONN:
    for (int i = 0; i < 4; i++) {
      address |= cell(planes, lower, x + columns[i], y + rows[i]) << (2 + i);
      address |= cell(planes, upper, x + columns[i], y + rows[i]) << (6 + i);
    }
    break;
  default: {
    int place = vert ? (horz ? 2 : 3) : (horz ? 1 : 0);
    int seen[3] = {(place + 1) & 3, (place + 3) & 3, (place + 2) & 3}; // CW, CCW, OPP
    for (int i = 0; i < 3; i++) {
      int column = x - horz + place_column[seen[i]], row = y - vert + place_row[seen[i]];
      address |= cell(planes, lower, column, row) << (2 + i);
      address |= cell(planes, upper, column, row) << (5 + i);
    }
    if (wiring->hood == MARG_PH) address |= wiring->phase << 8;
    if (wiring->hood == MARG_HV) address |= horz << 8 | vert << 9;
  }
  }
  if (wiring->minor == CENTERS) address |= cell(planes, other, x, y) << 10 | cell(planes, other + 1, x, y) << 11;
  if (wiring->minor == PHASES) address |= wiring->phase << 10;
  if (wiring->minor == HV) address |= horz << 10 | vert << 11;
  return address;
}

// A step, a look-up for each cell.
static void step_naive(const Planes *old, Planes *new, const Wiring *wiring, const uint8_t *table) {
  int lower = wiring->half * 2;
  for (int y = 0; y < SIDE; y++) {
    for (int w = 0; w < WORDS; w++) {
      uint64_t first = 0, second = 0;
      for (int x = 0; x < 64; x++) {
        uint8_t entry = table[address_at(old, wiring, w * 64 + x, y)];
        first = first << 1 | (entry & 1);
        second = second << 1 | entry >> 1;
      }
      new->rows[lower][y][w] = first;
      new->rows[lower + 1][y][w] = second;
    }
  }
}

// ---- The twelve lines of a row

// Each cell takes the bit of the cell to its west, round the torus; and to its east.
static inline void from_west(Row to, const uint64_t *row) {
  for (int w = 0; w < WORDS; w++) to[w] = row[w] >> 1 | row[(w + WORDS - 1) % WORDS] << 63;
}

// A row moved by a column: each cell takes the bit of the cell to its east, round the torus.
static inline void from_east(Row to, const uint64_t *row) {
  for (int w = 0; w < WORDS; w++) to[w] = row[w] << 1 | row[(w + 1) % WORDS] >> 63;
}

// The two columns of each block change places; `left` are the columns on the left of a block.
static inline void exchanged(Row to, const uint64_t *row, uint64_t left) {
  Row west, east;
  from_west(west, row);
  from_east(east, row);
  for (int w = 0; w < WORDS; w++) to[w] = (east[w] & left) | (west[w] & ~left);
}

// A row of equal words.
static inline void filled(Row to, uint64_t word) {
  for (int w = 0; w < WORDS; w++) to[w] = word;
}

// The columns on the left of a block.
static uint64_t left_columns(const Wiring *wiring) { return wiring->grid ? ODD_COLUMNS : EVEN_COLUMNS; }

// All ones if the bit is set.
static uint64_t spread(int number, int bit) { return -(uint64_t)(number >> bit & 1); }

// What CW, CCW and OPP show in a row of a plane.
static inline void lines_of_blocks(Row cw, Row ccw, Row opp, const Row *plane, const Wiring *wiring, int y) {
  int is_low = (y + wiring->grid) & 1;
  uint64_t left = left_columns(wiring), beside = is_low ? ~left : left; // where CW is the cell beside
  const uint64_t *other = plane[(is_low ? y + SIDE - 1 : y + 1) & (SIDE - 1)];
  Row side;
  exchanged(side, plane[y], left);
  for (int w = 0; w < WORDS; w++) {
    cw[w] = (side[w] & beside) | (other[w] & ~beside);
    ccw[w] = (other[w] & beside) | (side[w] & ~beside);
  }
  exchanged(opp, other, left);
}

// What HORZ and VERT, or the two bits of the phase, or nothing, show in a row.
static uint64_t line_without_cells(int is_phase, int is_place, const Wiring *wiring, int bit, int y) {
  if (is_phase) return spread(wiring->phase, bit);
  if (!is_place) return 0;
  return bit ? spread(y + wiring->grid, 0) : ~left_columns(wiring);
}

// What line 8 or 9 shows in a row, if a neighbourhood of blocks has it without cells.
static uint64_t hood_line(const Wiring *wiring, int bit, int y) {
  return line_without_cells(wiring->hood == MARG_PH, wiring->hood == MARG_HV, wiring, bit, y);
}

// What line 10 or 11 shows in a row, if the minor assignment has it without cells.
static uint64_t minor_line(const Wiring *wiring, int bit, int y) {
  return line_without_cells(wiring->minor == PHASES, wiring->minor == HV, wiring, bit, y);
}

// The twelve address lines of a row, in the order of their bits.
static void lines_of_row(const Planes *planes, const Wiring *wiring, int y, Row lines[LINES]) {
  int lower = wiring->half * 2, other = 2 - lower;
  int north = (y + SIDE - 1) & (SIDE - 1), south = (y + 1) & (SIDE - 1);
  const Row *low = planes->rows[lower];
  memcpy(lines[0], low[y], ROW_BYTES);
  memcpy(lines[1], planes->rows[lower + 1][y], ROW_BYTES);
  switch (wiring->hood) {
  case MOORE:
    memcpy(lines[2], low[north], ROW_BYTES);
    memcpy(lines[3], low[south], ROW_BYTES);
    from_west(lines[4], low[y]);
    from_east(lines[5], low[y]);
    from_west(lines[6], low[north]);
    from_east(lines[7], low[north]);
    from_west(lines[8], low[south]);
    from_east(lines[9], low[south]);
    break;
  case VONN:
    for (int level = 0; level < 2; level++) {
      const Row *plane = planes->rows[lower + level];
      memcpy(lines[2 + 4 * level], plane[north], ROW_BYTES);
      memcpy(lines[3 + 4 * level], plane[south], ROW_BYTES);
      from_west(lines[4 + 4 * level], plane[y]);
      from_east(lines[5 + 4 * level], plane[y]);
    }
    break;
  default:
    for (int level = 0; level < 2; level++) {
      Row *three = lines + 2 + 3 * level;
      lines_of_blocks(three[0], three[1], three[2], planes->rows[lower + level], wiring, y);
    }
    for (int bit = 0; bit < 2; bit++) filled(lines[8 + bit], hood_line(wiring, bit, y));
  }
  for (int bit = 0; bit < 2; bit++) {
    if (wiring->minor == CENTERS) memcpy(lines[10 + bit], planes->rows[other + bit][y], ROW_BYTES);
    else filled(lines[10 + bit], minor_line(wiring, bit, y));
  }
}

// ---- By transposes

// Turns over eight bytes of eight bits: bit i of byte k becomes bit k of byte i.
static inline uint64_t transposed(uint64_t x) {
  uint64_t t;
  t = (x ^ x >> 7) & 0x00aa00aa00aa00aaULL;
  x ^= t ^ t << 7;
  t = (x ^ x >> 14) & 0x0000cccc0000ccccULL;
  x ^= t ^ t << 14;
  t = (x ^ x >> 28) & 0x00000000f0f0f0f0ULL;
  return x ^ t ^ t << 28;
}

// A step that transposes the lines of eight cells into addresses, and looks these up.
static void step_transpose(const Planes *old, Planes *new, const Wiring *wiring, const uint8_t *table) {
  int lower = wiring->half * 2;
  Row lines[LINES];
  for (int y = 0; y < SIDE; y++) {
    lines_of_row(old, wiring, y, lines);
    for (int w = 0; w < WORDS; w++) {
      uint64_t first = 0, second = 0;
      for (int shift = 56; shift >= 0; shift -= 8) {
        uint64_t low = 0, high = 0;
        for (int i = 0; i < 8; i++) low |= (lines[i][w] >> shift & 255) << 8 * i;
        for (int i = 0; i < 4; i++) high |= (lines[8 + i][w] >> shift & 255) << 8 * i;
        low = transposed(low);
        high = transposed(high);
        unsigned one = 0, two = 0;
        for (int j = 0; j < 8; j++) {
          unsigned entry = table[(low >> 8 * j & 255) | (high >> 8 * j & 255) << 8];
          one |= (entry & 1) << j;
          two |= entry >> 1 << j;
        }
        first |= (uint64_t)one << shift;
        second |= (uint64_t)two << shift;
      }
      new->rows[lower][y][w] = first;
      new->rows[lower + 1][y][w] = second;
    }
  }
}

// ---- Decision diagrams

enum { MOST_NODES = 8192, PLACES = 16384, MOST_SLOTS = 2048 };

// An edge is twice a node, and one more if what is below is meant the other way round. Node 0 is
// the constant 0. Edges to where the line is 1 are never turned round, so that each function of the
// lines has one node.
typedef struct { int line, zero, one; } Node;
typedef struct {
  Node nodes[MOST_NODES];
  int count;
  int places[PLACES]; // nodes by what they are made of
  int roots[2];
} Diagram;

// An edge to the node of this line and these two edges, which is made if it is not there yet.
static int edge_to(Diagram *diagram, int line, int zero, int one) {
  if (zero == one) return zero;
  int turned = one & 1;
  zero ^= turned;
  one ^= turned;
  unsigned place = (unsigned)line * 0x9e3779b1u ^ (unsigned)zero * 0x85ebca6bu ^ (unsigned)one * 0xc2b2ae35u;
  place = (place ^ place >> 15) & (PLACES - 1);
  for (int at; (at = diagram->places[place]); place = (place + 1) & (PLACES - 1)) {
    const Node *node = &diagram->nodes[at];
    if (node->line == line && node->zero == zero && node->one == one) return at * 2 + turned;
  }
  diagram->places[place] = diagram->count;
  diagram->nodes[diagram->count] = (Node){line, zero, one};
  return diagram->count++ * 2 + turned;
}

// The first line of the order is asked at the root, the last one right above the constants.
static void make_diagram(Diagram *diagram, const uint8_t *table, const int order[LINES]) {
  static int edges[ENTRIES];
  memset(diagram->places, 0, sizeof diagram->places);
  diagram->count = 1;
  for (int bit = 0; bit < 2; bit++) {
    for (int i = 0; i < ENTRIES; i++) {
      unsigned address = 0;
      for (int k = 0; k < LINES; k++) address |= (i >> (LINES - 1 - k) & 1u) << order[k];
      edges[i] = table[address] >> bit & 1;
    }
    for (int level = LINES - 1, count = ENTRIES / 2; level >= 0; level--, count /= 2) {
      for (int i = 0; i < count; i++) edges[i] = edge_to(diagram, order[level], edges[2 * i], edges[2 * i + 1]);
    }
    diagram->roots[bit] = edges[0];
  }
}

// ---- Programs of word operations

// What is done with a line x and the values b and c below it.
typedef enum {
  XOR,     // x ^ b
  AND,     // x & b
  AND_B,   // ~x & b
  AND_X,   // x & ~b
  NOR,     // ~(x | b)
  CHOICE,  // b where x is 0, c where it is 1
  TURNED,  // ~b where x is 0, c where it is 1
} Operation;

// A value is a line, by its number, or a slot, by its number after those of the lines.
typedef struct { Operation operation; int x, b, c, to; } Instruction;
typedef struct {
  Instruction instructions[MOST_NODES];
  int count, slots, cost;
  int lines;                                // those that are read, a bit for each
  int value[2], is_turned[2], is_constant[2]; // of each plane that is written
} Program;

// The nodes below a diagram's roots, each after those below it, with how often each is used.
static int nodes_in_order(const Diagram *diagram, int *order, int *uses) {
  static int state[MOST_NODES], stack[2 * MOST_NODES];
  int count = 0;
  memset(state, 0, sizeof(int) * diagram->count);
  memset(uses, 0, sizeof(int) * diagram->count);
  for (int bit = 0; bit < 2; bit++) {
    int depth = 0;
    stack[depth++] = diagram->roots[bit] >> 1;
    uses[diagram->roots[bit] >> 1]++;
    while (depth) {
      int at = stack[depth - 1];
      if (at == 0 || state[at] == 2) {
        depth--;
      } else if (state[at] == 1) {
        state[at] = 2;
        order[count++] = at;
        depth--;
      } else {
        const Node *node = &diagram->nodes[at];
        state[at] = 1;
        uses[node->zero >> 1]++;
        uses[node->one >> 1]++;
        stack[depth++] = node->one >> 1;
        stack[depth++] = node->zero >> 1;
      }
    }
  }
  return count;
}

// Of each node that is done: its value, and whether the node is that value turned round.
static int value_of[MOST_NODES], turned_of[MOST_NODES];

// The instruction of a node, if the nodes below it are done. A node that is a line itself needs none:
// for that the answer is 0.
static int instruction_of(const Node *node, int at, Instruction *in) {
  int zero = node->zero >> 1, one = node->one >> 1;
  int turned_zero = turned_of[zero] ^ (node->zero & 1), turned_one = turned_of[one];
  *in = (Instruction){XOR, node->line, 0, 0, 0};
  if (zero == 0 && one == 0) { // 1 where the line is 0
    value_of[at] = node->line;
    turned_of[at] = 1;
    return 0;
  }
  if (zero == one) { // what is below, turned round where the line is 0
    in->b = value_of[one];
    turned_of[at] = 1 ^ turned_one;
  } else if (zero == 0) {
    int is_one = node->zero & 1; // where the line is 0
    in->b = value_of[one];
    in->operation = turned_one == is_one ? AND : AND_X;
    turned_of[at] = is_one;
  } else if (one == 0) { // 0 where the line is 1
    in->b = value_of[zero];
    in->operation = turned_zero ? NOR : AND_B;
    turned_of[at] = 0;
  } else {
    in->b = value_of[zero];
    in->c = value_of[one];
    in->operation = turned_zero == turned_one ? CHOICE : TURNED;
    turned_of[at] = turned_one;
  }
  return 1;
}

// Writes the instructions of a diagram, in an order that reuses slots.
static void make_program(const Diagram *diagram, Program *program) {
  static int order[MOST_NODES], uses[MOST_NODES], slot_of[MOST_NODES], spare[MOST_NODES];
  int spares = 0, count = nodes_in_order(diagram, order, uses);
  program->count = program->slots = program->cost = program->lines = 0;
  value_of[0] = turned_of[0] = 0;
  slot_of[0] = -1;
  for (int k = 0; k < count; k++) {
    int at = order[k];
    const Node *node = &diagram->nodes[at];
    Instruction in;
    program->lines |= 1 << node->line;
    slot_of[at] = -1;
    if (!instruction_of(node, at, &in)) continue;
    // A slot that is read here for the last time may be written here.
    int below[2] = {node->zero >> 1, node->one >> 1};
    for (int i = 0; i < 2; i++) {
      if (below[i] && --uses[below[i]] == 0 && slot_of[below[i]] >= 0) spare[spares++] = slot_of[below[i]];
    }
    slot_of[at] = spares ? spare[--spares] : program->slots++;
    value_of[at] = in.to = LINES + slot_of[at];
    program->cost += in.operation == CHOICE ? 3 : in.operation == TURNED ? 4 : 1;
    program->instructions[program->count++] = in;
  }
  for (int bit = 0; bit < 2; bit++) {
    int root = diagram->roots[bit] >> 1;
    program->is_constant[bit] = root == 0;
    program->value[bit] = value_of[root];
    program->is_turned[bit] = turned_of[root] ^ (diagram->roots[bit] & 1);
  }
}

// A table in which lines that no cell can turn are what they are: a neighbourhood's two lines without
// a name, and the phase.
static void fold(const uint8_t *table, const Wiring *wiring, uint8_t *folded) {
  for (unsigned address = 0; address < ENTRIES; address++) {
    unsigned seen = address;
    if (wiring->hood == MARG) seen &= ~0x300u;
    if (wiring->hood == MARG_PH) seen = (seen & ~0x300u) | (unsigned)wiring->phase << 8;
    if (wiring->minor == PHASES) seen = (seen & ~0xc00u) | (unsigned)wiring->phase << 10;
    folded[address] = table[seen];
  }
}

static Diagram diagram;
static Program program;

// Makes the diagram and the program of a table by an order of lines, and returns their cost.
static int cost_in(const uint8_t *table, const int order[LINES]) {
  make_diagram(&diagram, table, order);
  make_program(&diagram, &program);
  return program.cost * 64 + diagram.count;
}

// Looks for an order with a shorter program: each line that is read is tried at each place of the
// order, up to three times, as long as that helps.
static void sift(const uint8_t *table, int order[LINES]) {
  int best = cost_in(table, order), lines = program.lines, is_better = 1;
  for (int round = 0; is_better && round < 3; round++) {
    is_better = 0;
    for (int line = 0; line < LINES; line++) {
      if (!(lines >> line & 1)) continue;
      int others[LINES], count = 0;
      for (int i = 0; i < LINES; i++) {
        if (order[i] != line) others[count++] = order[i];
      }
      for (int place = 0; place < LINES; place++) {
        int tried[LINES];
        for (int i = 0, k = 0; i < LINES; i++) tried[i] = i == place ? line : others[k++];
        int cost = cost_in(table, tried);
        if (cost < best) {
          best = cost;
          memcpy(order, tried, sizeof tried);
          is_better = 1;
        }
      }
    }
  }
}

// ---- A step by a program

// A plane whose row y stands at y + 1, with a row of the torus above and one below.
typedef struct { Row rows[SIDE + 2]; } Padded;
static Padded padded[LINES] __attribute__((aligned(64)));

// Four words as one value: a slot may be written by the instruction that reads it, and loops over
// words would be compiled for the case that they overlap in part.
typedef uint64_t Four __attribute__((vector_size(32), aligned(8), may_alias));
enum { FOURS = BAND_WORDS / 4 };
static uint64_t slots[MOST_SLOTS][BAND_WORDS] __attribute__((aligned(64)));

// Copies the last row before the first one, and the first one after the last.
static void pad_ends(Padded *plane) {
  memcpy(plane->rows[0], plane->rows[SIDE], ROW_BYTES);
  memcpy(plane->rows[SIDE + 1], plane->rows[1], ROW_BYTES);
}

// Three padded planes show all nine cells: as they are, from the west and from the east.
static void moore_lines(const Row *plane, int read, const uint64_t *lines[LINES]) {
  if (read & 0x00c) {
    memcpy(padded[0].rows[1], plane, PLANE_BYTES);
    pad_ends(&padded[0]);
  }
  if (read & 0x150) {
    for (int y = 0; y < SIDE; y++) from_west(padded[1].rows[y + 1], plane[y]);
    pad_ends(&padded[1]);
  }
  if (read & 0x2a0) {
    for (int y = 0; y < SIDE; y++) from_east(padded[2].rows[y + 1], plane[y]);
    pad_ends(&padded[2]);
  }
  lines[2] = padded[0].rows[0];
  lines[3] = padded[0].rows[2];
  for (int row = 0; row < 3; row++) { // west and east of the row itself, above it, below it
    static const int from[3] = {1, 0, 2};
    lines[4 + 2 * row] = padded[1].rows[from[row]];
    lines[5 + 2 * row] = padded[2].rows[from[row]];
  }
}

// Of one plane the rows to the north, south, west and east.
static void vonn_lines(const Row *plane, Padded *three, int read, const uint64_t **lines) {
  if (read & 0x0c) {
    memcpy(three[0].rows[1], plane, PLANE_BYTES);
    pad_ends(&three[0]);
  }
  for (int y = 0; y < SIDE && read & 0x10; y++) from_west(three[1].rows[y + 1], plane[y]);
  for (int y = 0; y < SIDE && read & 0x20; y++) from_east(three[2].rows[y + 1], plane[y]);
  lines[2] = three[0].rows[0];
  lines[3] = three[0].rows[2];
  lines[4] = three[1].rows[1];
  lines[5] = three[2].rows[1];
}

// Of one plane what CW, CCW and OPP show.
static void block_lines(const Row *plane, const Wiring *wiring, Padded *three, int read, const uint64_t **lines) {
  for (int i = 0; i < 3; i++) lines[2 + i] = three[i].rows[1];
  for (int y = 0; y < SIDE && read & 0x1c; y++) {
    lines_of_blocks(three[0].rows[y + 1], three[1].rows[y + 1], three[2].rows[y + 1], plane, wiring, y);
  }
}

// Where each line's rows begin. Those that the program doesn't read aren't made.
static void lines_of_planes(const Planes *planes, const Wiring *wiring, int read, const uint64_t *lines[LINES]) {
  int lower = wiring->half * 2, other = 2 - lower;
  for (int level = 0; level < 2; level++) {
    const Row *plane = planes->rows[lower + level];
    lines[level] = plane[0];
    if (wiring->hood == VONN) vonn_lines(plane, padded + 3 * level, read >> 4 * level, lines + 4 * level);
    if (wiring->hood > VONN) block_lines(plane, wiring, padded + 3 * level, read >> 3 * level, lines + 3 * level);
  }
  if (wiring->hood == MOORE) moore_lines(planes->rows[lower], read, lines);
  for (int bit = 0; bit < 2; bit++) {
    if (wiring->hood > VONN) {
      lines[8 + bit] = padded[8 + bit].rows[1];
      for (int y = 0; y < SIDE && read >> (8 + bit) & 1; y++) {
        filled(padded[8 + bit].rows[y + 1], hood_line(wiring, bit, y));
      }
    }
    if (wiring->minor == CENTERS) {
      lines[10 + bit] = planes->rows[other + bit][0];
      continue;
    }
    lines[10 + bit] = padded[10 + bit].rows[1];
    for (int y = 0; y < SIDE && read >> (10 + bit) & 1; y++) {
      filled(padded[10 + bit].rows[y + 1], minor_line(wiring, bit, y));
    }
  }
}

// Where a value is: in a line, or in a slot.
static inline const Four *value_at(const uint64_t *const lines[LINES], int value, int first) {
  return (const Four *)(value < LINES ? lines[value] + first : slots[value - LINES]);
}

#define EACH(value) for (int i = 0; i < FOURS; i++) to[i] = value

// The instructions over the band whose first word this is.
static inline void do_band(const Program *done, const uint64_t *const lines[LINES], int first) {
  for (int k = 0; k < done->count; k++) {
    const Instruction *in = &done->instructions[k];
    const Four *x = (const Four *)(lines[in->x] + first);
    const Four *b = value_at(lines, in->b, first), *c = value_at(lines, in->c, first);
    Four *to = (Four *)slots[in->to - LINES];
    switch (in->operation) {
    case XOR: EACH(x[i] ^ b[i]); break;
    case AND: EACH(x[i] & b[i]); break;
    case AND_B: EACH(~x[i] & b[i]); break;
    case AND_X: EACH(x[i] & ~b[i]); break;
    case NOR: EACH(~(x[i] | b[i])); break;
    case CHOICE: EACH(b[i] ^ (x[i] & (b[i] ^ c[i]))); break;
    case TURNED: EACH((x[i] & c[i]) | ~(x[i] | b[i])); break;
    }
  }
}

// A step by the instructions of a program, band by band.
static void step_bdd(const Planes *old, Planes *new, const Wiring *wiring, const Program *done) {
  const uint64_t *lines[LINES];
  lines_of_planes(old, wiring, done->lines, lines);
  for (int y = 0; y < SIDE; y += BAND) {
    do_band(done, lines, y * WORDS);
    for (int bit = 0; bit < 2; bit++) {
      uint64_t *to = new->rows[wiring->half * 2 + bit][y], turned = spread(done->is_turned[bit], 0);
      if (done->is_constant[bit]) {
        for (int i = 0; i < BAND_WORDS; i++) to[i] = turned;
      } else {
        const uint64_t *value = (const uint64_t *)value_at(lines, done->value[bit], y * WORDS);
        for (int i = 0; i < BAND_WORDS; i++) to[i] = value[i] ^ turned;
      }
    }
  }
}

// ---- Life by hand

// Sums of three cells beside one another, and of the outer two of them, each in two planes; and by
// them the count of the cells around.
static void step_life(const Planes *old, Planes *new) {
  static Padded three_ones, three_twos, two_ones, two_twos;
  for (int y = 0; y < SIDE; y++) {
    const uint64_t *centre = old->rows[0][y];
    Row west, east;
    from_west(west, centre);
    from_east(east, centre);
    for (int w = 0; w < WORDS; w++) {
      uint64_t ones = west[w] ^ east[w], twos = west[w] & east[w];
      two_ones.rows[y + 1][w] = ones;
      two_twos.rows[y + 1][w] = twos;
      three_ones.rows[y + 1][w] = ones ^ centre[w];
      three_twos.rows[y + 1][w] = twos | (ones & centre[w]);
    }
  }
  pad_ends(&three_ones);
  pad_ends(&three_twos);
  const uint64_t *above1 = three_ones.rows[0], *below1 = three_ones.rows[2], *beside1 = two_ones.rows[1];
  const uint64_t *above2 = three_twos.rows[0], *below2 = three_twos.rows[2], *beside2 = two_twos.rows[1];
  const uint64_t *centre = old->rows[0][0];
  uint64_t *to = new->rows[0][0];
  for (int i = 0; i < SIDE * WORDS; i++) {
    uint64_t half = above1[i] ^ below1[i], ones = half ^ beside1[i];
    uint64_t carry = (above1[i] & below1[i]) | (half & beside1[i]);
    uint64_t p = above2[i] ^ below2[i], q = above2[i] & below2[i], r = beside2[i] ^ carry, s = beside2[i] & carry;
    uint64_t two_or_three = (p ^ r) & ~(q | s);
    to[i] = two_or_three & (ones | centre[i]);
  }
  memcpy(new->rows[1], old->rows[1], PLANE_BYTES);
}

// ---- Tables

// The bit of a line in an address.
static unsigned bit(unsigned address, int line) { return address >> line & 1; }
// How many of the eight neighbours are set.
static unsigned around(unsigned address) { return __builtin_popcount(address >> 2 & 255); }
// Of the four cells of a block.
static unsigned in_block(unsigned address) { return __builtin_popcount(address & 0x1d); }

// Each gives the new lower bit, and twice the new upper one; most keep the upper one.
static unsigned parity(unsigned a) { return (bit(a, 0) ^ (__builtin_popcount(a >> 2 & 15) & 1)) | (a & 2); }
static unsigned life(unsigned a) { return (around(a) == 3 || (around(a) == 2 && bit(a, 0))) | (a & 2); }
static unsigned brians_brain(unsigned a) { return (around(a) == 2 && !(a & 3)) | bit(a, 0) << 1; }
// Done twice on one grid this leaves each block as it was.
static unsigned billiard_balls(unsigned a) {
  unsigned center = bit(a, 0), opposite = bit(a, 4), balls = in_block(a);
  unsigned lower = balls == 1 ? opposite : balls == 2 && center == opposite ? bit(a, 2) : center;
  return lower | (a & 2);
}
// Inverts a block unless two of its cells are set, and rotates one of three by half a turn.
static unsigned critters(unsigned a) {
  unsigned lower = in_block(a) == 2 ? bit(a, 0) : in_block(a) == 3 ? !bit(a, 4) : !bit(a, 0);
  return lower | (a & 2);
}
// Undoes `critters`.
static unsigned critters_undone(unsigned a) {
  unsigned lower = in_block(a) == 2 ? bit(a, 0) : in_block(a) == 1 ? !bit(a, 4) : !bit(a, 0);
  return lower | (a & 2);
}

// A table without a formula is random, by its seed. One that undoes another is named with it.
typedef struct {
  const char *name;
  Wiring wiring;
  unsigned (*formula)(unsigned);
  uint64_t seed;
  unsigned (*undoing)(unsigned);
} Table;

static const Table TABLES[] = {
  {"parity", {0, VONN, CENTERS, 0, 0}, parity, 0, 0},
  {"life", {0, MOORE, CENTERS, 0, 0}, life, 0, 0},
  {"brians_brain", {0, MOORE, CENTERS, 0, 0}, brians_brain, 0, 0},
  {"billiard_balls", {0, MARG, PHASES, 0, 0}, billiard_balls, 0, billiard_balls},
  {"critters", {0, MARG, PHASES, 0, 0}, critters, 0, critters_undone},
  {"critters_undone", {0, MARG, PHASES, 0, 0}, critters_undone, 0, critters},
  {"random_marg", {0, MARG, PHASES, 0, 0}, 0, 11, 0}, // eight lines; the others all twelve
  {"random_vonn", {0, VONN, CENTERS, 0, 0}, 0, 12, 0},
  {"random_moore", {0, MOORE, CENTERS, 0, 0}, 0, 13, 0},
  {"random_marg_hv", {0, MARG_HV, CENTERS, 1, 0}, 0, 14, 0},
  {"random_marg_ph", {0, MARG_PH, HV, 1, 3}, 0, 15, 0},
};
enum { COUNT = sizeof TABLES / sizeof TABLES[0] };

static uint8_t entries[ENTRIES], folded[ENTRIES];
static Planes first, second, third;

// Fills `entries` with the table, by its formula or at random.
static void fill_entries(const Table *table) {
  seed = table->seed;
  for (unsigned a = 0; a < ENTRIES; a++) entries[a] = table->formula ? table->formula(a) : random_word() >> 62;
}

// The order in which a table's program is short.
static void fill_order(const Table *table, int order[LINES]) {
  for (int i = 0; i < LINES; i++) order[i] = LINES - 1 - i;
  fold(entries, &table->wiring, folded);
  sift(folded, order);
}

// Makes the program of `entries` for a wiring.
static void fill_program(const Wiring *wiring, const int order[LINES]) {
  fold(entries, wiring, folded);
  cost_in(folded, order);
}

// ---- Checks

// Ends with a message if two results differ.
static void same(const Planes *came, const Planes *wanted, const Table *table, const char *what) {
  if (memcmp(came, wanted, sizeof *came)) {
    printf("%s by %s is not what it is cell by cell\n", table->name, what);
    exit(1);
  }
}

// Compares all methods with the naive one at one wiring.
static void check_wiring(const Table *table, const Wiring *wiring, const int order[LINES]) {
  fill_program(wiring, order);
  second = first;
  step_naive(&first, &second, wiring, entries);
  third = first;
  step_transpose(&first, &third, wiring, entries);
  same(&third, &second, table, "transpose");
  third = first;
  step_bdd(&first, &third, wiring, &program);
  same(&third, &second, table, "bdd");
  if (table->formula == life && !wiring->half) {
    third = first;
    step_life(&first, &third);
    same(&third, &second, table, "hand");
  }
  if (table->undoing) {
    static uint8_t back[ENTRIES];
    for (unsigned a = 0; a < ENTRIES; a++) back[a] = table->undoing(a);
    third = second;
    step_naive(&second, &third, wiring, back);
    same(&third, &first, table, "the table that undoes it");
  }
}

// Compares all methods at each half, grid and phase, from several random states.
static void check(const Table *table) {
  int order[LINES];
  fill_entries(table);
  fill_order(table, order);
  for (int state = 0; state < STATES; state++) {
    seed = 1000 + state;
    fill(&first);
    for (int i = 0; i < 16; i++) {
      Wiring wiring = table->wiring;
      wiring.half = i & 1;
      wiring.grid = i >> 1 & 1;
      wiring.phase = i >> 2;
      check_wiring(table, &wiring, order);
    }
  }
}

// ---- Times

typedef enum { NAIVE, TRANSPOSE, BDD, HAND, METHODS } Method;
static const char *METHOD_NAMES[] = {"naive", "transpose", "bdd", "hand"};

// Twice so many steps, there and back between two images.
static void do_steps(Method method, const Wiring *wiring, int count) {
  for (int i = 0; i < count; i++) {
    switch (method) {
    case NAIVE:
      step_naive(&first, &second, wiring, entries);
      step_naive(&second, &first, wiring, entries);
      break;
    case TRANSPOSE:
      step_transpose(&first, &second, wiring, entries);
      step_transpose(&second, &first, wiring, entries);
      break;
    case BDD:
      step_bdd(&first, &second, wiring, &program);
      step_bdd(&second, &first, wiring, &program);
      break;
    default:
      step_life(&first, &second);
      step_life(&second, &first);
    }
  }
}

// The nanoseconds that a method takes for `2 * count` steps.
static double took(Method method, const Wiring *wiring, int count) {
  double start = now();
  do_steps(method, wiring, count);
  return now() - start;
}

// As many steps a run as take twenty milliseconds.
static double least_time(Method method, const Wiring *wiring) {
  int count = 1;
  while (took(method, wiring, count) < 2e7) count *= 2;
  double least = 1e18;
  for (int i = 0; i < TIMES; i++) {
    double time = took(method, wiring, count) / (2.0 * count);
    if (time < least) least = time;
  }
  return least;
}

// Prints the least time of a step by a method, in nanoseconds.
static void print_time(const Table *table, Method method) {
  int order[LINES];
  if (method == HAND && table->formula != life) return;
  fill_entries(table);
  fill_order(table, order);
  fill_program(&table->wiring, order);
  seed = 5;
  fill(&first);
  second = first;
  printf("%s %s %.0f\n", table->name, METHOD_NAMES[method], least_time(method, &table->wiring));
  fflush(stdout);
}

int main(int count, char **words) {
  if (count == 3) {
    for (int i = 0; i < COUNT; i++) {
      for (int method = 0; method < METHODS; method++) {
        if (strcmp(words[1], TABLES[i].name) || strcmp(words[2], METHOD_NAMES[method])) continue;
        print_time(&TABLES[i], method);
        return 0;
      }
    }
    fprintf(stderr, "there is no such table or method\n");
    return 2;
  }
  for (int i = 0; i < COUNT; i++) check(&TABLES[i]);
  if (count > 1) return 0;
  for (int i = 0; i < COUNT; i++) {
    for (int method = 0; method < METHODS; method++) print_time(&TABLES[i], method);
  }
}
