/* A full scan of the grid: the measure that bench/scan.py holds a frame of the program against.

   Cells and marks are flat, a byte each. A frame clears all marks, and then looks at every cell in reading order, with
   one switch over the glyph. `scan GRID FRAMES` prints the grid after so many frames with the seed 1. */
#include <stdbool.h>
#include <stddef.h>
#include <stdint.h>
#include <stdio.h>
#include <stdlib.h>
#include <string.h>

enum { LOCK = 1, INPUT = 2, PARAM = 4, OUTPUT = 8, SLEEP = 16 };
enum { IN = INPUT | LOCK, PAR = INPUT | PARAM | LOCK, OUT = OUTPUT | LOCK, FAR = OUTPUT | SLEEP };
enum kind { NOTE, CONTROL, BEND, UDP, OSC };

struct event {
    enum kind kind;
    uint8_t a, b, c;  /* the channel and two data bytes; of OSC, a is the path */
    uint8_t length, mono;
    uint8_t count, text[36];  /* the text of UDP, the values of OSC */
};

struct field {
    int h, w;
    uint8_t *cells, *marks;
    struct event *events;
    size_t count, room;
};

struct frame {
    struct field *field;
    uint32_t tick, seed;
    uint8_t vars[36];
};

static uint8_t value[256];      /* of a glyph */
static uint8_t operator[256];   /* 1: always; 2: beside a bang alone */
static uint8_t digit[2][36];    /* of a value, in lower and in upper case */

static void fill_tables(void) {
    for (int n = 0; n < 36; n++) {
        digit[0][n] = (uint8_t)(n < 10 ? '0' + n : 'a' + n - 10);
        digit[1][n] = (uint8_t)(n < 10 ? '0' + n : 'A' + n - 10);
        value[digit[0][n]] = value[digit[1][n]] = (uint8_t)n;
    }
    for (int n = 0; n < 26; n++) {
        operator['A' + n] = 1;
        operator['a' + n] = 2;
    }
    for (const char *sign = "*#:%!?;="; *sign; sign++) operator[(uint8_t)*sign] = 1;
}

static void *room_for(void *old, size_t size) {
    void *it = realloc(old, size);
    if (!it) {
        fputs("scan: no memory\n", stderr);
        exit(1);
    }
    return it;
}

static struct event *emit(struct field *field) {
    if (field->count == field->room) {
        field->room = field->room ? 2 * field->room : 256;
        field->events = room_for(field->events, field->room * sizeof *field->events);
    }
    return &field->events[field->count++];
}

/* The first word of PCG, Lcg64Xsh32. */
static uint32_t drawn(uint64_t state, uint64_t stream) {
    const uint64_t increment = stream << 1 | 1, factor = 6364136223846793005u;
    state = (state + increment) * factor + increment;
    const uint32_t turn = (uint32_t)(state >> 59), word = (uint32_t)((state >> 18 ^ state) >> 27);
    return word >> turn | word << (-turn & 31);
}

static int number_of_note(uint8_t glyph) {
    static const int table[7] = {0, 2, 4, 5, 7, 9, 11};
    const bool upper = glyph >= 'A' && glyph <= 'Z', lower = glyph >= 'a' && glyph <= 'z';
    if (!upper && !lower) return -1;
    const int letter = upper ? glyph - 'A' : glyph - 'a', degree = letter < 2 ? letter + 5 : letter - 2;
    return 12 * (degree / 7) + table[degree % 7] + lower;
}

static inline uint8_t cased(int n, uint8_t by) { return digit[by >= 'A' && by <= 'Z'][n]; }
static inline int or(int n, int other) { return n ? n : other; }
static inline int rate_of(uint8_t glyph) { return glyph == '.' || glyph == '*' ? 1 : value[glyph]; }

static inline bool holds(int h, int w, int y, int x) {
    return (unsigned)y < (unsigned)h && (unsigned)x < (unsigned)w;
}

/* All of these go by places relative to that which is visited. */
#define PLACE(dy, dx) ((y + (dy)) * w + x + (dx))
#define HOLDS(dy, dx) holds(h, w, y + (dy), x + (dx))
#define AT(dy, dx) (HOLDS(dy, dx) ? cells[PLACE(dy, dx)] : (uint8_t)'.')
#define MARK(dy, dx, set) do { if (HOLDS(dy, dx)) marks[PLACE(dy, dx)] |= (set); } while (0)
#define PUT(dy, dx, glyph) do { if (HOLDS(dy, dx)) cells[PLACE(dy, dx)] = (glyph); } while (0)
#define BANG() (AT(0, 1) == '*' || AT(0, -1) == '*' || AT(1, 0) == '*' || AT(-1, 0) == '*')
#define OP(upper, lower) case upper: case lower:
/* The ports of an operator that reads at both of its sides and writes below. */
#define SIDES() \
    const uint8_t l = AT(0, -1), r = AT(0, 1); \
    const int a = value[l], b = value[r]; \
    (void)a; (void)b; \
    MARK(0, -1, PAR); \
    MARK(0, 1, IN); \
    MARK(1, 0, OUT)
#define MOVE(dy, dx) \
    if (HOLDS(dy, dx) && cells[PLACE(dy, dx)] == '.') { \
        marks[PLACE(dy, dx)] |= SLEEP; \
        cells[PLACE(dy, dx)] = me; \
        row[x] = '.'; \
    } else { \
        row[x] = '*'; \
    } \
    break
/* A jump by a step over operators of its own kind. */
#define JUMP(dy, dx) \
    const uint8_t from = AT(-(dy), -(dx)); \
    if (from == me) break; \
    MARK(-(dy), -(dx), IN); \
    int n = 1; \
    while (n <= 256 && AT(n * (dy), n * (dx)) == me) n++; \
    if (n > 256) break; \
    for (int i = 1; i < n; i++) MARK(i * (dy), i * (dx), SLEEP); \
    MARK(n * (dy), n * (dx), OUT); \
    PUT(n * (dy), n * (dx), from); \
    break

/* Visits an operator that is neither locked nor asleep. It stands apart so that the walk keeps its registers. */
__attribute__((noinline)) static void visit(struct frame *const frame, const int y, const int x) {
    struct field *const field = frame->field;
    const int h = field->h, w = field->w;
    uint8_t *const cells = field->cells, *const marks = field->marks, *const row = cells + y * w;
    const uint8_t me = row[x];
    if (operator[me] == 2 && !BANG()) return;

    switch (me) {
    OP('A', 'a') {
        SIDES();
        PUT(1, 0, cased((a + b) % 36, r));
        break;
    }
    OP('B', 'b') {
        SIDES();
        PUT(1, 0, cased(a > b ? a - b : b - a, r));
        break;
    }
    OP('C', 'c') {
        SIDES();
        PUT(1, 0, cased((int)(frame->tick / (uint32_t)or(a, 1) % (uint32_t)or(b, 8)), r));
        break;
    }
    OP('D', 'd') {
        SIDES();
        PUT(1, 0, frame->tick % (uint32_t)(or(a, 1) * or(b, 8)) == 0 ? '*' : '.');
        break;
    }
    OP('F', 'f') {
        SIDES();
        PUT(1, 0, l == r ? '*' : '.');
        break;
    }
    OP('I', 'i') {
        SIDES();
        const uint8_t s = AT(1, 0);
        MARK(1, 0, IN);
        PUT(1, 0, cased((value[s] + rate_of(l)) % or(b, 36), r));
        break;
    }
    OP('L', 'l') {
        SIDES();
        PUT(1, 0, l == '.' || r == '.' ? '.' : cased(a < b ? a : b, r));
        break;
    }
    OP('M', 'm') {
        SIDES();
        PUT(1, 0, cased(a * b % 36, r));
        break;
    }
    OP('R', 'r') {
        SIDES();
        const int other = or(b, 36), low = a < other ? a : other, high = a < other ? other : a;
        int n = a;
        if (low != high) {
            const uint64_t state = (uint64_t)frame->seed << 32 | frame->tick;
            n = low + (int)(drawn(state, (uint64_t)(y * w + x)) % (uint32_t)(high - low));
        }
        PUT(1, 0, cased(n, r));
        break;
    }
    OP('U', 'u') {
        SIDES();
        const uint64_t n = (uint64_t)rate_of(l), most = (uint64_t)or(b, 8);
        PUT(1, 0, n * (frame->tick + most - 1) % most + n >= most ? '*' : '.');
        break;
    }
    OP('Z', 'z') {
        SIDES();
        const int s = value[AT(1, 0)], rate = rate_of(l);
        MARK(1, 0, IN);
        int to = b;
        if (s < b) to = s + rate < b ? s + rate : b;
        else if (s > b) to = s - rate > b ? s - rate : b;
        PUT(1, 0, cased(to, r));
        break;
    }

    OP('E', 'e') { MOVE(0, 1); }
    OP('N', 'n') { MOVE(-1, 0); }
    OP('S', 's') { MOVE(1, 0); }
    OP('W', 'w') { MOVE(0, -1); }
    OP('J', 'j') { JUMP(1, 0); }
    OP('Y', 'y') { JUMP(0, 1); }
    case '*':
        row[x] = '.';
        break;
    OP('H', 'h') {
        MARK(1, 0, PAR);
        break;
    }
    case '#':
        for (int i = 1; i <= 255 && x + i < w; i++) {
            marks[PLACE(0, i)] |= LOCK;
            if (row[x + i] == '#') break;
        }
        break;

    OP('G', 'g') {
        const int px = value[AT(0, -3)], py = value[AT(0, -2)], n = value[AT(0, -1)];
        for (int i = -3; i < 0; i++) MARK(0, i, PAR);
        /* What is read stands in this row, and what is written below it. */
        for (int i = 0; i < n; i++) {
            const uint8_t glyph = AT(0, i + 1);
            MARK(0, i + 1, IN);
            MARK(py + 1, px + i, FAR);
            PUT(py + 1, px + i, glyph);
        }
        break;
    }
    OP('X', 'x') {
        const int px = value[AT(0, -2)], py = value[AT(0, -1)];
        const uint8_t r = AT(0, 1);
        for (int i = -2; i < 0; i++) MARK(0, i, PAR);
        MARK(0, 1, IN);
        MARK(py + 1, px, FAR);
        PUT(py + 1, px, r);
        break;
    }
    OP('O', 'o') {
        const int px = value[AT(0, -2)], py = value[AT(0, -1)];
        const uint8_t glyph = AT(py, px + 1);
        for (int i = -2; i < 0; i++) MARK(0, i, PAR);
        MARK(py, px + 1, IN);
        MARK(1, 0, OUT);
        PUT(1, 0, glyph);
        break;
    }
    OP('Q', 'q') {
        const int px = value[AT(0, -3)], py = value[AT(0, -2)], n = value[AT(0, -1)];
        uint8_t read[36];
        for (int i = -3; i < 0; i++) MARK(0, i, PAR);
        /* In the row below, what is read and what is written may overlap. */
        for (int i = 0; i < n; i++) read[i] = AT(py, px + 1 + i);
        for (int i = 0; i < n; i++) {
            MARK(py, px + 1 + i, IN);
            MARK(1, 1 - n + i, OUT);
            PUT(1, 1 - n + i, read[i]);
        }
        break;
    }
    OP('T', 't') {
        const int key = value[AT(0, -2)], n = or(value[AT(0, -1)], 1), at = key % n + 1;
        const uint8_t glyph = AT(0, at);
        for (int i = -2; i < 0; i++) MARK(0, i, PAR);
        for (int i = 1; i <= n; i++) MARK(0, i, LOCK);
        MARK(0, at, IN);
        MARK(1, 0, OUT);
        PUT(1, 0, glyph);
        break;
    }
    OP('P', 'p') {
        const int key = value[AT(0, -2)], n = or(value[AT(0, -1)], 1);
        const uint8_t r = AT(0, 1);
        for (int i = -2; i < 0; i++) MARK(0, i, PAR);
        for (int i = 0; i < n; i++) MARK(1, i, LOCK);
        MARK(0, 1, IN);
        MARK(1, key % n, OUT);
        PUT(1, key % n, r);
        break;
    }
    OP('V', 'v') {
        const uint8_t l = AT(0, -1), r = AT(0, 1);
        MARK(0, -1, PAR);
        MARK(0, 1, IN);
        if (l != '.') {
            frame->vars[value[l]] = r;
        } else if (r != '.') {
            MARK(1, 0, OUT);
            PUT(1, 0, frame->vars[value[r]]);
        }
        break;
    }
    OP('K', 'k') {
        const int n = or(value[AT(0, -1)], 1);
        MARK(0, -1, PAR);
        for (int i = 1; i <= n; i++) {
            const uint8_t glyph = AT(0, i);
            MARK(0, i, IN);
            if (glyph != '.') {
                MARK(1, i, OUT);
                PUT(1, i, frame->vars[value[glyph]]);
            }
        }
        break;
    }

    case ':':
    case '%': {
        for (int i = 1; i <= 5; i++) MARK(0, i, IN);
        if (!BANG()) break;
        const uint8_t octave = AT(0, 2), velocity = AT(0, 4);
        const int note = number_of_note(AT(0, 3));
        if (octave == '.' || note < 0 || (velocity != '.' && value[velocity] == 0)) break;
        marks[PLACE(0, 0)] |= OUTPUT;
        const int channel = value[AT(0, 1)], high = value[octave] < 9 ? value[octave] : 9;
        const int key = 12 * high + note, loud = 8 * value[velocity] - 1;
        struct event *const event = emit(field);
        event->kind = NOTE;
        event->a = (uint8_t)(channel < 15 ? channel : 15);
        event->b = (uint8_t)(key < 127 ? key : 127);
        event->c = (uint8_t)(velocity == '.' || loud > 127 ? 127 : loud);
        event->length = (uint8_t)or(value[AT(0, 5)], 1);
        event->mono = me == '%';
        break;
    }
    case '!':
    case '?': {
        for (int i = 1; i <= 3; i++) MARK(0, i, IN);
        if (!BANG()) break;
        const uint8_t channel = AT(0, 1), p = AT(0, 2), q = AT(0, 3);
        if (channel == '.' || value[channel] > 15 || (me == '!' && p == '.')) break;
        marks[PLACE(0, 0)] |= OUTPUT;
        struct event *const event = emit(field);
        event->kind = me == '!' ? CONTROL : BEND;
        event->a = value[channel];
        event->b = (uint8_t)(me == '!' ? value[p] : value[q] * 127 / 35);
        event->c = (uint8_t)((me == '!' ? value[q] : value[p]) * 127 / 35);
        break;
    }
    case ';': {
        int n = 0;
        for (; n < 16 && AT(0, n + 1) != '.'; n++) MARK(0, n + 1, LOCK);
        if (n == 0 || !BANG()) break;
        marks[PLACE(0, 0)] |= OUTPUT;
        struct event *const event = emit(field);
        event->kind = UDP;
        event->count = (uint8_t)n;
        memcpy(event->text, row + x + 1, (size_t)n);
        break;
    }
    case '=': {
        const uint8_t path = AT(0, 1);
        const int n = value[AT(0, 2)];
        MARK(0, 1, PAR);
        MARK(0, 2, PAR);
        for (int i = 0; i < n; i++) MARK(0, i + 3, IN);
        const bool is_letter = (path | 32) >= 'a' && (path | 32) <= 'z', is_number = path >= '0' && path <= '9';
        if (!(is_letter || is_number) || !BANG()) break;
        marks[PLACE(0, 0)] |= OUTPUT;
        struct event *const event = emit(field);
        event->kind = OSC;
        event->a = path;
        event->count = (uint8_t)n;
        for (int i = 0; i < n; i++) event->text[i] = value[AT(0, i + 3)];
        break;
    }
    }
}

static void scan(struct field *field, uint32_t tick, uint32_t seed) {
    const size_t h = (size_t)field->h, w = (size_t)field->w;
    struct frame frame = {field, tick, seed, {0}};
    memset(field->marks, 0, h * w);
    memset(frame.vars, '.', sizeof frame.vars);
    field->count = 0;
    for (size_t y = 0; y < h; y++) {
        const uint8_t *const row = field->cells + y * w, *const marks = field->marks + y * w;
        for (const uint8_t *cell = row; cell != row + w; cell++) {
            if (__builtin_expect(*cell == '.', 1)) continue;
            if (!operator[*cell] || (marks[cell - row] & (LOCK | SLEEP))) continue;
            visit(&frame, (int)y, (int)(cell - row));
        }
    }
}

/* Reads a grid whose rows have one width and end with LF. */
static bool reads(struct field *field, const char *name) {
    static char text[1100000];
    FILE *const file = fopen(name, "rb");
    if (!file) return false;
    const size_t size = fread(text, 1, sizeof text, file), w = strcspn(text, "\n"), h = size / (w + 1);
    fclose(file);
    if (w == 0 || h * (w + 1) != size) return false;
    field->h = (int)h;
    field->w = (int)w;
    field->cells = room_for(NULL, h * w);
    field->marks = room_for(NULL, h * w);
    for (size_t y = 0; y < h; y++) memcpy(field->cells + y * w, text + y * (w + 1), w);
    return true;
}

int main(int count, char **words) {
    struct field field = {0};
    if (count != 3 || !reads(&field, words[1])) {
        fputs("usage: scan GRID FRAMES\n", stderr);
        return 1;
    }
    fill_tables();
    const uint32_t frames = (uint32_t)strtoul(words[2], NULL, 10);
    for (uint32_t tick = 0; tick < frames; tick++) scan(&field, tick, 1);
    for (int y = 0; y < field.h; y++) printf("%.*s\n", field.w, (const char *)field.cells + y * field.w);
    return 0;
}
