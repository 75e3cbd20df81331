// The ant world played plainly, by docs/RULES.md: cells and ants in flat arrays, one turn after another. It is what bench/ratio measures the
// program against, so it judges nothing: it takes a world and two brains that `ants` accepts.
//   peer WORLD RED BLACK SEED ROUNDS [dump]
// prints what `ants run` prints with these files, seed and rounds, and the dump after the last round where it is asked for.
#include <stdint.h>
#include <stdio.h>
#include <stdlib.h>
#include <string.h>
#include <strings.h>

enum { SENSE, MARK, UNMARK, PICK_UP, DROP, TURN, MOVE, FLIP };
enum { FRIEND, FOE, FRIEND_WITH_FOOD, FOE_WITH_FOOD, FOOD, ROCK, MARKER, FOE_MARKER, HOME, FOE_HOME };
enum { MOST_CELLS = 512 * 512, MOST_ANTS = 16384, MOST_STATES = 10000, NOBODY = -1, NO_HILL = 2, SURROUND = 5, CORPSE = 3, REST = 14 };

static const char *const forms[] = {"Sense", "Mark", "Unmark", "PickUp", "Drop", "Turn", "Move", "Flip", 0};
static const char *const sights[] = {"Here", "Ahead", "LeftAhead", "RightAhead", 0};
static const char *const sides[] = {"Left", "Right", 0};
static const char *const conditions[] = {"Friend", "Foe", "FriendWithFood", "FoeWithFood", "Food", "Rock", "Marker", "FoeMarker", "Home", "FoeHome", 0};
static const char *const colours[] = {"red", "black"};

// `what` is a sight, a side or a marker, by the form.
typedef struct { uint8_t form, what, condition, marker; uint16_t met, unmet; uint32_t bound; } Instr;
// `hill` and `colour` are places in `colours`; `marks` has a bit for each marker.
typedef struct { int32_t ant; uint32_t food; uint8_t rocky, hill, odd_row, marks[2]; } Cell;
typedef struct { int32_t place; uint16_t state; uint8_t colour, facing, resting, laden, alive; } Ant;

static Cell cells[MOST_CELLS];
static Ant ants[MOST_ANTS];
static Instr brains[2][MOST_STATES];
static int width, height, ant_count, steps[2][6];
static uint32_t stream;

static int place_in(const char *const *words, const char *word) {
    int i = 0;
    while (words[i] && (!word || strcasecmp(words[i], word))) i++;
    return i;
}

static char *next(void) { return strtok(0, " \t\r\n"); }
static unsigned long next_number(void) { return strtoul(next(), 0, 10); }

static Instr read_instruction(char *word) {
    Instr i = {.form = (uint8_t)place_in(forms, word)};
    if (i.form == SENSE) i.what = (uint8_t)place_in(sights, next());
    if (i.form == TURN) i.what = (uint8_t)place_in(sides, next());
    if (i.form == MARK || i.form == UNMARK) i.what = (uint8_t)next_number();
    if (i.form == FLIP) i.bound = (uint32_t)next_number();
    i.met = (uint16_t)next_number();
    if (i.form == SENSE || i.form == PICK_UP || i.form == MOVE || i.form == FLIP) i.unmet = (uint16_t)next_number();
    if (i.form == SENSE) i.condition = (uint8_t)place_in(conditions, next());
    if (i.form == SENSE && i.condition == MARKER) i.marker = (uint8_t)next_number();
    return i;
}

static void read_brain(const char *name, Instr *brain) {
    FILE *file = fopen(name, "r");
    char *line = 0;
    size_t room = 0;
    while (file && getline(&line, &room, file) > 0) {
        line[strcspn(line, ";")] = 0;
        char *word = strtok(line, " \t\r\n");
        if (word) *brain++ = read_instruction(word);
    }
    free(line);
    if (file) fclose(file);
}

static void open_cell(int i, char byte) {
    cells[i] = (Cell){.ant = NOBODY, .rocky = byte == '#', .hill = NO_HILL, .odd_row = i / width % 2};
    if (byte >= '1' && byte <= '9') cells[i].food = (uint32_t)(byte - '0');
    if (byte != '+' && byte != '-') return;
    cells[i].hill = byte == '-';
    cells[i].ant = ant_count;
    ants[ant_count++] = (Ant){.place = i, .colour = cells[i].hill, .alive = 1};
}

static void read_world(const char *name) {
    FILE *file = fopen(name, "r");
    char byte;
    if (!file || fscanf(file, "%d %d", &width, &height) != 2) exit(5);
    for (int i = 0; i < width * height && fscanf(file, " %c", &byte) == 1; i++) open_cell(i, byte);
    fclose(file);
    memcpy(steps, (int[2][6]){{1, width, width - 1, -1, -width - 1, -width}, {1, width + 1, width, -1, -width, -width + 1}}, sizeof steps);
}

static inline int beside(int place, int direction) { return place + steps[cells[place].odd_row][direction]; }
static inline int turned(int direction, int by) { return direction + by < 6 ? direction + by : direction + by - 6; }

// A number below the bound; `stream` is s(i + 3) before the i-th draw.
static uint32_t draw(uint32_t bound) {
    stream = stream * 22695477 + 1;
    return (stream >> 16) % 16384 % bound;
}

static inline int meets(const Cell *c, const Instr *i, int own) {
    if (c->rocky) return i->condition == ROCK;
    const Ant *there = c->ant == NOBODY ? 0 : &ants[c->ant];
    switch (i->condition) {
    case FRIEND: return there && there->colour == own;
    case FOE: return there && there->colour != own;
    case FRIEND_WITH_FOOD: return there && there->colour == own && there->laden;
    case FOE_WITH_FOOD: return there && there->colour != own && there->laden;
    case FOOD: return c->food > 0;
    case MARKER: return c->marks[own] >> i->marker & 1;
    case FOE_MARKER: return c->marks[!own] != 0;
    case HOME: return c->hill == own;
    case FOE_HOME: return c->hill == !own;
    default: return 0;
    }
}

static void check(int place) {
    if (cells[place].ant == NOBODY) return;
    Ant *ant = &ants[cells[place].ant];
    int foes = 0;
    for (int d = 0; d < 6; d++) {
        int other = cells[beside(place, d)].ant;
        foes += other != NOBODY && ants[other].colour != ant->colour;
    }
    if (foes < SURROUND) return;
    cells[place].food += CORPSE + ant->laden;
    cells[place].ant = NOBODY;
    ant->alive = 0;
}

static int moved(Ant *ant, int id) {
    int ahead = beside(ant->place, ant->facing);
    if (cells[ahead].rocky || cells[ahead].ant != NOBODY) return 0;
    cells[ant->place].ant = NOBODY;
    cells[ahead].ant = id;
    ant->place = ahead;
    ant->resting = REST;
    check(ahead);
    for (int d = 0; d < 6; d++) check(beside(ahead, d));
    return 1;
}

static int picked_up(Ant *ant, Cell *own) {
    if (ant->laden || !own->food) return 0;
    own->food--;
    return ant->laden = 1;
}

static inline int sensed(const Ant *ant, int sight) {
    static const int by[] = {0, 0, 5, 1};
    return sight ? beside(ant->place, turned(ant->facing, by[sight])) : ant->place;
}

static void turn(int id) {
    Ant *ant = &ants[id];
    if (!ant->alive) return;
    if (ant->resting) { ant->resting--; return; }
    Cell *own = &cells[ant->place];
    const Instr *i = &brains[ant->colour][ant->state];
    int met = 1;
    switch (i->form) {
    case SENSE: met = meets(&cells[sensed(ant, i->what)], i, ant->colour); break;
    case MARK: own->marks[ant->colour] |= (uint8_t)(1 << i->what); break;
    case UNMARK: own->marks[ant->colour] &= (uint8_t)~(1 << i->what); break;
    case PICK_UP: met = picked_up(ant, own); break;
    case DROP: own->food += ant->laden; ant->laden = 0; break;
    case TURN: ant->facing = (uint8_t)turned(ant->facing, i->what ? 1 : 5); break;
    case MOVE: met = moved(ant, id); break;
    case FLIP: met = draw(i->bound) == 0; break;
    }
    ant->state = met ? i->met : i->unmet;
}

static void print_cell(int x, int y, const Cell *c) {
    printf("cell (%d, %d): ", x, y);
    if (c->rocky) printf("rock");
    if (c->food) printf("%u food; ", c->food);
    if (c->hill != NO_HILL) printf("%s hill; ", colours[c->hill]);
    for (int colour = 0; colour < 2; colour++) {
        if (c->marks[colour]) printf("%s marks: ", colours[colour]);
        for (int i = 0; i < 6; i++) if (c->marks[colour] >> i & 1) printf("%d", i);
        if (c->marks[colour]) printf("; ");
    }
    if (c->ant != NOBODY) {
        const Ant *a = &ants[c->ant];
        printf("%s ant of id %d, dir %d, food %d, state %d, resting %d", colours[a->colour], c->ant, a->facing, a->laden, a->state, a->resting);
    }
    printf("\n");
}

int main(int count, char **words) {
    if (count < 6) return 2;
    read_world(words[1]);
    for (int side = 0; side < 2; side++) read_brain(words[2 + side], brains[side]);
    unsigned long seed = strtoul(words[4], 0, 10), rounds = strtoul(words[5], 0, 10), score[3] = {0};
    stream = (uint32_t)seed;
    for (int i = 0; i < 3; i++) stream = stream * 22695477 + 1;
    for (unsigned long r = 0; r < rounds; r++) for (int id = 0; id < ant_count; id++) turn(id);
    printf("random seed: %lu\n", seed);
    if (count > 6) printf("\nAfter round %lu...\n", rounds);
    for (int i = 0; count > 6 && i < width * height; i++) print_cell(i % width, i / width, &cells[i]);
    for (int i = 0; i < width * height; i++) score[cells[i].hill] += cells[i].food;
    printf("\nscore: red %lu black %lu\n", score[0], score[1]);
}
