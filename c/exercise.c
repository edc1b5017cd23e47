/* Every function with inputs at their edges: no slice at all, cut bytes, outputs one place too short. Each line of main stands for one
 * promise of the header; the first that fails ends the program. Usage: exercise MODEL SCRIPT */
#include "futonkestrel.h"

#include <stdio.h>
#include <stdlib.h>
#include <string.h>

#define MUST(promise) \
    do { \
        if (!(promise)) { \
            fprintf(stderr, "%s:%d: %s\n", __FILE__, __LINE__, #promise); \
            exit(1); \
        } \
    } while (0)

enum { MARK = 0xa5 };

static uint8_t model[65536], script[65536], table[FK_LONGEST_MADE_TABLE], output[FK_LONGEST_MADE_TABLE];
static size_t models, scripts, tables;

/* The table's index, and the model as read, each with places behind. */
static size_t list[65536], lists;
static uint32_t words[FK_MODEL_WORDS + 1];

static size_t read_file(const char *name, uint8_t *bytes, size_t room)
{
    FILE *file = fopen(name, "rb");
    MUST(file != NULL);
    size_t count = fread(bytes, 1, room, file);
    fclose(file);
    return count;
}

static int marked(const uint8_t *bytes, size_t from, size_t to)
{
    while (from < to && bytes[from] == MARK)
        from++;
    return from == to;
}

/* The bytes of a record by its kind: those of a model below 16, those of a table from 32 on. */
static size_t record_length(uint8_t kind)
{
    static const size_t lengths[] = {0, 3, 20, 2, 2, 6, 5, 3, 4, 9, 14, 6, [32] = 7, 11, 1, 9, 17};
    MUST(kind < sizeof lengths / sizeof *lengths && lengths[kind] > 0);
    return lengths[kind];
}

/* Where the last record starts. */
static size_t last_record(const uint8_t *bytes, size_t count)
{
    size_t at = 0;
    while (at + record_length(bytes[at]) < count)
        at += record_length(bytes[at]);
    return at;
}

/* The events of the script, and the ticks that they ask for: what a run without refusal tells. */
static size_t events, ticks;

static void count_events(void)
{
    for (size_t at = 0; at < scripts; at += fk_event_length(script + at, scripts - at)) {
        events++;
        if (script[at] == 0x0b)
            ticks += script[at + 1] + 256u * script[at + 2];
    }
    MUST(events > 10 && ticks > 10);
}

static void no_slices(void)
{
    MUST(fk_read_model(NULL, 0, NULL, 0) == 2);
    MUST(fk_read_table(NULL, 0, NULL, 0) == 0);
    MUST(fk_translate(NULL, 0, NULL, 0, NULL, 0) == 2);
    MUST(fk_table_size(NULL, 0, NULL, 0) == 2);
    MUST(fk_model_listing(NULL, 0, NULL, 0, NULL, 0) == strlen("end 0 2 0\n"));
    MUST(fk_table_listing(NULL, 0, NULL, 0, NULL, 0) == strlen("end 0 0 0\n"));
    MUST(fk_run_model(NULL, 0, NULL, 0, NULL, 0) == 2);
    MUST(fk_run_table(NULL, 0, NULL, 0, NULL, 0) == 0);
    MUST(fk_event_length(NULL, 0) == 0);
    MUST(fk_table_start(NULL, 0, NULL, 0) == 8);
    MUST(fk_table_index(NULL, 0, NULL, 0) < fk_table_index(table, tables, NULL, 0));
    MUST(fk_table_step(NULL, 0, NULL, 0, NULL, 0, NULL, 0) == 8);
    MUST(fk_table_enabled(NULL, 0, NULL, 0, NULL, 0, NULL, 0, NULL, 0) == 8);
    MUST(fk_model_after(NULL, 0, NULL, 0, NULL, 0, NULL, 0) == 2);
    MUST(fk_start_test(NULL, 0, NULL, 0, 0, 0, NULL, 0) == 2);
    MUST(fk_model_read(NULL, 0, NULL, 0, NULL, 0) == 2);
    MUST(fk_model_start(NULL, 0, NULL, 0) == 8);
    MUST(fk_model_step(NULL, 0, NULL, 0, NULL, 0) == 8);
    MUST(fk_model_variables(NULL, 0, NULL, 0, NULL, 0) == 8);
    MUST(fk_model_enabled(NULL, 0, NULL, 0, NULL, 0, NULL, 0) == 8);
    MUST(fk_model_start_test(NULL, 0, NULL, 0, 0, 0, NULL, 0) == 8);
}

static void told_places(void)
{
    const size_t whole[] = {0, 0, events, ticks};
    for (size_t places = 0; places <= 5; places++) {
        size_t of_model[6] = {99, 99, 99, 99, 99, 99}, of_table[6] = {99, 99, 99, 99, 99, 99};
        MUST(fk_run_model(model, models, script, scripts, of_model, places) == 0);
        MUST(fk_run_table(table, tables, script, scripts, of_table, places) == 0);
        for (size_t i = 0; i < 6; i++)
            MUST(of_model[i] == (i < places && i < 4 ? whole[i] : 99) && of_table[i] == of_model[i]);
    }
    size_t told[4] = {99, 99, 99, 99};
    MUST(fk_read_model(model, models - 1, told, 4) == 1);
    MUST(told[0] == last_record(model, models) && told[1] == models - 1 && told[2] == 99);
    MUST(fk_read_model(model, models, told, 4) == 0 && told[0] == 0 && told[1] == 0 && told[2] == 99);
    MUST(fk_read_table(table, tables, told, 4) == 0 && told[0] == 0 && told[1] == 0 && told[2] == 99);
}

/* A model that is cut, read into numbers and run; and a run that is refused at an event that is not enabled, which follows the whole script. */
static void told_of_refusals(void)
{
    static uint8_t longer[65536 + 2];
    size_t told[4] = {99, 99, 99, 99};
    MUST(fk_model_read(model, models - 1, words, FK_MODEL_WORDS + 1, told, 4) == 1);
    MUST(told[0] == last_record(model, models) && told[1] == models - 1 && told[2] == 99);
    MUST(fk_run_model(model, models - 1, script, scripts, told, 4) == 1);
    MUST(told[0] == last_record(model, models) && told[1] == models - 1 && told[2] == 0 && told[3] == 0);
    memcpy(longer, script, scripts);
    longer[scripts] = 0x01;
    longer[scripts + 1] = 99;
    const size_t refused[] = {scripts, scripts + 2, events, ticks};
    MUST(fk_run_model(model, models, longer, scripts + 2, told, 4) == 10 && memcmp(told, refused, sizeof told) == 0);
    memset(told, MARK, sizeof told);
    MUST(fk_run_table(table, tables, longer, scripts + 2, told, 4) == 10 && memcmp(told, refused, sizeof told) == 0);
}

static void room_for_a_table(void)
{
    size_t told[3];
    memset(output, MARK, sizeof output);
    MUST(fk_translate(model, models, output, tables - 1, told, 3) == 8);
    MUST(told[0] == models && told[1] == models && told[2] == 0);
    MUST(marked(output, 0, sizeof output));
    MUST(fk_translate(model, models, output, tables, told, 3) == 0);
    MUST(told[0] == 0 && told[1] == 0 && told[2] == tables && memcmp(output, table, tables) == 0);
    MUST(marked(output, tables, sizeof output));
    MUST(fk_read_table(table, tables - 1, told, 2) == 1);
    MUST(told[0] == last_record(table, tables) && told[1] == tables - 1);
    MUST(fk_translate(model, models - 1, output, 0, told, 3) == 1);
    MUST(told[0] == last_record(model, models) && told[1] == models - 1 && told[2] == 0);
}

/* What is told of a size: start, end, bytes, rules, clauses, atoms, updates. */
enum { SIZES = 7 };

/* A size told to any number of places: those behind what is told are untouched. */
static void tells_a_size(const uint8_t *bytes, size_t count, uint32_t number, const size_t wanted[SIZES])
{
    for (size_t places = 0; places <= SIZES + 1; places++) {
        size_t told[SIZES + 1];
        memset(told, MARK, sizeof told);
        MUST(fk_table_size(bytes, count, told, places) == number);
        size_t written = (places < SIZES ? places : SIZES) * sizeof *told;
        MUST(memcmp(told, wanted, written) == 0);
        MUST(marked((uint8_t *)told, written, sizeof told));
    }
}

/* The bytes and records of the table, told before it is made, and that they are just the room for it. */
static void size_of_the_table(void)
{
    enum { RULE = 0x21, CLAUSE, ATOM, UPDATE, KINDS };
    size_t records[KINDS] = {0};
    for (size_t at = 0; at < tables; at += record_length(table[at]))
        records[table[at]]++;
    const size_t wanted[SIZES] = {0, 0, tables, records[RULE], records[CLAUSE], records[ATOM], records[UPDATE]};
    MUST(wanted[3] > 10 && wanted[4] > wanted[3] && wanted[5] > wanted[4] && wanted[6] > wanted[3]);
    tells_a_size(model, models, 0, wanted);

    size_t told[3], made[3];
    MUST(fk_table_size(model, models, told, 3) == 0);
    memset(output, MARK, sizeof output);
    MUST(fk_translate(model, models, output, told[2] - 1, made, 3) == 8 && made[2] == 0);
    MUST(marked(output, 0, sizeof output));
    MUST(fk_translate(model, models, output, told[2], made, 3) == 0 && made[2] == told[2]);
    MUST(memcmp(output, table, told[2]) == 0 && marked(output, told[2], sizeof output));
}

/* A thread of period 999,936 and so much, and a mode transition, in a model of one mode. */
#define HEAD 0x01, 1, 0
#define THREAD(more, critical) 0x02, more, 0x42, 0x0f, 0, 1, 0, 0, 0, 1, 0, 0, 0, 1, 0, 0, 0, 1, critical, 0
#define AGAIN 0x07, 0, 0
#define FOUR_TIMES AGAIN, AGAIN, AGAIN, AGAIN

/* A model for each refusal, whose last record is refused: no size is told, and reading and translation refuse it alike. */
static void sizes_of_refused_models(void)
{
    static const struct {
        uint32_t number;
        size_t count, start;
        uint8_t bytes[64];
    } refused[] = {
        {1, 5, 3, {HEAD, 0x02, 5}},
        {2, 6, 3, {HEAD, HEAD}},
        {3, 54, 51, {HEAD, FOUR_TIMES, FOUR_TIMES, FOUR_TIMES, FOUR_TIMES, AGAIN}},
        {14, 3, 0, {0x01, 9, 9}},
        {14, 25, 23, {HEAD, THREAD(0, 0), 0x03, 1}},
        {15, 23, 3, {HEAD, THREAD(65, 2)}},
        {4, 23, 3, {HEAD, THREAD(64, 2)}},
        {4, 3, 0, {0x01, 9, 8}},
        {5, 62, 53, {HEAD, THREAD(0, 0), THREAD(0, 0), 0x05, 0, 0, 0, 0, 0, 0x08, 1, 0, 0, 0x09, 0, 2, 0, 0, 0, 0, 0, 0}},
        {6, 37, 32, {HEAD, THREAD(0, 0), 0x03, 0, 0x04, 0, 0x06, 1, 0, 0, 1, 0x06, 1, 0, 0, 1}},
        {7, 46, 43, {HEAD, THREAD(63, 1), THREAD(64, 1), AGAIN}},
    };
    for (size_t i = 0; i < sizeof refused / sizeof *refused; i++) {
        const uint8_t *bytes = refused[i].bytes;
        uint32_t number = refused[i].number;
        size_t count = refused[i].count, told[3];
        const size_t wanted[SIZES] = {refused[i].start, count};
        tells_a_size(bytes, count, number, wanted);
        MUST(fk_translate(bytes, count, output, sizeof output, told, 3) == number);
        MUST(memcmp(told, wanted, sizeof told) == 0);
        MUST(fk_read_model(bytes, count, told, 2) == number && told[0] == wanted[0] && told[1] == count);
    }
}

/* A start record of a table: a variable that is not there comes before one that does not rise or is the clock. */
static void refused_tables(void)
{
    static const struct {
        uint32_t number;
        uint8_t low, high;
    } second[] = {{14, 32, 1}, {14, 255, 255}, {4, 31, 1}, {4, 0, 0}};
    for (size_t i = 0; i < sizeof second / sizeof *second; i++) {
        const uint8_t bytes[] = {0x20, 31, 1, 7, 0, 0, 0, 0x20, second[i].low, second[i].high, 7, 0, 0, 0};
        size_t told[2];
        MUST(fk_read_table(bytes, 7, told, 2) == 0);
        MUST(fk_read_table(bytes, sizeof bytes, told, 2) == second[i].number && told[0] == 7 && told[1] == 14);
    }
}

/* Port and buffer begin at the value that the port's record gives, in model and table; without one at 0. */
static void starts_of_input_ports(void)
{
    enum { INPUT = 160, BUFFER = 192 };
    static const uint8_t pen[] = {HEAD, THREAD(0, 0), 0x03, 0, 0x0b, 0, 0xfe, 0xff, 0xff, 0xff};
    static uint32_t read[FK_MODEL_WORDS];
    uint32_t state[FK_STATE_WORDS];
    int32_t of_table[FK_VARIABLES], of_model[FK_VARIABLES];
    size_t told[3];
    MUST(fk_translate(pen, sizeof pen, output, sizeof output, told, 3) == 0);
    MUST(fk_table_start(output, told[2], of_table, FK_VARIABLES) == 0);
    for (size_t first = INPUT; first <= BUFFER; first += BUFFER - INPUT)
        MUST(of_table[first] == 0 && of_table[first + 1] == -2 && of_table[first + 2] == 0);
    MUST(fk_model_read(pen, sizeof pen, read, FK_MODEL_WORDS, NULL, 0) == 0);
    MUST(fk_model_start(read, FK_MODEL_WORDS, state, FK_STATE_WORDS) == 0);
    MUST(fk_model_variables(read, FK_MODEL_WORDS, state, FK_STATE_WORDS, of_model, FK_VARIABLES) == 0);
    MUST(memcmp(of_model, of_table, sizeof of_table) == 0);
}

static void room_for_a_listing(void)
{
    uint8_t text[65536], cut[65536];
    size_t whole = fk_model_listing(model, models, script, scripts, text, sizeof text);
    MUST(whole < sizeof text);
    memset(cut, MARK, sizeof cut);
    MUST(fk_table_listing(table, tables, script, scripts, cut, whole - 1) == whole);
    MUST(memcmp(text, cut, whole - 1) == 0 && marked(cut, whole - 1, sizeof cut));
}

static void lent_variables(void)
{
    int32_t variables[FK_VARIABLES + 1];
    uint8_t *bytes = (uint8_t *)variables;
    memset(variables, MARK, sizeof variables);
    MUST(fk_table_start(table, tables, variables, FK_VARIABLES - 1) == 8);
    MUST(fk_table_start(table, tables - 1, variables, FK_VARIABLES + 1) == 1);
    MUST(fk_table_step(table, tables, NULL, 0, variables, FK_VARIABLES - 1, script, 2) == 8);
    MUST(fk_table_step(table, tables, list, lists, variables, FK_VARIABLES - 1, script, 2) == 8);
    MUST(fk_model_after(model, models, script, scripts, NULL, 0, variables, FK_VARIABLES - 1) == 8);
    MUST(fk_model_after(model, models - 1, script, scripts, NULL, 0, variables, FK_VARIABLES) == 1);
    MUST(marked(bytes, 0, sizeof variables));

    MUST(fk_table_start(table, tables, variables, FK_VARIABLES + 1) == 0);
    MUST(variables[0] == 0 && variables[3] == 255 && marked(bytes, sizeof variables - 4, sizeof variables));
    int32_t before[FK_VARIABLES + 1];
    memcpy(before, variables, sizeof before);
    const uint8_t no_ticks[] = {0x0b, 0, 0};
    MUST(fk_table_step(table, tables, NULL, 0, variables, FK_VARIABLES + 1, no_ticks, 3) == 9);
    MUST(fk_table_step(table, tables, list, lists, variables, FK_VARIABLES + 1, script, 1) == 9);
    MUST(fk_table_step(table, tables, list, lists, variables, FK_VARIABLES + 1, NULL, 0) == 9);
    MUST(memcmp(before, variables, sizeof before) == 0);
    size_t first = fk_event_length(script, scripts);
    MUST(fk_table_step(table, tables, list, lists, variables, FK_VARIABLES + 1, script, first) == 0);
    MUST(memcmp(before, variables, sizeof before) != 0 && before[FK_VARIABLES] == variables[FK_VARIABLES]);
    MUST(fk_table_step(table, tables, NULL, 0, before, FK_VARIABLES, script, first) == 0);
    MUST(memcmp(before, variables, sizeof before) == 0);
    MUST(fk_model_after(model, models, NULL, 0, script, first, before, FK_VARIABLES) == 0);
    MUST(memcmp(before, variables, sizeof before) == 0);
    MUST(fk_event_length(script, first - 1) == first - 1);
}

/* All of the script by an index made into so many places: what the table does when it is walked. */
static void steps_by_an_index(size_t room)
{
    static size_t index[65536];
    memset(index, MARK, sizeof index);
    MUST(fk_table_index(table, tables, index, room) == lists);
    size_t written = room < lists ? room : lists;
    MUST(marked((uint8_t *)index, written * sizeof *index, sizeof index));
    int32_t by_index[FK_VARIABLES], walked[FK_VARIABLES];
    fk_table_start(table, tables, by_index, FK_VARIABLES);
    fk_table_start(table, tables, walked, FK_VARIABLES);
    for (size_t at = 0; at < scripts;) {
        size_t length = fk_event_length(script + at, scripts - at);
        MUST(fk_table_step(table, tables, index, room, by_index, FK_VARIABLES, script + at, length) == 0);
        MUST(fk_table_step(table, tables, NULL, 0, walked, FK_VARIABLES, script + at, length) == 0);
        MUST(memcmp(by_index, walked, sizeof walked) == 0);
        at += length;
    }
}

/* An index that is not the table's: the event finds its one rule or not, and a refusal leaves the variables. */
static void steps_by_any_numbers(void)
{
    static size_t index[1000];
    int32_t start[FK_VARIABLES], variables[FK_VARIABLES], stepped[FK_VARIABLES];
    size_t first = fk_event_length(script, scripts), taken = 0;
    fk_table_start(table, tables, start, FK_VARIABLES);
    memcpy(stepped, start, sizeof start);
    MUST(fk_table_step(table, tables, list, lists, stepped, FK_VARIABLES, script, first) == 0);
    for (size_t number = 0; number < 1000; number++) {
        for (size_t i = 0; i < 1000; i++)
            index[i] = number % 3 == 0 ? number * i : number % 3 == 1 ? (size_t)-1 / (i + number + 1) : list[(i * number) % lists];
        memcpy(variables, start, sizeof start);
        uint32_t answer = fk_table_step(table, tables, index, number, variables, FK_VARIABLES, script, first);
        MUST(answer == 0 || answer == 10 || answer == 12);
        MUST(memcmp(variables, answer == 0 ? stepped : start, sizeof start) == 0);
        taken += answer == 0;
    }
    MUST(taken > 0 && taken < 1000);
}

static void room_for_a_model(void)
{
    size_t told[3] = {99, 99, 99};
    uint8_t *bytes = (uint8_t *)words;
    MUST(fk_model_words() == FK_MODEL_WORDS && fk_state_words() == FK_STATE_WORDS);
    memset(words, MARK, sizeof words);
    MUST(fk_model_read(model, models, words, FK_MODEL_WORDS - 1, told, 3) == 8);
    MUST(told[0] == models && told[1] == models && told[2] == 99);
    /* The model's own refusal comes first, whatever the room. */
    for (size_t room = 0; room <= FK_MODEL_WORDS + 1; room += FK_MODEL_WORDS + 1) {
        MUST(fk_model_read(model, models - 1, words, room, told, 3) == 1);
        MUST(told[0] < told[1] && told[1] == models - 1);
    }
    MUST(marked(bytes, 0, sizeof words));
    MUST(fk_model_read(model, models, words, FK_MODEL_WORDS + 1, told, 3) == 0);
    MUST(told[0] == 0 && told[1] == 0 && told[2] == 99);
    MUST(marked(bytes, 4 * FK_MODEL_WORDS, sizeof words));
}

/* The script on a state, which goes the way that the table goes. */
static void lent_state(void)
{
    uint32_t state[FK_STATE_WORDS + 1], before[FK_STATE_WORDS + 1];
    uint8_t *bytes = (uint8_t *)state;
    memset(state, MARK, sizeof state);
    MUST(fk_model_start(words, FK_MODEL_WORDS, state, FK_STATE_WORDS - 1) == 8);
    MUST(fk_model_step(words, FK_MODEL_WORDS, state, FK_STATE_WORDS - 1, script, 2) == 8);
    MUST(marked(bytes, 0, sizeof state));
    MUST(fk_model_start(words, FK_MODEL_WORDS, state, FK_STATE_WORDS + 1) == 0);
    for (size_t at = 0; at < scripts;) {
        size_t length = fk_event_length(script + at, scripts - at);
        memcpy(before, state, sizeof state);
        const uint8_t unknown[] = {0x0c, 0};
        MUST(fk_model_step(words, FK_MODEL_WORDS, state, FK_STATE_WORDS + 1, unknown, 2) == 9);
        MUST(fk_model_step(words, FK_MODEL_WORDS, state, FK_STATE_WORDS + 1, NULL, 0) == 9);
        MUST(memcmp(before, state, sizeof state) == 0);
        MUST(fk_model_step(words, FK_MODEL_WORDS, state, FK_STATE_WORDS + 1, script + at, length) == 0);
        MUST(memcmp(before, state, sizeof state) != 0 && marked(bytes, 4 * FK_STATE_WORDS, sizeof state));
        at += length;
    }
    /* From the same state the same event leads to the same state. */
    MUST(fk_model_start(words, FK_MODEL_WORDS, before, FK_STATE_WORDS) == 0);
    for (size_t at = 0; at < scripts; at += fk_event_length(script + at, scripts - at))
        fk_model_step(words, FK_MODEL_WORDS, before, FK_STATE_WORDS, script + at, fk_event_length(script + at, scripts - at));
    MUST(memcmp(before, state, sizeof state) == 0);
}

static void shown_variables(void)
{
    enum { DUE = 64, END = 80, THREADS = 16 };
    uint32_t state[FK_STATE_WORDS];
    int32_t shown[FK_VARIABLES + 1], after[FK_VARIABLES];
    fk_model_start(words, FK_MODEL_WORDS, state, FK_STATE_WORDS);
    memset(shown, MARK, sizeof shown);
    MUST(fk_model_variables(words, FK_MODEL_WORDS, state, FK_STATE_WORDS, shown, FK_VARIABLES - 1) == 8);
    MUST(marked((uint8_t *)shown, 0, sizeof shown));
    for (size_t at = 0; at < scripts;) {
        size_t length = fk_event_length(script + at, scripts - at);
        fk_model_step(words, FK_MODEL_WORDS, state, FK_STATE_WORDS, script + at, length);
        MUST(fk_model_variables(words, FK_MODEL_WORDS, state, FK_STATE_WORDS, shown, FK_VARIABLES + 1) == 0);
        MUST(marked((uint8_t *)shown, sizeof shown - 4, sizeof shown));
        MUST(fk_model_after(model, models, script, at, script + at, length, after, FK_VARIABLES) == 0);
        MUST(memcmp(shown, after, DUE * sizeof *after) == 0);
        MUST(memcmp(shown + END + THREADS, after + END + THREADS, (FK_VARIABLES - END - THREADS) * sizeof *after) == 0);
        at += length;
    }
}

/* Every event that is listed is taken, and a TICK where it is said to pass; a START with its shortest length, and its longest. */
static void takes_what_is_listed(const uint32_t *state, const uint32_t *numbers, size_t count, size_t passes)
{
    uint32_t next[FK_STATE_WORDS];
    const uint8_t one_tick[] = {0x0b, 1, 0};
    memcpy(next, state, sizeof next);
    MUST((fk_model_step(words, FK_MODEL_WORDS, next, FK_STATE_WORDS, one_tick, 3) == 0) == (passes == 1));
    for (size_t i = 0; i < 2 * count; i++) {
        const uint32_t *offer = numbers + i / 2 * 4;
        uint8_t event[] = {(uint8_t)offer[0], (uint8_t)offer[1], 0, 0, 0, 0};
        for (size_t byte = 0; byte < 4; byte++)
            event[2 + byte] = (uint8_t)(offer[2 + i % 2] >> (8 * byte));
        memcpy(next, state, sizeof next);
        MUST(fk_model_step(words, FK_MODEL_WORDS, next, FK_STATE_WORDS, event, event[0] == 0x04 ? 6 : 2) == 0);
    }
}

/* A list of events, asked for with no room, too little, just enough and more; the same of model and table. */
static size_t list_of_both(const uint32_t *state, const int32_t *variables)
{
    uint32_t of_model[4 * 160 + 1], of_table[4 * 160 + 1];
    size_t told[3] = {99, 99, 99}, other[3] = {99, 99, 99};
    uint32_t none = fk_model_enabled(words, FK_MODEL_WORDS, state, FK_STATE_WORDS, NULL, 0, told, 3);
    MUST(none == (told[0] == 0 ? 0 : 8) && told[1] <= 1 && told[2] == 99);
    size_t count = 4 * told[0];
    memset(of_model, MARK, sizeof of_model);
    memset(of_table, MARK, sizeof of_table);
    if (count > 0) {
        MUST(fk_model_enabled(words, FK_MODEL_WORDS, state, FK_STATE_WORDS, of_model, count - 1, NULL, 0) == 8);
        MUST(fk_table_enabled(table, tables, list, lists, variables, FK_VARIABLES, of_table, count - 1, other, 1) == 8);
        MUST(other[0] == told[0] && other[1] == 99);
    }
    MUST(marked((uint8_t *)of_model, 0, sizeof of_model) && marked((uint8_t *)of_table, 0, sizeof of_table));
    MUST(fk_model_enabled(words, FK_MODEL_WORDS, state, FK_STATE_WORDS, of_model, count, NULL, 0) == 0);
    MUST(fk_table_enabled(table, tables, list, lists, variables, FK_VARIABLES, of_table, count + 1, other, 3) == 0);
    MUST(memcmp(told, other, sizeof told) == 0 && memcmp(of_model, of_table, sizeof of_model) == 0);
    MUST(marked((uint8_t *)of_table, 4 * count, sizeof of_table));
    memset(of_table, MARK, sizeof of_table);
    MUST(fk_table_enabled(table, tables, NULL, 0, variables, FK_VARIABLES, of_table, count, NULL, 0) == 0);
    MUST(memcmp(of_model, of_table, sizeof of_model) == 0);
    takes_what_is_listed(state, of_model, told[0], told[1]);
    return told[0];
}

static void what_is_enabled(void)
{
    uint32_t state[FK_STATE_WORDS];
    int32_t variables[FK_VARIABLES];
    size_t told[2] = {99, 99}, most = 0;
    fk_model_start(words, FK_MODEL_WORDS, state, FK_STATE_WORDS);
    fk_table_start(table, tables, variables, FK_VARIABLES);
    MUST(fk_model_enabled(words, FK_MODEL_WORDS, state, FK_STATE_WORDS - 1, NULL, 0, told, 2) == 8);
    MUST(told[0] == 0 && told[1] == 0);
    MUST(fk_table_enabled(table, tables, list, lists, variables, FK_VARIABLES - 1, NULL, 0, told, 2) == 8);
    MUST(told[0] == 0 && told[1] == 0);
    for (size_t at = 0; at < scripts;) {
        size_t length = fk_event_length(script + at, scripts - at), count = list_of_both(state, variables);
        most = count > most ? count : most;
        fk_model_step(words, FK_MODEL_WORDS, state, FK_STATE_WORDS, script + at, length);
        fk_table_step(table, tables, list, lists, variables, FK_VARIABLES, script + at, length);
        at += length;
    }
    MUST(most > 1);
}

/* Two threads of Period 10 and Deadline 8, the first with lengths 2 to 9, the second 1 to 2, and an immediate connection from it to this. */
static const uint8_t pair[] = {HEAD, 0x02, 10, 0, 0, 0, 8, 0, 0, 0, 2, 0, 0, 0, 9, 0, 0, 0, 1, 0, 0,
                               0x02, 10, 0, 0, 0, 8, 0, 0, 0, 1, 0, 0, 0, 2, 0, 0, 0, 1, 0, 0,
                               0x03, 1, 0x04, 0, 0x06, 0, 0, 0, 1};

/* The test told to any number of places after so much of a script, on the bytes and on a state: what is behind is untouched. The state stays,
 * and START is taken there exactly at 0. */
static void tells_a_step(const uint8_t *events, size_t count, uint32_t thread, uint32_t length, size_t step)
{
    static uint32_t read[FK_MODEL_WORDS];
    uint32_t state[FK_STATE_WORDS];
    MUST(fk_model_read(pair, sizeof pair, read, FK_MODEL_WORDS, NULL, 0) == 0);
    MUST(fk_model_start(read, FK_MODEL_WORDS, state, FK_STATE_WORDS) == 0);
    for (size_t at = 0; at < count; at += fk_event_length(events + at, count - at))
        fk_model_step(read, FK_MODEL_WORDS, state, FK_STATE_WORDS, events + at, fk_event_length(events + at, count - at));
    for (size_t places = 0; places <= 4; places++) {
        size_t told[4] = {99, 99, 99, 99}, of_state[4] = {99, 99, 99, 99};
        const size_t wanted[4] = {0, 0, step, 99};
        MUST(fk_start_test(pair, sizeof pair, events, count, thread, length, told, places) == 0);
        MUST(fk_model_start_test(read, FK_MODEL_WORDS, state, FK_STATE_WORDS, thread, length, of_state, places) == 0);
        for (size_t i = 0; i < 4; i++)
            MUST(told[i] == (i < places ? wanted[i] : 99) && of_state[i] == (i < places && i == 0 ? step : 99));
    }
    const uint8_t event[] = {0x04, (uint8_t)thread, (uint8_t)length, (uint8_t)(length >> 8), (uint8_t)(length >> 16), (uint8_t)(length >> 24)};
    if (thread <= 255)
        MUST(fk_model_step(read, FK_MODEL_WORDS, state, FK_STATE_WORDS, event, sizeof event) == (step == 0 ? 0 : 10));
}

/* Every step, each before those behind it. */
static void steps_of_the_start_test(void)
{
    static const uint8_t in_time[] = {0x01, 0, 0x01, 1, 0x03, 1, 0x03, 0, 0x04, 0, 2, 0, 0, 0, 0x0b, 2, 0, 0x05, 0};
    static const uint8_t late[] = {0x01, 0, 0x01, 1, 0x03, 1, 0x03, 0, 0x04, 0, 9, 0, 0, 0, 0x0b, 8, 0};
    static const struct {
        const uint8_t *events;
        size_t count;
        uint32_t thread, length;
        size_t step;
    } asked[] = {
        {NULL, 0, 0, 2, 1}, {in_time, 2, 0, 2, 1}, {in_time, 2, 0, 99, 1},
        /* The source is still to be dispatched, then has the same instant, whatever the length. */
        {in_time, 6, 1, 1, 3}, {in_time, 6, 1, 9, 3}, {in_time, 8, 1, 1, 3}, {in_time, 8, 1, 9, 3},
        {in_time, 8, 0, 1, 4}, {in_time, 8, 0, 2, 0}, {in_time, 8, 0, 9, 0}, {in_time, 8, 0, 10, 4},
        {in_time, 8, 0, 0, 4}, {in_time, 8, 0, 0x102, 4}, {in_time, 8, 0, UINT32_MAX, 4},
        {in_time, 14, 0, 2, 1}, {in_time, 14, 1, 1, 2}, {in_time, 14, 1, 9, 2}, {in_time, 17, 1, 1, 2},
        {in_time, 19, 1, 1, 0}, {in_time, 19, 1, 3, 4}, {in_time, 19, 0, 2, 1},
        /* The deadline is now, though the processor is held too. */
        {late, 17, 1, 1, 1}, {late, 14, 1, 1, 2},
    };
    for (size_t i = 0; i < sizeof asked / sizeof *asked; i++)
        tells_a_step(asked[i].events, asked[i].count, asked[i].thread, asked[i].length, asked[i].step);
    /* Numbers that no thread has; the low bytes of some are those of thread 0, which may start. */
    static const uint32_t nobody[] = {2, 15, 16, 255, 256, 65536, 0x1000000, UINT32_MAX};
    for (size_t i = 0; i < sizeof nobody / sizeof *nobody; i++)
        tells_a_step(in_time, 8, nobody[i], 2, 1);
    /* Refused events are passed over, and a cut or unknown one ends the script. */
    static const uint8_t refused[] = {0x03, 0, 0x01, 0, 0x0b, 0, 0, 0x01, 1, 0x03, 9, 0x03, 0, 0x0c, 0x04, 0, 2, 0, 0, 0};
    tells_a_step(refused, 13, 0, 2, 0);
    tells_a_step(refused, 14, 0, 2, 0);
    tells_a_step(refused, sizeof refused, 0, 2, 0);
    tells_a_step(in_time, 13, 0, 2, 0);
}

/* No step is told of a refused model or a short state; numbers that no model was read into stand for some model. */
static void start_tests_that_are_refused(void)
{
    uint32_t state[FK_STATE_WORDS + 1] = {0};
    size_t last = last_record(model, models);
    for (size_t places = 0; places <= 4; places++) {
        size_t told[4] = {99, 99, 99, 99};
        MUST(fk_start_test(model, models - 1, script, scripts, 0, 2, told, places) == 1);
        MUST(told[0] == (places > 0 ? last : 99) && told[1] == (places > 1 ? models - 1 : 99) && told[2] == 99 && told[3] == 99);
    }
    for (size_t count = 0; count <= FK_STATE_WORDS + 1; count++) {
        size_t told[2] = {99, 99};
        uint32_t answer = fk_model_start_test(words, FK_MODEL_WORDS, state, count, 0, 2, told, 2);
        MUST(answer == (count < FK_STATE_WORDS ? 8 : 0) && told[1] == 99);
        MUST(count < FK_STATE_WORDS ? told[0] == 99 : told[0] <= 4);
    }
    size_t told[1] = {99};
    MUST(fk_model_start_test(NULL, 0, state, FK_STATE_WORDS, 0, 2, told, 1) == 0 && told[0] == 1);
    memset(state, 0xff, sizeof state);
    MUST(fk_model_start_test(words, 20, state, FK_STATE_WORDS, 0, 2, told, 1) == 0 && told[0] <= 4);
}

/* The same from both calls all along the script, for threads that are there and one that is not. */
static void start_tests_of_the_script(void)
{
    uint32_t state[FK_STATE_WORDS], next[FK_STATE_WORDS];
    size_t seen[5] = {0};
    fk_model_start(words, FK_MODEL_WORDS, state, FK_STATE_WORDS);
    for (size_t at = 0; at < scripts;) {
        for (uint32_t asked = 0; asked < 5 * 8; asked++) {
            uint32_t thread = asked / 8, length = asked % 8;
            size_t told[3] = {99, 99, 99}, of_state[1] = {99};
            MUST(fk_start_test(model, models, script, at, thread, length, told, 3) == 0 && told[0] == 0 && told[1] == 0);
            MUST(fk_model_start_test(words, FK_MODEL_WORDS, state, FK_STATE_WORDS, thread, length, of_state, 1) == 0);
            MUST(told[2] == of_state[0] && told[2] <= 4);
            const uint8_t event[] = {0x04, (uint8_t)thread, (uint8_t)length, 0, 0, 0};
            memcpy(next, state, sizeof next);
            MUST(fk_model_step(words, FK_MODEL_WORDS, next, FK_STATE_WORDS, event, sizeof event) == (told[2] == 0 ? 0 : 10));
            seen[told[2]]++;
        }
        size_t length = fk_event_length(script + at, scripts - at);
        fk_model_step(words, FK_MODEL_WORDS, state, FK_STATE_WORDS, script + at, length);
        at += length;
    }
    for (size_t step = 0; step <= 4; step++)
        MUST(seen[step] > 0);
}

/* Two modes and the way from the first to the second; thread 0, which is critical, and thread 1, which is not, are in the first alone. */
static const uint8_t leaving[] = {
    0x01, 2, 0,
    0x02, 2, 0, 0, 0, 2, 0, 0, 0, 1, 0, 0, 0, 1, 0, 0, 0, 1, 1, 0,
    0x02, 4, 0, 0, 0, 4, 0, 0, 0, 1, 0, 0, 0, 3, 0, 0, 0, 1, 0, 0,
    0x07, 0, 1,
};

/* Up to ENTER at clock 2, with a job in hand of both; thread 1 runs. Then it is stopped, and thread 0 gets the processor. */
static const uint8_t stopping[] = {
    0x01, 0, 0x01, 1, 0x03, 0, 0x03, 1, 0x04, 0, 1, 0, 0, 0, 0x0b, 1, 0, 0x05, 0,
    0x04, 1, 3, 0, 0, 0, 0x08, 0, 0x0b, 1, 0, 0x06, 0, 0x03, 0, 0x09, 0,
    0x02, 1, 0x04, 0, 1, 0, 0, 0,
};

/* A critical thread that leaves goes on with its job; another one is stopped and frees the processor, and time waits for that. */
static void threads_that_leave(void)
{
    enum { CPU = 5, STATE = 32, END = 80, STOP = sizeof stopping - 8, START = sizeof stopping - 6 };
    static uint32_t read[FK_MODEL_WORDS];
    static const uint8_t one_tick[] = {0x0b, 1, 0}, of_critical[] = {0x02, 0};
    uint32_t state[FK_STATE_WORDS], before[FK_STATE_WORDS];
    int32_t shown[FK_VARIABLES];
    MUST(fk_model_read(leaving, sizeof leaving, read, FK_MODEL_WORDS, NULL, 0) == 0);
    MUST(fk_model_start(read, FK_MODEL_WORDS, state, FK_STATE_WORDS) == 0);
    for (size_t at = 0; at < STOP; at += fk_event_length(stopping + at, STOP - at))
        MUST(fk_model_step(read, FK_MODEL_WORDS, state, FK_STATE_WORDS, stopping + at, fk_event_length(stopping + at, STOP - at)) == 0);
    memcpy(before, state, sizeof state);
    MUST(fk_model_step(read, FK_MODEL_WORDS, state, FK_STATE_WORDS, one_tick, 3) == 10);
    MUST(fk_model_step(read, FK_MODEL_WORDS, state, FK_STATE_WORDS, of_critical, 2) == 10);
    MUST(memcmp(before, state, sizeof state) == 0);
    MUST(fk_model_step(read, FK_MODEL_WORDS, state, FK_STATE_WORDS, stopping + STOP, 2) == 0);
    MUST(fk_model_variables(read, FK_MODEL_WORDS, state, FK_STATE_WORDS, shown, FK_VARIABLES) == 0);
    MUST(shown[CPU] == 255 && shown[STATE] == 2 && shown[STATE + 1] == 0 && shown[END + 1] == 0);
    MUST(fk_model_step(read, FK_MODEL_WORDS, state, FK_STATE_WORDS, stopping + START, 6) == 0);

    size_t told[4], made[3];
    MUST(fk_translate(leaving, sizeof leaving, output, sizeof output, made, 3) == 0);
    MUST(fk_run_table(output, made[2], stopping, sizeof stopping, told, 4) == 0 && told[2] == 15 && told[3] == 2);
}

/* Two outputs, a local at each end of 32 bits, and a transition whose sums lie outside: local 0 + 1, local 1 - 1, 0 - local 1, local 1 + -1. */
static const uint8_t past_the_ends[] = {
    HEAD,
    0x02, 5, 0, 0, 0, 4, 0, 0, 0, 1, 0, 0, 0, 5, 0, 0, 0, 1, 0, 0,
    0x04, 0, 0x04, 0, 0x05, 0, 255, 255, 255, 127, 0x05, 0, 0, 0, 0, 128,
    0x08, 0, 0, 0,
    0x0a, 2, 0, 1, 2, 0, 0, 0, 0, 0, 1, 0, 0, 0,
    0x0a, 2, 1, 2, 2, 1, 0, 0, 0, 0, 1, 0, 0, 0,
    0x0a, 3, 0, 2, 0, 0, 0, 0, 0, 2, 1, 0, 0, 0,
    0x0a, 3, 1, 1, 2, 1, 0, 0, 0, 0, 255, 255, 255, 255,
};

/* Sums outside of 32 bits are the nearest end, in model and table. */
static void sums_that_stop(void)
{
    enum { OUTPUT = 224, LOCAL = 256 };
    static const uint8_t job[] = {0x01, 0, 0x03, 0, 0x04, 0, 1, 0, 0, 0, 0x0b, 1, 0}, complete[] = {0x05, 0};
    int32_t of_model[FK_VARIABLES], of_table[FK_VARIABLES];
    size_t made[3];
    MUST(fk_model_after(past_the_ends, sizeof past_the_ends, job, sizeof job, complete, 2, of_model, FK_VARIABLES) == 0);
    MUST(of_model[OUTPUT] == INT32_MAX && of_model[OUTPUT + 1] == INT32_MIN);
    MUST(of_model[LOCAL] == INT32_MAX && of_model[LOCAL + 1] == INT32_MIN);

    MUST(fk_translate(past_the_ends, sizeof past_the_ends, output, sizeof output, made, 3) == 0);
    MUST(fk_table_start(output, made[2], of_table, FK_VARIABLES) == 0);
    for (size_t at = 0; at < sizeof job; at += fk_event_length(job + at, sizeof job - at))
        MUST(fk_table_step(output, made[2], NULL, 0, of_table, FK_VARIABLES, job + at, fk_event_length(job + at, sizeof job - at)) == 0);
    MUST(fk_table_step(output, made[2], NULL, 0, of_table, FK_VARIABLES, complete, 2) == 0);
    MUST(memcmp(of_model + OUTPUT, of_table + OUTPUT, (FK_VARIABLES - OUTPUT) * sizeof *of_table) == 0);
}

int main(int count, char **names)
{
    MUST(count == 3);
    models = read_file(names[1], model, sizeof model);
    scripts = read_file(names[2], script, sizeof script);
    size_t told[3];
    MUST(fk_translate(model, models, table, sizeof table, told, 3) == 0);
    tables = told[2];
    lists = fk_table_index(table, tables, list, sizeof list / sizeof *list);
    MUST(lists < sizeof list / sizeof *list);
    count_events();
    no_slices();
    told_places();
    told_of_refusals();
    room_for_a_table();
    size_of_the_table();
    sizes_of_refused_models();
    refused_tables();
    starts_of_input_ports();
    room_for_a_listing();
    lent_variables();
    for (size_t room = 0; room < 12; room++)
        steps_by_an_index(room);
    for (size_t less = 0; less < 4; less++)
        steps_by_an_index(lists + 1 - less);
    steps_by_any_numbers();
    room_for_a_model();
    lent_state();
    shown_variables();
    what_is_enabled();
    steps_of_the_start_test();
    start_tests_that_are_refused();
    start_tests_of_the_script();
    threads_that_leave();
    sums_that_stop();
    puts("every promise held");
    return 0;
}
