/* Makes the table of a model and runs both step by step, the table with variables and the model with a state of this program's own. Prints for
 * each event what the verified steps answered and how many events are enabled after it. Usage: lesson MODEL SCRIPT */
#include "futonkestrel.h"

#include <stdio.h>
#include <stdlib.h>

static uint8_t model[65536], script[65536], *table;
static size_t list[65536];
static uint32_t words[FK_MODEL_WORDS];

static size_t read_file(const char *name, uint8_t *bytes, size_t room)
{
    FILE *file = fopen(name, "rb");
    if (file == NULL) {
        perror(name);
        exit(1);
    }
    size_t count = fread(bytes, 1, room, file);
    fclose(file);
    return count;
}

/* Reserves just the room that the table takes: what is told beforehand is what is then written. */
static size_t make_table(size_t model_count)
{
    size_t told[3];
    uint32_t number = fk_table_size(model, model_count, told, 3);
    if (number != 0) {
        printf("model refused: %u, bytes %zu to %zu\n", number, told[0], told[1]);
        exit(1);
    }
    size_t table_count = told[2];
    table = malloc(table_count);
    if (table == NULL) {
        perror("table");
        exit(1);
    }
    fk_translate(model, model_count, table, table_count, NULL, 0);
    printf("table of %zu bytes\n", table_count);
    return table_count;
}

int main(int count, char **names)
{
    if (count != 3) {
        fprintf(stderr, "usage: lesson MODEL SCRIPT\n");
        return 2;
    }
    size_t model_count = read_file(names[1], model, sizeof model);
    size_t script_count = read_file(names[2], script, sizeof script);
    size_t table_count = make_table(model_count);

    size_t list_count = fk_table_index(table, table_count, list, sizeof list / sizeof *list);
    int32_t variables[FK_VARIABLES];
    uint32_t state[FK_STATE_WORDS];
    uint32_t number = fk_table_start(table, table_count, variables, FK_VARIABLES);
    fk_model_read(model, model_count, words, FK_MODEL_WORDS, NULL, 0);
    fk_model_start(words, FK_MODEL_WORDS, state, FK_STATE_WORDS);
    for (size_t at = 0; number == 0 && at < script_count;) {
        size_t length = fk_event_length(script + at, script_count - at);
        number = fk_table_step(table, table_count, list, list_count, variables, FK_VARIABLES, script + at, length);
        uint32_t of_model = fk_model_step(words, FK_MODEL_WORDS, state, FK_STATE_WORDS, script + at, length);
        size_t enabled[2];
        fk_model_enabled(words, FK_MODEL_WORDS, state, FK_STATE_WORDS, NULL, 0, enabled, 2);
        printf("event %d at %d: %u by the table, %u by the model; %zu enabled%s\n", script[at], variables[0], number, of_model, enabled[0],
               enabled[1] ? ", time may pass" : "");
        at += length;
    }

    size_t told[4];
    uint32_t whole = fk_run_model(model, model_count, script, script_count, told, 4);
    printf("the model's run: refusal %u, %zu events taken, clock %zu\n", whole, told[2], told[3]);
    return whole == number ? 0 : 1;
}
