/* Futonkestrel: timing models of a handwriting pad, their rule tables, and runs of both, with proof.
 *
 * Link with libfutonkestrel.a (x86-64 Linux). The library keeps no state and allocates nothing: every function is a function of the bytes
 * that it is given, may be called from any thread, and always returns. Of other libraries it needs memcpy and memset alone, which every C
 * library has; without one, supply the two. It needs stack: 128 KB were enough for the largest models tried, 96 KB were not, so give a
 * thread that calls it 256 KB or more.
 *
 * A slice is a pointer and a count. Every count is good, 0 too, and with a count of 0 the pointer may be NULL. There is no condition on
 * what a slice holds. A slice that is written (no const) must be memory of that size that no other argument overlaps: beside the
 * stack, that is all that is asked of a caller.
 *
 * Refusals have the numbers of the specification; 0 means that nothing is refused. The first bad record decides, and of several causes the
 * one that stands first here, not the least number:
 *    1  model, table  body runs past the end
 *    2  model, table  kind unknown or out of order
 *    3  model, table  one too many, or table too long
 *   14  model, table  names an item, mode or variable that is not there
 *   15  model         Period, Deadline, Min or Max out of bounds
 *    4  model, table  mask, tag, op or other field outside its range
 *    5  model         port or local of another thread
 *    6  model         connected or assigned twice
 *    7  model         hyperperiod too long
 *    8  output        shorter than needed
 *    9  event         cut, unknown, or TICK 0
 *   10  event         not enabled
 *   11  event         TICK past the last clock
 *   12  event         two rules enabled
 *   13  event         two updates of one variable
 * The part that a refused event hands back lies in the script, any other in the model or table: bytes start up to, not including, end.
 *
 * What a function tells beside its result goes to `told`, in the order that its comment gives, as far as told_count has places; places
 * behind are untouched. Start and end are 0 where nothing is refused.
 */
#ifndef FUTONKESTREL_H
#define FUTONKESTREL_H

#include <stddef.h>
#include <stdint.h>

#ifdef __cplusplus
extern "C" {
#endif

/* Variables of a table, all of 32 bits: 0 Now, 1 Mode, 2 Phase, 3 Pending, 4 EnteredAt, 5 Cpu; for thread t 16+t Active, 32+t State,
 * 48+t DispatchTime, 64+t Due, 80+t End, 96+t behaviour state, 112+t Missed; 128+c Flag; 160+i input port; 192+i its buffer;
 * 224+o output port; 256+v local.
 *
 * A sum or difference that lies outside of 32 bits is the nearest end, in every update of a table and every assignment of a model:
 * 2147483647 + 1 and 0 - (-2147483648) are 2147483647, -2147483648 - 1 and -2147483648 + (-1) are -2147483648. */
#define FK_VARIABLES 288

/* No table made from a model is longer; some are as long. */
#define FK_LONGEST_MADE_TABLE 174485

/* Reads a model. Result: 0, or the model's first refusal. Told: start, end. */
uint32_t fk_read_model(const uint8_t *model, size_t model_count, size_t *told, size_t told_count);

/* Reads a table. Result: 0, or the table's first refusal. Told: start, end. */
uint32_t fk_read_table(const uint8_t *table, size_t table_count, size_t *told, size_t told_count);

/* Translates a model. Result: 0, or the model's refusal, or 8 where the table does not fit (the part is then the empty one at the model's
 * end). Told: start, end, bytes of the table, 0 where it is refused. The output holds the table at its start and is untouched behind it;
 * refused, it is untouched. The table reads without refusal and takes the same events as the model, whatever the list: that is proved. */
uint32_t fk_translate(const uint8_t *model, size_t model_count, uint8_t *output, size_t output_count, size_t *told, size_t told_count);

/* How long the table of a model is, without making it. Result: 0, or the model's first refusal. Told: start, end, bytes of the
 * table, and its rules, clauses, atoms and updates (start records are in the bytes alone); all five 0 where the model is refused.
 * fk_translate refuses the same models at the same part, and others with 8 just where its output has fewer bytes than are told here; the
 * table that it else writes has that many bytes, and of each kind that many records: that is proved. */
uint32_t fk_table_size(const uint8_t *model, size_t model_count, size_t *told, size_t told_count);

/* The listing of a run: a line for each event taken and a last line; for a refused model or table the last line alone. Result: the bytes
 * of the whole listing. As many of them as the output has room for are written at its start; what lies behind is untouched. */
size_t fk_model_listing(const uint8_t *model, size_t model_count, const uint8_t *script, size_t script_count, uint8_t *output, size_t output_count);
size_t fk_table_listing(const uint8_t *table, size_t table_count, const uint8_t *script, size_t script_count, uint8_t *output, size_t output_count);

/* Runs a script up to its first refused event. Result: 0, or the refusal of the model or table, or that of the event. Told: start, end,
 * events taken, clock. */
uint32_t fk_run_model(const uint8_t *model, size_t model_count, const uint8_t *script, size_t script_count, size_t *told, size_t told_count);
uint32_t fk_run_table(const uint8_t *table, size_t table_count, const uint8_t *script, size_t script_count, size_t *told, size_t told_count);

/* How many bytes the event at the start of a script has: a whole record, or all that is left where it is cut or its kind is unknown; 0
 * where the script is empty. */
size_t fk_event_length(const uint8_t *script, size_t script_count);

/* The variables as a table's start records have them. Result: 0, or the table's refusal, or 8 where there are fewer than FK_VARIABLES
 * places; refused, the variables are untouched, and so are places behind them always. */
uint32_t fk_table_start(const uint8_t *table, size_t table_count, int32_t *variables, size_t variables_count);

/* An index lists the rules of a table, so that a step need not walk it. Result: how many numbers list all rules. As many rules as the index has
 * room for are listed, and a step by it walks the rest; what lies behind is untouched. Make it once, keep it beside the table, give both to
 * each step. An index of any content does no harm: what does not fit the table is passed over, and rules that it leaves out are not found. */
size_t fk_table_index(const uint8_t *table, size_t table_count, size_t *index, size_t index_count);

/* One event on the variables, which go one event further. Result: 0, or 9 to 13, or 8 as above; refused, the variables are untouched. The
 * event is the bytes of one record, no more. The index is the table's own, of any length; without one (NULL, 0) the table is walked, with the
 * same result. The table is not read for faults again: give one that fk_read_table has accepted. (Other bytes do no harm: their rules are
 * run as far as they can be read. Many updates of variables that are not there make a step slow.) */
uint32_t fk_table_step(const uint8_t *table, size_t table_count, const size_t *index, size_t index_count, int32_t *variables,
                       size_t variables_count, const uint8_t *event, size_t event_count);

/* What is enabled with these variables: four numbers for each event, its kind, its id, and the shortest and longest length of a START (0 for
 * other kinds), in the order of kind, then id. Result: 0, or 8 where the output has fewer than four places an event or there are fewer
 * than FK_VARIABLES variables. Told: how many events; 1 where a TICK may pass, else 0. Both are told where the output alone is too short, so ask
 * with none for the count; with too few variables both are 0. Refused, the output is untouched, and so are places behind the list always.
 * Each enabled rule is listed: a table that no model made may list a kind and id twice, and then refuses that event with 12. */
uint32_t fk_table_enabled(const uint8_t *table, size_t table_count, const size_t *index, size_t index_count, const int32_t *variables,
                          size_t variables_count, uint32_t *output, size_t output_count, size_t *told, size_t told_count);

/* One event of a model, after a whole script whose refused events are passed over. Result: the model's refusal, or 8 as above, the
 * variables then untouched; else the answer to the event, 0 or 9 to 11, and each variable has the value that it stands for in the state
 * which the event leaves (Due and End, and those that stand for nothing, have 0). An empty event is refused with 9 and so shows the state
 * after the script. */
uint32_t fk_model_after(const uint8_t *model, size_t model_count, const uint8_t *script, size_t script_count, const uint8_t *event, size_t event_count,
                        int32_t *variables, size_t variables_count);

/* The test for START takes its steps in this order, and the first that fails is told by its number:
 *    0  none fails
 *    1  state        the thread is not there, its code is not 2, or its Due is Now
 *    2  processor    a thread holds it
 *    3  connections  the source of a live immediate connection into the thread has code 2 or 3 and an equal DispatchTime; or the thread's own
 *                    DispatchTime is Now, and such a source is Active, has code 0 or 1 and a Period that divides Now
 *    4  length       not in the thread's Min to Max
 * The thread is any number: one that no thread has gives 1. In the state that is tested START of that thread and length is taken
 * exactly at 0, and refused with 10 otherwise: that is proved.
 *
 * Here the state is that which a whole script leaves, its refused events passed over (a cut or unknown one ends it). Result: 0, or the
 * model's first refusal. Told: start, end, step. Where the model is refused no step is told, and its place is untouched: 0 there would say
 * that START is taken. */
uint32_t fk_start_test(const uint8_t *model, size_t model_count, const uint8_t *script, size_t script_count, uint32_t thread, uint32_t length,
                       size_t *told, size_t told_count);

/* A model stepped event by event: it is read once into numbers that the caller keeps, and its state is numbers of the caller too, to be copied,
 * compared and gone back to at will; equal numbers are equal states. Numbers of any content do no harm: they stand for some model or state,
 * and those that are too few are followed by zeros. The numbers of a model and of a state: */
#define FK_MODEL_WORDS 3865
#define FK_STATE_WORDS 278
size_t fk_model_words(void);
size_t fk_state_words(void);

/* Reads a model into numbers. Result: 0, or the model's first refusal, or 8 where there are fewer than FK_MODEL_WORDS places (the part is the
 * empty one at the model's end). Refused, all places are untouched, and those behind FK_MODEL_WORDS always. Told: start, end. */
uint32_t fk_model_read(const uint8_t *model, size_t model_count, uint32_t *words, size_t words_count, size_t *told, size_t told_count);

/* The state before any event. Result: 0, or 8 where there are fewer than FK_STATE_WORDS places, which are then untouched, as are places
 * behind them always. */
uint32_t fk_model_start(const uint32_t *words, size_t words_count, uint32_t *state, size_t state_count);

/* One event on the state, which goes one event further. Result: 0, or 9 to 11, or 8 as above; refused, the state is untouched. */
uint32_t fk_model_step(const uint32_t *words, size_t words_count, uint32_t *state, size_t state_count, const uint8_t *event, size_t event_count);

/* The variables of the model's table as the state has them: those that fk_model_after shows, and besides Due of threads in code 2, 3 and 4,
 * and End of those in code 3. Result: 0, or 8 where there are fewer than FK_VARIABLES places; these are then untouched, and so are places
 * behind them always. */
uint32_t fk_model_variables(const uint32_t *words, size_t words_count, const uint32_t *state, size_t state_count, int32_t *variables,
                            size_t variables_count);

/* What is enabled in a state, as fk_table_enabled tells it; 8 too where there are fewer than FK_STATE_WORDS numbers of state, and then both told
 * are 0. A model and its table list the same events after the same script: that is proved. */
uint32_t fk_model_enabled(const uint32_t *words, size_t words_count, const uint32_t *state, size_t state_count, uint32_t *output,
                          size_t output_count, size_t *told, size_t told_count);

/* The test for START in a state, its steps as above. Result: 0, or 8 where there are fewer than FK_STATE_WORDS numbers of state, and then
 * nothing is told. Told: step. */
uint32_t fk_model_start_test(const uint32_t *words, size_t words_count, const uint32_t *state, size_t state_count, uint32_t thread,
                             uint32_t length, size_t *told, size_t told_count);

#ifdef __cplusplus
}
#endif

#endif
