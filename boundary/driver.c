/* Runs a script of vectors over the library as C sees it, and prints what each call answered and left.
 *
 *   driver                        calls each function as the header says
 *   driver exchange FUNCTION A B  in every call of FUNCTION, the arguments A and B change places
 *   driver fields A B             in every answer, the fields A and B change places
 *   driver list                   prints every exchange that compiles and links all the same, one a line, as such arguments
 *
 * The script comes from standard input, and its own first lines say how to read it. boundary/run compares what is printed.
 * Status 0: each field that an answer does not name was 0. Status 1: some was not, which is said behind its call. Status 2: the
 * arguments or the script are wrong, or could not be read or printed, which is said on standard error. */
#include <stdbool.h>
#include <stdint.h>
#include <stdio.h>
#include <stdlib.h>
#include <string.h>

#include "sloefertand.h"

#define COUNT(array) (sizeof(array) / sizeof((array)[0]))

#define SCRIPT_BYTES 262144u /* bytes of a script */
#define TABLE_WORDS 16640u   /* words of a table */
#define TABLE_BYTES 69632u   /* bytes of a table, and numbers of a line */

/* The line at hand, counted from 1; 0 before the first and behind the last. */
static size_t line_number = 0;

/* Ends the run with status 2: something is wrong that is no answer of the library's. */
static void fail(const char *words) {
    if (line_number == 0) {
        fprintf(stderr, "driver: %s\n", words);
    } else {
        fprintf(stderr, "driver: line %zu of the script: %s\n", line_number, words);
    }
    exit(2);
}

/* ---- Tables and numbers of the script, which are the arguments of the calls. */

enum type { WORDS, BYTES, IDENTITIES, NUMBER, IDENTITY };

/* A buffer with its length, or a number: of a machine's size, or of 32 bits as the next identity is. A buffer that is only read and one that is written have one type here: where both sides
 * are linked, nothing tells them apart. */
typedef struct argument {
    char letter; /* by which the script knows it */
    enum type type;
    uint16_t *words;
    uint8_t *bytes;
    uint32_t *ids;
    size_t size; /* the elements in use, or the number itself */
} argument;

static uint16_t words_of_r[TABLE_WORDS], words_of_p[TABLE_WORDS], words_of_x[TABLE_WORDS], words_of_t[TABLE_WORDS];
static uint8_t bytes_of_l[TABLE_BYTES], bytes_of_m[TABLE_BYTES], bytes_of_y[TABLE_BYTES];
static uint32_t ids_of_i[TABLE_WORDS];

static argument arguments[] = {
    {'r', WORDS, words_of_r, NULL, NULL, 0}, {'p', WORDS, words_of_p, NULL, NULL, 0},    {'x', WORDS, words_of_x, NULL, NULL, 0},
    {'t', WORDS, words_of_t, NULL, NULL, 0}, {'l', BYTES, NULL, bytes_of_l, NULL, 0},    {'m', BYTES, NULL, bytes_of_m, NULL, 0},
    {'y', BYTES, NULL, bytes_of_y, NULL, 0}, {'i', IDENTITIES, NULL, NULL, ids_of_i, 0}, {'u', NUMBER, NULL, NULL, NULL, 0},
    {'v', NUMBER, NULL, NULL, NULL, 0},      {'n', IDENTITY, NULL, NULL, NULL, 0},
};

/* The table or number of this letter, or NULL. */
static argument *argument_of(char letter) {
    for (size_t i = 0; i < COUNT(arguments); i++) {
        if (arguments[i].letter == letter) {
            return &arguments[i];
        }
    }
    return NULL;
}

/* ---- The exported functions. */

#define MOST_PARAMETERS 7

/* A parameter: its name in the header, and the letter of what the script passes for it. A buffer and its length are one. */
typedef struct parameter {
    const char *name;
    char letter;
} parameter;

/* An exported function: its name behind sloefertand_, its call, how many values it names, and its parameters in order. */
typedef struct function {
    const char *name;
    sloefertand_answer (*call)(const argument *a);
    size_t values;
    parameter parameters[MOST_PARAMETERS];
} function;

static sloefertand_answer check_pattern(const argument *a) {
    return sloefertand_check_pattern(a[0].words, a[0].size, a[1].size, a[2].size);
}

static sloefertand_answer check_tree(const argument *a) {
    return sloefertand_check_tree(a[0].words, a[0].size, a[1].size, a[2].size);
}

static sloefertand_answer check_document(const argument *a) {
    return sloefertand_check_document(a[0].words, a[0].size, a[1].bytes, a[1].size, a[2].size, a[3].ids, a[3].size,
                                      (uint32_t)a[4].size);
}

static sloefertand_answer read_document(const argument *a) {
    return sloefertand_read(a[0].words, a[0].size, a[1].words, a[1].size, a[2].bytes, a[2].size, a[3].size, a[4].ids, a[4].size,
                            (uint32_t)a[5].size, a[6].bytes, a[6].size);
}

static sloefertand_answer plain_reading(const argument *a) {
    return sloefertand_plain_reading(a[0].words, a[0].size, a[1].words, a[1].size, a[2].bytes, a[2].size);
}

static sloefertand_answer delete_nodes(const argument *a) {
    return sloefertand_delete(a[0].words, a[0].size, a[1].words, a[1].size, a[2].bytes, a[2].size, a[3].size, a[4].ids, a[4].size,
                              (uint32_t)a[5].size);
}

static sloefertand_answer insert_copies(const argument *a) {
    return sloefertand_insert(a[0].words, a[0].size, a[1].words, a[1].size, a[2].words, a[2].size, a[3].bytes, a[3].size,
                              a[4].size, a[5].ids, a[5].size, (uint32_t)a[6].size);
}

static sloefertand_answer compact(const argument *a) {
    return sloefertand_compact(a[0].words, a[0].size, a[1].bytes, a[1].size, a[2].size, a[3].ids, a[3].size,
                               (uint32_t)a[4].size);
}

static sloefertand_answer mend(const argument *a) {
    return sloefertand_mend(a[0].words, a[0].size, a[1].bytes, a[1].size, a[2].size, a[3].ids, a[3].size, (uint32_t)a[4].size,
                            a[5].words, a[5].size);
}

static sloefertand_answer delete_verdict(const argument *a) {
    return sloefertand_delete_verdict(a[0].words, a[0].size, a[1].words, a[1].size, a[2].words, a[2].size);
}

static sloefertand_answer insert_verdict(const argument *a) {
    return sloefertand_insert_verdict(a[0].words, a[0].size, a[1].words, a[1].size, a[2].words, a[2].size, a[3].words, a[3].size);
}

static sloefertand_answer deep_delete_verdict(const argument *a) {
    return sloefertand_deep_delete_verdict(a[0].words, a[0].size, a[1].words, a[1].size);
}

static sloefertand_answer deep_insert_verdict(const argument *a) {
    return sloefertand_deep_insert_verdict(a[0].words, a[0].size, a[1].words, a[1].size, a[2].words, a[2].size);
}

static sloefertand_answer delete_evidence(const argument *a) {
    return sloefertand_delete_evidence(a[0].words, a[0].size, a[1].words, a[1].size, a[2].words, a[2].size);
}

static sloefertand_answer insert_evidence(const argument *a) {
    return sloefertand_insert_evidence(a[0].words, a[0].size, a[1].words, a[1].size, a[2].words, a[2].size, a[3].words,
                                       a[3].size);
}

static sloefertand_answer step(const argument *a) {
    return sloefertand_step(a[0].words, a[0].size, a[1].size, a[2].size);
}

static sloefertand_answer plan(const argument *a) {
    return sloefertand_plan(a[0].words, a[0].size, a[1].words, a[1].size);
}

static sloefertand_answer plan_in(const argument *a) {
    return sloefertand_plan_in(a[0].size, a[1].words, a[1].size, a[2].words, a[2].size);
}

static sloefertand_answer read_line(const argument *a) {
    return sloefertand_read_line(a[0].bytes, a[0].size, a[1].size, a[2].words, a[2].size);
}

static sloefertand_answer write_line(const argument *a) {
    return sloefertand_write_line(a[0].words, a[0].size, a[1].bytes, a[1].size);
}

static sloefertand_answer read_pattern(const argument *a) {
    return sloefertand_read_pattern(a[0].bytes, a[0].size, a[1].bytes, a[1].size, a[2].words, a[2].size);
}

static sloefertand_answer write_pattern(const argument *a) {
    return sloefertand_write_pattern(a[0].bytes, a[0].size, a[1].words, a[1].size, a[2].bytes, a[2].size);
}

static sloefertand_answer read_tree(const argument *a) {
    return sloefertand_read_tree(a[0].bytes, a[0].size, a[1].words, a[1].size);
}

static sloefertand_answer write_tree(const argument *a) {
    return sloefertand_write_tree(a[0].words, a[0].size, a[1].bytes, a[1].size);
}

static sloefertand_answer print_plan(const argument *a) {
    return sloefertand_print(a[0].bytes, a[0].size, a[1].bytes, a[1].size);
}

static const function functions[] = {
    {"check_pattern", check_pattern, 0, {{"pattern", 'r'}, {"limit", 'u'}, {"table", 'v'}}},
    {"check_tree", check_tree, 0, {{"tree", 'x'}, {"limit", 'u'}, {"table", 'v'}}},
    {"check_document", check_document, 0, {{"rows", 't'}, {"marks", 'm'}, {"used", 'u'}, {"ids", 'i'}, {"next", 'n'}}},
    {"read",
     read_document,
     0,
     {{"pattern", 'r'}, {"rows", 't'}, {"marks", 'm'}, {"used", 'u'}, {"ids", 'i'}, {"next", 'n'}, {"row", 'y'}}},
    {"plain_reading", plain_reading, 0, {{"pattern", 'r'}, {"tree", 'x'}, {"row", 'y'}}},
    {"delete",
     delete_nodes,
     1,
     {{"pattern", 'p'}, {"rows", 't'}, {"marks", 'm'}, {"used", 'u'}, {"ids", 'i'}, {"next", 'n'}}},
    {"insert",
     insert_copies,
     3,
     {{"pattern", 'p'}, {"tree", 'x'}, {"rows", 't'}, {"marks", 'm'}, {"used", 'u'}, {"ids", 'i'}, {"next", 'n'}}},
    {"compact", compact, 2, {{"rows", 't'}, {"marks", 'm'}, {"used", 'u'}, {"ids", 'i'}, {"next", 'n'}}},
    {"mend", mend, 1, {{"rows", 'x'}, {"marks", 'm'}, {"used", 'u'}, {"ids", 'i'}, {"next", 'n'}, {"list", 't'}}},
    {"delete_verdict", delete_verdict, 1, {{"read", 'r'}, {"update", 'p'}, {"witness", 't'}}},
    {"insert_verdict", insert_verdict, 1, {{"read", 'r'}, {"update", 'p'}, {"tree", 'x'}, {"witness", 't'}}},
    {"deep_delete_verdict", deep_delete_verdict, 1, {{"read", 'r'}, {"update", 'p'}}},
    {"deep_insert_verdict", deep_insert_verdict, 1, {{"read", 'r'}, {"update", 'p'}, {"tree", 'x'}}},
    {"delete_evidence", delete_evidence, 1, {{"read", 'r'}, {"update", 'p'}, {"proposed", 't'}}},
    {"insert_evidence", insert_evidence, 1, {{"read", 'r'}, {"update", 'p'}, {"tree", 'x'}, {"proposed", 't'}}},
    {"step", step, 4, {{"batch", 'x'}, {"number", 'u'}, {"at", 'v'}}},
    {"plan", plan, 1, {{"batch", 'x'}, {"plan", 't'}}},
    {"plan_in", plan_in, 1, {{"mode", 'u'}, {"batch", 'x'}, {"plan", 't'}}},
    {"read_line", read_line, 1, {{"line", 'm'}, {"number", 'u'}, {"words", 't'}}},
    {"write_line", write_line, 1, {{"words", 'x'}, {"line", 'y'}}},
    {"read_pattern", read_pattern, 1, {{"list", 'l'}, {"text", 'm'}, {"words", 't'}}},
    {"write_pattern", write_pattern, 1, {{"list", 'l'}, {"pattern", 'r'}, {"text", 'y'}}},
    {"read_tree", read_tree, 1, {{"text", 'm'}, {"words", 't'}}},
    {"write_tree", write_tree, 1, {{"tree", 'x'}, {"text", 'y'}}},
    {"print", print_plan, 1, {{"lines", 'm'}, {"text", 'y'}}},
};

/* Whether the script has called it. */
static bool called[COUNT(functions)];

/* How many parameters a function has. */
static size_t parameters_of(const function *f) {
    size_t count = 0;
    while (count < MOST_PARAMETERS && f->parameters[count].name != NULL) {
        count++;
    }
    return count;
}

/* The type of a parameter, which is that of what is passed for it. */
static enum type type_of(const function *f, size_t place) {
    return argument_of(f->parameters[place].letter)->type;
}

/* ---- Answers. */

#define FIELDS 7
#define FIRST_VALUE 3 /* the field that has the first value */

static const char *const field_names[FIELDS] = {"refusal", "table", "place", "first", "second", "third", "fourth"};

/* The field at this place, in the order of their names. */
static size_t *field(sloefertand_answer *answer, size_t place) {
    size_t *const fields[FIELDS] = {&answer->refusal, &answer->table, &answer->place, &answer->first,
                                    &answer->second,  &answer->third, &answer->fourth};
    return fields[place];
}

/* Whether an answer names a field: the refusal always, table and place in a refusal, and the function's values in none. */
static bool names_field(const function *f, const sloefertand_answer *answer, size_t place) {
    if (place == 0) {
        return true;
    }
    if (place < FIRST_VALUE) {
        return answer->refusal != 0;
    }
    return answer->refusal == 0 && place < FIRST_VALUE + f->values;
}

/* Whether some answer of this run had something else than 0 in a field that it does not name. */
static bool field_was_not_0 = false;

/* Holds every field that the answer does not name to 0. */
static void hold_fields(const function *f, sloefertand_answer answer) {
    for (size_t i = 0; i < FIELDS; i++) {
        size_t value = *field(&answer, i);
        if (value != 0 && !names_field(f, &answer, i)) {
            printf("  %s is %zu and not 0\n", field_names[i], value);
            field_was_not_0 = true;
        }
    }
}

/* Prints a refusal, or the values that the function names. */
static void show_answer(const function *f, sloefertand_answer answer) {
    if (answer.refusal != 0) {
        printf(" refused %zu table %zu place %zu", answer.refusal, answer.table, answer.place);
        return;
    }
    for (size_t i = 0; i < f->values; i++) {
        printf(" %zu", *field(&answer, FIRST_VALUE + i));
    }
}

/* ---- Calls, and what is exchanged in them. */

/* The function in whose calls two arguments change places, NULL for none; and which two. */
static const function *exchanged_function = NULL;
static size_t exchanged_arguments[2];

/* The two fields that change places in every answer; a field with itself for none. */
static size_t exchanged_fields[2] = {0, 0};

/* Has the two arguments change places. */
static void swap_arguments(argument *passed) {
    argument one = passed[exchanged_arguments[0]];
    passed[exchanged_arguments[0]] = passed[exchanged_arguments[1]];
    passed[exchanged_arguments[1]] = one;
}

/* Has the two fields change places. */
static void swap_fields(sloefertand_answer *answer) {
    size_t *one = field(answer, exchanged_fields[0]);
    size_t *other = field(answer, exchanged_fields[1]);
    size_t value = *one;
    *one = *other;
    *other = value;
}

/* The answer of a function on the tables and numbers as they are, with what is exchanged. */
static sloefertand_answer answer_of(const function *f) {
    argument passed[MOST_PARAMETERS];
    for (size_t i = 0; i < parameters_of(f); i++) {
        passed[i] = *argument_of(f->parameters[i].letter);
    }
    if (f == exchanged_function) {
        swap_arguments(passed);
    }
    sloefertand_answer answer = f->call(passed);
    swap_fields(&answer);
    return answer;
}

/* The text that a print or a tree left in y, as it stands, on lines of its own. */
static void show_text(size_t bytes) {
    const argument *y = argument_of('y');
    printf("\n");
    fwrite(y->bytes, 1, bytes < y->size ? bytes : y->size, stdout);
}

/* Calls a function and shows its answer. A print shows its text too, as does a tree that is written, an insert sets u and n to the
 * new used count and next identity, and a compaction u. */
static void call(const function *f) {
    called[f - functions] = true;
    sloefertand_answer answer = answer_of(f);
    show_answer(f, answer);
    if (f->call == print_plan || (f->call == write_tree && answer.refusal == 0)) {
        show_text(answer.first);
    }
    if (f->call == insert_copies && answer.refusal == 0) {
        argument_of('u')->size = answer.second;
        argument_of('n')->size = answer.third;
    }
    if (f->call == compact && answer.refusal == 0) {
        argument_of('u')->size = answer.first;
    }
    printf("\n");
    hold_fields(f, answer);
}

/* ---- The lines of the script. */

/* What is left of a line. */
typedef struct text {
    const char *at;
    const char *end;
} text;

static size_t length(text t) { return (size_t)(t.end - t.at); }

/* Takes this character off the front; whether it stood there. */
static bool taken(text *t, char c) {
    if (t->at == t->end || *t->at != c) {
        return false;
    }
    t->at++;
    return true;
}

/* Takes a decimal number off the front. */
static size_t number(text *t) {
    size_t value = 0;
    const char *from = t->at;
    while (t->at < t->end && '0' <= *t->at && *t->at <= '9') {
        value = value * 10 + (size_t)(*t->at++ - '0');
        if (UINT32_MAX < value) {
            fail("a number over 4,294,967,295");
        }
    }
    if (t->at == from) {
        fail("a number should stand there");
    }
    return value;
}

/* The numbers of the line at hand. */
static uint32_t numbers[TABLE_BYTES];

/* One number more; how many there are then. */
static size_t put(size_t count, size_t value) {
    if (count == TABLE_BYTES) {
        fail("too many numbers");
    }
    numbers[count] = (uint32_t)value;
    return count + 1;
}

/* The numbers from a place on, so many times in all; how many there are then. */
static size_t repeated(size_t from, size_t count, size_t times) {
    if (times == 0) {
        fail("numbers that stand there 0 times");
    }
    size_t size = count - from;
    size_t end = from + size * times;
    while (count < end) {
        count = put(count, numbers[count - size]);
    }
    return count;
}

/* Reads the numbers of a line: a space before each few, commas inside, * to repeat these and + to repeat all so far. */
static size_t read_numbers(text rest) {
    size_t count = 0;
    while (length(rest) > 0) {
        if (!taken(&rest, ' ')) {
            fail("a space should stand before the next number");
        }
        size_t from = count;
        do {
            count = put(count, number(&rest));
        } while (taken(&rest, ','));
        if (taken(&rest, '*')) {
            count = repeated(from, count, number(&rest));
        }
        if (taken(&rest, '+')) {
            count = repeated(0, count, number(&rest));
        }
    }
    return count;
}

/* Fills a table of words, of bytes or of identities, or a number, with the numbers of the line. */
static void fill_words(argument *a, size_t count) {
    if (TABLE_WORDS < count) {
        fail("more words than a table has");
    }
    for (size_t i = 0; i < count; i++) {
        if (UINT16_MAX < numbers[i]) {
            fail("a word over 65,535");
        }
        a->words[i] = (uint16_t)numbers[i];
    }
    a->size = count;
}

static void fill_bytes(argument *a, size_t count) {
    for (size_t i = 0; i < count; i++) {
        if (UINT8_MAX < numbers[i]) {
            fail("a byte over 255");
        }
        a->bytes[i] = (uint8_t)numbers[i];
    }
    a->size = count;
}

static void fill_identities(argument *a, size_t count) {
    if (TABLE_WORDS < count) {
        fail("more identities than a table has");
    }
    for (size_t i = 0; i < count; i++) {
        a->ids[i] = numbers[i];
    }
    a->size = count;
}

/* Fills the row of identities with 0, 1, 2 and so on, one for each mark, as many as it has room for; their number is next. */
static void count_identities(size_t marks) {
    argument *ids = argument_of('i');
    ids->size = marks < TABLE_WORDS ? marks : TABLE_WORDS;
    for (size_t i = 0; i < ids->size; i++) {
        ids->ids[i] = (uint32_t)i;
    }
    argument_of('n')->size = marks;
}

static void set_number(argument *a, size_t count) {
    if (count != 1) {
        fail("one number should stand there");
    }
    a->size = numbers[0];
}

/* Fills a table, or sets a number, from the rest of its line. */
static void fill(argument *a, text rest) {
    size_t count = read_numbers(rest);
    switch (a->type) {
    case WORDS:
        fill_words(a, count);
        break;
    case BYTES:
        fill_bytes(a, count);
        break;
    case IDENTITIES:
        fill_identities(a, count);
        break;
    case NUMBER:
    case IDENTITY:
        set_number(a, count);
        break;
    }
}

/* Puts a byte behind those of a table. */
static void append_byte(argument *a, char byte) {
    if (a->size == TABLE_BYTES) {
        fail("more bytes than a table has");
    }
    a->bytes[a->size++] = (uint8_t)byte;
}

/* Puts a text behind the bytes of a table, with another byte in place of each space. */
static void append(argument *a, text t, char space) {
    for (; t.at < t.end; t.at++) {
        append_byte(a, *t.at == ' ' ? space : *t.at);
    }
}

/* Prints a text as it stands. */
static void show(text t) {
    fwrite(t.at, 1, length(t), stdout);
}

/* Prints the elements in use of table t, m, y or i. */
static void show_table(text rest) {
    if (length(rest) != 1 || memchr("tmyi", *rest.at, 4) == NULL) {
        fail("only t, m, y and i are printed");
    }
    const argument *a = argument_of(*rest.at);
    printf("  %c", a->letter);
    for (size_t i = 0; i < a->size; i++) {
        printf(" %u", a->type == WORDS ? (unsigned)a->words[i] : a->type == BYTES ? (unsigned)a->bytes[i] : (unsigned)a->ids[i]);
    }
    printf("\n");
}

/* Whether the script means this function: it writes spaces where the name has underscores. */
static bool means(text t, const function *f) {
    if (length(t) != strlen(f->name)) {
        return false;
    }
    for (size_t i = 0; i < length(t); i++) {
        if (t.at[i] != (f->name[i] == '_' ? ' ' : f->name[i])) {
            return false;
        }
    }
    return true;
}

/* Calls the function that the rest of a line means. */
static void call_named(text rest) {
    for (size_t i = 0; i < COUNT(functions); i++) {
        if (means(rest, &functions[i])) {
            printf("  ");
            show(rest);
            call(&functions[i]);
            return;
        }
    }
    fail("unknown call");
}

/* Does what a line says. */
static void obey(text line) {
    if (length(line) == 0 || taken(&line, '#')) {
        return;
    }
    char first = *line.at++;
    argument *a = argument_of(first);
    if (a != NULL) {
        fill(a, line);
        if (first == 'm') {
            count_identities(a->size);
        }
        return;
    }
    switch (first) {
    case ':':
        show(line);
        printf("\n");
        break;
    case '+':
        append(argument_of('m'), line, ' ');
        append_byte(argument_of('m'), '\n');
        break;
    case '-':
        append(argument_of('m'), line, ' ');
        break;
    case '>':
        append(argument_of('l'), line, '\n');
        append_byte(argument_of('l'), '\n');
        break;
    case '!':
        call_named(line);
        break;
    case '=':
        show_table(line);
        break;
    default:
        fail("unknown kind of line");
    }
}

/* Every line of the script in turn, each of which ends in a line feed. */
static void run(text script) {
    while (length(script) > 0) {
        line_number++;
        const char *feed = memchr(script.at, '\n', length(script));
        if (feed == NULL) {
            fail("its line feed is not there");
        }
        obey((text){script.at, feed});
        script.at = feed + 1;
    }
    line_number = 0;
}

/* Reads the whole script from standard input and runs it. It calls every function. */
static void run_input(void) {
    static char input[SCRIPT_BYTES + 1];
    size_t size = fread(input, 1, sizeof input, stdin);
    if (ferror(stdin)) {
        fail("the script could not be read");
    }
    if (SCRIPT_BYTES < size) {
        fail("the script has over 262,144 bytes");
    }
    run((text){input, input + size});
    for (size_t i = 0; i < COUNT(functions); i++) {
        if (!called[i]) {
            fprintf(stderr, "driver: the script never calls %s\n", functions[i].name);
            exit(2);
        }
    }
}

/* ---- The arguments of the driver. */

/* The place of the field of this name; FIELDS where there is none. */
static size_t field_named(const char *name) {
    size_t place = 0;
    while (place < FIELDS && strcmp(name, field_names[place]) != 0) {
        place++;
    }
    return place;
}

/* The function of this name, or NULL. */
static const function *function_named(const char *name) {
    for (size_t i = 0; i < COUNT(functions); i++) {
        if (strcmp(name, functions[i].name) == 0) {
            return &functions[i];
        }
    }
    return NULL;
}

/* The place of the parameter of this name; behind the last where there is none. */
static size_t parameter_named(const function *f, const char *name) {
    size_t place = 0;
    while (place < parameters_of(f) && strcmp(name, f->parameters[place].name) != 0) {
        place++;
    }
    return place;
}

/* Has two arguments of one type change places in every call of a function. */
static void exchange_arguments(const char *name, const char *one, const char *other) {
    const function *f = function_named(name);
    if (f == NULL) {
        fail("unknown function");
    }
    size_t i = parameter_named(f, one);
    size_t j = parameter_named(f, other);
    if (i == parameters_of(f) || j == parameters_of(f)) {
        fail("unknown parameter");
    }
    if (type_of(f, i) != type_of(f, j)) {
        fail("these two parameters are not of one type");
    }
    exchanged_function = f;
    exchanged_arguments[0] = i;
    exchanged_arguments[1] = j;
}

/* Has two fields change places in every answer. */
static void exchange_fields(const char *one, const char *other) {
    exchanged_fields[0] = field_named(one);
    exchanged_fields[1] = field_named(other);
    if (exchanged_fields[0] == FIELDS || exchanged_fields[1] == FIELDS) {
        fail("unknown field");
    }
}

/* Every two parameters of one type of this function. */
static void list_exchanges(const function *f) {
    for (size_t i = 0; i < parameters_of(f); i++) {
        for (size_t j = i + 1; j < parameters_of(f); j++) {
            if (type_of(f, i) == type_of(f, j)) {
                printf("exchange %s %s %s\n", f->name, f->parameters[i].name, f->parameters[j].name);
            }
        }
    }
}

/* Every two fields of an answer. */
static void list_fields(void) {
    for (size_t i = 0; i < FIELDS; i++) {
        for (size_t j = i + 1; j < FIELDS; j++) {
            printf("fields %s %s\n", field_names[i], field_names[j]);
        }
    }
}

/* Every exchange, as the arguments that ask for it. */
static void list(void) {
    for (size_t i = 0; i < COUNT(functions); i++) {
        list_exchanges(&functions[i]);
    }
    list_fields();
}

/* Does what the arguments ask for. */
static void start(int count, char **words) {
    if (count == 2 && strcmp(words[1], "list") == 0) {
        list();
        return;
    }
    if (count == 5 && strcmp(words[1], "exchange") == 0) {
        exchange_arguments(words[2], words[3], words[4]);
    } else if (count == 4 && strcmp(words[1], "fields") == 0) {
        exchange_fields(words[2], words[3]);
    } else if (count != 1) {
        fail("unknown arguments; there are: exchange FUNCTION A B, fields A B, list, or none");
    }
    run_input();
}

int main(int count, char **words) {
    start(count, words);
    if (fflush(stdout) != 0 || ferror(stdout)) {
        fail("the output could not be written");
    }
    return field_was_not_0 ? 1 : 0;
}
