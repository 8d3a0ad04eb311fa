/* Measures the stack that each call of the library takes. A call runs on a stack of its own, which is filled with one byte before;
 * the deepest byte that changed says how far it went, less what a call of nothing takes. Patterns have 255 steps, inserted and
 * proposed trees 1,024 nodes, each below the one before it, the batch fills its words, a plain reading has 8 steps on 16 nodes, a
 * list has 256 names, a document to be mended has 4,096 nodes with a wrong mark each: the longest of each, so that every inside is
 * reached. A tree is read from the tags of such a tree, and before that from a text of 5,000 levels, which 2 refuses: more levels than
 * the library holds at once.
 *
 * Prints a line a function: its bytes, and the most that the header says. Status 1 where one takes more than that; 2 where a call
 * was refused, and so measured nothing. */
#define _XOPEN_SOURCE 700
#include <stdint.h>
#include <stdio.h>
#include <string.h>
#include <ucontext.h>

#include "sloefertand.h"

#define COUNT(array) (sizeof(array) / sizeof((array)[0]))
#define FILLING 0xA5
#define USED 1000u
#define LEVELS 5000u
#define WRONG_MARK 255

static uint16_t steps[2 * SLOEFERTAND_STEPS], tree[2 * SLOEFERTAND_TREE_NODES], node[] = {0, 1};
static uint16_t plain_steps[2 * SLOEFERTAND_PLAIN_STEPS], plain_tree[2 * SLOEFERTAND_PLAIN_NODES];
static uint16_t rows[2 * SLOEFERTAND_USED_NODES], batch[SLOEFERTAND_BATCH_WORDS];
static uint8_t marks[SLOEFERTAND_USED_NODES], row[SLOEFERTAND_USED_NODES];
static uint32_t ids[SLOEFERTAND_USED_NODES];
static uint16_t full_rows[2 * SLOEFERTAND_USED_NODES], mended[SLOEFERTAND_MEND_WORDS];
static uint8_t wrong_marks[SLOEFERTAND_USED_NODES];
static uint16_t witness[SLOEFERTAND_WITNESS_WORDS], plan[SLOEFERTAND_FRAMES], words[SLOEFERTAND_LINE_WORDS];
static uint8_t line[SLOEFERTAND_LINE_DIGITS], lines[4 * SLOEFERTAND_BATCH_WORDS + SLOEFERTAND_FRAMES], text[SLOEFERTAND_PLAN_BYTES];
static uint8_t list[5 * SLOEFERTAND_NAMES], pattern_text[6 * SLOEFERTAND_STEPS];
static uint16_t named[SLOEFERTAND_PATTERN_WORDS];
static uint8_t tree_text[SLOEFERTAND_TREE_BYTES(SLOEFERTAND_TREE_NODES)], deep_text[(4 + 5) * LEVELS];
static uint16_t tree_words[SLOEFERTAND_TREE_WORDS];
static size_t batch_words, line_bytes, lines_bytes, list_bytes, pattern_text_bytes, tree_text_bytes;

static sloefertand_answer answer;

static void nothing(void) { answer.refusal = 0; }
static void check_pattern(void) { answer = sloefertand_check_pattern(steps, COUNT(steps), SLOEFERTAND_STEPS, 1); }
static void check_tree(void) { answer = sloefertand_check_tree(tree, COUNT(tree), SLOEFERTAND_TREE_NODES, 3); }
static void check_document(void) {
    answer = sloefertand_check_document(rows, COUNT(rows), marks, COUNT(marks), USED, ids, COUNT(ids), USED);
}
static void reading(void) {
    answer = sloefertand_read(steps, COUNT(steps), rows, COUNT(rows), marks, COUNT(marks), USED, ids, COUNT(ids), USED, row,
                              COUNT(row));
}
static void plain_reading(void) {
    answer = sloefertand_plain_reading(plain_steps, COUNT(plain_steps), plain_tree, COUNT(plain_tree), row, COUNT(row));
}
static void inserting(void) {
    answer = sloefertand_insert(steps, COUNT(steps), node, COUNT(node), rows, COUNT(rows), marks, COUNT(marks), USED, ids,
                                COUNT(ids), USED);
}
static void deleting(void) {
    answer = sloefertand_delete(steps, COUNT(steps), rows, COUNT(rows), marks, COUNT(marks), USED, ids, COUNT(ids), USED);
}
static void compacting(void) {
    answer = sloefertand_compact(rows, COUNT(rows), marks, COUNT(marks), USED, ids, COUNT(ids), USED);
}
static void mending(void) {
    answer = sloefertand_mend(full_rows, COUNT(full_rows), wrong_marks, COUNT(wrong_marks), SLOEFERTAND_USED_NODES, ids, COUNT(ids),
                              SLOEFERTAND_USED_NODES, mended, COUNT(mended));
}
static void delete_verdict(void) {
    answer = sloefertand_delete_verdict(steps, COUNT(steps), steps, COUNT(steps), witness, COUNT(witness));
}
static void insert_verdict(void) {
    answer = sloefertand_insert_verdict(steps, COUNT(steps), steps, COUNT(steps), tree, COUNT(tree), witness, COUNT(witness));
}
static void deep_delete_verdict(void) { answer = sloefertand_deep_delete_verdict(steps, COUNT(steps), steps, COUNT(steps)); }
static void deep_insert_verdict(void) {
    answer = sloefertand_deep_insert_verdict(steps, COUNT(steps), steps, COUNT(steps), tree, COUNT(tree));
}
static void delete_evidence(void) {
    answer = sloefertand_delete_evidence(steps, COUNT(steps), steps, COUNT(steps), tree, COUNT(tree));
}
static void insert_evidence(void) {
    answer = sloefertand_insert_evidence(steps, COUNT(steps), steps, COUNT(steps), tree, COUNT(tree), tree, COUNT(tree));
}
static void step(void) { answer = sloefertand_step(batch, batch_words, 0, 0); }
static void planning(void) { answer = sloefertand_plan(batch, batch_words, plan, COUNT(plan)); }
static void planning_in(void) { answer = sloefertand_plan_in(SLOEFERTAND_NODE, batch, batch_words, plan, COUNT(plan)); }
static void read_line(void) { answer = sloefertand_read_line(line, line_bytes, 1, words, COUNT(words)); }
static void write_line(void) { answer = sloefertand_write_line(batch, COUNT(words), line, COUNT(line)); }
static void read_pattern(void) {
    answer = sloefertand_read_pattern(list, list_bytes, pattern_text, pattern_text_bytes, named, COUNT(named));
}
static void write_pattern(void) {
    answer = sloefertand_write_pattern(list, list_bytes, named, COUNT(named), pattern_text, COUNT(pattern_text));
}
static void read_tree(void) {
    answer = sloefertand_read_tree(deep_text, COUNT(deep_text), tree_words, COUNT(tree_words));
    if (answer.refusal == 2) {
        answer = sloefertand_read_tree(tree_text, tree_text_bytes, tree_words, COUNT(tree_words));
    }
}
static void write_tree(void) { answer = sloefertand_write_tree(tree, COUNT(tree), tree_text, COUNT(tree_text)); }
static void printing(void) { answer = sloefertand_print(lines, lines_bytes, text, COUNT(text)); }

/* Each function with the most bytes that the header says; deleting and then compacting are last of those on the document, which they empty.
 * Mending has rows and marks of its own; the identities that it shares with them are 0, 1, 2 and so on before and after each call. */
static const struct measured {
    const char *name;
    void (*call)(void);
    size_t most;
} calls[] = {
    {"check_pattern", check_pattern, 2000},
    {"check_tree", check_tree, 2000},
    {"check_document", check_document, 2000},
    {"read", reading, 43000},
    {"plain_reading", plain_reading, 2000},
    {"insert", inserting, 47000},
    {"delete", deleting, 47000},
    {"compact", compacting, 9000},
    {"mend", mending, 6000},
    {"delete_verdict", delete_verdict, 68000},
    {"insert_verdict", insert_verdict, 68000},
    {"deep_delete_verdict", deep_delete_verdict, 68000},
    {"deep_insert_verdict", deep_insert_verdict, 68000},
    {"delete_evidence", delete_evidence, 51000},
    {"insert_evidence", insert_evidence, 58000},
    {"step", step, 2000},
    {"plan", planning, 72000},
    {"plan_in", planning_in, 72000},
    {"write_line", write_line, 2000},
    {"read_line", read_line, 2000},
    {"write_pattern", write_pattern, 6000},
    {"read_pattern", read_pattern, 6000},
    {"write_tree", write_tree, 153000},
    {"read_tree", read_tree, 9000},
    {"print", printing, 116000},
};

/* A pattern of wildcards, each below the one before it; and a chain of nodes with one label. */
static void fill_pattern(uint16_t *pattern, size_t count) {
    for (size_t i = 0; i < count; i++) {
        pattern[2 * i] = i == 0 ? 0 : 2;
        pattern[2 * i + 1] = 0;
    }
}
static void fill_chain(uint16_t *nodes, size_t count) {
    for (size_t i = 0; i < count; i++) {
        nodes[2 * i] = (uint16_t)(i == 0 ? 0 : i - 1);
        nodes[2 * i + 1] = 1;
    }
}

/* Puts words behind the batch and, as one line, behind the lines. */
static void add_frame(const uint16_t *frame, size_t count) {
    memcpy(batch + batch_words, frame, count * sizeof *frame);
    batch_words += count;
    lines_bytes += sloefertand_write_line(frame, count, lines + lines_bytes, COUNT(lines) - lines_bytes).first;
    lines[lines_bytes++] = '\n';
}

/* An insert with the longest pattern and tree, and behind it reads with that pattern, as many as a batch has words for. */
static void fill_batch(void) {
    uint16_t insert[SLOEFERTAND_LINE_WORDS] = {2, SLOEFERTAND_STEPS}, read[2 + COUNT(steps)] = {1, SLOEFERTAND_STEPS};
    memcpy(insert + 2, steps, sizeof steps);
    insert[2 + COUNT(steps)] = SLOEFERTAND_TREE_NODES;
    memcpy(insert + 3 + COUNT(steps), tree, sizeof tree);
    memcpy(read + 2, steps, sizeof steps);
    for (add_frame(insert, COUNT(insert)); batch_words + COUNT(read) <= SLOEFERTAND_BATCH_WORDS;) {
        add_frame(read, COUNT(read));
    }
    line_bytes = sloefertand_write_line(insert, COUNT(insert), line, COUNT(line)).first;
}

/* As many names as a list may have, and the text of a pattern whose steps have the last of them. */
static void fill_texts(void) {
    for (unsigned i = 0; i < SLOEFERTAND_NAMES; i++) {
        list_bytes += (size_t)sprintf((char *)list + list_bytes, "n%u\n", i);
    }
    for (size_t i = 0; i < SLOEFERTAND_STEPS; i++) {
        named[2 * i] = i == 0 ? 0 : 2;
        named[2 * i + 1] = SLOEFERTAND_NAMES;
    }
    pattern_text_bytes =
        sloefertand_write_pattern(list, list_bytes, named, COUNT(named), pattern_text, COUNT(pattern_text)).first;
}

/* The tags of the chain, and start tags inside each other with an end tag for each. */
static void fill_tags(void) {
    tree_text_bytes = sloefertand_write_tree(tree, COUNT(tree), tree_text, COUNT(tree_text)).first;
    for (size_t i = 0; i < LEVELS; i++) {
        memcpy(deep_text + 4 * i, "<n1>", 4);
        memcpy(deep_text + 4 * LEVELS + 5 * i, "</n1>", 5);
    }
}

static unsigned char stack[1u << 20];
static ucontext_t here, there;

/* The bytes of stack that a call went down. */
static size_t taken(void (*call)(void)) {
    size_t low = 0;
    memset(stack, FILLING, sizeof stack);
    getcontext(&there);
    there.uc_stack.ss_sp = stack;
    there.uc_stack.ss_size = sizeof stack;
    there.uc_link = &here;
    makecontext(&there, call, 0);
    swapcontext(&here, &there);
    while (low < sizeof stack && stack[low] == FILLING) {
        low++;
    }
    return sizeof stack - low;
}

int main(void) {
    int status = 0;
    size_t least;
    fill_pattern(steps, SLOEFERTAND_STEPS);
    fill_pattern(plain_steps, SLOEFERTAND_PLAIN_STEPS);
    fill_chain(tree, SLOEFERTAND_TREE_NODES);
    fill_chain(plain_tree, SLOEFERTAND_PLAIN_NODES);
    fill_chain(rows, USED);
    fill_chain(full_rows, SLOEFERTAND_USED_NODES);
    memset(wrong_marks, WRONG_MARK, sizeof wrong_marks);
    for (uint32_t i = 0; i < COUNT(ids); i++) {
        ids[i] = i;
    }
    fill_batch();
    fill_texts();
    fill_tags();
    least = taken(nothing);
    for (size_t i = 0; i < COUNT(calls); i++) {
        size_t bytes = taken(calls[i].call) - least;
        if (answer.refusal != 0) {
            fprintf(stderr, "stack: %s was refused by %zu\n", calls[i].name, answer.refusal);
            return 2;
        }
        printf("%s %zu of %zu\n", calls[i].name, bytes, calls[i].most);
        if (bytes > calls[i].most) {
            status = 1;
        }
    }
    return status;
}
