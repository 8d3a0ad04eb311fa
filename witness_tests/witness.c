/* Asks for the verdict on a read and an update, given as text with the names a to e, and shows its witness.
 *
 *   witness READ delete PATTERN
 *   witness READ insert PATTERN PATH    inserts the nodes of PATH, each below the one before it
 *
 * Prints nothing where there is no conflict. Else three lines: the read in XPath over the elements of nested tags, the witness as tags,
 * and as tags what the update makes of the witness. Status 2: an argument is wrong, or a call was refused, which is said on standard
 * error. */
#include <stdint.h>
#include <stdio.h>
#include <stdlib.h>
#include <string.h>

#include "sloefertand.h"

#define COUNT(array) (sizeof(array) / sizeof((array)[0]))
#define NODES SLOEFERTAND_TREE_NODES /* nodes of a document here: a witness and one copy below each of its nodes */

/* Names and the elements of their labels. */
static const char names[] = "a\nb\nc\nd\ne\n", elements[] = "n1\nn2\nn3\nn4\nn5\n";

static void fail(const char *words) {
    fprintf(stderr, "witness: %s\n", words);
    exit(2);
}

/* The first value of an answer. */
static size_t first(sloefertand_answer answer) {
    if (answer.refusal != 0) {
        fprintf(stderr, "witness: refusal %zu, table %zu, place %zu\n", answer.refusal, answer.table, answer.place);
        exit(2);
    }
    return answer.first;
}

/* A pattern. */
typedef struct pattern {
    uint16_t words[SLOEFERTAND_PATTERN_WORDS];
    size_t count;
} pattern;

static pattern pattern_of(const char *text) {
    pattern p;
    p.count = first(sloefertand_read_pattern((const uint8_t *)names, strlen(names), (const uint8_t *)text, strlen(text), p.words,
                                             COUNT(p.words)));
    return p;
}

/* The tree of a path: its labels, each below the one before it. */
static pattern tree_of(const char *path) {
    pattern tree = pattern_of(path);
    for (size_t node = 0; 2 * node < tree.count; node++) {
        tree.words[2 * node] = (uint16_t)(node == 0 ? 0 : node - 1);
    }
    return tree;
}

static void show_xpath(pattern p) {
    char text[1000];
    size_t bytes = first(
        sloefertand_write_pattern((const uint8_t *)elements, strlen(elements), p.words, p.count, (uint8_t *)text, COUNT(text)));
    printf("%.*s\n", (int)bytes, text);
}

static void show_tags(const uint16_t *tree, size_t nodes) {
    char text[SLOEFERTAND_TREE_BYTES(NODES)];
    size_t bytes = first(sloefertand_write_tree(tree, 2 * nodes, (uint8_t *)text, COUNT(text)));
    printf("%.*s\n", (int)bytes, text);
}

/* The present nodes of a document as a tree of their own. */
static void show_present(const uint16_t *rows, const uint8_t *marks, size_t used) {
    uint16_t tree[2 * NODES], number[NODES];
    size_t nodes = 0;
    for (size_t node = 0; node < used; node++) {
        if (marks[node] == 0) {
            tree[2 * nodes] = nodes == 0 ? 0 : number[rows[2 * node]];
            tree[2 * nodes + 1] = rows[2 * node + 1];
            number[node] = (uint16_t)nodes++;
        }
    }
    show_tags(tree, nodes);
}

int main(int count, char **arguments) {
    uint16_t rows[2 * NODES];
    uint8_t marks[NODES] = {0};
    uint32_t ids[NODES];
    size_t used;
    for (size_t node = 0; node < NODES; node++) {
        ids[node] = (uint32_t)node;
    }
    if (!(count == 4 && strcmp(arguments[2], "delete") == 0) && !(count == 5 && strcmp(arguments[2], "insert") == 0)) {
        fail("usage: witness READ delete PATTERN, or witness READ insert PATTERN PATH");
    }
    pattern read = pattern_of(arguments[1]), update = pattern_of(arguments[3]);
    if (count == 4) {
        used = first(sloefertand_delete_verdict(read.words, read.count, update.words, update.count, rows, COUNT(rows)));
    } else {
        pattern tree = tree_of(arguments[4]);
        used = first(sloefertand_insert_verdict(read.words, read.count, update.words, update.count, tree.words, tree.count, rows,
                                                COUNT(rows)));
    }
    if (used == 0) {
        return 0;
    }
    show_xpath(read);
    show_tags(rows, used);
    if (count == 4) {
        first(sloefertand_delete(update.words, update.count, rows, COUNT(rows), marks, COUNT(marks), used, ids, COUNT(ids),
                                 (uint32_t)used));
    } else {
        pattern tree = tree_of(arguments[4]);
        sloefertand_answer inserted = sloefertand_insert(update.words, update.count, tree.words, tree.count, rows, COUNT(rows), marks,
                                                         COUNT(marks), used, ids, COUNT(ids), (uint32_t)used);
        first(inserted);
        used = inserted.second;
    }
    show_present(rows, marks, used);
    return 0;
}
