/* What a program in C does with the library: it plans a batch, finds the word at fault in another, reads a line, asks for verdicts,
 * writes a witness as XML, reads a tree from XML, checks a partner's witnesses, reads, compacts and mends a document, reads and
 * writes patterns as text and meets refusals.
 * examples/run builds and runs it. Names a to e are the labels 1 to 5; the patterns as text have names of their own. */
#include <inttypes.h>
#include <stdint.h>
#include <stdio.h>
#include <string.h>

#include "sloefertand.h"

#define COUNT(array) (sizeof(array) / sizeof((array)[0]))

/* A pattern: axis and label of each step. */
static const uint16_t a_b[] = {0, 1, 1, 2};         /* a/b */
static const uint16_t a_b_c[] = {0, 1, 1, 2, 1, 3}; /* a/b/c */
static const uint16_t a_any_c[] = {0, 1, 2, 3};     /* a//c */
static const uint16_t only_a[] = {0, 1};            /* a */

/* A tree: parent and label of each node. */
static const uint16_t leaf_c[] = {0, 3}; /* c */

/* Whether a call was refused, which is said where it was. */
static int refused(sloefertand_answer answer) {
    if (answer.refusal == 0) {
        return 0;
    }
    printf("refusal %zu, table %zu, place %zu\n", answer.refusal, answer.table, answer.place);
    return 1;
}

/* The deep plan of a batch and beside it the node plan, a line a frame: the walker gives the frames, the plans their words. */
static void show_plan(const uint16_t *batch, size_t words) {
    static const char *const kinds[] = {"", "read", "insert", "delete"};
    uint16_t deep[SLOEFERTAND_FRAMES], node[SLOEFERTAND_FRAMES];
    sloefertand_answer planned = sloefertand_plan(batch, words, deep, COUNT(deep));
    if (refused(planned) || refused(sloefertand_plan_in(SLOEFERTAND_NODE, batch, words, node, COUNT(node)))) {
        return;
    }
    printf("%zu frames\n", planned.first);
    size_t at = 0;
    for (size_t number = 0; number < planned.first; number++) {
        sloefertand_answer frame = sloefertand_step(batch, words, number, at);
        printf("%s of %zu steps and %zu nodes: %u, %u\n", kinds[frame.first], frame.third, frame.fourth, (unsigned)deep[number],
               (unsigned)node[number]);
        at = frame.second;
    }
}

/* A mode is 1 or 2. */
static void show_wrong_mode(const uint16_t *batch, size_t words) {
    uint16_t plan[SLOEFERTAND_FRAMES];
    refused(sloefertand_plan_in(3, batch, words, plan, COUNT(plan)));
}

/* Where a batch is refused: the place is the offset of the word at fault, which stands in brackets; a missing word is one past the
 * last. */
static void show_fault(const uint16_t *batch, size_t words) {
    uint16_t plan[SLOEFERTAND_FRAMES];
    sloefertand_answer planned = sloefertand_plan(batch, words, plan, COUNT(plan));
    if (!refused(planned)) {
        return;
    }
    printf("words:");
    for (size_t i = 0; i < words; i++) {
        printf(i == planned.place ? " [%u]" : " %u", (unsigned)batch[i]);
    }
    printf(planned.place == words ? " []\n" : "\n");
}

/* The words of a line of digits. */
static void show_line(const char *line) {
    uint16_t words[SLOEFERTAND_LINE_WORDS];
    sloefertand_answer parsed = sloefertand_read_line((const uint8_t *)line, strlen(line), 1, words, COUNT(words));
    if (refused(parsed)) {
        return;
    }
    printf("%zu words:", parsed.first);
    for (size_t i = 0; i < parsed.first; i++) {
        printf(" %u", (unsigned)words[i]);
    }
    printf("\n");
}

/* A tree as nested tags, which an XML editor opens: there is room for that of any witness. */
static void show_tags(const uint16_t *tree, size_t nodes) {
    char text[SLOEFERTAND_TREE_BYTES(SLOEFERTAND_WITNESS_WORDS / 2)];
    sloefertand_answer written = sloefertand_write_tree(tree, 2 * nodes, (uint8_t *)text, COUNT(text));
    if (!refused(written)) {
        printf("as XML: %.*s\n", (int)written.first, text);
    }
}

/* A caret below the first byte of a text that is wrong, or behind a text that is only cut. */
static void show_how_far(const char *text, size_t place, const char *kind) {
    printf("%*s^ no %s %s so\n", (int)place, "", kind, place == strlen(text) ? "ends" : "goes on");
}

/* The nodes of a tree, a line each. */
static void show_nodes(const uint16_t *tree, size_t nodes) {
    for (size_t node = 0; node < nodes; node++) {
        printf("node %zu: parent %u, label %u\n", node, (unsigned)tree[2 * node], (unsigned)tree[2 * node + 1]);
    }
}

/* A tree from its tags, a node a line; where the text is refused, a caret shows how far it is right. */
static void show_tree(const char *text) {
    uint16_t tree[SLOEFERTAND_TREE_WORDS];
    sloefertand_answer read = sloefertand_read_tree((const uint8_t *)text, strlen(text), tree, COUNT(tree));
    printf("%s\n", text);
    if (read.refusal == 14) {
        show_how_far(text, read.place, "tree");
    } else if (!refused(read)) {
        show_nodes(tree, read.first / 2);
    }
}

/* A verdict, with its witness, a node a line and as XML. */
static void show_verdict(sloefertand_answer verdict, const uint16_t *witness) {
    if (refused(verdict)) {
        return;
    }
    if (verdict.first == 0) {
        printf("no conflict\n");
        return;
    }
    printf("conflict, shown by %zu nodes\n", verdict.first);
    show_nodes(witness, verdict.first);
    show_tags(witness, verdict.first);
}

/* Whether a read and a delete conflict. */
static void show_delete_verdict(const uint16_t *read, size_t read_words, const uint16_t *update, size_t update_words) {
    uint16_t witness[SLOEFERTAND_WITNESS_WORDS];
    show_verdict(sloefertand_delete_verdict(read, read_words, update, update_words, witness, COUNT(witness)), witness);
}

/* Whether a read and an insert conflict. */
static void show_insert_verdict(const uint16_t *read, size_t read_words, const uint16_t *update, size_t update_words,
                                const uint16_t *tree, size_t tree_words) {
    uint16_t witness[SLOEFERTAND_WITNESS_WORDS];
    show_verdict(
        sloefertand_insert_verdict(read, read_words, update, update_words, tree, tree_words, witness, COUNT(witness)), witness);
}

/* A deep verdict. */
static void show_deep(sloefertand_answer deep) {
    if (!refused(deep)) {
        printf("deep verdict: %s\n", deep.first == 1 ? "yes" : "no");
    }
}

/* What a partner's tree shows of an update: the node that is lost, or the new one, or nothing. */
static void show_evidence(const char *update, sloefertand_answer evidence, const char *change) {
    if (refused(evidence)) {
        return;
    }
    if (evidence.first == 0) {
        printf("%s: no difference\n", update);
        return;
    }
    printf("%s: node %zu is %s\n", update, evidence.first, change);
}

/* The nodes of a document that a pattern selects. */
static void show_read(const uint16_t *pattern, size_t pattern_words) {
    /* a over b and c, and c below that b */
    static const uint16_t rows[] = {0, 1, 0, 2, 0, 3, 1, 3};
    static const uint8_t marks[] = {0, 0, 0, 0};
    static const uint32_t ids[] = {0, 1, 2, 3};
    uint8_t row[COUNT(marks)];
    if (refused(sloefertand_read(pattern, pattern_words, rows, COUNT(rows), marks, COUNT(marks), COUNT(marks), ids, COUNT(ids),
                                 COUNT(ids), row, COUNT(row)))) {
        return;
    }
    printf("selected:");
    for (size_t node = 0; node < COUNT(row); node++) {
        if (row[node] == 1) {
            printf(" %zu", node);
        }
    }
    printf("\n");
}

/* A document with room for four nodes: its tables, how many nodes are in use, its identities, and the next one. */
typedef struct document {
    uint16_t rows[8];
    uint8_t marks[4];
    size_t used;
    uint32_t ids[4];
    uint32_t next;
} document;

/* What a read of a//c selects: by identity, and by the number that the node has now. */
static void show_identities(const document *d) {
    uint8_t row[COUNT(d->marks)];
    if (refused(sloefertand_read(a_any_c, COUNT(a_any_c), d->rows, COUNT(d->rows), d->marks, COUNT(d->marks), d->used, d->ids,
                                 COUNT(d->ids), d->next, row, COUNT(row)))) {
        return;
    }
    for (size_t node = 0; node < d->used; node++) {
        if (row[node] == 1) {
            printf("a//c: identity %" PRIu32 " at node %zu\n", d->ids[node], node);
        }
    }
}

/* Hangs a c under the root, where there is room; the document takes over the new counts. */
static void show_insert(document *d) {
    sloefertand_answer inserted =
        sloefertand_insert(only_a, COUNT(only_a), leaf_c, COUNT(leaf_c), d->rows, COUNT(d->rows), d->marks, COUNT(d->marks), d->used,
                           d->ids, COUNT(d->ids), d->next);
    if (refused(inserted)) {
        return;
    }
    d->used = inserted.second;
    d->next = (uint32_t)inserted.third;
    printf("insert c at a: %zu copy, next identity %" PRIu32 "\n", inserted.first, d->next);
}

/* Room back from removed nodes: an insert is refused, a compaction makes room, and what is read keeps its identity. */
static void show_room_back(void) {
    /* a over b and c, and c below that b: no room is left */
    document d = {{0, 1, 0, 2, 1, 3, 0, 3}, {0, 0, 0, 0}, 4, {10, 11, 12, 13}, 14};
    sloefertand_answer deleted = sloefertand_delete(a_b, COUNT(a_b), d.rows, COUNT(d.rows), d.marks, COUNT(d.marks), d.used, d.ids,
                                                    COUNT(d.ids), d.next);
    if (refused(deleted)) {
        return;
    }
    printf("delete a/b: %zu removed\n", deleted.first);
    show_insert(&d);
    show_identities(&d);
    sloefertand_answer closed =
        sloefertand_compact(d.rows, COUNT(d.rows), d.marks, COUNT(d.marks), d.used, d.ids, COUNT(d.ids), d.next);
    if (refused(closed)) {
        return;
    }
    d.used = closed.first;
    printf("compacted: %zu nodes in use, %zu dropped\n", closed.first, closed.second);
    show_identities(&d);
    show_insert(&d);
    show_identities(&d);
}

/* The marks of the nodes in use, behind a word on them. */
static void show_marks(const char *what, const document *d) {
    printf("%s:", what);
    for (size_t node = 0; node < d->used; node++) {
        printf(" %u", (unsigned)d->marks[node]);
    }
    printf("\n");
}

/* Mends a document's marks and lists the changes; the answer is the library's. */
static sloefertand_answer mend(document *d, uint16_t *list, size_t list_words) {
    return sloefertand_mend(d->rows, COUNT(d->rows), d->marks, COUNT(d->marks), d->used, d->ids, COUNT(d->ids), d->next, list,
                            list_words);
}

/* Damaged marks: a read is refused, and so is a list that is a word too short, which changes nothing; with room for the list they
 * are mended, and the read is answered. The list has the old marks too, so that they can be had back. */
static void show_mending(void) {
    /* a over b and c, and c below that b: a is marked as removed, b has a mark that there is not, the c below it is present */
    document d = {{0, 1, 0, 2, 1, 3, 0, 3}, {1, 9, 0, 0}, 4, {10, 11, 12, 13}, 14};
    uint16_t list[9];
    show_marks("damaged", &d);
    show_identities(&d);
    refused(mend(&d, list, COUNT(list) - 1));
    show_marks("still", &d);
    sloefertand_answer mended = mend(&d, list, COUNT(list));
    if (refused(mended)) {
        return;
    }
    for (size_t i = 0; i < mended.first; i++) {
        printf("node %u: mark %u becomes %u\n", (unsigned)list[3 * i], (unsigned)list[3 * i + 1], (unsigned)list[3 * i + 2]);
    }
    show_marks("mended", &d);
    show_identities(&d);
    for (size_t i = 0; i < mended.first; i++) {
        d.marks[list[3 * i]] = (uint8_t)list[3 * i + 1];
    }
    show_marks("turned back", &d);
}

/* A planner's names, each ended by a line feed: a name's label is its place, from 1. */
static const char names[] = "chart\ncell\npermit\n";

/* Reads a pattern from its text into words, of which there are enough for any; the answer is the library's. */
static sloefertand_answer read_text(const char *text, uint16_t *words) {
    return sloefertand_read_pattern((const uint8_t *)names, strlen(names), (const uint8_t *)text, strlen(text), words,
                                    SLOEFERTAND_PATTERN_WORDS);
}

/* Says in words why a text is refused: a caret shows how far it is right, or the step is told whose name is not listed. */
static void show_why(const char *text, sloefertand_answer answer) {
    if (answer.refusal == 14 && answer.table == 7) {
        show_how_far(text, answer.place, "pattern");
    } else if (answer.refusal == 15) {
        printf("step %zu has a name that is not listed\n", answer.place);
    } else {
        refused(answer);
    }
}

/* A text and its pattern's words, or why it is refused. */
static void show_pattern(const char *text) {
    uint16_t words[SLOEFERTAND_PATTERN_WORDS];
    sloefertand_answer read = read_text(text, words);
    printf("%s\n", text);
    if (read.refusal != 0) {
        show_why(text, read);
        return;
    }
    for (size_t i = 0; i < read.first; i++) {
        printf(i == 0 ? "%u" : " %u", (unsigned)words[i]);
    }
    printf("\n");
}

/* A smallest witness is a chain: the path down to its last node, written as a pattern of child steps. */
static void show_path(uint16_t *witness, size_t nodes) {
    char text[1000];
    for (size_t node = 0; node < nodes; node++) {
        witness[2 * node] = node == 0 ? 0 : 1;
    }
    sloefertand_answer written =
        sloefertand_write_pattern((const uint8_t *)names, strlen(names), witness, 2 * nodes, (uint8_t *)text, COUNT(text));
    if (!refused(written)) {
        printf("conflict, shown by %.*s\n", (int)written.first, text);
    }
}

/* Whether a read and a delete conflict, all as text. */
static void show_text_verdict(const char *read, const char *update) {
    uint16_t read_words[SLOEFERTAND_PATTERN_WORDS], update_words[SLOEFERTAND_PATTERN_WORDS], witness[SLOEFERTAND_WITNESS_WORDS];
    sloefertand_answer reading = read_text(read, read_words), updating = read_text(update, update_words);
    if (refused(reading) || refused(updating)) {
        return;
    }
    sloefertand_answer verdict =
        sloefertand_delete_verdict(read_words, reading.first, update_words, updating.first, witness, COUNT(witness));
    if (refused(verdict)) {
        return;
    }
    if (verdict.first == 0) {
        printf("no conflict\n");
        return;
    }
    show_path(witness, verdict.first);
}

int main(void) {
    static const uint16_t batch[] = {
        3, 2, 0, 1, 1, 2,          /* delete a/b */
        2, 2, 0, 1, 1, 2, 1, 0, 3, /* insert c at a/b */
        1, 2, 0, 1, 2, 4,          /* read a//d */
        1, 2, 0, 1, 2, 3,          /* read a//c */
        1, 1, 0, 1,                /* read a */
    };
    printf("the plan of a batch, deep and node\n");
    show_plan(batch, COUNT(batch));

    printf("\na mode that there is not\n");
    show_wrong_mode(batch, COUNT(batch));

    static const uint16_t bad[] = {
        1, 1, 0, 1,       /* read a */
        3, 2, 0, 1, 3, 2, /* delete a and, by an axis that there is not, b */
    };
    printf("\na batch with a wrong axis, and one that ends too early\n");
    show_fault(bad, COUNT(bad));
    show_fault(bad, COUNT(bad) - 2);

    printf("\nthe line of delete a/b\n");
    show_line("000300020000000100010002");

    printf("\nread a//c, delete a/b\n");
    show_delete_verdict(a_any_c, COUNT(a_any_c), a_b, COUNT(a_b));

    printf("\nread a/b, delete a/b/c\n");
    show_delete_verdict(a_b, COUNT(a_b), a_b_c, COUNT(a_b_c));
    show_deep(sloefertand_deep_delete_verdict(a_b, COUNT(a_b), a_b_c, COUNT(a_b_c)));

    printf("\nread a/b, insert c at a/b\n");
    show_insert_verdict(a_b, COUNT(a_b), a_b, COUNT(a_b), leaf_c, COUNT(leaf_c));
    show_deep(sloefertand_deep_insert_verdict(a_b, COUNT(a_b), a_b, COUNT(a_b), leaf_c, COUNT(leaf_c)));

    /* a over d, b and c; c below that d; d below that b, and c below it */
    static const uint16_t bushy[] = {0, 1, 0, 4, 0, 2, 0, 3, 1, 3, 2, 4, 5, 3};
    /* a over b and c */
    static const uint16_t flat[] = {0, 1, 0, 2, 0, 3};
    printf("\na partner's trees as evidence, read a//c\n");
    sloefertand_answer lost = sloefertand_delete_evidence(a_any_c, COUNT(a_any_c), a_b, COUNT(a_b), bushy, COUNT(bushy));
    show_evidence("delete a/b", lost, "lost");
    sloefertand_answer new_node =
        sloefertand_insert_evidence(a_any_c, COUNT(a_any_c), a_b, COUNT(a_b), leaf_c, COUNT(leaf_c), bushy, COUNT(bushy));
    show_evidence("insert c at a/b", new_node, "new");
    sloefertand_answer none = sloefertand_delete_evidence(a_any_c, COUNT(a_any_c), a_b, COUNT(a_b), flat, COUNT(flat));
    show_evidence("delete a/b, another tree", none, "lost");

    printf("\na renewal from XML, and texts that are refused\n");
    show_tree("<n1><n2><n3/></n2><n4></n4></n1>");
    show_tree("<n1><n2><n3/></n1></n2>");
    show_tree("<n1><n65536/></n1>");
    show_tree("<n1><n2/>");

    printf("\nread a//c of a document\n");
    show_read(a_any_c, COUNT(a_any_c));

    printf("\nroom back from removed nodes\n");
    show_room_back();

    printf("\ndamaged marks, mended and turned back\n");
    show_mending();

    printf("\nread /chart//permit, delete /chart/cell\n");
    show_text_verdict("/chart//permit", "/chart/cell");

    printf("\npatterns as text, and texts that are refused\n");
    show_pattern("/chart//*/permit");
    show_pattern("/chart//cell:permit");
    show_pattern("/chart/cell/");
    show_pattern("/chart/buoy");

    printf("\nread a//c, delete a\n");
    show_delete_verdict(a_any_c, COUNT(a_any_c), only_a, COUNT(only_a));
    return 0;
}
