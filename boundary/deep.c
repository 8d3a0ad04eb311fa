/* Reads trees from hostile texts: tags far deeper and longer than those of any tree that is accepted. Whatever its depth, a text
 * that fits is refused by 2, and one that does not by 14, with the place up to which it fits. Each case stands with its answer,
 * worked out from the bytes of its tags: <n1> has 4, </n1> and <n1/> 5, a start tag with a label of five digits 8, its end tag 9.
 *
 * Prints a line a case: its bytes, its answer and the milliseconds that a call took, which nothing is compared with. Status 1 where
 * an answer is another one, or where a call changed its text, words that it refused, or the word behind a tree's. */
#include <stdbool.h>
#include <stdint.h>
#include <stdio.h>
#include <stdlib.h>
#include <string.h>
#include <time.h>

#include "sloefertand.h"

#define COUNT(array) (sizeof(array) / sizeof((array)[0]))
#define MILLION 1000000u
#define TEXT_BYTES (17u * MILLION) /* of the longest text: a million levels of five digits */
#define OPEN 10000u                /* elements that are open at once where each has a label of its own */
#define FILLING 7u                 /* what stands in the words before a call */

/* ---- Building a text. */

static uint8_t text[TEXT_BYTES];
static size_t text_bytes;

/* Puts a piece behind the text, so many times. */
static void put(const char *piece, size_t times) {
    size_t size = strlen(piece);
    if ((TEXT_BYTES - text_bytes) / size < times) {
        fprintf(stderr, "deep: a text is longer than its room\n");
        exit(2);
    }
    for (size_t i = 0; i < times; i++) {
        memcpy(text + text_bytes, piece, size);
        text_bytes += size;
    }
}

/* The labels of the open elements, the outermost first, and how many elements there were so far. */
static unsigned open_labels[OPEN];
static size_t open_count, element_count;

/* A label of five digits for each element: no two of 50,000 in a row have the same. */
static unsigned label_of(size_t element) { return 10000u + (unsigned)(element * 7919u % 50000u); }

/* Puts the end tag of a label behind the text. */
static void put_end(unsigned label) {
    char tag[16];
    sprintf(tag, "</n%u>", label);
    put(tag, 1);
}

/* So many levels up, each inside the one before; and so many down again. */
static void up(size_t levels) {
    for (size_t i = 0; i < levels; i++) {
        char tag[16];
        unsigned label = label_of(element_count++);
        open_labels[open_count++] = label;
        sprintf(tag, "<n%u>", label);
        put(tag, 1);
    }
}
static void down(size_t levels) {
    for (size_t i = 0; i < levels; i++) {
        put_end(open_labels[--open_count]);
    }
}

/* One level down by an end tag whose last digit is another one. */
static void down_wrong(void) { put_end(open_labels[--open_count] ^ 1u); }

/* ---- The texts. */

static void only_starts(void) { put("<n1>", MILLION); }
static void only_long_starts(void) { put("<n65535>", MILLION); }

/* So many levels of n1. */
static void levels(size_t count) {
    put("<n1>", count);
    put("</n1>", count);
}
static void one_million_bytes(void) { levels(111111); }
static void two_million_bytes(void) { levels(222222); }
static void four_million_bytes(void) { levels(444444); }
static void million_levels(void) { levels(MILLION); }
static void million_long_levels(void) {
    put("<n65535>", MILLION);
    put("</n65535>", MILLION);
}

/* A million levels, of whose end tags the one behind so many others is n2's. */
static void wrong_behind(size_t right) {
    put("<n1>", MILLION);
    put("</n1>", right);
    put("</n2>", 1);
    put("</n1>", MILLION - 1 - right);
}
static void innermost_wrong(void) { wrong_behind(0); }
static void middle_wrong(void) { wrong_behind(499999); }
static void outermost_wrong(void) { wrong_behind(999999); }
static void last_byte_cut(void) {
    levels(MILLION);
    text_bytes--;
}
static void tree_behind(void) {
    levels(MILLION);
    put("<n1/>", 1);
}
static void line_feed_behind(void) {
    levels(MILLION);
    put("\n", 1);
}

/* Up over twice as many levels as the library holds at once, and down again. */
static void up_and_down(void) {
    up(8193);
    down(8193);
}

/* A comb of small teeth: 50 levels above level 4,096 and 50 below it, a thousand times, and the same at level 8,192. */
static void small_teeth(void) {
    for (size_t k = 0; k < 2; k++) {
        up(4096);
        for (size_t i = 0; i < 1000; i++) {
            up(50);
            down(100);
            up(50);
        }
    }
    down(8192);
}

/* A comb of great teeth: from level 8,192 to level 3,192 and back, 20 times; 108,192 elements. All but its outermost end tag. */
static void great_teeth_open(void) {
    up(8192);
    for (size_t i = 0; i < 20; i++) {
        down(5000);
        up(5000);
    }
    down(8191);
}
static void great_teeth(void) {
    great_teeth_open();
    down(1);
}
static void great_teeth_wrong(void) {
    great_teeth_open();
    down_wrong();
}

/* Teeth of 4,096 and of 4,097 levels on level 4,096, ten of each. */
static void even_teeth(void) {
    up(4096);
    for (size_t i = 0; i < 10; i++) {
        up(4096);
        down(4096);
        up(4097);
        down(4097);
    }
    down(4096);
}

/* From level 8,192 down to 4,096, and there a wrong end tag; or that of the element 4,096 levels up, n24529 and not n38305. */
static void wrong_at_4096(void) {
    up(8192);
    down(4096);
    down_wrong();
    down(4095);
}
static void other_at_4096(void) {
    up(8192);
    down(4096);
    put_end(label_of(8191));
}

/* A hundred thousand elements inside one. */
static void siblings(void) {
    put("<n1>", 1);
    put("<n2/>", 100000);
    put("</n1>", 1);
}
static void siblings_wrong(void) {
    put("<n1>", 1);
    put("<n2/>", 100000);
    put("</n2>", 1);
}

/* Trees that are accepted: 256 nodes inside one another, the same of the longest labels, and 255 nodes inside one. */
static void chain(void) { levels(256); }
static void long_chain(void) {
    put("<n65535>", 256);
    put("</n65535>", 256);
}
static void flat(void) {
    put("<n1>", 1);
    put("<n1/>", 255);
    put("</n1>", 1);
}

static const struct trial {
    const char *name;
    void (*build)(void);
    size_t bytes, refusal, table, place, first;
    unsigned calls; /* over which the time is taken */
} trials[] = {
    {"a million start tags", only_starts, 4000000, 14, 7, 4000000, 0, 1},
    {"a million long start tags", only_long_starts, 8000000, 14, 7, 8000000, 0, 1},
    {"111,111 levels", one_million_bytes, 999999, 2, 3, 0, 0, 1},
    {"222,222 levels", two_million_bytes, 1999998, 2, 3, 0, 0, 1},
    {"444,444 levels", four_million_bytes, 3999996, 2, 3, 0, 0, 1},
    {"a million levels", million_levels, 9000000, 2, 3, 0, 0, 1},
    {"a million long levels", million_long_levels, 17000000, 2, 3, 0, 0, 1},
    {"innermost end tag wrong", innermost_wrong, 9000000, 14, 7, 4000003, 0, 1},
    {"middle end tag wrong", middle_wrong, 9000000, 14, 7, 6499998, 0, 1},
    {"outermost end tag wrong", outermost_wrong, 9000000, 14, 7, 8999998, 0, 1},
    {"last byte cut", last_byte_cut, 8999999, 14, 7, 8999999, 0, 1},
    {"a tree behind the root", tree_behind, 9000005, 14, 7, 9000000, 0, 1},
    {"a line feed behind the root", line_feed_behind, 9000001, 14, 7, 9000000, 0, 1},
    {"8,193 levels up and down", up_and_down, 139281, 2, 3, 0, 0, 1},
    {"a comb of small teeth", small_teeth, 3539264, 2, 3, 0, 0, 1},
    {"a comb of great teeth", great_teeth, 1839264, 2, 3, 0, 0, 1},
    {"great teeth, outermost end tag wrong", great_teeth_wrong, 1839264, 14, 7, 1839262, 0, 1},
    {"a comb of 4,096 and 4,097 levels", even_teeth, 1462442, 2, 3, 0, 0, 1},
    {"level 4,096 wrong in its last digit", wrong_at_4096, 139264, 14, 7, 102407, 0, 1},
    {"level 4,096 ended as level 8,192", other_at_4096, 102409, 14, 7, 102403, 0, 1},
    {"a hundred thousand siblings", siblings, 500009, 2, 3, 0, 0, 1},
    {"siblings, end tag wrong", siblings_wrong, 500009, 14, 7, 500007, 0, 1},
    {"256 nodes inside one another", chain, 2304, 0, 0, 0, 512, 1000},
    {"256 nodes of long labels", long_chain, 4352, 0, 0, 0, 512, 1000},
    {"255 nodes inside one", flat, 1284, 0, 0, 0, 512, 1000},
};

/* ---- The calls. */

static uint16_t words[SLOEFERTAND_TREE_WORDS + 1];

/* Whether the words from a place on are as they were before the call. */
static bool kept(size_t from) {
    for (size_t i = from; i < COUNT(words); i++) {
        if (words[i] != FILLING) {
            return false;
        }
    }
    return true;
}

/* A number that another text would hardly have. */
static uint64_t sum_of_text(void) {
    uint64_t sum = text_bytes;
    for (size_t i = 0; i < text_bytes; i++) {
        sum = (sum ^ text[i]) * 1099511628211u;
    }
    return sum;
}

/* Builds the text of a trial and reads it; whether all is as it should be. */
static bool tried(const struct trial *t) {
    sloefertand_answer a = {0, 0, 0, 0, 0, 0, 0};
    text_bytes = open_count = element_count = 0;
    t->build();
    for (size_t i = 0; i < COUNT(words); i++) {
        words[i] = FILLING;
    }
    uint64_t sum = sum_of_text();
    clock_t from = clock();
    for (unsigned i = 0; i < t->calls; i++) {
        a = sloefertand_read_tree(text, text_bytes, words, COUNT(words));
    }
    double taken = (double)(clock() - from) * 1000.0 / CLOCKS_PER_SEC / t->calls;
    bool right = text_bytes == t->bytes && a.refusal == t->refusal && a.table == t->table && a.place == t->place &&
                 a.first == t->first && kept(t->first) && sum == sum_of_text();
    printf("%-38s%9zu bytes: refusal %zu table %zu place %zu, words %zu%s (%.4f ms)\n", t->name, text_bytes, a.refusal, a.table,
           a.place, a.first, right ? "" : " WRONG", taken);
    return right;
}

int main(void) {
    int status = 0;
    for (size_t i = 0; i < COUNT(trials); i++) {
        if (!tried(&trials[i])) {
            status = 1;
        }
    }
    if (fflush(stdout) != 0 || ferror(stdout)) {
        fprintf(stderr, "deep: the output could not be written\n");
        return 2;
    }
    return status;
}
