/*
 * Sloefertand for C and C++: reading, updating, compacting and mending a tree held in tables, conflict verdicts, the check of another
 * shop's witness, the plan of a batch, patterns as text, trees as tags.
 * Link with libsloefertand.a, which wants the C library's memset and memcpy and, on x86-64, nothing else. The library has no state
 * and no heap, prints nothing and always returns: calls on several threads are fine where no output is shared.
 *
 * STACK
 * What a call keeps for itself is on the stack. On x86-64 write_tree takes at most 153,000 bytes of it, for 1,024 nodes each below the
 * one before it; print 116,000; plan and plan_in 72,000; the verdicts and the deep verdicts 68,000, for a move of each pair of steps;
 * insert_evidence 58,000; delete_evidence 51,000; insert and delete 47,000; read 43,000, for a set of 64 steps a node; read_tree
 * 9,000, for the labels of open elements; compact 9,000, for the new number of each node; mend, read_pattern and write_pattern 6,000;
 * each other call 2,000. These are measured, by
 * boundary/stack.c on the longest patterns, trees, batches and lists, and not proved. None grows with the depth of a text.
 *
 * VERSION 2
 * Documents have identities (TABLES below), so check_document, read, delete and insert take two parameters more: the row of identities
 * and the next identity; insert has a value more; compact is new; refusal 16 is new, and 12 is given for identities too. Nothing else
 * has changed. A caller of version 1 moves so: give each document a row of uint32_t with room for as many nodes as its marks have,
 * fill it with 0, 1, 2 and so on for the nodes in use, and start with their number as the next identity; pass both in each call; and
 * behind an insert take `third` as the next identity, as `second` is taken as the number of nodes in use. Answers, rows and marks are
 * then those of version 1, but that an insert is refused by 16 once 4,294,967,295 identities are given. From then on keep identities, not node
 * numbers, where something is to be found again after a compaction. The four calls have other symbols in the library than in version 1, so that
 * what was compiled with the old header does not link, in place of passing too little; the names in C are the same.
 *
 * BUFFERS
 * A buffer is a pointer and, behind it, its length in elements (uint16_t words, uint32_t identities or bytes, not sizeof). The caller answers for
 * these, for nothing can test them:
 *  - the pointer is not null, also where the length is 0: pass the address of any element there;
 *  - it is aligned for its element;
 *  - so many elements can be read and, where the parameter is not const, written;
 *  - a buffer that is not const overlaps no other buffer of the call, and nobody else touches it during the call.
 * What stands in the buffers is free: each call takes any content, any length and any number, and answers or refuses.
 * An output that is too short is refused by number 7; no call writes past a length. Elements behind a result keep their
 * content, and a refusal leaves every buffer as it was.
 *
 * TABLES
 * A pattern has two words a step, axis and label: axis 0 for the first step, then 1 (child) or 2 (descendant); label 0 stands
 * for any name. A tree has two words a node, parent and label: the root is node 0 with parent 0, every later node has a parent
 * of a smaller number, and no label is 0. A document is a tree's words, a mark byte a node (0 present, 1 removed), the number of
 * nodes in use, a row of identities and the next identity to give. Identities rise strictly over the nodes in use, and the next one is
 * greater than all of them. A node keeps its identity as long as it is there; its number changes where a compaction closes up a
 * gap before it. A batch is frames in a row: kind (1 read, 2 insert, 3 delete), number of steps, the steps and, for an insert,
 * number of nodes and the nodes.
 *
 * REFUSALS
 *   number                                                                          place
 *    1  no words, or an odd number of them; in a frame, a count of 0                0
 *    2  more steps or nodes than the limit                                          0
 *    3  a wrong axis                                                                step
 *    4  a wrong parent                                                              node
 *    5  a tree label 0                                                              node
 *    6  a delete of one step                                                        0
 *    7  an output that is too short                                                 0
 *    8  a frame whose kind is not 1, 2 or 3                                         word
 *    9  a frame that ends early; in printed text, also words left over on a line    word
 *   10  over 128 frames or 16,384 words                                             word
 *   11  an insert without room                                                      0
 *   12  a wrong used count, mark or identity                                        0
 *   13  a malformed line                                                            line
 *   14  a list of names that breaks (table 8)                                       entry
 *       text that is no pattern's, or no tree's (table 7)                           length of its longest start that fits
 *   15  a name that is not listed; a label without a name                           step
 *   16  an insert for which there are too few identities (table 5)                  0
 * Steps, nodes, words and entries are counted from 0, lines from 1. The table at fault: 1 read, or a pattern on its own, 2 update,
 * 3 inserted tree, 4 output or room, 5 document or proposed tree, 6 batch, 7 text of a pattern or tree, 8 list of names.
 * In a batch the table is 6, and the place is a word for every number but 7 (table 4, place 0) and 13: its offset from the start of
 * the batch. It is the count (1, 2), the axis (3), the parent (4), the label (5), the step count (6), the kind (8), the first word
 * missing, which is one past the last that is there (9), the start of the frame too many, or 16,384 for words (10). Which frame that
 * word lies in, a walk tells: sloefertand_step gives each frame before it, and then the same refusal.
 * Each function names its refusals in the order in which it looks for them; the first that applies is given.
 */
#ifndef SLOEFERTAND_H
#define SLOEFERTAND_H

#include <stddef.h>
#include <stdint.h>

#ifdef __cplusplus
extern "C" {
#endif

/* The version of this interface, which this header says more of above. */
#define SLOEFERTAND_VERSION 2

/* The limits.
 * CHANGED: they were 64 steps and 256 nodes, and what follows from these: 2,572 digits and 643 words of a line, 128 words of a pattern,
 * 254 of a witness, 512 of a tree from tags. A caller that sizes its buffers by these names compiles anew and is done. One that does not
 * compile anew keeps what it had: all that was accepted is accepted still, with the same answers, and an output that is too short for
 * more is refused by 7. An older library gives a longer pattern, tree or frame refusal 2, and a line of more than 2,572 digits 13. */
#define SLOEFERTAND_STEPS 255u          /* steps of a pattern */
#define SLOEFERTAND_TREE_NODES 1024u    /* nodes of an inserted tree, of a proposed one, and of one written as tags or read */
#define SLOEFERTAND_USED_NODES 4096u    /* nodes in use of a document */
#define SLOEFERTAND_LAST_IDENTITY 4294967295u /* the greatest next identity, so that the greatest one given is one less */
#define SLOEFERTAND_PLAIN_STEPS 8u      /* steps and nodes of a plain reading */
#define SLOEFERTAND_PLAIN_NODES 16u
#define SLOEFERTAND_FRAMES 128u         /* frames and words of a batch */
#define SLOEFERTAND_BATCH_WORDS 16384u
#define SLOEFERTAND_LINE_DIGITS 10244u  /* digits and words of a line: the longest is an insert of 255 steps and 1,024 nodes */
#define SLOEFERTAND_LINE_WORDS 2561u
#define SLOEFERTAND_NAMES 256u          /* names of a list */
#define SLOEFERTAND_PATTERN_WORDS 510u  /* words with room for any pattern */
#define SLOEFERTAND_WITNESS_WORDS 1018u /* words with room for the witness of any verdict, of up to 509 nodes */
#define SLOEFERTAND_TREE_WORDS 2048u    /* words with room for any tree that is read from tags */
#define SLOEFERTAND_PLAN_BYTES 1664u    /* bytes with room for any printed plan */
#define SLOEFERTAND_MEND_WORDS 12288u   /* words with room for the list of any mending */

/* The modes of a plan. */
#define SLOEFERTAND_NODE 1u /* a read gives the same nodes in every order that keeps its slot */
#define SLOEFERTAND_DEEP 2u /* it gives the same nodes, and the same present nodes below each */

/* Bytes with room for any tree of so many nodes, from 1 on, that is written as tags. */
#define SLOEFERTAND_TREE_BYTES(nodes) (17u * (nodes) - 8u)

/* What every call returns. */
typedef struct sloefertand_answer {
    size_t refusal; /* 0, or the number of the refusal */
    size_t table;   /* of a refusal, else 0 */
    size_t place;   /* of a refusal, else 0 */
    size_t first;   /* the values that the function names; 0 where it names none, and in a refusal */
    size_t second;
    size_t third;
    size_t fourth;
} sloefertand_answer;

/* The library is built for machines of 64 bits. */
typedef char sloefertand_needs_64_bits[sizeof(size_t) == 8 ? 1 : -1];

/* CHECKS. No value: refusal 0 says that the table is right. */

/* A pattern of at most `limit` steps. `table` is the table that a refusal shall name. Refusals 1, 2, 3. */
sloefertand_answer sloefertand_check_pattern(const uint16_t *pattern, size_t pattern_words, size_t limit, size_t table);

/* A tree of at most `limit` nodes, with the same `table`. Refusals 1, 2, then for each node 4 and 5. */
sloefertand_answer sloefertand_check_tree(const uint16_t *tree, size_t tree_words, size_t limit, size_t table);

/* A document. Refusals, all of table 5: 12 where `used` is 0, over 4,096, over half of the words or over the marks; for each
 * node 4 and 5; 12 for the marks (not 0 or 1, a removed root, a present node below a removed one); 12 for the identities (fewer than
 * `used`, one not above that of the node before, one not below `next`). Nodes behind `used` are not looked at. */
#define sloefertand_check_document sloefertand_v2_check_document
sloefertand_answer sloefertand_check_document(const uint16_t *rows, size_t rows_words, const uint8_t *marks, size_t marks_bytes,
                                              size_t used, const uint32_t *ids, size_t ids_count, uint32_t next);

/* DOCUMENTS */

/* Writes a byte a node in use to `row`: 1 where the pattern selects the node, else 0. The identities of what is read stand at the same
 * places of `ids`. No value.
 * Refusals: the document's (12, 4, 5, 12, 12), the pattern's (1, 2, 3 of table 1), 7 where `row` has fewer bytes than `used`. */
#define sloefertand_read sloefertand_v2_read
sloefertand_answer sloefertand_read(const uint16_t *pattern, size_t pattern_words, const uint16_t *rows, size_t rows_words,
                                    const uint8_t *marks, size_t marks_bytes, size_t used, const uint32_t *ids, size_t ids_count,
                                    uint32_t next, uint8_t *row, size_t row_bytes);

/* The same for a bare tree of at most 16 nodes and a pattern of at most 8 steps, by a slow and simple way. No value.
 * Refusals: the tree's (1, 2, 4, 5 of table 5), the pattern's (1, 2, 3 of table 1), 7. */
sloefertand_answer sloefertand_plain_reading(const uint16_t *pattern, size_t pattern_words, const uint16_t *tree,
                                             size_t tree_words, uint8_t *row, size_t row_bytes);

/* Marks each node that the pattern selects, and all nodes below it, as removed. first: how many were present before.
 * Deletes that follow one another leave the same marks in every order, and their counts make the same sum; a count alone may
 * differ. The same delete again changes nothing and counts 0.
 * Refusals: the document's, the pattern's (1, 2, 3 of table 2), 6 of table 2. */
#define sloefertand_delete sloefertand_v2_delete
sloefertand_answer sloefertand_delete(const uint16_t *pattern, size_t pattern_words, const uint16_t *rows, size_t rows_words,
                                      uint8_t *marks, size_t marks_bytes, size_t used, const uint32_t *ids, size_t ids_count,
                                      uint32_t next);

/* Writes a copy of `tree` below each node that the pattern selects, in rising order, behind the nodes in use, with mark 0 and, in the
 * order written, with the identities from `next` on. first: the copies. second: the new number of nodes in use; third: the new next
 * identity; both are to be passed from then on.
 * Refusals: the document's, the pattern's (1, 2, 3 of table 2), the tree's (1, 2, 4, 5 of table 3, at most 1,024 nodes), 16 of
 * table 5 where the next identity would pass SLOEFERTAND_LAST_IDENTITY, 11 of table 4 where the copies would pass 4,096 nodes, half of
 * the words, the marks or the identities' row. A compaction may make room then. */
#define sloefertand_insert sloefertand_v2_insert
sloefertand_answer sloefertand_insert(const uint16_t *pattern, size_t pattern_words, const uint16_t *tree, size_t tree_words,
                                      uint16_t *rows, size_t rows_words, uint8_t *marks, size_t marks_bytes, size_t used,
                                      uint32_t *ids, size_t ids_count, uint32_t next);

/* Drops the removed nodes and closes up the rest in their order, in place: parents are corrected, each identity stays with its node,
 * and every read selects the same identities as before. In each row all behind the new number of nodes in use stays as it was. first:
 * the new number of nodes in use, to be passed from then on. second: how many nodes were dropped, which is the room gained. The next
 * identity stays. What a compaction does twice it does once. Between the calls of a batch there is none: a plan does not speak of it.
 * Refusals: the document's. */
sloefertand_answer sloefertand_compact(uint16_t *rows, size_t rows_words, uint8_t *marks, size_t marks_bytes, size_t used,
                                       uint32_t *ids, size_t ids_count, uint32_t next);

/* Mends damaged marks, so that a document that is refused by 12 for its marks alone can be used again: the root's mark becomes 0, any other
 * above 1 becomes 1, and then each present node below a removed one becomes removed. What is present afterwards is the most that can be:
 * every set of the root and of nodes whose mark was 0 that has with each node its parent lies within it. Writes three words to `list` for
 * each mark that ended up different, in node order: the node's number, its old mark and its new one. first: how many marks. `list` turns the
 * new marks back into the old ones; behind these words it stays as it was. Nothing but those marks is changed. A document with right
 * marks is left as it is, with nothing listed, so mending twice is mending once; a document that was mended is refused for marks by no call.
 * Refusals: 12 where `used` is wrong, for each node 4 and 5, 12 for the identities, all as for a document, then 7 where `list` has fewer than
 * three words for each such mark: then no mark is changed either. 3 * used words, or SLOEFERTAND_MEND_WORDS, are always enough. */
sloefertand_answer sloefertand_mend(const uint16_t *rows, size_t rows_words, uint8_t *marks, size_t marks_bytes, size_t used,
                                    const uint32_t *ids, size_t ids_count, uint32_t next, uint16_t *list, size_t list_words);

/* VERDICTS: can the update change what the read selects, in any document at all?
 * A pair that is made wider is never safer: with labels made 0, axes 1 made 2, nodes added behind the last one of the tree, any number
 * of these, a conflict stays one, with a witness of no more nodes, and a deep yes stays yes; in a plan no slot moves towards 0. */

/* A read and a delete. first: 0 where no document shows a difference, and `witness` stays; else the nodes of a smallest document
 * that shows one, written to `witness` as a tree of 2 * first words.
 * Refusals: the read's (1, 2, 3 of table 1), the update's (1, 2, 3 of table 2), 6 of table 2, then 7 where `witness` has fewer
 * than 2 * (steps of both patterns - 1) words, also where there is no conflict. SLOEFERTAND_WITNESS_WORDS are always enough. */
sloefertand_answer sloefertand_delete_verdict(const uint16_t *read, size_t read_words, const uint16_t *update,
                                              size_t update_words, uint16_t *witness, size_t witness_words);

/* A read and an insert of `tree`. first and `witness`: as above.
 * Refusals: the read's, the update's, the tree's (1, 2, 4, 5 of table 3), 7. */
sloefertand_answer sloefertand_insert_verdict(const uint16_t *read, size_t read_words, const uint16_t *update,
                                              size_t update_words, const uint16_t *tree, size_t tree_words, uint16_t *witness,
                                              size_t witness_words);

/* Also asks about what lies below the nodes that are read. first: 1 where the two conflict, or where in some document the update
 * takes place at or below a node that is read, as an insert does that gives this very node a child; else 0.
 * Refusals: those of the verdict, without 7. */
sloefertand_answer sloefertand_deep_delete_verdict(const uint16_t *read, size_t read_words, const uint16_t *update,
                                                   size_t update_words);

sloefertand_answer sloefertand_deep_insert_verdict(const uint16_t *read, size_t read_words, const uint16_t *update,
                                                   size_t update_words, const uint16_t *tree, size_t tree_words);

/* EVIDENCE: does a document that another shop proposes show that the update changes what the read selects? It is a tree of at
 * most 1,024 nodes, from any source and of any shape. Nothing is written, and no room is asked for. first: 0 where the read selects
 * the same nodes before and after the update, else the first node, by number, where it does not; that is never node 0. A witness
 * that a verdict wrote always shows a difference: pass the words that it has, 2 * first of that verdict. */

/* A read and a delete. first: 0, or the first node of `proposed` that is lost: the read selects it, and the delete removes it or
 * a node above it.
 * Refusals: the read's (1, 2, 3 of table 1), the update's (1, 2, 3 of table 2), the proposed tree's (1, 2, 4, 5 of table 5), then
 * 6 of table 2. */
sloefertand_answer sloefertand_delete_evidence(const uint16_t *read, size_t read_words, const uint16_t *update,
                                               size_t update_words, const uint16_t *proposed, size_t proposed_words);

/* A read and an insert of `tree`. first: 0, or the first new node that the read selects, by the number that the insert gives it:
 * the copies stand behind the nodes of `proposed`, one for each update point in rising number, each numbered as `tree` is.
 * Whether a document has room for them is not asked: the number may pass 4,095, and goes up to 1,048,575.
 * Refusals: the read's, the update's, the tree's (1, 2, 4, 5 of table 3), the proposed tree's (1, 2, 4, 5 of table 5). */
sloefertand_answer sloefertand_insert_evidence(const uint16_t *read, size_t read_words, const uint16_t *update,
                                               size_t update_words, const uint16_t *tree, size_t tree_words,
                                               const uint16_t *proposed, size_t proposed_words);

/* BATCHES */

/* The frame at word `at` of the batch, as frame `number`. Begin with 0 and 0; go on with number + 1 and at = second.
 * first: its kind. second: the word at which it ends. third: its steps, which begin at word at + 2. fourth: its nodes, whose
 * words are the last 2 * fourth before second. Where the batch has ended all four are 0, second too: stop at kind 0, or the walk
 * begins anew. A place past the end counts as the end. Any place may be asked; what stands there is then read as a frame.
 * Refusals, of table 6: 10 where the batch has too many words, at every call; for the frame 10, 8, 9, 1, 2, 9, 3, 6 and, for an
 * insert, 9, 1, 2, 9, 4, 5. */
sloefertand_answer sloefertand_step(const uint16_t *batch, size_t batch_words, size_t number, size_t at);

/* Writes a word a frame to `plan`: for an update its number among the updates, from 1; for a read its slot, the number of the
 * nearest earlier update to which the deep verdict says yes, or 0. first: the frames. In any order that keeps the updates in sequence
 * and runs each read after the update of its slot and before every update that follows it in the batch, each read gives the same
 * identities, and the same present ones below each; the last document is the same, and the same inserts are refused, by 16 and by 11.
 * Refusals: 10 for words, then those of each frame in turn, as above; then 7. SLOEFERTAND_FRAMES words are always enough.
 * CHANGED: this call used to ask the node verdict. A caller that uses the nodes' numbers alone gets the old plan, and the old freedom
 * to move reads, from sloefertand_plan_in with SLOEFERTAND_NODE. To do nothing is safe: a slot is never less than it was, and the
 * nodes are the same all the same. */
sloefertand_answer sloefertand_plan(const uint16_t *batch, size_t batch_words, uint16_t *plan, size_t plan_words);

/* The plan in a mode: SLOEFERTAND_DEEP as above; SLOEFERTAND_NODE by the node verdict, where a read gives the same nodes in every
 * such order, and what lies below them may differ. first: the frames.
 * Refusals: 8 of table 6 at place 1 for another mode; then as above. No frame of a batch is refused by 8 at place 1. */
sloefertand_answer sloefertand_plan_in(size_t mode, const uint16_t *batch, size_t batch_words, uint16_t *plan, size_t plan_words);

/* LINES: four upper-case hexadecimal digits a word, the most significant first. */

/* Reads one line, without its line feed, into `words`. first: the words. `number` is the place of a refusal 13.
 * Refusals: 13 of table 6 where the line is empty, has over 10,244 digits, a number of digits that 4 does not divide, or another
 * character; then 7. SLOEFERTAND_LINE_WORDS words are always enough. */
sloefertand_answer sloefertand_read_line(const uint8_t *line, size_t line_bytes, size_t number, uint16_t *words,
                                         size_t words_words);

/* Writes `words` as a line, without a line feed. first: the digits. Refusal 7 where `line` has fewer than 4 bytes a word. */
sloefertand_answer sloefertand_write_line(const uint16_t *words, size_t words_words, uint8_t *line, size_t line_bytes);

/* From lines, one frame each, to the text that the plan printer prints: a line a frame with its kind, its number from 1 and its
 * plan word; or, at the first line that is refused, only FFFF, that line's number, the refusal's and the offset of the word at fault,
 * counted from that line's own first word: one past its last where a word is missing, the first left over where words are, 0 for
 * refusals 13 and 10. All four are hexadecimal, so refusal 10 is 000A and 13 is 000D. A line is refused by 13, then 10, then as a
 * frame, then by 9 where words are left over behind its frame. So a bad line is no refusal of this call. first: the bytes of the
 * text. Refusal 7, of table 4, where `text` is too short for them. SLOEFERTAND_PLAN_BYTES are always enough.
 * The very first line may name the mode: 00040001 for node, 00040002 for deep. It is no frame, prints nothing, and counts in line
 * numbers only. Where it is of kind 4, it is refused by 13 as any line is, then by 9 where its second word is missing or a third is
 * there, then by 8, at offset 1, where the second is neither 1 nor 2. Elsewhere kind 4 is refused by 8. Without it the plan is deep.
 * CHANGED: it used to be the node plan; a caller that wants that puts 00040001 and a line feed in front. */
sloefertand_answer sloefertand_print(const uint8_t *lines, size_t lines_bytes, uint8_t *text, size_t text_bytes);

/* PATTERNS AS TEXT, in the abbreviated form of XPath 1.0: / and a first step, then steps after / (child) or // (descendant). A
 * step is * or a name. A list of names has at most 256 of them, each ended by a line feed and none twice; it may have none at all.
 * A name's label is its place in the list, from 1. Neither names nor texts have a limit of their length.
 * Characters are single bytes, code points 0 to 255 (ISO 8859-1, not UTF-8). Names are those of XML 1.0, fifth edition, that have
 * no colon: a name starts with A to Z, a to z, _ or a byte of C0 to D6, D8 to F6 or F8 to FF (hexadecimal), and goes on with these,
 * 0 to 9, -, . and B7. */

/* Reads `text` with the names of `list` into `words`, as a pattern. first: the words, two a step.
 * Refusals: 14 of table 8 where the list breaks: at a character that is wrong or missing, at a name that stood before, or at the
 * 257th; the place is that entry. 14 of table 7 where the text is no pattern's, by its form alone; the place is the length of its
 * longest start that some right text has, so all of it where something is missing at its end. Then, of table 1, 2 where there are
 * more than 255 steps, and 15 where a name is not listed; then 7. SLOEFERTAND_PATTERN_WORDS are always enough. */
sloefertand_answer sloefertand_read_pattern(const uint8_t *list, size_t list_bytes, const uint8_t *text, size_t text_bytes,
                                            uint16_t *words, size_t words_words);

/* Writes a pattern with the names of `list` as text, without a line feed. first: the bytes. What is written is read as the same
 * pattern, and what was read is written as the same text.
 * Refusals: 14 of table 8, as above; the pattern's (1, 2, 3 of table 1); 15 of table 1 where a label has no name; 7. Two bytes a
 * step, and those of its name or star, are always enough. */
sloefertand_answer sloefertand_write_pattern(const uint8_t *list, size_t list_bytes, const uint16_t *pattern, size_t pattern_words,
                                             uint8_t *text, size_t text_bytes);

/* TREES AS TAGS: element n and the label in decimal, <n1/> for a node without children, otherwise <n1>, the children in rising number,
 * each with its own children inside it, and </n1>. No spaces and no line ends. */

/* Writes a tree of at most 1,024 nodes, a witness for instance, as tags. first: the bytes. A node without children takes 4 bytes and
 * its label's digits, any other 7 and twice its label's digits; so SLOEFERTAND_TREE_BYTES of its nodes are always enough, 17,400 for
 * 1,024 of them.
 * Refusals: the tree's (1, 2, 4, 5 of table 5), then 7 where the whole text does not fit into `text`. */
sloefertand_answer sloefertand_write_tree(const uint16_t *tree, size_t tree_words, uint8_t *text, size_t text_bytes);

/* Reads `text` into `words`, as a tree whose nodes are numbered in the order of their start tags. first: the words, two a node. What
 * is read is exactly that shape, but that <n1></n1> is read as <n1/>: labels are 1 to 65,535 and have no leading zero, each end tag
 * has the label of the element that it ends, one element is outermost, and nothing stands behind it, no line end either. A tree that
 * is written is read as the same tree, with its nodes numbered in that order; a tree that was read is written as the same tags, with
 * empty pairs shortened.
 * Texts may be of any length and any depth. The time grows with the length, and no more than that where at most 4,096 elements are
 * open at once; a deeper text is gone through again from its start once for each 4,096 levels that it comes up.
 * Refusals: 14 of table 7 where the text has another shape; the place is the length of its longest start that some right text has,
 * so all of it where something is missing at its end. 2 of table 3 where there are more than 1,024 nodes; then 7.
 * SLOEFERTAND_TREE_WORDS are always enough. */
sloefertand_answer sloefertand_read_tree(const uint8_t *text, size_t text_bytes, uint16_t *words, size_t words_words);

#ifdef __cplusplus
}
#endif

#endif
