/*
 * attr.h: attributes of a document collection, in memory, for search, sorting and grouping.
 *
 * An engine keeps up to eight attributes: fields of documents, each of a kind (single, array, weighted set) and a value type
 * (long, string). One thread feeds operations to it and commits them. Readers answer queries at commits, each in a thread of
 * its own, without a lock: a reader sees a commit whole, and never a part of one.
 *
 * The library starts no thread, takes no lock and opens no file. It takes memory by malloc and gives it back by free.
 * It keeps no state of its own beside the handles, so several engines may stand side by side.
 *
 * THE RULES. What is proved of the library (docs/LIBRARY.md) is proved for callers that keep these rules, and nothing checks that C
 * keeps them:
 *
 *   1. A handle is made by attr_open or attr_reader_open, is passed to calls by its address, and is passed by value to one of
 *      attr_close, attr_reader_return and attr_reader_close, once. After that neither it nor a copy of it is used.
 *   2. At most one call with a handle runs at a time. The engine's handle and each reader's handle may be used at the same time.
 *      A handle may move to another thread where a lock, a thread's start or join, or a sequentially consistent atomic stands
 *      between the last call there and the first one here.
 *   3. A pointer with a length names that many elements, readable, and writable where it is not const. With length 0 it may be
 *      any pointer but NULL. Other pointers name one struct. What one call writes overlaps nothing else that the call is given.
 *   4. No call is made from a signal handler, or from the child of a fork of a process with threads.
 *   5. malloc, realloc and free come from one allocator, and align as C says.
 *
 * Each call returns an attr_code, ATTR_OK where it did what it says. A failed call changes nothing except what its comment says.
 * Each call writes the whole of its "told" struct: fields that it does not name are 0.
 */
#ifndef ATTR_H
#define ATTR_H

#include <stddef.h>
#include <stdint.h>

#ifdef __cplusplus
extern "C" {
#endif

/* 1,000,000 times the major version, 1,000 times the minor one, and the patch. */
#define ATTR_VERSION 2000u

/* The writer's handle, and a reader's. The pointer is the library's own: C copies it, and looks at nothing behind it. */
typedef struct attr_engine { void *at; } attr_engine;
typedef struct attr_reader { void *at; } attr_reader;

enum attr_code {
    ATTR_OK = 0,
    /* calls */
    ATTR_MEMORY = 1,            /* malloc gave no memory */
    ATTR_BOUNDS = 2,            /* a size or a number is out of bounds */
    ATTR_ATTRIBUTES = 3,        /* the text names no attributes */
    ATTR_NO_TEXT = 4,           /* the text is not UTF-8 */
    ATTR_NO_READER = 5,         /* all readers are handed out */
    ATTR_LOST = 6,              /* the handle has no reader */
    ATTR_FULL = 7,              /* no buffer is free: commit, compact, or have readers release */
    ATTR_COMMITS_SPENT = 8,     /* 4,294,967,295 commits were made */
    ATTR_OPERATIONS_SPENT = 9,  /* 4,294,967,295 operations were applied */
    ATTR_NO_DOCUMENT = 10,      /* the document is not there at the commit */
    /* what a text asks for */
    ATTR_SYNTAX = 11,           /* it is no query and no dot product */
    ATTR_NO_FIELD = 12,         /* a name is none of the attributes */
    ATTR_WRONG_TYPE = 13,       /* a value is of another type than its attribute */
    ATTR_OUT_OF_RANGE = 14,     /* a number is outside 64 signed bits, or a text has more than 1,024 bytes */
    ATTR_TOO_DEEP = 15,         /* the query has more than 32 levels */
    /* a line of a feed */
    ATTR_NOT_JSON = 21,
    ATTR_NO_OPERATION = 22,     /* not exactly one of put, update and remove */
    ATTR_BAD_ID = 23,           /* no id that ends with a document's number */
    ATTR_BAD_VALUE = 24,        /* a field does not fit its attribute */
    ATTR_UNSUPPORTED = 25,      /* a condition, or an operator that the attribute has not */
    ATTR_TOO_MANY_ITEMS = 26,   /* more than 1,023 items */
    ATTR_LINE_TOO_LONG = 27,    /* more than 16,777,216 bytes */
    /* a save */
    ATTR_BAD_SAVE = 31,         /* the bytes are no save */
    ATTR_OTHER_SAVE = 32        /* it is of another kind or value type, or the engine has several attributes */
};

/* Copies what a code means, plain English without a final 0, and returns how many bytes that were: at most 80, and no more than
 * there is room for. */
size_t attr_message(int32_t code, uint8_t *into, size_t room);

/* The ATTR_VERSION that the library was built with. */
uint32_t attr_version(void);

/* ---- opening ---- */

/* How large an engine is. Its words are 8 * buffers * words bytes, taken at once: at most 512 MiB.
 *
 *   buffers   from 1 to 1,023; with wide from 1 to 8,191
 *   words     of each buffer, from 8,192 to 65,536; buffers * words is at most 67,108,864
 *   readers   from 0 to 64. A reader that is returned is handed out again; no more can be made later
 *   wide      0, or 1 for more and smaller buffers
 *   dense     0, or 1 to keep the documents of a frequent value as a bit vector: at least 128 documents, and at least one of 32 of
 *             all. It changes no answer; docs/QUERIES.md says when it pays. Weighted sets have no bit vectors
 *
 * 256 buffers of 8,192 words (16 MiB) hold some 25,000 documents of one small attribute beside the commits that readers hold. */
struct attr_sizes { uint32_t buffers, words, readers, wide, dense; };

/* Opens an engine without a document, of the attributes that the text names: name:kind:value each, with commas between them. The
 * kinds are single, array and weightedset, the value types long and string; names are letters, digits and _, no digit first, and
 * differ. From one to eight. For example
 *
 *     year:single:long,tags:weightedset:string
 *
 * Writes the handle's pointer to *out, which is &engine.at of an attr_engine. The engine has sizes->readers readers to hand out.
 * ATTR_ATTRIBUTES: *place is the number of the attribute, from 0, that has not this form; else it is 0. ATTR_BOUNDS, ATTR_MEMORY,
 * ATTR_NO_TEXT: nothing was opened. */
int32_t attr_open(const uint8_t *attributes, size_t length, const struct attr_sizes *sizes, void **out, uint64_t *place);

/* Closes an engine. The readers that it handed out may go on at the last commit. They are closed by attr_reader_close. The words
 * are freed with the last handle: by this call where no reader is out, else by the last attr_reader_close. */
void attr_close(attr_engine engine);

/* ---- writing: the calls of one thread ---- */

/* What such a call tells. A number that it does not name is 0. */
struct attr_told {
    uint64_t line;          /* attr_feed: the line that is refused, from 1 */
    uint64_t place;         /* where that line begins; attr_load: the field of the save that is no good */
    uint64_t next;          /* where the line behind it begins */
    uint32_t operations;    /* how many operations this call applied, the skipped ones counted; attr_commit: how many the commit has */
    uint32_t skipped;       /* how many of these changed nothing */
    uint32_t commit;        /* attr_commit: its number, from 1 */
    uint32_t width;         /* ATTR_FULL: the words of the entry for which there was no room */
    uint32_t active;        /* ATTR_FULL: how many buffers are in use */
    uint32_t held;          /* ATTR_FULL: how many wait until readers have left the commits that had them */
    uint32_t oldest;        /* ATTR_FULL, attr_commit: the reader that holds most holds this commit or a later one */
    uint32_t is_held;       /* 1 where there is such a reader, 0 where none holds anything but the last commit */
    uint32_t keys;          /* attr_compact: how many keys it visited, 0 where it emptied a buffer */
    uint32_t finished;      /* 1 where it emptied a buffer */
    uint32_t buffer;        /* which one */
};

/* Applies the operations of lines, one after another: JSON in Vespa's document format, as docs/FEED.md says. A blank line has
 * none. A feed may be of any length, and may be given in pieces that end with whole lines.
 *
 * ATTR_OK: all lines were applied. A code from 21 to 27: line told->line, the bytes from told->place up to told->next, is refused,
 * and changed nothing; the lines before it are applied. To go on without it, call again with lines + told->next; else stop.
 * ATTR_FULL, ATTR_OPERATIONS_SPENT: the same, but the line may be given again from told->place once there is room. ATTR_MEMORY: the
 * same, but it is not told whether the line is good. What was applied is seen by readers after the next commit. */
int32_t attr_feed(attr_engine *engine, const uint8_t *lines, size_t length, struct attr_told *told);

/* Commits what was applied: from then on new answers are of this commit. ATTR_FULL, ATTR_COMMITS_SPENT: there is no new commit, and
 * what was applied stays to be committed. With ATTR_OK and ATTR_FULL told->oldest and told->is_held say which commit readers hold. */
int32_t attr_commit(attr_engine *engine, struct attr_told *told);

/* Goes so many keys on in a compaction, which gathers scattered entries so that a buffer comes free; 256 keys after each commit
 * serve well. It changes no answer. An emptied buffer is free once the next commit is made and no reader holds an earlier one.
 * ATTR_OK with keys and finished 0: nothing is worth a step, or an emptied buffer waits for the next commit. ATTR_FULL, ATTR_MEMORY:
 * told->keys were visited, and the next one found no room or no memory. With ATTR_FULL the compaction is given up where it can be: its
 * buffer's free entries can be given out again, and the next call may begin another. */
int32_t attr_compact(attr_engine *engine, uint32_t keys, struct attr_told *told);

/* Puts the documents of a save in, each by a put. The engine has one attribute, of the save's kind and value type. ATTR_BAD_SAVE:
 * nothing was put in, and told->place is the offset of the first bad field. ATTR_FULL, ATTR_MEMORY, ATTR_OPERATIONS_SPENT:
 * told->operations documents were put in. */
int32_t attr_load(attr_engine *engine, const uint8_t *bytes, size_t length, struct attr_told *told);

/* Numbers for a monitor, all of the time of the call but for oldest and is_held, which the last commit or ATTR_FULL told.
 *
 * An entry that an operation drops is dead. If the last commit has it, the next commit makes it held: readers may have it. It is free,
 * and can be given out again, once a commit or a full store finds that no reader has a commit with it. The words of a buffer that
 * waits for readers are counted in none of the three. */
struct attr_numbers {
    uint64_t skipped;       /* operations that changed nothing */
    uint64_t used_words;    /* words of the buffers in use that were given out, with the few at the head of each that hold no entry */
    uint64_t dead_words;    /* those of free, dropped and held entries, which a compaction gathers */
    uint64_t held_words;    /* those of held entries */
    uint32_t operations;    /* operations applied, the skipped ones counted */
    uint32_t commit;        /* the last commit, 0 before the first */
    uint32_t committed;     /* how many operations it has */
    uint32_t oldest;        /* as in struct attr_told */
    uint32_t is_held;       /* as in struct attr_told */
    uint32_t active;        /* buffers in use */
    uint32_t held;          /* buffers that wait until readers have left the commits that had them; the others are free */
    uint32_t buffers;       /* all buffers */
    uint32_t words;         /* words of each buffer */
    uint32_t readers;       /* readers that are not handed out */
};

/* Writes the numbers to *numbers. It goes over all buffers. */
void attr_counts(attr_engine *engine, struct attr_numbers *numbers);

/* ---- readers ---- */

/* Hands a reader out: writes its pointer to *out, which is &reader.at of an attr_reader. Called by the writer's thread.
 * ATTR_NO_READER: all are handed out. ATTR_MEMORY: no reader was handed out, and none is lost. */
int32_t attr_reader_open(attr_engine *engine, void **out);

/* Takes back a reader that this engine handed out, to be handed out again; its guard is released. Called by the writer's thread, when
 * no other thread uses the reader. ATTR_LOST: the handle has no reader, or one of an engine with the other value of wide.
 * ATTR_MEMORY: there was no memory to keep the reader. With both the reader is gone, and the others are as they were. */
int32_t attr_reader_return(attr_engine *engine, attr_reader reader);

/* Gives a reader up for good. It may be called after attr_close. */
void attr_reader_close(attr_reader reader);

/* What such a call tells. A number that it does not name is 0; with ATTR_MEMORY the numbers say nothing. */
struct attr_answer {
    uint32_t commit;        /* the commit that answered, 0 before the first */
    uint32_t operations;    /* how many operations it has */
    uint64_t count;         /* how many documents, items, groups or bytes the answer has */
    uint64_t place;         /* ATTR_SYNTAX, ATTR_NO_FIELD: the offset at which the text breaks off */
};

/* Takes a guard of the last commit: until attr_release all answers of this reader are of that commit, which stays in memory. Where the
 * reader has a guard already it stays, and answer tells its commit. A guard that is kept long keeps buffers from coming free. */
int32_t attr_hold(attr_reader *reader, struct attr_answer *answer);

/* Gives the guard back. Without one nothing happens. */
int32_t attr_release(attr_reader *reader);

/* Answers what the text asks for, a query or a dot product as docs/QUERIES.md says: at the guard's commit, else at the last one. A
 * reader never answers from a commit below one that it answered from before. The reader keeps the answer until the next attr_ask that
 * is ATTR_OK. */
int32_t attr_ask(attr_reader *reader, const uint8_t *text, size_t length, struct attr_answer *answer);

/* The same, but only answer->count is told: the reader keeps the answer that it had. */
int32_t attr_count(attr_reader *reader, const uint8_t *text, size_t length, struct attr_answer *answer);

/* Copies the documents of the answer that the reader keeps, in ascending order, from number `first` on (counted from 0). Returns how many
 * were copied: as many as there are, and at most `room`. */
size_t attr_hits(attr_reader *reader, size_t first, uint32_t *into, size_t room);

/* The same of the answer to a dot product, with scores; the answer to a query has none, and 0 is returned. */
struct attr_score {
    int64_t score;          /* or the nearest int64_t */
    uint32_t document;
    uint32_t exact;         /* 1, or 0 where the score is outside 64 signed bits */
};
size_t attr_scores(attr_reader *reader, size_t first, struct attr_score *into, size_t room);

/* Reads the items that a document has in the attribute of this number (from 0, in the order of attr_open), at the guard's commit,
 * else at the last one. answer->count is how many; the reader keeps them until the next attr_items that is ATTR_OK. Those of an array
 * stand in its order, those of a weighted set ascend by value. ATTR_NO_DOCUMENT: it is not there at answer->commit. */
int32_t attr_items(attr_reader *reader, uint32_t document, uint32_t field, struct attr_answer *answer);

/* One of them, by its number from 0. ATTR_BOUNDS: there are fewer, and all that is told is 0. */
struct attr_item_told {
    int64_t number;         /* a long, else 0 */
    uint64_t length;        /* how many bytes a string has, else 0 */
    int32_t weight;         /* 1 but in a weighted set */
    uint32_t is_text;       /* 1 for a string */
};
int32_t attr_item(attr_reader *reader, size_t number, struct attr_item_told *item);

/* Copies the string of one of them, UTF-8 without a final 0. Returns how many bytes were copied, at most 1,024 and `room`. */
size_t attr_item_text(attr_reader *reader, size_t number, uint8_t *into, size_t room);

/* Saves the first attribute at the guard's commit, else at the last one, into memory that the reader keeps until the next attr_save that
 * is ATTR_OK. answer->count is how many bytes. The form is that of docs/FORMATS.md. */
int32_t attr_save(attr_reader *reader, struct attr_answer *answer);

/* Copies bytes of that save, from number `first` on, and returns how many. */
size_t attr_saved(attr_reader *reader, size_t first, uint8_t *into, size_t room);

/* ---- sorting, grouping and values in bulk ---- */

/* These calls are about the documents of the answer that the reader keeps (the last attr_ask that was ATTR_OK), or about given
 * documents, by their values at the guard's commit, else at the last one. With attr_hold before the attr_ask all of them are of one
 * commit. They keep the answer. Where another commit is read than the one that answered, a document that is no longer there has no
 * values. `field` is the number of an attribute, from 0, in the order of attr_open. `answer` tells the commit and its operations as in
 * the other calls. ATTR_BOUNDS: there is no such attribute, a flag is not 0 or 1, or lengths differ; nothing is told, and nothing is
 * written. Other errors of all are ATTR_LOST and ATTR_MEMORY. */

/* Sorts the documents of the answer by their values in an attribute, ascending or (descending 1) descending: equal values by document,
 * ascending, and documents without a value last. Of an array or a weighted set the first item counts. Copies them from number `first` on
 * (counted from 0), at most `room`; answer->count is how many were copied. */
int32_t attr_sort(attr_reader *reader, uint32_t field, uint32_t descending, size_t first, uint32_t *into, size_t room,
                  struct attr_answer *answer);

/* Adds up the numbers that the documents of the answer have in an attribute of longs; of an array or a weighted set the first item
 * counts, and strings are no numbers. Without a number, and with another code than ATTR_OK, all of *totals is 0. answer->count is
 * totals->count. */
struct attr_totals_told {
    uint64_t count;         /* how many numbers there are */
    uint64_t low;           /* their sum is high * 2^64 + low */
    int64_t high;
    int64_t least;
    int64_t greatest;
};
int32_t attr_totals(attr_reader *reader, uint32_t field, struct attr_totals_told *totals, struct attr_answer *answer);

/* Answers a dot product, as docs/QUERIES.md says, with its `room` best scores alone: the greatest first, equal ones by document.
 * answer->count is how many were copied. A text that is a query has no scores: ATTR_OK, and count is 0. The codes of a text are those of
 * attr_ask. The reader keeps the answer that it had. */
int32_t attr_best(attr_reader *reader, const uint8_t *text, size_t length, struct attr_score *into, size_t room,
                  struct attr_answer *answer);

/* Writes for each of `count` given documents the number that it has in an attribute of longs (of an array or a weighted set its first
 * item), and whether it has one: present[i] is 1 and numbers[i] the number, or both are 0. Documents may be in any order and may repeat;
 * it is fastest where they ascend. A document that does not exist has none. numbers_room and present_room are `count`, else ATTR_BOUNDS.
 * answer->count is how many documents have a number. It takes no memory. */
int32_t attr_longs(attr_reader *reader, uint32_t field, const uint32_t *documents, size_t count, int64_t *numbers, size_t numbers_room,
                   uint8_t *present, size_t present_room, struct attr_answer *answer);

/* Groups the documents of the answer by their values in an attribute: each distinct value with how many of the documents have it (a
 * document counts once for a value). By value ascending or (by_count 1) by count, the greatest first, equal counts by value. Keeps at
 * most `most` groups, the first ones, until the next attr_group or attr_terms that is ATTR_OK. answer->count is how many. */
int32_t attr_group(attr_reader *reader, uint32_t field, uint32_t by_count, size_t most, struct attr_answer *answer);

/* Finds the values of an attribute that meet a query of one comparison (docs/QUERIES.md: equality, a range or a prefix), ascending, each
 * with how many documents of the commit have it; at most `most`, the first ones. They are kept in the place of groups. answer->count is
 * how many. The codes of a text are those of attr_ask; ATTR_SYNTAX with place 0 where the text asks for more than one comparison. */
int32_t attr_terms(attr_reader *reader, const uint8_t *text, size_t length, size_t most, struct attr_answer *answer);

/* One of the kept groups, by its number from 0. ATTR_BOUNDS: there are fewer, and all that is told is 0. */
struct attr_group_told {
    int64_t number;         /* a long, else 0 */
    uint64_t length;        /* how many bytes a string has, else 0 */
    uint64_t documents;     /* how many documents have the value */
    uint32_t is_text;       /* 1 for a string */
    uint32_t zero;          /* always 0 */
};
int32_t attr_group_at(attr_reader *reader, size_t number, struct attr_group_told *group);

/* Copies the string of one of them, UTF-8 without a final 0. Returns how many bytes were copied, at most 1,024 and `room`. */
size_t attr_group_text(attr_reader *reader, size_t number, uint8_t *into, size_t room);

/* Copies the documents of the commit that are not below `first`, ascending, at most `room`; answer->count is how many were copied. */
int32_t attr_documents(attr_reader *reader, uint32_t first, uint32_t *into, size_t room, struct attr_answer *answer);

#ifdef __cplusplus
}
#endif
#endif
