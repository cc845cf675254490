/* Every code once, and what is left after it. */
#include "attr.h"
#include <stdio.h>
#include <stdlib.h>
#include <string.h>
#include <sys/resource.h>
#include <sys/wait.h>
#include <unistd.h>

static int failed;

static void want(const char *what, int32_t code, int32_t wanted) {
    if (code == wanted) return;
    fprintf(stderr, "refusals: %s: %d in place of %d\n", what, code, wanted);
    failed = 1;
}

static int32_t opens(const char *text, struct attr_sizes sizes, uint64_t *place) {
    attr_engine engine;
    int32_t code = attr_open((const uint8_t *)text, strlen(text), &sizes, &engine.at, place);
    if (code == ATTR_OK) attr_close(engine);
    return code;
}

static void openings(void) {
    struct attr_sizes good = {64, 8192, 1, 0, 0}, sizes;
    uint64_t place;
    want("good", opens("a:single:long", good, &place), ATTR_OK);
    want("eight", opens("a:single:long,b:array:long,c:array:string,d:weightedset:long,e:single:string,f:single:long,g:single:long,h:single:long", good, &place), ATTR_OK);
    want("nine", opens("a:single:long,b:array:long,c:array:string,d:weightedset:long,e:single:string,f:single:long,g:single:long,h:single:long,i:single:long", good, &place), ATTR_ATTRIBUTES);
    if (place != 8) failed = 1;
    want("no kind", opens("a:single:long,b:double:long", good, &place), ATTR_ATTRIBUTES);
    if (place != 1) failed = 1;
    want("no value type", opens("a:single:float", good, &place), ATTR_ATTRIBUTES);
    want("no name", opens("1a:single:long", good, &place), ATTR_ATTRIBUTES);
    want("one name twice", opens("a:single:long,a:array:long", good, &place), ATTR_ATTRIBUTES);
    want("two parts", opens("a:single", good, &place), ATTR_ATTRIBUTES);
    want("four parts", opens("a:single:long:x", good, &place), ATTR_ATTRIBUTES);
    want("nothing", opens("", good, &place), ATTR_ATTRIBUTES);
    want("no text", opens("a:\xff", good, &place), ATTR_NO_TEXT);
    sizes = good; sizes.buffers = 0; want("no buffer", opens("a:single:long", sizes, &place), ATTR_BOUNDS);
    sizes = good; sizes.buffers = 1024; want("1,024 buffers", opens("a:single:long", sizes, &place), ATTR_BOUNDS);
    sizes = good; sizes.buffers = 1024; sizes.wide = 1; want("1,024 wide buffers", opens("a:single:long", sizes, &place), ATTR_OK);
    sizes = good; sizes.buffers = 8192; sizes.wide = 1; want("8,192 wide buffers", opens("a:single:long", sizes, &place), ATTR_BOUNDS);
    sizes = good; sizes.words = 8191; want("few words", opens("a:single:long", sizes, &place), ATTR_BOUNDS);
    sizes = good; sizes.words = 65537; want("many words", opens("a:single:long", sizes, &place), ATTR_BOUNDS);
    sizes = good; sizes.words = 65536; sizes.buffers = 1023; want("one buffer less than too many", opens("a:single:long", sizes, &place), ATTR_OK);
    sizes = good; sizes.words = 65536; sizes.buffers = 1025; sizes.wide = 1; want("too many in all", opens("a:single:long", sizes, &place), ATTR_BOUNDS);
    sizes = good; sizes.readers = 65; want("65 readers", opens("a:single:long", sizes, &place), ATTR_BOUNDS);
}

/* Where 512 MiB are asked for and 256 MiB are to be had; in a process of its own, and not under valgrind or (compiled with NO_MEMORY_LIMIT)
   a sanitizer, which need more themselves. */
static void memory(void) {
#ifdef NO_MEMORY_LIMIT
    return;
#endif
    const char *preload = getenv("LD_PRELOAD");
    if (preload && strstr(preload, "vgpreload")) return;
    int status = 1;
    pid_t child = fork();
    if (child == 0) {
        struct rlimit limit = {256u << 20, 256u << 20};
        struct attr_sizes sizes = {1023, 65536, 1, 0, 0};
        uint64_t place;
        if (setrlimit(RLIMIT_AS, &limit)) _exit(2);
        _exit(opens("a:single:long", sizes, &place) != ATTR_MEMORY);
    }
    if (child < 0 || waitpid(child, &status, 0) != child || status) { fprintf(stderr, "refusals: no memory\n"); failed = 1; }
}

static int32_t feeds(attr_engine *engine, const char *lines, struct attr_told *told) {
    return attr_feed(engine, (const uint8_t *)lines, strlen(lines), told);
}

/* A good line, a bad one and a good one: the first is applied, and the third is where told.next says. */
static void bad_line(attr_engine *engine, const char *bad, int32_t wanted) {
    char lines[512];
    struct attr_told told;
    const char *good = "{\"put\":\"id:n:t::7\",\"fields\":{\"tags\":[\"x\"]}}\n";
    snprintf(lines, sizeof lines, "\n%s%s\n%s", good, bad, good);
    want(bad, feeds(engine, lines, &told), wanted);
    if (told.line != 3 || told.operations != 1 || told.place != 1 + strlen(good) || told.next != told.place + strlen(bad) + 1) failed = 1;
    want("the line behind it", feeds(engine, lines + told.next, &told), ATTR_OK);
    if (told.operations != 1) failed = 1;
}

static void lines(attr_engine *engine) {
    bad_line(engine, "{", ATTR_NOT_JSON);
    bad_line(engine, "\xff", ATTR_NOT_JSON);
    bad_line(engine, "[]", ATTR_NO_OPERATION);
    bad_line(engine, "{\"put\":\"id:n:t::0\",\"fields\":{}}", ATTR_BAD_ID);
    bad_line(engine, "{\"put\":\"id:n:t::1\"}", ATTR_BAD_VALUE);
    bad_line(engine, "{\"put\":\"id:n:t::1\",\"fields\":{\"tags\":[1]}}", ATTR_BAD_VALUE);
    bad_line(engine, "{\"update\":\"id:n:t::1\",\"fields\":{\"tags\":{\"increment\":1}}}", ATTR_UNSUPPORTED);
    bad_line(engine, "{\"remove\":\"id:n:t::1\",\"condition\":\"x\"}", ATTR_UNSUPPORTED);
    char *many = malloc(1 << 16);
    if (!many) exit(1);
    size_t n = (size_t)sprintf(many, "{\"put\":\"id:n:t::1\",\"fields\":{\"tags\":[\"x\"");
    for (int i = 0; i < 1023; i++) n += (size_t)sprintf(many + n, ",\"x\"");
    n += (size_t)sprintf(many + n, "]}}");
    struct attr_told told;
    want("1,024 items", attr_feed(engine, (const uint8_t *)many, n, &told), ATTR_TOO_MANY_ITEMS);
    free(many);
    size_t long_line = 16777217;
    many = calloc(1, long_line);
    if (!many) exit(1);
    memset(many, 'x', long_line);
    want("a line that is too long", attr_feed(engine, (const uint8_t *)many, long_line, &told), ATTR_LINE_TOO_LONG);
    free(many);
    want("no line", attr_feed(engine, (const uint8_t *)"", 0, &told), ATTR_OK);
}

static void asks(attr_engine *engine) {
    static const struct { const char *text; int32_t code; uint64_t place; } rows[] = {
        {"\"x\"", ATTR_OK, 0}, {"tags:\"x\"", ATTR_OK, 0}, {"or(\"x\",\"y\"*)", ATTR_OK, 0}, {"[;]", ATTR_OK, 0},
        {"", ATTR_SYNTAX, 0}, {"or(\"x\"", ATTR_SYNTAX, 6}, {"\"x\" ", ATTR_SYNTAX, 3}, {"other:\"x\"", ATTR_NO_FIELD, 0},
        {"5", ATTR_WRONG_TYPE, 0}, {"dot(\"x\":1)", ATTR_WRONG_TYPE, 0}, {"\xff", ATTR_NO_TEXT, 0}};
    attr_reader reader;
    struct attr_answer answer;
    uint32_t hits[4];
    want("a reader", attr_reader_open(engine, &reader.at), ATTR_OK);
    want("no second one", attr_reader_open(engine, &(attr_reader){0}.at), ATTR_NO_READER);
    for (size_t i = 0; i < sizeof rows / sizeof *rows; i++) {
        want(rows[i].text, attr_ask(&reader, (const uint8_t *)rows[i].text, strlen(rows[i].text), &answer), rows[i].code);
        if (answer.place != rows[i].place) { fprintf(stderr, "refusals: %s at %llu\n", rows[i].text, (unsigned long long)answer.place); failed = 1; }
    }
    want("the answer that was kept", (int32_t)attr_hits(&reader, 0, hits, 4), 1);
    want("hits past the end", (int32_t)attr_hits(&reader, 9, hits, 4), 0);
    want("no scores", (int32_t)attr_scores(&reader, 0, (struct attr_score[1]){{0}}, 1), 0);
    char deep[512] = "";
    for (int i = 0; i < 33; i++) strcat(deep, "or(");
    strcat(deep, "\"x\"");
    for (int i = 0; i < 33; i++) strcat(deep, ")");
    want("too deep", attr_ask(&reader, (const uint8_t *)deep, strlen(deep), &answer), ATTR_TOO_DEEP);
    char large[1100] = "\"";
    memset(large + 1, 'y', 1025);
    strcat(large, "\"");
    want("out of range", attr_ask(&reader, (const uint8_t *)large, strlen(large), &answer), ATTR_OUT_OF_RANGE);
    want("items", attr_items(&reader, 7, 0, &answer), ATTR_OK);
    want("no document", attr_items(&reader, 8, 0, &answer), ATTR_NO_DOCUMENT);
    want("document 0", attr_items(&reader, 0, 0, &answer), ATTR_BOUNDS);
    want("a document past the last", attr_items(&reader, 1048576, 0, &answer), ATTR_BOUNDS);
    want("no such attribute", attr_items(&reader, 7, 1, &answer), ATTR_BOUNDS);
    want("no such item", attr_item(&reader, 1, &(struct attr_item_told){0}), ATTR_BOUNDS);
    want("no such text", (int32_t)attr_item_text(&reader, 1, (uint8_t[8]){0}, 8), 0);
    want("release without a guard", attr_release(&reader), ATTR_OK);
    want("returned", attr_reader_return(engine, reader), ATTR_OK);
    want("and handed out again", attr_reader_open(engine, &reader.at), ATTR_OK);
    attr_reader_close(reader);
}

/* A save, loaded into another engine; and what is no such save. */
static void saves(attr_engine *engine, attr_reader *reader) {
    struct attr_answer answer;
    struct attr_told told;
    want("save", attr_save(reader, &answer), ATTR_OK);
    size_t length = (size_t)answer.count;
    uint8_t *bytes = malloc(length), *again = malloc(length);
    if (!bytes || !again) exit(1);
    size_t half = attr_saved(reader, 0, bytes, length / 2);
    if (attr_saved(reader, half, bytes + half, length) + half != length) failed = 1;
    static const char *attributes[] = {"tags:array:string", "tags:array:long", "tags:array:string,other:single:long"};
    for (int i = 0; i < 3; i++) {
        struct attr_sizes sizes = {64, 8192, 1, 1, 0};
        attr_engine other;
        attr_reader seat;
        uint64_t place;
        want("open", attr_open((const uint8_t *)attributes[i], strlen(attributes[i]), &sizes, &other.at, &place), ATTR_OK);
        want(attributes[i], attr_load(&other, bytes, length, &told), i ? ATTR_OTHER_SAVE : ATTR_OK);
        want("half a save", attr_load(&other, bytes, length - 1, &told), ATTR_BAD_SAVE);
        want("commit", attr_commit(&other, &told), ATTR_OK);
        want("a reader", attr_reader_open(&other, &seat.at), ATTR_OK);
        if (i == 0) {
            want("save again", attr_save(&seat, &answer), ATTR_OK);
            if (answer.count != length || attr_saved(&seat, 0, again, length) != length) failed = 1;
            /* the two differ in the count of operations alone, bytes 6 to 9 */
            if (memcmp(bytes, again, 6) || memcmp(bytes + 10, again + 10, length - 10)) { fprintf(stderr, "refusals: another save\n"); failed = 1; }
        }
        want("to another engine", attr_reader_return(engine, seat), ATTR_LOST);
        attr_close(other);
    }
    free(bytes);
    free(again);
}

/* A reader that keeps its guard until nothing is left: the refusal tells which commit is held, and the release brings room. */
static void full(void) {
    struct attr_sizes sizes = {24, 8192, 2, 0, 0};
    attr_engine engine;
    attr_reader reader;
    uint64_t place;
    struct attr_told told;
    struct attr_answer answer, last;
    want("open", attr_open((const uint8_t *)"n:single:long", 13, &sizes, &engine.at, &place), ATTR_OK);
    want("a reader", attr_reader_open(&engine, &reader.at), ATTR_OK);
    char line[128];
    int32_t code = ATTR_OK;
    uint32_t number = 0, held = 0;
    for (; number < 1000000 && code == ATTR_OK; number++) {
        snprintf(line, sizeof line, "{\"put\":\"id:n:t::%u\",\"fields\":{\"n\":%u}}", 1 + number % 500, number);
        code = feeds(&engine, line, &told);
        if (code == ATTR_OK && number % 50 == 49) {
            code = attr_commit(&engine, &told);
            if (code == ATTR_OK && number == 499) { want("hold", attr_hold(&reader, &answer), ATTR_OK); held = answer.commit; }
            struct attr_told step;
            if (code == ATTR_OK && number > 499) { int32_t c = attr_compact(&engine, 256, &step); if (c != ATTR_OK && c != ATTR_FULL) want("compact", c, ATTR_OK); }
        }
    }
    want("full", code, ATTR_FULL);
    if (!told.is_held || told.oldest > held || told.held == 0 || told.active == 0) {
        fprintf(stderr, "refusals: full, %u held of commit %u where a reader holds %u\n", told.held, told.oldest, held);
        failed = 1;
    }
    want("the held commit answers", attr_ask(&reader, (const uint8_t *)"[;]", 3, &last), ATTR_OK);
    if (last.commit != held || last.count != 500) failed = 1;
    want("release", attr_release(&reader), ATTR_OK);
    code = ATTR_FULL;
    for (int i = 0; i < 1000 && code == ATTR_FULL; i++) {
        struct attr_told step;
        attr_commit(&engine, &step);
        attr_compact(&engine, 256, &step);
        code = feeds(&engine, line, &told);
    }
    want("room again", code, ATTR_OK);
    printf("refusals: full after %u operations, with commit %u held\n", number, held);
    attr_reader_close(reader);
    attr_close(engine);
}

int main(void) {
    struct attr_sizes sizes = {64, 8192, 2, 0, 0};
    attr_engine engine;
    attr_reader reader;
    uint64_t place;
    struct attr_told told;
    openings();
    memory();
    want("open", attr_open((const uint8_t *)"tags:array:string", 17, &sizes, &engine.at, &place), ATTR_OK);
    want("a reader", attr_reader_open(&engine, &reader.at), ATTR_OK);
    lines(&engine);
    want("commit", attr_commit(&engine, &told), ATTR_OK);
    want("compact", attr_compact(&engine, 8, &told), ATTR_OK);
    saves(&engine, &reader);
    asks(&engine);
    full();
    for (int32_t code = 0; code < 40; code++) if (attr_message(code, (uint8_t[128]){0}, 128) > 80) failed = 1;
    if (attr_version() != ATTR_VERSION) failed = 1;
    attr_close(engine);
    struct attr_answer answer;
    want("a reader goes on after the close", attr_ask(&reader, (const uint8_t *)"\"x\"", 3, &answer), ATTR_OK);
    attr_reader_close(reader);
    if (!failed) printf("refusals: each as wanted\n");
    return failed;
}
