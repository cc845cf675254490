/* The job over LMDB in /dev/shm, without syncing: a table of documents, and one of the documents of each number. */
#include "job.h"
#include <lmdb.h>
#include <unistd.h>

static MDB_env *env;
static MDB_dbi docs, post;
struct seat { MDB_txn *txn; MDB_cursor *cursor; };

static void must(int code) { if (code) { fprintf(stderr, "lmdb: %s\n", mdb_strerror(code)); exit(1); } }

static void store_open(int readers) {
    char folder[] = "/dev/shm/embed-lmdb-XXXXXX", file[64];
    (void)readers;
    if (!mkdtemp(folder)) exit(1);
    must(mdb_env_create(&env));
    must(mdb_env_set_maxdbs(env, 4));
    must(mdb_env_set_mapsize(env, (size_t)4 << 30));
    must(mdb_env_open(env, folder, MDB_NOSYNC | MDB_WRITEMAP | MDB_NOTLS | MDB_NORDAHEAD, 0600));
    /* the files go with the process */
    snprintf(file, sizeof file, "%s/data.mdb", folder); unlink(file);
    snprintf(file, sizeof file, "%s/lock.mdb", folder); unlink(file);
    rmdir(folder);
    MDB_txn *txn;
    must(mdb_txn_begin(env, NULL, 0, &txn));
    must(mdb_dbi_open(txn, "docs", MDB_CREATE | MDB_INTEGERKEY, &docs));
    must(mdb_dbi_open(txn, "post", MDB_CREATE | MDB_INTEGERKEY | MDB_DUPSORT | MDB_DUPFIXED | MDB_INTEGERDUP, &post));
    must(mdb_txn_commit(txn));
}

static void store_batch(uint64_t from, uint64_t to) {
    MDB_txn *txn;
    must(mdb_txn_begin(env, NULL, 0, &txn));
    for (uint64_t i = from; i <= to; i++) {
        uint32_t document = document_of(i);
        uint64_t number = (uint64_t)number_of(i), before;
        MDB_val key = {sizeof document, &document}, value, entry = {sizeof document, &document};
        if (!mdb_get(txn, docs, &key, &value)) {
            memcpy(&before, value.mv_data, sizeof before);
            if (before == number) continue;
            MDB_val old = {sizeof before, &before};
            must(mdb_del(txn, post, &old, &entry));
        }
        MDB_val new = {sizeof number, &number};
        must(mdb_put(txn, docs, &key, &new, 0));
        must(mdb_put(txn, post, &new, &entry, 0));
    }
    must(mdb_txn_commit(txn));
}

static void *reader_new(void) {
    struct seat *seat = calloc(1, sizeof *seat);
    if (!seat) exit(1);
    must(mdb_txn_begin(env, NULL, MDB_RDONLY, &seat->txn));
    must(mdb_cursor_open(seat->txn, post, &seat->cursor));
    mdb_txn_reset(seat->txn);
    return seat;
}

static size_t reader_ask(void *reader, int64_t number, uint32_t *into, size_t room) {
    struct seat *seat = reader;
    uint64_t wanted = (uint64_t)number;
    MDB_val key = {sizeof wanted, &wanted}, value;
    size_t count = 0;
    must(mdb_txn_renew(seat->txn));
    must(mdb_cursor_renew(seat->txn, seat->cursor));
    int code = mdb_cursor_get(seat->cursor, &key, &value, MDB_SET);
    if (!code) code = mdb_cursor_get(seat->cursor, &key, &value, MDB_GET_MULTIPLE);
    for (; !code; code = mdb_cursor_get(seat->cursor, &key, &value, MDB_NEXT_MULTIPLE)) {
        size_t n = value.mv_size / sizeof *into;
        if (n > room - count) n = room - count;
        memcpy(into + count, value.mv_data, n * sizeof *into);
        count += n;
    }
    if (code != MDB_NOTFOUND) must(code);
    mdb_txn_reset(seat->txn);
    return count;
}
