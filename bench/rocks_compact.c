/* The rows of timed-merge in RocksDB: each run is one file of level 0, without compression and without a log, and
   none is compacted until all stand there. Then the whole range is compacted, and what that alone takes is printed,
   on the clock and of all its threads. A key is eight bytes, the highest first, and a value the row's text.
   merges.sh compares it with ours. */
#include "merge_rows.h"

#include <rocksdb/c.h>

static void must(char *error) {
    if (!error) return;
    fprintf(stderr, "%s\n", error);
    exit(1);
}

static void put_run(rocksdb_t *db, rocksdb_writeoptions_t *how, struct plan plan, uint64_t run, uint64_t *number) {
    char *error = NULL;
    uint64_t key;
    for (key = 1; key <= plan.keys; key++) {
        char bytes[8], text[24];
        int i, length;
        if (!has_key(plan, run, key)) continue;
        for (i = 0; i < 8; i++) bytes[i] = (char)(key >> (56 - 8 * i));
        length = snprintf(text, sizeof text, "v%llu", (unsigned long long)++*number);
        rocksdb_put(db, how, bytes, sizeof bytes, text, (size_t)length, &error);
        must(error);
    }
}

static uint64_t count_rows(rocksdb_t *db) {
    rocksdb_readoptions_t *how = rocksdb_readoptions_create();
    rocksdb_iterator_t *rows = rocksdb_create_iterator(db, how);
    uint64_t count = 0;
    for (rocksdb_iter_seek_to_first(rows); rocksdb_iter_valid(rows); rocksdb_iter_next(rows)) count++;
    rocksdb_iter_destroy(rows);
    rocksdb_readoptions_destroy(how);
    return count;
}

static char *of_db(rocksdb_t *db, const char *what) {
    char *value = rocksdb_property_value(db, what);
    return value ? value : "unknown";
}

int main(int count, char **words) {
    struct plan plan = read_plan(count - 1, words);
    rocksdb_options_t *options = rocksdb_options_create();
    rocksdb_writeoptions_t *how = rocksdb_writeoptions_create();
    rocksdb_flushoptions_t *flush = rocksdb_flushoptions_create();
    rocksdb_t *db;
    char *error = NULL, *files, *size;
    uint64_t run, number = 0;
    double start, passed;
    rocksdb_options_set_create_if_missing(options, 1);
    rocksdb_options_set_error_if_exists(options, 1);
    rocksdb_options_set_compression(options, rocksdb_no_compression);
    rocksdb_options_set_disable_auto_compactions(options, 1);
    rocksdb_options_set_write_buffer_size(options, (size_t)1 << 30);
    rocksdb_options_set_level0_slowdown_writes_trigger(options, 1000);
    rocksdb_options_set_level0_stop_writes_trigger(options, 1000);
    rocksdb_writeoptions_disable_WAL(how, 1);
    rocksdb_flushoptions_set_wait(flush, 1);
    db = rocksdb_open(options, words[4], &error);
    must(error);
    for (run = 0; run < plan.runs; run++) {
        put_run(db, how, plan, run, &number);
        rocksdb_flush(db, flush, &error);
        must(error);
    }
    files = of_db(db, "rocksdb.num-files-at-level0");
    size = of_db(db, "rocksdb.total-sst-files-size");
    printf("%llu rows, %s bytes in %s files; ", (unsigned long long)number, size, files);
    start = clock_now();
    passed = processor_now();
    rocksdb_compact_range(db, NULL, 0, NULL, 0);
    passed = processor_now() - passed;
    start = clock_now() - start;
    files = of_db(db, "rocksdb.num-files-at-level0");
    size = of_db(db, "rocksdb.live-sst-files-size");
    printf("merged %.0f ms, processor %.0f ms; %llu rows, %s bytes, %s files left at level 0\n", start, passed,
           (unsigned long long)count_rows(db), size, files);
    rocksdb_close(db);
    return 0;
}
