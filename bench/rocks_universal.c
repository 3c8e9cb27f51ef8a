/* The rows of files of row lines in RocksDB: the rows of each file are flushed into one file of level 0, without
   compression and without a log. After each so many files it compacts as its universal style finds due, with the bounds
   that our options have as their defaults; between these it doesn't. It prints the bytes that it flushed and those that
   its compactions wrote. A key is eight bytes, the highest first, and a value the row's text. compact.sh compares it
   with ours. */
#include "row_files.h"

#include <rocksdb/c.h>
#include <string.h>
#include <time.h>

static void must(char *error) {
    if (!error) return;
    fprintf(stderr, "%s\n", error);
    exit(1);
}

static void may_compact(rocksdb_t *db, int is_allowed) {
    const char *key = "disable_auto_compactions", *value = is_allowed ? "false" : "true";
    char *error = NULL;
    rocksdb_set_options(db, 1, &key, &value, &error);
    must(error);
}

static int is_zero(rocksdb_t *db, const char *property) {
    char *value = rocksdb_property_value(db, property);
    int found = value && strcmp(value, "0") == 0;
    rocksdb_free(value);
    return found;
}

/* Compacts until nothing is due, for a tenth of a second. */
static void compact(rocksdb_t *db) {
    struct timespec while_waiting = {0, 5000000};
    int quiet;
    may_compact(db, 1);
    for (quiet = 0; quiet < 20; quiet++) {
        nanosleep(&while_waiting, NULL);
        if (!is_zero(db, "rocksdb.compaction-pending") || !is_zero(db, "rocksdb.num-running-compactions")) quiet = -1;
    }
    may_compact(db, 0);
}

static unsigned long long counted(rocksdb_options_t *options, const char *name) {
    char *all = rocksdb_options_statistics_get_string(options), *at = all ? strstr(all, name) : NULL;
    unsigned long long count = 0;
    if (!at || sscanf(at + strlen(name), " COUNT : %llu", &count) != 1) {
        fprintf(stderr, "RocksDB doesn't count %s\n", name);
        exit(1);
    }
    return count;
}

static void put(void *db, const char *key, const char *value, size_t length) {
    static rocksdb_writeoptions_t *how;
    char *error = NULL;
    if (!how) {
        how = rocksdb_writeoptions_create();
        rocksdb_writeoptions_disable_WAL(how, 1);
    }
    rocksdb_put(db, how, key, KEY, value, length, &error);
    must(error);
}

int main(int count, char **words) {
    rocksdb_options_t *options = rocksdb_options_create();
    rocksdb_universal_compaction_options_t *style = rocksdb_universal_compaction_options_create();
    rocksdb_flushoptions_t *flush = rocksdb_flushoptions_create();
    unsigned long long flushed, written;
    rocksdb_t *db;
    char *error = NULL;
    int at, each = count > 3 ? atoi(words[2]) : 0;
    if (each < 1) return 2;
    rocksdb_universal_compaction_options_set_size_ratio(style, 1);
    rocksdb_universal_compaction_options_set_max_size_amplification_percent(style, 200);
    rocksdb_options_set_compaction_style(options, rocksdb_universal_compaction);
    rocksdb_options_set_universal_compaction_options(options, style);
    rocksdb_options_set_num_levels(options, 6);
    rocksdb_options_set_level0_file_num_compaction_trigger(options, 5);
    rocksdb_options_set_create_if_missing(options, 1);
    rocksdb_options_set_error_if_exists(options, 1);
    rocksdb_options_set_compression(options, rocksdb_no_compression);
    rocksdb_options_set_disable_auto_compactions(options, 1);
    rocksdb_options_set_write_buffer_size(options, (size_t)1 << 30);
    rocksdb_options_set_level0_slowdown_writes_trigger(options, 1000);
    rocksdb_options_set_level0_stop_writes_trigger(options, 1000);
    rocksdb_options_enable_statistics(options);
    rocksdb_flushoptions_set_wait(flush, 1);
    db = rocksdb_open(options, words[1], &error);
    must(error);
    for (at = 3; at < count; at++) {
        read_rows(words[at], db, put);
        rocksdb_flush(db, flush, &error);
        must(error);
        if ((at - 2) % each == 0) compact(db);
    }
    flushed = counted(options, "rocksdb.flush.write.bytes");
    written = counted(options, "rocksdb.compact.write.bytes");
    printf("%llu %llu\n", flushed, written);
    rocksdb_close(db);
    return 0;
}
