/* Takes row lines from standard input, as ["+I",KEY,"TEXT"], and puts them into a table of sqlite3 in one transaction:
 * a database with a write-ahead log and synchronous=FULL, a prepared statement, a key that is there is replaced. A line
 * is read by C that knows this one form: the key by strtoll, the text up to its quote, without escapes. The other side of
 * bench/write_rows.sh.
 *
 * usage: sqlite_rows DATABASE < LINES
 */
#include <sqlite3.h>
#include <stdio.h>
#include <stdlib.h>
#include <string.h>

static void must(int code, int wanted, sqlite3 *base, const char *what)
{
    if (code != wanted) {
        fprintf(stderr, "sqlite_rows: %s: %s\n", what, sqlite3_errmsg(base));
        exit(1);
    }
}

int main(int count, char **words)
{
    sqlite3 *base;
    sqlite3_stmt *put;
    char *line = NULL;
    size_t room = 0;
    ssize_t length;
    long rows = 0;

    if (count != 2)
        return 2;
    must(sqlite3_open(words[1], &base), SQLITE_OK, base, "open");
    must(sqlite3_exec(base, "pragma journal_mode = wal; pragma synchronous = full;"
                            "create table if not exists t (id integer primary key, v text);"
                            "begin immediate", NULL, NULL, NULL), SQLITE_OK, base, "begin");
    must(sqlite3_prepare_v2(base, "insert or replace into t values (?, ?)", -1, &put, NULL), SQLITE_OK, base, "prepare");
    while ((length = getline(&line, &room, stdin)) > 0) {
        char *rest, *text, *end;
        long long key;
        if (strncmp(line, "[\"+I\",", 6) != 0)
            return 1;
        key = strtoll(line + 6, &rest, 10);
        if (strncmp(rest, ",\"", 2) != 0)
            return 1;
        text = rest + 2;
        end = memchr(text, '"', length - (text - line));
        if (end == NULL || strncmp(end, "\"]\n", 3) != 0)
            return 1;
        sqlite3_bind_int64(put, 1, key);
        sqlite3_bind_text(put, 2, text, (int)(end - text), SQLITE_STATIC);
        must(sqlite3_step(put), SQLITE_DONE, base, "insert");
        sqlite3_reset(put);
        rows++;
    }
    sqlite3_finalize(put);
    must(sqlite3_exec(base, "commit", NULL, NULL, NULL), SQLITE_OK, base, "commit");
    must(sqlite3_close(base), SQLITE_OK, base, "close");
    printf("%ld rows\n", rows);
    free(line);
    return 0;
}
