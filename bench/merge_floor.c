/* The plain floor of a merge of files to files: what one writes by hand for this one schema, in memory. It reads the
   rows of runs from the very bytes that our files have, merges them by a heap, of rows of one key the newest, and
   writes files of 65,536 rows, byte for byte those of `timed-merge` of pm_cases_codecs: the checksum that it prints
   has to be the same.

   It leaves out all that a program for any table and any file does: it knows the columns, and takes a file's bytes
   as they are. It tests no number, text, key, order or bound, has no other engine, and answers no damage and no want
   of memory. With a fourth word `tested` it tests of each row what ours refuses a file for, as it reads it: the
   bounds of its block, its numbers, its text, that its key is that of its columns, and that keys rise. With `copied`
   it tests nothing, and writes a row by one copy of its bytes, though it reads its fields like the others. */
#include "merge_rows.h"

#define MOST_IN_BLOCK 1024
#define MOST_IN_FILE 65536
/* The longest row: four numbers, two short ones and a text. */
#define MOST_IN_ROW 96

static const char HEADER[] =
    "Obj\1\4\x14" "avro.codec\x08null\x16" "avro.schema\xb2\3"
    "{\"fields\":[{\"name\":\"_KEY_id\",\"type\":\"long\"},{\"name\":\"_SEQUENCE_NUMBER\",\"type\":\"long\"},"
    "{\"name\":\"_VALUE_KIND\",\"type\":\"int\"},{\"name\":\"id\",\"type\":\"long\"},"
    "{\"name\":\"v\",\"type\":[\"null\",\"string\"]}],\"name\":\"r0\",\"type\":\"record\"}";
/* With the zero byte that ends its metadata. */
#define HEADER_SIZE sizeof HEADER
#define MARKER_SIZE 16

static const uint8_t MARKER[MARKER_SIZE] = {7, 7, 7, 7, 7, 7, 7, 7, 7, 7, 7, 7, 7, 7, 7, 7};

struct row {
    int64_t key;
    int64_t number;
    int64_t kind;
    int64_t id;
    const uint8_t *text; /* NULL where it is null */
    size_t length;
};

struct bytes {
    uint8_t *at;
    size_t size;
    size_t room;
};

/* ---- numbers */

static inline uint64_t unsigned_at(const uint8_t **at) {
    const uint8_t *p = *at;
    uint64_t number = *p & 0x7f;
    int shift = 7;
    while (*p++ & 0x80) {
        number |= (uint64_t)(*p & 0x7f) << shift;
        shift += 7;
    }
    *at = p;
    return number;
}

static inline int64_t number_at(const uint8_t **at) {
    uint64_t number = unsigned_at(at);
    return (int64_t)(number >> 1) ^ -(int64_t)(number & 1);
}

static inline uint8_t *put_number(uint8_t *to, int64_t number) {
    uint64_t left = (uint64_t)number << 1 ^ (uint64_t)(number >> 63);
    while (left >= 0x80) {
        *to++ = (uint8_t)left | 0x80;
        left >>= 7;
    }
    *to++ = (uint8_t)left;
    return to;
}

/* ---- writing */

static void put(struct bytes *out, const void *from, size_t size) {
    if (out->room - out->size < size) {
        out->room = 2 * out->room + size;
        out->at = grown(out->at, out->room);
    }
    memcpy(out->at + out->size, from, size);
    out->size += size;
}

struct writer {
    struct bytes file;
    struct bytes block;
    size_t in_block;
    size_t in_file;
    struct bytes *files; /* those that are ended */
    size_t file_count;
    uint64_t rows;
};

static void end_block(struct writer *w) {
    uint8_t head[20], *end = head;
    if (!w->in_block) return;
    end = put_number(end, (int64_t)w->in_block);
    end = put_number(end, (int64_t)w->block.size);
    put(&w->file, head, (size_t)(end - head));
    put(&w->file, w->block.at, w->block.size);
    put(&w->file, MARKER, MARKER_SIZE);
    w->block.size = 0;
    w->in_block = 0;
}

static void end_file(struct writer *w) {
    static const struct bytes none;
    if (!w->in_file) return;
    end_block(w);
    w->files = grown(w->files, (w->file_count + 1) * sizeof *w->files);
    w->files[w->file_count++] = w->file;
    w->file = none;
    w->in_file = 0;
}

/* Room for a row in the block, where a file and a block with room are begun. */
static inline uint8_t *begin_row(struct writer *w, size_t most, size_t limit) {
    if (w->in_file == limit) end_file(w);
    if (w->in_block == MOST_IN_BLOCK) end_block(w);
    if (!w->in_file) {
        put(&w->file, HEADER, HEADER_SIZE);
        put(&w->file, MARKER, MARKER_SIZE);
    }
    if (w->block.room - w->block.size < most) {
        w->block.room = 2 * w->block.room + most;
        w->block.at = grown(w->block.at, w->block.room);
    }
    return w->block.at + w->block.size;
}

static inline void end_row(struct writer *w, const uint8_t *end) {
    w->block.size = (size_t)(end - w->block.at);
    w->in_block++;
    w->in_file++;
    w->rows++;
}

static inline void write_row(struct writer *w, const struct row *row, size_t limit) {
    uint8_t *to = begin_row(w, MOST_IN_ROW + row->length, limit);
    to = put_number(to, row->key);
    to = put_number(to, row->number);
    to = put_number(to, row->kind);
    to = put_number(to, row->id);
    if (row->text) {
        to = put_number(to, 1);
        to = put_number(to, (int64_t)row->length);
        memcpy(to, row->text, row->length);
        to += row->length;
    } else {
        to = put_number(to, 0);
    }
    end_row(w, to);
}

static inline void copy_row(struct writer *w, const uint8_t *from, size_t size) {
    uint8_t *to = begin_row(w, size, MOST_IN_FILE);
    memcpy(to, from, size);
    end_row(w, to + size);
}

/* ---- reading */

struct source {
    const uint8_t *at;
    const uint8_t *end;
    const uint8_t *block_end;
    size_t left; /* rows of the block in hand */
    struct row row;
    const uint8_t *begin; /* of the row */
    int64_t last; /* the key before */
};

/* What is read of the rows, and how they are written. */
enum manner { PLAIN, TESTED, COPIED };

static void must(int holds) {
    if (!holds) exit(4);
}

/* The number that stands before an end, in at most ten groups. */
static inline int64_t tested_number(const uint8_t **at, const uint8_t *end) {
    const uint8_t *p = *at;
    uint64_t number = 0;
    int shift = 0;
    for (;;) {
        must(p < end && (shift < 63 || (shift == 63 && *p < 2)));
        number |= (uint64_t)(*p & 0x7f) << shift;
        shift += 7;
        if (!(*p++ & 0x80)) break;
    }
    *at = p;
    return (int64_t)(number >> 1) ^ -(int64_t)(number & 1);
}

/* Whether bytes are UTF-8. */
static int is_text(const uint8_t *at, size_t size) {
    const uint8_t *end = at + size;
    while (at < end) {
        int more = *at < 0x80 ? 0 : *at >= 0xc2 && *at < 0xe0 ? 1 : *at >= 0xe0 && *at < 0xf0 ? 2 : 3;
        if (*at >= 0x80 && (*at < 0xc2 || *at > 0xf4 || end - at <= more)) return 0;
        if (more > 1) {
            if (*at == 0xe0 && at[1] < 0xa0) return 0;
            if (*at == 0xed && at[1] > 0x9f) return 0;
            if (*at == 0xf0 && at[1] < 0x90) return 0;
            if (*at == 0xf4 && at[1] > 0x8f) return 0;
        }
        for (at++; more; more--, at++)
            if ((*at & 0xc0) != 0x80) return 0;
    }
    return 1;
}

static inline void next_block(struct source *s, enum manner manner) {
    int64_t size;
    if (manner == TESTED) {
        int64_t count = tested_number(&s->at, s->end);
        size = tested_number(&s->at, s->end);
        must(count > 0 && size >= count && size <= s->end - s->at - MARKER_SIZE);
        must(!memcmp(s->at + size, MARKER, MARKER_SIZE));
        s->left = (size_t)count;
    } else {
        s->left = (size_t)number_at(&s->at);
        size = number_at(&s->at);
    }
    s->block_end = s->at + size;
}

static inline void read_tested(struct source *s) {
    struct row *row = &s->row;
    const uint8_t *end = s->block_end;
    int64_t length;
    row->key = tested_number(&s->at, end);
    row->number = tested_number(&s->at, end);
    must(row->number >= 0 && row->number < (int64_t)1 << 62);
    row->kind = tested_number(&s->at, end);
    must(row->kind >= 0 && row->kind < 4);
    row->id = tested_number(&s->at, end);
    must(row->id == row->key && (!s->begin || row->key > s->last));
    s->last = row->key;
    must(s->at < end && (*s->at == 0 || *s->at == 2));
    if (*s->at++) {
        length = tested_number(&s->at, end);
        must(length >= 0 && length <= end - s->at && is_text(s->at, (size_t)length));
        row->length = (size_t)length;
        row->text = s->at;
        s->at += length;
    }
}

static inline void read_plain(struct source *s) {
    struct row *row = &s->row;
    row->key = number_at(&s->at);
    row->number = number_at(&s->at);
    row->kind = number_at(&s->at);
    row->id = number_at(&s->at);
    if (number_at(&s->at)) {
        row->length = (size_t)number_at(&s->at);
        row->text = s->at;
        s->at += row->length;
    }
}

/* Makes the next row, or answers 0. */
static inline int next_row(struct source *s, enum manner manner) {
    const uint8_t *begin;
    if (!s->left) {
        if (s->begin) {
            if (manner == TESTED) must(s->at == s->block_end);
            s->at += MARKER_SIZE;
        }
        if (s->at == s->end) return 0;
        next_block(s, manner);
    }
    s->left--;
    begin = s->at;
    s->row.text = NULL;
    s->row.length = 0;
    if (manner == TESTED) read_tested(s);
    else read_plain(s);
    s->begin = begin;
    return 1;
}

/* ---- merging */

struct head {
    int64_t key;
    uint32_t run;
};

/* Of rows of one key that of the newest run comes first. */
static inline int is_before(struct head a, struct head b) {
    return a.key < b.key || (a.key == b.key && a.run > b.run);
}

static inline void sift(struct head *heap, size_t count, struct head head) {
    size_t at = 0, child;
    while ((child = 2 * at + 1) < count) {
        if (child + 1 < count && is_before(heap[child + 1], heap[child])) child++;
        if (!is_before(heap[child], head)) break;
        heap[at] = heap[child];
        at = child;
    }
    heap[at] = head;
}

/* The first run's next row takes its place in the heap. */
static inline size_t go_on(struct source *sources, struct head *heap, size_t count, enum manner manner) {
    uint32_t run = heap[0].run;
    struct head next;
    if (next_row(&sources[run], manner)) {
        next.key = sources[run].row.key;
        next.run = run;
        sift(heap, count, next);
        return count;
    }
    count--;
    if (count) sift(heap, count, heap[count]);
    return count;
}

static inline void merge_so(struct source *sources, size_t runs, struct writer *w, enum manner manner) {
    struct head *heap = grown(NULL, runs * sizeof *heap);
    size_t count = 0, i;
    for (i = 0; i < runs; i++) {
        size_t at = count;
        struct head head;
        if (!next_row(&sources[i], manner)) continue;
        head.key = sources[i].row.key;
        head.run = (uint32_t)i;
        for (; at && is_before(head, heap[(at - 1) / 2]); at = (at - 1) / 2) heap[at] = heap[(at - 1) / 2];
        heap[at] = head;
        count++;
    }
    while (count) {
        int64_t key = heap[0].key;
        struct source *first = &sources[heap[0].run];
        if (first->row.kind != 1 && first->row.kind != 3) {
            if (manner == COPIED) copy_row(w, first->begin, (size_t)(first->at - first->begin));
            else write_row(w, &first->row, MOST_IN_FILE);
        }
        do count = go_on(sources, heap, count, manner);
        while (count && heap[0].key == key);
    }
    end_file(w);
    free(heap);
}

static __attribute__((noinline)) void merge(struct source *sources, size_t runs, struct writer *w, enum manner manner) {
    switch (manner) {
    case PLAIN: merge_so(sources, runs, w, PLAIN); break;
    case TESTED: merge_so(sources, runs, w, TESTED); break;
    case COPIED: merge_so(sources, runs, w, COPIED); break;
    }
}

/* ---- the runs */

static uint32_t checksum(const struct bytes *file) {
    uint32_t sum = 0;
    size_t i;
    for (i = 0; i < file->size; i++) sum = 31 * sum + file->at[i];
    return sum;
}

static struct bytes file_of(struct plan plan, uint64_t run, int64_t *number) {
    struct writer w;
    uint64_t key;
    memset(&w, 0, sizeof w);
    for (key = 1; key <= plan.keys; key++) {
        char text[24];
        struct row row;
        if (!has_key(plan, run, key)) continue;
        row.key = row.id = (int64_t)key;
        row.number = ++*number;
        row.kind = 0;
        row.length = (size_t)snprintf(text, sizeof text, "v%lld", (long long)row.number);
        row.text = (const uint8_t *)text;
        write_row(&w, &row, SIZE_MAX);
    }
    if (!w.in_file) exit(2);
    end_file(&w);
    free(w.block.at);
    return w.files[0];
}

int main(int count, char **words) {
    const char *word = count == 5 ? words[4] : "";
    enum manner manner = !strcmp(word, "tested") ? TESTED : !strcmp(word, "copied") ? COPIED : PLAIN;
    struct plan plan = read_plan(count - (manner != PLAIN), words);
    struct source *sources = calloc(plan.runs, sizeof *sources);
    struct writer w;
    uint64_t run, read = 0, written = 0;
    uint32_t given = 0, sum = 0;
    int64_t number = 0;
    double start, passed;
    size_t i;
    if (!sources) return 3;
    memset(&w, 0, sizeof w);
    for (run = 0; run < plan.runs; run++) {
        struct bytes file = file_of(plan, run, &number);
        read += file.size;
        given = 31 * given + checksum(&file);
        sources[run].at = file.at + HEADER_SIZE + MARKER_SIZE;
        sources[run].end = file.at + file.size;
    }
    start = clock_now();
    passed = processor_now();
    merge(sources, plan.runs, &w, manner);
    passed = processor_now() - passed;
    start = clock_now() - start;
    for (i = 0; i < w.file_count; i++) {
        sum = 31 * sum + checksum(&w.files[i]);
        written += w.files[i].size;
    }
    printf("%lld rows, %llu bytes, %llu files, checksum %lu; merged %.0f ms, processor %.0f ms, "
           "%llu rows, %llu bytes, %zu files, checksum %lu\n",
           (long long)number, (unsigned long long)read, (unsigned long long)plan.runs, (unsigned long)given, start,
           passed, (unsigned long long)w.rows, (unsigned long long)written, w.file_count, (unsigned long)sum);
    return 0;
}
