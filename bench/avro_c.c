/* Writes the records of 1,000,000 rows with avro-c to the file that it is given, reads them again, and says how long each
   took. run_files.sh compares it with ours. */
#include <avro.h>
#include <stdio.h>
#include <string.h>
#include <time.h>

#define ROWS 1000000

static const char *const SCHEMA =
    "{\"type\":\"record\",\"name\":\"r0\",\"fields\":[{\"name\":\"_KEY_id\",\"type\":\"long\"},"
    "{\"name\":\"_SEQUENCE_NUMBER\",\"type\":\"long\"},{\"name\":\"_VALUE_KIND\",\"type\":\"int\"},"
    "{\"name\":\"id\",\"type\":\"long\"},{\"name\":\"v\",\"type\":[\"null\",\"string\"]}]}";

static double now(void) {
    struct timespec t;
    clock_gettime(CLOCK_MONOTONIC, &t);
    return (double)t.tv_sec * 1e3 + (double)t.tv_nsec / 1e6;
}

static char texts[ROWS][16];
static int lengths[ROWS];

static int set_row(avro_value_t *row, long id) {
    avro_value_t field, branch;
    if (avro_value_get_by_index(row, 0, &field, NULL) || avro_value_set_long(&field, id)) return 1;
    if (avro_value_get_by_index(row, 1, &field, NULL) || avro_value_set_long(&field, id)) return 1;
    if (avro_value_get_by_index(row, 2, &field, NULL) || avro_value_set_int(&field, 0)) return 1;
    if (avro_value_get_by_index(row, 3, &field, NULL) || avro_value_set_long(&field, id)) return 1;
    if (avro_value_get_by_index(row, 4, &field, NULL) || avro_value_set_branch(&field, 1, &branch)) return 1;
    return avro_value_set_string_len(&branch, texts[id], (size_t)lengths[id] + 1);
}

int main(int count, char **words) {
    avro_schema_t schema;
    avro_file_writer_t writer;
    avro_file_reader_t reader;
    avro_value_t row;
    double start;
    long id, read = 0;
    if (count != 2) return 2;
    if (avro_schema_from_json_length(SCHEMA, strlen(SCHEMA), &schema)) return 1;
    for (id = 0; id < ROWS; id++) lengths[id] = snprintf(texts[id], sizeof texts[id], "value-%ld", id);
    avro_value_iface_t *iface = avro_generic_class_from_schema(schema);
    avro_generic_value_new(iface, &row);
    start = now();
    if (avro_file_writer_create(words[1], schema, &writer)) return 1;
    for (id = 0; id < ROWS; id++) {
        avro_value_reset(&row);
        if (set_row(&row, id) || avro_file_writer_append_value(writer, &row)) return 1;
    }
    avro_file_writer_close(writer);
    printf("written %.0f ms\n", now() - start);
    start = now();
    if (avro_file_reader(words[1], &reader)) return 1;
    while (avro_file_reader_read_value(reader, &row) == 0) read++;
    avro_file_reader_close(reader);
    printf("read %.0f ms %ld\n", now() - start, read);
    return 0;
}
