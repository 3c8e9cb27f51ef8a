// The rows of files of row lines in LevelDB: the rows of each file are flushed into one table, without compression, and
// it compacts in the background as it finds due. It prints the bytes that it flushed and those that its compactions
// wrote, by the tables that it makes. compact.sh compares it with ours.
#include "row_files.h"

#include <atomic>
#include <chrono>
#include <leveldb/db.h>
#include <leveldb/env.h>
#include <string>
#include <thread>

namespace {

std::atomic<unsigned long long> written{0};  // bytes of tables

class Counted : public leveldb::WritableFile {
 public:
    explicit Counted(leveldb::WritableFile *file) : file_(file) {}
    ~Counted() override { delete file_; }
    leveldb::Status Append(const leveldb::Slice &data) override {
        written += data.size();
        return file_->Append(data);
    }
    leveldb::Status Close() override { return file_->Close(); }
    leveldb::Status Flush() override { return file_->Flush(); }
    leveldb::Status Sync() override { return file_->Sync(); }

 private:
    leveldb::WritableFile *file_;
};

class Counting : public leveldb::EnvWrapper {
 public:
    Counting() : leveldb::EnvWrapper(leveldb::Env::Default()) {}
    leveldb::Status NewWritableFile(const std::string &name, leveldb::WritableFile **file) override {
        leveldb::Status status = target()->NewWritableFile(name, file);
        if (status.ok() && name.size() > 4 && name.compare(name.size() - 4, 4, ".ldb") == 0) *file = new Counted(*file);
        return status;
    }
};

void must(const leveldb::Status &status) {
    if (status.ok()) return;
    fprintf(stderr, "%s\n", status.ToString().c_str());
    exit(1);
}

void put(void *store, const char *key, const char *value, size_t length) {
    auto *db = static_cast<leveldb::DB *>(store);
    must(db->Put(leveldb::WriteOptions(), leveldb::Slice(key, KEY), leveldb::Slice(value, length)));
}

// Waits until nothing was written for a while.
void wait() {
    unsigned long long seen = written + 1;
    while (seen != written) {
        seen = written;
        std::this_thread::sleep_for(std::chrono::milliseconds(300));
    }
}

// The bytes of one table with the rows of a file.
unsigned long long table_of(leveldb::Options options, const std::string &folder, const char *rows) {
    leveldb::DB *db = nullptr;
    const std::string end(KEY + 1, '\xff');
    const leveldb::Slice after(end);
    const unsigned long long before = written;
    must(leveldb::DB::Open(options, folder, &db));
    read_rows(rows, db, put);
    db->CompactRange(&after, &after);  // no key is there, so it only flushes
    delete db;
    return written - before;
}

}  // namespace

int main(int count, char **words) {
    if (count < 3) return 2;
    static Counting env;
    leveldb::Options options;
    leveldb::DB *db = nullptr;
    const std::string end(KEY + 1, '\xff');
    const leveldb::Slice after(end);
    unsigned long long flushed = 0;
    options.env = &env;
    options.create_if_missing = true;
    options.error_if_exists = true;
    options.compression = leveldb::kNoCompression;
    options.write_buffer_size = 256 << 20;
    for (int at = 2; at < count; at++) {
        flushed += table_of(options, std::string(words[1]) + ".one", words[at]);
        must(leveldb::DestroyDB(std::string(words[1]) + ".one", options));
    }
    written = 0;
    must(leveldb::DB::Open(options, words[1], &db));
    for (int at = 2; at < count; at++) {
        read_rows(words[at], db, put);
        db->CompactRange(&after, &after);
    }
    wait();
    printf("%llu %llu\n", flushed, written - flushed);
    delete db;
    return 0;
}
