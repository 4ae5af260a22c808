/* The plain loops that bench/machine_folder and bench/selftest compare the program with.
   plain read FOLDER         lists the folder and reads each file in it, in the order of their names, and the same below it
   plain write FOLDER FROM   gives the files named on standard input, a path a line, below FOLDER the bytes that they have
                             below FROM, in place; syncs each, and FOLDER; prints the seconds after reading the first
                             65,536 bytes of each in FROM: what is longer is copied piece by piece
   plain write-data FOLDER FROM   the same, where files are synced by fdatasync, as the program does, and not by fsync
   plain remove FOLDER       takes away the files named on standard input, a path a line, below FOLDER, and syncs FOLDER;
                             prints the seconds after reading the paths */
#define _GNU_SOURCE
#include <dirent.h>
#include <fcntl.h>
#include <stdio.h>
#include <stdlib.h>
#include <string.h>
#include <sys/stat.h>
#include <time.h>
#include <unistd.h>

enum { LONGEST_PATH = 4096, PIECE = 65536 };

static char piece[PIECE];

static void must(int good, const char *what) {
    if (!good) {
        perror(what);
        exit(2);
    }
}

static void read_file(const char *path) {
    int file = open(path, O_RDONLY);
    must(file >= 0, path);
    while (read(file, piece, PIECE) > 0) {
    }
    close(file);
}

static void read_folder(const char *folder) {
    struct dirent **entries;
    char path[LONGEST_PATH];
    int count = scandir(folder, &entries, NULL, alphasort);
    must(count >= 0, folder);
    for (int i = 0; i < count; i++) {
        const char *name = entries[i]->d_name;
        snprintf(path, sizeof path, "%s/%s", folder, name);
        if (entries[i]->d_type == DT_REG)
            read_file(path);
        else if (entries[i]->d_type == DT_DIR && strcmp(name, ".") && strcmp(name, ".."))
            read_folder(path);
        free(entries[i]);
    }
    free(entries);
}

struct change {
    char *path;
    char *from;
    char *bytes;
    size_t count;
};

static struct change *changes;
static size_t change_count;

static void load(const char *folder, const char *from) {
    char line[LONGEST_PATH], path[2 * LONGEST_PATH];
    while (fgets(line, sizeof line, stdin)) {
        line[strcspn(line, "\n")] = 0;
        changes = realloc(changes, (change_count + 1) * sizeof *changes);
        struct change *change = &changes[change_count++];
        snprintf(path, sizeof path, "%s/%s", from, line);
        int file = open(path, O_RDONLY);
        must(file >= 0, path);
        change->count = read(file, piece, PIECE);
        change->bytes = malloc(change->count + 1);
        memcpy(change->bytes, piece, change->count);
        close(file);
        change->from = strdup(path);
        snprintf(path, sizeof path, "%s/%s", folder, line);
        change->path = strdup(path);
    }
}

/* Writes what follows the first piece, and returns how many bytes that are. */
static off_t write_rest(int file, const struct change *change) {
    off_t written = 0;
    ssize_t count;
    int from = open(change->from, O_RDONLY);
    must(from >= 0 && lseek(from, PIECE, SEEK_SET) == PIECE, change->from);
    while ((count = read(from, piece, PIECE)) > 0) {
        must(write(file, piece, count) == count, change->path);
        written += count;
    }
    close(from);
    return written;
}

static void write_file(const struct change *change) {
    struct stat found;
    off_t size = change->count;
    int file = open(change->path, O_WRONLY | O_CREAT, 0666);
    must(file >= 0, change->path);
    must(fstat(file, &found) == 0, change->path);
    must(write(file, change->bytes, change->count) == (ssize_t)change->count, change->path);
    if (change->count == PIECE)
        size += write_rest(file, change);
    if (found.st_size > size)
        must(ftruncate(file, size) == 0, change->path);
    close(file);
}

static void sync_path(const char *path, int (*sync_open)(int)) {
    int file = open(path, O_RDONLY);
    must(file >= 0 && sync_open(file) == 0, path);
    close(file);
}

static double now(void) {
    struct timespec time;
    clock_gettime(CLOCK_MONOTONIC, &time);
    return time.tv_sec + time.tv_nsec / 1e9;
}

/* The paths on standard input, below the folder. */
static void load_paths(const char *folder) {
    char line[LONGEST_PATH], path[2 * LONGEST_PATH];
    while (fgets(line, sizeof line, stdin)) {
        line[strcspn(line, "\n")] = 0;
        changes = realloc(changes, (change_count + 1) * sizeof *changes);
        snprintf(path, sizeof path, "%s/%s", folder, line);
        changes[change_count++].path = strdup(path);
    }
}

int main(int count, char **words) {
    if (count == 3 && !strcmp(words[1], "read")) {
        read_folder(words[2]);
    } else if (count == 4 && (!strcmp(words[1], "write") || !strcmp(words[1], "write-data"))) {
        int (*sync_file)(int) = strcmp(words[1], "write") ? fdatasync : fsync;
        load(words[2], words[3]);
        double start = now();
        for (size_t i = 0; i < change_count; i++)
            write_file(&changes[i]);
        for (size_t i = 0; i < change_count; i++)
            sync_path(changes[i].path, sync_file);
        sync_path(words[2], fsync);
        printf("%.6f\n", now() - start);
    } else if (count == 3 && !strcmp(words[1], "remove")) {
        load_paths(words[2]);
        double start = now();
        for (size_t i = 0; i < change_count; i++)
            must(unlink(changes[i].path) == 0, changes[i].path);
        sync_path(words[2], fsync);
        printf("%.6f\n", now() - start);
    } else {
        return 2;
    }
    return 0;
}
