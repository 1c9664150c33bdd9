/* `driver SEED COUNT FOLDER`: the target of fuzz.c without libFuzzer. It is given each file of the folder as it is, and then COUNT inputs that
 * are made of the files: one of them, changed at random in one to four places, and now and then another one after it. Prints how many there
 * were, and where the target fails, the input in hexadecimal. The same seed makes the same inputs. */
#define _GNU_SOURCE
#include <dirent.h>
#include <signal.h>
#include <stdint.h>
#include <stdio.h>
#include <stdlib.h>
#include <string.h>
#include <unistd.h>

int LLVMFuzzerInitialize(int *count, char ***words);
int LLVMFuzzerTestOneInput(const uint8_t *data, size_t count);

#define MOST_FILES 100000
#define ROOM ((size_t)1 << 20)

/* The most octets that a file has which others are made of. */
#define MOST_CHANGED ((size_t)65536)

static struct {
    uint8_t *at;
    size_t count;
} files[MOST_FILES];
static size_t files_size;
static uint8_t octets[2 * ROOM];
static size_t octets_size;
static uint64_t state;

/* Prints the input that the target failed at, and ends. */
static void failed(int signal_number) {
    static const char digits[] = "0123456789abcdef";
    for (size_t i = 0; i < octets_size; i++) {
        char pair[] = {digits[octets[i] >> 4], digits[octets[i] & 15]};
        if (write(2, pair, 2) != 2)
            break;
    }
    if (write(2, "\n", 1) == 1)
        _exit(128 + signal_number);
    _exit(2);
}

static size_t random_below(size_t bound) {
    state ^= state << 13;
    state ^= state >> 7;
    state ^= state << 17;
    return (size_t)(state >> 32) % bound;
}

/* Reads a file, and tries it as it is. */
static void read_file(const char *folder, const char *name) {
    char path[4096];
    snprintf(path, sizeof path, "%s/%s", folder, name);
    FILE *file = fopen(path, "rb");
    if (file == NULL) {
        fprintf(stderr, "cannot read %s\n", path);
        exit(2);
    }
    octets_size = fread(octets, 1, sizeof octets, file);
    fclose(file);
    LLVMFuzzerTestOneInput(octets, octets_size);
    if (octets_size == 0 || octets_size > MOST_CHANGED || files_size == MOST_FILES)
        return;
    files[files_size].at = malloc(octets_size);
    if (files[files_size].at == NULL)
        exit(3);
    memcpy(files[files_size].at, octets, octets_size);
    files[files_size++].count = octets_size;
}

static int is_seen(const struct dirent *entry) {
    return entry->d_name[0] != '.';
}

/* Reads the files of a folder, in the order of their names. */
static void read_folder(const char *folder) {
    struct dirent **entries;
    int count = scandir(folder, &entries, is_seen, alphasort);
    if (count < 0) {
        fprintf(stderr, "cannot read %s\n", folder);
        exit(2);
    }
    for (int i = 0; i < count; i++) {
        read_file(folder, entries[i]->d_name);
        free(entries[i]);
    }
    free(entries);
}

/* The octets with one change: an octet, a bit, octets that are gone, doubled or in place of others, or an end. Returns how many there are. */
static size_t changed(size_t count) {
    static const uint8_t usual[] = {0x00, 0x01, 0x1b, 0x24, 0x30, 0x3b, 0x80, 0x81, 0x82, 0x83, 0x84, 0xa0, 0xbf, 0xff};
    size_t at = random_below(count), width = 1 + random_below(count - at < 16 ? count - at : 16);
    switch (random_below(8)) {
    case 0:
        octets[at] = (uint8_t)random_below(256);
        break;
    case 1:
        octets[at] ^= (uint8_t)(1 << random_below(8));
        break;
    case 2:
        memmove(octets + at, octets + at + width, count - at - width);
        return count - width;
    case 3:
        memmove(octets + at + width, octets + at, count - at);
        return count + width;
    case 4:
        memmove(octets + at, octets + random_below(count - width + 1), width);
        break;
    case 5:
        octets[at] = (uint8_t)(octets[at] + (random_below(2) ? 1 : 255));
        break;
    case 6:
        octets[at] = usual[random_below(sizeof usual)];
        break;
    default:
        if (random_below(8) == 0)
            return at;
    }
    return count;
}

/* Makes an input of the files, and returns how many octets it has. */
static size_t make_input(void) {
    size_t k = random_below(files_size), count = files[k].count;
    memcpy(octets, files[k].at, count);
    for (size_t changes = 1 + random_below(4); changes > 0 && count > 0; changes--)
        count = changed(count);
    if (random_below(8) == 0) {
        k = random_below(files_size);
        memcpy(octets + count, files[k].at, files[k].count);
        count += files[k].count;
    }
    return count;
}

int main(int words, char **names) {
    static const int faults[] = {SIGABRT, SIGSEGV, SIGBUS, SIGILL, SIGFPE};
    if (words != 4)
        return 2;
    for (size_t i = 0; i < sizeof faults / sizeof *faults; i++)
        signal(faults[i], failed);
    state = strtoull(names[1], NULL, 10) * 0x9E3779B97F4A7C15u + 1;
    unsigned long total = strtoul(names[2], NULL, 10);
    LLVMFuzzerInitialize(&words, &names);
    read_folder(names[3]);
    if (files_size == 0)
        return 2;
    for (unsigned long i = 0; i < total; i++) {
        octets_size = make_input();
        LLVMFuzzerTestOneInput(octets, octets_size);
    }
    printf("seed %s: %lu files, and %lu inputs made of them\n", names[1], (unsigned long)files_size, total);
    return 0;
}
