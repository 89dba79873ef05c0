/* Builds, verifies and runs an edit from C, over buffers and over files, and prints each answer. */
#include "csb.h"

#include <fcntl.h>
#include <stdio.h>
#include <string.h>
#include <unistd.h>

#define TEXT(name) (const uint8_t *)name, strlen(name)
#define NONE (const uint8_t *)"", 0

static const char dictionary[] = "[Dictionary]\nName=D\n[Level]\nName=L\n[IdItems]\n[Item]\nName=HH\nStart=1\nLen=3\n"
                                 "[Record]\nName=PERSON\nRecordLen=5\nMaxRecords=9\n[Item]\nName=AGE\nStart=4\nLen=2\n";
static const char logic[] = "PROC AGE if AGE > 98 then errmsg('household %d, age %d', HH, AGE); AGE = notappl; endif;";
static const char data[] = "00135\n00199\n002 7\n";

static uint8_t image[4096], out[64], listing[256], frequencies[64], saved[64];
static uint64_t image_length;

static unsigned run(const char *lines, size_t room, struct csb_totals *totals, struct csb_fault *fault) {
    return csb_run(TEXT(dictionary), image, image_length, NONE, TEXT(lines), out, room, listing, sizeof listing, frequencies,
                   sizeof frequencies, saved, sizeof saved, totals, fault);
}

/* A file with these bytes, from its start. */
static int file_of(const char *bytes) {
    FILE *file = tmpfile();
    fputs(bytes, file);
    fflush(file);
    lseek(fileno(file), 0, SEEK_SET);
    return fileno(file);
}

static void print_file(int file) {
    char bytes[256];
    ssize_t count = pread(file, bytes, sizeof bytes, 0);
    fwrite(bytes, 1, count < 0 ? 0 : count, stdout);
}

/* Edits a file of these lines, of which so many bytes are told. */
static void run_files(const char *lines, uint64_t length, int to, const uint8_t *decks, size_t decks_length) {
    struct csb_counts counts = {0, 0, 0};
    struct csb_fault fault = {0, 0, 0};
    int list = file_of(""), freq = file_of(""), kept = file_of("");
    unsigned number = csb_run_descriptors(TEXT(dictionary), image, image_length, decks, decks_length, file_of(lines), length, to,
                                          list, freq, kept, &counts, &fault);
    printf("%u %u %u %u\n", number, (unsigned)counts.cases, (unsigned)counts.lines, (unsigned)fault.line);
    print_file(to);
    if (number == 0) {
        print_file(list);
        print_file(kept);
    }
}

int main(void) {
    struct csb_fault fault = {0, 0, 0};
    struct csb_totals totals = {0, 0, 0, 0, 0, 0, 0};
    uint64_t case_steps = 0, run_steps = 0;
    unsigned number = csb_build(TEXT(dictionary), TEXT("PROC AGE AGE = ;"), NONE, NONE, image, sizeof image, &image_length, &fault);
    printf("%u %u %u\n", number, (unsigned)fault.line, (unsigned)fault.column);
    number = csb_build(TEXT(dictionary), TEXT(logic), NONE, NONE, image, 10, &image_length, &fault);
    printf("%u %u\n", number, (unsigned)image_length);
    number = csb_build(TEXT(dictionary), TEXT(logic), NONE, NONE, image, sizeof image, &image_length, &fault);
    printf("%u %u\n", number, (unsigned)image_length);
    number = csb_verify(TEXT(dictionary), image, image_length, &case_steps, &run_steps, &fault);
    printf("%u %u %u\n", number, (unsigned)case_steps, (unsigned)run_steps);
    number = run(data, sizeof out, &totals, &fault);
    printf("%u %u %u %u\n", number, (unsigned)totals.cases, (unsigned)totals.lines, (unsigned)totals.unseen);
    fwrite(out, 1, totals.out, stdout);
    number = run("001\xff", sizeof out, &totals, &fault);
    printf("%u %u\n", number, (unsigned)fault.line);
    number = run(data, 9, &totals, &fault);
    printf("%u %u\n", number, (unsigned)totals.out);

    /* Over files: whole; with a length that is too large, or short of the last line; with a faulty line; to a full device; from
       hot decks that are none. */
    run_files(data, strlen(data), file_of(""), NONE);
    run_files(data, strlen(data) + 1, file_of(""), NONE);
    run_files(data, 12, file_of(""), NONE);
    run_files("00135\n001\xff\n", 11, file_of(""), NONE);
    run_files(data, strlen(data), open("/dev/full", O_WRONLY), NONE);
    run_files(data, strlen(data), file_of(""), TEXT("none"));
    return 0;
}
