/* csbatch from C: logic is built, images are verified, and data are edited, from buffers to buffers or over descriptors.
 *
 * Each call takes any bytes and answers 0, or a number: CSB_ROOM where a buffer is too small (what did not fit was not put, and
 * the length says how many bytes it needs), or a number of docs/FAULTS.md, of which `fault` has the place. After such a number
 * all else is as it was, but for files. A pointer is never null, also where its length is 0, and what is written overlaps nothing
 * else. The calls ask malloc, realloc and free for memory, and give back all of it. None starts a thread or ends the process. None
 * waits, but for a read or a write of a descriptor. Link libcse_ffi.a, and liblibc_c.a of the toolchain.
 */
#ifndef CSB_H
#define CSB_H
#include <stddef.h>
#include <stdint.h>

#define CSB_ROOM 1

/* Line and column count from 1; 0 where the number knows of none. */
struct csb_fault {
    uint32_t number;
    uint64_t line;
    uint64_t column;
};

/* What a run counted. */
struct csb_counts {
    uint64_t cases, lines, unseen;
};

/* The same, and the bytes of each output. */
struct csb_totals {
    uint64_t cases, lines, unseen;
    uint64_t out, listing, frequencies, decks;
};

/* The image of logic (10 to 18, 30 to 49, 64, 67, 90). Empty messages and an empty order are none. */
uint32_t csb_build(const uint8_t *dictionary, size_t dictionary_length, const uint8_t *logic, size_t logic_length,
                   const uint8_t *messages, size_t messages_length, const uint8_t *order, size_t order_length,
                   uint8_t *image, size_t image_room, uint64_t *image_length, struct csb_fault *fault);

/* Whether an image may run with a dictionary (10 to 18, 60 to 69, 90), and the most steps of a case and of the run's own events. */
uint32_t csb_verify(const uint8_t *dictionary, size_t dictionary_length, const uint8_t *image, size_t image_length,
                    uint64_t *case_steps, uint64_t *run_steps, struct csb_fault *fault);

/* The outputs of a run over data (10 to 22, 50 to 53, 60 to 70, 90; 70 beyond 2^40 bytes). Empty decks are none. */
uint32_t csb_run(const uint8_t *dictionary, size_t dictionary_length, const uint8_t *image, size_t image_length,
                 const uint8_t *decks, size_t decks_length, const uint8_t *data, size_t data_length,
                 uint8_t *out, size_t out_room, uint8_t *listing, size_t listing_room,
                 uint8_t *frequencies, size_t frequencies_room, uint8_t *saved, size_t saved_room,
                 struct csb_totals *totals, struct csb_fault *fault);

/* The same over descriptors: the next data_length bytes of `data` are edited, and the outputs are written behind what the others
 * have. 70 where `data` gives fewer bytes or fails, 71 where an output takes less than all. A call that a signal interrupts counts
 * as failed, and SIGPIPE is the caller's to ignore. One run of lines is held in memory. The outputs of a run that stopped hold
 * fronts of their texts: give them temporary names. No descriptor is closed. */
uint32_t csb_run_descriptors(const uint8_t *dictionary, size_t dictionary_length, const uint8_t *image, size_t image_length,
                             const uint8_t *decks, size_t decks_length, int32_t data, uint64_t data_length,
                             int32_t out, int32_t listing, int32_t frequencies, int32_t saved,
                             struct csb_counts *counts, struct csb_fault *fault);
#endif
