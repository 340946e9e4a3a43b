/* The verified menhir as a function of a library: the whole program over words, files and an input in memory. */
#ifndef MENHIR_PAGE_H
#define MENHIR_PAGE_H

#include <stddef.h>
#include <stdint.h>

/* Bytes that the caller lends: the function reads them and does not keep them. For no bytes, `len` is 0, and `bytes`
   points to any place but NULL. */
struct menhir_bytes {
    const uint8_t *bytes;
    size_t len;
};

struct menhir_file {
    struct menhir_bytes name;
    struct menhir_bytes text;
};

/* Does what the command `menhir` does with these words, where the files have these names and texts and the standard
   input is `input`. Returns the exit status.

   `out` and `err` are rooms of the given sizes. Each gets the first bytes that the program writes on the standard
   output or the standard error, as many as the room holds, and `*out_len` and `*err_len` become the numbers of all bytes
   that it writes. If a number is greater than the size of its room, call again with a larger room.

   No pointer may be NULL, also where a count or a size is 0, and no two of the places that are written (`out`,
   `out_len`, `err`, `err_len`) may overlap each other or a place that is read. */
uint8_t menhir_page(const struct menhir_bytes *words, size_t words_count, const struct menhir_file *files,
                    size_t files_count, const uint8_t *input, size_t input_len, uint8_t *out, size_t out_size,
                    uint64_t *out_len, uint8_t *err, size_t err_size, uint64_t *err_len);

#endif
