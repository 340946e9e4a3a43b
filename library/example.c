/* The command `menhir` by the library: the words are those of the command line, each word that names a file gives this
   file, and the input is the standard input. */
#include "menhir_page.h"

#include <stdio.h>
#include <stdlib.h>
#include <string.h>

/* Gives the memory another size, or ends the program as `menhir` does if there is none. */
static uint8_t *resized(uint8_t *memory, size_t size) {
    uint8_t *new = realloc(memory, size);
    if (!new) {
        fputs("menhir: out of memory\n", stderr);
        exit(6);
    }
    return new;
}

static struct menhir_bytes read_all(FILE *stream) {
    size_t len = 0, count;
    uint8_t *bytes = NULL;
    do {
        bytes = resized(bytes, len + 65536);
        count = fread(bytes + len, 1, 65536, stream);
        len += count;
    } while (count > 0);
    return (struct menhir_bytes){bytes, len};
}

/* Reads the file, if there is one and it is not read yet, and returns the number of files. */
static size_t add_file(struct menhir_file *files, size_t count, struct menhir_bytes name) {
    for (size_t i = 0; i < count; i++) {
        if (strcmp((const char *)files[i].name.bytes, (const char *)name.bytes) == 0) {
            return count;
        }
    }
    FILE *stream = fopen((const char *)name.bytes, "rb");
    if (!stream) {
        return count;
    }
    files[count] = (struct menhir_file){name, read_all(stream)};
    fclose(stream);
    return count + 1;
}

int main(int argc, char **argv) {
    struct menhir_bytes words[argc], input = read_all(stdin);
    struct menhir_file files[argc];
    size_t files_count = 0, out_size = 4096, err_size = 4096;
    uint64_t out_len = out_size, err_len = err_size;
    uint8_t *out = NULL, *err = NULL, status;
    for (int i = 1; i < argc; i++) {
        words[i - 1] = (struct menhir_bytes){(const uint8_t *)argv[i], strlen(argv[i])};
        files_count = add_file(files, files_count, words[i - 1]);
    }
    do {
        out_size = out_len > out_size ? out_len : out_size;
        err_size = err_len > err_size ? err_len : err_size;
        out = resized(out, out_size);
        err = resized(err, err_size);
        status = menhir_page(words, argc - 1, files, files_count, input.bytes, input.len, out, out_size, &out_len, err,
                             err_size, &err_len);
    } while (out_len > out_size || err_len > err_size);
    fwrite(out, 1, out_len, stdout);
    fwrite(err, 1, err_len, stderr);
    return status;
}
