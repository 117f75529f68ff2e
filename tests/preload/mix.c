/* Makes what a power failure may leave of a file.
 *
 *   mix SYNCED WRITTEN LEFT SEED
 *
 * SYNCED has the bytes of its last sync, and WRITTEN those that were written since. LEFT gets each byte from the one or
 * from the other, by chance. Behind the end of SYNCED it gets any bytes, and any number of them up to the end of WRITTEN.
 *
 *   mix SYNCED WRITTEN LEFT lost MASK
 *
 * LEFT gets WRITTEN, without some of the bytes that SYNCED has otherwise: the first of these is lost if the lowest bit of
 * MASK is set, the second one if the next bit is, and so on. */
#include <stdio.h>
#include <stdlib.h>
#include <string.h>

static unsigned char synced[1 << 24], written[1 << 24];

static size_t bytes_of(const char *name, unsigned char *bytes, size_t most) {
    FILE *file = fopen(name, "rb");
    if (!file) {
        perror(name);
        exit(2);
    }
    size_t size = fread(bytes, 1, most, file);
    fclose(file);
    return size;
}

/* Takes the bytes of the mask back to those of the last sync. */
static void lose(size_t old, size_t now, unsigned long mask) {
    for (size_t at = 0; at < old && at < now && mask != 0; at++) {
        if (synced[at] == written[at]) continue;
        if (mask & 1) written[at] = synced[at];
        mask >>= 1;
    }
}

/* Makes a file of bytes. */
static int made(const char *name, const unsigned char *bytes, size_t size) {
    FILE *file = fopen(name, "wb");
    if (!file) {
        perror(name);
        return 2;
    }
    size_t put = fwrite(bytes, 1, size, file);
    return fclose(file) || put != size ? 2 : 0;
}

int main(int count, char **words) {
    int is_masked = count == 6 && strcmp(words[4], "lost") == 0;
    if (count != 5 && !is_masked) {
        fprintf(stderr, "mix SYNCED WRITTEN LEFT SEED, or mix SYNCED WRITTEN LEFT lost MASK\n");
        return 2;
    }
    size_t old = bytes_of(words[1], synced, sizeof synced), now = bytes_of(words[2], written, sizeof written);
    if (is_masked) {
        lose(old, now, strtoul(words[5], NULL, 10));
        return made(words[3], written, now);
    }
    srandom((unsigned)atol(words[4]));
    int of_old = (int)(random() % 101);
    size_t size = now > old ? old + (size_t)random() % (now - old + 1) : old;
    FILE *left = fopen(words[3], "wb");
    if (!left) {
        perror(words[3]);
        return 2;
    }
    for (size_t at = 0; at < size; at++) {
        int byte = at >= old ? (int)(random() & 255) : random() % 100 < of_old ? synced[at] : written[at];
        fputc(byte, left);
    }
    return fclose(left) ? 2 : 0;
}
