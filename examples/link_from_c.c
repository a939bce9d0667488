/* A whole program that links the archive from C: it reads a JEDEC text, reads and sets a setting, writes the text
   again and makes the readout. link_from_c TEXT NEW_TEXT; the part has two function blocks and the small class. */
#include <stdio.h>
#include <stdlib.h>
#include <string.h>

#include "xc9500.h"

enum { BLOCKS = 2, CLASS = XC9500_SMALL };

/* The result in the word of a call; a refusal ends the program. */
static uint64_t result(const char *call, uint64_t word)
{
    if (xc9500_refusal(word) != XC9500_ACCEPTED) {
        fprintf(stderr, "%s: refused %u, value %llu\n", call, (unsigned)xc9500_refusal(word),
                (unsigned long long)xc9500_result(word));
        exit(1);
    }
    return xc9500_result(word);
}

static void must(int good, const char *what)
{
    if (!good) {
        fprintf(stderr, "%s\n", what);
        exit(1);
    }
}

static uint8_t *bytes(size_t count)
{
    uint8_t *start = calloc(count, 1);
    must(start != NULL, "there is not enough memory");
    return start;
}

static void report(const char *what, const uint8_t *image, size_t image_len)
{
    uint64_t zero = result("zero_count", xc9500_zero_count(BLOCKS, CLASS, image, image_len));
    uint64_t sum = result("fuse_sum", xc9500_fuse_sum(BLOCKS, CLASS, image, image_len));
    printf("%s: zero %llu, sum %04llX\n", what, (unsigned long long)zero, (unsigned long long)sum);
}

/* The header's numbers are those of the largest device. */
static void largest_sizes(void)
{
    must(xc9500_fuse_count(16, XC9500_LARGE) == XC9500_MOST_FUSES, "another fuse count");
    must(xc9500_image_bytes(16, XC9500_LARGE) == XC9500_MOST_IMAGE_BYTES, "another image size");
    must(xc9500_readout_bytes(16, XC9500_LARGE) == XC9500_MOST_READOUT_BYTES, "another readout size");
    must(xc9500_text_bytes(16, XC9500_LARGE) == XC9500_MOST_TEXT_BYTES, "another text size");
}

int main(int argc, char **argv)
{
    static uint8_t text[XC9500_LONGEST_TEXT + 1]; /* one byte more, so that a text that is too long is refused */
    must(argc == 3, "usage: link_from_c TEXT NEW_TEXT");

    /* The sizes of the device. */
    largest_sizes();
    size_t image_len = (size_t)result("image_bytes", xc9500_image_bytes(BLOCKS, CLASS));
    size_t readout_len = (size_t)result("readout_bytes", xc9500_readout_bytes(BLOCKS, CLASS));
    uint8_t *image = bytes(image_len), *second = bytes(image_len), *readout = bytes(readout_len);

    /* Text to image. */
    FILE *file = fopen(argv[1], "rb");
    must(file != NULL, "the text cannot be opened");
    size_t length = fread(text, 1, sizeof text, file);
    must(!ferror(file) && fclose(file) == 0, "the text cannot be read");
    result("text_to_image", xc9500_text_to_image(BLOCKS, CLASS, text, length, image, image_len));
    report("read", image, image_len);

    /* Fuse 3138 has an address and a bit, and they have that fuse. */
    xc9500_fuse fuse = xc9500_fuse_from(3138);
    uint64_t word = xc9500_address_of_fuse(BLOCKS, CLASS, fuse);
    result("address_of_fuse", word);
    xc9500_address address = xc9500_result_address(word);
    uint32_t bit = xc9500_result_bit(word);
    printf("fuse %u: address %u, bit %u\n", (unsigned)fuse.number, (unsigned)address.number, (unsigned)bit);
    word = xc9500_fuse_of_address(BLOCKS, CLASS, address, bit);
    result("fuse_of_address", word);
    must(xc9500_result_fuse(word).number == fuse.number, "the address has another fuse");

    /* The setting that has this fuse, by its number: OE_MUX of macrocell 0 of block 0. */
    uint64_t named = result("setting_at_fuse", xc9500_setting_at_fuse(BLOCKS, CLASS, fuse));
    must(named != XC9500_NONE, "no setting has the fuse");
    uint32_t setting = xc9500_result_setting(named);
    uint64_t pattern = result("read_in_image", xc9500_read_in_image(BLOCKS, CLASS, image, image_len, setting));
    printf("setting %u: pattern %llu\n", (unsigned)setting, (unsigned long long)pattern);

    /* The fuse of each of its bits, lowest first, and the address and the bit where a probe finds it. */
    for (uint32_t i = 0;; i++) {
        word = xc9500_setting_fuse(BLOCKS, CLASS, setting, i);
        if (result("setting_fuse", word) == XC9500_NONE) {
            break;
        }
        printf("bit %u: fuse %u, address %u, bit %u\n", (unsigned)i, (unsigned)xc9500_result_setting_fuse(word).number,
               (unsigned)xc9500_result_address(word).number, (unsigned)xc9500_result_bit(word));
    }

    /* It has three bits: 7 is a pattern of it, and 8 is refused and changes nothing. */
    result("set_in_image", xc9500_set_in_image(BLOCKS, CLASS, image, image_len, setting, 7));
    report("set to 7", image, image_len);
    word = xc9500_set_in_image(BLOCKS, CLASS, image, image_len, setting, 8);
    printf("set to 8: refused %u\n", (unsigned)xc9500_refusal(word));

    /* Image to text, and that text to an image. */
    length = (size_t)result("image_to_text", xc9500_image_to_text(BLOCKS, CLASS, image, image_len, text, sizeof text));
    must(length == result("text_bytes", xc9500_text_bytes(BLOCKS, CLASS)), "the new text has another size");
    file = fopen(argv[2], "wb");
    must(file != NULL, "the new text cannot be opened");
    must(fwrite(text, 1, length, file) == length && fclose(file) == 0, "the new text cannot be written");
    result("text_to_image", xc9500_text_to_image(BLOCKS, CLASS, text, length, second, image_len));
    must(memcmp(image, second, image_len) == 0, "the new text is of another image");
    printf("new text: %zu bytes\n", length);

    /* Image to readout, where the setting reads the same. */
    result("image_to_readout", xc9500_image_to_readout(BLOCKS, CLASS, image, image_len, readout, readout_len));
    pattern = result("read_in_readout", xc9500_read_in_readout(BLOCKS, CLASS, readout, readout_len, setting));
    printf("readout: %zu bytes, pattern %llu\n", readout_len, (unsigned long long)pattern);
    must(fflush(stdout) == 0, "the report cannot be written");
    free(image);
    free(second);
    free(readout);
    return 0;
}
