/* The C interface of the XC9500 fuse-map library. Link with libxc9500.a, which `tools/staticlib` makes.
   Every function takes any numbers and any bytes, always returns, and answers one word; nothing else is shared. */
#ifndef XC9500_H
#define XC9500_H

#include <stddef.h>
#include <stdint.h>

#ifdef __cplusplus
extern "C" {
#define XC9500_CAST(type, value) static_cast<type>(value)
#else
#define XC9500_CAST(type, value) ((type)(value))
#endif

/* Contents
     devices and sizes             xc9500_fuse_count, xc9500_image_bytes, xc9500_readout_bytes, xc9500_text_bytes
     fuses and addresses           xc9500_address_of_fuse, xc9500_fuse_of_address
     image and readout             xc9500_fuse_sum, xc9500_zero_count, xc9500_image_to_readout, xc9500_readout_to_image
     JEDEC text                    xc9500_image_to_text, xc9500_text_to_image
     settings by number            xc9500_setting_count, xc9500_setting_fuse, xc9500_setting_at_fuse
     a setting read                xc9500_read_in_image, xc9500_read_in_readout
     a setting set                 xc9500_set_in_image, xc9500_set_in_readout

   What holds of all of them
   - A device is a number of function blocks (2, 4, 6, 8, 12 or 16) and an output-enable class. Any other pair is
     refused 1. The block count follows from the fuse count of a text (its QF field); the class is the caller's to say.
   - A slice is a pointer, which is never null, also where the length is 0, and its length in bytes. Two slices of one
     call do not overlap.
   - A call that is refused leaves every byte of the caller's slices as it was. A call that is accepted writes what its
     comment says, and nothing else.
   - Several faults: the first of 1, 2, 12, 3, 4, 5, 6, 7, 8, 9, 13, 10, 11.
   - No call allocates memory or keeps anything between calls, so calls on different slices may run at the same time.
     Stack: below 1 KB, but about 37 KB for xc9500_text_to_image, for every device. */

/* Output-enable classes. */
enum xc9500_class { XC9500_SMALL = 0, XC9500_LARGE = 1 };

/* The numbers of the refusals, and what the value of each is. */
enum xc9500_refusal_number {
    XC9500_ACCEPTED = 0,               /* not refused */
    XC9500_UNKNOWN_DEVICE = 1,         /* unknown block count or class: 0 */
    XC9500_WRONG_LENGTH = 2,           /* an image or a readout that has not the exact length: 0 */
    XC9500_NO_SUCH_FUSE = 3,           /* a fuse, an address or a bit that the device has not: 0 */
    XC9500_NO_SUCH_SETTING = 4,        /* a setting that the device has not: 0 */
    XC9500_NO_SUCH_VALUE = 5,          /* a pattern that does not fit the setting: 0 */
    XC9500_BIT_ABOVE_WIDTH = 6,        /* a readout byte has a bit above its width: the lowest index of such a byte */
    XC9500_BAD_FORM = 7,               /* the text is too long or of bad form: where, see xc9500_text_to_image */
    XC9500_WRONG_FUSE_COUNT = 8,       /* QF is not the device's fuse count: its field; or is absent: ETX */
    XC9500_MISPLACED_FUSE_LIST = 9,    /* an L overlaps the L before it or runs past the count: its field */
    XC9500_WRONG_FUSE_SUM = 10,        /* C is not the fuse sum: its field */
    XC9500_WRONG_TRANSMISSION_SUM = 11, /* the transmission sum differs and is not 0000: ETX */
    XC9500_BUFFER_TOO_SHORT = 12,      /* the buffer for the text is too short: the bytes needed */
    XC9500_FUSE_NOT_GIVEN = 13         /* no F, and the Ls do not give every fuse: the first fuse not given */
};

/* The sizes of the largest device, of 16 blocks, and of the longest text that is read. */
#define XC9500_MOST_FUSES 290304
#define XC9500_MOST_IMAGE_BYTES 36288
#define XC9500_MOST_READOUT_BYTES 40320
#define XC9500_MOST_TEXT_BYTES 411293
#define XC9500_LONGEST_TEXT 1048576

/* A fuse number and a device address are two types, so that one cannot be passed for the other. */
typedef struct xc9500_fuse {
    uint32_t number;
} xc9500_fuse;

typedef struct xc9500_address {
    uint32_t number;
} xc9500_address;

static inline xc9500_fuse xc9500_fuse_from(uint32_t number)
{
    xc9500_fuse fuse;
    fuse.number = number;
    return fuse;
}

static inline xc9500_address xc9500_address_from(uint32_t number)
{
    xc9500_address address;
    address.number = number;
    return address;
}

/* Every answer is one word: the number of the refusal in bits 56 to 63 (0: accepted), and in the low 56 bits the
   refusal's value, or the result. Where a result may be missing it is XC9500_NONE. */
#define XC9500_NONE UINT64_C(0x00FFFFFFFFFFFFFF)

static inline uint32_t xc9500_refusal(uint64_t word)
{
    return XC9500_CAST(uint32_t, word >> 56);
}

static inline uint64_t xc9500_result(uint64_t word)
{
    return word & XC9500_NONE;
}

#define XC9500_REFUSAL(word) xc9500_refusal(word)
#define XC9500_RESULT(word) xc9500_result(word)

/* The parts of an accepted answer that packs several numbers. XC9500_NONE has no parts: ask for it first. */

/* Address and bit, of xc9500_address_of_fuse and of xc9500_setting_fuse. */
static inline xc9500_address xc9500_result_address(uint64_t word)
{
    return xc9500_address_from(XC9500_CAST(uint32_t, (word >> 3) & 0x1FFFF));
}

static inline uint32_t xc9500_result_bit(uint64_t word)
{
    return XC9500_CAST(uint32_t, word & 7);
}

/* The fuse, of xc9500_setting_fuse. */
static inline xc9500_fuse xc9500_result_setting_fuse(uint64_t word)
{
    return xc9500_fuse_from(XC9500_CAST(uint32_t, xc9500_result(word) >> 20));
}

/* Setting and bit, of xc9500_setting_at_fuse. */
static inline uint32_t xc9500_result_setting(uint64_t word)
{
    return XC9500_CAST(uint32_t, xc9500_result(word) >> 5);
}

static inline uint32_t xc9500_result_setting_bit(uint64_t word)
{
    return XC9500_CAST(uint32_t, word & 31);
}

/* The fuse where it is the whole result, of xc9500_fuse_of_address. */
static inline xc9500_fuse xc9500_result_fuse(uint64_t word)
{
    return xc9500_fuse_from(XC9500_CAST(uint32_t, xc9500_result(word)));
}

/* --- Devices and sizes. Refused: 1. --- */

/* How many fuses a device has, and how many bytes an image, a readout and the text of an image of it. */
uint64_t xc9500_fuse_count(uint32_t blocks, uint32_t class_);
uint64_t xc9500_image_bytes(uint32_t blocks, uint32_t class_);
uint64_t xc9500_readout_bytes(uint32_t blocks, uint32_t class_);
uint64_t xc9500_text_bytes(uint32_t blocks, uint32_t class_);

/* --- Fuses and addresses --- */

/* The address times 8, plus the bit, of a fuse. Refused: 1; 3 no such fuse. */
uint64_t xc9500_address_of_fuse(uint32_t blocks, uint32_t class_, xc9500_fuse fuse);

/* The fuse of an address and a bit. Refused: 1; 3 no such address, or no such bit of it. */
uint64_t xc9500_fuse_of_address(uint32_t blocks, uint32_t class_, xc9500_address address, uint32_t bit);

/* --- Image and readout ---
   Image: one bit a fuse; fuse f is bit f mod 8 (bit 0 lowest) of byte f div 8.
   Readout: one byte for each valid address in ascending order, the value in its low bits.
   Refused by the four: 1; 2 an image or a readout that has not the exact length. */

/* The sum of the image's bytes, of which the low 16 bits are kept. */
uint64_t xc9500_fuse_sum(uint32_t blocks, uint32_t class_, const uint8_t *image, size_t image_len);

/* The number of fuses at 0. */
uint64_t xc9500_zero_count(uint32_t blocks, uint32_t class_, const uint8_t *image, size_t image_len);

/* The readout of an image, put into `readout`: 0. Refused, `readout` stays as it was. */
uint64_t xc9500_image_to_readout(uint32_t blocks, uint32_t class_, const uint8_t *image, size_t image_len,
                                 uint8_t *readout, size_t readout_len);

/* The image of a readout, put into `image`: 0. Also refused: 6. Refused, `image` stays as it was. */
uint64_t xc9500_readout_to_image(uint32_t blocks, uint32_t class_, const uint8_t *readout, size_t readout_len,
                                 uint8_t *image, size_t image_len);

/* --- JEDEC text --- */

/* The text of an image, put at the start of `text`: the bytes written. The bytes of `text` behind them stay. Refused:
   1; 2 an image that has not the exact length; 12 with the bytes needed. Refused, `text` stays as it was. */
uint64_t xc9500_image_to_text(uint32_t blocks, uint32_t class_, const uint8_t *image, size_t image_len, uint8_t *text,
                              size_t text_len);

/* The image that a text describes, put into `image`: 0. Any bytes are taken. Refused: 1; 2 an image that has not the
   exact length; then the first of these in this order, with an offset in the text, but 13 with a fuse:
     7   where: XC9500_LONGEST_TEXT for a longer text, 0 where it does not begin with STX, the start of the first bad
         field, the length of a text that ends early, after ETX the first wrong byte
     8   the QF field, or ETX where there is none
     9   the first L field that starts before the end of the one before it or runs past the count
     13  the first fuse that no L field gives, where the text has no F field; no offset
     10  the C field
     11  ETX
   Refused, `image` stays as it was. docs/REFUSED-TEXTS.md says what to do about each. */
uint64_t xc9500_text_to_image(uint32_t blocks, uint32_t class_, const uint8_t *text, size_t text_len, uint8_t *image,
                              size_t image_len);

/* --- Settings by number ---
   Settings are numbered from 0 in the listing order: term literals by block, macrocell, term, input, P before N;
   wire-AND by block, input, source block, macrocell; macrocell fields by block, macrocell, field; block fields by
   block, field; global fields; the last index fastest, fields in this order:
   macrocell: ALLOC[0] to [4], INV, IMPORT_UP_ALLOC, IMPORT_DOWN_ALLOC, EXPORT_DIR, SUM_HP, IOB_OE_MUX, OE_MUX, OUT_MUX,
              CLK_MUX, REG_MODE, RST_MUX, SET_MUX, INIT, UIM_OE_MUX, UIM_OUT_INV, IOB_GND, IOB_SLEW, HP[0] to [4];
   block:     ENABLE, EXPORT_ENABLE, PULLUP_DISABLE, READ_PROT_A, READ_PROT_B, WRITE_PROT;
   global:    FSR_INV, FCLK[0] to [2] INV, FOE[0] to [1] INV (large class: [3]), FCLK[0] to [2] MUX,
              FOE[0] to [1] MUX (large class: [3]), USERCODE. */

/* How many settings a device has. Refused: 1. */
uint64_t xc9500_setting_count(uint32_t blocks, uint32_t class_);

/* The fuse of a bit of a setting, lowest bit first, times 2^20, plus its address times 8, plus its bit at that address;
   XC9500_NONE where the setting has no such bit. Address and bit are those of xc9500_address_of_fuse. Refused: 1; 4. */
uint64_t xc9500_setting_fuse(uint32_t blocks, uint32_t class_, uint32_t setting, uint32_t bit);

/* The number of the setting at a fuse times 32, plus the bit; XC9500_NONE where no setting has the fuse. Refused: 1;
   3. */
uint64_t xc9500_setting_at_fuse(uint32_t blocks, uint32_t class_, xc9500_fuse fuse);

/* --- A setting read and set ---
   A pattern is the states of a setting's fuses, its bit 0 the state of the fuse of bit 0; that of USERCODE is the
   complement of its number. Refused by the four: 1; 2 an image or a readout that has not the exact length; 4; 5 a
   pattern that does not fit (set only); in a readout 6 for a byte that holds the setting. Refused, the bytes stay as
   they were; accepted, only the setting's own bits change. */

/* The pattern of a setting in an image, and in a readout. */
uint64_t xc9500_read_in_image(uint32_t blocks, uint32_t class_, const uint8_t *image, size_t image_len,
                              uint32_t setting);
uint64_t xc9500_read_in_readout(uint32_t blocks, uint32_t class_, const uint8_t *readout, size_t readout_len,
                                uint32_t setting);

/* A setting set to a pattern in an image, and in a readout: 0. */
uint64_t xc9500_set_in_image(uint32_t blocks, uint32_t class_, uint8_t *image, size_t image_len, uint32_t setting,
                             uint32_t pattern);
uint64_t xc9500_set_in_readout(uint32_t blocks, uint32_t class_, uint8_t *readout, size_t readout_len, uint32_t setting,
                               uint32_t pattern);

#ifdef __cplusplus
}
#endif

#endif
