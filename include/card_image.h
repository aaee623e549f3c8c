/* The check of a card image: the bytes of a graph. */
#ifndef CARD_IMAGE_H
#define CARD_IMAGE_H

#include <stddef.h>
#include <stdint.h>

#ifdef __cplusplus
extern "C" {
#endif

/*
 * Answers 0 when the bytes are a card image, and otherwise
 * number * 2^32 + offset: which test refused them (1 to 7), and the byte
 * offset of the first field at fault.
 *
 * `bytes` is not null and has `len` readable bytes; `len` may be 0. No other
 * thread writes them during the call. The check writes nothing and keeps no
 * pointer.
 */
uint64_t card_image_check(const uint8_t *bytes, size_t len);

#ifdef __cplusplus
}
#endif

#endif
