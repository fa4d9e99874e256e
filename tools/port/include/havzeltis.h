/* The C entry of libccompile.a (x86-64 Linux). */
#ifndef HAVZELTIS_H
#define HAVZELTIS_H

#include <stddef.h>
#include <stdint.h>

/* number 0: a listing was written, and value is its length in bytes. Else number, from 1 to 14, says
   why the card is turned away, and value is the place: document 01, "Why a card was turned away". */
struct havzeltis_told {
    uint32_t number;
    size_t value;
};

/* Each slice is a pointer and a count of elements: bytes for text and out, words for spans, which holds
   three words a span. A pointer is not null, also where the count is 0, and spans is aligned to 4 bytes.
   out overlaps neither text nor spans, and nothing else reads or writes it during the call. A call that
   refuses leaves out as it was; one that lists changes only the bytes that its listing fills. */
struct havzeltis_told havzeltis_compile2(const uint8_t *text, size_t text_count, const uint32_t *spans,
                                         size_t spans_count, uint32_t options, uint8_t *out,
                                         size_t out_count);

#endif
