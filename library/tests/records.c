/* The records of the header, as C and C++ lay them out: they must be those of the library. */
#include "../tamligub.h"

#ifdef __cplusplus
#define _Static_assert static_assert
#endif

_Static_assert(sizeof(tamligub_decoder) == 16, "a decoder");
_Static_assert(offsetof(tamligub_decoder, is_open) == 8, "a decoder");
_Static_assert(sizeof(tamligub_colour) == 4, "a colour");
_Static_assert(sizeof(tamligub_sign) == 4, "a sign");
_Static_assert(sizeof(tamligub_pattern) == 144, "a pattern");
_Static_assert(offsetof(tamligub_pattern, w) == 72 && offsetof(tamligub_pattern, colours) == 76, "a pattern");
_Static_assert(sizeof(tamligub_notice) == 184, "a notice");
_Static_assert(offsetof(tamligub_notice, kind) == 8 && offsetof(tamligub_notice, row) == 11, "a notice");
_Static_assert(offsetof(tamligub_notice, sign) == 13 && offsetof(tamligub_notice, dy) == 17, "a notice");
_Static_assert(offsetof(tamligub_notice, fore) == 21 && offsetof(tamligub_notice, back) == 25, "a notice");
_Static_assert(offsetof(tamligub_notice, flash) == 29 && offsetof(tamligub_notice, boxed) == 32, "a notice");
_Static_assert(offsetof(tamligub_notice, pattern) == 40, "a notice");
_Static_assert(sizeof(tamligub_pen) == 8 && offsetof(tamligub_pen, invert) == 7, "a pen");
_Static_assert(sizeof(tamligub_decoder_state) == 40, "a state");
_Static_assert(offsetof(tamligub_decoder_state, pending) == 8 && offsetof(tamligub_decoder_state, c1) == 18, "a state");
_Static_assert(offsetof(tamligub_decoder_state, g) == 19 && offsetof(tamligub_decoder_state, left) == 23, "a state");
_Static_assert(offsetof(tamligub_decoder_state, protect) == 28 && offsetof(tamligub_decoder_state, pen) == 29, "a state");
_Static_assert(TAMLIGUB_ROOM_FOR_A_BYTE == 1920 && TAMLIGUB_ROOM_FOR_A_PHASE == 960, "rooms");

int main(void)
{
    return 0;
}
