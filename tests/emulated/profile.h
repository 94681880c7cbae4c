/* What the emulated board is built as, for the firmware and for the x86-64 side. LONGEST (M) and PAGE may be given to the compiler. */
#ifndef PROFILE_H
#define PROFILE_H

#include <childbus.h>

#ifndef LONGEST
#define LONGEST 256
#endif
#ifndef PAGE
#define PAGE CHILDBUS_PAGE_64
#endif

enum { SIZE = 4096, OFFSET = 512 };

static const uint8_t profile[CHILDBUS_PROFILE_BYTES] = {
    CHILDBUS_RS485, 7, 1, 2, 3, 3,                       /* type 7, revisions 1 and 2, bootloader 3, serial of 3 bytes */
    PAGE, 0,
    LONGEST & 0xff, LONGEST >> 8, 0, 0,                  /* M */
    SIZE & 0xff, SIZE >> 8, 0, 0,                        /* S */
    OFFSET & 0xff, OFFSET >> 8, 0, 0,                    /* O */
    'Q', 'R', 'S',
};

#endif
