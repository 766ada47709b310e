/* cc -I host/include samples/link.c target/staticlib/libspatecanter.a -o link && ./link */
#include <stdio.h>
#include "spatecanter.h"

int main(void)
{
    const uint8_t tape[] = {0x40, 0xEF, 0x52, 0x4E, 0x01, 0xFC, 0x02, 0x49};
    uint8_t galley[11 * sizeof tape + 7];
    size_t answer[3];
    sp_read_tape(tape, sizeof tape, 8, galley, sizeof galley, answer);
    printf("number %zu, place %zu, length %zu\n", answer[0], answer[1], answer[2]);
    return answer[0] == SP_ACCEPTED ? 0 : 1;
}
