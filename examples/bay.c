/* Bay two: a press arrives as an update frame, its record is changed, and the press is taken back. */
#include <stdio.h>

#include "laksubinat.h"

/* update, sync 7, space 512, index 0, key [280], operations [["^", 0, 1]] */
static const uint8_t frame[] = {0xce, 0x00, 0x00, 0x00, 0x18, 0x82, 0x00, 0x04, 0x01, 0x07,
                                0x84, 0x10, 0xcd, 0x02, 0x00, 0x11, 0x00, 0x20, 0x91, 0xcd,
                                0x01, 0x18, 0x21, 0x91, 0x93, 0xa1, 0x5e, 0x00, 0x01};

/* [5, "ab", true] */
static const uint8_t record[] = {0x93, 0x05, 0xa2, 0x61, 0x62, 0xc3};

static uint8_t after[LAK_TUPLE_ROOM], undo[LAK_UNDO_ROOM], again[LAK_TUPLE_ROOM];

static void show(const char *name, const uint8_t *bytes, size_t n)
{
    size_t i;
    printf("%-7s", name);
    for (i = 0; i < n; i++)
        printf(" %02x", bytes[i]);
    printf("\n");
}

/* Prints why a call refused; whether it was accepted. */
static bool accepted(const char *name, uint32_t number, uint32_t operation)
{
    if (number != LAK_OK)
        printf("%-7s refused at operation %u: %s\n", name, (unsigned)operation, lak_words(number));
    return number == LAK_OK;
}

int main(void)
{
    lak_frame_answer read = lak_frame_read(frame, sizeof frame);
    if (read.number != LAK_OK || read.frame.code != LAK_CODE_UPDATE) {
        printf("no update: %s\n", lak_words(read.number));
        return 1;
    }
    const uint8_t *list = frame + read.frame.tuple.start;
    size_t m = read.frame.tuple.length;
    uint64_t base = read.frame.index_base.value; /* absent is 0 */

    lak_press_answer press = lak_press(record, sizeof record, list, m, base, after, sizeof after, undo, sizeof undo);
    if (!accepted("press", press.number, press.operation))
        return 1;
    show("after", after, press.length);
    show("undo", undo, press.undo_length);

    lak_answer back = lak_update(after, press.length, undo, press.undo_length, 0, again, sizeof again);
    if (!accepted("again", back.number, back.operation))
        return 1;
    show("again", again, back.length);
    return 0;
}
