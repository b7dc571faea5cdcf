/* A line read in pieces of 40 bytes: feed < FILE prints a line for each frame, then how the input ended. */
#include <inttypes.h>
#include <stdio.h>

#include "laksubinat.h"

static uint8_t carry[LAK_CARRY_ROOM];

/* Where the frame begins, its code, sync and length, and whether a piece holds it whole. */
static void show(const lak_session_answer *a)
{
    printf("%" PRIu64 "\t0x%02" PRIx64 "\t", a->offset, a->frame.code);
    if (a->frame.sync.present)
        printf("%" PRIu64, a->frame.sync.value);
    else
        printf("-");
    printf("\t%" PRIu64 "\t%s\n", a->length, a->in_carry ? "carry" : "piece");
}

/* All frames that the piece settles; whether the line may go on. */
static bool take(lak_session *session, const uint8_t *piece, size_t n)
{
    lak_session_answer a;
    do {
        a = lak_session_feed(*session, piece, n, carry, sizeof carry);
        *session = a.session;
        piece += a.taken;
        n -= a.taken;
        if (a.number == LAK_OK)
            show(&a); /* before the next feed, which may write the carry buffer */
    } while (a.number == LAK_OK);
    return a.number == LAK_INCOMPLETE;
}

int main(void)
{
    uint8_t piece[40];
    size_t n;
    lak_session session = lak_session_open(carry, sizeof carry).session; /* the room is enough: no 19 */

    printf("offset\tcode\tsync\tbytes\tfrom\n");
    while ((n = fread(piece, 1, sizeof piece, stdin)) > 0)
        if (!take(&session, piece, n)) {
            printf("end refused %" PRIu32 " at %" PRIu64 ": %s", session.refused, session.offset,
                   lak_words(session.refused));
            if (session.place.present)
                printf(", at byte %" PRIu64 " of the frame", session.place.value);
            printf("\n");
            return 1;
        }
    if (session.held > 0)
        printf("end incomplete %" PRIu64 "\n", session.held);
    else
        printf("end clean %" PRIu64 "\n", session.offset);
    return 0;
}
