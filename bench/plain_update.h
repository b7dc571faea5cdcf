/*
 * Updating a tuple and undoing it in plain C, as one writes it by hand: what the library is compared with.
 * The same rules and the same refusal numbers; nothing is proved.
 */
#ifndef BENCH_PLAIN_UPDATE_H
#define BENCH_PLAIN_UPDATE_H

#include <stddef.h>
#include <stdint.h>

struct plain_answer {
    uint32_t number, operation;
    uint64_t length;
};

struct plain_press_answer {
    uint32_t number, operation;
    uint64_t length, undo_length;
};

struct plain_answer plain_update(const uint8_t *tuple, size_t n, const uint8_t *list, size_t m, uint64_t base,
                                 uint8_t *out, size_t room);
struct plain_answer plain_undo(const uint8_t *tuple, size_t n, const uint8_t *list, size_t m, uint64_t base,
                               uint8_t *out, size_t room);
struct plain_press_answer plain_press(const uint8_t *tuple, size_t n, const uint8_t *list, size_t m, uint64_t base,
                                      uint8_t *out, size_t room, uint8_t *undo, size_t undo_room);

#endif
