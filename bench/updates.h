/* The rows of the table of updates, which the server's module fills and the benchmark prints. */
#ifndef BENCH_UPDATES_H
#define BENCH_UPDATES_H

#include <stddef.h>

enum { UPDATE_ROWS = 9 };

struct server_times {
    size_t bytes, operations; /* of the tuple, about; of the list */
    double update, made;      /* ns: of the update alone, and with making the tuple first; 0: not measured */
};

void update_rows(struct server_times *rows);
/* Each row is a line. */
void write_server_times(const char *file, const struct server_times *rows);
void read_server_times(const char *file, struct server_times *rows);

#endif
