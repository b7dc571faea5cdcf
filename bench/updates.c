#include "updates.h"

#include <stdio.h>

void update_rows(struct server_times *rows)
{
    static const size_t sizes[3] = { 20, 2048, 16000 }, operations[3] = { 1, 8, 64 };
    for (size_t i = 0; i < UPDATE_ROWS; i++) {
        struct server_times row = { sizes[i / 3], operations[i % 3], 0, 0 };
        rows[i] = row;
    }
}

void write_server_times(const char *file, const struct server_times *rows)
{
    FILE *f = fopen(file, "w");
    if (!f)
        return;
    for (size_t i = 0; i < UPDATE_ROWS; i++)
        fprintf(f, "%f %f\n", rows[i].update, rows[i].made);
    fclose(f);
}

void read_server_times(const char *file, struct server_times *rows)
{
    FILE *f = fopen(file, "r");
    if (!f)
        return;
    for (size_t i = 0; i < UPDATE_ROWS; i++)
        if (fscanf(f, "%lf %lf", &rows[i].update, &rows[i].made) != 2)
            break;
    fclose(f);
}
