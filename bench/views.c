/* The views along strides of views.py by plain loops over the same chunk files, chunk by chunk.

   views VIEW FOLDER CHUNKS PROCESSES

   Each chunk of `s` is read whole, and each chunk of the result is put in place by a synced new file that is renamed, below
   FOLDER/loops/c. Each of the processes makes a part of the chunks. It prints the seconds of the processor in all of them, in the
   program and in the system. views.py compiles it, and gives the views of one chunk each and the sizes as definitions. */
#include "files.h"

enum {
    SERIES = TIMES * COLUMNS, /* in a row of chunks of series, for which so many chunks of columns are read together */
    CELLS = ROWS * COLUMNS, /* in a chunk of columns or of series */
};

/* Chunks that stand along one of so many axes. */
struct places {
    int axes, along;
};

/* A view: what makes a part of it, and how many elements are read and made at a time. If it goes along the strides of one chunk, then
   also where the chunks stand, and whether the last one comes first; and in the chunk that is read the first element, and the sizes of
   the axes and the steps along them. */
struct view {
    const char *name;
    void (*make)(int);
    size_t read, made;
    struct places from, to;
    int is_turned;
    long first, sizes[AXES], steps[AXES];
};

static const struct view *view;
static int chunks;
static int32_t *cells, *made;

/* Writes the coordinate of a chunk. */
static void write_place(char *to, struct places places, int number)
{
    for (int axis = 0; axis < places.axes; axis++)
        to += sprintf(to, axis ? "/%d" : "%d", axis == places.along ? number : 0);
}

static void copy_row(int32_t *to, const int32_t *from, long count, long step)
{
    if (step == 1)
        memcpy(to, from, count * sizeof *to);
    else
        for (long i = 0; i < count; i++)
            to[i] = from[i * step];
}

static void copy_along(const long *sizes, const long *steps, int32_t *to, const int32_t *from)
{
    for (long a = 0; a < sizes[0]; a++)
        for (long b = 0; b < sizes[1]; b++)
            for (long c = 0; c < sizes[2]; c++)
                for (long d = 0; d < sizes[3]; d++)
                    for (long e = 0; e < sizes[4]; e++) {
                        copy_row(to, from + a * steps[0] + b * steps[1] + c * steps[2] + d * steps[3] + e * steps[4], sizes[5], steps[5]);
                        to += sizes[5];
                    }
}

/* Parts: each function makes one. */

static void along_strides(int number)
{
    char place[128];
    write_place(place, view->from, number);
    read_chunk(cells, view->read * sizeof *cells, "s/c/%s", place);
    copy_along(view->sizes, view->steps, made, cells + view->first);
    write_place(place, view->to, view->is_turned ? chunks - 1 - number : number);
    put(made, view->made * sizeof *made, "%s", place);
}

/* As many chunks of series as chunks of columns. */
static void columns_to_series(int number)
{
    for (int beside = 0; beside < TIMES; beside++) {
        read_chunk(cells, CELLS * sizeof *cells, "s/c/0/%d", number * TIMES + beside);
        for (int row = 0; row < ROWS; row++)
            memcpy(made + row * SERIES + beside * COLUMNS, cells + row * COLUMNS, COLUMNS * sizeof *made);
    }
    for (int below = 0; below < TIMES; below++)
        put(made + below * CELLS, CELLS * sizeof *made, "%d/%d", below, number);
}

static void doubled(int number)
{
    read_chunk(cells, ELEMENTS * sizeof *cells, "s/c/%d", number);
    for (int i = 0; i < ELEMENTS; i++)
        made[i] = (uint32_t)cells[i] + (uint32_t)cells[i];
    put(made, ELEMENTS * sizeof *made, "%d", number);
}

static const struct view VIEWS[] = {
    STRIDED,
    {.name = "columns to series", .make = columns_to_series, .read = CELLS, .made = TIMES * CELLS},
    {.name = "a + a in chunks of 1 KiB", .make = doubled, .read = ELEMENTS, .made = ELEMENTS},
};

static void make_parts(int from, int to)
{
    cells = room(view->read * sizeof *cells);
    made = room(view->made * sizeof *made);
    for (int part = from; part < to; part++)
        view->make(part);
}

int main(int count, char **words)
{
    if (count != 5) {
        fprintf(stderr, "usage: views VIEW FOLDER CHUNKS PROCESSES\n");
        return 2;
    }
    folder = words[2];
    chunks = atoi(words[3]);
    for (int number = 0; number < (int)(sizeof VIEWS / sizeof *VIEWS); number++)
        if (!strcmp(words[1], VIEWS[number].name)) {
            view = &VIEWS[number];
            make_all(make_parts, chunks, atoi(words[4]));
            tell_seconds();
            return 0;
        }
    fprintf(stderr, "views: no view %s\n", words[1]);
    return 2;
}
