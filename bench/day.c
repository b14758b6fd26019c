/* The works of day.py by plain loops over the same chunk files, chunk by chunk.

   day WORK FOLDER DAYS PROCESSES

   Each chunk of an input is read whole, and each chunk of the result is put in place by a synced new file that is renamed, below
   FOLDER/loops/c. Each of the processes makes a part of the chunks. It prints the seconds of the processor in all of them, in the
   program and in the system. day.py compiles it, and gives the sizes as definitions. */
#include "files.h"

#define GREATER(a, b) ((a) > (b) ? (a) : (b))

enum {
    PLACES = ROWS * COLUMNS_A_CHUNK, /* of one day in a chunk */
    STRIPS = COLUMNS / COLUMNS_A_CHUNK, /* chunks side by side */
    CELLS = DAYS_A_CHUNK * PLACES,
    SERIES = SERIES_SIDE * SERIES_SIDE, /* in a chunk */
    SERIES_BANDS = ROWS / SERIES_SIDE, /* chunks of series one below another */
    SERIES_BESIDE = SERIES_STRIPS * COLUMNS_A_CHUNK / SERIES_SIDE, /* chunks of series side by side in the strips that are read together */
    MAP_CELLS = MAPS_A_CHUNK * MAP_ROWS * MAP_COLUMNS,
    BINS = MAP_CELLS / 4,
    MAP = ROWS * COLUMNS, /* of one hour */
    HOUR_CELLS = HOURS_A_CHUNK * MAP,
    BUFFER = GREATER(CELLS, GREATER(MAP_CELLS, HOUR_CELLS)),
};

static int days;

/* Buffers: two chunks that are read, and one that is made. What isn't touched takes no memory. */
static int16_t *cells, *others, *made;
static int16_t base[PLACES];

static int least(int a, int b)
{
    return a < b ? a : b;
}

/* The days */

static int day_chunks(void)
{
    return (days + DAYS_A_CHUNK - 1) / DAYS_A_CHUNK;
}

static int days_in(int chunk, int total)
{
    return least(DAYS_A_CHUNK, total - chunk * DAYS_A_CHUNK);
}

static void read_days(int16_t *to, int chunk, int strip)
{
    read_chunk(to, CELLS * sizeof *to, "t/c/%d/0/%d", chunk, strip);
}

/* Stores a chunk of days, with zeros behind the last one. */
static void put_days(int16_t *from, int count, int chunk, int strip)
{
    memset(from + count * PLACES, 0, (size_t)(DAYS_A_CHUNK - count) * PLACES * sizeof *from);
    put(from, CELLS * sizeof *from, "%d/0/%d", chunk, strip);
}

/* Reductions over the days: each function makes the chunk of a strip. */

static void exceedances(int strip)
{
    static int64_t sums[PLACES];
    memset(sums, 0, sizeof sums);
    read_chunk(base, sizeof base, "base/c/0/%d", strip);
    for (int chunk = 0; chunk < day_chunks(); chunk++) {
        read_days(cells, chunk, strip);
        for (int day = 0; day < days_in(chunk, days); day++)
            for (int p = 0; p < PLACES; p++)
                sums[p] += cells[day * PLACES + p] > base[p];
    }
    put(sums, sizeof sums, "0/%d", strip);
}

static void masked_sum(int strip)
{
    static int64_t sums[PLACES];
    memset(sums, 0, sizeof sums);
    for (int chunk = 0; chunk < day_chunks(); chunk++) {
        read_days(cells, chunk, strip);
        for (int day = 0; day < days_in(chunk, days); day++)
            for (int p = 0; p < PLACES; p++) {
                int16_t t = cells[day * PLACES + p];
                sums[p] += t != MISSING ? t : 0;
            }
    }
    put(sums, sizeof sums, "0/%d", strip);
}

static int64_t divide_down(int64_t a, int64_t b)
{
    return a / b - (a % b < 0);
}

static void masked_mean(int strip)
{
    static int64_t sums[PLACES], counts[PLACES];
    memset(sums, 0, sizeof sums);
    memset(counts, 0, sizeof counts);
    for (int chunk = 0; chunk < day_chunks(); chunk++) {
        read_days(cells, chunk, strip);
        for (int day = 0; day < days_in(chunk, days); day++)
            for (int p = 0; p < PLACES; p++) {
                int16_t t = cells[day * PLACES + p];
                sums[p] += t != MISSING ? t : 0;
                counts[p] += t != MISSING;
            }
    }
    for (int p = 0; p < PLACES; p++)
        sums[p] = divide_down(sums[p], counts[p] ? counts[p] : 1);
    put(sums, sizeof sums, "0/%d", strip);
}

static void greatest_anomaly(int strip)
{
    static int16_t best[PLACES];
    static int32_t where[PLACES];
    static int64_t places[PLACES];
    read_chunk(base, sizeof base, "base/c/0/%d", strip);
    for (int chunk = 0; chunk < day_chunks(); chunk++) {
        read_days(cells, chunk, strip);
        for (int day = 0; day < days_in(chunk, days); day++) {
            int32_t place = chunk * DAYS_A_CHUNK + day;
            for (int p = 0; p < PLACES; p++) {
                int16_t t = cells[day * PLACES + p] - base[p];
                int is_better = place == 0 || t > best[p];
                best[p] = is_better ? t : best[p];
                where[p] = is_better ? place : where[p];
            }
        }
    }
    for (int p = 0; p < PLACES; p++)
        places[p] = where[p];
    put(places, sizeof places, "0/%d", strip);
}

static void sum_of_squares(int strip)
{
    static int64_t sums[PLACES];
    memset(sums, 0, sizeof sums);
    for (int chunk = 0; chunk < day_chunks(); chunk++) {
        read_days(cells, chunk, strip);
        for (int day = 0; day < days_in(chunk, days); day++)
            for (int p = 0; p < PLACES; p++) {
                int32_t t = cells[day * PLACES + p];
                sums[p] += t * t;
            }
    }
    put(sums, sizeof sums, "0/%d", strip);
}

static void monthly_sums(int strip)
{
    static int64_t sums[MONTHS][PLACES];
    static int16_t months[DAYS_A_CHUNK];
    memset(sums, 0, sizeof sums);
    for (int chunk = 0; chunk < day_chunks(); chunk++) {
        read_days(cells, chunk, strip);
        read_chunk(months, sizeof months, "month/c/%d", chunk);
        for (int day = 0; day < days_in(chunk, days); day++) {
            int month = months[day];
            if (month >= 0 && month < MONTHS)
                for (int p = 0; p < PLACES; p++)
                    sums[month][p] += cells[day * PLACES + p];
        }
    }
    put(sums, sizeof sums, "0/0/%d", strip);
}

/* As many days as there are: each function makes all chunks of a strip. */

static void differences(int strip)
{
    int16_t *now = cells, *next = others;
    read_days(now, 0, strip);
    for (int chunk = 0; chunk * DAYS_A_CHUNK < days - 1; chunk++) {
        int count = days_in(chunk, days - 1);
        if (chunk + 1 < day_chunks())
            read_days(next, chunk + 1, strip);
        for (int day = 0; day < count; day++) {
            const int16_t *before = now + day * PLACES, *after = day + 1 < DAYS_A_CHUNK ? before + PLACES : next;
            for (int p = 0; p < PLACES; p++)
                made[day * PLACES + p] = after[p] - before[p];
        }
        put_days(made, count, chunk, strip);
        int16_t *spare = now;
        now = next;
        next = spare;
    }
}

static void days_and_mirror(int strip)
{
    for (int chunk = 0; chunk < day_chunks(); chunk++) {
        int count = days_in(chunk, days), read = -1;
        read_days(cells, chunk, strip);
        for (int day = 0; day < count; day++) {
            int other = days - 1 - chunk * DAYS_A_CHUNK - day;
            if (other / DAYS_A_CHUNK != read)
                read_days(others, read = other / DAYS_A_CHUNK, STRIPS - 1 - strip);
            const int16_t *own = cells + day * PLACES, *mirror = others + other % DAYS_A_CHUNK * PLACES;
            for (int p = 0; p < PLACES; p++)
                made[day * PLACES + p] = own[p] + mirror[PLACES - 1 - p];
        }
        put_days(made, count, chunk, strip);
    }
}

static void without_climate(int strip)
{
    for (int chunk = 0; chunk < day_chunks(); chunk++) {
        read_days(cells, chunk, strip);
        read_chunk(others, CELLS * sizeof *others, "climate/c/%d/0/%d", chunk % (CLIMATE_DAYS / DAYS_A_CHUNK), strip);
        for (int i = 0; i < days_in(chunk, days) * PLACES; i++)
            made[i] = cells[i] - others[i];
        put_days(made, days_in(chunk, days), chunk, strip);
    }
}

static void anomalies(int strip)
{
    read_chunk(base, sizeof base, "base/c/0/%d", strip);
    for (int chunk = 0; chunk < day_chunks(); chunk++) {
        read_days(cells, chunk, strip);
        for (int day = 0; day < days_in(chunk, days); day++)
            for (int p = 0; p < PLACES; p++)
                made[day * PLACES + p] = cells[day * PLACES + p] - base[p];
        put_days(made, days_in(chunk, days), chunk, strip);
    }
}

static void scaled(int strip)
{
    static int32_t *wide;
    if (!wide)
        wide = room(CELLS * sizeof *wide);
    for (int chunk = 0; chunk < day_chunks(); chunk++) {
        int count = days_in(chunk, days) * PLACES;
        read_days(cells, chunk, strip);
        for (int i = 0; i < count; i++) {
            int32_t nine = cells[i] * 9;
            wide[i] = nine / 5 - (nine % 5 < 0) + 320;
        }
        memset(wide + count, 0, (CELLS - count) * sizeof *wide);
        put(wide, CELLS * sizeof *wide, "%d/0/%d", chunk, strip);
    }
}

/* Days to series: the strips that whole chunks of series need are read together, so that each chunk is read once. */

/* Reads some rows of each day of a chunk, one behind another. */
static void read_rows(int16_t *to, int from, int rows, int chunk, int strip)
{
    char path[4096];
    snprintf(path, sizeof path, "%s/t/c/%d/0/%d", folder, chunk, strip);
    int file = open_file(path);
    size_t own = (size_t)rows * COLUMNS_A_CHUNK * sizeof *to;
    if (rows == ROWS)
        read_at(file, to, DAYS_A_CHUNK * own, 0);
    else
        for (int day = 0; day < DAYS_A_CHUNK; day++)
            read_at(file, (char *)to + day * own, own, ((size_t)day * ROWS + from) * COLUMNS_A_CHUNK * sizeof *to);
    close(file);
}

/* Copies a part of each row of a chunk of series, from a column of a strip on. The strip has so many rows of each day. */
static void copy_columns(int16_t *to, const int16_t *strip, int rows, int column, int count)
{
    for (int day = 0; day < days; day++)
        for (int row = 0; row < SERIES_SIDE; row++)
            memcpy(to + day * SERIES + row * SERIES_SIDE, strip + ((size_t)day * rows + row) * COLUMNS_A_CHUNK + column, count * sizeof *to);
}

/* Stores the chunks of series of a band, whose rows begin at `row` of those that were read of each strip. */
static void put_series(const int16_t *read, int rows, int row, int group, int band)
{
    size_t strip_size = (size_t)day_chunks() * DAYS_A_CHUNK * rows * COLUMNS_A_CHUNK, bytes = (size_t)days * SERIES * sizeof *read;
    int16_t *series = room(bytes);
    for (int beside = 0; beside < SERIES_BESIDE; beside++) {
        for (int done = 0; done < SERIES_SIDE;) {
            int column = beside * SERIES_SIDE + done, strip = column / COLUMNS_A_CHUNK, own = column % COLUMNS_A_CHUNK;
            int count = least(SERIES_SIDE - done, COLUMNS_A_CHUNK - own);
            copy_columns(series + done, read + strip * strip_size + row * COLUMNS_A_CHUNK, rows, own, count);
            done += count;
        }
        put(series, bytes, "0/%d/%d", band, group * SERIES_BESIDE + beside);
    }
    free(series);
}

/* Makes the bands from one to another, which are counted group of strips by group of strips. */
static void days_to_series(int from, int to)
{
    int16_t *read = room((size_t)SERIES_STRIPS * day_chunks() * CELLS * sizeof *read);
    while (from < to) {
        int group = from / SERIES_BANDS, band = from % SERIES_BANDS, bands = least(SERIES_BANDS - band, to - from), rows = bands * SERIES_SIDE;
        size_t size = (size_t)DAYS_A_CHUNK * rows * COLUMNS_A_CHUNK;
        for (int strip = 0; strip < SERIES_STRIPS; strip++)
            for (int chunk = 0; chunk < day_chunks(); chunk++)
                read_rows(read + (strip * day_chunks() + chunk) * size, band * SERIES_SIDE, rows, chunk, group * SERIES_STRIPS + strip);
        for (int k = 0; k < bands; k++)
            put_series(read, rows, k * SERIES_SIDE, group, band + k);
        from += bands;
    }
    free(read);
}

/* Reductions over what is reshaped: each function makes one chunk. */

static void bins(int chunk)
{
    static int64_t *sums;
    if (!sums)
        sums = room(BINS * sizeof *sums);
    read_chunk(cells, MAP_CELLS * sizeof *cells, "maps/c/%d/0/0", chunk);
    for (int row = 0; row < MAPS_A_CHUNK * MAP_ROWS / 2; row++) {
        const int16_t *upper = cells + row * 2 * MAP_COLUMNS, *lower = upper + MAP_COLUMNS;
        for (int c = 0; c < MAP_COLUMNS / 2; c++)
            sums[row * (MAP_COLUMNS / 2) + c] = upper[2 * c] + upper[2 * c + 1] + lower[2 * c] + lower[2 * c + 1];
    }
    put(sums, BINS * sizeof *sums, "%d/0/0", chunk);
}

static void greatest_of_days(int chunk)
{
    read_chunk(cells, HOUR_CELLS * sizeof *cells, "hours/c/%d/0/0", chunk);
    for (int day = 0; day < HOURS_A_CHUNK / HOURS_A_DAY; day++) {
        const int16_t *t = cells + day * HOURS_A_DAY * MAP;
        for (int p = 0; p < MAP; p++) {
            int16_t best = t[p];
            for (int hour = 1; hour < HOURS_A_DAY; hour++)
                best = t[hour * MAP + p] > best ? t[hour * MAP + p] : best;
            made[day * MAP + p] = best;
        }
    }
    put(made, HOUR_CELLS / HOURS_A_DAY * sizeof *made, "%d/0/0", chunk);
}

/* Each work makes one of its parts, or those from one to another. */
static const struct work {
    const char *name;
    void (*one)(int);
    void (*range)(int, int);
    int parts;
} WORKS[] = {
    {"exceedances as int32", exceedances, NULL, STRIPS},
    {"exceedances as int8", exceedances, NULL, STRIPS},
    {"masked sum", masked_sum, NULL, STRIPS},
    {"masked mean", masked_mean, NULL, STRIPS},
    {"place of the greatest anomaly", greatest_anomaly, NULL, STRIPS},
    {"sum of squares", sum_of_squares, NULL, STRIPS},
    {"difference from day to day", differences, NULL, STRIPS},
    {"days and their mirror", days_and_mirror, NULL, STRIPS},
    {"climatology by concat", without_climate, NULL, STRIPS},
    {"days to series", NULL, days_to_series, STRIPS / SERIES_STRIPS * SERIES_BANDS},
    {"scaled and rounded down", scaled, NULL, STRIPS},
    {"anomalies", anomalies, NULL, STRIPS},
    {"monthly sums", monthly_sums, NULL, STRIPS},
    {"bins of 2 by 2", bins, NULL, MAPS / MAPS_A_CHUNK},
    {"greatest of each day", greatest_of_days, NULL, HOURS / HOURS_A_CHUNK},
};

static const struct work *work;

static void make_parts(int from, int to)
{
    if (work->range)
        work->range(from, to);
    else
        for (int part = from; part < to; part++)
            work->one(part);
}

int main(int count, char **words)
{
    if (count != 5) {
        fprintf(stderr, "usage: day WORK FOLDER DAYS PROCESSES\n");
        return 2;
    }
    folder = words[2];
    days = atoi(words[3]);
    cells = room(BUFFER * sizeof *cells);
    others = room(BUFFER * sizeof *others);
    made = room(BUFFER * sizeof *made);
    for (int number = 0; number < (int)(sizeof WORKS / sizeof *WORKS); number++)
        if (!strcmp(words[1], WORKS[number].name)) {
            work = &WORKS[number];
            make_all(make_parts, work->parts, atoi(words[4]));
            tell_seconds();
            return 0;
        }
    fprintf(stderr, "day: no work %s\n", words[1]);
    return 2;
}
