/* Benchmarks, not proved: the reads of sheets, products and sheet jobs of the library beside
   those of an earlier archive of it, in one process, on the same data, in turns. What is read
   is class sheets, since the earlier archive may refuse amount sheets. */
#include "timing.h"

#include "../tests/oracle/records.h"
#include "coupling.h"
#include "measure.h"
#include "table.h"

/* The earlier archive: peer_library.c, compiled with its functions under other names. */
extern const struct peer earlier_class_job, earlier_product;

static const struct peer *const peers[2][2] = {{&peer_product, &earlier_product}, {&peer_class_job, &earlier_class_job}};

static const size_t sizes[][3] = {{32, 32, 32}, {8, 8, 8}, {4, 4, 4}, {1, 1, 1}, {32, 1, 32}};

#define SIZES (sizeof sizes / sizeof sizes[0])

static bool print_size(const struct data_set *set, const struct peer *const *pair, const size_t *size, int rounds)
{
    static struct matrices x;
    static struct times times;
    draw_matrices(set, size[0], size[1], size[2], &x);
    if (!measure(&x, pair, 2, rounds, &times))
        return false;
    printf("| %2zu x %2zu x %2zu |", size[0], size[1], size[2]);
    for (int method = 0; method < METHODS; method++) {
        print_number(times.least[0][method] * 1e-3);
        printf(" %6.3f |", times.least[0][method] / times.least[1][method]);
    }
    printf("\n");
    return true;
}

static bool print_table(const struct data_set *set, const struct peer *const *pair, int rounds)
{
    printf("%s, %s\n\n| %-12s |", pair[0]->name, set->title, "size; method");
    for (int method = 0; method < METHODS; method++)
        printf(" %6d |  ratio |", methods[method]);
    printf("\n");
    print_rule(2 * METHODS);
    for (size_t i = 0; i < SIZES; i++)
        if (!print_size(set, pair, sizes[i], rounds))
            return false;
    printf("\n");
    return true;
}

/* ---- reads of a full sheet */

uint32_t earlier_coupling_read(const uint8_t *sheet, size_t sheet_len, uint32_t *lowers, size_t lowers_len, uint32_t *uppers, size_t uppers_len);

static double time_read(uint32_t (*read)(const uint8_t *, size_t, uint32_t *, size_t, uint32_t *, size_t), const uint8_t *sheet)
{
    static uint32_t lowers[CELLS], uppers[CELLS];
    double start = now();
    uint32_t sizes = read(sheet, COUPLING_SHEET_MAX, lowers, CELLS, uppers, CELLS);
    return COUPLING_REFUSED(sizes) ? LONGEST : now() - start;
}

static void print_reads(const char *name, bool classes, int rounds)
{
    static uint8_t sheet[COUPLING_SHEET_MAX];
    double least = LONGEST, earlier = LONGEST;
    put_full_of(CLASS_SHEET, sheet, classes);
    for (int round = 0; round < 10 * rounds; round++) {
        keep_least(&least, time_read(coupling_read, sheet));
        keep_least(&earlier, time_read(earlier_coupling_read, sheet));
    }
    printf("| %-20s |", name);
    print_number(least / CELLS);
    printf(" %6.3f |\n", least / earlier);
}

int main(int argc, char **argv)
{
    int rounds = rounds_given(argc, argv);
    printf("Microseconds now, and now / before: below 1, faster than the earlier archive. Least of %d rounds, of ten times as many up to 1,024\n"
           "steps over l, in turns. All results were equal.\n\n", rounds);
    printf("Nanoseconds a cell of a full sheet\n\n| %-20s |    now |  ratio |\n", "read");
    print_rule(2);
    print_reads("class 0", false, rounds);
    print_reads("classes 0 to 7", true, rounds);
    printf("\n");
    for (int kind = 0; kind < 2; kind++)
        for (int set = 0; set < DATA_SETS; set++)
            if (!print_table(&data_sets[set], peers[kind], rounds))
                return EXIT_FAILURE;
    return EXIT_SUCCESS;
}
