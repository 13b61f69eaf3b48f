/* Independent implementation, not proved: declarations that the files of its self-test
   share. */
#ifndef CHECK_H
#define CHECK_H

#include <stdbool.h>

#include "oracle.h"
#include "records.h"

#define CHECK(condition) check((condition), #condition, __FILE__, __LINE__)

#define UNTOUCHED 0x55AA55AAu   /* fills lent slices of patterns */
#define SPARE 0x5A              /* fills lent byte buffers */
#define ONE 0x3F800000u
#define TWO 0x40000000u
#define THREE 0x40400000u
#define FOUR 0x40800000u
#define MAX 0x7F7FFFFFu
#define NEGATIVE 0x80000000u
#define INFINITY_PATTERN 0x7F800000u
#define NAN_PATTERN 0x7FC00000u

/* A cell as it is gauged, and one with a single number and class 0. */
#define CELL(lower, upper, wear_class) ((struct gauged){lower, upper, wear_class})
#define POINT(number) CELL(number, number, 0)

/* Counts a check; prints file and line where it fails. */
void check(bool holds, const char *condition, const char *file, int line);

bool is(struct refusal refusal, uint32_t number, uint32_t matrix,
        uint32_t row, uint32_t column);
void fill(uint32_t *cells, size_t count, uint32_t value);
bool all_are(const uint32_t *cells, size_t count, uint32_t value);

void check_conversions(void);
void check_small_format(void);
void check_smallest_radius(void);
void check_products(void);
void check_product_refusals(void);
void check_method_five(void);
void check_reading(void);
void check_read_refusals(void);
void check_amounts(void);
void check_reading_with(void);
void check_kinds(void);
void check_plain_form(void);
void check_writing(void);
void check_job(void);
void check_train(void);
void check_running(void);
void check_any_value(void);
void check_print(void);

#endif
