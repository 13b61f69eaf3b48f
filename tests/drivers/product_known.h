/* Test driver of products, not proved: products with a known result. */
#ifndef PRODUCT_KNOWN_H
#define PRODUCT_KNOWN_H

#include <stddef.h>

/* Runs the library and the independent implementation on them. Returns the number of
   results that differ from the known ones and prints these; or prints how many agree. */
int check_known_products(void);

/* The part of it with entries of a row by a column, and how many there are. */
int check_known_sums(void);
extern const size_t known_sums;

#endif
