/* A sentence in plain English for each number of a refusal, for C and C++.
   Not proved. */
#ifndef COUPLING_SENTENCES_H
#define COUPLING_SENTENCES_H

#include <stdint.h>

/* Never null; the text is constant. */
static inline const char *coupling_sentence(uint32_t number)
{
    switch (number) {
    case 1: return "a size is not from 1 to 32, the left factor's columns are not the right one's rows, or 32 pairs are taken already";
    case 2: return "a slice is shorter than its cells or than a running entry";
    case 3: return "a bound or a wear amount is not a finite number";
    case 4: return "a lower bound is above the upper bound";
    case 5: return "a result is too large for binary32";
    case 6: return "a length, the record count or the kind is wrong, or a byte that must be zero is not";
    case 7: return "an index is not below the record count, or a cell is outside the matrix";
    case 8: return "the cells of the chain do not rise by row, then column";
    case 9: return "the method is not 1, 3, 4, 5 or 7";
    case 10: return "a wear class is above 7";
    case 11: return "the out buffer is shorter than the sheet to be written";
    case 12: return "the number of sheets is not from 1 to 8";
    case 13: return "the first wear amount is not zero, or an amount is below the one before it";
    case 14: return "a wear amount is below zero";
    default: return "no refusal has this number";
    }
}

#endif
