/* Test driver of sheets, not proved: stored sheets as text, in this form:

     # a comment
     sheet NAME
     lent LOWERS UPPERS OUT    words of the slices that the sheet is read into, and bytes
                               of the buffer that the matrix is then written to
     amounts BYTES             a load in hexadecimal, a space before each amount; without
                               this line the sheet is read with the fixed amounts
     0300 02 03 0400 00 000000000000000000       the sheet's bytes in hexadecimal,
     0200 01 00 00000080 00000080 00 000000      a record a line, a space before each field;
                                                 the wear of an amount sheet is one field
     read ANSWER               2 by 3, or refused: NUMBER row ROW column COLUMN
     write ANSWER              48 bytes, with the bytes in the lines below, or refused

   The answers may be left out. */
#ifndef SHEET_STORED_H
#define SHEET_STORED_H

/* Copies such a text from standard input to standard output, with the library's
   answers. Returns the status of the program: 1 if an answer or the lent memory differs
   from that of the independent implementation, 2 if the text is malformed. */
int answer_stored_sheets(void);

#endif
