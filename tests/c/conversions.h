#ifndef CONVERSIONS_H
#define CONVERSIONS_H

/* Compares journal_convert with reference.c on many media, and writes how many. */
void conversions(void);

#endif
