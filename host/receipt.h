/*
 * A receipt: four records of a visitor pass, printed for the guest.
 */
#ifndef HOST_RECEIPT_H
#define HOST_RECEIPT_H

#include "record.h"

/* The records of a receipt, in this order: a name, a sum of money, the times of a pass, an identifier. */
enum { RECEIPT_RECORDS = 4 };

/*
 * Prints a receipt to standard output, and gives back how many of its records are refused. Records may be any bytes. The name is cut to the
 * paper's width, in bytes from LEAST_WIDTH to MOST_WIDTH; all else goes on over several lines. The offset is the agreed one, in minutes.
 */
int print_receipt(const struct slice records[RECEIPT_RECORDS], int64_t offset, size_t width);

#endif
