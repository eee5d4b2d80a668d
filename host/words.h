/*
 * Words for what a record says by a code: null flavors and refusals.
 */
#ifndef HOST_WORDS_H
#define HOST_WORDS_H

#include "record.h"

/* The words of ISO 21090 for a null flavor, as "not asked" for NASK. */
const char *null_flavor_words(struct slice flavor);

/* What to tell the clinic that sent a record, for the refusal that it got: the sentence after "Tell the clinic:". */
const char *refusal_advice(int refusal);

#endif
