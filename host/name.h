/*
 * A name as it is printed.
 */
#ifndef HOST_NAME_H
#define HOST_NAME_H

#include "record.h"
#include "text.h"

/*
 * Adds the name that an accepted record of type EN holds: its parts in order. By ISO 21090, 7.7.5.3, a space goes between two parts, but none
 * after a prefix (PFX), before a suffix (SFX) and around a delimiter (DEL), and none is added to one that is written there. For a null part its
 * null flavor stands in words, in brackets.
 */
void add_name(struct text *text, struct slice record);

#endif
