/* Damaged texts. */
#ifndef DAMAGE_H
#define DAMAGE_H

#include "text.h"

/* One of the texts with one to four mistakes, as the numbers decide: octets flipped, set, put in, taken out, repeated, the end cut off, the
 * rest of another text behind, length octets changed; and, with the lengths of all values round them mended, so that what is left is DER:
 * values taken out, repeated, exchanged with the next, replaced by one of another text, given another identifier, other contents, or a value
 * round them. */
void make_damaged(struct numbers *numbers, const struct texts *texts, struct text *made);

#endif
