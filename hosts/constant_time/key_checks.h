/* Key checks with chosen degree, challenge length and refusal, which are public. The key and its sum are secret, and of a key that
 * is refused by 10 where it has values out of range, and which. */
#ifndef KEY_CHECKS_H
#define KEY_CHECKS_H

#include "lent.h"
#include "responses.h"
#include "secrets.h"

/* What is public of a key check. Whether a key passes is decided by the size of its values and by how many of them are zero: with
 * the numbers that are used, all but very few keys come out as they are chosen. */
struct key_check {
    size_t n;
    size_t length;
    uint32_t refusal; /* 0, 10 or 13 */
    int32_t largest;  /* values are from -largest to largest */
    int thinned;      /* how often three of four values are made zero */
};

static inline void prepare_key_check(struct key_check c)
{
    fill_around(lent.key, 2 * c.n, 0, c.largest);
    for (int i = 0; i < c.thinned; i++)
        thin(lent.key, 2 * c.n);
    if (c.refusal == BLISS_REFUSED_KEY)
        spoil_somewhere(lent.key, 2 * c.n, 7);
}

static inline bliss_key_check made_key_check(struct key_check c)
{
    return bliss_check_key(c.n, lent.key, 2 * c.n, c.length);
}

/* Whether a key check came out as it was chosen. */
static inline bool key_check_is_chosen(struct key_check c, bliss_key_check check)
{
    return check.refusal == c.refusal;
}

#endif
