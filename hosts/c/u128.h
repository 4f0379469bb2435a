/* Integers of 128 bits: an extension, since C99 has none. */
#ifndef U128_H
#define U128_H

__extension__ typedef unsigned __int128 u128;

#endif
