/* What the parts of the library share. Results go to `output`; what a function works on stands in `input`. */
#ifndef LIBRARY_H
#define LIBRARY_H

typedef unsigned char byte;
typedef unsigned int u32;
typedef unsigned long long u64;

#define EXPORT(name) __attribute__((export_name(name)))
#define ROOM 1048576u
#define FAULT 4294967295u

extern byte input[ROOM];
extern byte output[ROOM + ROOM / 16];

#endif
