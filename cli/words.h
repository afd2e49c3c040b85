/* A short text that grows at its end, and never beyond its room. */
#ifndef WORDS_H
#define WORDS_H

/* Over what a line of `list` holds: what has no place here would be cut there too. */
enum { WORDS_ROOM = 160 };

/* Ends in a 0 octet; of zeros it is empty. */
struct words {
    char text[WORDS_ROOM];
};

/* As printf, behind what is there. */
__attribute__((format(printf, 2, 3))) void add(struct words *words, const char *format, ...);

/* The characters that are there. */
int length_of(const struct words *words);

#endif
