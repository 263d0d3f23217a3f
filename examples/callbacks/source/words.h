/* A library as they come: it is given functions to call back, and a pointer that it hands on to them. */
typedef void (*word_handler)(void *user, const char *word, unsigned length);
typedef int (*number_handler)(void *user, unsigned number);

/* Calls `word` for each run of letters and `number` for each run of digits; ends early when `number` gives 0. Gives how many it found. */
unsigned scan(const char *text, unsigned length, word_handler word, number_handler number, void *user);
