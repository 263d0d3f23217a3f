#include "words.h"

static int is_letter(char c) { return (c >= 'a' && c <= 'z') || (c >= 'A' && c <= 'Z'); }
static int is_digit(char c) { return c >= '0' && c <= '9'; }

unsigned scan(const char *text, unsigned length, word_handler word, number_handler number, void *user) {
    unsigned at = 0, found = 0;
    while (at < length) {
        unsigned first = at, value = 0;
        if (is_letter(text[at])) {
            while (at < length && is_letter(text[at])) at++;
            word(user, text + first, at - first);
            found++;
        } else if (is_digit(text[at])) {
            while (at < length && is_digit(text[at])) value = value * 10 + (unsigned)(text[at++] - '0');
            found++;
            if (!number(user, value)) return found;
        } else {
            at++;
        }
    }
    return found;
}
