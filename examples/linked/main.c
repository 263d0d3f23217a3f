/* Two modules that link: init functions first, in the order in which one imports from the other, and then calls. */
#include <stdio.h>
#include "bank.h"
#include "teller.h"

int main(void) {
    u32 first, second;
    w2cZ_bankZ_i();
    w2cZ_tellerZ_i();
    w2cZ_bankZ_fZ_book(1, 100);
    first = w2cZ_tellerZ_fZ_move(1, 2, 30);
    second = w2cZ_tellerZ_fZ_move(1, 2, 71);
    printf("bookings after the first move: %lu; the second is refused: %lu\n", (unsigned long)first, (unsigned long)second);
    printf("balances: %llu, %llu; bookings: %lu\n", (unsigned long long)w2cZ_bankZ_fZ_balance(1),
           (unsigned long long)w2cZ_bankZ_fZ_balance(2), (unsigned long)*w2cZ_bankZ_vZ_bookings());
    return !(first == 3 && second == 0 && w2cZ_bankZ_fZ_balance(1) == 70 && w2cZ_bankZ_fZ_balance(2) == 30);
}
