/* Prints each code that has a name, and the name. */
#include "hlr.h"
#include <stdio.h>

int main(void) {
    for (uint64_t code = 0; code < 1000; code++)
        if (*hlr_code_name(code)) printf("%d %s\n", (int)code, hlr_code_name(code));
    return *hlr_code_name(UINT64_C(1) << 32) != 0;
}
