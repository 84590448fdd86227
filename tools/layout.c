/* Prints how every answer of the header is laid out: a line for each struct's size and alignment and one for each
 * member's offset, from the compiler's own figures. That sizes and offsets are the header's figures is checked where
 * the header is compiled. The Rust side prints the same text, and the two are compared. Compiles as C11 and as
 * C++17. */
#include "leafanchor.h"

#include <stdalign.h>
#include <stdio.h>

#define PRINT_SIZE(name, size) \
    printf("%s %zu, aligned to %zu\n", #name, sizeof(leafanchor_##name), alignof(leafanchor_##name));
#define PRINT_OFFSET(name, field, offset) printf("%s.%s %zu\n", #name, #field, offsetof(leafanchor_##name, field));

int main(void)
{
    LEAFANCHOR_LAYOUT(PRINT_SIZE, PRINT_OFFSET)
    return 0;
}
