/* Prints the layouts of include/razidkot_client.h's structs: each field's name, place and size, and the struct's. C99 and
   C++11. */
#include "razidkot_client.h"

#include <stdio.h>

#define FIELD(type, field) printf("%s.%s %zu %zu\n", #type, #field, offsetof(type, field), sizeof(((type *)0)->field))
#define WHOLE(type) printf("%s %zu\n", #type, sizeof(type))

int main(void)
{
    FIELD(razidkot_client_request, code);
    FIELD(razidkot_client_request, written);
    WHOLE(razidkot_client_request);
    FIELD(razidkot_client_output, kind);
    FIELD(razidkot_client_output, major);
    FIELD(razidkot_client_output, minor);
    FIELD(razidkot_client_output, offset);
    FIELD(razidkot_client_output, start);
    FIELD(razidkot_client_output, length);
    WHOLE(razidkot_client_output);
    FIELD(razidkot_client_answer, code);
    FIELD(razidkot_client_answer, status);
    FIELD(razidkot_client_answer, taken);
    FIELD(razidkot_client_answer, output);
    WHOLE(razidkot_client_answer);
    return 0;
}
