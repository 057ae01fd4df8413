/* Prints the checksum that a program here has when cc builds it for the machine at hand. */
#include <inttypes.h>
#include <stdio.h>
#include <stdlib.h>

#include "program.h"

int main(int argc, char **argv)
{
    printf("%016" PRIX64, checksum(argc > 1 ? strtoull(argv[1], NULL, 10) : 1));
    return 0;
}
