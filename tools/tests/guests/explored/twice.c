/* Reads time twice, and takes it that it has not passed the deadline in between. */
#include "explored.h"

int main(void)
{
    uint64_t deadline = time() + 300, value = 1;

    while (time() < deadline) {
        if (deadline - time() > 300)
            return 3; /* the difference is below 0 */
        value = mix(value);
    }
    return value != 0 ? 0 : 4;
}
