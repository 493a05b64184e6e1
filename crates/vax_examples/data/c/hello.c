/* Says one line. */
#include "service.h"

int main(void)
{
    puts("Hello from C!");
    return 0;
}
