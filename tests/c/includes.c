/* Includes the header and calls nothing: it links only with an archive of the header's version. */
#include "dilbreth.h"

int main(void)
{
    return 0;
}
