/* peer-figures: the figures of the definition, and what else it states of single images. */
#include "figures.h"

#include <inttypes.h>
#include <stdio.h>
#include <stdlib.h>

#include "bench.h"

int main(void)
{
    figures_of_the_page();
    figures_of_refusals();
    figures_of_sound();
    figures_of_images();
    figures_of_lists();
    figures_of_place();
    figures_of_passes();
    printf("%" PRIu32 " passed, %" PRIu32 " failed\n", checks_passed(), checks_failed());
    return checks_failed() == 0 ? EXIT_SUCCESS : EXIT_FAILURE;
}
