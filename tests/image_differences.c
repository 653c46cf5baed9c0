/* Image differences as a program in C calls them, through include/sanirvoq.h. Prints what failed; the exit status is 1
 * then. */
#include "sanirvoq.h"

#include <stdio.h>
#include <string.h>

static int failed;

static void expect(int holds, const char *what) {
    if (!holds) {
        printf("%s\n", what);
        failed = 1;
    }
}

int main(void) {
    static uint8_t zeros[SANIRVOQ_IMAGE_SIZE + 1];
    const uint8_t a[] = {1, 2, 3, 4, 5, 6}, b[] = {0, 2, 9, 9, 5, 7};
    const uint32_t runs[] = {0, 1, 2, 2, 5, 1, 77};
    uint32_t list[] = {77, 77, 77, 77, 77, 77, 77};
    const uint32_t untouched[] = {77, 77, 77, 77, 77, 77, 77};

    struct sanirvoq_comparison done = sanirvoq_image_differences(a, 6, b, 6, list, 5);
    expect(done.number == SANIRVOQ_ERR_RUN_LIST && done.runs == 3, "a list that is one short");
    expect(memcmp(list, untouched, sizeof list) == 0, "the list after 9");

    done = sanirvoq_image_differences(a, 6, b, 5, list, 7);
    expect(done.number == SANIRVOQ_ERR_IMAGES && done.runs == 0, "unequal lengths");
    expect(memcmp(list, untouched, sizeof list) == 0, "the list after 8");

    done = sanirvoq_image_differences(a, 6, b, 6, list, 7);
    expect(done.number == SANIRVOQ_OK && done.runs == 3, "three runs");
    expect(memcmp(list, runs, sizeof list) == 0, "the runs, and the place behind them");

    done = sanirvoq_image_differences(zeros, SANIRVOQ_IMAGE_SIZE, zeros, SANIRVOQ_IMAGE_SIZE, list, 0);
    expect(done.number == SANIRVOQ_OK && done.runs == 0, "the longest images");
    done = sanirvoq_image_differences(zeros, SANIRVOQ_IMAGE_SIZE + 1, zeros, SANIRVOQ_IMAGE_SIZE + 1, list, 7);
    expect(done.number == SANIRVOQ_ERR_IMAGES, "longer images");
    return failed;
}
