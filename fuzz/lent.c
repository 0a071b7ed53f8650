/* Memory to lend to the archives, with a page on either side that cannot be touched. */
#define _GNU_SOURCE
#include "lent.h"

#include <stdio.h>
#include <stdlib.h>
#include <sys/mman.h>

enum { PAGE = 4096 };

struct lent lent_map(void) {
    size_t whole = LENT_MOST + 2 * PAGE;
    uint8_t *at = mmap(NULL, whole, PROT_NONE, MAP_PRIVATE | MAP_ANONYMOUS, -1, 0);
    if (at == MAP_FAILED || mprotect(at + PAGE, LENT_MOST, PROT_READ | PROT_WRITE) != 0) {
        perror("lent memory");
        exit(2);
    }
    return (struct lent){at + PAGE};
}

uint8_t *lent_buffer(struct lent lent, size_t length, bool at_the_end) {
    return at_the_end ? lent.pages + (LENT_MOST - length) : lent.pages;
}
