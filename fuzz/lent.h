/* Memory to lend to the archives, with a page on either side that cannot be touched. */
#ifndef NULDRAFON_FUZZ_LENT_H
#define NULDRAFON_FUZZ_LENT_H

#include <stdbool.h>
#include <stddef.h>
#include <stdint.h>

enum { LENT_MOST = 1 << 16 };

/* A place for buffers of up to LENT_MOST bytes. */
struct lent {
    uint8_t *pages;
};

/* Maps the place; ends the process where that fails. */
struct lent lent_map(void);

/* A buffer of this length that ends at the page behind, or begins at the page before. */
uint8_t *lent_buffer(struct lent lent, size_t length, bool at_the_end);

#endif
