/* Answers that the papers themselves give, asked of the library and of the reference. */
#ifndef EXAMPLES_H
#define EXAMPLES_H

#include <stdint.h>

/* Prints each answer that is not the papers'; how many there were. */
uint64_t examples(void);

#endif
