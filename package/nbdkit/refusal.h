/* A refusal by document 01's rules, told as the tool tells it. */
#ifndef REFUSAL_H
#define REFUSAL_H

#include <stdint.h>

/* Tells number, place and sentence by nbdkit_error, of one file or, where `name` is null, of the chain. The answer is -1. */
int refused(const char *name, uint64_t number, uint64_t place);

#endif
