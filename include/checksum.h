/* The lookup3 checksum of HDF5 metadata. */
#ifndef NULDRAFON_CHECKSUM_H
#define NULDRAFON_CHECKSUM_H

#include <stddef.h>
#include <stdint.h>

#ifdef __cplusplus
extern "C" {
#endif

/*
 * The checksum of `length` bytes at `data`: lookup3.c's hashlittle with start value 0. Any length
 * is accepted, 0 too. `data` is not null, even where `length` is 0, and nothing writes to the bytes
 * during the call. Nothing is kept and nothing is written.
 */
uint32_t checksum_jenkins_lookup3(const uint8_t *data, size_t length);

#ifdef __cplusplus
}
#endif

#endif
