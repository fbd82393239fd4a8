/* The library's calls again in plain C: the same arguments, replies and refusals (include/pulpgarnet.h). */
#ifndef BASELINE_H
#define BASELINE_H

#include "pulpgarnet.h"

struct pulpgarnet_checked plain_check(const uint8_t *table, size_t length, size_t used);
struct pulpgarnet_valued plain_evaluate(const uint8_t *table, size_t length, size_t used, uint32_t assignment);
struct pulpgarnet_placed plain_words(const uint8_t *table, size_t length, size_t used, uint32_t first,
                                     uint64_t *places, size_t places_count);
struct pulpgarnet_placed plain_totals(const uint8_t *table, size_t length, size_t used,
                                      uint64_t *places, size_t places_count);
struct pulpgarnet_reported plain_report(const uint8_t *table, size_t length, size_t used);
struct pulpgarnet_stepped plain_step(uint8_t *table, size_t length, size_t used,
                                     uint16_t rule, uint16_t gate, uint16_t a, uint16_t b);
struct pulpgarnet_ran plain_script(uint8_t *table, size_t length, size_t used,
                                   const uint8_t *steps, size_t steps_length);
struct pulpgarnet_ran plain_follow(uint8_t *table, size_t length, size_t used,
                                   const uint8_t *steps, size_t steps_length, uint16_t *places, size_t places_count);
struct pulpgarnet_written plain_translate(const uint8_t *table, size_t length, size_t used,
                                          uint8_t *out, size_t out_length);
struct pulpgarnet_written plain_translate_anew(const uint8_t *table, size_t length, size_t used,
                                               uint8_t *out, size_t out_length);
struct pulpgarnet_deep plain_rm3_depth(const uint8_t *table, size_t length, size_t used);
struct pulpgarnet_written plain_catalogue(uint32_t number, uint8_t *out, size_t out_length);

#endif
