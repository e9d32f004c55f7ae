/* The calls on boards with the published block, as libprobes.a has them: for tests alone. */
#ifndef PROBES_H
#define PROBES_H

#include <stddef.h>
#include <stdint.h>

int64_t probe_check(const uint64_t *board, size_t board_len);
int64_t probe_free_count(const uint64_t *board, size_t board_len);
int64_t probe_size(const uint64_t *board, size_t board_len, uint64_t file);
int64_t probe_read(const uint64_t *board, size_t board_len, uint64_t file, uint64_t offset, uint8_t *out, size_t out_len);
int64_t probe_write(const uint64_t *board, size_t board_len, uint64_t file, uint64_t offset, const uint8_t *bytes, size_t bytes_len,
                    uint64_t *plan, size_t plan_len);
int64_t probe_set_length(const uint64_t *board, size_t board_len, uint64_t file, uint64_t length, uint64_t *plan, size_t plan_len);
int64_t probe_format(const uint64_t *board, size_t board_len, uint64_t *plan, size_t plan_len);
int64_t probe_perform(uint64_t *board, size_t board_len, const uint64_t *plan, size_t plan_len, uint64_t pairs);

#endif
