#include "dp.h"
int64_t dp_channel_read(uint8_t *m, uint64_t n, uint32_t c, uint32_t i){(void)m;(void)n;(void)c;(void)i;return -99;}
int64_t dp_channel_respond(uint8_t *m, uint64_t n, uint32_t c, const uint8_t *r, uint64_t k){(void)m;(void)n;(void)c;(void)r;(void)k;return -99;}
