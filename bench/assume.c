/* The C functions of the drivers under bench/drivers: `assumed` does nothing, and its false contract lets a driver make its calls
   without a proof (tests/lib/regdtools/drivers.py says why); `bytes_in_use` returns the memory that is allocated. */
#include <malloc.h>
#include <stdint.h>
void assumed(void) {}
uint64_t bytes_in_use(void) {
  struct mallinfo2 info = mallinfo2();
  return info.uordblks + info.hblkhd;
}
