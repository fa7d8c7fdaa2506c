/* For the test of memory: returns how many bytes malloc has allocated in this backend, without those of PostgreSQL's
   memory contexts. */
#include "postgres.h"

#include <malloc.h>

#include "fmgr.h"
#include "utils/memutils.h"

PG_MODULE_MAGIC;

PG_FUNCTION_INFO_V1(held);

Datum held(PG_FUNCTION_ARGS) {
    struct mallinfo2 info = mallinfo2();
    PG_RETURN_INT64((int64)(info.uordblks + info.hblkhd) - (int64)MemoryContextMemAllocated(TopMemoryContext, true));
}
