/* Differences between the versions of PostgreSQL, from 13 to 18. */
#ifndef LAZYDFA_VERSIONS_H
#define LAZYDFA_VERSIONS_H

#include "postgres.h"

#if PG_VERSION_NUM < 130000
#error "lazydfa needs PostgreSQL 13 or later"
#endif

#if PG_VERSION_NUM >= 160000
#include "varatt.h"
#endif

#if PG_VERSION_NUM >= 180000
#define NEVER_RETURNS(declaration) pg_noreturn declaration
#else
#define NEVER_RETURNS(declaration) declaration pg_attribute_noreturn()
#endif

/* Whether a collation compares by bytes; utils/pg_locale.h declares collations. */
#if PG_VERSION_NUM >= 180000
#define COLLATES_BY_BYTES(collation) (pg_newlocale_from_collation(collation)->collate_is_c)
#else
#define COLLATES_BY_BYTES(collation) lc_collate_is_c(collation)
#endif

#if PG_VERSION_NUM < 150000
#define MarkGUCPrefixReserved EmitWarningsOnPlaceholders
#endif

#endif
