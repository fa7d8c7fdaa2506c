/* Estimates the selectivity of the operators, for the planner. */
#include "search.h"

#include "access/htup.h"
#include "nodes/primnodes.h"
#include "utils/lsyscache.h"
#include "utils/selfuncs.h"

/* The selectivity of the operators, and of the operators with `!`, if nothing is known. */
#define MATCHING DEFAULT_MATCHING_SEL
#define NOT_MATCHING (1.0 - DEFAULT_MATCHING_SEL)

/* Returns the patterns, if they are constant and a column is searched. */
static Node *constant_patterns(PlannerInfo *root, List *args, int relation) {
    VariableStatData column;
    Node *patterns;
    bool is_left;
    if (!get_restriction_variable(root, args, relation, &column, &patterns, &is_left)) return NULL;
    ReleaseVariableStats(column);
    return is_left && IsA(patterns, Const) ? patterns : NULL;
}

/* Whether the function of an operator belongs to this extension. Anyone may name the estimators for another operator,
   whose function could run queries. */
static bool is_own(Oid operator) {
    FmgrInfo function;
    fmgr_info(get_opcode(operator), &function);
    return tells_match(function.fn_addr);
}

/* Estimates the selectivity of an operator from the values in the statistics. A value that cannot be searched counts as
   a value without a match, and patterns that cannot be compiled match nothing: the query may search none of these
   values, and reports the error if it does. */
static double selectivity_of(FunctionCallInfo fcinfo, double unknown) {
    PlannerInfo *root = (PlannerInfo *)PG_GETARG_POINTER(0);
    List *args = (List *)PG_GETARG_POINTER(2);
    int relation = PG_GETARG_INT32(3);
    Node *patterns = constant_patterns(root, args, relation);
    bool before = kept_is_estimating;
    double selectivity = unknown;
    if (!patterns || !is_own(PG_GETARG_OID(1))) return unknown;
    args = list_make2(linitial(args), patterns); /* no expression of the query is evaluated after this */
    kept_is_estimating = true;
    PG_TRY();
    {
        selectivity = generic_restriction_selectivity(root, PG_GETARG_OID(1), PG_GET_COLLATION(), args, relation,
                                                      unknown);
    }
    PG_FINALLY();
    {
        kept_is_estimating = before;
    }
    PG_END_TRY();
    return selectivity;
}

PG_FUNCTION_INFO_V1(lazydfa_pg_sel);

Datum lazydfa_pg_sel(PG_FUNCTION_ARGS) { PG_RETURN_FLOAT8(selectivity_of(fcinfo, MATCHING)); }

PG_FUNCTION_INFO_V1(lazydfa_pg_notsel);

Datum lazydfa_pg_notsel(PG_FUNCTION_ARGS) { PG_RETURN_FLOAT8(selectivity_of(fcinfo, NOT_MATCHING)); }

/* Nothing is known about joins: the patterns are values of a column, and no value of the statistics is searched. */

PG_FUNCTION_INFO_V1(lazydfa_pg_joinsel);

Datum lazydfa_pg_joinsel(PG_FUNCTION_ARGS) { PG_RETURN_FLOAT8(MATCHING); }

PG_FUNCTION_INFO_V1(lazydfa_pg_notjoinsel);

Datum lazydfa_pg_notjoinsel(PG_FUNCTION_ARGS) { PG_RETURN_FLOAT8(NOT_MATCHING); }
