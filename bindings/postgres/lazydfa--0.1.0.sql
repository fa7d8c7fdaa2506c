\echo Use "CREATE EXTENSION lazydfa" to load this file. \quit

-- Support functions for the planner. Searching a line of a log costs some five times as much as an operator on numbers.

CREATE FUNCTION lazydfa_support(internal) RETURNS internal
    AS 'MODULE_PATHNAME', 'lazydfa_pg_support' LANGUAGE C STRICT;
CREATE FUNCTION lazydfa_isupport(internal) RETURNS internal
    AS 'MODULE_PATHNAME', 'lazydfa_pg_isupport' LANGUAGE C STRICT;
CREATE FUNCTION lazydfa_sel(internal, oid, internal, int) RETURNS float8
    AS 'MODULE_PATHNAME', 'lazydfa_pg_sel' LANGUAGE C STABLE STRICT PARALLEL SAFE;
CREATE FUNCTION lazydfa_joinsel(internal, oid, internal, smallint, internal) RETURNS float8
    AS 'MODULE_PATHNAME', 'lazydfa_pg_joinsel' LANGUAGE C STABLE STRICT PARALLEL SAFE;
CREATE FUNCTION lazydfa_notsel(internal, oid, internal, int) RETURNS float8
    AS 'MODULE_PATHNAME', 'lazydfa_pg_notsel' LANGUAGE C STABLE STRICT PARALLEL SAFE;
CREATE FUNCTION lazydfa_notjoinsel(internal, oid, internal, smallint, internal) RETURNS float8
    AS 'MODULE_PATHNAME', 'lazydfa_pg_notjoinsel' LANGUAGE C STABLE STRICT PARALLEL SAFE;

-- Whether a text has a match of a pattern, or no match; also case-insensitive.

CREATE FUNCTION lazydfa_match(string text, pattern text) RETURNS bool
    AS 'MODULE_PATHNAME', 'lazydfa_pg_match' LANGUAGE C IMMUTABLE STRICT PARALLEL SAFE COST 5 SUPPORT lazydfa_support;
CREATE FUNCTION lazydfa_match_not(string text, pattern text) RETURNS bool
    AS 'MODULE_PATHNAME', 'lazydfa_pg_match_not' LANGUAGE C IMMUTABLE STRICT PARALLEL SAFE COST 5;
CREATE FUNCTION lazydfa_imatch(string text, pattern text) RETURNS bool
    AS 'MODULE_PATHNAME', 'lazydfa_pg_imatch' LANGUAGE C IMMUTABLE STRICT PARALLEL SAFE COST 5 SUPPORT lazydfa_isupport;
CREATE FUNCTION lazydfa_imatch_not(string text, pattern text) RETURNS bool
    AS 'MODULE_PATHNAME', 'lazydfa_pg_imatch_not' LANGUAGE C IMMUTABLE STRICT PARALLEL SAFE COST 5;

-- Whether any pattern of an array has a match, or none has one.

CREATE FUNCTION lazydfa_match_any(string text, patterns text[]) RETURNS bool
    AS 'MODULE_PATHNAME', 'lazydfa_pg_match_any' LANGUAGE C IMMUTABLE STRICT PARALLEL SAFE COST 5;
CREATE FUNCTION lazydfa_match_none(string text, patterns text[]) RETURNS bool
    AS 'MODULE_PATHNAME', 'lazydfa_pg_match_any_not' LANGUAGE C IMMUTABLE STRICT PARALLEL SAFE COST 5;

-- The same for bytes.

CREATE FUNCTION lazydfa_match(bytes bytea, pattern text) RETURNS bool
    AS 'MODULE_PATHNAME', 'lazydfa_pg_match_bytes' LANGUAGE C IMMUTABLE STRICT PARALLEL SAFE COST 5;
CREATE FUNCTION lazydfa_match_not(bytes bytea, pattern text) RETURNS bool
    AS 'MODULE_PATHNAME', 'lazydfa_pg_match_bytes_not' LANGUAGE C IMMUTABLE STRICT PARALLEL SAFE COST 5;
CREATE FUNCTION lazydfa_imatch(bytes bytea, pattern text) RETURNS bool
    AS 'MODULE_PATHNAME', 'lazydfa_pg_imatch_bytes' LANGUAGE C IMMUTABLE STRICT PARALLEL SAFE COST 5;
CREATE FUNCTION lazydfa_imatch_not(bytes bytea, pattern text) RETURNS bool
    AS 'MODULE_PATHNAME', 'lazydfa_pg_imatch_bytes_not' LANGUAGE C IMMUTABLE STRICT PARALLEL SAFE COST 5;
CREATE FUNCTION lazydfa_match_any(bytes bytea, patterns text[]) RETURNS bool
    AS 'MODULE_PATHNAME', 'lazydfa_pg_match_any_bytes' LANGUAGE C IMMUTABLE STRICT PARALLEL SAFE COST 5;
CREATE FUNCTION lazydfa_match_none(bytes bytea, patterns text[]) RETURNS bool
    AS 'MODULE_PATHNAME', 'lazydfa_pg_match_any_bytes_not' LANGUAGE C IMMUTABLE STRICT PARALLEL SAFE COST 5;

-- Which of the patterns have a match, by their indices in the array, from 1.

CREATE FUNCTION lazydfa_which(string text, patterns text[]) RETURNS int[]
    AS 'MODULE_PATHNAME', 'lazydfa_pg_which' LANGUAGE C IMMUTABLE STRICT PARALLEL SAFE COST 10;

-- The first match: the position of its first character, from 1, and the position after its last; null if there is none.

CREATE FUNCTION lazydfa_find(string text, pattern text, OUT start_at int, OUT end_at int)
    AS 'MODULE_PATHNAME', 'lazydfa_pg_find' LANGUAGE C IMMUTABLE STRICT PARALLEL SAFE COST 10;
CREATE FUNCTION lazydfa_substr(string text, pattern text) RETURNS text
    AS 'MODULE_PATHNAME', 'lazydfa_pg_substr' LANGUAGE C IMMUTABLE STRICT PARALLEL SAFE COST 10;

-- The groups of the first match, from group 1 on, or the match if there are none; null without a match.

CREATE FUNCTION lazydfa_captures(string text, pattern text) RETURNS text[]
    AS 'MODULE_PATHNAME', 'lazydfa_pg_captures' LANGUAGE C IMMUTABLE STRICT PARALLEL SAFE COST 20;

-- All matches that do not overlap: their texts, their number, and the parts between them.

CREATE FUNCTION lazydfa_matches(string text, pattern text) RETURNS SETOF text
    AS 'MODULE_PATHNAME', 'lazydfa_pg_matches' LANGUAGE C IMMUTABLE STRICT PARALLEL SAFE COST 10 ROWS 10;
CREATE FUNCTION lazydfa_count(string text, pattern text) RETURNS bigint
    AS 'MODULE_PATHNAME', 'lazydfa_pg_count' LANGUAGE C IMMUTABLE STRICT PARALLEL SAFE COST 20;
CREATE FUNCTION lazydfa_split(string text, pattern text) RETURNS text[]
    AS 'MODULE_PATHNAME', 'lazydfa_pg_split' LANGUAGE C IMMUTABLE STRICT PARALLEL SAFE COST 20;

-- The text with the first match replaced, or all of them: \1 to \9 in the replacement are groups, and \& is the match.

CREATE FUNCTION lazydfa_replace(string text, pattern text, replacement text) RETURNS text
    AS 'MODULE_PATHNAME', 'lazydfa_pg_replace' LANGUAGE C IMMUTABLE STRICT PARALLEL SAFE COST 20;
CREATE FUNCTION lazydfa_replace(string text, pattern text, replacement text, flags text) RETURNS text
    AS 'MODULE_PATHNAME', 'lazydfa_pg_replace' LANGUAGE C IMMUTABLE STRICT PARALLEL SAFE COST 20;

-- The tokens of a text: each is a match of a pattern, given by its index in the array, and begins where the last ended.

CREATE FUNCTION lazydfa_tokens(string text, patterns text[], OUT pattern int, OUT token text)
    RETURNS SETOF record
    AS 'MODULE_PATHNAME', 'lazydfa_pg_tokens' LANGUAGE C IMMUTABLE STRICT PARALLEL SAFE COST 10 ROWS 10;

-- Statistics of this backend: how many patterns it keeps; the bytes that their caches account for, the bytes of their
-- leaps in addition, and all bytes that the caches hold from the allocator; the bytes of their tables; how often caches
-- were cleared; and how many patterns were compiled.

CREATE FUNCTION lazydfa_stats(OUT patterns bigint, OUT memory bigint, OUT leaps bigint, OUT held bigint,
    OUT tables bigint, OUT clears bigint, OUT compiled bigint)
    AS 'MODULE_PATHNAME', 'lazydfa_pg_stats' LANGUAGE C VOLATILE STRICT PARALLEL RESTRICTED;

CREATE OPERATOR =~ (FUNCTION = lazydfa_match, LEFTARG = text, RIGHTARG = text, NEGATOR = !=~,
    RESTRICT = lazydfa_sel, JOIN = lazydfa_joinsel);
CREATE OPERATOR !=~ (FUNCTION = lazydfa_match_not, LEFTARG = text, RIGHTARG = text, NEGATOR = =~,
    RESTRICT = lazydfa_notsel, JOIN = lazydfa_notjoinsel);
CREATE OPERATOR =~* (FUNCTION = lazydfa_imatch, LEFTARG = text, RIGHTARG = text, NEGATOR = !=~*,
    RESTRICT = lazydfa_sel, JOIN = lazydfa_joinsel);
CREATE OPERATOR !=~* (FUNCTION = lazydfa_imatch_not, LEFTARG = text, RIGHTARG = text, NEGATOR = =~*,
    RESTRICT = lazydfa_notsel, JOIN = lazydfa_notjoinsel);
CREATE OPERATOR =~| (FUNCTION = lazydfa_match_any, LEFTARG = text, RIGHTARG = text[], NEGATOR = !=~|,
    RESTRICT = lazydfa_sel, JOIN = lazydfa_joinsel);
CREATE OPERATOR !=~| (FUNCTION = lazydfa_match_none, LEFTARG = text, RIGHTARG = text[], NEGATOR = =~|,
    RESTRICT = lazydfa_notsel, JOIN = lazydfa_notjoinsel);

CREATE OPERATOR =~ (FUNCTION = lazydfa_match, LEFTARG = bytea, RIGHTARG = text, NEGATOR = !=~,
    RESTRICT = lazydfa_sel, JOIN = lazydfa_joinsel);
CREATE OPERATOR !=~ (FUNCTION = lazydfa_match_not, LEFTARG = bytea, RIGHTARG = text, NEGATOR = =~,
    RESTRICT = lazydfa_notsel, JOIN = lazydfa_notjoinsel);
CREATE OPERATOR =~* (FUNCTION = lazydfa_imatch, LEFTARG = bytea, RIGHTARG = text, NEGATOR = !=~*,
    RESTRICT = lazydfa_sel, JOIN = lazydfa_joinsel);
CREATE OPERATOR !=~* (FUNCTION = lazydfa_imatch_not, LEFTARG = bytea, RIGHTARG = text, NEGATOR = =~*,
    RESTRICT = lazydfa_notsel, JOIN = lazydfa_notjoinsel);
CREATE OPERATOR =~| (FUNCTION = lazydfa_match_any, LEFTARG = bytea, RIGHTARG = text[], NEGATOR = !=~|,
    RESTRICT = lazydfa_sel, JOIN = lazydfa_joinsel);
CREATE OPERATOR !=~| (FUNCTION = lazydfa_match_none, LEFTARG = bytea, RIGHTARG = text[], NEGATOR = =~|,
    RESTRICT = lazydfa_notsel, JOIN = lazydfa_notjoinsel);

COMMENT ON FUNCTION lazydfa_support(internal) IS 'planner support for lazydfa_match';
COMMENT ON FUNCTION lazydfa_isupport(internal) IS 'planner support for lazydfa_imatch';
COMMENT ON FUNCTION lazydfa_sel(internal, oid, internal, int) IS 'restriction selectivity of =~, =~* and =~|';
COMMENT ON FUNCTION lazydfa_joinsel(internal, oid, internal, smallint, internal)
    IS 'join selectivity of =~, =~* and =~|';
COMMENT ON FUNCTION lazydfa_notsel(internal, oid, internal, int) IS 'restriction selectivity of !=~, !=~* and !=~|';
COMMENT ON FUNCTION lazydfa_notjoinsel(internal, oid, internal, smallint, internal)
    IS 'join selectivity of !=~, !=~* and !=~|';
COMMENT ON FUNCTION lazydfa_match(text, text) IS 'implementation of =~ operator';
COMMENT ON FUNCTION lazydfa_match_not(text, text) IS 'implementation of !=~ operator';
COMMENT ON FUNCTION lazydfa_imatch(text, text) IS 'implementation of =~* operator';
COMMENT ON FUNCTION lazydfa_imatch_not(text, text) IS 'implementation of !=~* operator';
COMMENT ON FUNCTION lazydfa_match_any(text, text[]) IS 'implementation of =~| operator';
COMMENT ON FUNCTION lazydfa_match_none(text, text[]) IS 'implementation of !=~| operator';
COMMENT ON FUNCTION lazydfa_match(bytea, text) IS 'implementation of =~ operator';
COMMENT ON FUNCTION lazydfa_match_not(bytea, text) IS 'implementation of !=~ operator';
COMMENT ON FUNCTION lazydfa_imatch(bytea, text) IS 'implementation of =~* operator';
COMMENT ON FUNCTION lazydfa_imatch_not(bytea, text) IS 'implementation of !=~* operator';
COMMENT ON FUNCTION lazydfa_match_any(bytea, text[]) IS 'implementation of =~| operator';
COMMENT ON FUNCTION lazydfa_match_none(bytea, text[]) IS 'implementation of !=~| operator';
COMMENT ON FUNCTION lazydfa_which(text, text[]) IS 'places in the array of the patterns that have a match';
COMMENT ON FUNCTION lazydfa_find(text, text) IS 'where the first match begins, and where it ends';
COMMENT ON FUNCTION lazydfa_substr(text, text) IS 'first match';
COMMENT ON FUNCTION lazydfa_matches(text, text) IS 'all matches that do not overlap';
COMMENT ON FUNCTION lazydfa_count(text, text) IS 'number of matches that do not overlap';
COMMENT ON FUNCTION lazydfa_captures(text, text) IS 'groups of the first match';
COMMENT ON FUNCTION lazydfa_split(text, text) IS 'split text at the matches';
COMMENT ON FUNCTION lazydfa_replace(text, text, text) IS 'replace the first match';
COMMENT ON FUNCTION lazydfa_replace(text, text, text, text) IS 'replace the first match, or all of them';
COMMENT ON FUNCTION lazydfa_tokens(text, text[]) IS 'split text into tokens, each a match of a pattern';
COMMENT ON FUNCTION lazydfa_stats() IS 'statistics: compiled patterns of this session';
COMMENT ON OPERATOR =~ (text, text) IS 'matches regular expression';
COMMENT ON OPERATOR !=~ (text, text) IS 'does not match regular expression';
COMMENT ON OPERATOR =~* (text, text) IS 'matches regular expression, case-insensitive';
COMMENT ON OPERATOR !=~* (text, text) IS 'does not match regular expression, case-insensitive';
COMMENT ON OPERATOR =~| (text, text[]) IS 'matches one of the regular expressions';
COMMENT ON OPERATOR !=~| (text, text[]) IS 'matches none of the regular expressions';
COMMENT ON OPERATOR =~ (bytea, text) IS 'matches regular expression';
COMMENT ON OPERATOR !=~ (bytea, text) IS 'does not match regular expression';
COMMENT ON OPERATOR =~* (bytea, text) IS 'matches regular expression, case-insensitive';
COMMENT ON OPERATOR !=~* (bytea, text) IS 'does not match regular expression, case-insensitive';
COMMENT ON OPERATOR =~| (bytea, text[]) IS 'matches one of the regular expressions';
COMMENT ON OPERATOR !=~| (bytea, text[]) IS 'matches none of the regular expressions';
