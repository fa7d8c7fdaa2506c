-- How many rows the planner expects. It searches values of the statistics, and no query fails because of one of them.
CREATE FUNCTION rows_of(query text) RETURNS int LANGUAGE plpgsql AS $$
DECLARE
    plan json;
BEGIN
    EXECUTE 'EXPLAIN (FORMAT json) ' || query INTO plan;
    RETURN plan -> 0 -> 'Plan' ->> 'Plan Rows';
END $$;
CREATE TABLE log(id int, kind text, line text, raw bytea) WITH (autovacuum_enabled = off);
INSERT INTO log SELECT n, kind, line, convert_to(line, 'UTF8') FROM generate_series(1, 1000) n, LATERAL
    (SELECT CASE WHEN n % 2 = 0 THEN 'ascii' ELSE 'utf' END kind,
        CASE WHEN n % 2 = 0 THEN 'an ERROR here ' ELSE 'ein Fehler ä ' END || n AS line) it;

-- Without statistics few rows match, and most do not
SELECT rows_of('SELECT * FROM log WHERE line !=~ ''q''') > 50 * rows_of('SELECT * FROM log WHERE line =~ ''q''') AS most;

-- With statistics it expects the rows that have a match; the query does not search some of them
SELECT count(*) AS all_500 FROM log WHERE kind = 'ascii' AND line =~ '\bERROR\b';
ANALYZE log;
SELECT count(*) AS all_500 FROM log WHERE kind = 'ascii' AND line =~ '\bERROR\b';
SELECT count(*) AS none FROM log WHERE kind = 'ascii' AND line !=~ '\bERROR\b';
SELECT count(*) AS all_500 FROM log WHERE kind = 'ascii' AND line =~* '\berror\b' AND line =~| array['\bERROR', 'x\b'];
SELECT count(*) AS all_500 FROM log WHERE kind = 'ascii' AND raw =~ '\bERROR\b' AND raw !=~* '\bfehler\b';
SELECT count(*) AS all_500 FROM log a JOIN log b ON a.id = b.id AND a.line =~ b.line WHERE a.kind = 'ascii';
EXPLAIN (COSTS off) SELECT * FROM log WHERE line =~ '\bERROR\b';
EXPLAIN (COSTS off) SELECT * FROM log WHERE line !=~ '\bERROR\b';
SELECT count(*) FROM log WHERE line =~ '\bERROR\b';
SELECT rows_of('SELECT * FROM log WHERE line =~ ''\bERROR\b''') BETWEEN 400 AND 600 AS half,
    rows_of('SELECT * FROM log WHERE line !=~ ''\bERROR\b''') BETWEEN 400 AND 600 AS half,
    rows_of('SELECT * FROM log WHERE line =~| array[''\bERROR\b'', ''q'']') BETWEEN 400 AND 600 AS half,
    rows_of('SELECT * FROM log WHERE raw !=~* ''\berror\b''') BETWEEN 400 AND 600 AS half,
    rows_of('SELECT * FROM log WHERE line =~ ''[a-z]''') > 950 AS most, rows_of('SELECT * FROM log WHERE line !=~* ''E''') < 50 AS few;

-- also with more statistics
ALTER TABLE log ALTER line SET STATISTICS 1000, ALTER raw SET STATISTICS 1000;
ANALYZE log;
SELECT count(*) AS all_500 FROM log WHERE kind = 'ascii' AND line =~ '\bERROR\b' AND raw =~ '\bERROR\b';
SELECT count(*) AS none FROM log WHERE kind = 'ascii' AND line !=~ '\bERROR\b';
SELECT rows_of('SELECT * FROM log WHERE line =~ ''\bERROR\b''') AS all_500, rows_of('SELECT * FROM log WHERE line !=~ ''\bERROR\b''') AS all_500;

-- A pattern that cannot be compiled is an error of a search, not of a plan
SELECT rows_of('SELECT * FROM log WHERE line =~ ''(''') < 50 AS few, rows_of('SELECT * FROM log WHERE line !=~ ''(''') > 950 AS most,
    rows_of('SELECT * FROM log WHERE line =~ repeat(''a'', 100000)') < 50 AS few,
    rows_of('SELECT * FROM log WHERE line =~| array[''a'', NULL]') < 50 AS few;
SELECT count(*) AS none FROM log WHERE kind = 'none' AND line =~ '(';
SELECT count(*) FROM log WHERE line =~ '(';

-- If the patterns are in the column, none is compiled for an estimate
CREATE TABLE rules AS SELECT CASE WHEN n % 2 = 0 THEN '(' ELSE 'a' END || n AS rule FROM generate_series(1, 100) n;
ANALYZE rules;
SELECT compiled AS before FROM lazydfa_stats() \gset
SELECT rows_of('SELECT * FROM rules WHERE ''a1'' =~ rule') < 10 AS few, rows_of('SELECT * FROM rules WHERE ''a1'' !=~ rule') > 90 AS most;
SELECT compiled - :before AS none FROM lazydfa_stats();
SELECT count(*) AS one FROM rules WHERE rule ~ '^a' AND 'a1' =~ rule;

-- An expression of the query is evaluated outside of the estimate, where a pattern that cannot be compiled is an error
CREATE FUNCTION checked(pattern text) RETURNS text STABLE LANGUAGE plpgsql AS $$
BEGIN
    PERFORM lazydfa_count('', pattern);
    RETURN pattern;
EXCEPTION WHEN invalid_regular_expression THEN
    RETURN 'refused';
END $$;
SELECT rows_of($$SELECT * FROM log WHERE line =~ checked('(')$$) < 50 AS few;
SELECT count(*) AS none FROM log WHERE line =~ checked('(');

-- An estimator that is named for a foreign operator does not call its function
CREATE FUNCTION counts(line text, word text) RETURNS bool LANGUAGE plpgsql AS $$
BEGIN
    RETURN lazydfa_count(line, '(') > 0;
END $$;
CREATE OPERATOR ### (FUNCTION = counts, LEFTARG = text, RIGHTARG = text, RESTRICT = lazydfa_sel,
    JOIN = lazydfa_joinsel);
SELECT rows_of($$SELECT * FROM log WHERE line ### 'x'$$) < 50 AS few;
DROP OPERATOR ### (text, text);
DROP FUNCTION counts, checked;
DROP TABLE log, rules;
DROP FUNCTION rows_of;
