-- Results of the operators and functions.
CREATE EXTENSION lazydfa;

-- Whether there is a match
SELECT 'foo 12' =~ '[a-z]+ \d' AS yes, 'foo' =~ 'x' AS no, 'foo' !=~ 'x' AS yes, 'foo' !=~ 'o' AS no;
SELECT 'FOO' =~* 'o+$' AS yes, 'É' =~* 'é' AS yes, 'FOO' =~ 'o+$' AS no, 'FOO' !=~* 'o+$' AS no;
SELECT 'ab' =~| array['x', 'b'] AS yes, 'ab' =~| '{}'::text[] AS no, 'ab' !=~| array['x', 'y'] AS yes, 'ab' !=~| '{b}' AS no;
SELECT '' =~ '' AS yes, '' =~ 'x*' AS yes, '' =~ 'x' AS no, 'a' =~ '^$' AS no;
SELECT 'héllo' =~ '^h.llo$' AS yes, 'straße' =~ '\w{6}' AS yes, E'a\nb' =~ 'a.b' AS no, E'a\nb' =~ '(?s)a.b' AS yes;
SELECT 'ERROR: a timeout' =~ '\bERROR\b.*timeout' AS yes, 'xERROR' =~ '\bERROR' AS no, 'é a' =~ '(?-u:\b)a' AS yes;
SELECT NULL =~ 'x' AS null, 'x' =~ NULL AS null, 'x' =~| NULL::text[] AS null, NULL =~| '{x}' AS null;
SELECT 'abc'::varchar =~ 'b' AS yes, 'abc'::char(5) =~ 'c$' AS yes, 'abc'::name =~ '^a' AS yes;

-- Bytes, some of which are not text
SELECT '\xff0061'::bytea =~ '^(?-u:\xff)\x00a$' AS yes, '\xff'::bytea =~ 'a' AS no, '\x4142'::bytea =~* 'b' AS yes;
SELECT '\xff'::bytea !=~ '(?-u:[\x80-\xff])' AS no, '\xff'::bytea !=~* 'a' AS yes;
SELECT '\xff61'::bytea =~| array['b', 'a'] AS yes, '\xff61'::bytea !=~| array['b', 'a'] AS no;

-- Where the first match is, in characters, and its text
SELECT * FROM lazydfa_find('é12 ab', '[a-z]+');
SELECT * FROM lazydfa_find('aé', '$');
SELECT lazydfa_find('é12', '[a-z]+') IS NULL AS none;
SELECT lazydfa_substr('a-bb-c', 'b+'), lazydfa_substr('abc', 'a|ab') AS preferred, lazydfa_substr('a', 'b') IS NULL AS none;
SELECT lazydfa_matches('foo 12 bär', '\w+');
SELECT count(*) AS four, bool_and(it = '') AS empty FROM lazydfa_matches('aé1', '') it;
SELECT lazydfa_matches('ab ab ab', 'ab') LIMIT 2;
SELECT lazydfa_count('foo 12 bär', '\w') AS eight, lazydfa_count('', 'x') AS none, lazydfa_count('xx', 'y*') AS three;
SELECT lazydfa_replace('a-bb-c', 'b+', '<>', 'g'), lazydfa_replace('aé', '', '-', 'g'), lazydfa_replace('abc', 'x', '-', 'g');

-- Which of many patterns match
SELECT lazydfa_which('foo 12', array['\d+', 'x', 'o{2}']), lazydfa_which('', array['a', 'b']), lazydfa_which('a', '{}');
SELECT lazydfa_which('ab', array['b', 'b', 'a|b', '']);
SELECT lazydfa_which('x42', array_agg('\D' || n || '$' ORDER BY n)) FROM generate_series(1, 100) n;
SELECT lazydfa_which('x4200y', array_agg('x' || n || 'y' ORDER BY n)) FROM generate_series(1, 10000) n;
SELECT cardinality(lazydfa_which('b', array_agg('b'::text ORDER BY n))) FROM generate_series(1, 300) n;
SELECT lazydfa_which('d', '{{a,b},{c,d}}') AS fourth;

-- Tokens
SELECT * FROM lazydfa_tokens('let x1 = 12;', array['let(?-u:\b)', '[a-z][a-z0-9]*', '\d+', '[=;]', '\s+']);
SELECT * FROM lazydfa_tokens('', array['a']);
SELECT * FROM lazydfa_tokens('ab-', array['[a-z]+']);

-- A pattern that differs between calls of one expression
SELECT 'b' =~ ANY (array['a', 'b']) AS yes, 'b' =~ ALL (array['a', 'b']) AS no, 'b' !=~ ALL (array['a', 'c']) AS yes;
SELECT string_agg(pattern, ' ' ORDER BY pattern) AS a_b_z FROM (VALUES ('^b'), ('^a'), ('z$'), ('q')) p(pattern), (VALUES ('a'), ('b'), ('z')) s(it)
    WHERE it =~ pattern;
DO $$
DECLARE
    pattern text;
    found text := '';
BEGIN
    FOREACH pattern IN ARRAY array['a', 'b', NULL, 'c'] LOOP
        found := found || coalesce('b' =~ pattern, false)::int;
    END LOOP;
    RAISE NOTICE '% is 0100', found;
END $$;
DO $$
DECLARE
    patterns text[] := '{}';
    pattern text;
    found text := '';
BEGIN
    FOREACH pattern IN ARRAY array['a', 'b', 'c'] LOOP
        patterns := patterns || pattern;
        found := found || ('b' =~| patterns)::int || cardinality(lazydfa_which('c', patterns));
    END LOOP;
    RAISE NOTICE '% is 001011', found;
END $$;
CREATE TABLE rules AS SELECT n AS number, n || '$' AS pattern FROM generate_series(1, 100) n;
SELECT n AS number, lazydfa_which('x' || n, (SELECT array_agg(pattern ORDER BY number) FROM rules)) FROM generate_series(98, 101) n;
DROP TABLE rules;
PREPARE matching(text) AS SELECT 'b' =~ $1;
SET plan_cache_mode = force_generic_plan;
EXECUTE matching('a');
EXECUTE matching('b');
RESET plan_cache_mode;
DEALLOCATE matching;

-- Long values, compressed or not in the table itself
CREATE TABLE long_lines AS SELECT repeat('a', 1000000) || 'b' AS line UNION ALL SELECT repeat('c', 1000000);
SELECT count(*) AS one FROM long_lines WHERE line =~ 'ab$';
SELECT start_at, end_at FROM long_lines, lazydfa_find(line, 'ab');
SELECT count(*) AS one FROM long_lines WHERE line =~ '^a+b$';
SELECT count(*) AS none FROM long_lines WHERE line =~ 'b.' OR line =~ 'ca' OR line =~| '{ac,ba}';
SELECT count(*) AS two FROM long_lines WHERE line =~ 'x*' AND line =~* 'C|B$' AND line =~ '(?-u:\b)$';
SELECT lazydfa_count(line, 'a{10}') AS matches FROM long_lines ORDER BY 1;
SELECT count(*) AS million FROM long_lines, lazydfa_matches(line, 'c');
DROP TABLE long_lines;

-- An empty match is never inside a character, and a text has one beginning, even if it is searched in pieces
SELECT 'aéa' =~ '(?-u:\B)' AS no, 'aéa' =~| '{"(?-u:\\B)"}' AS no, 'éa' =~ '(?-u:\B)' AS yes, 'éa' =~| '{"(?-u:\\B)"}' AS yes,
    lazydfa_count('aéa', 'x*') AS four, lazydfa_replace('aéa', 'x*', '-', 'g'), lazydfa_find('aé€', '$'),
    lazydfa_which('aéa', '{"(?-u:\\B)",x*,é}'), array(SELECT lazydfa_matches('xaab', 'x|^aab|b'));
SET lazydfa.piece_size = 1;
SELECT 'aéa' =~ '(?-u:\B)' AS no, 'aéa' =~| '{"(?-u:\\B)"}' AS no, 'éa' =~ '(?-u:\B)' AS yes, 'éa' =~| '{"(?-u:\\B)"}' AS yes,
    lazydfa_count('aéa', 'x*') AS four, lazydfa_replace('aéa', 'x*', '-', 'g'), lazydfa_find('aé€', '$'),
    lazydfa_which('aéa', '{"(?-u:\\B)",x*,é}'), array(SELECT lazydfa_matches('xaab', 'x|^aab|b'));
RESET lazydfa.piece_size;
