-- Groups, replacements and parts, beside the server's own functions.

-- The groups of the first match
SELECT lazydfa_captures('since 2024-03', '(\d{4})-(\d\d)(-\d\d)?') AS groups, regexp_match('since 2024-03', '(\d{4})-(\d\d)(-\d\d)?') AS same;
SELECT lazydfa_captures('é=12;', '(?P<key>\w)=(\d+)(;)?()') AS groups, lazydfa_captures('ab', 'b') AS whole, lazydfa_captures('a', '(b)') IS NULL AS none;
SELECT lazydfa_captures('xab', '(?:(a)|(b))+') AS last_round, lazydfa_captures('aé', '(é|)$') AS one, lazydfa_captures('', '()') AS empty;
SELECT lazydfa_captures('abc', '(a|ab)(c|bcd)?') AS preferred, regexp_match('abc', '(a|ab)(c|bcd)?') AS longest;
SELECT lazydfa_captures(NULL, 'a') IS NULL AND lazydfa_captures('a', NULL) IS NULL AS null;
SELECT (lazydfa_captures('k1=v1', '(\w+)=(\w+)'))[2] AS v1;
SELECT line, (lazydfa_captures(line, 'user=([^@]+)@(\S+)'))[1:2] AS who FROM (VALUES ('user=a@b.c x'), ('nobody'), ('user=é@f')) lines(line);

-- The first match, or all of them, replaced
SELECT lazydfa_replace('a-bb-c', 'b+', '<>'), lazydfa_replace('abab', 'a', 'x') AS first, lazydfa_replace('abab', 'a', 'x', 'g') AS every;
SELECT lazydfa_replace('aé', '', '-', 'g') AS empty, lazydfa_replace('abc', 'x', '-', 'g') AS none, lazydfa_replace('abAB', 'B', '', 'gi') AS both;
SELECT lazydfa_replace('Twain, Mark', '(\w+), (\w+)', '\2 \1') AS turned, lazydfa_replace('ab', '(a)|(b)', '[\1\2\3]', 'g') AS some;
SELECT lazydfa_replace('a1', '\d', '<\&>') AS whole, lazydfa_replace('a1', '(\d)', '\\1\x\') AS plain, lazydfa_replace('a', 'a', '\0$1') AS as_it_is;
SELECT lazydfa_replace('a.b', '(.)$', r) AS ours, regexp_replace('a.b', '(.)$', r) AS same FROM unnest(array['\1\1', '\\', '\\\1', '\', '\2', 'é\&\']) r;
SELECT lazydfa_replace('aab', 'a*', '-', 'g') AS ours, regexp_replace('aab', 'a*', '-', 'g') AS one_more;
SELECT lazydfa_replace(NULL, 'a', 'b') IS NULL AND lazydfa_replace('a', 'a', NULL) IS NULL AND lazydfa_replace('a', 'a', 'b', NULL) IS NULL AS null;
-- Of a constant pattern, with groups and without, in turn
SELECT lazydfa_replace('ab', '(a)(b)', r, f) FROM (VALUES ('\2\1', ''), ('-', ''), ('\2', 'i'), ('<\&>', 'g')) it(r, f);

-- The parts between matches
SELECT lazydfa_split('a , b,c', '\s*,\s*'), lazydfa_split('', ','), lazydfa_split('abc', ''), lazydfa_split(',a,', ',');
SELECT s, p, lazydfa_split(s, p) = regexp_split_to_array(s, p) AS same
    FROM (VALUES ('a,b', ','), ('aéb', ''), ('', ''), ('aab', 'a*'), ('xaax', 'a*'), (',,', ','), ('ab', '$'), ('ab', '^'), ('é', 'x|$')) it(s, p);
SELECT cardinality(lazydfa_split(repeat('ab,', 100000), ',')) AS many;

-- Errors
SELECT lazydfa_replace('a', 'a', 'b', 'gx');
SELECT lazydfa_replace('a', 'a', 'b', 'é');
SELECT lazydfa_captures('a', '(a');
\set VERBOSITY terse
SELECT lazydfa_captures(repeat('ab', 1000000), '((a|b|)*)');
SELECT lazydfa_captures('a', repeat('(a)?', 10000));
SELECT lazydfa_replace(repeat('ab', 1000000), '(a|b)*', '[\1]') IS NULL;
\set VERBOSITY default
SET lazydfa.piece_size = '1MB';
SELECT lazydfa_captures(repeat('ab', 1000000), '(?:(a)|(b))*') AS groups_of_2_mb;
RESET lazydfa.piece_size;

-- Long values are searched in pieces
SELECT lazydfa_captures(repeat('-', 100000) || 'é=1' || repeat('-', 100000), '(\w)=(\d)') AS far_away;
SELECT md5(lazydfa_replace(string_agg(n::text, ' '), '(\d)(\d)', '\2\1', 'g')) = md5(regexp_replace(string_agg(n::text, ' '), '(\d)(\d)', '\2\1', 'g')) AS same
    FROM generate_series(1, 20000) n;
SELECT lazydfa_split(string_agg(n::text, ', '), ', ') = array_agg(n::text) AS same FROM generate_series(1, 20000) n;

-- What finds groups is kept beside the same pattern without it, and counts
SELECT 'abc' =~ '(a)(b)(c){50}' AS no, held AS before FROM lazydfa_stats() \gset
SELECT lazydfa_captures('abc', '(a)(b)(c){50}') IS NULL AS none, lazydfa_find('abc', '(a)(b)(c){50}') IS NULL AS none;
SELECT held > :before + 10000 AS counted FROM lazydfa_stats();
