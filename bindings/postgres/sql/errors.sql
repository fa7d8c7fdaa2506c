-- Texts that are not patterns, and values that cannot be searched.
\set VERBOSITY default
SELECT 'a' =~ 'é(b';
SELECT 'a' =~ 'a{2,1}';
SELECT 'a' =~* '[z-a]';
SELECT 'a' =~ E'a\n(b';
SELECT lazydfa_which('a', array['ok', '[z-a]']);
SELECT 'a' =~| array['ok', '\q'];
SELECT 'a' =~ '(a)\1';
SELECT 'a' =~ '(?=a)';
SELECT 'a' =~ '(?-u:\xff)';
SELECT lazydfa_which('a', array['a', NULL]);
SELECT 'after errors' =~ 'err' AS yes;

-- Too long: a text, all texts of an array together, and the number of its elements
SELECT 'a' =~ repeat('a', 65537);
SELECT 'a' =~| array[repeat('a', 40000), repeat('a', 40000)];
SELECT lazydfa_which('a', array_fill(''::text, array[65537]));
SELECT lazydfa_matches('a', repeat('a', 65537));
SELECT lazydfa_tokens('a', array_fill('a'::text, array[10000000]));
SELECT repeat('b', 65534) =~ ('^' || repeat('b', 65534) || '$') AS yes;
SELECT 'b' =~| array_fill('b'::text, array[65536]) AS yes;

-- Too many classes, too large, and too deep
SELECT 'a' =~ (repeat('\s?', 2000)) AS yes;
SELECT 'a' =~ (repeat('\s?', 2001));
SELECT 'a' =~| array_fill('\pL'::text, array[2001]);
SELECT 'a' =~ '(a{1000}){1000}';
SELECT 'a' =~| array_agg('\w{9}' || n) FROM generate_series(1, 1000) n;
SELECT 'a' =~ (repeat('(', 250) || 'a' || repeat(')', 250)) AS yes;
SELECT 'a' =~ repeat('(', 60000);

-- Unicode word boundaries, in short text and in text that is searched in pieces
SELECT 'an ERROR, ä' =~ '\bERROR\b' AS yes;
SELECT 'ä ERROR' =~ '\bERROR\b' AS yes, 'äERROR' =~ '\bERROR\b' AS no;
SELECT lazydfa_find('字 éa b', '\b\w\b'), lazydfa_count('один, два', '\b'), lazydfa_split('ä–ö', '\b');
SELECT 'ä b' =~| array['\bx', '\bb'] AS yes;
SELECT lazydfa_which('ä b', array['\bx', '\bb']), lazydfa_which('и имя', array['и\b', '\Bм\B', '\bя']);
SELECT lazydfa_tokens('и имя', array['и\b', '\w+', '\W']);
SELECT lazydfa_which('ä b', array['\bx', '\bb?']);
SET lazydfa.piece_size = 3;
SELECT 'ERROR ä' =~ '\bERRORS';
SELECT lazydfa_count('ab äb', '\bb');
RESET lazydfa.piece_size;

-- Each error has its SQLSTATE
\set VERBOSITY sqlstate
SELECT 'a' =~ '(';
SELECT 'a' =~ repeat('a', 100000);
SELECT 'a' =~ '(a{1000}){1000}';
SELECT lazydfa_which('ä', array['\ba?']);
SELECT lazydfa_which('a', array['a', NULL]);
SELECT lazydfa_tokens('b', array['a']);
\set VERBOSITY default
