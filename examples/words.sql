-- Prints the words by which pgcopy copies a table, one a line: an option `oid=` for each type of which it needs the oid,
-- and then the types of the columns, as COPY sends them.
--
--     psql -X -At -v table=NAME -f examples/words.sql
--
-- They are the words for COPY NAME TO, which leaves out generated columns. A column of a type that pgcopy does not copy
-- has that type's name, at which pgcopy says that it is none.
WITH RECURSIVE
    -- each type, and the type whose values its own are sent as: of a domain that is the one that it stands on
    sent (type, base) AS (
        SELECT oid, oid FROM pg_type WHERE typtype <> 'd'
        UNION ALL
        SELECT d.oid, s.base FROM pg_type d JOIN sent s ON s.type = d.typbasetype WHERE d.typtype = 'd'
    ),
    kinds AS (
        SELECT t.oid AS type, n.nspname || '.' || t.typname AS key, t.typarray AS array_type,
            n.nspname <> 'pg_catalog' AS is_own, b.typelem AS element, b.typrelid AS relation,
            CASE m.nspname WHEN 'pg_catalog' THEN b.typname ELSE m.nspname || '.' || b.typname END AS name,
            CASE
                WHEN b.typtype = 'c' THEN 'record'
                WHEN p.proname = 'array_send' THEN 'array'
                WHEN p.proname IN ('textsend', 'varcharsend', 'bpcharsend', 'namesend', 'citextsend', 'enum_send',
                    'json_send') THEN 'text'
                ELSE 'other'
            END AS kind
        FROM sent s
            JOIN pg_type t ON t.oid = s.type
            JOIN pg_namespace n ON n.oid = t.typnamespace
            JOIN pg_type b ON b.oid = s.base
            JOIN pg_namespace m ON m.oid = b.typnamespace
            LEFT JOIN pg_proc p ON p.oid = b.typsend
    ),
    -- each column, and each type in its type: the elements of arrays, and the components of records
    types (path, type, may_be_null, is_inside, is_next) AS (
        SELECT ARRAY[attnum::int], atttypid, NOT attnotnull, false, false
        FROM pg_attribute
        WHERE attrelid = :'table'::regclass AND attnum > 0 AND NOT attisdropped AND attgenerated = ''
        UNION ALL
        SELECT o.path || i.place, i.type, true, true, i.is_next
        FROM types o JOIN kinds k USING (type) CROSS JOIN LATERAL (
            SELECT 1 AS place, k.element AS type, false AS is_next WHERE k.kind = 'array'
            UNION ALL
            SELECT attnum, atttypid, row_number() OVER (ORDER BY attnum) > 1
            FROM pg_attribute
            WHERE k.kind = 'record' AND attrelid = k.relation AND attnum > 0 AND NOT attisdropped
        ) i
    ),
    -- the same, by what stands in front of the types in each and behind them
    texts AS (
        SELECT path, is_next, may_be_null, type, key, array_type, kind, name,
            is_key AND is_inside AND (kind = 'record' OR kind = 'text' AND key <> 'pg_catalog.text') AS needs_oid,
            is_key AND (kind = 'record' OR kind = 'text' AND (is_own OR is_inside AND key <> 'pg_catalog.text')) AS has_key
        FROM types JOIN kinds USING (type) CROSS JOIN LATERAL (
            SELECT key ~ '^[A-Za-z0-9_]+[.][A-Za-z0-9_]+$' AS is_key
        ) names
    ),
    parts (path, text) AS (
        SELECT path || 0, CASE WHEN is_next THEN ',' ELSE '' END || CASE WHEN has_key THEN '@' || key || ':' ELSE '' END
            || CASE kind WHEN 'record' THEN '(' WHEN 'array' THEN '' WHEN 'text' THEN 'text' ELSE name END
        FROM texts
        UNION ALL
        SELECT path || 2147483647, CASE kind WHEN 'record' THEN ')' WHEN 'array' THEN '[]' ELSE '' END
            || CASE WHEN may_be_null THEN '?' ELSE '' END
        FROM texts
    )
SELECT word
FROM (
    SELECT DISTINCT 0 AS place, 'oid=' || key || ':' || type::oid || ':' || array_type::oid AS word
    FROM texts WHERE needs_oid
    UNION ALL
    SELECT path[1], string_agg(text, '' ORDER BY path) FROM parts GROUP BY path[1]
) words
ORDER BY place, word;
