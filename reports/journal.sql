-- A branch's books as a journal of hledger: what its rentals cost, by the chain's rule, and what was paid. `assets:drawer` is the takings, and
-- `assets:customers:N` what customer N owes, as `GET /balance`. Days are of the branch's own moments.
-- Asked: @branch, the branch's number; @at, a moment, or else now in the time of @zone; @zone, an offset as -07:00, or else UTC.
-- Units: dollars. A late day and a replacement are of the day of the return, or of the moment's day where the copy is out.
-- sqlite3 -readonly -bail -list -noheader -cmd ".parameter set @branch 1" -cmd ".parameter set @at 2026-03-31T18:00:00" COPY < reports/journal.sql
.parameter init
INSERT OR IGNORE INTO temp.sqlite_parameters VALUES ('@zone', '+00:00');
INSERT OR IGNORE INTO temp.sqlite_parameters VALUES ('@at', strftime('%Y-%m-%dT%H:%M:%S', 'now', @zone));
CREATE TEMP TABLE asked (branch, zone, at,
    CONSTRAINT "@branch is a branch's number" CHECK (typeof(branch) = 'integer'),
    CONSTRAINT "@zone is an offset, as -07:00" CHECK (zone GLOB '[+-][0-9][0-9]:[0-9][0-9]'),
    CONSTRAINT "@at is a moment" CHECK (coalesce(at, '') GLOB '????-??-??T??:??:??'));
INSERT INTO asked VALUES (@branch, @zone, @at);
WITH
fees AS (
    -- what each rental that began by the moment costs, by the chain's rule
    SELECT l.*, CASE WHEN l.comment_rule = 1 AND l.late > 2 * l.period THEN l.replacement ELSE 0 END AS replaced
    FROM (
        SELECT e.*, max(0, CAST(coalesce(julianday(date(e.ended)) - julianday(date(e.moment)), 0) AS INTEGER) - e.period) AS late
        FROM (
            SELECT r.branch, r.number, r.customer, r.copy, r.moment, t.rate, t.period, t.replacement, w.comment_rule,
                CASE WHEN w.comment_rule = 0 THEN r.returned ELSE min(coalesce(r.returned, a.at), a.at) END AS ended
            FROM temp.asked AS a
            JOIN chain_rule AS w
            JOIN rental AS r ON r.branch = a.branch AND r.moment <= a.at
            JOIN rental_terms AS t ON t.branch = r.branch AND t.rental = r.number
        ) AS e
    ) AS l
),
entry (moment, kind, number, told, customer, debit, credit, cents) AS (
    -- a title may have what begins a comment of hledger
    SELECT f.moment, 1, f.number, 'rental ' || f.number || ', copy ' || f.copy || ': ' || replace(fi.title, ';', ','), f.customer, 'assets:customers:' || f.customer, 'income:rentals', f.rate
    FROM fees AS f
    JOIN copy AS c ON c.branch = f.branch AND c.number = f.copy
    JOIN film AS fi ON fi.number = c.film
    UNION ALL
    SELECT f.ended, 2, f.number, 'rental ' || f.number || ', late days: ' || f.late, f.customer, 'assets:customers:' || f.customer, 'income:late', 100 * f.late
    FROM fees AS f WHERE f.late > 0
    UNION ALL
    SELECT f.ended, 3, f.number, 'rental ' || f.number || ', replacement', f.customer, 'assets:customers:' || f.customer, 'income:replacements', f.replaced
    FROM fees AS f WHERE f.replaced > 0
    UNION ALL
    SELECT p.moment, 4, p.number, 'payment ' || p.number || coalesce(' of rental ' || p.rental, ' of no rental'), p.customer, 'assets:drawer', 'assets:customers:' || p.customer, p.amount
    FROM temp.asked AS a JOIN payment AS p ON p.branch = a.branch AND p.moment <= a.at
)
SELECT line FROM (
    SELECT 0 AS part, '' AS moment, 0 AS kind, 0 AS number, '; the books of branch ' || a.branch || ' at ' || a.at || char(10) || 'commodity $1000.00' || char(10)
        || 'account assets:drawer' || char(10) || 'account income:rentals' || char(10) || 'account income:late' || char(10) || 'account income:replacements' AS line
    FROM temp.asked AS a
    UNION ALL
    SELECT 1, '', 0, e.customer, 'account assets:customers:' || e.customer FROM entry AS e GROUP BY e.customer
    UNION ALL
    SELECT 2, e.moment, e.kind, e.number, printf('%s%s %s%s    %s  $%d.%02d%s    %s', char(10), substr(e.moment, 1, 10), e.told, char(10), e.debit, e.cents / 100, e.cents % 100, char(10), e.credit)
    FROM entry AS e
)
ORDER BY part, moment, kind, number;
