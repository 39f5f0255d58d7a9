-- Payments of no rental, the newest first. Some may be corrections, for which no money was taken (docs/SHOP.md, "A mistake is put right"): the books don't mark them.
-- `may_correct` is a hint and no proof: a rental of that customer that costs as much, came back on the day on which it went out, and is named by no payment.
-- Asked: @branch, the branch's number; @since and @until, the first and the last moment that count, which are the calendar's own where none are set.
-- Units: cents.
-- sqlite3 -readonly -bail -box -cmd ".parameter set @branch 1" -cmd ".parameter set @since 2026-03-01T00:00:00" -cmd ".parameter set @until 2026-03-31T23:59:59" COPY < reports/payments-of-none.sql
.parameter init
INSERT OR IGNORE INTO temp.sqlite_parameters VALUES ('@since', '1970-01-01T00:00:00'), ('@until', '9999-12-31T23:59:59');
CREATE TEMP TABLE asked (branch, since, until,
    CONSTRAINT "@branch is a branch's number" CHECK (typeof(branch) = 'integer'),
    CONSTRAINT "@since is a moment" CHECK (since GLOB '????-??-??T??:??:??'),
    CONSTRAINT "@until is a moment" CHECK (until GLOB '????-??-??T??:??:??'));
INSERT INTO asked VALUES (@branch, @since, @until);
SELECT p.number AS payment, p.moment, p.staff, s.first || ' ' || s.last AS staff_name, p.customer, c.first || ' ' || c.last AS name, p.amount AS cents,
    (SELECT min(r.number)
        FROM rental AS r JOIN rental_terms AS t ON t.branch = r.branch AND t.rental = r.number
        WHERE r.branch = p.branch AND r.customer = p.customer AND t.rate = p.amount AND p.amount > 0
            AND substr(r.returned, 1, 10) = substr(r.moment, 1, 10) AND r.returned <= p.moment
            AND NOT EXISTS (SELECT 1 FROM payment AS o WHERE o.branch = r.branch AND o.customer = r.customer AND o.rental = r.number)) AS may_correct
FROM temp.asked AS a
JOIN payment AS p ON p.branch = a.branch AND p.moment BETWEEN a.since AND a.until AND p.rental IS NULL
JOIN staff AS s ON s.number = p.staff
JOIN customer AS c ON c.branch = p.branch AND c.number = p.customer
ORDER BY p.number DESC;
