-- Who owes how much: each customer of a branch whose balance isn't 0, the greatest first, by the chain's rule, as `GET /balance`.
-- Asked: @branch, the branch's number; @at, a moment, or else now in the time of @zone; @zone, an offset as -07:00, or else UTC.
-- Units: cents; below 0 is what the branch owes the customer. `rentals` and `payments` are what the customer's rentals cost and the payments brought.
-- sqlite3 -readonly -bail -box -cmd ".parameter set @branch 1" -cmd ".parameter set @at 2026-03-31T18:00:00" COPY < reports/balances.sql
.parameter init
INSERT OR IGNORE INTO temp.sqlite_parameters VALUES ('@zone', '+00:00');
INSERT OR IGNORE INTO temp.sqlite_parameters VALUES ('@at', strftime('%Y-%m-%dT%H:%M:%S', 'now', @zone));
CREATE TEMP TABLE asked (branch, zone, at,
    CONSTRAINT "@branch is a branch's number" CHECK (typeof(branch) = 'integer'),
    CONSTRAINT "@zone is an offset, as -07:00" CHECK (zone GLOB '[+-][0-9][0-9]:[0-9][0-9]'),
    CONSTRAINT "@at is a moment" CHECK (coalesce(at, '') GLOB '????-??-??T??:??:??'));
INSERT INTO asked VALUES (@branch, @zone, @at);
WITH
fees AS (
    -- what each rental that began by the moment costs, by the chain's rule
    SELECT l.*, l.rate + 100 * l.late + CASE WHEN l.comment_rule = 1 AND l.late > 2 * l.period THEN l.replacement ELSE 0 END AS fee
    FROM (
        SELECT r.branch, r.number, r.customer, r.copy, r.moment, r.returned, t.rate, t.period, t.replacement, w.comment_rule,
            max(0, CAST(coalesce(julianday(date(CASE WHEN w.comment_rule = 0 THEN r.returned ELSE min(coalesce(r.returned, a.at), a.at) END))
                - julianday(date(r.moment)), 0) AS INTEGER) - t.period) AS late
        FROM temp.asked AS a
        JOIN chain_rule AS w
        JOIN rental AS r ON r.branch = a.branch AND r.moment <= a.at
        JOIN rental_terms AS t ON t.branch = r.branch AND t.rental = r.number
    ) AS l
),
cost AS (SELECT customer, sum(fee) AS cents FROM fees GROUP BY customer),
paid AS (
    SELECT p.customer, sum(p.amount) AS cents
    FROM temp.asked AS a JOIN payment AS p ON p.branch = a.branch AND p.moment <= a.at
    GROUP BY p.customer
)
SELECT c.number AS customer, c.first || ' ' || c.last AS name, c.phone, coalesce(cost.cents, 0) AS rentals, coalesce(paid.cents, 0) AS payments,
    coalesce(cost.cents, 0) - coalesce(paid.cents, 0) AS balance
FROM temp.asked AS a
JOIN customer AS c ON c.branch = a.branch
LEFT JOIN cost ON cost.customer = c.number
LEFT JOIN paid ON paid.customer = c.number
WHERE coalesce(cost.cents, 0) <> coalesce(paid.cents, 0)
ORDER BY balance DESC, c.number;
