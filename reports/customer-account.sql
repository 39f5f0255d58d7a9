-- One customer's account: rentals with what they cost and payments, one after another, by the chain's rule. The balance after the
-- last row is that of `GET /balance`. After an earlier row it has what the rentals up to that row cost, as known at the moment asked for.
-- Asked: @branch, the branch's number; @customer, the customer's number there; @at, a moment, or else now in the time of @zone; @zone, an offset as -07:00, or else UTC.
-- Units: cents, a payment's below 0; `late` is days.
-- sqlite3 -readonly -bail -box -cmd ".parameter set @branch 1" -cmd ".parameter set @customer 1" -cmd ".parameter set @at 2026-03-31T18:00:00" COPY < reports/customer-account.sql
.parameter init
INSERT OR IGNORE INTO temp.sqlite_parameters VALUES ('@zone', '+00:00');
INSERT OR IGNORE INTO temp.sqlite_parameters VALUES ('@at', strftime('%Y-%m-%dT%H:%M:%S', 'now', @zone));
CREATE TEMP TABLE asked (branch, customer, zone, at,
    CONSTRAINT "@branch is a branch's number" CHECK (typeof(branch) = 'integer'),
    CONSTRAINT "@customer is a customer's number" CHECK (typeof(customer) = 'integer'),
    CONSTRAINT "@zone is an offset, as -07:00" CHECK (zone GLOB '[+-][0-9][0-9]:[0-9][0-9]'),
    CONSTRAINT "@at is a moment" CHECK (coalesce(at, '') GLOB '????-??-??T??:??:??'));
INSERT INTO asked VALUES (@branch, @customer, @zone, @at);
WITH
fees AS (
    -- what each rental that began by the moment costs, by the chain's rule
    SELECT l.*, l.rate + 100 * l.late + CASE WHEN l.comment_rule = 1 AND l.late > 2 * l.period THEN l.replacement ELSE 0 END AS fee
    FROM (
        SELECT r.branch, r.number, r.customer, r.copy, r.moment, r.returned, t.rate, t.period, t.replacement, w.comment_rule,
            max(0, CAST(coalesce(julianday(date(CASE WHEN w.comment_rule = 0 THEN r.returned ELSE min(coalesce(r.returned, a.at), a.at) END))
                - julianday(date(r.moment)), 0) AS INTEGER) - t.period) AS late
        FROM temp.asked AS a
        JOIN chain_rule AS w
        JOIN rental AS r ON r.branch = a.branch AND r.moment <= a.at AND r.customer = a.customer
        JOIN rental_terms AS t ON t.branch = r.branch AND t.rental = r.number
    ) AS l
)
SELECT it.*, sum(it.cents) OVER (ORDER BY it.moment, it.what DESC, it.number) AS balance
FROM (
    SELECT f.moment, 'rental' AS what, f.number, f.copy, fi.title, f.returned, f.late, f.fee AS cents
    FROM fees AS f
    JOIN copy AS c ON c.branch = f.branch AND c.number = f.copy
    JOIN film AS fi ON fi.number = c.film
    UNION ALL
    SELECT p.moment, 'payment', p.number, NULL, CASE WHEN p.rental IS NULL THEN 'of no rental' ELSE 'of rental ' || p.rental END, NULL, NULL, -p.amount
    FROM temp.asked AS a JOIN payment AS p ON p.branch = a.branch AND p.customer = a.customer AND p.moment <= a.at
) AS it
ORDER BY it.moment, it.what DESC, it.number;
