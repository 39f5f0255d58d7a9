-- What was entered on each day as paid at a branch. It isn't what came into the drawer: a payment of no rental may be a correction, for which no money was taken, and
-- money that was handed back isn't entered (docs/SHOP.md, "A mistake is put right"). The books mark neither. `payments-of-none` lists the payments in question.
-- Asked: @branch, the branch's number; @since and @until, the first and the last moment that count, which are the calendar's own where none are set.
-- Units: cents; `payments` counts them. `of_rentals` is what payments of a rental brought, `of_none` what those of no rental did, `cents` both.
-- sqlite3 -readonly -bail -box -cmd ".parameter set @branch 1" -cmd ".parameter set @since 2026-03-01T00:00:00" -cmd ".parameter set @until 2026-03-31T23:59:59" COPY < reports/takings-by-day.sql
.parameter init
INSERT OR IGNORE INTO temp.sqlite_parameters VALUES ('@since', '1970-01-01T00:00:00'), ('@until', '9999-12-31T23:59:59');
CREATE TEMP TABLE asked (branch, since, until,
    CONSTRAINT "@branch is a branch's number" CHECK (typeof(branch) = 'integer'),
    CONSTRAINT "@since is a moment" CHECK (since GLOB '????-??-??T??:??:??'),
    CONSTRAINT "@until is a moment" CHECK (until GLOB '????-??-??T??:??:??'));
INSERT INTO asked VALUES (@branch, @since, @until);
SELECT substr(p.moment, 1, 10) AS day,
    count(*) AS payments,
    sum(CASE WHEN p.rental IS NULL THEN 0 ELSE p.amount END) AS of_rentals,
    sum(CASE WHEN p.rental IS NULL THEN p.amount ELSE 0 END) AS of_none,
    sum(p.amount) AS cents
FROM temp.asked AS a JOIN payment AS p ON p.branch = a.branch AND p.moment BETWEEN a.since AND a.until
GROUP BY day
ORDER BY day;
