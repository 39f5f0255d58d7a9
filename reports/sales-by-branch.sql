-- For head office: what each branch took for rentals, as its word `sales`. A branch that took nothing for a rental isn't listed.
-- Asked: nothing.
-- Units: cents.
-- sqlite3 -readonly -bail -box COPY < reports/sales-by-branch.sql
SELECT b.number AS branch, coalesce(s.first || ' ' || s.last, '') AS manager, ci.name || ',' || co.name AS store, sum(p.amount) AS total
FROM branch AS b
JOIN city AS ci ON ci.number = b.city
JOIN country AS co ON co.number = ci.country
LEFT JOIN staff AS s ON s.number = b.manager
JOIN payment AS p ON p.branch = b.number AND p.rental IS NOT NULL
GROUP BY b.number
ORDER BY b.number;
