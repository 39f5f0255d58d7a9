-- For head office: the numbers of branches, with the manager's number and the moment of the last accepted command. No token is shown.
-- Asked: nothing.
-- Units: none.
-- sqlite3 -readonly -bail -box COPY < reports/branches.sql
SELECT b.number, b.address, b.postal, b.phone, ci.name AS city, b.manager, b.last_moment
FROM branch AS b JOIN city AS ci ON ci.number = b.city
ORDER BY b.number;
