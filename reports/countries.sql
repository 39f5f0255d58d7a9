-- The numbers of countries.
-- Asked: nothing.
-- Units: none.
-- sqlite3 -readonly -bail -box COPY < reports/countries.sql
SELECT number, name FROM country ORDER BY number;
