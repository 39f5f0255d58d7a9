-- The numbers of languages.
-- Asked: nothing.
-- Units: none.
-- sqlite3 -readonly -bail -box COPY < reports/languages.sql
SELECT number, name FROM language ORDER BY number;
