-- For head office: the numbers of all staff, with their branches. Who has `gone` 1 has left.
-- Asked: nothing.
-- Units: none.
-- sqlite3 -readonly -bail -box COPY < reports/staff.sql
SELECT number, branch, first, last, phone, gone FROM staff ORDER BY number;
