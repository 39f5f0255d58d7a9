-- What is on its way to a branch, in the order of dispatch, as `GET /arrivals` has it with `received` false. When it was sent is another branch's, and
-- stands in head office's `transit`.
-- Asked: @branch, the branch's number.
-- Units: `films` are the lines' films by their numbers.
-- sqlite3 -readonly -bail -box -cmd ".parameter set @branch 1" COPY < reports/arrivals.sql
CREATE TEMP TABLE asked (branch,
    CONSTRAINT "@branch is a branch's number" CHECK (typeof(branch) = 'integer'));
INSERT INTO asked VALUES (@branch);
SELECT c.source AS "from", c.number, (SELECT '[' || group_concat(film) || ']' FROM (
        SELECT film FROM consignment_line WHERE source = c.source AND addressee = c.addressee AND number = c.number ORDER BY line)) AS films
FROM temp.asked AS a
JOIN consignment AS c ON c.addressee = a.branch AND c.received = 0
ORDER BY c.place;
