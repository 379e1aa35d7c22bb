-- The live files of the table in the folder sales.
SHOW FILES sales;
-- Its rows, with their ids and the versions that last wrote them.
SHOW ROWS sales;
-- Those of the version before the other two.
SHOW ROWS sales VERSION AS OF 0;
