-- Removes all rows of the table in the folder sales: no file is live then, and a second DELETE finds none.
DELETE FROM sales;
SHOW FILES sales;
SHOW ROWS sales;
DELETE FROM sales;
