-- Of the sales in the north the dear ones, and what two of each cost.
SELECT id, amount, amount * 2 AS pair FROM sales WHERE region = 'north' AND amount > 15;
-- The same of version 0.
SELECT id, amount, amount * 2 AS pair FROM sales VERSION AS OF 0 WHERE region = 'north' AND amount > 15;
-- Sales without a region, by month.
SELECT MONTH(sold) AS month, amount FROM sales WHERE region IS NULL;
