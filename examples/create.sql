-- Makes a table, shows that it has no rows, and removes all of them. A second CREATE TABLE finds it.
CREATE TABLE orders (
    id BIGINT NOT NULL,
    region STRING,
    amount DECIMAL(10,2),
    sold DATE,
    year INT GENERATED ALWAYS AS (YEAR(sold)),
    CONSTRAINT paid CHECK (amount > 0)
) PARTITIONED BY (year) TBLPROPERTIES ('delta.columnMapping.mode' = 'name');
SHOW ROWS orders;
DELETE FROM orders;
CREATE TABLE orders (id BIGINT);
