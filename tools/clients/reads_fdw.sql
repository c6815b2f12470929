-- The table parts of tsqld from PostgreSQL, by tds_fdw; the variables are host and port.
CREATE EXTENSION tds_fdw;
CREATE SERVER tsqld FOREIGN DATA WRAPPER tds_fdw OPTIONS (servername :'host', port :'port', tds_version '7.4', character_set 'UTF-8');
CREATE USER MAPPING FOR bench SERVER tsqld OPTIONS (username 'sa', password 'A');
CREATE FOREIGN TABLE parts (id int, weight bigint, sold boolean, name varchar(20)) SERVER tsqld OPTIONS (table_name 'parts');
SELECT * FROM parts ORDER BY id;
SELECT name FROM parts WHERE id = 4;
SELECT p.name, o.many FROM parts p JOIN (VALUES (1, 5), (4, 2)) AS o (id, many) USING (id) ORDER BY id;
CREATE FOREIGN TABLE sums (parts int, weight bigint) SERVER tsqld
  OPTIONS (query 'SELECT COUNT(*) AS parts, SUM(weight) AS weight FROM parts WHERE id < 5');
SELECT * FROM sums;
