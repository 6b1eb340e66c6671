# Along an order of moments that the script gives: ada's statement has its start, then bob's commits, and only then ada's is decided on.
order ada/1 ada/1 ada/2 ada/2 bob/1 ada/3 bob/1 ada/3 ada/4
@ada CREATE TABLE stock (item VARCHAR(10) PRIMARY KEY, shelf BIGINT, cellar BIGINT);
@ada INSERT INTO stock VALUES ('apple', 10, 20);
@bob UPDATE stock SET cellar = cellar - 1;
@ada UPDATE stock SET shelf = shelf - 1;
@ada SELECT * FROM stock;
