# Strings stand in either quote; a quote is doubled or escaped. What is printed can be read back.
@bob create table `select` (k varchar(40) primary key);
@bob insert into `select` values ('it''s'), ("say \"hi\""), ('two\nlines'), ('back\\slash'), ('ünï');
@bob select * from `SELECT`;
