-- A spreadsheet's exports (semicolons, quotes, decimal commas, CR LF, a byte order mark) become the office's four tables.
--     sqlite3 office.db <recipes/1_from_exports.sql        in the folder of the exports
-- An office that has its tables in a database begins with 2_look.sql. Names and addresses are not taken on.
.bail on
.mode csv
.separator ; "\r\n"
.import adaylar.csv exported_person
.import puanlar.csv exported_score
.import programlar.csv exported_programme
.import tercihler.csv exported_wish

-- Numbers come with spaces, no-break ones among them, and with decimal commas.
create table person as
  select cast(replace(replace("Aday No", ' ', ''), char(160), '') as integer) as number from exported_person;
create table programme as
  select cast("Kod" as integer) as code, "Program" as name, "Puan Türü" as type,
         cast(replace("Kontenjan", ',', '.') as integer) as quota from exported_programme;
create table score as
  select cast(replace(replace("Aday No", ' ', ''), char(160), '') as integer) as number, "Puan Türü" as type,
         cast(replace("Puan", ',', '.') as real) as score, cast("Sıra" as integer) as tie from exported_score;
create table wish as
  select cast(replace(replace("Aday No", ' ', ''), char(160), '') as integer) as number,
         cast("Sıra" as integer) as place, cast("Kod" as integer) as code from exported_wish;
drop table exported_person;
drop table exported_score;
drop table exported_programme;
drop table exported_wish;
