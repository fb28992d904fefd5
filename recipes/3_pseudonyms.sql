-- Drawn numbers in place of the candidates' own, for files that leave the office; before 3_files.sql.
--     sqlite3 office.db <recipes/3_pseudonyms.sql
-- The table written_number stays in the office and leads back. The placement does not depend on the numbers. A list of
-- wishes can still betray a candidate of whom it is known.
.bail on
drop table if exists written_number;
create table written_number as
  select number, row_number() over (order by random()) as written
    from (select number from person union select number from score);
create unique index written_of on written_number (number);
