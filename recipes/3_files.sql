-- The three files.
--     sqlite3 office.db <recipes/3_files.sql        behind 2_look.sql, which makes the names of score types
-- Three traps: rank() and not row_number(), which would break ties without a word (rank() leaves them, and place says F06);
-- no coalesce(list, ''), since sqlite writes an empty text as "" and no value as nothing; and lines end with CR LF in csv
-- mode, which place takes and other tools stumble over, unless the separator says otherwise.
.bail on

-- The number under which each candidate stands in the files: the own one, where 3_pseudonyms.sql has drawn no other.
create table if not exists written_number as
  select number, number as written from (select number from person union select number from score);

drop table if exists ranked;
create table ranked as
  select number, written as type, score, rank() over (partition by written order by score desc, tie) as rank
    from score join type_name using (type);

.mode csv
.separator , "\n"
.headers on
.once programmes.csv
select code as programme, written as type, quota from programme join type_name using (type) order by code;
.once candidates.csv
select written as candidate, list from person join written_number using (number) left join
  (select number, group_concat(code, ';') as list from (select * from wish order by number, place) group by number)
  using (number) order by written;
.once ranks.csv
select written as candidate, type, rank from ranked join written_number using (number) order by type, rank;
