-- Everything for which `place` would refuse the files, all at once, by the office's own rows; and what costs a seat and is
-- no fault. Prints nothing where all is well.
--     sqlite3 office.db <recipes/2_look.sql
-- Tables: person(number), programme(code, type, quota), score(number, type, score, tie), wish(number, place, code).
.bail on
.mode list
.separator ' '

-- The names of score types as the files may have them: capital letters of ASCII, and digits.
create view if not exists type_name as
  select type, replace(replace(replace(replace(replace(replace(type,
         'Ç', 'C'), 'Ğ', 'G'), 'İ', 'I'), 'Ö', 'O'), 'Ş', 'S'), 'Ü', 'U') as written
    from (select type from programme union select type from score);

select 'F05 score type', type, 'written', written from type_name
  where written glob '*[^A-Z0-9]*' or length(written) not between 1 and 8;
select 'two score types of one name', written, group_concat(type, ' and ') from type_name
  group by written having count(*) > 1;
select 'F04 score types', count(distinct type), 'of at most 16' from programme having count(distinct type) > 16;
select 'F03 or F04 programme', code, 'quota', quota from programme
  where typeof(code) <> 'integer' or code not between 1 and 999999999
     or typeof(quota) <> 'integer' or quota not between 0 and 100000;
select 'F06 programme twice', code, count(*) from programme group by code having count(*) > 1;
select 'F03 or F04 person', number from person
  where typeof(number) <> 'integer' or number not between 1 and 99999999999;
select 'F06 person twice', number, count(*) from person group by number having count(*) > 1;
select 'F07 unknown programme', code, 'wished by', number, 'at place', place from wish
  where code not in (select code from programme);
select 'F06 wish twice', number, code, count(*) from wish group by number, code having count(*) > 1;
select 'F08 list too long', number, count(*) from wish group by number having count(*) > 24;
select 'order of wishes not told', number, 'place', place, count(*) from wish
  group by number, place having count(*) > 1;
select 'F06 score twice', number, type, count(*) from score group by number, type having count(*) > 1;
select 'F06 tie not broken', type, score, tie, group_concat(distinct number) from score
  group by type, score, tie having count(distinct number) > 1;

-- No faults: rows that would have no effect.
select 'wish of nobody', number, code from wish where number not in (select number from person);
select 'score of nobody', number, type from score where number not in (select number from person);
select 'score of a type without a programme', number, type from score where type not in (select type from programme);
select 'programme of a type without scores', code, type from programme where type not in (select type from score);
