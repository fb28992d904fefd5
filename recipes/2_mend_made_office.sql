-- What the office that made_office.py makes decides about the rows that 2_look.sql tells. A real office decides by itself.
.bail on
create index if not exists equal_scores on score (type, score, tie);
delete from wish where code not in (select code from programme);
delete from wish where rowid not in (select min(rowid) from wish group by number, code);
delete from wish where rowid in
  (select rowid from (select rowid, row_number() over (partition by number order by place) as nth from wish) where nth > 24);
delete from score where rowid not in (select min(rowid) from score group by number, type);
update score set type = substr(type, 1, length(type) - 1) where type not in (select type from programme);
update score set number = number - 1 where number not in (select number from person);
-- of two whose tie is not broken the one whose row came later comes behind all of their score
update score set tie = (select max(tie) + 1 from score as other where other.type = score.type and other.score = score.score)
  where exists (select 1 from score as other where other.type = score.type and other.score = score.score
                and other.tie = score.tie and other.rowid < score.rowid);
