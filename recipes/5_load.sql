-- The results back into the database, and the table of base ranks that is published.
--     sqlite3 office.db <recipes/5_load.sql        in the folder that has `results`
-- held(number, code) says by the office's own numbers what each candidate holds; reason(number, code, reason, base) why.
.bail on
drop table if exists text_placement;
drop table if exists text_base;
drop table if exists text_reason;
drop table if exists held;
drop table if exists base;
drop table if exists reason;
create table text_placement (candidate integer primary key, programme text);
create table text_base (programme integer primary key, quota integer, held integer, base text);
create table text_reason (candidate integer, programme integer, reason text, base text);
.mode csv
.import --skip 1 results/placement.csv text_placement
.import --skip 1 results/base.csv text_base
.import --skip 1 results/reasons.csv text_reason
create table held as
  select number, cast(nullif(programme, '-') as integer) as code
    from text_placement join written_number on written = candidate;
create table base as
  select programme as code, quota, held, cast(nullif(base, '-') as integer) as base from text_base;
create table reason as
  select number, programme as code, reason, cast(nullif(base, '-') as integer) as base
    from text_reason join written_number on written = candidate order by text_reason.rowid;
create index reason_of on reason (number);
drop table text_placement;
drop table text_base;
drop table text_reason;

-- Base ranks with the score at that rank. Where a seat is free the base rank is no threshold.
.headers on
.separator , "\n"
.once published_base.csv
select programme.code, programme.name, programme.type, base.quota, base.held, base.base as base_rank,
       ranked.score as base_score, case when base.held < base.quota then 'seats free' else 'full' end as note
  from base join programme using (code) join type_name using (type)
       left join ranked on ranked.rank = base.base and ranked.type = written order by programme.code;

.headers off
.mode list
.separator ' '
select 'placed', count(code), 'of', count(*) from held;
select 'wish', place, count(*)
  from (select reason, row_number() over (partition by number order by rowid) as place from reason)
  where reason = 'PLACED' group by place;
