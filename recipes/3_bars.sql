-- The programmes file once more, with bars: of each programme the worst rank that it admits.
--     sqlite3 office.db <recipes/3_bars.sql        behind 3_files.sql, which writes the other two files
-- Table: bar(code, rank), a row for each programme that has a bar; the others admit every rank. Prints each row that place
-- would refuse, or that would have no effect, and nothing where all is well. A least score is no bar: it becomes one as
-- the worst rank of those who reach it, and where nobody does the quota is 0.
.bail on
.mode list
.separator ' '
select 'F03 or F04 bar', code, 'rank', quote(rank) from bar
  where typeof(rank) <> 'integer' or rank not between 1 and 99999999;
select 'bar twice', code, count(*) from bar group by code having count(*) > 1;
select 'bar of no programme', code from bar where code not in (select code from programme);

.mode csv
.separator , "\n"
.headers on
.once programmes.csv
select code as programme, written as type, quota, coalesce(bar.rank, '-') as bar
  from programme join type_name using (type) left join bar using (code) order by code;
