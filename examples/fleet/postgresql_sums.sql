-- The sums of all machines of a build together, as rows for `fleet_profiles`:
--   psql -q -f examples/fleet/postgresql_sums.sql > sums.tsv
set client_encoding = 'UTF8';
\pset format unaligned
\pset fieldsep '\t'
\pset tuples_only on
set work_mem = '64MB';
set enable_sort = off; -- of the cells, whose number the planner can't know
-- a number for each sum's program, build and day: numbers are grouped many times as fast as texts
with groups as materialized (
    select program, build, day, row_number() over () as number from (select distinct program, build, day from loads) as every
), cells as (
    select number, unnest(moments) as moment, unnest(sizes) as size, weight * unnest(counts) as count
    from loads join groups using (program, build, day)
), sums as (
    select number, moment, size, sum(count) as count from cells group by number, moment, size
)
select program, build, 'all', day, 0, 1, moment, size, count from sums join groups using (number)
    order by program, build, day, moment, size;
