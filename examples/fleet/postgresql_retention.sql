-- How long the fleet's profiles stay in PostgreSQL: the loads of machines for `days` days, and then the sums of each program, build and day
-- for `sum_days`. Each night, as the owner of the tables:
--   psql -v ON_ERROR_STOP=1 -q -v days=90 -v sum_days=730 -f examples/fleet/postgresql_retention.sql
-- `-v today=2026-03-31` takes another day for today. A day is summed once: what comes later of it is dropped the next night, and said.
\if :{?today}
\else
select current_date as today \gset
\endif
set client_min_messages = warning;
begin;
select pg_advisory_xact_lock(hashtext('loads of a fleet')) as lock \gset
create table if not exists day_sums (
    day date not null,
    program text not null,
    build text not null,
    machines bigint not null, -- of which the sums are
    moments smallint[] not null,
    sizes smallint[] not null,
    counts numeric[] not null, -- each times its machine's weight
    primary key (day, program, build)
);
create table if not exists summed_days (day date primary key);
-- the sums as rows for `fleet_profiles`
create or replace view profiles_of_sums as
    select program, build, 'all'::text as machine, day, 0::bigint as load, 1::bigint as weight, unnest(moments) as moment, unnest(sizes) as size,
        unnest(counts) as count from day_sums;

\pset tuples_only on
\pset format unaligned
select count(*) || ' loads came after their day was summed, and are dropped'
    from loads join summed_days using (day) where day < date :'today' - :days having count(*) > 0;
create temporary table ending on commit drop as
    select distinct day from loads where day < date :'today' - :days and not exists (select from summed_days where summed_days.day = loads.day);
insert into day_sums
    select day, program, build, machines, array_agg(moment order by moment, size), array_agg(size order by moment, size),
        array_agg(count order by moment, size)
    from (
        select day, program, build, moment, size, sum(weight * count) as count from profiles join ending using (day)
        group by day, program, build, moment, size
    ) as cells join (
        select day, program, build, count(*) as machines from loads join ending using (day) group by day, program, build
    ) as numbers using (day, program, build)
    group by day, program, build, machines;
insert into summed_days select day from ending;
delete from loads where day < date :'today' - :days;
delete from day_sums where day < date :'today' - :sum_days;
commit;
