-- A fleet's profiles in PostgreSQL: the table of loads, and the load of more:
--   scripts/fleet_profiles --arrays rows.tsv | psql -v ON_ERROR_STOP=1 -q -f examples/fleet/postgresql.sql
-- A load is what a machine counted of a build of a program on a day: one row, so that it comes and goes as a whole. Of several with one
-- key one counts, by the rules of `fleet_profiles --help`, also where two are loaded at once.
set client_min_messages = warning; -- that the table exists is no news
set client_encoding = 'UTF8'; -- a database of another encoding refuses a name that it can't have
begin;
select pg_advisory_xact_lock(hashtext('loads of a fleet')) as lock \gset
do $$ begin
    if (select relkind from pg_class where oid = to_regclass('profiles')) = 'r' then
        raise exception 'the table profiles has the rows of an earlier release' using hint =
            'Write them into a file: select program, build, machine, day, weight, moment, size, count from profiles order by load, program, '
            'build, machine, day, moment, size. Then `alter table profiles rename to profiles_before`, and load the file.';
    end if;
end $$;
create table if not exists loads (
    program text not null,
    build text not null,
    machine text not null,
    day date not null,
    load bigint not null check (load >= 0), -- its number; 0 where it has none
    weight bigint not null check (weight between 1 and 1000000000), -- for how many machines, or requests, it stands, itself included
    moments smallint[] not null check (0 <= all (moments) and 1024 >= all (moments)), -- of a history, from 1 on; 0 in a profile
    sizes smallint[] not null check (0 <= all (sizes) and 16369 >= all (sizes)), -- 16369 stands for `large`
    counts bigint[] not null check (0 < all (counts)),
    primary key (machine, program, day, build),
    check (cardinality(sizes) > 0 and cardinality(sizes) = cardinality(moments) and cardinality(sizes) = cardinality(counts))
);
do $$ begin
    if not exists (select from pg_constraint where conrelid = to_regclass('loads') and conname = 'loads_names') then
        -- such a name would forge rows where it is printed
        alter table loads add constraint loads_names check (program || build || machine !~ '[\x01-\x1f\x7f]');
    end if;
exception when check_violation then
    raise exception 'the table loads has names with control characters' using hint = 'An earlier release read some backslashes so. Run '
        'delete from loads where program || build || machine ~ ''[\x01-\x1f\x7f]'', and load these machines anew.';
end $$;
do $$ begin
    if to_regclass('loads_by_day') is null then -- only to ask would wait for each load that is on its way
        create index loads_by_day on loads (day, program);
    end if;
end $$;

-- its rows, as `fleet_profiles` reads them
create or replace view profiles as
    select program, build, machine, day, load, weight, unnest(moments) as moment, unnest(sizes) as size, unnest(counts) as count from loads;

-- the load that counts, of one in the table and of another one with its key
create or replace function counted(old loads, new loads) returns loads language plpgsql as $$
begin
    if new.load <> old.load then
        return case when new.load > old.load then new else old end;
    elsif new.load = 0 then -- the later one, unless it is a cut copy
        return case when new.weight = old.weight and not exists (
            select * from unnest(new.moments, new.sizes, new.counts) except select * from unnest(old.moments, old.sizes, old.counts)
        ) then old else new end;
    elsif new.weight <> old.weight then
        return case when new.weight > old.weight then new else old end;
    end if;
    select array_agg(moment order by moment, size), array_agg(size order by moment, size), array_agg(count order by moment, size)
        into new.moments, new.sizes, new.counts
        from (
            select moment, size, max(count) as count from (
                select * from unnest(old.moments, old.sizes, old.counts) union all select * from unnest(new.moments, new.sizes, new.counts)
            ) as every(moment, size, count) group by moment, size
        ) as united;
    return new;
end $$;

commit;

begin;
set local work_mem = '64MB'; -- to sort them
create temporary table arriving (
    program text, build text, machine text, day date, load bigint, weight bigint, moments text, sizes text, counts text
) on commit drop;
\copy arriving from pstdin
-- Of several with one key, one after the other. In the order of the key: two loads at once then wait for each other, and neither for ever.
create temporary table numbered on commit drop as
    select *, row_number() over (partition by machine, program, day, build order by load desc, length(sizes) desc) as place from arriving;
do $$ begin
    for at in 1 .. (select coalesce(max(place), 0) from numbered) loop
        insert into loads as old
            select program, build, machine, day, load, weight,
                replace(replace(moments, '[', '{'), ']', '}')::smallint[], replace(replace(sizes, '[', '{'), ']', '}')::smallint[],
                replace(replace(counts, '[', '{'), ']', '}')::bigint[] -- `translate` takes ten times as long
            from numbered where place = at and (at = 1 or load > 0) order by machine, program, day, build
            on conflict (machine, program, day, build) do update
            set (load, weight, moments, sizes, counts) = (select load, weight, moments, sizes, counts from counted(old, excluded))
            where excluded.load >= old.load and old is distinct from excluded;
    end loop;
end $$;
commit;
