-- Who may do what with the fleet's profiles in PostgreSQL: the role `fleet_loader` may only insert, `fleet_reader` only read. Run it once, as
-- the owner of the tables, after a first load; then `grant fleet_loader to` the user of each machine that loads:
--   psql -v ON_ERROR_STOP=1 -q -f examples/fleet/postgresql_roles.sql
-- Such a user loads into the view `arrivals`, by the same rules as postgresql.sql does. It is sorted, so that two loads at once can't block
-- each other:
--   scripts/fleet_profiles --arrays rows.tsv | LC_ALL=C sort -t "$(printf '\t')" -k 3,3 -k 1,1 -k 4,4 -k 2,2 |
--     psql -v ON_ERROR_STOP=1 -q -c '\copy arrivals from pstdin'
set client_min_messages = warning;
begin;
do $$ begin
    if not exists (select from pg_roles where rolname = 'fleet_loader') then
        create role fleet_loader nologin;
    end if;
    if not exists (select from pg_roles where rolname = 'fleet_reader') then
        create role fleet_reader nologin;
    end if;
end $$;

-- a load as `fleet_profiles --arrays` prints it
create or replace view arrivals as
    select program, build, machine, day, load, weight, moments::text as moments, sizes::text as sizes, counts::text as counts from loads;
create or replace function take_arrival() returns trigger language plpgsql security definer set search_path = public, pg_temp as $$
begin
    insert into loads as stored values (
        new.program, new.build, new.machine, new.day, new.load, new.weight, translate(new.moments, '[]', '{}')::smallint[],
        translate(new.sizes, '[]', '{}')::smallint[], translate(new.counts, '[]', '{}')::bigint[]
    ) on conflict (machine, program, day, build) do update
        set (load, weight, moments, sizes, counts) = (select load, weight, moments, sizes, counts from counted(stored, excluded))
        where excluded.load >= stored.load and stored is distinct from excluded;
    return new;
end $$;
create or replace trigger take_arrival instead of insert on arrivals for each row execute function take_arrival();
revoke all on function take_arrival() from public;
grant insert on arrivals to fleet_loader;
grant select on loads, profiles to fleet_reader;
do $$ begin
    if to_regclass('day_sums') is not null then
        grant select on day_sums, profiles_of_sums to fleet_reader;
    end if;
end $$;
commit;
