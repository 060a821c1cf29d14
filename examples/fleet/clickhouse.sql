-- A fleet's profiles in ClickHouse. On each server of the cluster `fleet`: its own part of what arrived, and the tables over all parts.
-- A row of `arrivals` is a load as `fleet_profiles --arrays` prints it, or a part of one: what a machine counted of a build of a program on
-- a day. Nothing that arrived is replaced, but by the same once more: `counted` has what counts of it, by the rules of
-- `fleet_profiles --help`. All rows of a machine are on one server, which its name chooses.
-- What an earlier release stored stays as it is. Copy it from its table `loads`, once and on one server, but for names in which it read
-- backslashes as control characters:
--   insert into arrivals (program, build, machine, day, load, weight, moments, sizes, counts)
--     select program, build, machine, day, load, weight, moments, sizes, counts from loads final
--     where not match(concat(program, build, machine), '[\\x01-\\x1f\\x7f]')
create table if not exists arrivals_local (
    program String, build String, machine String, day Date,
    load UInt64, -- its number; 0 where it has none: then the one that arrives last counts
    weight UInt32, -- for how many machines, or requests, it stands, itself included
    moments Array(UInt16), -- of a history, from 1 on; 0 in a profile
    sizes Array(UInt16), -- 16369 stands for `large`
    counts Array(UInt64),
    second UInt64 default if(load = 0, toUInt64(toUnixTimestamp(now())), 0), -- of its arrival, where it has no number
    digest UInt64 default cityHash64(moments, sizes, counts)
) engine = ReplacingMergeTree(second) partition by day order by (machine, program, day, build, load, weight, digest);
create table if not exists arrivals as arrivals_local engine = Distributed(fleet, default, arrivals_local, cityHash64(machine));

-- its rows, as `fleet_profiles` reads them. Of all cells of a key the last ones by load, second and weight count, and of those with one
-- moment and size the greatest count.
create view if not exists counted_local as
    select program, build, machine, day, cell.1 as load, cell.3 as weight, cell.4 as moment, cell.5 as size, cell.6 as count
    from (
        select program, build, machine, day,
            arraySort(groupArray((load, second, weight, moment, size, count))) as cells, cells[-1] as last,
            arrayPushBack(arrayPopFront(cells), (last.1, last.2, last.3, toUInt16(65535), last.5, last.6)) as next, -- of each cell
            arrayFilter((one, other) -> (one.1, one.2, one.3) = (last.1, last.2, last.3) and (one.4, one.5) != (other.4, other.5), cells, next)
                as kept
        from arrivals_local array join moments as moment, sizes as size, counts as count
        group by program, build, machine, day
    ) array join kept as cell;
create table if not exists counted as counted_local engine = Distributed(fleet, default, counted_local);
