create table t(a integer primary key, b text, c real);
with recursive n(i) as (select 1 union all select i + 1 from n where i < 200000)
  insert into t select i, 'row number ' || i || ' ' || hex(i * 7919), i * 1.5 from n;
create index x on t(b);
select count(*), sum(c) from t where b like '%99%';
update t set c = c + 1 where a % 3 = 0;
delete from t where a % 7 = 0;
vacuum;
select count(*) from t;
