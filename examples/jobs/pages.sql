-- 60,000 rows in pages of 32 KiB
pragma page_size=32768; pragma cache_size=-200000; pragma temp_store=memory;
create table t(a integer primary key, b text, c blob);
with recursive n(i) as (select 1 union all select i+1 from n where i<60000)
insert into t select i, 'name '||i, randomblob(500+ (i*7919)%900) from n;
create index u on t(b);
select count(*), sum(length(c)) from t;
