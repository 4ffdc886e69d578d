COMMIT;
BEGIN;
BEGIN;
SET LOCAL plan_cache_mode TO force_custom_plan;
SHOW plan_cache_mode;
COMMIT;
SHOW plan_cache_mode;
SAVEPOINT s;
