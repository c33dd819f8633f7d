/* Walks over the lists, which pass over what rules ghost and skip say. */
#include "../peer.h"
#include "../rules.h"

struct ttm_resource *__real_ttm_resource_manager_first(struct ttm_resource_manager *man, struct ttm_resource_cursor *cursor);
struct ttm_resource *__wrap_ttm_resource_manager_first(struct ttm_resource_manager *man, struct ttm_resource_cursor *cursor);
struct ttm_resource *__real_ttm_resource_manager_next(struct ttm_resource_cursor *cursor);
struct ttm_resource *__wrap_ttm_resource_manager_next(struct ttm_resource_cursor *cursor);

static struct ttm_resource *first_not_passed_over(struct ttm_resource_cursor *cursor, struct ttm_resource *res)
{
	while (res && is_passed_over(res))
		res = __real_ttm_resource_manager_next(cursor);
	return res;
}

struct ttm_resource *__wrap_ttm_resource_manager_first(struct ttm_resource_manager *man, struct ttm_resource_cursor *cursor)
{
	return first_not_passed_over(cursor, __real_ttm_resource_manager_first(man, cursor));
}

struct ttm_resource *__wrap_ttm_resource_manager_next(struct ttm_resource_cursor *cursor)
{
	return first_not_passed_over(cursor, __real_ttm_resource_manager_next(cursor));
}
