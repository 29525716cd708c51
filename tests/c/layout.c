/* The structs of include/plans.h lie in memory as those of the library, which are #[repr(C)]: compiled, never run. */
#include <stddef.h>

#include "plans.h"

_Static_assert(sizeof(plans_built) == 20, "size of plans_built");
_Static_assert(offsetof(plans_built, refusal) == 0, "plans_built.refusal");
_Static_assert(offsetof(plans_built, length) == 4, "plans_built.length");
_Static_assert(offsetof(plans_built, states) == 8, "plans_built.states");
_Static_assert(offsetof(plans_built, joins) == 12, "plans_built.joins");
_Static_assert(offsetof(plans_built, distinct) == 16, "plans_built.distinct");

_Static_assert(sizeof(plans_counted) == 24, "size of plans_counted");
_Static_assert(offsetof(plans_counted, refusal) == 0, "plans_counted.refusal");
_Static_assert(offsetof(plans_counted, length) == 4, "plans_counted.length");
_Static_assert(offsetof(plans_counted, states) == 8, "plans_counted.states");
_Static_assert(offsetof(plans_counted, joins) == 12, "plans_counted.joins");
_Static_assert(offsetof(plans_counted, distinct) == 16, "plans_counted.distinct");
_Static_assert(offsetof(plans_counted, counts_length) == 20, "plans_counted.counts_length");

_Static_assert(sizeof(plans_rewritten) == 12, "size of plans_rewritten");
_Static_assert(offsetof(plans_rewritten, refusal) == 0, "plans_rewritten.refusal");
_Static_assert(offsetof(plans_rewritten, length) == 4, "plans_rewritten.length");
_Static_assert(offsetof(plans_rewritten, states) == 8, "plans_rewritten.states");

_Static_assert(sizeof(plans_walked) == 16, "size of plans_walked");
_Static_assert(offsetof(plans_walked, refusal) == 0, "plans_walked.refusal");
_Static_assert(offsetof(plans_walked, outcome) == 1, "plans_walked.outcome");
_Static_assert(offsetof(plans_walked, next_count) == 2, "plans_walked.next_count");
_Static_assert(offsetof(plans_walked, walked) == 4, "plans_walked.walked");
_Static_assert(offsetof(plans_walked, next_names) == 8, "plans_walked.next_names");

_Static_assert(sizeof(plans_written) == 8, "size of plans_written");
_Static_assert(offsetof(plans_written, refusal) == 0, "plans_written.refusal");
_Static_assert(offsetof(plans_written, length) == 4, "plans_written.length");

_Static_assert(sizeof(plans_plan_rows) == 16, "size of plans_plan_rows");
_Static_assert(offsetof(plans_plan_rows, refusal) == 0, "plans_plan_rows.refusal");
_Static_assert(offsetof(plans_plan_rows, length) == 4, "plans_plan_rows.length");
_Static_assert(offsetof(plans_plan_rows, rows) == 8, "plans_plan_rows.rows");
_Static_assert(offsetof(plans_plan_rows, at) == 12, "plans_plan_rows.at");
