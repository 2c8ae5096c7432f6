#!/usr/bin/env python3
"""Respells the repository's own definitions, lemmas, fields and constructors: words in snake case, types in camel case.

usage: python3 tools/respell.py      once, at the top, after port.py of the kit has turned the files

It renames whole names only, in the .rt, .antt and .edit files below crates/ and, between back quotes, in README.md and docs/*.md.
Functions of src/, exported names, strings, inputs and outputs are not in the table.
"""

import os
import re

# the old name, then the new one
TABLE = """
Advance-in-two-parts AdvanceInTwoParts
All-fit AllFit
Amounts-fit AmountsFit
As-expected AsExpected
Count-never-falls CountNeverFalls
Covered-decided CoveredDecided
Covered-rules-are-decided CoveredRulesAreDecided
Covering-is-as-expected CoveringIsAsExpected
Each-as-expected EachAsExpected
Each-computed EachComputed
Events-fit EventsFit
Every-run-continues EveryRunContinues
Expected-cells ExpectedCells
Has-cells HasCells
Joined-is-the-same JoinedIsTheSame
Numbers-fit NumbersFit
Reading-never-falls ReadingNeverFalls
Residual-numbers-fit ResidualNumbersFit
Run-fits RunFits
Same-call SameCall
Settled-one-way SettledOneWay
Settled-only-where-observed SettledOnlyWhereObserved
Sum-never-falls SumNeverFalls
Two-parts-alike TwoPartsAlike
Verdicts-are-exact VerdictsAreExact
Verdicts-are-final VerdictsAreFinal
Verdicts-final VerdictsFinal
Worked-runs-are-as-expected WorkedRunsAreAsExpected
absorbing-stored absorbing_stored
add-fits add_fits
added-all added_all
added-all-rises added_all_rises
added-append added_append
added-joined added_joined
added-rises added_rises
advance-by advance_by
advanced-expired advanced_expired
advanced-fuse advanced_fuse
advanced-stands advanced_stands
advanced-upward advanced_upward
after-calls after_calls
after-rises after_rises
ahead-less ahead_less
alike-added alike_added
all-observed all_observed
all-stands all_stands
allZero all_zero
amount-between amount_between
amount-less amount_less
amount-on amount_on
amount-same amount_same
amount-since amount_since
amount-to-end amount_to_end
amounts-fit amounts_fit
and-false and_false
any-observed any_observed
any-stands any_stands
append-fits append_fits
as-expected as_expected
as-joined as_joined
at-end at_end
at-record at_record
at-stands at_stands
bare-records bare_records
behind-in behind_in
behind-is behind_is
blank-at blank_at
blank-bare blank_bare
blank-lawful blank_lawful
bookRefusal book_refusal
both-open both_open
bufferNumber buffer_number
builds-none builds_none
by-book by_book
by-border by_border
by-trace by_trace
callFrom call_from
calls-append calls_append
calls-more calls_more
calls-push calls_push
carried-more carried_more
carriedOut carried_out
cells-after cells_after
cells-paired cells_paired
chain-at chain_at
chain-observed chain_observed_lem
chainObserved chain_observed
chainOf chain_of
channels-lawful channels_lawful
coarse-lawful coarse_lawful
coarse-sum-lawful coarse_sum_lawful
code-kind code_kind
cond-length cond_length
const-left const_left
const-right const_right
constant-is constant_is
constant-shut constant_shut
constants-differ constants_differ
count-is count_is
countOk count_ok
covered-decided covered_decided
covered-or covered_or
decInside dec_inside
drop-fits drop_fits
each-as-expected each_as_expected
each-fails each_fails
each-false each_false
each-join each_join
each-now each_now
each-point each_point
each-rest each_rest
each-stored each_stored
each-true each_true
earlier-off earlier_off
either-of either_of
either-open either_open
entered-more entered_more
events-fit events_fit
events-stand events_stand
eventually-0-to-10 eventually_0_to_10
eventually-4-to-9 eventually_4_to_9
exact-at exact_at
extended-more extended_more
false-at false_at
false-exact false_exact
false-fails false_fails
false-iff false_iff
false-kept false_kept
false-stays false_stays
fault-refusal fault_refusal
faultOf fault_of
fieldsOk fields_ok
final-at final_at
first-advances first_advances
first-ahead first_ahead
first-at first_at
first-behind first_behind
first-iff first_iff
first-joined first_joined
first-or first_or
first-top first_top
fit-before fit_before
fit-up-to fit_up_to
fits-take fits_take
flag-or flag_or
fold-turn fold_turn
followLine follow_line
followRefusal follow_refusal
followedLine followed_line
formula-at formula_at_lem
formula-of formula_of_lem
formulaAt formula_at
formulaOf formula_of
formulaOver formula_over
fresh-observed fresh_observed
fresh-stands fresh_stands
front-is front_is
fuse-open fuse_open
fuse-other fuse_other
fuse-same fuse_same
good-at good_at
grows-after grows_after
grows-by grows_by
grows-up-to grows_up_to
has-operand has_operand
head-kind head_kind
held-write held_write
if-before if_before
in-any-case in_any_case
in-two-parts in_two_parts
inner-open inner_open
inner-past inner_past
inner-rule inner_rule
inside-as inside_as
inside-not-past inside_not_past
is-false-at is_false_at
is-true-at is_true_at
join-fits join_fits
join-iff join_iff
joined-is-the-same joined_is_the_same
joins-or joins_or
keeps-is keeps_is
kept-before kept_before
kind-code kind_code
kind-known kind_known
kindOk kind_ok
kinds-more kinds_more
last-of-length last_of_length
last-part last_part
lastOf last_of
layerName layer_name
leftObserved left_observed
leftWeight left_weight
length-below length_below
length-one length_one
length-recordsOf length-records_of
length-stored length_stored
length-writtenAt length-written_at
link-in link_in
link-number link_number
linksOk links_ok
loads-back loads_back
mark-0-after-3 mark_0_after_3
mark-small mark_small
mark-stands mark_stands
means-constant means_constant
means-end means_end
meant-coded meant_coded
more-advances more_advances
named-drop named_drop
names-none names_none
namesLink names_link
never-falls never_falls
next-ahead next_ahead
next-behind next_behind
next-first next_first
no-window no_window
none-le none_le
none-means none_means
none-observed none_observed
none-sat none_sat
none-spans none_spans
none-timed none_timed
not-false-iff not_false_iff
not-mark not_mark
not-mark-stands not_mark_stands
not-past not_past
now-or-later now_or_later
now-past now_past
null-left null_left
null-right null_right
number-link number_link
number2-bytes number2_bytes
number8-bytes number8_bytes
numberFor number_for
observe-0 observe_0
observe-1 observe_1
observe-both observe_both
observe-none observe_none
observed-stands observed_stands
observed-upward observed_upward
of-kind of_kind
on-absorbed on_absorbed
on-at on_at
on-from on_from
on-joined on_joined
on-left on_left
on-right on_right
one-term one_term
oneSided one_sided
ones-or-le ones_or_le
only-first only_first
onward-more onward_more
onward-none onward_none
onward-once onward_once
open-pair open_pair
operandsObserved operands_observed
operandsOf operands_of
operandsOk operands_ok
other-clock other_clock
other-left other_left
other-right other_right
outcome-at outcome_at
outcomeOf outcome_of
outcomes-after outcomes_after
outcomes-more outcomes_more
outcomes-push outcomes_push
over-spans over_spans
over-stands over_stands
own-clock own_clock
own-window own_window
ownWeight own_weight
pair-open pair_open
part-below part_below
part-fits part_fits
part-written part_written
parts-alike parts_alike
parts-call parts_call
parts-outcomes parts_outcomes
pass-more pass_more
passed-append passed_append
passed-more passed_more
passed-stored passed_stored
passed-term passed_term
past-rises past_rises
past-spans past_spans
past-window past_window
peak-lawful peak_lawful
pick-not pick_not
place-off place_off
place-past place_past
places-all places_all
places-more places_more
pushed-leaf pushed_leaf
rack-meaning rack_meaning
reach-is reach_is
reading-after reading_after
reading-joined reading_joined
record-at record_at_lem
record-back record_back
recordAt record_at
recordOf record_of
recordsOf records_of
recordsOf-at records_of-at
refusal-for refusal_for
refusalLine refusal_line
refusalOf refusal_of
refused-by refused_by
refused-line refused_line
release-0-to-5 release_0_to_5
residual-added residual_added
residual-numbers-fit residual_numbers_fit
residual-sat residual_sat
rewritten-all rewritten_all
rewritten-append rewritten_append
right-behind right_behind
run-accepted run_accepted
run-refused run_refused
said-meant said_meant
same-advances same_advances
same-call same_call
same-clock same_clock
same-fault same_fault
same-mark same_mark
same-marks same_marks
same-outcomes same_outcomes
same-right same_right
same-verdict same_verdict
saturated-assoc saturated_assoc
saturated-rises saturated_rises
says-again says_again
second-top second_top
seen-iff seen_iff
seen-settled seen_settled
seen-tells seen_tells
settled-false settled_false
settled-final settled_final
settled-true settled_true
settled-verdict settled_verdict
simplified-says simplified_says
some-fails some_fails
some-false some_false
some-later some_later
some-now some_now
some-on some_on
some-point some_point
some-split some_split
some-true some_true
span-at span_at
span-one span_one
spans-or spans_or
split-lawful split_lawful
starts-at-zero starts_at_zero
starts-ok starts_ok
step-before step_before
step-inside step_inside
step-or step_or
still-over still_over
stores-false stores_false
stores-fresh stores_fresh
stores-pair stores_pair
stores-true stores_true
stores-waiting stores_waiting
sum-lawful sum_lawful
there-rises there_rises
through-or through_or
timed-fails timed_fails
timed-false timed_false
timed-holds timed_holds
timed-or timed_or
timed-true timed_true
timedBy timed_by
timedOf timed_of
toGo to_go
toGo-falls to_go_falls
told-open told_open
told-paired told_paired
tops-depth tops_depth
total-add total_add
total-drop total_drop
total-le total_le
total-less total_less
total-link total_link
total-names total_names
total-nil total_nil
total-one total_one
total-rises total_rises
total-same total_same
total-shift total_shift
true-at true_at
true-exact true_exact
true-holds true_holds
true-iff true_iff
true-kept true_kept
true-stays true_stays
two-found two_found
two-more two_more
two-parts two_parts
two-parts-alike two_parts_alike
two-requests two_requests
two-sides two_sides
twoSided two_sided
until-3-to-5 until_3_to_5
verdict-exact verdict_exact
verdict-false verdict_false
verdict-true verdict_true
verdictName verdict_name
verdicts-final verdicts_final
waiting-advanced waiting_advanced
waiting-at waiting_at
waiting-observed waiting_observed
waiting-parts waiting_parts
waiting-stands waiting_stands
waitingOf waiting_of
weighed-from weighed_from
weight-at weight_at
weight-bound weight_bound
weightOf weight_of
where-accepted where_accepted
where-observed where_observed
where-refused where_refused
window-at window_at
window-of window_of
windowIn window_in
windowOf window_of_record
windowOk window_ok
with-added with_added
with-kind with_kind
with-record with_record
with-seen with_seen
worked-runs worked_runs
written-again written_again
writtenAt written_at
writtenBelow written_below
zero-not-past zero_not_past
zeros-are zeros_are
"""

NAMES = dict(line.split() for line in TABLE.split("\n") if line)
PART = r"A-Za-z0-9_'\u2080-\u2089\u2115-"
WHOLE = re.compile("(?<![" + PART + "])(?:" + "|".join(re.escape(n) for n in sorted(NAMES, key=len, reverse=True)) + ")(?![" + PART + "])")


def respelled(text):
    return WHOLE.sub(lambda m: NAMES[m.group(0)], text)


def sources(root):
    for folder, folders, names in os.walk(os.path.join(root, "crates")):
        folders[:] = [d for d in folders if d not in ("out", "target")]
        for name in names:
            if name.endswith((".rt", ".antt", ".edit")):
                yield os.path.join(folder, name)


def pages(root):
    yield os.path.join(root, "README.md")
    for name in os.listdir(os.path.join(root, "docs")):
        if name.endswith(".md") and not name.startswith("PORT"):
            yield os.path.join(root, "docs", name)


def rewrite(path, turn):
    with open(path, encoding="utf-8") as file:
        old = file.read()
    new = turn(old)
    if new != old:
        with open(path, "w", encoding="utf-8") as file:
            file.write(new)


def main():
    root = os.path.dirname(os.path.dirname(os.path.realpath(__file__)))
    for path in sources(root):
        rewrite(path, respelled)
    for path in pages(root):
        rewrite(path, lambda text: re.sub(r"`[^`\n]*`", lambda m: respelled(m.group(0)), text))


if __name__ == "__main__":
    main()
