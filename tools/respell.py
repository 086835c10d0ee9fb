#!/usr/bin/env python3
"""Respells the names of this repository's own definitions and lemmas, once, after port.py:
words in snake case, types and statements in camel case.

Run it at the top of the repository. In .antt files and in what is ghost in .rt files and edits it replaces
whole names; in comments and in pages only what stands in backticks. Strings stay as they are. Some names get
another word, since two would have fallen together (a definition and a lemma about it).
"""
import pathlib
import re

TABLE = """
Basis-is-not-negative BasisIsNotNegative
Basis-sums-to-one BasisSumsToOne
Box-fits-its-points BoxFitsItsPoints
Close-points-have-close-splines ClosePointsHaveCloseSplines
Domain-is-made-of-spans DomainIsMadeOfSpans
Full-knot-gives-its-point FullKnotGivesItsPoint
Insertion-keeps-the-curve InsertionKeepsTheCurve
Lawful-pieces-are-splines LawfulPiecesAreSplines
Only-its-own-knots-and-points-count OnlyItsOwnKnotsAndPointsCount
Ordered-field IsOrderedField
Raising-keeps-the-curve RaisingKeepsTheCurve
Refuses-the-unlawful RefusesTheUnlawful
Refuses-what-is-no-point RefusesWhatIsNoPoint
Spline-is-linear-in-its-points SplineIsLinearInItsPoints
Spline-lies-between-governing-points SplineLiesBetweenGoverningPoints
Spline-lies-between-its-points SplineLiesBetweenItsPoints
Splitting-keeps-the-curve SplittingKeepsTheCurve
Triangle-gives-the-spline TriangleGivesTheSpline
Worked-examples-stand WorkedExamplesStand
above-both above_both
add-mono add_mono
add-neg add_neg
add-nonneg add_nonneg
add-zero add_zero
all-ranged all_ranged
answers-are answers_are
any-more any_more
any-shifted any_shifted
anyWhere any_where
at-end at_end
at-most-above-kept at_most_above_kept
at-most-whole at_most_whole
at-passed at_passed
at-passes at_passes
at-start at_start
basis-after basis_after
basis-before basis_before
basis-ext basis_ext
basis-flat basis_flat
basis-is-not-negative basis_is_not_negative
basis-nonneg basis_nonneg
basis-sums-to-one basis_sums_to_one
basis-to basis_to
before-end before_end
below-kept below_kept
bentLine bent_line
blend-across blend_across
blend-at-left blend_at_left
blend-at-right blend_at_right
blend-at-start blend_at_start
blend-coordinate blend_coordinate
blend-in-order blend_in_order
blend-kept blend_kept
blend-length blend_length
blend-to blend_to
blendAt blend_at
blendPoint blend_point
blends-high blends_high
blends-low blends_low
box-fits-its-points box_fits_its_points
by-floor-and-rest by_floor_and_rest
casteljau-linear casteljau_linear
clamped-coordinate clamped_coordinate
clamped-is clamped_is
clamped-ranged clamped_ranged
close-points-have-close-splines close_points_have_close_splines
coordinate-greatest coordinate_greatest
coordinate-least coordinate_least
coordinate-negative coordinate_negative
coordinateOf coordinate_of
corner-shifted corner_shifted
count-good count_good
count-is count_is
curve-is curve_is
de-boor triangle_is_series
de-boor-first triangle_is_series_first
deBoor de_boor
deBoor-shifted de_boor_shifted
degree-good degree_good
degree-is degree_is
degree-of degree_of
distrib-right distrib_right
divisor-one divisor_one
divisor-product divisor_product
domain-is-made-of-spans domain_is_made_of_spans
drop-rises drop_rises
ends-high ends_high
ends-rise ends_rise
entries-near entries_near
entry-front entry_front
entry-shifted entry_shifted
entry-width entry_width
equals-are equals_are
exact-coordinate exact_coordinate
exact-entry exact_entry
exact-first exact_first
exact-is exact_is
exactAt exact_at
failed-place failed_place
fall-found fall_found
fall-none fall_none
falls-nowhere falls_nowhere
fault-place fault_place
few-rounds few_rounds
find-span find_span
first-is first_is
first-none first_none
first-point first_point
first-within first_within
firstFall first_fall
firstIllRepeated first_ill_repeated
firstKnot first_knot
firstOutside first_outside
firstWhere first_where
flat-side flat_side
floor-is floor_is
from-test from_test
full-knot-gives-its-point full_knot_gives_its_point
halved-held halved_held
halved-left halved_left
halved-right halved_right
halved-value halved_value
halved-within halved_within
halves-add halves_add
halves-none halves_none
held-is held_is
held-rises held_rises
ill-found ill_found
ill-none ill_none
ill-repeated-nowhere ill_repeated_nowhere
in-inverses in_inverses
in-negatives in_negatives
in-products in_products
in-range in_range
in-sums in_sums
in-the-span in_the_span
inDomain in_domain
indicator-high indicator_high
indicator-in indicator_in
indicator-low indicator_low
indicator-nonneg indicator_nonneg
indicator-split indicator_split
indicator-to indicator_to
inexactBetween inexact_between
inexactEntry inexact_entry
inexactPoint inexact_point
inexactRounds inexact_rounds
insert-degree-0 insert_degree_0
insert-term insert_term
insert-term-ok insert_term_ok
insert-variable insert_variable
insert-variable-ok insert_variable_ok
inserted-before inserted_before
inserted-behind inserted_behind
inserted-here inserted_here
inserted-ordered inserted_ordered
insertedKnots inserted_knots
insertedPoints inserted_points
insertedTimes inserted_times
insertion-keeps-the-curve insertion_keeps_the_curve
inv-nonneg inv_nonneg
inv-same inv_same
inv-zero inv_zero
invF inv_f
inverse-above inverse_above
inverse-below inverse_below
inverse-zero inverse_zero
isCoordinate is_coordinate
isCount is_count
isDegree is_degree
isKnot is_knot
k-within k_within
kept-by-magnitudes kept_by_magnitudes
knotList knot_list
knots-above knots_above
knots-are knots_are
knots-at knots_at
knots-below knots_below
knots-head knots_head
knots-rise knots_rise
knots-size knots_size
knots-swap knots_swap
knotsLeft knots_left
last-is last_is
lastKnot last_knot
lastWhere last_where
lawful-first lawful_first
lawful-last lawful_last
lawful-pieces-are-splines lawful_pieces_are_splines
layerName layer_name
le-add le_add
le-le le_le
le-less le_less
le-more le_more
le-no le_no
le-to le_to
le-whole le_whole
least-greatest least_greatest
left-half left_half_keeps
left-ordered left_ordered
left-part left_part
left-rises left_rises
left-start left_start
left-value left_value
leftAtFour left_at_four
leftKnots left_knots
leftOfArch left_of_arch
length-is length_is
length-of length_of
less-all less_all
less-all-ok less_all_ok
lt-from lt_from
lt-le lt_le
lt-le-lt lt_le_lt
lt-to lt_to
lt-whole lt_whole
magnitude-is magnitude_is
merge-ok merge_ok
mixed-is mixed_is
mul-inv mul_inv
mul-neg mul_neg
mul-nonneg mul_nonneg
mul-one mul_one
mul-zero mul_zero
natural-above natural_above
natural-nonneg natural_nonneg
near-from near_from
near-kept near_kept
near-refl near_refl
near-to near_to
near-trans near_trans
neg-mul neg_mul
neg-neg neg_neg
neg-zero neg_zero
negF neg_f
no-rest no_rest
none-falls none_falls
none-ill-repeated none_ill_repeated
none-outside none_outside
none-where none_where
nonneg-sub nonneg_sub
normal-ok normal_ok
not-above not_above
not-above-greatest not_above_greatest
not-above-magnitude not_above_magnitude
not-below not_below
not-below-least not_below_least
numbers-are numbers_are
of-add of_add
of-difference of_difference
of-halves of_halves
of-mul of_mul
of-order of_order
of-polygon of_polygon
of-products of_products
of-sums of_sums
one-above one_above
one-divisor one_divisor
one-mul one_mul
one-nonneg one_nonneg
one-weight one_weight
oneF one_f
only-its-own-knots-and-points-count only_its_own_knots_and_points_count
order-cons order_cons
order-products order_products
order-suc order_suc
order-variables order_variables
ordered-field ordered_field
out-nowhere out_nowhere
outside-found outside_found
outside-none outside_none
part-of-same part_of_same
pieceRefusal piece_refusal
pieceReport piece_report
pieceThenPoints piece_then_points
place-term place_term
place-term-ok place_term_ok
place-variable place_variable
place-variable-ok place_variable_ok
placedAfter placed_after
plus-is plus_is
plus-le plus_le
plus-ok plus_ok
plus-zero plus_zero
pointRefusal point_refusal
pointReport point_report
points-are points_are
points-head points_head
points-high points_high
points-low points_low
points-middle points_middle
points-size points_size
product-associates product_associates
product-bound product_bound
product-commutes product_commutes
product-inverse product_inverse
product-one product_one
productLessOne product_less_one
products-not-negative products_not_negative
quotient-field quotient_field
quotient-nonneg quotient_nonneg
quotient-ring quotient_ring
raised-casteljau raised_casteljau
raised-end-is raised_end_is
raised-knots-are raised_knots_are
raised-plain raised_plain
raised-start-is raised_start_is
raised-times raised_times
raisedKnots raised_knots
raisedPoints raised_points
raising-keeps-the-curve raising_keeps_the_curve
range-of range_of
ranged-more ranged_more
ranged-none ranged_none
reading-near reading_near
reads-triangle reads_triangle
refuses-the-unlawful refuses_the_unlawful
refuses-what-is-no-point refuses_what_is_no_point
remainder-natural remainder_natural
repeats-well well_repeated
repeatsWell repeats_well
rest-bits rest_bits
rest-fault rest_fault
rest-is rest_is
rest-none rest_none
right-after right_after
right-half right_half_keeps
right-knots knots_of_right
right-ordered right_ordered
right-part right_part
right-rises right_rises
right-start right_start
right-value right_value
rightAtFour right_at_four
rightKnots right_knots
rightOfArch right_of_arch
ring-by ring_by
rises-le rises_le
rises-of rises_of
rising-blend rising_blend
rounded-above rounded_above
rounded-below rounded_below
rounded-blend rounded_blend
rounded-exact rounded_exact
rounded-near rounded_near
rounded-triangle rounded_triangle
rounds-down rounds_down
rounds-more rounds_more
rounds-shifted rounds_shifted
rounds-to rounds_to
rounds-up rounds_up
row-fault row_fault
row-points row_points
rowRefusal row_refusal
same-curve-refl same_curve_refl
same-curve-trans same_curve_trans
same-is same_is
same-sym same_sym
sectionRefusal section_refusal
sectionReport section_report
series-before series_before
series-cong series_cong
series-ext series_ext
series-from series_from
series-is series_is
series-linear series_linear
series-step series_step
shortLine short_line
side-add side_add
side-inv side_inv
side-mul side_mul
side-neg side_neg
sign-times sign_times
some-none some_none
span-after span_after
span-inverse span_inverse
spline-is-linear-in-its-points spline_is_linear_in_its_points
spline-lies-between-governing-points spline_lies_between_governing_points
spline-lies-between-its-points spline_lies_between_its_points
splitting-keeps-the-curve splitting_keeps_the_curve
stands-is stands_is
stands-more stands_more
store-all store_all
store-more store_more
sub-nonneg sub_nonneg
sum-associates sum_associates
sum-commutes sum_commutes
sum-front sum_front
sum-negative sum_negative
sum-zero sum_zero
sumF sum_f
swept-more swept_more
take-stored take_stored
terms-value terms_value
times-after times_after
times-all times_all
times-before times_before
times-ok times_ok
times-raised times_raised
times-raised-here times_raised_here
times-raised-next times_raised_next
times-within times_within
to-order to_order
told-widths told_widths
triangle-ext triangle_ext
triangle-gives-the-spline triangle_gives_the_spline
triangle-is triangle_is
triangle-keeps triangle_keeps
triangle-kept triangle_kept
triangle-to triangle_to
two-halves two_halves
unless-passed unless_passed
unless-passes unless_passes
v-rises v_rises
v-stands v_stands
value-is value_is
value-kept value_kept
value-to value_to
weighted-monotone weighted_monotone
weighted-same weighted_same
whole-blend whole_blend
whole-lt whole_lt
with-knots with_knots
with-points with_points
worked-examples-stand worked_examples_stand
zero-add zero_add
zero-below-one zero_below_one
zero-blend zero_blend
zero-exact zero_exact
zero-mul zero_mul
zero-side zero_side
zero-then zero_then
zeroF zero_f
"""

names = dict(line.split() for line in TABLE.strip().splitlines())
assert len(set(names.values())) == len(names), "two names fall together"
WORD = re.compile(r"[^\s(){}\[\];,.:λ«»\"⌜⌝`|]+")
QUOTED = re.compile(r"`[^`\n]*`")


def respelled(text):
    return WORD.sub(lambda m: names.get(m.group(0), m.group(0)), text)


def in_backticks(text):
    return QUOTED.sub(lambda m: respelled(m.group(0)), text)


def by_lines(text, comment):
    """Code is respelled, a comment from its mark on only in backticks, and a string not at all."""
    out = []
    for line in text.split("\n"):
        at = re.search(comment, line)
        code, rest = (line[: at.start()], line[at.start() :]) if at else (line, "")
        parts = re.split(r'("(?:[^"\\]|\\.)*")', code)
        code = "".join(p if i % 2 else respelled(p) for i, p in enumerate(parts))
        out.append(code + in_backticks(rest))
    return "\n".join(out)


def main():
    top = pathlib.Path(".")
    for path in sorted(top.glob("crates/**/*")) + sorted(top.glob("docs/*.md")) + [top / "README.md"]:
        if "out" in path.parts or not path.is_file():
            continue
        text = path.read_text(encoding="utf-8", errors="surrogateescape")
        if path.suffix == ".antt":
            new = by_lines(text, r"(?:^|\s)--(?:\s|$)")
        elif path.suffix in (".rt", ".edit"):
            new = by_lines(text, r"//")
        elif path.suffix == ".md":
            new = in_backticks(text)
        else:
            continue
        if new != text:
            path.write_text(new, encoding="utf-8", errors="surrogateescape")
            print(path)


main()
