#!/usr/bin/env python3
"""Respells the repository's own definitions and lemmas: words in snake case, types in camel case.

usage: python3 tools/respell.py [FOLDER]     once, behind the kit's port.py; FOLDER is the repository's top

A second run would turn names that the first one made (`same_bytes`), so it is run once, on what port.py left.

It turns whole names by the table below, in the .antt files, their comments too, and in the lines of .rt files that begin
with ghost, requires or ensures. A name behind a dot stays (a field that the checker made), but for the four fields of
FIELDS, which are a record's of specs/. A lemma whose name would fall together with a definition's by this table gets
`_lem`. The three marks of records, LA, LD and LE, are turned in the code of .antt files alone, since comments say them
too.
"""
import os
import re
import sys

MARKS = {"LA": "la", "LD": "ld", "LE": "le"}
FIELDS = {"literal-slots": "slots_of_literals", "span-slots": "slots_of_spans", "literal-lender": "literal_lender", "span-lender": "span_lender"}

TABLE = """
addition-fine addition_fine
addition-good addition_good
additionFields addition_fields
additionOf addition_of
additionText addition_text
additions-most additions_most
additionsIn additions_in
after-kill after_kill
all-false all_false
all-headed all_headed
all-linked all_linked
all-put all_put
all-within all_within
allDigits all_digits
allZero all_zero
among-false among_false
among-push among_push
and-then and_then_lem
and-true and_true
announced-is announced_is
any-ends any_ends
any-few any_few
any-within any_within
anyEnding any_ending
anyItems any_items
atEnd at_end
bad-fine bad_fine
begins-from begins_from
behind-in behind_in
behind-within behind_within
behindFirst behind_first
behindHeader behind_header
behindLine behind_line
behindWord behind_word
blank-end blank_end
blank-no-feed blank_no_feed
blank-off blank_off
blank-on blank_on
bucketIn bucket_in
bucketOf bucket_of
by-life by_life
byLeft by_left
byte-set byte_set
byte-zero byte_zero
byteOf byte_of
capacityOf capacity_of
clause-back clause_back
clause-begins clause_begins
clause-goes clause_goes
clause-good clause_good
clause-offends clause_offends
clause-plain clause_plain
clause-push clause_push
clause-satisfied clause_satisfied
clause-text clause_text_lem
clause-within clause_within
clauseFields clause_fields
clauseFrom clause_from
clauseNamed clause_named
clauseOf clause_of
clauseText clause_text
clauseTexts clause_texts
clauses-grow clauses_grow
clauses-plain clauses_plain
clauses-within clauses_within
clausesIn clauses_in
clausesOf clauses_of
clean-keeps clean_keeps
clean-long clean_long
clean-zeros clean_zeros
closed-fine closed_fine
closes-clean closes_clean
closing-back closing_back
closing-fine closing_fine
closing-none closing_none
collect-in collect_in
collect-run collect_run
comment-at comment_at
comment-first comment_first
count-good count_good
count-off count_off
countField count_field
counted-low counted_low
counted-most counted_most
counted-on counted_on
counts-more counts_more
dark-decimal dark_decimal
deadAt dead_at
deadRow dead_row
decimalForm decimal_form
deletion-fine deletion_fine
deletion-good deletion_good
deletionFields deletion_fields
deletionOf deletion_of
deletionText deletion_text
digit-goes digit_goes
digit-on digit_on
droppedIf dropped_if
due-at due_at
each-nth each_nth
each-zero each_zero
ending-keeps ending_keeps
ending-listed ending_listed
endingLeft ending_left
endingOf ending_of
endingText ending_text
ends-here ends_here
entry-slot entry_slot
eq-prop eq_prop
fair-positive fair_positive
faultOf fault_of
feed-at feed_at
feed-end feed_end
feed-here feed_here
feed-on feed_on
feed-unblanked feed_unblanked
feed-word feed_word
few-literals few_literals
few-spans few_spans
field-four field_four
field-one field_one
field-two field_two
fieldFrom field_from
fine-middle fine_middle
first-digit first_digit
firstHead first_head
firstHints first_hints
firstIn first_in
firstLiterals first_literals
firstNumber first_number
firstRecord first_record
five-behind five_behind
flawed-fine flawed_fine
found-again found_again
found-is found_is
four-back four_back
from-good from_good
from-head from_head
from-plain from_plain
from-within from_within
front-all front_all
front-short front_short
front-within front_within
gather-same gather_same
gather-satisfied gather_satisfied
gathered-at gathered_at
gathered-length gathered_length
goes-from goes_from
has-middle has_middle
has-number has_number
hasSpace has_space
hasVariable has_variable
head-is head_is
head-low head_low
head-none head_none
head-some head_some
headBehind head_behind
headSlots head_slots
headText head_text
headed-prop headed_prop
header-plain header_plain
header-within header_within
headerFor header_for
headerOf header_of
heads-kept heads_kept
headsOf heads_of
held-dead held_dead
held-old held_old
heldIn held_in
hintCount hint_count
hintSlots hint_slots
hinted-fine hinted_fine
hints-counted hints_counted
hints-held hints_held
hintsOf hints_of
holds-none holds_none
holds-since holds_since
in-mine in_mine
indexed-prop indexed_prop
inside-more inside_more
inside-nth inside_nth
inside-ranged inside_ranged
is-fair is_fair
is-three is_three
isCut is_cut
isD is_d
isWord is_word
item-listed item_listed
itemIn item_in
itemText item_text
itemWords item_words
items-few items_few
itemsLeft items_left
joinFirst join_first
kept-good kept_good
kept-literals kept_literals
kept-numbers kept_numbers
known-one known_one
known-satisfied known_satisfied
last-back last_back
last-good last_good
lastFields last_fields
lastRecord last_record
left-ends left_ends
left-few left_few
left-first left_first
left-flawed left_flawed
left-keeps left_keeps
left-kept left_kept
left-last left_last
left-line left_line
left-none left_none
left-satisfied left_satisfied
left-second left_second
left-skip left_skip
left-take left_take
left-within left_within
letter-d letter_d
letter-other letter_other
line-end line_end
line-feed line_feed
line-item line_item
line-keeps line_keeps
line-more line_more
line-one line_one
line-unblanked line_unblanked
lineNamed line_named
lineThen line_then
lines-back lines_back
lines-few lines_few
lines-first lines_first
lines-held lines_held
lines-line lines_line
linked-prop linked_prop
literal-back literal_back
literal-good literal_good
literal-in literal_in
literalBytes literal_bytes
literalCount literal_count
literalField literal_field
literalSlots literal_slots
literals-append literals_append
literals-count literals_count
literals-counted literals_counted
literals-front literals_front
literals-held literals_held
literals-more literals_more
literalsIn literals_in
literalsOf literals_of
literalsText literals_text
long-word long_word
looked-as looked_as
looked-none looked_none
made-behind made_behind
made-if made_if
met-held met_held
met-ranged met_ranged
met-room met_room
misshapen-off misshapen_off
more-in more_in
more-spans more_spans
named-high named_high
named-place named_place
nat-digits-none nat_digits_none
nat-first nat_first
nat-none nat_none
nat-past nat_past
nat-sized nat_sized
nat-zero-long nat_zero_long
nat-zero-more nat_zero_more
natural-decimal natural_decimal
negative-is negative_is
negative-low negative_low
negative-zero negative_zero
no-clause no_clause
no-formula no_formula
no-head no_head
no-hint no_hint
no-offence no_offence
no-space no_space
noEnding no_ending
noEntry no_entry
noLines no_lines
noSpan no_span
noTokens no_tokens
none-some none_some
not-blank not_blank
not-fed not_fed
not-surplus not_surplus
not-word not_word
not-zero not_zero
nth-map nth_map
number-back number_back
number-begins number_begins
number-breaks number_breaks
number-ends number_ends
number-good number_good
number-in number_in_lem
number-plain number_plain
numberBytes number_bytes
numberField number_field
numberFrom number_from
numbered-addition numbered_addition
numbered-at numbered_at
numbered-fine numbered_fine
numbered-nth numbered_nth
numbered-part numbered_part
numbers-back numbers_back
numbers-count numbers_count
numbersIn numbers_in
numbersText numbers_text
onClean on_clean
once-middle once_middle
once-push once_push
one-back one_back
one-unknown one_unknown
one-wrong one_wrong
oneMore one_more
opposite-false opposite_false
opposite-of opposite_of
other-first other_first
over-at-end over_at_end
over-keeps over_keeps
over-length over_length
over-more over_more
over-one over_one
over-over over_over
parse-fine parse_fine
parse-item parse_item
part-new part_new
part-old part_old
parts-behind parts_behind
parts-spans parts_spans
place-some place_some
place-within place_within
placeNamed place_named
placedFrom placed_from
plainText plain_text
prefixed-more prefixed_more
prefixed-none prefixed_none
ranged-all ranged_all
ranged-more ranged_more
ranged-part ranged_part
ranged-prop ranged_prop
reached-on reached_on
read-blank read_blank
read-end read_end
read-fine read_fine
read-so read_so
readClauses read_clauses
readFrom read_from
readInto read_into
readLines read_lines
readRecord read_record
readRows read_rows
reads-back reads_back
reads-within reads_within
record-back record_back
record-fine record_fine
record-good record_good
recordFields record_fields
recordOf record_of
recordsOf records_of
refusalAt refusal_at
refusalText refusal_text
refused-at refused_at
refused-so refused_so
row-flawed row_flawed
row-good row_good
row-names row_names
rowFor row_for
rowSlots row_slots
rows-blank rows_blank
rows-clauses rows_clauses
rows-comment rows_comment
rows-kept rows_kept
rows-length rows_length
rows-line rows_line
rows-plain rows_plain
rows-within rows_within
rowsBehind rows_behind
rowsFor rows_for
same-either same_either
same-equal same_equal
same-itself same_itself
sameBytes same_bytes
same_bytes same_bytes_lem
satisfiesClause satisfies_clause
set-none set_none
shows-as shows_as
shows-none shows_none
signless-in signless_in
size-first size_first
size-lines size_lines
sizesOf sizes_of
slot-none slot_none
slot-some slot_some
small-fits small_fits
spaceFor space_for
spaced-begins spaced_begins
spaced-light spaced_light
spaced-literals spaced_literals
spaced-more spaced_more
span-is span_is
spanAt span_at
spanSlots span_slots
spans-length spans_length
spans-more spans_more
spansFrom spans_from
stands-end stands_end
stands-fault stands_fault
stands-first stands_first
stands-more stands_more
stepped-as stepped_as
stops-at-feed stops_at_feed
take-front take_front
take-one take_one
take-three take_three
text-all text_all
text-more text_more
then-good then_good
three-behind three_behind
three-last three_last
three-none three_none
three-two three_two
through-sound through_sound
token-decimal token_decimal
token-first token_first
token-low token_low
token-minus token_minus
token-plain token_plain
token-signed token_signed
tokenOf token_of
tokens-at tokens_at
tokens-for tokens_for_lem
tokens-literals tokens_literals
tokens-low tokens_low
tokens-numbers tokens_numbers
tokens-spaced tokens_spaced
tokens-unblanked tokens_unblanked
tokensFor tokens_for
tokensLeft tokens_left
tokensOf tokens_of
told-from told_from
too-big too_big
total-back total_back
totalField total_field
true-literal true_literal
two-behind two_behind
unblanked-twice unblanked_twice
unknownIn unknown_in
unless-is unless_is
unsigned-low unsigned_low
valueFrom value_from
variablesIn variables_in
variablesOf variables_of
verdict-sound verdict_sound
verdictNext verdict_next
walk-sound walk_sound
with-clause with_clause
withLine with_line
within-not within_not
within-prop within_prop
word-decimal word_decimal
word-ends word_ends
word-length word_length
word-light word_light
word-long word_long
word-off word_off
word-signed word_signed
word-taken word_taken
words-for words_for_lem
words-item words_item
words-literals words_literals
words-numbers words_numbers
words-spaced words_spaced
words-word words_word
wordsFor words_for
zero-each zero_each
zero-less zero_less
zero-only zero_only
zero-token zero_token
"""

NAMES = dict(line.split() for line in TABLE.strip().split("\n"))
START, END = r"(?<![\w'.\-])", r"(?![\w'\-])"
ANYWHERE = r"(?<![\w'\-])"


def turned(text, names, start=START):
    pattern = re.compile(start + "(%s)" % "|".join(sorted(map(re.escape, names), key=len, reverse=True)) + END)
    return pattern.sub(lambda m: names[m.group(1)], text)


def antt(text):
    lines = []
    for line in turned(turned(text, FIELDS, ANYWHERE), NAMES).split("\n"):
        code, dashes, comment = line.partition("--")
        lines.append(turned(code, MARKS) + dashes + comment)
    return "\n".join(lines)


def contracts(text):
    """Only lines that begin with ghost, requires or ensures: here each clause stands on one."""
    clause = re.compile(r"\s*(ghost\b|requires\b|ensures\b)")
    return "\n".join(turned(l, NAMES) if clause.match(l) else l for l in text.split("\n"))


def main(top):
    for folder, dirs, files in os.walk(os.path.join(top, "crates")):
        dirs[:] = [d for d in dirs if d != "out"]
        for name in files:
            path = os.path.join(folder, name)
            if not name.endswith((".antt", ".rt")):
                continue
            with open(path, encoding="utf-8") as f:
                old = f.read()
            new = antt(old) if name.endswith(".antt") else contracts(old)
            if new != old:
                with open(path, "w", encoding="utf-8") as f:
                    f.write(new)


if __name__ == "__main__":
    main(sys.argv[1] if len(sys.argv) > 1 else ".")
