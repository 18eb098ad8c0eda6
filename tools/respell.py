#!/usr/bin/env python3
"""Respells this repository's definitions and lemmas: words in snake case, facts and types in camel case.

usage: python3 tools/respell.py [ROOT]

Run once, at the top, right after the kit's port.py. It goes by whole names, in specs/, proofs/, the ghost lines and clauses of src/, and must-fail edits;
functions of src/, strings and generated names of goals keep their spelling.
"""

import os
import re
import sys

TABLE = """
All-valid=AllValid Character-key=CharacterKey Fixed-key=FixedKey Fixed-tell=FixedTell Keys-apart=KeysApart Keys-named=KeysNamed
Off-keypad=OffKeypad One-way=OneWay Own-number=OwnNumber Places-named=PlacesNamed Tells-fixed=TellsFixed Told-clear=ToldClear
a-all-keys=a_all_keys absent-so=absent_so after-kind=after_kind afterBase=after_base afterCharacter=after_character afterCount=after_count
afterDirection=after_direction afterEvent=after_event afterFlags=after_flags afterLast=after_last afterLength=after_length
afterNumber=after_number afterPlus=after_plus afterPut=after_put afterShifted=after_shifted afterSum=after_sum afterText=after_text
all-joined=all_joined all-keys=all_keys alt-ctrl-a=alt_ctrl_a alternate-keys=alternate_keys alternates-same=alternates_same
alternates-short=alternates_short alternates-stop=alternates_stop amount-push=amount_push anew-pending=anew_pending answers-are=answers_are
answers-rest=answers_rest asks-it=asks_it associated-text=associated_text at-bar=at_bar at-character=at_character at-end=at_end
at-escape=at_escape at-function=at_function at-lettered=at_lettered at-mode=at_mode at-numbered=at_numbered at-pop=at_pop at-query=at_query
at-start=at_start bare-past=bare_past bare-refill=bare_refill bare-so=bare_so bareKey=bare_key base-chain=base_chain base-fits=base_fits
base-form=base_form base-join=base_join base-joins=base_joins base-none=base_none base-opens=base_opens base-shifted=base_shifted
base-stage=base_stage before-none=before_none begins-once=begins_once behind-plus=behind_plus behind-rest=behind_rest blank-past=blank_past
body-from=body_from body-to=body_to buffer-rest=buffer_rest byKey=by_key byLast=by_last byPhys=by_phys byRaw=by_raw bytes-are=bytes_are
bytesTold=bytes_told capped-length=capped_length caps-lock=caps_lock chain-break=chain_break chain-goes=chain_goes chain-nothing=chain_nothing
chain-on=chain_on chain-stop=chain_stop charFault=char_fault charKey=char_key charOf=char_of character-clear=character_clear
characterKey=character_key characters-are=characters_are choose-other=choose_other clear-append=clear_append clear-joined=clear_joined
clear-optional=clear_optional closing-form=closing_form closing-last=closing_last closing-made=closing_made closing-none=closing_none
closing-text=closing_text code-clear=code_clear code-short=code_short codeRaw=code_raw codeTells=code_tells coded-of=coded_of
codes-chain=codes_chain codes-form=codes_form codes-join=codes_join codes-opens=codes_opens composedFault=composed_fault composedOf=composed_of
count-chain=count_chain count-last=count_last count-message=count_message ctrl-shift-a=ctrl_shift_a ctrlForm=ctrl_form
decimal-extend=decimal_extend decimal-not=decimal_not decimal-same=decimal_same delete-passes=delete_passes digit-more=digit_more
digit-range=digit_range digits-end=digits_end digits-go-on=digits_go_on digitsFrom=digits_from direction-chain=direction_chain
direction-digit=direction_digit direction-last=direction_last direction-same=direction_same directionNumber=direction_number
directionOf=direction_of directionOf-number=direction_of-number drain-front=drain_front early-clear=early_clear early-says=early_says
embeds-at=embeds_at embeds-break=embeds_break embeds-same=embeds_same embeds-whole=embeds_whole empty-none=empty_none encode-four=encode_four
encode-three=encode_three encode-two=encode_two enter-release=enter_release enter-release-all=enter_release_all erased-not=erased_not
erased-ok=erased_ok escape-apart=escape_apart escape-is=escape_is escape-none=escape_none escape-plain=escape_plain event-chain=event_chain
event-form=event_form event-join=event_join event-mark=event_mark event-message=event_message event-other=event_other event-press=event_press
event-same=event_same event-short=event_short event-stop=event_stop event-types=event_types eventFault=event_fault eventOf=event_of
fails-append=fails_append fails-reverse=fails_reverse faultNumber=fault_number fieldBytes=field_bytes fields-same=fields_same
fine-below=fine_below first-is=first_is first-twelve=first_twelve firstKey=first_key fits-is=fits_is fits-no=fits_no fits-yes=fits_yes
five-caps=five_caps five-num-lock=five_num_lock fixed-tell=fixed_tell fixed-tells=fixed_tells flags-chain=flags_chain flags-cons=flags_cons
flags-form=flags_form flags-from=flags_from flags-join=flags_join flags-none=flags_none flags-opens=flags_opens flags-set=flags_set
flags-shift=flags_shift flags-stage=flags_stage flags-to=flags_to form-four=form_four form-not=form_not form-same=form_same form-short=form_short
form-three=form_three form-two=form_two four-first=four_first four-made=four_made four-none-2=four_none_2 four-none-3=four_none_3
four-none-4=four_none_4 four-none-front=four_none_front four-short-2=four_short_2 four-short-3=four_short_3 four-whole=four_whole
frame-chain=frame_chain frame-form=frame_form frame-join=frame_join frame-opens=frame_opens frame-sized=frame_sized frameBytes=frame_bytes
from-1=from_1 from-2=from_2 from-3=from_3 from-4=from_4 from-number=from_number fromBase=from_base fromControl=from_control fromCount=from_count
fromDirection=from_direction fromLast=from_last fromShifted=from_shifted fromSum=from_sum front-chars=front_chars front-is=front_is
front-le=front_le front-utf8=front_utf8 front-zero=front_zero fullKey=full_key function-clear=function_clear function-reads=function_reads
functionNumbers=function_numbers functionOf=function_of functionTells=function_tells further-push=further_push further-short=further_short
further-stop=further_stop getD-round=get_or-round givenBy=given_by going-ends=going_ends hand-more=hand_more head-nothing=head_nothing
head-part=head_part headed-is=headed_is heads-same=heads_same held-length=held_length here-value=here_value inForce=in_force inRun=in_run
isBegin=is_begin isPress=is_press joined-append=joined_append joined-joined=joined_joined just-1=just_1 just-2=just_2 just-3=just_3
just-three=just_three key-own=key_own keyFor=key_for keyName=key_name keyNamed=key_named keyNumber=key_number keys-apart=keys_apart
keys-named=keys_named kitty-apart=kitty_apart kitty-same=kitty_same kitty-sized=kitty_sized kittyBytes=kitty_bytes last-chain=last_chain
last-count=last_count last-dark=last_dark last-direction=last_direction last-high=last_high last-same=last_same last-stops=last_stops
lastByte=last_byte lastOf-byte=last_of-byte last_byte=last_byte_lem late-clear=late_clear late-own=late_own late-reads=late_reads laws-of=laws_of
layoutCode=layout_code le32-made=le32_made le32-same=le32_same leads-is=leads_is least-low=least_low ledLabels=led_labels ledsName=leds_name
letter-empty=letter_empty letter-form=letter_form letter-from=letter_from letter-none=letter_none letter-to=letter_to
list-shift-ctrl=list_shift_ctrl listedFrom=listed_from long-none=long_none long-u=long_u longer-fails=longer_fails longer-keeps=longer_keeps
low-bytes=low_bytes mark-chain=mark_chain mark-event=mark_event mark-form=mark_form mark-join=mark_join mark-message=mark_message
mark-next=mark_next marked-same=marked_same marked-short=marked_short marked-stop=marked_stop mode-only=mode_only modifierKey=modifier_key
modifierLabels=modifier_labels modifierPlace=modifier_place modifiersName=modifiers_name modsOr=mods_or most-fits=most_fits movedBy=moved_by
moves-is=moves_is n-front=n_front name-f=name_f name-f-plus-7=name_f_plus_7 name-f0=name_f0 name-f24=name_f24 name-f25=name_f25 nameFor=name_for
namedChars=named_chars namedLights=named_lights namedModifiers=named_modifiers newForm=new_form no-as=no_as no-bar=no_bar noPad=no_pad
noShift=no_shift none-high=none_high none-some=none_some none-value=none_value not-begun=not_begun not-utf8=not_utf8 num-lock=num_lock
number-alternates=number_alternates number-chain=number_chain number-form=number_form number-from=number_from number-join=number_join
number-none=number_none number-opens=number_opens number-stage=number_stage number-to=number_to octet-break=octet_break octet-goes=octet_goes
octet-same=octet_same octet-starts=octet_starts octet-stops=octet_stops of-both=of_both of-told=of_told ofChars=of_chars ofText=of_text
ok-fits=ok_fits ok-middle=ok_middle ok-optional=ok_optional old-clear=old_clear old-own=old_own oldForm=old_form oldWay=old_way
onCharacter=on_character onFunction=on_function onLettered=on_lettered onNumbered=on_numbered onScreen=on_screen one-so=one_so one-whole=one_whole
optional-digits=optional_digits optional-of=optional_of optional-same=optional_same optional-short=optional_short or-else-push=or_else_push
or-else-zero=or_else_zero orNone=or_none orNone-fits=or_none-fits orNone-same=or_none-same orPast=or_past outOfRange=out_of_range
own-number=own_number own-part=own_part pad-clear=pad_clear padCode=pad_code padGuess=pad_guess padNumber=pad_number padPlace=pad_place
padTells=pad_tells part-fit=part_fit part-front=part_front partFault=part_fault parts-bar=parts_bar parts-end=parts_end parts-not=parts_not
parts-short=parts_short past-six=past_six physOf=phys_of physRaw=phys_raw placeAfter=place_after placeName=place_name placeNamed=place_named
placeNumber=place_number places-named=places_named plain-is=plain_is plain-not=plain_not plain-scalar=plain_scalar plainEvent=plain_event
plainKey=plain_key plainKeys=plain_keys plainKind=plain_kind plainName=plain_name plainRaw=plain_raw plainReply=plain_reply
plainStroke=plain_stroke plus-all=plus_all pop-all=pop_all pop-only=pop_only pop-some=pop_some press-is=press_is press-sum=press_sum
pressWith=press_with push-only=push_only push-room=push_room put-none=put_none put-yes=put_yes puts-append=puts_append puts-split=puts_split
quad-3=quad_3 quad-break=quad_break quad-goes=quad_goes quad-none-3=quad_none_3 quad-none-4=quad_none_4 quad-short=quad_short
quad-whole=quad_whole quads-same=quads_same query-only=query_only rangeFault=range_fault rawFault=raw_fault read-on=read_on readFault=read_fault
refusalNumber=refusal_number refusalOf=refusal_of refusalPlace=refusal_place replies-push=replies_push reportsOf=reports_of right-out=right_out
ringed-within=ringed_within room-step=room_step round-push=round_push round-shift=round_shift round-wrap=round_wrap row-top=row_top
run-nothing=run_nothing run-part=run_part run-whole=run_whole same-sequence=same_sequence scalar-coded=scalar_coded scalar-middle=scalar_middle
scalars-at=scalars_at scalars-both=scalars_both scalars-end=scalars_end scalars-parts=scalars_parts scalars-zeros=scalars_zeros
screenNumber=screen_number sequence-head=sequence_head sequence-of=sequence_of set-only=set_only set-seam=set_seam shift-more=shift_more
shiftForm=shift_form shifted-base=shifted_base shifted-chain=shifted_chain shifted-form=shifted_form shifted-join=shifted_join
shifted-opens=shifted_opens shifted-stage=shifted_stage shiftedCode=shifted_code short-kitty=short_kitty short-sound=short_sound
shortForm=short_form shownRow=shown_row some-from=some_from some-none=some_none some-text=some_text spells-as=spells_as stacksOf=stacks_of
stage-break=stage_break stage-goes=stage_goes stage-starts=stage_starts stage-stops=stage_stops suits-refill=suits_refill suits-so=suits_so
sum-base=sum_base sum-chain=sum_chain sum-form=sum_form sum-join=sum_join sum-opens=sum_opens sum-press=sum_press sum-stage=sum_stage
surfacedKey=surfaced_key surrogate-more=surrogate_more take-front=take_front taken-after=taken_after taken-buffer=taken_buffer
taken-count=taken_count taken-set=taken_set taken-within=taken_within tells-it=tells_it tells-report=tells_report tells-same=tells_same
text-chain=text_chain text-closing=text_closing text-fit=text_fit text-form=text_form text-full=text_full text-join=text_join text-made=text_made
text-none=text_none text-opens=text_opens text-stage=text_stage text-strange=text_strange text-u=text_u textFault=text_fault
texts-clear=texts_clear texts-own=texts_own texts-reads=texts_reads there-below=there_below third-is=third_is three-first=three_first
three-none-2=three_none_2 three-none-3=three_none_3 three-none-front=three_none_front three-short=three_short three-whole=three_whole
toLower=to_lower told-clear=told_clear told-valid=told_valid tooLong=too_long top-is=top_is topped-is=topped_is two-short=two_short
two-whole=two_whole typed-more=typed_more typed-other=typed_other typed-push=typed_push typed-same=typed_same typed-short=typed_short
typed-stop=typed_stop unreadKeys=unread_keys unreadPlaces=unread_places up-shift=up_shift utf8-decides=utf8_decides view-3=view_3 view-4=view_4
whole-asks=whole_asks whole-short=whole_short with-capacity=with_capacity withDigit=with_digit withLabel=with_label within-coded=within_coded
wordBits=word_bits wrote-front=wrote_front wrote-more=wrote_more xtermOf=xterm_of zero-alone=zero_alone zeros-good=zeros_good
"""

# Names that stand for a function of src/ as well: respelled in specs/ and proofs/ alone.
SPECS_ALONE = {"last_byte"}


def main():
    root = sys.argv[1] if len(sys.argv) > 1 else "."
    names = dict(pair.split("=") for pair in TABLE.split())
    whole = re.compile(r"(?<![\w'\-\u00b7])(" + "|".join(re.escape(n) for n in sorted(names, key=len, reverse=True)) + r")(?![\w'\-\u00b7])")
    changed = 0
    for folder, dirs, files in os.walk(os.path.join(root, "crates")):
        dirs[:] = sorted(d for d in dirs if d != "out")
        for name in sorted(files):
            path = os.path.join(folder, name)
            if not name.endswith((".antt", ".rt", ".edit")):
                continue
            with open(path, encoding="utf-8") as f:
                text = f.read()
            alone = not name.endswith(".antt")

            def new(m):
                return m[1] if alone and m[1] in SPECS_ALONE else names[m[1]]

            turned = whole.sub(new, text)
            if turned != text:
                changed += 1
                with open(path, "w", encoding="utf-8") as f:
                    f.write(turned)
    print(f"respell: {changed} files")


main()
