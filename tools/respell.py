#!/usr/bin/env python3
"""Brings this repository's own definitions and lemmas to the spelling of today's Rattle: words in snake
case, facts and types in camel case, a prime as an apostrophe.

usage: python3 tools/respell.py [FOLDER]    after the kit's port.py, once, at the top of the repository

It rewrites the names of NAMES in crates/ (definitions, lemmas, fields, and where they are cited) and the
names of NAMES and TURNED in README.md and docs/. TURNED has those that port.py itself turned. Functions
of src/ keep their names: none of them is in the list. A second run changes nothing.
"""

import os
import re
import sys

NAMES = """
    First-fine FirstFine
    Named-fine NamedFine
    admitsIn admits_in
    admitsOn admits_on
    after-whole after_whole
    afterAll after_all
    all-called all_called
    all-lawful all_lawful
    allAdmits all_admits
    allLoad all_load
    allQuiet all_quiet
    allWait all_wait
    answer-kept answer_kept
    arc-count arc_count
    arc-granted arc_granted
    arcAsk arc_ask
    arcCalls arc_calls
    arcOf arc_of
    arcs-count arcs_count
    arcs-full arcs_full
    arcs-same arcs_same
    arrivalsOf arrivals_of
    arrives-once arrives_once
    arrives-twice arrives_twice
    ask-ok ask_ok
    bank-law bank_law
    bankOf bank_of
    below-largest below_largest
    best-no best_no
    best-yes best_yes
    bound-kept bound_kept
    boundAnswer bound_answer
    boundOf bound_of
    boundTo bound_to
    bounds-low bounds_low
    broke-is broke_is
    broken-fit broken_fit
    broken-is broken_is
    brokenOff broken_off
    brokenPage broken_page
    byClass by_class
    bytes-fair bytes_fair
    bytes-prop bytes_prop
    bytes-tail bytes_tail
    callNumberOf call_number_of
    called-ok called_ok
    callsFor calls_for
    callsIn calls_in
    can-law can_law
    canAdmits can_admits
    canLoad can_load
    canOf can_of
    canWait can_wait
    capacityOf capacity_of
    capped-rises capped_rises
    causeText cause_text
    ceiling-rises ceiling_rises
    cellBank cell_bank
    cellMeans cell_means
    changeAsk change_ask
    checkOf check_of
    chosen-bounded chosen_bounded
    chosen-monotone chosen_monotone
    class-fits class_fits
    classesOf classes_of
    comingLate coming_late
    cond-fair cond_fair
    cond-rises cond_rises
    deadline-high deadline_high
    div-rises div_rises
    duration-high duration_high
    duration-low duration_low
    duration-small duration_small
    each-fair each_fair
    empty-whole empty_whole
    end-mono end_mono
    end-small end_small
    ends-map ends_map
    enoughOf enough_of
    entryAnswer entry_answer
    entryAsk entry_ask
    fair-more fair_more
    faultText fault_text
    faultyOf faulty_of
    fields-fine fields_fine
    figureAt figure_at
    figuresOf figures_of
    fileOf file_of
    first-called first_called
    fit-prop fit_prop
    fits-of fits_of
    flatAdmits flat_admits
    flatLoad flat_load
    flatWait flat_wait
    floor-rises floor_rises
    found-is found_is
    frameTicks frame_ticks
    frames-fair frames_fair
    frames-settle frames_settle
    fresh-fit fresh_fit
    fresh-is fresh_is
    frontOf front_of
    gateway-law gateway_law
    gatewayAdmits gateway_admits
    gatewayLoad gateway_load
    gatewayOf gateway_of
    gatewayWait gateway_wait
    granted-unbroken granted_unbroken
    handed-by handed_by
    handed-prop handed_prop
    handed-small handed_small
    hasLimits has_limits
    hasPeriod has_period
    hasStart has_start
    held-within held_within
    in-time in_time
    inQueue in_queue
    inside-by inside_by
    inv-start inv_start
    inv-step inv_step
    isFree is_free
    isLetter is_letter
    isName is_name
    isNewArc is_new_arc
    isQuiet is_quiet
    isStronger is_stronger
    isThere is_there
    isUnused is_unused
    isWeaker is_weaker
    item-fine item_fine
    item-is item_is
    itemAs item_as
    items-count items_count
    items-full items_full
    jitterOf jitter_of
    joined-fit joined_fit
    judgeOf judge_of
    judged-is judged_is
    keepsFields keeps_fields
    largerOf larger_of
    largest-none largest_none
    largestOfWeaker largest_of_weaker
    largestTo largest_to
    largestTo-above largest_to_above
    largestTo-rises largest_to_rises
    largestTo-small largest_to_small
    late-low late_low
    late-new late_new
    late-small late_small
    late-up late_up
    lateAt late_at
    latest-end latest_end
    latest-least latest_least
    latest-mono latest_mono
    latest-start latest_start
    latestOf latest_of
    lawful-handed lawful_handed
    lawful-quiet lawful_quiet
    lawful-settled lawful_settled
    layerOf layer_of
    least-bounds least_bounds
    left-cases left_cases
    left-granted left_granted
    left-refused left_refused
    leftAs left_as
    length-rows length_rows
    linesTo lines_to
    linked-by linked_by
    linked-push linked_push
    load-bounded load_bounded
    load-monotone load_monotone
    loadAt load_at
    loadThere load_there
    loading-bounded loading_bounded
    loading-monotone loading_monotone
    loads-fair loads_fair
    mark-bit mark_bit
    namesIn names_in
    no-hope no_hope
    noArc no_arc
    noLine no_line
    noStations no_stations
    noTimes no_times
    none-hit none_hit
    none-miss none_miss
    none-settle none_settle
    none-tells none_tells
    noneTo none_to
    offset-within offset_within
    onlyFirst only_first
    orEmpty or_empty
    orNone or_none
    outcomeIn outcome_in
    outcomeOf outcome_of
    over-late over_late
    over-wait over_wait
    overOf over_of
    overStronger over_stronger
    overStronger-monotone over_stronger_monotone
    pageText page_text
    period-high period_high
    period-low period_low
    plainItem plain_item
    priority-fits priority_fits
    process-caught process_caught
    process-fits process_fits
    processor-law processor_law
    processorAdmits processor_admits
    processorOf processor_of
    processorWait processor_wait
    pushAt push_at
    pushed-fit pushed_fit
    pushed-is pushed_is
    queue-fits queue_fits
    queueBound queue_bound
    queued-fair queued_fair
    quiet-lawful quiet_lawful
    raised-more raised_more
    ran-is ran_is
    ranOn ran_on
    read-fine read_fine
    readAs read_as
    record-fine record_fine
    recordAs record_as
    recordOf record_of
    refusedPage refused_page
    replaced-fit replaced_fit
    replaced-is replaced_is
    reportOf report_of
    result-is result_is
    right-length right_length
    roundOf round_of
    row-called row_called
    rowAs row_as
    rowText row_text
    rowsIn rows_in
    rowsText rows_text
    run-from run_from
    run-is-well run_is_well
    run-keeps run_keeps
    run-kept run_kept
    run-well run_well
    runAnswer run_answer
    runAsk run_ask
    said-first said_first
    said-none said_none
    said-passed said_passed
    saidIn said_in
    settled-lawful settled_lawful
    settledAsk settled_ask
    settledPage settled_page
    sheet-called sheet_called
    sheetOf sheet_of
    six-break six_break
    six-settle six_settle
    six-tight six_tight
    sixArcs six_arcs
    sixItems six_items
    sixLines six_lines
    sixTimes six_times
    slot-overrun slot_overrun
    slot-shared slot_shared
    sound-of sound_of
    sound-push sound_push
    sound-set sound_set
    spent-is spent_is
    startingAt starting_at
    station-fits station_fits
    stationAt station_at
    stationOf station_of
    step-items step_items
    step-low step_low
    stepAnswer step_answer
    stepAs step_as
    stepAsk step_ask
    stronger-no stronger_no
    stronger-yes stronger_yes
    sum-le sum_le
    sum-of-parts-small sum_of_parts_small
    sumTo-rises sum_to_rises
    sumTo-small sum_to_small
    tableAdmits table_admits
    tableText table_text
    text-more text_more
    text-push text_push
    then-err then_err
    then-granted then_granted
    then-holds then_holds
    then-refused then_refused
    there-no there_no
    there-yes there_yes
    throughSlot through_slot
    throughSlot-rises through_slot_rises
    times-full times_full
    times-granted times_granted
    times-is times_is
    times-of times_of_lem
    times-same times_same
    timesAnswer times_answer
    timesAt times_at
    timesIn times_in
    timesOf times_of
    toldBy told_by
    usedOf used_of
    valid-changed valid_changed
    valid-from valid_from
    valid-of valid_of
    wait-bounded wait_bounded
    wait-low wait_low
    wait-monotone wait_monotone
    wait-small wait_small
    wait-up wait_up
    waitAt wait_at
    waiting-bounded waiting_bounded
    waiting-monotone waiting_monotone
    weaker-no weaker_no
    weaker-yes weaker_yes
    whole-kept whole_kept
    whole-step whole_step
    withRecord with_record
    withStation with_station
    work-fair work_fair
    workOf work_of
    written-fit written_fit
    zero-at zero_at
"""

TURNED = """
    all-made all_made
    all-there all_there
    all-whole all_whole
    answerOf answer_of
    at-map at_map
    by-cases by_cases
    by-written by_written
    bytes-drop bytes_drop
    bytes-take bytes_take
    callsOf calls_of
    capped-small capped_small
    cellOf cell_of
    cond-small cond_small
    covered-more covered_more
    covered-none covered_none
    cutOf cut_of
    end-low end_low
    endAt end_at
    endOf end_of
    fieldsOf fields_of
    first-made first_made
    fit-of fit_of
    fixedAt fixed_at
    isAt is_at
    itemAt item_at
    itemOf item_of
    joined-is joined_is
    left-is left_is
    line-of line_of
    lineAt line_at
    linesOf lines_of
    map-push map_push
    nameOf name_of
    namesOf names_of
    next-small next_small
    no-name no_name
    noItem no_item
    none-from none_from
    numberOf number_of
    one-more one_more
    orElse or_else
    partAt part_at
    partOf part_of
    quiet-if quiet_if
    quiet-is quiet_is
    quiet-same quiet_same
    readOf read_of
    row-at row_at
    row-made row_made
    rowIn row_in
    rowOf row_of
    rows-are rows_are
    rows-same rows_same
    rowsOf rows_of
    rowsTo rows_to
    run-inside run_inside
    run-of run_of
    said-row said_row
    set-at set_at
    settled-is settled_is
    size-fits size_fits
    stateOf state_of
    step-is step_is
    stepOf step_of
    stepsOf steps_of
    sumTo sum_to
    tableOf table_of
    then-ok then_ok
    told-more told_more
    told-of told_of
    turn-is turn_is
    valid-prop valid_prop
    went-on went_on
    whole-fresh whole_fresh
    whole-run whole_run
    wholeOf whole_of
    withRow with_row
    written-is written_is
"""


def pairs(table):
    return dict(line.split() for line in table.strip().splitlines())


def pattern(names):
    """The names as whole words; a step of a generated record, c.NAME or w.NAME, is Rattle's and stays."""
    words = "|".join(re.escape(n) for n in sorted(names, key=len, reverse=True))
    return re.compile(r"(?<![\w'·-])(?<!\bc\.)(?<!\bw\.)(?:" + words + r")(?![\w'-])")


def turn(path, names, words):
    with open(path, encoding="utf-8") as f:
        text = f.read()
    turned = words.sub(lambda m: names[m.group(0)], text)
    if turned != text:
        with open(path, "w", encoding="utf-8") as f:
            f.write(turned)


def main():
    top = sys.argv[1] if len(sys.argv) > 1 else "."
    code = pairs(NAMES)
    pages = {**pairs(TURNED), **code}
    for folder, dirs, files in os.walk(os.path.join(top, "crates")):
        dirs[:] = [d for d in dirs if d != "out"]
        for f in files:
            if f.endswith((".rt", ".antt", ".edit")):
                turn(os.path.join(folder, f), code, pattern(code))
    texts = [os.path.join(top, "README.md"), os.path.join(top, "CHANGELOG.md")]
    texts += [os.path.join(top, "docs", f) for f in sorted(os.listdir(os.path.join(top, "docs"))) if f.endswith(".md")]
    for path in texts:
        turn(path, pages, pattern(pages))


main()
