#!/bin/sh
# Runs the example programs, and holds what they print against what must be so; and runs dtp with its output closed:
# examples/test.sh [PATH OF dtp].
set -eu
dtp=${1:-dtp}
here=$(dirname "$0")
if ! command -v python3 > /dev/null; then
    echo "no python3: nothing was run"
    exit 0
fi
# nothing is left behind beside the examples
export PYTHONDONTWRITEBYTECODE=1

failed() {
    echo "FAILED: $1" >&2
    exit 1
}

# held LINE PROGRAM WORD..: what the words print must bring the awk program to status 0; then the line is printed
held() {
    line=$1 program=$2
    shift 2
    printed=$("$@") || failed "$line: status $? of $*: $printed"
    printf '%s\n' "$printed" | awk "$program" || failed "$line: this isn't so in what $* printed: $printed"
    echo "$line"
}

# judged SCRIPT CHECKER..: what the checker says of a script with its certificate
judged() {
    script=$1
    shift
    { cat "$script" && "$dtp" certify < "$script"; } | "$@"
}

held "the schedule keeps the plan" '
    NR == 1 { sat = ($0 == "sat") }
    /^kettle on: /    { on = $NF }
    /^water boils: /  { boils = $NF }
    /^tea is ready: / { ready = $NF }
    END { exit !(sat && NR == 4 && on == 0 && boils - on >= 4 && ready - boils >= 3 && ready <= 15) }' python3 "$here/schedule.py" "$dtp"

# by hand: 15 + 40 + 10 minutes are over an hour, and so are 15 + 50: each of these three may go, and the baking alone may not
held "what clashes is named, and what may be given up" '
    /^These/ { clash = 1 }
    /^It can/ { clash = 0; without = 1 }
    /^  / && clash { clashing++ }
    /^  / && without { given[$0] = 1 }
    END { exit !(clashing >= 2 && clashing < 8 && given["  guests come at three"] && given["  mixing takes fifteen"] &&
        given["  nobody begins before two"] && !given["  the cake bakes for forty"]) }' python3 "$here/why_not.py" "$dtp"

# 4 minutes until the water boils and 3 more: 7 is the least, and 6 are too few
held "the kitchen is planned in seven minutes" '
    { answers = answers $0 ";" }
    END { exit !(answers == "sat;(minimum 7);unsat;") }' "$dtp" solve < "$here/kitchen.smt2"
held "of two orders no schedule keeps both" '
    { answers = answers $0 ";" }
    END { exit !(answers == "unsat;") }' "$dtp" solve < "$here/two_orders.smt2"
for script in kitchen two_orders; do
    held "the certificate of $script is accepted" '$0 != "accepted" || NR > 1 { exit 1 }' judged "$here/$script.smt2" "$dtp" check
done

# 14 by hand: the oven is wanted for 12 minutes and nothing gets there before 2; each bake's steps come in its order
held "the chart is a shortest plan" '
    function letters(line, letter) { return gsub(letter, letter, line) }
    function last(line, letter,  place) { for (place = length(line); place && substr(line, place, 1) != letter; place--); return place }
    /^mixer / { mixer = $2 }
    /^oven /  { oven = $2 }
    /^table / { table = $2 }
    /^makespan 14$/ { ready = 1 }
    /^no plan is shorter: dtp check accepts the proof$/ { proved = 1 }
    END {
        whole = length(mixer) == 14 && length(oven) == 14 && length(table) == 14
        bread = letters(mixer, "b") == 3 && letters(oven, "b") == 5 && letters(table, "b") == 1
        cake = letters(mixer, "c") == 2 && letters(oven, "c") == 4 && letters(table, "c") == 3
        pie = letters(table, "p") == 2 && letters(mixer, "p") == 2 && letters(oven, "p") == 3
        together = mixer ~ /bbb/ && mixer ~ /cc/ && mixer ~ /pp/ && oven ~ /bbbbb/ && oven ~ /cccc/ && oven ~ /ppp/ &&
            table ~ /ccc/ && table ~ /pp/
        ordered = last(mixer, "b") < index(oven, "b") && last(oven, "b") < index(table, "b") && last(mixer, "c") < index(oven, "c") &&
            last(oven, "c") < index(table, "c") && last(table, "p") < index(mixer, "p") && last(mixer, "p") < index(oven, "p")
        exit !(ready && proved && whole && bread && cake && pie && together && ordered)
    }' python3 "$here/bakes.py" "$dtp"

# each printed move is made again by the rules of the protocol, with A = 5 and B = 4
held "a delay that is too short lets two processes in" '
    /^at [0-9]+: process [01] / {
        now = $2 + 0
        p = $4
        if (now < before) wrong = 1
        before = now
    }
    / asks$/   { if (place[p] != 0 || lock != "") wrong = 1; place[p] = 1; clock[p] = now }
    / writes / { if (place[p] != 1 || now - clock[p] > 5) wrong = 1; place[p] = 2; clock[p] = now; lock = "of " p }
    / enters$/ { if (place[p] != 2 || now - clock[p] <= 4 || lock != "of " p) wrong = 1; place[p] = 3 }
    / back$/   { if (place[p] != 2 || lock == "of " p) wrong = 1; place[p] = 0 }
    / leaves$/ { if (place[p] != 3) wrong = 1; place[p] = 0; lock = "" }
    { final = $0 }
    END { exit !(!wrong && place[0] == 3 && place[1] == 3 && final == "two processes are critical at once") }' \
    python3 "$here/fischer.py" 2 8 unsafe "$dtp"

# two ask, one writes, time passes, it enters, the other one writes, time passes, it enters: seven steps are too few
none='NR == 1 && !/^no two of 2 processes are critical at once within (7|10) steps$/ { exit 1 }
    NR == 2 && $0 != "dtp check accepts the certificate" { exit 1 }
    END { if (NR != 2) exit 1 }'
held "not within seven steps" "$none" python3 "$here/fischer.py" 2 7 unsafe "$dtp"
held "a delay that is long enough keeps them apart" "$none" python3 "$here/fischer.py" 2 10 safe "$dtp"
# 9 states of 9 names, 8 steps of 5 commands, the logic, 3 at the start, the question of 1 assertion, check-sat and exit; in each step
# each process has A where it stays and where it writes, and B where it enters
held "the script of the protocol is whole" '
    { final = $0; late += gsub(/<= \(- t_[0-9]+ r_[01]_[0-9]+\) 5\)/, ""); waited += gsub(/> \(- t_[0-9]+ r_[01]_[0-9]+\) 4\)/, "") }
    END { exit !(NR == 9 * 9 + 8 * 5 + 1 + 3 + 3 && final == "(exit)" && late == 8 * 2 * 2 && waited == 8 * 2) }' \
    python3 "$here/fischer.py" 2 8 unsafe --script

held "dtp.py answers, refuses and stops as it says" '$0 != "so" || NR > 1 { exit 1 }' env PYTHONPATH="$here" python3 -c '
import os, sys, tempfile
from dtp import DtpError, NoLeastValue, OutOfTime, Plan

def refused(kind, call):
    try:
        call()
    except kind as told:
        return told
    raise AssertionError(f"not refused: {kind}")

# the plan of its first lines: 4 until the water boils, and then 5, or 3 where it is 8 from the start on
program = sys.argv[1]
plan = Plan(program)
on, boils, ready = plan.event("kettle on"), plan.event("water boils"), plan.event("tea is ready")
by_train = plan.flag("by train")
plan.require(plan.exactly(on, 0))
plan.require(plan.at_least(boils, 4, on), name="boiling takes four minutes")
plan.require(plan.either(plan.at_least(ready, 5, boils), [plan.at_least(ready, 3, boils), plan.at_least(ready, 8, on)]))
plan.require(by_train)
found = plan.shortest(ready)
assert found[ready] == 8 and found[on] == 0 and found[boils] in (4, 5) and found[by_train] is True
found = plan.solve()
assert found["kettle on"] == 0 and found[boils] >= 4 and found[ready] >= 8 and plan.why_not() == []
assert plan.check(plan.certificate()) and plan.check(plan.certificate(ready), ready)
assert not plan.check(plan.certificate(), ready) and not plan.check("")
# now 7 at most, which leaves out what was required of the train alone
plan.require(plan.at_most(ready, 7))
clash = plan.why_not()
assert plan.solve() is None and plan.shortest(ready) is None and plan.check(plan.certificate())
assert len(clash) == 4 and clash[1] == "boiling takes four minutes" and clash[3] == "tea is ready at most 7 after zero"
assert plan.without(clash[3]).shortest(ready)[ready] == 8
# each of the four may go: the kettle is on at -2, or boils at once, or the tea takes no time, or is ready at 8; the train is no help
assert plan.possible_without(*clash) == clash and plan.possible_without(clash[3], "by train", clash[1]) == [clash[3], clash[1]]
told = refused(ValueError, lambda: plan.possible_without(clash[3], "boils"))
assert str(told) == str(refused(ValueError, lambda: plan.without(clash[3], "boils"))) == "no requirement is told so: boils"
# bounds hold at their ends: 2, and 5 after that
ends = Plan(program)
here, there = ends.event("here"), ends.event("there")
ends.require(ends.at_least(here, 2), ends.at_most(here, 2), ends.at_least(there, 5, here), ends.at_most(there, 5, here))
assert ends.solve() == {"here": 2, "there": 7}
# all can be met, and so they can without any one of them
told = ["there at most 5 after here", "here at least 2 after zero"]
assert ends.possible_without(*told) == told and ends.possible_without() == []
# here at 2 and at 3, there at 7 and at 8: two clashes, and no requirement is in both
two = Plan(program)
here, there = two.event("here"), two.event("there")
told = [f"{event} exactly {time} after zero" for event, time in [("here", 2), ("here", 3), ("there", 7), ("there", 8)]]
two.require(two.exactly(here, 2), two.exactly(here, 3), two.exactly(there, 7), two.exactly(there, 8))
assert two.possible_without(*told) == []
assert two.without(told[0]).possible_without(*told[1:]) == told[2:]
# two requirements that are told the same are given up together: one of them alone would be no help
same = Plan(program)
here = same.event("here")
same.require(same.at_least(here, 2), same.at_least(here, 2), same.at_most(here, 1))
told = ["here at most 1 after zero", "here at least 2 after zero"]
assert same.possible_without(*told) == told
# choices: 5 to the town by train, else 3
choice = Plan(program, workers=2)
town, train = choice.event("town"), choice.flag("train")
choice.require(choice.either(choice.denied(train), choice.exactly(town, 5)), choice.either(train, choice.exactly(town, 3)))
assert choice.shortest(town) == {"town": 3, "train": False}
assert choice.without().solve()["town"] in (3, 5)
# names of all kinds, and those that are none
odd = Plan(program)
names = ["", "start", "1st", "a\nb", "\r\n", "é;\"", "(define-fun x () Int 3)", "requirement 1", "(error \"command 1: x\")\n"]
for place, name in enumerate(names):
    odd.require(odd.exactly(odd.event(name), place - 3))
assert odd.solve() == {name: place - 3 for place, name in enumerate(names)}
odd.require(odd.at_most("", -4), name="too early\n")
assert odd.why_not() == odd.possible_without(*odd.why_not()) == [" exactly -3 after zero", "too early\n"]
for name in ["a|b", "a\\b", "and", "start"]:
    refused(ValueError, lambda: odd.event(name))
refused(ValueError, lambda: odd.at_least("nowhere", 3))
refused(TypeError, lambda: odd.at_least("start", 2.5))
# what dtp refuses, with the line; no least value; and no time
wide = Plan(program)
wide.require(wide.at_most(wide.event("x"), 5))
refused(NoLeastValue, lambda: wide.shortest("x"))
wide.require(wide.at_least("x", 2**60 + 1), name="far")
told = refused(DtpError, wide.solve)
assert told.text == "command 4: bound too large" and told.line == f"(assert (! (>= |x| {2**60 + 1}) :named |far|))"
told = refused(DtpError, lambda: wide.possible_without("far"))
assert told.text == "command 5: bound too large" and told.line == f"(assert (=> |far| (>= |x| {2**60 + 1})))"
with tempfile.TemporaryDirectory() as folder:
    slow = os.path.join(folder, "slow")
    with open(slow, "w") as file:
        file.write("#!/bin/sh\nexec sleep 60\n")
    os.chmod(slow, 0o755)
    refused(OutOfTime, Plan(slow, timeout=0.2).solve)
    refused(OutOfTime, Plan(slow, timeout=0.2).possible_without)
print("so")' "$dtp"

held "the tutorial shows what dtp prints" '!/^[1-9][0-9]* answers of the tutorial compared, 0 faults$/ || NR > 1 { exit 1 }' \
    python3 "$here/tutorial_test.py" "$dtp"

if [ -e "$here/check.py" ]; then
    for script in kitchen two_orders; do
        held "check.py accepts the certificate of $script too" '$0 != "accepted" || NR > 1 { exit 1 }' \
            judged "$here/$script.smt2" python3 "$here/check.py"
    done
fi
if [ -e "$here/check_test.py" ]; then
    held "check.py and dtp check say the same" 'END { exit !(NR > 0) }' python3 "$here/check_test.py" "$dtp" 500
fi

# ---- job shops

shops=$here/jobshop
folder=$(mktemp -d)
trap 'rm -rf "$folder"' EXIT

# the plan of a shop, which is kept
planned() {
    "$dtp" jobshop < "$shops/$1.txt" > "$folder/$1.plan" && cat "$folder/$1.plan"
}

# what the checker says of the script of a shop with its certificate
judged_shop() {
    shop=$shops/$1.txt
    shift
    { "$dtp" jobshop --emit script < "$shop" && "$dtp" jobshop --emit certificate < "$shop"; } | "$@"
}

# a shop, its plan, and the plan as a picture, by characters and as a table
drawn() {
    cat "$shops/$1.txt" "$folder/$1.plan"
    for way in "" --text --csv; do
        # shellcheck disable=SC2086
        python3 "$here/gantt.py" $way "$shops/$1.txt" "$folder/$1.plan"
    done
}

# 3 and 4 on one machine are 7, the one job's 2 may wait until then, and the other's 2 come before its 4
two_by_two() {
    printf '2 2\n0 3 1 2\n1 2 0 4\n' > "$folder/two.txt"
    for workers in 1 4; do
        "$dtp" jobshop --workers "$workers" < "$folder/two.txt" > "$folder/two.plan"
        cat "$folder/two.plan"
        python3 "$here/gantt.py" --csv "$folder/two.txt" "$folder/two.plan"
    done
}
held "two jobs on two machines are planned in 7, by one worker and by four" '
    /^makespan / { plans += $2 == 7 }
    /^job 0: / && ($3 != 0 || $4 < 3 || $4 > 5) { wrong = 1 }
    /^job 1: / && ($3 > 1 || $4 != 3) { wrong = 1 }
    END { exit !(plans == 2 && !wrong) }' two_by_two

# a plan that is kept, with the makespan that is known of it
for known in "ft06 55" "la01 666" "la05 593"; do
    held "${known% *} is planned in ${known#* }" "NR == 1 && \$0 != \"makespan ${known#* }\" { exit 1 } END { if (NR < 7) exit 1 }" \
        planned "${known% *}"
    held "the certificate of ${known% *} is accepted" '$0 != "accepted" || NR > 1 { exit 1 }' judged_shop "${known% *}" "$dtp" check
done
held "check.py accepts the certificate of ft06 too" '$0 != "accepted" || NR > 1 { exit 1 }' judged_shop ft06 python3 "$here/check.py"

# a bar stands where its operation starts and is as long as it takes, in the picture 960 wide; by characters one is a unit of time
held "gantt.py draws the plan of ft06 as it is" '
    function near(one, other) { return one - other < 0.02 && other - one < 0.02 }
    NR > 1 && NR < 8 { for (k = 0; k < 6; k++) { machine[NR - 2, k] = $(2 * k + 1); duration[NR - 2, k] = $(2 * k + 2) } }
    /^job [0-5]: / { for (k = 0; k < 6; k++) start[$2 + 0, k] = $(k + 3) }
    /<title>job / {
        match($0, / x="[0-9.]+"/); x = substr($0, RSTART + 4, RLENGTH - 5)
        match($0, / width="[0-9.]+"/); width = substr($0, RSTART + 8, RLENGTH - 9)
        match($0, /job [0-9]+, operation [0-9]+: [0-9]+ to [0-9]+/)
        split(substr($0, RSTART + 4, RLENGTH - 4), told, /, operation |: | to /)
        j = told[1]; k = told[2]
        right += told[3] == start[j, k] && told[4] == start[j, k] + duration[j, k] &&
            near(x, 100 + start[j, k] * 960 / 55) && near(width, duration[j, k] * 960 / 55)
    }
    />makespan 55</ { marked = 1 }
    /^machine [0-5] [0-5.]+$/ { chart[$2] = $3 }
    /^[0-5],[0-5],/ { split($0, cell, ","); table += cell[3] == machine[cell[1], cell[2]] && cell[4] == start[cell[1], cell[2]] &&
        cell[5] == cell[4] + duration[cell[1], cell[2]] }
    END {
        for (j = 0; j < 6; j++) for (k = 0; k < 6; k++)
            for (at = 0; at < duration[j, k]; at++) wrong += substr(chart[machine[j, k]], start[j, k] + at + 1, 1) != j
        exit !(right == 36 && table == 36 && marked && wrong == 0)
    }' drawn ft06

# the plan is a shortest one, so a move that leaves it a plan leaves the makespan too
held "a plan of which a start is moved by one is refused by gantt.py exactly where the script says so" '$0 != "so" || NR > 1 { exit 1 }' \
    env PYTHONPATH="$here" python3 -c '
import subprocess, sys
from gantt import bars_of, contents, faults, read_plan, read_shop

program, instance, plan = sys.argv[1:]
jobs = read_shop(contents(instance))
makespan, starts = read_plan(contents(plan), jobs)
ask = lambda text, *words: subprocess.run([program, *words], input=text, capture_output=True, text=True, check=True).stdout
script, ending = ask(contents(instance), "jobshop", "--emit", "script"), "(minimize m)\n(exit)\n"
assert script.endswith(ending)
script, refused = script[: -len(ending)], []
for j, k, by in [(0, 0, 0)] + [(j, k, by) for j in range(len(jobs)) for k in range(len(jobs[j])) for by in (-1, 1)]:
    moved = [list(own) for own in starts]
    moved[j][k] += by
    refused.append("unsat" if any(faults(bars_of(jobs, moved), makespan)) else "sat")
    values = [(f"s_{bar.job}_{bar.operation}", bar.start) for bar in bars_of(jobs, moved)] + [("m", makespan)]
    stated = "".join(f"(assert (<= {name} {time} {name}))" for name, time in values).replace(" -1 ", " (- 1) ")
    script += f"(push 1){stated}(check-sat)(pop 1)\n"
assert ask(script, "solve").split() == refused and refused[0] == "sat" and refused.count("unsat") > 18
print("so")' "$dtp" "$shops/ft06.txt" "$folder/ft06.plan"
for wrong in 54 56; do
    sed "s/^makespan 55\$/makespan $wrong/" "$folder/ft06.plan" > "$folder/wrong.plan"
    ! python3 "$here/gantt.py" "$shops/ft06.txt" "$folder/wrong.plan" > "$folder/told" 2>&1 || failed "gantt.py draws a wrong plan"
    held "gantt.py says why it can't be $wrong" "
        \$0 != \"the latest end is 55, and the makespan is said to be $wrong\" || NR > 1 { exit 1 }" cat "$folder/told"
done

# the numbers of ft06 among others, as the OR-library has them, and in two tables, as Taillard has them
in_library() {
    printf ' %s\n' "2 instances" "+++++" "" "instance two" "+++++" "two jobs 2x2" "2 2" "0 3 1 2" "1 2 0 4" "+++++" "instance ft06" "6x6 (mt06)"
    cat "$shops/ft06.txt"
    printf ' %s\n' "+++++" "EOF"
}
in_tables() {
    awk 'NR == 1 { print "Nb of jobs, Nb of Machines, Time seed, Machine seed, Upper bound, Lower bound"; print $0, 1, 2, 55, 52; next }
        { for (k = 1; k < NF; k += 2) { machines = machines " " ($k + 1); times = times " " $(k + 1) }
            machines = machines "\n"; times = times "\n" }
        END { printf "Times\n%sMachines\n%s", times, machines }' "$shops/ft06.txt"
}

# taken FORM WORD..: what or_library.py says when it takes ft06 out of this form
taken() {
    form=$1
    shift
    "$form" | python3 "$here/or_library.py" - "$@" 2>&1 > "$folder/ft06.txt" && cmp "$folder/ft06.txt" "$shops/ft06.txt" >&2
}
held "or_library.py takes ft06 out of a collection" \
    '$0 != "instance ft06: 6 jobs on 6 machines, durations from 1 to 10, machines from 0" { exit 1 }' taken in_library ft06
held "or_library.py puts times and machines together" '
    $0 != "instance 1: 6 jobs on 6 machines, durations from 1 to 10, machines from 1, and from 0 in what is written" { exit 1 }' \
    taken in_tables

# as the README has it
bounded() {
    "$dtp" jobshop --emit script < "$shops/$1.txt" | sed "s/^(minimize m)\$/(assert (<= m $2)) & (get-model)/" | "$dtp" solve
}
held "a bound that is known goes into the script" '
    NR == 1 && $0 != "(minimum 55)" { exit 1 }
    /define-fun s_[0-5]_[0-5] / { starts++ }
    END { if (starts != 36) exit 1 }' bounded ft06 57

# ---- depth: 4,095 ite in one another, as many as there may be, within 256 KB of stack

# x where it is one of the numbers from 0 on, so many, and else the next one
nested() {
    awk -v count="$1" 'BEGIN {
        for (k = 0; k < count; k++) printf "(ite (= x %d) 0 (+ 1 ", k
        printf "0"
        for (k = 0; k < count; k++) printf "))"
        print ""
    }'
}

# deep COUNT COMMANDS: what dtp writes of the commands, in which t is such a term; a script that is refused has status 1
deep() {
    { printf "(declare-const x Int) (define-fun t () Int " && nested "$1" && echo ") $2"; } |
        (ulimit -s 256 && exec "$dtp" solve --workers 1) || [ $? = 1 ]
}
held "4,095 ite in one another are decided, and told behind sums, within 256 KB of stack" '
    { answers = answers $0 ";" }
    END { exit !(answers == "sat;((t 4000) ((- 5 t) (- 3995)) ((+ t x 1) 8001));") }' \
    deep 4095 "(assert (= x 4000)) (assert (<= t 4000)) (check-sat) (get-value (t (- 5 t) (+ t x 1)))"
held "a distinct of them and two others is decided within 256 KB of stack" '$0 != "sat" || NR > 1 { exit 1 }' \
    deep 4095 "(assert (distinct t 5000 6000)) (check-sat)"
held "a distinct of three of them is refused within 256 KB of stack" '$0 != "(error \"command 3: too many cases\")" || NR > 1 { exit 1 }' \
    deep 4095 "(assert (distinct t t t))"
held "a distinct sees that of 63 cases two are the same, within 256 KB of stack" '$0 != "unsat" || NR > 1 { exit 1 }' \
    deep 62 "(assert (distinct (+ t x) (+ x 7) (+ t x))) (check-sat)"

status=0
"$dtp" solve < "$here/kitchen.smt2" >&- || status=$?
[ "$status" = 4 ] || failed "a closed output ended with status $status, and not with 4 (what bench/native builds ends with 0)"
echo "a closed output is told by status 4"
