# The tables of bench/run, from the lines of its programs: of proved.txt case, microseconds, low, high, answer; of the others case, microseconds, value, radius.
# Fails where a value lies outside the proved low and high by more than its radius, or where a program leaves out a case that it should answer.

{ p = FILENAME; sub(/.*\//, "", p); sub(/\.txt$/, "", p); seen[p] = 1 }
p == "proved" && !($1 in answer) { names[++count] = $1; low[$1] = $3; high[$1] = $4; answer[$1] = $5 }
p != "proved" { value[p, $1] = $3; radius[p, $1] = $4 }
# The best of all rounds.
!((p, $1) in us) || $2 < us[p, $1] { us[p, $1] = $2; how[p, $1] = $5 }

function time(p, n) { return (p, n) in us ? sprintf(us[p, n] < 10 ? "%.3f" : "%.2f", us[p, n]) : "-" }
function times_proved(p, n) { return us[p, n] / us["proved", n] }
function ratio(p, n) { return (p, n) in us ? sprintf("%.2f", times_proved(p, n)) : "-" }
function said(p, n) { return (p, n) in value ? sprintf("%.3f", value[p, n]) : "-" }

function hold(p, n) {
    if (!((p, n) in value)) {
        # share.c answers shares only, and Arb may be missing altogether.
        if (p == "share_c" || !seen[p]) return
        print "DISAGREE: " p " gives no answer to " n
        failed = 1
    } else if (value[p, n] + radius[p, n] < low[n] || value[p, n] - radius[p, n] > high[n]) {
        print "DISAGREE: " p " gives " value[p, n] " for " n ", not between " low[n] " and " high[n]
        failed = 1
    }
}

function times(    i, n) {
    printf "%-12s %9s %9s %9s %9s %9s %9s %9s %9s %9s\n", "", "proved", "plain C", "f64", "Arb", "Arb fit", "C/pr", "f64/pr", "Arb/pr", "fit/pr"
    for (i = 1; i <= count; i++) {
        n = names[i]
        printf "%-12s %9s %9s %9s %9s %9s %9s %9s %9s %9s\n", n, time("proved", n), time("share_c", n), time("f64", n), time("arb", n), time("fitted", n), \
            ratio("share_c", n), ratio("f64", n), ratio("arb", n), ratio("fitted", n)
    }
}

function answers(    i, n) {
    printf "%-12s %18s %12s %12s %12s %12s  %s\n", "", "proved answer", "so at least", "at most", "f64", "Arb", "E1 and first bits: Arb, Arb fit"
    for (i = 1; i <= count; i++) {
        n = names[i]
        printf "%-12s %18s %12.3f %12.3f %12s %12s  %s %s\n", n, answer[n], low[n], high[n], said("f64", n), said("arb", n), how["arb", n], how["fitted", n]
    }
}

function least(p,    i, r) {
    for (i = 1; i <= count; i++)
        if ((p, names[i]) in us && (r == "" || times_proved(p, names[i]) < r)) r = times_proved(p, names[i])
    return r
}

function goal(met, what, got) { printf "Goal, %s: %s (%s)\n", what, met ? "met" : "MISSED", got }

# How many times as long as f64 the proved program takes: the greater of its ratios on the two typical shares.
function times_f64(    one, other) {
    one = us["proved", "share-1h"] / us["f64", "share-1h"]
    other = us["proved", "share-6h"] / us["f64", "share-6h"]
    return one > other ? one : other
}

function goals() {
    if (("f64", "share-1h") in us && ("f64", "share-6h") in us)
        goal(times_f64() <= 1.5, "a typical share within 1.5 times of f64", sprintf("%.2f", times_f64()))
    if (("proved", "rise-48") in us)
        goal(us["proved", "rise-48"] < 15, "a rise of 48 steps under 15 us", time("proved", "rise-48"))
    if (("proved", "trench-24") in us)
        goal(us["proved", "trench-24"] < 100, "a rise of 24 steps with 24 neighbours under 100 us", time("proved", "trench-24"))
    if (least("arb") == "") return
    goal(least("arb") >= 5, "every case at least 5 times faster than Arb", sprintf("least %.2f", least("arb")))
    goal(least("fitted") >= 8, "every case at least 8 times faster than Arb fitted to it", sprintf("least %.2f", least("fitted")))
}

END {
    print "Microseconds a call, and how many times as long as the proved program the others take:"
    times()
    print "\nWhat they answer, in millionths (of a factor its largest heating sum T, of a current its share G):"
    answers()
    print ""
    goals()
    for (i = 1; i <= count; i++) { hold("share_c", names[i]); hold("f64", names[i]); hold("arb", names[i]); hold("fitted", names[i]) }
    if (count == 0) { print "no case was answered"; failed = 1 }
    exit failed
}
