"""Families of TLSF texts after those of the synthesis competition, each with the verdicts that are known by reasoning.

An instance of a family is VALUES@SEMANTICS,TARGET: the values of its parameters with commas between, and the kinds, one word where both are the
same, none where both are Mealy. Of two different kinds the first decides whether there is a machine: what SEMANTICS lets an output depend on.
"""
from collections import namedtuple

Family = namedtuple("Family", "name says parameters definitions main verdicts")
FAMILIES = []

MUTUAL = "mutual(b) = &&[0 <= i < SIZEOF b] &&[i < j < SIZEOF b] !(b[i] && b[j]);\n"
ONE = MUTUAL + "one(b) = mutual(b) && ||[0 <= i < SIZEOF b] b[i];\n"
SAME = "same(b) = &&[0 <= i < SIZEOF b] (b[i] <-> X b[i]);\n"
NEAR = "near(b) = &&[0 <= i < SIZEOF b] (b[i] -> ||[j IN {i - 1, i, i + 1} (*) {0, 1 .. SIZEOF b - 1}] X b[j]);\n"
NUMBER = """power(k) =
  k == 0 : 1
  otherwise : 2 * power(k - 1);
digit(b, k, v) =
  (v / power(k)) % 2 == 1 : b[k]
  otherwise : !b[k];
number(b, v) = &&[0 <= k < SIZEOF b] digit(b, k, v);
"""


def family(name, says, parameters, definitions, main, **verdicts):
    """Adds a family; a verdict is a pair of its instances and of the reason."""
    FAMILIES.append(Family(name, says, parameters.split(), definitions.strip(), main.strip(), verdicts))


# Arbiters

family("simple_arbiter", "One of n clients is granted at a time, and each request in the end.", "n", MUTUAL, """
INPUTS { r[n]; }
OUTPUTS { g[n]; }
ASSERT { mutual(g); }
GUARANTEE { &&[0 <= i < n] G (r[i] -> F g[i]); }
""", realizable=("2 3 4 5 3@Moore 4@Moore,Mealy 3@Mealy,Moore 9", "grants that go round serve each client, whatever is asked"))

family("simple_arbiter_unreal", "As the simple arbiter, but clients that ask at once are granted at once in the end.", "n", MUTUAL, """
INPUTS { r[n]; }
OUTPUTS { g[n]; }
ASSERT { mutual(g); }
GUARANTEE {
  &&[0 <= i < n] G (r[i] -> F g[i]);
  &&[0 <= i < n] &&[i < j < n] G (r[i] && X r[j] -> F (g[i] && g[j]));
}
""", unrealizable=("2 3 2@Moore,Mealy 9", "two clients ask, and no two grants stand together"))

family("bounded_arbiter", "One of n clients is granted at a time, and each request within k steps, that of the request counted.", "n k", MUTUAL, """
INPUTS { r[n]; }
OUTPUTS { g[n]; }
ASSERT {
  mutual(g);
  &&[0 <= i < n] (r[i] -> F[0:k - 1] g[i]);
}
""", realizable=("3,3 4,4 5,5 6,6 4,4@Moore,Mealy 5,5@Mealy,Moore 9,9", "grants that go round serve each client once in n steps"),
       unrealizable=("3,2 4,3 3,2@Moore 9,3", "n clients ask at once, and k steps have k grants"))

family("prioritized_arbiter", "A master is granted before all n clients, and these as long as the master rests again and again.", "n", MUTUAL, """
INPUTS { r[n]; m; }
OUTPUTS { g[n]; h; }
ASSUME { G F !m; }
ASSERT {
  mutual(g);
  h -> &&[0 <= i < n] !g[i];
}
GUARANTEE {
  &&[0 <= i < n] G (r[i] -> F g[i]);
  G (m -> X ((&&[0 <= i < n] !g[i]) U h));
}
""", realizable=("1 2 3 2@Moore 3@Moore,Mealy 8",
                 "the master has each step behind one in which it asks, and the clients have the others in turn"))

family("prioritized_arbiter_unreal", "As the prioritized arbiter, but the master may ask at each step.", "n", MUTUAL, """
INPUTS { r[n]; m; }
OUTPUTS { g[n]; h; }
ASSERT {
  mutual(g);
  h -> &&[0 <= i < n] !g[i];
}
GUARANTEE {
  &&[0 <= i < n] G (r[i] -> F g[i]);
  G (m -> X ((&&[0 <= i < n] !g[i]) U h));
}
""", unrealizable=("1 2 2@Moore,Mealy 9", "where the master asks at each step no client is granted from the second step on"))

family("round_robin_arbiter", "Requests stay until they are granted, and nobody is granted twice while another one waits.", "n", MUTUAL, """
INPUTS { r[n]; }
OUTPUTS { g[n]; }
REQUIRE { &&[0 <= i < n] (r[i] && !g[i] -> X r[i]); }
ASSERT {
  mutual(g);
  &&[0 <= i < n] (g[i] -> r[i]);
}
GUARANTEE {
  &&[0 <= i < n] G (r[i] -> F g[i]);
  &&[0 <= i < n] &&[j IN {0, 1 .. n - 1} (-) {i}] G (g[i] && r[j] -> X (!g[i] W g[j]));
}
""", realizable=("2 3 4 3@Moore,Mealy 2@Mealy,Moore 9", "the next one in the round that was seen to wait is granted"))

family("full_arbiter", "One grant at a time, each request is granted, and no grant begins or goes on for ever without a request.", "n", MUTUAL, """
INPUTS { r[n]; }
OUTPUTS { g[n]; }
ASSERT { mutual(g); }
GUARANTEE {
  &&[0 <= i < n] G (r[i] -> F g[i]);
  &&[0 <= i < n] (r[i] R !g[i]);
  &&[0 <= i < n] G (g[i] && G !r[i] -> F !g[i]);
  &&[0 <= i < n] G (g[i] && X (!r[i] && !g[i]) -> X (r[i] R !g[i]));
}
""", realizable=("2 3 2@Moore 3@Moore,Mealy 2@Mealy,Moore 4 5 6 8", "who has asked since its last grant is granted for a step, one after another"))

family("full_arbiter_unreal", "Each request is granted, one at a time, in a step in which it stands, and requests may be withdrawn.", "n", MUTUAL, """
INPUTS { r[n]; }
OUTPUTS { g[n]; }
ASSERT {
  mutual(g);
  &&[0 <= i < n] (g[i] -> r[i]);
}
GUARANTEE { &&[0 <= i < n] G (r[i] -> F g[i]); }
""", unrealizable=("2 3 4 1@Moore,Mealy", "all ask for one step alone, and with Moore semantics no grant is sure of its request"))

family("cancel_arbiter", "Each request is granted or cancelled in the end, and behind a cancel no grant is before a new request.", "n", MUTUAL, """
INPUTS { r[n]; c[n]; }
OUTPUTS { g[n]; }
ASSERT {
  mutual(g);
  &&[0 <= i < n] (c[i] -> !g[i]);
}
GUARANTEE {
  &&[0 <= i < n] G (r[i] -> F (g[i] || c[i]));
  &&[0 <= i < n] (!g[i] W r[i]);
  &&[0 <= i < n] G (c[i] && !r[i] -> X (!g[i] W r[i]));
}
""", realizable=("1 2 3 2@Mealy,Moore 5", "requests that wait and aren't cancelled now are granted in turn"),
       unrealizable=("1@Moore 2@Moore,Mealy", "each grant is cancelled in its step, and a request without grants isn't"))

family("streett_arbiter", "One grant at a time, and who asks again and again is granted again and again.", "n", MUTUAL, """
INPUTS { r[n]; }
OUTPUTS { g[n]; }
ASSERT { mutual(g); }
GUARANTEE { &&[0 <= i < n] ((G F r[i]) -> G F g[i]); }
""", realizable=("2 3 3@Moore,Mealy 9", "grants that go round"))

family("strict_streett_arbiter", "As the Streett arbiter, but who is granted again and again also asks again and again.", "n", MUTUAL, """
INPUTS { r[n]; }
OUTPUTS { g[n]; }
ASSERT { mutual(g); }
GUARANTEE { &&[0 <= i < n] ((G F r[i]) <-> G F g[i]); }
""", realizable=("1 2 2@Moore,Mealy", "who asked since its last grant is granted in turn"))

family("spaced_arbiter", "Behind each grant there is a step without one, and each request is granted in the end.", "n", MUTUAL, """
INPUTS { r[n]; }
OUTPUTS { g[n]; }
ASSERT {
  mutual(g);
  &&[0 <= i < n] &&[0 <= j < n] (g[i] -> X !g[j]);
}
GUARANTEE { &&[0 <= i < n] G (r[i] -> F g[i]); }
""", realizable=("2 3 2@Moore,Mealy", "each second step serves the next client"))

family("locking_arbiter", "A grant stays while its client holds a lock, and each request is granted in the end.", "n", MUTUAL, """
INPUTS { r[n]; l[n]; }
OUTPUTS { g[n]; }
ASSUME { &&[0 <= i < n] G F !l[i]; }
ASSERT {
  mutual(g);
  &&[0 <= i < n] (g[i] && l[i] -> X g[i]);
}
GUARANTEE { &&[0 <= i < n] G (r[i] -> F g[i]); }
""", realizable=("2 3 2@Moore,Mealy 5", "the grant goes on to the next client as soon as its lock isn't held"))

family("token_ring", "A token goes to the next client of n when it is told to, and who asks is served while the token is there.", "n", ONE, """
INPUTS { r[n]; pass; }
OUTPUTS { t[n]; g[n]; }
ASSUME { G F pass; }
PRESET { t[0]; }
ASSERT {
  one(t);
  &&[0 <= i < n] (t[i] && pass -> X t[(i + 1) % n]);
  &&[0 <= i < n] (t[i] && !pass -> X t[i]);
  &&[0 <= i < n] (g[i] -> t[i]);
}
GUARANTEE { &&[0 <= i < n] G (r[i] -> F g[i]); }
""", realizable=("2 3 4 3@Moore,Mealy 5", "the token comes round, and where it is the client is served"))

family("bounded_dining", "Of n at a round table no two neighbours eat at once, and who is hungry eats in this step or the next.", "n", "", """
INPUTS { h[n]; }
OUTPUTS { e[n]; }
ASSERT {
  &&[0 <= i < n] !(e[i] && e[(i + 1) % n]);
  &&[0 <= i < n] (h[i] -> F[0:1] e[i]);
}
""", realizable=("4 6", "the even ones and the odd ones eat in turn"),
       unrealizable=("3 5 3@Moore,Mealy 9", "all of an odd number are hungry at once, and in two steps at most n - 1 eat"))

# Load balancers and buffers

family("load_balancer", "One of n servers has a job in an idle step, which is followed by another idle one where there is no job.", "n", MUTUAL, """
INPUTS { idle; r[n]; }
OUTPUTS { g[n]; }
REQUIRE { idle && (&&[0 <= i < n] !g[i]) -> X idle; }
ASSUME { G F idle; }
ASSERT {
  mutual(g);
  &&[0 <= i < n] (g[i] -> idle);
}
GUARANTEE { &&[0 <= i < n] G (r[i] -> F g[i]); }
""", realizable=("2 3 2@Moore 2@Moore,Mealy 3@Mealy,Moore 9", "the next server has a job in the idle step behind one without a job"))

family("load_balancer_plain", "As the load balancer, but an idle step without a job may be followed by a busy one.", "n", MUTUAL, """
INPUTS { idle; r[n]; }
OUTPUTS { g[n]; }
ASSUME { G F idle; }
ASSERT {
  mutual(g);
  &&[0 <= i < n] (g[i] -> idle);
}
GUARANTEE { &&[0 <= i < n] G (r[i] -> F g[i]); }
""", realizable=("2 3 9", "in each idle step the next server has a job"),
       unrealizable=("1@Moore 2@Moore,Mealy", "each step with a job is busy, and steps without one are idle"))

family("load_full", "One of n servers has a job in an idle step, none before it is asked for.", "n", MUTUAL, """
INPUTS { idle; r[n]; }
OUTPUTS { g[n]; }
ASSUME { G F idle; }
ASSERT {
  mutual(g);
  &&[0 <= i < n] (g[i] -> idle);
}
GUARANTEE {
  &&[0 <= i < n] G (r[i] -> F g[i]);
  &&[0 <= i < n] (!g[i] W r[i]);
  &&[0 <= i < n] G (g[i] -> X (!g[i] W r[i]));
}
""", realizable=("1 2 3 2@Mealy,Moore", "in each idle step one of those that wait is served, in turn"))

family("generalized_buffer", "A queue between n senders and two receivers, each with a handshake of four phases.", "n", MUTUAL, """
INPUTS { s[n]; k[2]; full; empty; }
OUTPUTS { a[n]; q[2]; put; take; }
INITIALLY { (&&[0 <= i < n] !s[i]) && !k[0] && !k[1] && empty && !full; }
PRESET { (&&[0 <= i < n] !a[i]) && !q[0] && !q[1] && !put && !take; }
REQUIRE {
  &&[0 <= i < n] (s[i] && !a[i] -> X s[i]);
  &&[0 <= i < n] (!s[i] && a[i] -> X !s[i]);
  &&[0 <= j < 2] (!q[j] && !k[j] -> X !k[j]);
  &&[0 <= j < 2] (q[j] && k[j] -> X k[j]);
  !(full && empty);
  put && !take -> X !empty;
  take && !put -> X !full;
  (put <-> take) -> (full <-> X full) && (empty <-> X empty);
}
ASSUME {
  &&[0 <= i < n] G (a[i] -> F !s[i]);
  &&[0 <= j < 2] G (q[j] -> F k[j]);
  &&[0 <= j < 2] G (!q[j] -> F !k[j]);
}
ASSERT {
  mutual(a);
  mutual(q);
  &&[0 <= i < n] (!a[i] && X a[i] -> s[i]);
  &&[0 <= i < n] (a[i] && s[i] -> X a[i]);
  X put <-> ||[0 <= i < n] (!a[i] && X a[i]);
  full -> !put;
  &&[0 <= j < 2] (q[j] && !k[j] -> X q[j]);
  &&[0 <= j < 2] (q[j] && k[j] -> X !q[j]);
  &&[0 <= j < 2] (!q[j] && X q[j] -> !k[j]);
  &&[0 <= j < 2] (q[j] && X !q[j] -> X (!q[j] W q[1 - j]));
  X take <-> ||[0 <= j < 2] (q[j] && X !q[j]);
  empty -> !take;
}
GUARANTEE {
  &&[0 <= i < n] G (s[i] -> F a[i]);
  &&[0 <= i < n] G (!s[i] -> F !a[i]);
  G (!empty -> F take);
}
""", realizable=("1 2 3 4 5", "where the queue isn't full it takes a word, and where it isn't empty it hands one on, one by one"))

family("stack", "The height of a stack of n places, one output for each place that is taken.", "n", "", """
INPUTS { push; pop; }
OUTPUTS { c[n]; }
PRESET { &&[0 <= i < n] !c[i]; }
ASSERT {
  push && !pop -> X c[0] && &&[1 <= i < n] (X c[i] <-> c[i - 1]);
  pop && !push -> X !c[n - 1] && &&[1 <= i < n] (X c[i - 1] <-> c[i]);
  (push <-> pop) -> &&[0 <= i < n] (X c[i] <-> c[i]);
}
""", realizable=("2 4 5 3@Moore,Mealy 9", "what comes next is said of each output; n + 1 heights"))

# Parts of a bus

family("amba_encode", "The number of the one grant of n is taken over in each ready step, else kept.", "n w", ONE + SAME + NUMBER, """
INPUTS { ready; grant[n]; }
OUTPUTS { master[w]; }
REQUIRE { one(grant); }
ASSERT {
  &&[0 <= i < n] (ready && grant[i] -> X number(master, i));
  !ready -> same(master);
}
""", realizable=("2,1 4,2 5,3 6,3 4,2@Moore,Mealy 8,3", "a register of n values"))

family("amba_decode", "Three kinds of bursts are told from two bits.", "", """enum Burst = Single: 00 Four: 10 Open: 01""", """
INPUTS { Burst burst; }
OUTPUTS { single; four; open; }
ASSERT {
  burst == Single -> single;
  burst == Four -> four;
  burst == Open -> open;
  !(single && four) && !(single && open) && !(four && open);
}
""", realizable=("@Mealy @Mealy,Moore", "each step's outputs are a function of its inputs"),
       unrealizable=("@Moore", "the bits of a step aren't known to its outputs"))

family("amba_shift", "The lock and the master of a bus are taken over in each ready step, and kept in the others.", "n", "", """
INPUTS { ready; next[n]; locked; }
OUTPUTS { master[n]; lock; }
PRESET { (&&[0 <= i < n] !master[i]) && !lock; }
ASSERT {
  ready -> (X lock <-> locked) && &&[0 <= i < n] (X master[i] <-> next[i]);
  !ready -> (X lock <-> lock) && &&[0 <= i < n] (X master[i] <-> master[i]);
}
""", realizable=("1 2 2@Moore,Mealy 7", "a register of n + 1 bits"))

family("amba_lock", "When it is decided, the lock of the client that is granted in the next step is taken over; else it stays.", "n", ONE, """
INPUTS { decide; grant[n]; lock[n]; }
OUTPUTS { locked; }
REQUIRE { one(grant); }
ASSERT {
  &&[0 <= i < n] (decide && X grant[i] -> (X locked <-> X lock[i]));
  !decide -> (X locked <-> locked);
}
""", realizable=("1 2 3 3@Mealy,Moore 5", "the lock is the one that is read, or the one before"),
       unrealizable=("2@Moore,Mealy", "the lock of a step isn't known to its output"))

family("amba_arbiter", "The one grant of n changes only when it is decided in a ready step, and whoever asks and waits is granted.", "n", ONE, """
INPUTS { ready; r[n]; }
OUTPUTS { g[n]; decide; }
ASSUME { G F ready; }
PRESET { g[0]; }
ASSERT {
  one(g);
  decide -> ready;
  &&[0 <= i < n] (!decide -> (g[i] <-> X g[i]));
}
GUARANTEE { &&[0 <= i < n] G (r[i] -> F (!r[i] || g[i])); }
""", realizable=("2 3 4 2@Mealy,Moore 8", "in each ready step the grant goes on to the next client"),
       unrealizable=("2@Moore 2@Moore,Mealy", "each step in which it is decided isn't ready, so the grant stays where it is"))

family("amba_burst", "A burst of k beats: behind its start k ready steps go by before it is done, and no other start comes before.", "k", """
beats(m) =
  m == 0 : done
  otherwise : (!ready && !done) W (ready && !done && X beats(m - 1));""", """
INPUTS { start; ready; }
OUTPUTS { done; }
PRESET { !done; }
REQUIRE { start -> X (!start W done); }
GUARANTEE {
  G (start -> X beats(k));
  G (done && !start -> X (!done W start));
  !done W start;
}
""", realizable=("1 2 3 4 5 3@Moore,Mealy", "ready steps are counted from the start on"))

# Registers and functions of the inputs

family("shift_register", "Each output is what the one before was, and the first one what was read.", "n", "", """
INPUTS { in; }
OUTPUTS { q[n]; }
ASSERT {
  X q[0] <-> in;
  &&[1 <= i < n] (X q[i] <-> q[i - 1]);
}
""", realizable=("2 3 4 3@Moore 3@Moore,Mealy 2@Mealy,Moore", "a register of n bits, whose 2^n values are told apart"))

family("delay", "What is read is written n steps later.", "n", "", """
INPUTS { in; }
OUTPUTS { out; }
ASSERT { in <-> X[n] out; }
""", realizable=("1 2 3 4 3@Moore,Mealy 0@Mealy,Moore", "a register of n bits"),
       unrealizable=("0@Moore,Mealy", "what is read in a step isn't known to its output"))

family("prophecy", "What is written will be read n steps later.", "n", "", """
INPUTS { in; }
OUTPUTS { out; }
ASSERT { out <-> X[n] in; }
""", unrealizable=("1 2 3 1@Moore,Mealy", "the other value is read"))

family("wires", "Each of n outputs is its input.", "n", "", """
INPUTS { in[n]; }
OUTPUTS { out[n]; }
ASSERT { &&[0 <= i < n] (in[i] <-> out[i]); }
""", realizable=("2 8 2@Mealy,Moore 3@Mealy,Moore 16", "each step's outputs are a function of its inputs"),
       unrealizable=("2@Moore 10@Moore,Mealy", "what is read in a step isn't known to its outputs"))

family("multiplexer", "One of n values is written, chosen by w bits.", "n w", NUMBER, """
INPUTS { choice[w]; value[n]; }
OUTPUTS { out; }
ASSERT { &&[0 <= i < n] (number(choice, i) -> (out <-> value[i])); }
""", realizable=("2,1 4,2 8,3", "each step's output is a function of its inputs"),
       unrealizable=("2,1@Moore,Mealy", "what is read in a step isn't known to its output"))

family("decoder", "One of n lines is raised, chosen by w bits, while it is enabled.", "n w", NUMBER, """
INPUTS { enable; address[w]; }
OUTPUTS { line[n]; }
ASSERT { &&[0 <= i < n] (line[i] <-> enable && number(address, i)); }
""", realizable=("4,2 2,1@Mealy,Moore 16,4", "each step's outputs are a function of its inputs"))

family("rotator", "n bits are rotated by a number of w bits.", "n w", NUMBER, """
INPUTS { in[n]; by[w]; }
OUTPUTS { out[n]; }
ASSERT { &&[0 <= s < n] (number(by, s) -> &&[0 <= i < n] (out[(i + s) % n] <-> in[i])); }
""", realizable=("4,2 8,3", "each step's outputs are a function of its inputs"))

family("adder", "The sum of two numbers of n bits.", "n", """
carry(i) =
  i == 0 : false
  otherwise : (a[i - 1] && b[i - 1]) || (carry(i - 1) && (a[i - 1] || b[i - 1]));""", """
INPUTS { a[n]; b[n]; }
OUTPUTS { s[n + 1]; }
ASSERT {
  &&[0 <= i < n] (s[i] <-> (a[i] <-> (b[i] <-> carry(i))));
  s[n] <-> carry(n);
}
""", realizable=("1 2 3 5", "each step's outputs are a function of its inputs"))

family("latches", "n latches take their inputs over while they are enabled, and keep what they have else.", "n", "", """
INPUTS { enable; in[n]; }
OUTPUTS { q[n]; }
PRESET { &&[0 <= i < n] (q[i] <-> in[i] && enable); }
ASSERT {
  X enable -> &&[0 <= i < n] (X q[i] <-> X in[i]);
  X !enable -> &&[0 <= i < n] (X q[i] <-> q[i]);
}
""", realizable=("1 2 3 2@Mealy,Moore 8", "a register of n bits"),
       unrealizable=("2@Moore,Mealy", "what is read in a step isn't known to its outputs"))

# Detectors, collectors, and whether a word is in a language

family("detector", "Answers again and again exactly where each of n signals comes again and again.", "n", "", """
INPUTS { r[n]; }
OUTPUTS { g; }
GUARANTEE { (&&[0 <= i < n] G F r[i]) <-> G F g; }
""", realizable=("2 3 4 3@Moore,Mealy 3@Mealy,Moore 9", "it waits for one signal after another, and answers behind the last one"))

family("detector_unreal", "Answers again and again exactly where each of n signals stays in the end.", "n", "", """
INPUTS { r[n]; }
OUTPUTS { g; }
GUARANTEE { (&&[0 <= i < n] F G r[i]) <-> G F g; }
""", unrealizable=("1 2 3 2@Moore,Mealy", "the signals stay, but for a step behind each answer"))

family("collector", "Says again and again that all n have come, where they do, and not before each one has since it was said last.", "n", "", """
INPUTS { r[n]; }
OUTPUTS { all; }
GUARANTEE {
  (&&[0 <= i < n] G F r[i]) -> G F all;
  &&[0 <= i < n] (!all W r[i]);
  &&[0 <= i < n] G (all -> X (!all W r[i]));
}
""", realizable=("2 3 4 2@Moore,Mealy 9", "it waits for one after another, and says so with the last one"))

family("eager_collector", "Who of n has come since all had, and whether all have.", "n", "", """
INPUTS { r[n]; }
OUTPUTS { seen[n]; all; }
PRESET { &&[0 <= i < n] (seen[i] <-> r[i]); }
ASSERT {
  all <-> &&[0 <= i < n] seen[i];
  &&[0 <= i < n] (X seen[i] <-> X r[i] || (seen[i] && !all));
}
""", realizable=("2 3 4 8", "a set of those who have come, which isn't full at the end of a step"),
       unrealizable=("2@Moore,Mealy", "who comes in a step isn't known to its outputs"))

family("ltl2dba_all_seen", "Answers again and again exactly where each of n signals comes at some time.", "n", "", """
INPUTS { p[n]; }
OUTPUTS { g; }
GUARANTEE { (&&[0 <= i < n] F p[i]) <-> G F g; }
""", realizable=("2 3 4 3@Moore,Mealy", "a set of those that have come"))

family("ltl2dba_sequence", "Answers again and again exactly where n signals come one after another.", "n", """
behind(i) =
  i == n - 1 : F p[i]
  otherwise : F (p[i] && X behind(i + 1));""", """
INPUTS { p[n]; }
OUTPUTS { g; }
GUARANTEE { behind(0) <-> G F g; }
""", realizable=("2 3 4 5 6 4@Moore,Mealy 9", "it counts those that have come in their order"))

family("ltl2dba_until_left", "Answers again and again exactly where untils of n signals, joined from the left, hold.", "n", """
chain(i) =
  i == 0 : p[0]
  otherwise : (chain(i - 1)) U p[i];""", """
INPUTS { p[n]; }
OUTPUTS { g; }
GUARANTEE { (chain(n - 1)) <-> G F g; }
""", realizable=("2 3 3@Moore,Mealy", "a word that the formula holds of has a beginning that shows it, and no word has an answer before"))

family("ltl2dba_until_right", "Answers again and again exactly where untils of n signals, joined from the right, hold.", "n", """
chain(i) =
  i == n - 1 : p[i]
  otherwise : p[i] U (chain(i + 1));""", """
INPUTS { p[n]; }
OUTPUTS { g; }
GUARANTEE { (chain(0)) <-> G F g; }
""", realizable=("2 3 4 3@Mealy,Moore", "it goes from one signal to the next, or to a state from which it never answers"))

family("ltl2dba_pairs", "Answers again and again exactly where of each of n pairs one signal comes at some time or the next one always.", "n", "", """
INPUTS { p[n + 1]; }
OUTPUTS { g; }
GUARANTEE { (&&[0 <= i < n] ((F p[i]) || G p[i + 1])) <-> G F g; }
""", realizable=("1 2 2@Moore,Mealy", "what has come and what has failed are sets that only grow"))

family("ltl2dba_response_unreal", "Answers again and again exactly where under n fair signals a request is left without an answer.", "n", "", """
INPUTS { p[n]; q; r; }
OUTPUTS { g; }
GUARANTEE { !((&&[0 <= i < n] G F p[i]) -> G (q -> F r)) <-> G F g; }
""", unrealizable=("1 2 1@Moore,Mealy", "a request stands until it is told, and then is answered, with a new one behind"))

family("rabin_pair", "One pair of outputs tells whether n signals stay in the end while n others come again and again.", "n", "", """
INPUTS { p[n]; q[n]; }
OUTPUTS { bad; good; }
GUARANTEE { ((&&[0 <= i < n] F G p[i]) && (&&[0 <= i < n] G F q[i])) <-> ((F G !bad) && (G F good)); }
""", realizable=("1 2 3", "one is that a signal is missing, and the other that all others came one after another"))

# Elevators and robots

family("elevator", "An elevator of n floors moves by one at most, and comes to each floor that calls.", "n", ONE + NEAR, """
INPUTS { call[n]; }
OUTPUTS { at[n]; }
PRESET { at[0]; }
ASSERT {
  one(at);
  near(at);
}
GUARANTEE { &&[0 <= i < n] G (call[i] -> F at[i]); }
""", realizable=("3 4 5 6 4@Moore,Mealy 9", "it goes up and down"))

family("elevator_with_door", "As the elevator, with a door that opens at a floor that called and shuts before it moves.", "n", ONE + NEAR, """
INPUTS { call[n]; }
OUTPUTS { at[n]; open; }
PRESET { at[0] && !open; }
ASSERT {
  one(at);
  near(at);
  &&[0 <= i < n] (at[i] && open -> X at[i]);
  open -> X !open;
}
GUARANTEE { &&[0 <= i < n] G (call[i] -> F (at[i] && open)); }
""", realizable=("2 3 4 3@Moore,Mealy", "it goes up and down, and opens its door at each floor"))

family("bounded_elevator", "An elevator of n floors moves by one at most, and is within k steps at each floor that calls.", "n k", ONE + NEAR, """
INPUTS { call[n]; }
OUTPUTS { at[n]; }
ASSERT {
  one(at);
  near(at);
  &&[0 <= i < n] (call[i] -> F[0:k] at[i]);
}
""", realizable=("3,3 4,5", "it is at each floor within a way up and down, of which 2 n - 3 steps are the longest wait"),
       unrealizable=("3,2 4,4 3,2@Moore,Mealy", "all floors call at each step, and the way from one end to the other and back is longer"))

family("robot_rooms", "A robot in w times h rooms comes to all corners again and again; doors are shut at times.", "w h", ONE + NEAR + SAME, """
INPUTS { shut; }
OUTPUTS { x[w]; y[h]; }
ASSUME { G F !shut; }
PRESET { x[0] && y[0]; }
ASSERT {
  one(x) && one(y) && near(x) && near(y);
  same(x) || same(y);
  shut -> same(x);
}
GUARANTEE {
  G F (x[0] && y[0]);
  G F (x[0] && y[h - 1]);
  G F (x[w - 1] && y[0]);
  G F (x[w - 1] && y[h - 1]);
}
""", realizable=("2,2 3,2 3,3 3,2@Mealy,Moore 4,4", "it goes round, and waits at a door that is shut"))

family("robot_charger", "A robot in n rooms in a row has its charger at one end, its task at the other, and a charge for k steps.", "n k", ONE + NEAR, """
INPUTS { task; }
OUTPUTS { p[n]; }
PRESET { p[0]; }
ASSERT {
  one(p);
  near(p);
  F[0:k] p[0];
}
GUARANTEE { G (task -> F p[n - 1]); }
""", realizable=("3,3 4,5 5,7 4,5@Moore,Mealy", "a way there and back takes 2 (n - 1) steps, one more than the longest wait"),
       unrealizable=("3,2 4,4 3,2@Moore,Mealy", "a way there and back takes longer than the charge lasts"))

family("robot_alarm", "A robot goes to all of n rooms, and at an alarm back to the first one.", "n", ONE + NEAR, """
INPUTS { alarm; }
OUTPUTS { p[n]; }
ASSUME { G F !alarm; }
PRESET { p[0]; }
ASSERT {
  one(p);
  near(p);
  &&[1 <= i < n] (p[i] && alarm -> X p[i - 1]);
  p[0] && alarm -> X p[0];
}
GUARANTEE { (F G !alarm) -> &&[0 <= i < n] G F p[i]; }
""", realizable=("2 3 4 3@Moore,Mealy", "it goes up and down where there is no alarm"))

family("robot_alarm_unreal", "As the robot with an alarm, which doesn't keep it from the last room.", "n", ONE + NEAR, """
INPUTS { alarm; }
OUTPUTS { p[n]; }
ASSUME { G F !alarm; }
PRESET { p[0]; }
ASSERT {
  one(p);
  near(p);
  &&[1 <= i < n] (p[i] && alarm -> X p[i - 1]);
  p[0] && alarm -> X p[0];
}
GUARANTEE { G F p[n - 1]; }
""", unrealizable=("3 4", "an alarm is given at each second step, and what it goes up it goes back"))

# Counters and timers

family("binary_counter", "n bits count ticks, and the step in which they come round is told.", "n", "lower(i) = &&[0 <= j < i] b[j];", """
INPUTS { tick; }
OUTPUTS { b[n]; round; }
PRESET { &&[0 <= i < n] !b[i]; }
ASSERT {
  &&[0 <= i < n] (X b[i] <-> !(b[i] <-> (tick && lower(i))));
  round <-> tick && lower(n);
}
""", realizable=("2 3 4 3@Mealy,Moore", "a counter of 2^n values"), unrealizable=("2@Moore,Mealy", "the tick of a step isn't known to its outputs"))

family("ring_counter", "One of n outputs is raised, the next one behind each tick.", "n", ONE, """
INPUTS { tick; }
OUTPUTS { c[n]; }
PRESET { c[0]; }
ASSERT {
  one(c);
  &&[0 <= i < n] (c[i] && tick -> X c[(i + 1) % n]);
  &&[0 <= i < n] (c[i] && !tick -> X c[i]);
}
""", realizable=("3 5 7 5@Moore,Mealy 6@Mealy,Moore 9 12", "n values that are told apart"))

family("ring_counter_unreal", "As the ring counter, which is at its first output again and again though nobody promises ticks.", "n", ONE, """
INPUTS { tick; }
OUTPUTS { c[n]; }
PRESET { c[0]; }
ASSERT {
  one(c);
  &&[0 <= i < n] (c[i] && tick -> X c[(i + 1) % n]);
  &&[0 <= i < n] (c[i] && !tick -> X c[i]);
}
GUARANTEE { G F c[0]; }
""", unrealizable=("3 5 3@Moore,Mealy 9", "there is one tick and no more"))

family("two_counters", "Two ring counters of n values, each with ticks of its own.", "n", ONE + """
goes(c, tick) = &&[0 <= i < n] ((c[i] && tick -> X c[(i + 1) % n]) && (c[i] && !tick -> X c[i]));""", """
INPUTS { left; right; }
OUTPUTS { a[n]; b[n]; }
PRESET { a[0] && b[0]; }
ASSERT {
  one(a) && goes(a, left);
  one(b) && goes(b, right);
}
""", realizable=("2 3 4 2@Moore,Mealy", "n times n values that are told apart"))

family("score_board", "The points of two sides up to n, until a new game begins.", "n", """
below(c, i) = &&[0 <= j < i] c[j];
counts(c, point) = &&[0 <= i < n] (X c[i] <-> !fresh && (c[i] || (point && below(c, i))));""", """
INPUTS { home; guest; fresh; }
OUTPUTS { a[n]; b[n]; }
PRESET { &&[0 <= i < n] (!a[i] && !b[i]); }
ASSERT {
  counts(a, home);
  counts(b, guest);
}
""", realizable=("1 2 2@Moore,Mealy", "(n + 1) times (n + 1) values that are told apart"))

family("timer", "The alarm is raised exactly where the last start was k steps ago.", "k", "last(k) = start && X G[0:k - 1] !start;", """
INPUTS { start; }
OUTPUTS { alarm; }
PRESET { G[0:k - 1] !alarm; }
ASSERT { last(k) <-> X[k] alarm; }
""", realizable=("2 3 4 5 6 4@Mealy,Moore", "it counts the steps since the last start"),
       unrealizable=("3@Moore,Mealy", "a start in the step of the alarm isn't known to it"))

family("escalator", "It runs exactly while somebody has come in within the last k steps or now.", "k", "", """
INPUTS { enter; }
OUTPUTS { run; }
ASSERT {
  enter -> G[0:k] run;
  (G[0:k] !enter) -> X[k] !run;
}
""", realizable=("2 3 4 5 4@Mealy,Moore", "it counts the steps since somebody came in"),
       unrealizable=("3@Moore,Mealy", "who comes in in a step isn't known to its output"))

family("two_way_escalator", "It runs up or down for who comes, stands still for k steps before it turns, and serves each who waits.", "k", "", """
INPUTS { from_below; from_above; }
OUTPUTS { up; down; }
ASSERT {
  !(up && down);
  up && X !up -> X G[0:k - 1] (!up && !down);
  down && X !down -> X G[0:k - 1] (!up && !down);
}
GUARANTEE {
  G (from_below -> F up);
  G (from_above -> F down);
}
""", realizable=("1 2 3 2@Moore,Mealy", "it turns again and again"))

# Demonstrations and games

family("lily_grant_and_hold", "A request is granted for the next k steps, and behind a cancel nothing is until it may go on.", "k", "", """
INPUTS { request; cancel; go; }
OUTPUTS { grant; }
ASSERT { request -> X G[0:k - 1] grant; }
GUARANTEE { G (cancel -> X (!grant U go)); }
""", unrealizable=("1 2 3 2@Moore,Mealy", "request and cancel come together, and it may not go on in the next step"))

family("lily_grant_in_time", "A request is granted at most k steps behind the next one, and a cancel forbids that for a step at most.", "k", "", """
INPUTS { request; cancel; go; }
OUTPUTS { grant; }
REQUIRE { cancel -> X F[0:1] go; }
ASSERT { request -> X F[0:k] grant; }
GUARANTEE { G (cancel -> X (!grant U go)); }
""", realizable=("1 2", "in one of two steps it may go on or nothing is cancelled"),
       unrealizable=("0 1@Moore 2@Moore,Mealy", "each step has a cancel, and where there is a grant it may not go on"))

family("lily_traffic_light", "Two roads, one with a sensor; a light that is green stays so until the timer has run out.", "", "", """
INPUTS { car; timer; }
OUTPUTS { high; farm; }
ASSUME { G F timer; }
ASSERT {
  !(high && farm);
  high && !timer -> X high;
  farm && !timer -> X farm;
}
GUARANTEE {
  G (car -> F farm);
  G F high;
}
""", realizable=("@Mealy @Moore @Moore,Mealy @Mealy,Moore", "the lights change when the timer has run out"))

family("music_player", "It plays while somebody listens, pauses where a call comes, and goes on behind it where it was.", "n", SAME, """
INPUTS { call; skip; }
OUTPUTS { play; song[n]; }
PRESET { song[0] && &&[1 <= i < n] !song[i]; }
ASSERT {
  play <-> !call;
  call -> same(song);
  !call && !skip -> same(song);
  !call && skip -> &&[0 <= i < n] (song[i] <-> X song[(i + 1) % n]);
}
""", realizable=("2 3 5", "songs go round, and each step's play is a function of its input"),
       unrealizable=("2@Moore,Mealy", "a call of a step isn't known to its output"))

family("gears", "A gear box of n gears goes up or down by one where it is told to.", "n", ONE, """
INPUTS { up; down; }
OUTPUTS { gear[n]; }
PRESET { gear[0]; }
ASSERT {
  one(gear);
  &&[0 <= i < n - 1] (gear[i] && up && !down -> X gear[i + 1]);
  &&[1 <= i < n] (gear[i] && down && !up -> X gear[i - 1]);
  gear[n - 1] && up && !down -> X gear[n - 1];
  gear[0] && down && !up -> X gear[0];
  (up <-> down) -> &&[0 <= i < n] (gear[i] -> X gear[i]);
}
""", realizable=("3 5 6 5@Moore,Mealy 9", "n gears that are told apart"))

family("nim", "A heap of n: the other side takes one or two, then this side does, and takes the last one.", "n", ONE, """
INPUTS { two; }
OUTPUTS { h[n + 1]; more; }
PRESET { h[n]; }
ASSERT {
  one(h) && !h[1] && !h[2];
  h[0] -> X h[0];
  h[3] -> !(two && more);
  &&[3 <= i <= n] (h[i] && !two && !more -> X h[i - 2]);
  &&[3 <= i <= n] (h[i] && !(two <-> more) -> X h[i - 3]);
  &&[4 <= i <= n] (h[i] && two && more -> X h[i - 4]);
}
""", realizable=("3 6 3@Mealy,Moore 9", "both together take three of a heap that three divides"),
       unrealizable=("4 5 3@Moore,Mealy 8", "the other side leaves a heap that three divides, or takes what this side didn't expect"))

family("tic_tac", "On a board of n times n the other side begins, both mark a free cell in turn, and the other side never has a line.", "n", """
new(b, i) = !b[i] && X b[i];
fresh(b) = &&[0 <= i < n * n] (b[i] -> X b[i]) && &&[0 <= i < n * n] &&[i < j < n * n] !(new(b, i) && new(b, j));
first(b) = &&[0 <= i < n * n] &&[i < j < n * n] !(b[i] && b[j]);
line = (||[0 <= r < n] &&[0 <= c < n] e[r * n + c]) || (||[0 <= c < n] &&[0 <= r < n] e[r * n + c])
  || (&&[0 <= c < n] e[c * n + c]) || (&&[0 <= c < n] e[c * n + n - 1 - c]);""", """
INPUTS { e[n * n]; }
OUTPUTS { s[n * n]; }
INITIALLY { first(e); }
PRESET { first(s) && &&[0 <= i < n * n] !(e[i] && s[i]); }
REQUIRE { fresh(e) && &&[0 <= i < n * n] (s[i] && !e[i] -> X !e[i]); }
ASSERT { fresh(s) && &&[0 <= i < n * n] !(e[i] && s[i]); }
GUARANTEE { G !line; }
""", realizable=("3", "the second one of two can always keep the first one from a line of three"),
       unrealizable=("2 2@Moore,Mealy", "any two marks are a line of two, and one mark doesn't keep off both"))
