"""Further families of tools/families: games of reactivity(1), boards and heaps, and the unrealizable forms of arbiters and of parts of a bus."""
from families import MUTUAL, NEAR, NUMBER, ONE, SAME, family

SOME = "some(b) = ||[0 <= i < SIZEOF b] b[i];\n"

# Arbiters

family("dense_round_robin", "Requests stay until they are granted, and while one waits no other is granted twice.", "n", MUTUAL + """
once(a, b) = !a W (b || (a && X (!a W b)));""", """
INPUTS { r[n]; }
OUTPUTS { g[n]; }
REQUIRE { &&[0 <= i < n] (r[i] && !g[i] -> X r[i]); }
ASSERT {
  mutual(g);
  &&[0 <= i < n] (g[i] -> r[i]);
}
GUARANTEE {
  &&[0 <= i < n] G (r[i] -> F g[i]);
  &&[0 <= i < n] &&[j IN {0, 1 .. n - 1} (-) {i}] G (r[j] -> once(g[i], g[j]));
}
""", realizable=("2 3 4 5", "the next one in the round that waits is granted"))

family("round_robin_arbiter_unreal", "As the round robin arbiter, but requests may be withdrawn.", "n", MUTUAL, """
INPUTS { r[n]; }
OUTPUTS { g[n]; }
ASSERT {
  mutual(g);
  &&[0 <= i < n] (g[i] -> r[i]);
}
GUARANTEE {
  &&[0 <= i < n] G (r[i] -> F g[i]);
  &&[0 <= i < n] &&[j IN {0, 1 .. n - 1} (-) {i}] G (g[i] && r[j] -> X (!g[i] W g[j]));
}
""", unrealizable=("2 3", "all ask for one step alone, and one of them is granted in it"))

family("full_arbiter_unreal_at_once", "As the full arbiter, but who asks with another one, and so again k steps later, is granted with it.", "n k",
       MUTUAL, """
INPUTS { r[n]; }
OUTPUTS { g[n]; }
ASSERT { mutual(g); }
GUARANTEE {
  &&[0 <= i < n] G (r[i] -> F g[i]);
  &&[0 <= i < n] (r[i] R !g[i]);
  &&[0 <= i < n] G (g[i] && X (!r[i] && !g[i]) -> X (r[i] R !g[i]));
  &&[0 <= i < n] &&[i < j < n] G (r[i] && r[j] && X[k] (r[i] && r[j]) -> F (g[i] && g[j]));
}
""", unrealizable=("2,1 3,2 5,2", "two ask at each step, and no two grants stand together"))

family("full_arbiter_unreal_twice", "As the full arbiter, but grants stand with requests, and who asks with another one is granted with it.", "n",
       MUTUAL, """
INPUTS { r[n]; }
OUTPUTS { g[n]; }
ASSERT {
  mutual(g);
  &&[0 <= i < n] (g[i] -> r[i]);
}
GUARANTEE {
  &&[0 <= i < n] G (r[i] -> F g[i]);
  &&[0 <= i < n] (r[i] R !g[i]);
  &&[0 <= i < n] G (g[i] && X (!r[i] && !g[i]) -> X (r[i] R !g[i]));
  &&[0 <= i < n] &&[i < j < n] G (r[i] && r[j] -> F (g[i] && g[j]));
}
""", unrealizable=("2 3 5 6", "two ask for one step alone; or two ask at each step, and no two grants stand together"))

family("cancel_arbiter_unreal", "As the arbiter with cancels, but each request is granted in the end, cancelled or not.", "n", MUTUAL, """
INPUTS { r[n]; c[n]; }
OUTPUTS { g[n]; }
ASSERT {
  mutual(g);
  &&[0 <= i < n] (c[i] -> !g[i]);
}
GUARANTEE {
  &&[0 <= i < n] G (r[i] -> F g[i]);
  &&[0 <= i < n] (!g[i] W r[i]);
  &&[0 <= i < n] G (c[i] && !r[i] -> X (!g[i] W r[i]));
}
""", unrealizable=("1 2 3", "a client asks and is cancelled at each step"))

family("buffer_arbiter", "Requests wait in a buffer until they are granted, one at a time, and each leaves it in the end.", "n", MUTUAL, """
INPUTS { r[n]; }
OUTPUTS { g[n]; wait[n]; }
PRESET { &&[0 <= i < n] !wait[i]; }
ASSERT {
  mutual(g);
  &&[0 <= i < n] (g[i] -> r[i] || wait[i]);
  &&[0 <= i < n] (X wait[i] <-> (r[i] || wait[i]) && !g[i]);
}
GUARANTEE { &&[0 <= i < n] G F !wait[i]; }
""", realizable=("2 3 4 2@Mealy,Moore", "those that wait are granted in turn"))

family("buffer_arbiter_unreal", "As the arbiter with a buffer, in which only one request at a time has room.", "n", MUTUAL, """
INPUTS { r[n]; }
OUTPUTS { g[n]; wait[n]; }
PRESET { &&[0 <= i < n] !wait[i]; }
ASSERT {
  mutual(g);
  mutual(wait);
  &&[0 <= i < n] (g[i] -> r[i] || wait[i]);
  &&[0 <= i < n] (X wait[i] <-> (r[i] || wait[i]) && !g[i]);
}
GUARANTEE { &&[0 <= i < n] G F !wait[i]; }
""", unrealizable=("3 4", "three ask at once, one is granted, and two have to wait"))

# Games of reactivity(1)

LIFT = """
INPUTS { call[n]; }
OUTPUTS { at[n]; }
INITIALLY { &&[0 <= i < n] !call[i]; }
PRESET { at[0]; }
REQUIRE {
  &&[0 <= i < n] (call[i] && at[i] -> X !call[i]);
  &&[0 <= i < n] (call[i] && !at[i] -> X call[i]);
}
ASSERT {
  one(at);
  near(at);
  &&[0 <= i < n - 1] (at[i] && X at[i + 1] -> some(call));
}
GUARANTEE {
  &&[0 <= i < n] G F (call[i] -> at[i]);
  G F (at[0] || some(call));
"""

family("lift_gr1", "A lift of n floors goes up only while somebody calls, serves each call, and rests at the lowest floor.", "n",
       ONE + NEAR + SOME, LIFT + "}", realizable=("2 3 4 5", "it goes up and down while somebody calls, and down when nobody does"))

family("lift_gr1_unreal", "As the lift that rests, which is at its highest floor again and again.", "n",
       ONE + NEAR + SOME, LIFT + "  G F at[n - 1];\n}", unrealizable=("2 3 4", "nobody calls, so it never goes up"))

MASTER = """
INPUTS { ready; last; r[n]; }
OUTPUTS { start; g[n]; m[n]; }
ASSUME {%s
  G F ready;
}
PRESET { m[0] && !start; }
ASSERT {
  one(g) && one(m);
  &&[0 <= i < n] (ready -> (g[i] <-> X m[i]));
  &&[0 <= i < n] (g[i] && !m[i] -> r[i]);
  !ready -> X !start;
  X !start -> same(m);
}
GUARANTEE {
  G (start && !last -> X (!start W last));
  &&[0 <= i < n] G F (r[i] -> m[i]);
}
"""

family("bus_master", "The master of a bus of n changes as a transfer starts, behind a ready step and the last beat of the one before.", "n",
       ONE + SAME, MASTER % "\n  G F last;",
       realizable=("1 2 3 4", "behind a last beat and a ready step the next one that asks is the master"))

family("bus_master_unreal", "As the master of a bus, where nobody promises that transfers end.", "n", ONE + SAME, MASTER % "",
       unrealizable=("2 3", "all ask at each step, and no transfer ends, so only two are ever the master"))

family("generalized_buffer_unreal", "Senders of a queue, each with a handshake of four phases, of which nobody promises that it ends.", "n",
       MUTUAL, """
INPUTS { s[n]; full; }
OUTPUTS { a[n]; put; }
INITIALLY { (&&[0 <= i < n] !s[i]) && !full; }
PRESET { (&&[0 <= i < n] !a[i]) && !put; }
REQUIRE {
  &&[0 <= i < n] (s[i] && !a[i] -> X s[i]);
  &&[0 <= i < n] (!s[i] && a[i] -> X !s[i]);
}
ASSUME { G F !full; }
ASSERT {
  mutual(a);
  &&[0 <= i < n] (!a[i] && X a[i] -> s[i]);
  &&[0 <= i < n] (a[i] && s[i] -> X a[i]);
  X put <-> ||[0 <= i < n] (!a[i] && X a[i]);
  full -> !put;
}
GUARANTEE {
  &&[0 <= i < n] G (s[i] -> F a[i]);
  &&[0 <= i < n] G (!s[i] -> F !a[i]);
}
""", unrealizable=("2 3 4", "all ask, and the first one that is taken never ends its handshake"))

# Steps and counters

STEPS = """
INPUTS { ready[n]; }
OUTPUTS { done[n]; step; }
%sPRESET { &&[0 <= i < n] !done[i]; }
ASSERT {
  step <-> &&[0 <= i < n] (done[i] || ready[i]);
  &&[0 <= i < n] (X done[i] <-> (done[i] || ready[i]) && !step);
}
GUARANTEE { G F step; }
"""

family("synchronised_steps", "Who of n is ready waits for the others, and all make a step as soon as the last one is.", "n", "",
       STEPS % "ASSUME { &&[0 <= i < n] G F ready[i]; }\n", realizable=("2 3 4 6", "a set of those that are done, which is full again and again"),
       unrealizable=("2@Moore,Mealy", "who is ready in a step isn't known to its outputs"))

family("synchronised_steps_unreal", "As the synchronised steps, where nobody promises to be ready.", "n", "", STEPS % "",
       unrealizable=("2 4 6", "one of them is never ready"))

CARRY = """
INPUTS { tick; }
OUTPUTS { b[n]; c[n]; }
%sPRESET { &&[0 <= i < n] !b[i]; }
ASSERT {
  &&[0 <= i < n] (c[i] <-> b[i] && into(i));
  &&[0 <= i < n] (X b[i] <-> !(b[i] <-> into(i)));
}
GUARANTEE { G F c[n - 1]; }
"""
INTO = """into(i) =
  i == 0 : tick
  otherwise : c[i - 1];"""

family("carry_counter", "n bits count ticks, with the carry of each, and come round again and again.", "n", INTO, CARRY % "ASSUME { G F tick; }\n",
       realizable=("2 3 4 5", "a counter of 2^n values"), unrealizable=("2@Moore,Mealy", "the tick of a step isn't known to its carries"))

family("carry_counter_unreal", "As the counter with carries, where nobody promises ticks.", "n", INTO, CARRY % "",
       unrealizable=("2 3 5", "there are no ticks, so it never comes round"))

# Boards and heaps: what the other side does stands in the step behind the board that it has seen

CHOMP = """
INPUTS { x[w]; y[h]; }
OUTPUTS { b[w * h]; mine; }
PRESET { (&&[0 <= i < w * h] b[i]) && %smine; }
REQUIRE {
  one(x) && one(y);
  &&[0 <= i < w] &&[0 <= j < h] (!mine && b[0] && X (x[i] && y[j]) -> b[i + w * j]);
}
ASSERT {
  mine <-> X !mine;
  &&[0 <= i < w] &&[0 <= j < h] (!mine && b[0] && X (x[i] && y[j]) -> bite(i, j));
  mine && b[0] -> ||[1 <= k < w * h] (b[k] && bite(k %% w, k / w));
}
"""
BEGINS = "who begins wins, since else it could begin with what the other side would answer to the last piece"
BITE = ONE + "bite(i, j) = &&[0 <= c < w] &&[0 <= d < h] (X b[c + w * d] <-> b[c + w * d] && (c < i || d < j));"

family("chomp", "Of a bar of w times h pieces each side in turn takes one with all to its right and above it, never the first one.", "w h",
       BITE, CHOMP % "", realizable=("2,1 2,2 2,3 3,3", BEGINS))

family("chomp_second", "As chomp, where the other side begins.", "w h", BITE, CHOMP % "!",
       unrealizable=("2,1 2,2 2,3 3,3", BEGINS))

family("nim_of_two_heaps", "Of two heaps, of p and q <= p, each side takes as many as it likes from one; who has none to take loses.", "p q",
       ONE + SAME + """empty = a[0] && b[0];
fair = one(a) && one(b) && !mine && !empty;
goes(h, same_one) = ||[0 <= i < SIZEOF h] (h[i] && ||[0 <= k < i] X h[k]) && same_one;
falls(h, k) = ||[k < i < SIZEOF h] h[i];""", """
INPUTS { second; rest[p]; }
OUTPUTS { a[p + 1]; b[q + 1]; mine; }
PRESET { a[p] && b[q] && !mine; }
REQUIRE {
  one(rest);
  &&[0 <= k < p] (fair && X (!second && rest[k]) -> falls(a, k));
  &&[0 <= k < p] (fair && X (second && rest[k]) -> falls(b, k));
}
ASSERT {
  one(a) && one(b);
  mine -> !empty;
  !mine && empty -> X (!mine && empty);
  !mine && !empty -> X mine;
  &&[0 <= k < p] (!mine && X (!second && rest[k]) && falls(a, k) -> X a[k] && same(b));
  &&[0 <= k < q] (!mine && X (second && rest[k]) && falls(b, k) -> X b[k] && same(a));
  mine -> X !mine && (goes(a, same(b)) || goes(b, same(a)));
}
""", realizable=("1,1 2,2 3,3", "it leaves two heaps of one size"), unrealizable=("2,1 3,1 3,2", "the other side leaves two heaps of one size"))
