"""The texts of tools/families --large: further families, and at most four instances of each, none with over 64 signals."""
import more_families  # (which adds its own)
from families import MUTUAL, NEAR, NUMBER, ONE, SAME, family

# Of each family: its verdict, and the values of its parameters.
LARGE = [
    ("simple_arbiter", "realizable", "8 12 16 24"),
    ("simple_arbiter_unreal", "unrealizable", "8 12 16 24"),
    ("prioritized_arbiter", "realizable", "8 12 16 24"),
    ("prioritized_arbiter_unreal", "unrealizable", "8 12 16 24"),
    ("full_arbiter", "realizable", "8 12 16 24"),
    ("full_arbiter_unreal", "unrealizable", "8 12 16 24"),
    ("round_robin_arbiter", "realizable", "8 12 16 24"),
    ("round_robin_arbiter_unreal", "unrealizable", "8 12 16 24"),
    ("cancel_arbiter", "realizable", "8 12 16"),
    ("cancel_arbiter_unreal", "unrealizable", "8 12 16"),
    ("buffer_arbiter", "realizable", "8 12 16"),
    ("buffer_arbiter_unreal", "unrealizable", "8 12 16"),
    ("load_balancer", "realizable", "6 8 12"),
    ("load_balancer_unreal", "unrealizable", "6 8 12"),
    ("detector", "realizable", "8 12 16 24"),
    ("detector_unreal", "unrealizable", "8 12 16 24"),
    ("collector", "realizable", "8 12 16 24"),
    ("collector_unreal", "unrealizable", "8 12 16 24"),
    ("wires", "realizable", "16 20 32"),
    ("wires_unreal", "unrealizable", "16 20 32"),
    ("shift", "realizable", "16 20 32"),
    ("shift_unreal", "unrealizable", "16 20 32"),
    ("shift_register", "realizable", "16 24"),
    ("shift_register_unreal", "unrealizable", "16 24"),
    ("robot_rooms", "realizable", "8,8 16,16"),
    ("robot_rooms_unreal", "unrealizable", "8,8 16,16"),
    ("carry_counter", "realizable", "6 8 10"),
    ("carry_counter_unreal", "unrealizable", "6 8 10"),
    ("lift_gr1", "realizable", "6 8 12"),
    ("lift_gr1_unreal", "unrealizable", "6 8 12"),
    ("bus_master", "realizable", "4 6 8"),
    ("bus_master_unreal", "unrealizable", "4 6 8"),
    ("generalized_buffer", "realizable", "4 6 8 10"),
    ("generalized_buffer_unreal", "unrealizable", "4 6 8 10"),
    ("ltl2dba_sequence", "realizable", "8 12"),
    ("responses", "realizable", "8 12"),
    ("ltl2dba_response_unreal", "unrealizable", "8 12"),
    ("amba_encode", "realizable", "12,4 16,4 20,5"),
    ("amba_encode_unreal", "unrealizable", "12,4 16,4 20,5"),
    ("amba_lock", "realizable", "12 16 20"),
    ("amba_lock_unreal", "unrealizable", "12 16 20"),
]

family("load_balancer_unreal", "As the load balancer, where nobody promises idle steps.", "n", MUTUAL, """
INPUTS { idle; r[n]; }
OUTPUTS { g[n]; }
REQUIRE { idle && (&&[0 <= i < n] !g[i]) -> X idle; }
ASSERT {
  mutual(g);
  &&[0 <= i < n] (g[i] -> idle);
}
GUARANTEE { &&[0 <= i < n] G (r[i] -> F g[i]); }
""", unrealizable=("1 2 3", "all ask, and no step is idle"))

family("collector_unreal", "Says again and again that all n have come, and not before each one has since it was said last.", "n", "", """
INPUTS { r[n]; }
OUTPUTS { all; }
GUARANTEE {
  G F all;
  &&[0 <= i < n] (!all W r[i]);
  &&[0 <= i < n] G (all -> X (!all W r[i]));
}
""", unrealizable=("1 2 3", "one of them never comes"))

family("wires_unreal", "Each of n outputs is what its input will be in the next step.", "n", "", """
INPUTS { in[n]; }
OUTPUTS { out[n]; }
ASSERT { &&[0 <= i < n] (out[i] <-> X in[i]); }
""", unrealizable=("1 2 4", "the other value is read"))

family("shift", "Each of n outputs is the input before its own, in a round.", "n", "", """
INPUTS { in[n]; }
OUTPUTS { out[n]; }
ASSERT { &&[0 <= i < n] (out[(i + 1) % n] <-> in[i]); }
""", realizable=("2 4 8", "each step's outputs are a function of its inputs"),
       unrealizable=("2@Moore,Mealy", "what is read in a step isn't known to its outputs"))

family("shift_unreal", "Each of n outputs is its input, and the input before its own, in a round.", "n", "", """
INPUTS { in[n]; }
OUTPUTS { out[n]; }
ASSERT {
  &&[0 <= i < n] (out[i] <-> in[i]);
  &&[0 <= i < n] (out[(i + 1) % n] <-> in[i]);
}
""", unrealizable=("2 4 8", "two inputs of one output differ"))

family("shift_register_unreal", "As the shift register, whose first output is what will be read in the next step.", "n", "", """
INPUTS { in; }
OUTPUTS { q[n]; }
ASSERT {
  q[0] <-> X in;
  &&[1 <= i < n] (X q[i] <-> q[i - 1]);
}
""", unrealizable=("1 2 3", "the other value is read"))

family("robot_rooms_unreal", "As the robot in w times h rooms, of whose doors nobody promises that they open.", "w h", ONE + NEAR + SAME, """
INPUTS { shut; }
OUTPUTS { x[w]; y[h]; }
PRESET { x[0] && y[0]; }
ASSERT {
  one(x) && one(y) && near(x) && near(y);
  same(x) || same(y);
  shut -> same(x);
}
GUARANTEE {
  G F (x[0] && y[0]);
  G F (x[w - 1] && y[h - 1]);
}
""", unrealizable=("2,2 3,2", "all doors are shut for ever"))

family("responses", "Answers again and again exactly where each of n signals is answered by its own other one whenever it comes.", "n", "", """
INPUTS { p[n]; q[n]; }
OUTPUTS { g; }
GUARANTEE { (&&[0 <= i < n] G (p[i] -> F q[i])) <-> G F g; }
""", realizable=("1 2 3", "it waits for one pair after another without an open question, and answers then"))

family("amba_encode_unreal", "The number of the grant of n that will be read in the next ready step is written, else it is kept.", "n w",
       ONE + SAME + NUMBER, """
INPUTS { ready; grant[n]; }
OUTPUTS { master[w]; }
REQUIRE { one(grant); }
ASSERT {
  &&[0 <= i < n] (ready && X grant[i] -> number(master, i));
  !ready -> same(master);
}
""", unrealizable=("2,1 4,2", "another grant is read"))

family("amba_lock_unreal", "When it is decided, the lock that the granted client will have two steps later is taken over; else it stays.", "n",
       ONE, """
INPUTS { decide; grant[n]; lock[n]; }
OUTPUTS { locked; }
REQUIRE { one(grant); }
ASSERT {
  &&[0 <= i < n] (decide && X grant[i] -> (X locked <-> X X lock[i]));
  !decide -> (X locked <-> locked);
}
""", unrealizable=("1 2 3", "the lock is then another one"))
