"""Who may hold the pool to write in, and for what. A new holder is a new line here, to be thought about."""

# Who holds the pool to write in, and all that each does with it.
HOLDERS = {
    "table": {"fresh": ["length", "part to fill", "part to fill"], "fill": ["length", "store"]},
    "change": {
        "put": ["store"],
        "make_stores": ["to next_store", "to put"],
        "change": ["to plan_request", "to make_stores"],
        "tidy": ["length", "to census::census", "to targets::settled", "to make_stores"],
    },
    "goleuthan": {
        "gol_fresh": ["to calls::fresh"],
        "gol_change": ["to calls::change"],
        "gol_tidy": ["to calls::tidy"],
        "gol_change_by": ["to calls::change_by"],
        "fresh": ["to table::fresh"],
        "change": ["to change::change"],
        "tidy": ["to change::tidy"],
        "change_by": ["to owners::change_by"],
    },
    "owners": {"change_by": ["length", "to change::change"]},
    "rights_listing": {
        "reply": ["to change::change"],
        "serve": ["to reply"],
        "serve_last": ["to reply"],
        "hear": ["to serving::serve"],
        "hear_last": ["to serving::serve_last"],
        "hear_all": ["to hear", "to hear_last"],
    },
}

# Who in crate change is lent the two arrays that a change makes, the owners of places and the plan, and what each does
# with them: neither stores in them itself.
FILLERS = {
    "plan_request": {"owners": ["to plan_region"], "plan": ["to plan_region"]},
    "plan_region": {
        "owners": ["to census::census", "to targets::settled", "to plan::plan_change"],
        "plan": ["to plan::plan_change"],
    },
}

# Which of a call's own arrays it lends to be filled, and to whom.
ARRAYS = {
    ("change", "owners"): "lent to plan_request",
    ("change", "plan"): "lent to plan_request",
    ("tidy", "owners"): "lent to census::census",
}

# The program's pool is an array of the function that runs it.
RUN = ["new", "lent to table::fresh", "lent to hear_all", "shown to show_all"]

# Who is told the allowance, and what each does with it.
TOLD = {
    ("change", "make_stores"): "the loop",
    ("change", "change"): ["to make_stores"],
    ("change", "tidy"): ["to make_stores"],
    ("goleuthan", "gol_change"): ["to calls::change"],
    ("goleuthan", "gol_tidy"): ["to calls::tidy"],
    ("goleuthan", "gol_change_by"): ["to calls::change_by"],
    ("goleuthan", "change"): ["to change::change"],
    ("goleuthan", "tidy"): ["to change::tidy"],
    ("goleuthan", "change_by"): ["to owners::change_by"],
    ("owners", "change_by"): ["to change::change"],
}

# The crates below `change`; in the census the owners of places are lent to write in, and in the plan its words.
BELOW = next(line.split()[1:] for line in open("crates.txt") if line.startswith("change:"))
OWNERS = {name: ["owners"] for name in ("give_place", "table_check", "entry_check", "census")}
PLANNERS = {
    name: ["plan"] for name in ("put_edge", "take_place", "plan_ends", "plan_change")
}

# What the functions that C calls are lent to write in.
EXPORTED = {
    "gol_fresh": ["pool"],
    "gol_lookup": ["out"],
    "gol_change": ["pool", "out"],
    "gol_tidy": ["pool", "out"],
    "gol_list": ["runs", "out"],
    "gol_check": ["buffer", "out"],
    "gol_flush_all": ["buffer"],
    "gol_flush_domain": ["buffer"],
    "gol_flush_region": ["buffer"],
    "gol_set_switch_gate": ["gates"],
    "gol_set_return_gate": ["gates"],
    "gol_remove_gate": ["gates"],
    "gol_step": ["stack", "out"],
    "gol_make_region": ["regions"],
    "gol_pass_region": ["regions"],
    "gol_give_export": ["regions"],
    "gol_change_by": ["pool", "out"],
}

# Who makes changes, tidyings and fresh pools.
CALLERS = ["change", "change_by", "change_by", "fresh", "reply", "run", "tidy"]

# Who holds the words of a lent state to write in, and all that each does with them, in this order.
STATES = {
    "lookaside": {
        "put_slot": ["store"] * 4,
        "fill_next": ["read", "to put_slot", "store"],
        "check": ["read", "to layout::find", "to layout::fill_next"],
        "flush": ["to layout::slot_at", "to layout::put_slot"],
        "emptied": ["whole.fill"],
        "flush_all": ["read", "to flush"],
        "flush_domain": ["read", "to flush"],
        "flush_region": ["read", "to flush"],
    },
    "gates": {
        "put_gate": ["store"] * 3,
        "put_frame": ["store"] * 2,
        "store_gate": ["to layout::put_gate", "store"],
        "close_up": ["read", "to layout::gate_at", "to layout::put_gate", "store"],
        "no_gates": ["to layout::put_gate", "store"],
        "call_stack": ["to layout::put_frame", "store", "store"],
        "set_gate": ["read", "to places::place_of", "to places::store_gate", "to places::store_gate"],
        "remove_gate": ["read", "to places::place_of", "to places::close_up"],
        "push": ["read", "to layout::put_frame", "store", "store"],
        "switch_step": ["read", "read", "to push"],
        "give_back": ["read", "to layout::frame_at", "store", "store"],
        "return_step": ["read", "to give_back"],
        "fetch_step": ["to steps::step_refusal", "read"]
        + [f"to steps::{step}" for step in ("plain_step", "switch_step", "return_step")],
    },
    "owners": {
        "put_region": ["store"] * 5,
        "make": ["to list::place_of", "read", "to list::put_region", "store"],
        "pass": ["to list::own_place", "to list::put_region"],
        "give": ["to list::own_place", "to list::region_at", "to list::put_region"],
        "make_region": ["to calls::ask", "to calls::make"],
        "pass_region": ["to calls::ask", "to calls::pass"],
        "give_export": ["to calls::ask", "to calls::give"],
        # It holds the pool, and only reads the list.
        "change_by": HOLDERS["owners"]["change_by"],
    },
}

# What the code of lookups, and of the checks and steps that ask as they do, does with the pool.
READERS = {
    "table": {
        "lookup": ["to decide"],
        "decide": ["length", "to walk_down"],
        "walk_down": ["to load"],
        "load": ["read"],
    },
    "lookaside": {"check": ["length", "to table::decide"]},
    "gates": {
        "plain_step": ["to fetch"],
        "switch_step": ["to fetch"],
        "return_step": ["to fetch"],
        "fetch": ["to table::decide"],
    },
}

# The one loop, token by token, whatever its locals are called. What it asks and gives are names.
NAMES = r"[\w ,]+"
FIELD = r"{0}(?: : (?P<{0}>\w+))?"
BOUND = r"(?({0})(?P={0})|{0})"
LOOP = (
    r"let mut (?P<left>\w+) = allowance ; let mut (?P<from>\w+) = START ; "
    r"while let Some \( Store \{ " + " , ".join(FIELD.format(field) for field in ("at", "value", "on")) + r" \} \) = "
    r"guide \. next_store \( (?P<asked>" + NAMES + r") , (?P=from) \) \{ "
    r"if (?P=left) == 0 \{ return Ending :: Cut ; \} "
    r"put \( (?P<given>" + NAMES + r") , " + BOUND.format("at") + " , " + BOUND.format("value") + r" \) ; "
    r"(?P=left) -= 1 ; (?P=from) = " + BOUND.format("on") + r" ; \} "
    r"Ending :: Done \( allowance - (?P=left) \)"
)
