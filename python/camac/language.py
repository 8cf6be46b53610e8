"""The words of the language: what they make, and what they begin."""
# What makes cycles: one of a function, many of one, and the calls of a crate and of a LAM.
SINGLE = frozenset(("cfsa", "cssa"))
TRANSFERS = frozenset(("cfmad", "cfubc", "cfubr"))
OF_FUNCTIONS = SINGLE | TRANSFERS
CRATE_CALLS = frozenset(("cccz", "cccc", "ctci", "ctcd", "ctgl", "ccci", "cccd"))
LAM_CALLS = frozenset(("cclm", "cclc", "ctlm"))
CYCLES = SINGLE | CRATE_CALLS | LAM_CALLS
# What begins a body, a declaration, and a statement; `table` begins a declaration where it names one.
BODIES = frozenset(("service", "proc"))
DECLARATIONS = BODIES | {"cdlam", "var"}
STATEMENTS = OF_FUNCTIONS | CRATE_CALLS | LAM_CALLS | {"cdreg", "put", "if", "for", "while", "lock", "call"}
# What has a block, and a row of `camac costs`.
BLOCKS = frozenset(("if", "else", "for", "while", "lock"))
# A name and `=` after one of these are no assignment.
NO_ASSIGNMENT = frozenset(("for", "table", "if", "while", "and", "not"))
OTHERS = "table within cycles event words steps max limit tally on off else to turns by keep in and not q x"
WORDS = DECLARATIONS | STATEMENTS | frozenset(OTHERS.split())
# A word of the language behind the last number of a `for` alone, and a name elsewhere.
EACH = "each"
