"""Wrong plans, each with its refusal."""
# A text of the sample plan, another one in its place, and the refusal.
TABLES = [
    ("gl = 3", "gl = 25", "P4: value out of range"),
    ('name = "REG"', 'name = "REG"\ncolour = 1', "P2: unknown key"),
    ('name = "REG"', "", "P3: missing key or wrong kind"),
    ('type = "REG"', 'type = "X"', "P7: unknown module type"),
]
TWICE = [
    ("[[crate]]", "[[crate]]\nnumber = 1\n[[crate]]", "P5: crate twice"),
    ("n = 6", "n = 5", "P6: station twice"),
    ("{ f = 8, a = 12 }", "{ f = 8, a = 12 }, { f = 0, a = 11 }", "P8: declared twice"),
    ('type = "REG"', 'type = "REG"\ngl = 3', "P9: GL bit twice"),
]
FIELDS = [
    ("{ f = 8,", "{ f = 32,", "P4: value out of range"),
    ('name = "ADC"', 'name = "a b"', "P4: value out of range"),
    ("a = 12, to = 15", "a = 12, to = 11", "P4: value out of range"),
    ("probe = true", "probe = true, width = 12", "P4: value out of range"),
    ("width = 12", "width = 25", "P4: value out of range"),
    ("a = 12, to = 15", "a = 12, to = 16", "P4: value out of range"),
    ("number = 1", "number = 8", "P4: value out of range"),
    ("waits = 2", "waits = 16", "P4: value out of range"),
    ("n = 5", "n = 24", "P4: value out of range"),
]

TYPE = '[[type]]\nname = "ADC"\ncommands = [ { f = 0, a = 0, to = 11 } ]\n'
STATION = '[[crate.station]]\nn = 5\ntype = "ADC"\n'
CRATE = f"[[crate]]\nnumber = 1\n{STATION}"

# A mistake in a plan, the plan, the rule, and what is said of the case.
MISTAKES = [
    ("a table's name in the plural", TYPE.replace("type", "types"), "P2", "`types`: there is no such key. Did you mean `type`? The keys of the plan itself are `buffer`, `type` and `crate`."),
    ("stations in the plural", TYPE + CRATE.replace("station", "stations"), "P2", "crate 1, `stations`: there is no such key. Did you mean `station`? The keys of a `[[crate]]` are `number`, `waits` and `station`."),
    ("a station at the top", TYPE + '[[station]]\nn = 5\n', "P2", "`station`: there is no such key. It is a key of a `[[crate]]`. The keys of the plan itself are `buffer`, `type` and `crate`."),
    ("a key of the crate after its station", TYPE + CRATE + "waits = 2\n", "P2", "crate 1, station 5, `waits`: there is no such key. It is a key of a `[[crate]]`. The keys of a `[[crate.station]]` are `n`, `type` and `gl`."),
    ("a bit as a text", TYPE + CRATE + 'gl = "3"\n', "P3", "crate 1, station 5, gl: the value is of the kind string; expected a whole number from 1 to 24."),
    ("a range as an array", TYPE.replace("a = 0, to = 11", "a = [0, 11]"), "P3", "type `ADC`, first command, a: the value is of the kind array; expected a whole number from 0 to 15.\nFix: A range is written as `a = 0, to = 11`."),
    ("a range as a text", TYPE.replace("a = 0, to = 11", 'a = "0-11"'), "P3", "type `ADC`, first command, a: the value is of the kind string; expected a whole number from 0 to 15.\nFix: A range is written as `a = 0, to = 11`."),
    ("a probe as a number", TYPE.replace("to = 11", "to = 11, probe = 1"), "P3", "type `ADC`, first command, probe: the value is of the kind integer; expected `true` or `false`."),
    ("a type by a number", TYPE + CRATE.replace('"ADC"', "2249"), "P3", "crate 1, station 5, type: the value is of the kind integer; expected a text in double quotes."),
    ("types without brackets", "type = 3\n", "P3", "type: the value is of the kind integer; expected an array of tables.\nFix: Write crates, stations and types in double brackets: `[[crate]]`, `[[crate.station]]`, `[[type]]`."),
    ("a range that ends before it begins", TYPE.replace("a = 0, to = 11", "a = 5, to = 3"), "P4", "type `ADC`, first command, to: the value is 3; expected 5 to 15."),
    ("a width of a probe", TYPE.replace("to = 11", "to = 11, probe = true, width = 12"), "P4", "type `ADC`, first command, width: the value is 12, and a probe has 24 bits."),
    ("a probe that clears", TYPE.replace("to = 11", "to = 11, probe = true, clears = true"), "P4", "type `ADC`, first command, clears: a probe clears no look-at-me."),
    ("a blank in a name", TYPE.replace("ADC", "A DC"), "P4", "first entry of `type`, name: the value is `A DC`, and a name has 1 to 32 letters, digits, `_` or `-`."),
    ("a type too many", "".join(TYPE.replace("ADC", f"ADC-{i}") for i in range(65)), "P4", "type `ADC-64`: there are at most 64 types."),
    ("a name twice", TYPE + TYPE, "P8", "second entry of `type`, name: the value is `ADC`, which is already used at first entry of `type`."),
    ("a bit in two crates", TYPE + CRATE + "gl = 3\n" + CRATE.replace("number = 1", "number = 2").replace("n = 5", "n = 7") + "gl = 3\n", "P9", "crate 2, station 7, gl: the value is 3, which is already used at crate 1, station 5."),
    ("commands as texts", TYPE.replace("{ f = 0, a = 0, to = 11 }", '"F0 A0"'), "P3", "type `ADC`, commands: the first entry is of the kind string; expected a table, such as `{ f = 0, a = 0 }`."),
    ("two modules at one station", TYPE + CRATE + STATION, "P6", "crate 1, station 5, n: the value is 5, which is already used at crate 1, first entry of `station`."),
    ("a bit of two stations", TYPE + CRATE + "gl = 2\n" + STATION.replace("5", "4") + "gl = 2\n", "P9", "crate 1, station 4, gl: the value is 2, which is already used at crate 1, station 5."),
    ("a command twice", TYPE.replace("to = 11 }", "to = 3 }, { f = 9, a = 0 }, { f = 0, a = 3 }"), "P8", "type `ADC`, third command: F0 at A3 is declared already, at the first command."),
    ("a key twice", "buffer = 1\nbuffer = 2\n", "P1", "Line 2, column 1: duplicate key."),
    ("a comment of another language", TYPE + "// the crates\n", "P1", "Line 4, column 1: "),
    ("many brackets", TYPE + "crate = " + 17 * "[", "P11", "Line 4, column 24: this is 17 deep."),
]
