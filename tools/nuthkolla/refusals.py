"""Why anything is refused, in words, by the numbers that crates/refusals gives. The tools have their words from here alone."""

# A call that is refused, and changes nothing.
CALL = {
    2: "the time step is not finite or not above 0",
    3: "the cap is below 0",
    4: "a number would not be finite",
}
# A call's record that cannot be read, and ends the replay. 15 is of a conversion alone.
CALL_RECORD = {
    5: "the record has fewer bytes than its map demands, or its map is cut short",
    6: "the map has an unnamed bit, lacks the kind bit, or has half a leg",
    7: "the kind byte is above 6, or the regime byte is above 1",
    9: "there is input left after call 4096",
    15: "the record is of the wanted edition already",
}
# A configuration's record that cannot be read. A field that fails has its number in the place of a refusal's (nuthkolla.settings).
CONFIGURATION_RECORD = {
    5: "the record has fewer bytes than its map demands, or its map is cut short",
    6: "the map has an unnamed bit",
}
ROUTE_RECORD = {
    5: "fewer bytes than the maps demand",
    6: "the second map is empty, or its bit 31 stands",
    10: "the map is empty",
    11: "a number is not finite",
}
SHORT, BAD_MAP, BAD_BYTE, TOO_MANY, OTHER_EDITION = 5, 6, 7, 9, 15

# What is likely, and what helps.
SECOND_EDITION = "bit 22 stands, so it is of the second edition: ./desk edition 1 RECORDING OUT writes one of the first"
EMPTY = "there is not one byte"
TEXT = "this looks like the text form, whose name has to end in .txt"
NO_CONFIGURATION = "this looks like call records without a configuration, which ./desk edition alone reads, with --calls"
ENDS_WITHIN = "the input ends within it, as where a recording was cut"
